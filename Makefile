# What can be made here: `make` lists it, from the words behind ## at each target.
.DEFAULT_GOAL := help
.PHONY: help run test staticlib panel bench compare install uninstall fmt clean

# Where install puts things. Only that script gets them, as a make that another script calls would take them for its own.
PREFIX ?= /usr/local
LIBDIR ?= $(PREFIX)/lib
INCLUDEDIR ?= $(PREFIX)/include
MANDIR ?= $(PREFIX)/share/man
places = DESTDIR="$(DESTDIR)" PREFIX="$(PREFIX)" LIBDIR="$(LIBDIR)" INCLUDEDIR="$(INCLUDEDIR)" MANDIR="$(MANDIR)"

archive := target/staticlib/libroom.a
panel := target/panel/panel

# All that the archive's proof is made from. A folder changes too where a file is removed.
unit_crates := unit_c $(shell sed -n 's/^unit_c staticlib: //p' crates.txt)
unit_parts := $(wildcard $(foreach crate,$(unit_crates),$(addprefix crates/$(crate)/,src specs proofs)))
unit_files := $(shell find $(unit_parts) -type d -o -name '*.rt' -o -name '*.antt')

help: ## this list
	@awk -F ':.*## ' '/^[a-z]+:.*## / { printf "make %-10s %s\n", $$1, $$2 }' Makefile

run: ## proves and builds the unit, runs the paper's printed session and says what each line means
	@scripts/run

test: ## every check; its last line is 'N passed, 0 failed'
	@scripts/test

staticlib: $(archive) ## the unit's archive, target/staticlib/libroom.a, of the calls in include/room.h
	@echo "the archive: $(archive)"

panel: $(panel) ## the sample panel, target/panel/panel; docs/MANUAL.md is its manual
	@echo "the panel: $(panel)"

bench: $(archive) ## the speed as ratios, with their limits
	@scripts/cargo run --release --quiet --bin bench

compare: $(archive) ## the unit against the Rust model, call by call
	@scripts/cargo run --release --quiet --bin compare

install: $(archive) ## header, archive, room.pc and manual page below PREFIX, /usr/local if not set; DESTDIR goes before it
	@$(places) scripts/install

uninstall: ## removes what install put there, with the same settings
	@$(places) scripts/install remove

fmt: ## lays out every .rt and .antt file
	@for folder in crates/*/; do (cd "$$folder" && rt fmt) || exit; done

clean: ## removes all that was built and proved
	rm -rf target host/target rust/target crates/*/out

$(archive): $(unit_files) crates.txt include/room.h include/room_text.c scripts/staticlib
	@scripts/staticlib

$(panel): $(archive) include/room.h $(wildcard panel/*.[ch]) scripts/panel
	@scripts/panel
