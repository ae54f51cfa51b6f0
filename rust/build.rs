// Finds the unit's archive, libroom.a, and tells cargo to link it; where it is missing, says what to do.

use std::env;
use std::path::{Path, PathBuf};

const ARCHIVE: &str = "libroom.a";
/// Names the folder of the archive, and then no other is looked into.
const FOLDER_VARIABLE: &str = "ROOM_LIB_DIR";
const INSTALLED: [&str; 2] = ["/usr/local/lib", "/usr/lib"];

fn main() {
    println!("cargo::rerun-if-env-changed={FOLDER_VARIABLE}");
    println!("cargo::rerun-if-changed=build.rs");
    let folders = folders();
    match folders.iter().find(|folder| folder.join(ARCHIVE).exists()) {
        Some(folder) => link(folder),
        None => complain(&folders),
    }
}

/// Where the archive may be: what the variable says, else where `make staticlib` or `make install` puts it.
fn folders() -> Vec<PathBuf> {
    if let Some(named) = env::var_os(FOLDER_VARIABLE) {
        return vec![PathBuf::from(named)];
    }
    let package = env::var_os("CARGO_MANIFEST_DIR").expect("cargo names the package's folder");
    let built = Path::new(&package).join("../target/staticlib");
    let installed = INSTALLED.map(PathBuf::from);
    [built].into_iter().chain(installed).collect()
}

fn link(folder: &Path) {
    println!("cargo::rustc-link-search=native={}", folder.display());
    println!("cargo::rustc-link-lib=static=room");
    println!("cargo::rerun-if-changed={}", folder.join(ARCHIVE).display());
}

fn complain(folders: &[PathBuf]) {
    let looked: Vec<String> = folders
        .iter()
        .map(|folder| folder.display().to_string())
        .collect();
    println!(
        "cargo::error=there is no {ARCHIVE} in {}: make it by `make staticlib` in the room unit's repository, \
         or by `make install PREFIX=..` there and {FOLDER_VARIABLE}=PREFIX/lib here",
        looked.join(", ")
    );
}
