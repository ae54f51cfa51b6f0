//! The codes of commands and of a tape's records, named as in `include/room.h`, which says what bytes follow each.

macro_rules! codes {
    ($($name:ident = $code:literal, $of:literal;)*) => {
        $(#[doc = $of] pub const $name: u8 = $code;)*
    };
}

codes! {
    FORK = 0x01, "A fork.";
    LEVEL = 0x02, "A level entered.";
    HEADING = 0x03, "A heading entered.";
    MARK_PUT = 0x04, "A mark put.";
    MARK_TAKEN = 0x05, "A mark taken away.";
    CALL = 0x06, "A call counted.";
    ALERT_ON = 0x07, "An alert on.";
    ALERT_OFF = 0x08, "An alert off.";
    MERGE = 0x09, "A merge.";
    FAST_FORWARD = 0x0A, "A fast-forward.";
    LEAVE = 0x0B, "A console that leaves.";
    HUB = 0x0C, "Console 0 becomes the hub.";
    TAPE_START = 0x20, "The start of a tape.";
    TAPE_ENTRY = 0x21, "A version of a tape that is an entry.";
    TAPE_MERGE = 0x22, "A version of a tape that is a merge.";
    TAPE_HEAD = 0x23, "A head on a tape.";
    TAPE_END = 0x24, "The end of a tape.";
    TAPE_HUB = 0x25, "The hub of a tape's room.";
}
