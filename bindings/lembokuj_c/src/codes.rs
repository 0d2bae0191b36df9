//! What calls answer, as numbers.

use std::ffi::{CStr, c_char, c_int};

macro_rules! codes {
    ($($name:ident = $number:literal => $text:literal,)*) => {
        $(#[doc = $text] pub const $name: c_int = $number;)*

        /// The text of a code.
        fn text_of(code: c_int) -> &'static CStr {
            match code {
                $($number => const { terminated(concat!($text, "\0")) },)*
                _ => c"no code of this library",
            }
        }

        #[cfg(test)]
        const ALL: &[(&str, c_int)] = &[$((stringify!($name), $number),)*];
    };
}

/// A literal that ends in a zero as C has it.
const fn terminated(text: &'static str) -> &'static CStr {
    match CStr::from_bytes_with_nul(text.as_bytes()) {
        Ok(text) => text,
        Err(_) => panic!("a text of a code has no zero in it"),
    }
}

codes! {
    LK_OK = 0 => "done",
    LK_WOULD_BLOCK = 1 => "full, or nothing there yet: call again",
    LK_DETACHED = 2 => "the other end is gone",
    LK_ABSENT = 3 => "the key was not there",
    LK_BEGUN = 4 => "a part of the message is on the ring: send the same message again",
    LK_OTHER_VALUE = 5 => "the key has another value than the one expected",
    LK_PEER_DIED = 6 => "the other end's process has ended",
    LK_NULL = -1 => "a pointer is null",
    LK_KIND = -2 => "a handle of another kind",
    LK_FREED = -3 => "a chunk that was freed",
    LK_NO_MEMORY = -4 => "out of memory",
    LK_BAD_SIZE = -5 => "a size out of range",
    LK_BAD_CALLERS = -6 => "the number of callers is out of range",
    LK_TOO_LONG = -7 => "the message is longer than the queue's greatest, or than the ring, where a send by parts takes it",
    LK_OTHER_MESSAGE = -8 => "a part of another message is on the ring",
    LK_NO_SPACE = -9 => "the pages are used up",
    LK_NO_WORD = -10 => "no such word",
    LK_OTHER_AREA = -11 => "a chunk of another area or table",
    LK_ALREADY_IN = -12 => "the caller takes part already",
    LK_NOT_IN = -13 => "the caller does not take part",
    LK_TWICE = -14 => "the caller has arrived in this phase already",
    LK_FULL = -15 => "the table of contents or the region is full",
    LK_KEY_THERE = -16 => "the key is there already",
    LK_NO_HANDLE = -17 => "as many handles are out as it was made for",
    LK_SYSTEM = -21 => "the system refused",
    LK_NOT_REGION = -22 => "the file is no region",
    LK_OTHER_VERSION = -23 => "the region is of another version",
    LK_OTHER_BUILD = -24 => "the region is of another build of the library",
    LK_OTHER_SIZE = -25 => "the file is not as long as its head says",
    LK_DAMAGED = -26 => "the region is damaged",
    LK_NOT_OPEN = -27 => "the region is not open yet",
    LK_OTHER_SYSTEM = -28 => "the region is of another system",
    LK_NO_KEY = -29 => "no object of this kind has the key",
    LK_TAKEN = -30 => "all handles are taken",
    LK_OWNER_DIED = -31 => "a process ended while it had the lock",
    LK_STRANGER = -32 => "no chunk of this area, or no ticket of one",
}

/// The version of the library, as `LK_VERSION` of the header it was built with. It lives forever.
#[unsafe(no_mangle)]
pub extern "C" fn lk_version() -> *const c_char {
    const { terminated(concat!(env!("CARGO_PKG_VERSION"), "\0")) }.as_ptr()
}

/// The text of a code, which lives forever.
#[unsafe(no_mangle)]
pub extern "C" fn lk_message(code: c_int) -> *const c_char {
    text_of(code).as_ptr()
}

#[cfg(test)]
mod tests {
    /// The header has each code with its number, and no other.
    #[test]
    fn the_header_has_these_codes() {
        let header = include_str!("../include/lembokuj.h");
        let stated: Vec<(&str, i32)> = header
            .lines()
            .filter_map(|line| line.trim().strip_prefix("LK_"))
            .filter_map(|line| line.split_once(" = "))
            .map(|(name, rest)| (name, rest.split(',').next().unwrap().trim().parse().unwrap()))
            .collect();
        let ours: Vec<(&str, i32)> = super::ALL.iter().map(|(name, number)| (&name[3..], *number)).collect();
        assert_eq!(stated, ours);
        let version = format!("#define LK_VERSION \"{}\"", env!("CARGO_PKG_VERSION"));
        assert!(header.lines().any(|line| line == version), "{version}");
    }
}
