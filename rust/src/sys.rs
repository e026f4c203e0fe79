//! The declarations of `wmod.h`. A test below compares their layout with `layout.txt`. The project's CI compares that
//! file with the header.

use std::os::raw::{c_char, c_void};

pub(crate) const VALID: u32 = 0;
pub(crate) const REFUSED: u32 = 1;
pub(crate) const MEMORY: u32 = 4;
pub(crate) const NO_ROOM: u32 = 5;
pub(crate) const LIMIT_DEFAULT: u64 = 0xFFFF_FFFF;
pub(crate) const LIMIT_MOST: u64 = 1 << 62;
pub(crate) const NO_LIMIT: u64 = u64::MAX;
pub(crate) const NONE: u32 = u32::MAX;
pub(crate) const SIGN_EXT: u64 = 0x100;
pub(crate) const CALL_INDIRECT_OVERLONG: u64 = 0x200;
pub(crate) const NONTRAPPING_FPTOINT: u64 = 0x400;
pub(crate) const BULK_MEMORY_OPT: u64 = 0x800;
pub(crate) const BULK_MEMORY: u64 = 0x1800;
pub(crate) const COMPILERS: u64 = 0x3F00;
pub(crate) const EXPLAIN_ROOM: usize = 1024;

#[repr(C)]
#[derive(Default)]
pub(crate) struct Answer {
    pub(crate) status: u32,
    pub(crate) why: u32,
    pub(crate) at: u64,
    pub(crate) functions: u64,
    pub(crate) moves: u64,
    pub(crate) operands: u64,
    pub(crate) controls: u64,
    pub(crate) probes: u64,
}

#[repr(C)]
#[derive(Clone, Copy, PartialEq, Eq, Debug)]
pub(crate) struct Options {
    pub(crate) size: u64,
    pub(crate) profile: u64,
    pub(crate) max_bytes: u64,
    pub(crate) functions: u64,
    pub(crate) locals: u64,
    pub(crate) depth: u64,
    pub(crate) old_words: u64,
}

#[repr(C)]
#[derive(Default)]
pub(crate) struct Output {
    pub(crate) status: u32,
    pub(crate) why: u32,
    pub(crate) at: u64,
    pub(crate) length: u64,
}

#[repr(C)]
#[derive(Default)]
pub(crate) struct Place {
    pub(crate) section: u32,
    pub(crate) item: u32,
    pub(crate) index: u32,
    pub(crate) awaits: u32,
    pub(crate) byte: u32,
}

#[repr(C)]
pub(crate) struct Validator {
    pub(crate) state: *mut c_void,
}

/// One of the three conversions: input and its length, options, buffer and its length, output.
pub(crate) type Convert =
    unsafe extern "C" fn(*const u8, usize, *const Options, *mut u8, usize, *mut Output) -> u32;

extern "C" {
    pub(crate) fn wmod_validate_with(
        bytes: *const u8,
        length: usize,
        options: *const Options,
        answer: *mut Answer,
    ) -> u32;
    pub(crate) fn wmod_why_name(why: u32, name: *mut c_char, capacity: usize) -> usize;
    #[cfg(test)]
    pub(crate) fn wmod_explain(why: u32, text: *mut c_char, capacity: usize) -> usize;
    pub(crate) fn wmod_version() -> u32;
    pub(crate) fn wmod_begin_with(v: *mut Validator, options: *const Options) -> u32;
    pub(crate) fn wmod_feed(v: *mut Validator, piece: *const u8, length: usize) -> u32;
    pub(crate) fn wmod_finish(v: *mut Validator, answer: *mut Answer) -> u32;
    pub(crate) fn wmod_place(v: *mut Validator, place: *mut Place) -> u32;
    pub(crate) fn wmod_hint(
        why: u32,
        place: *const Place,
        text: *mut c_char,
        capacity: usize,
    ) -> usize;
    pub(crate) fn wmod_end(v: *mut Validator);
    pub(crate) fn wmod_canon(
        bytes: *const u8,
        length: usize,
        options: *const Options,
        out: *mut u8,
        room: usize,
        output: *mut Output,
    ) -> u32;
    pub(crate) fn wmod_show(
        bytes: *const u8,
        length: usize,
        options: *const Options,
        out: *mut u8,
        room: usize,
        output: *mut Output,
    ) -> u32;
    pub(crate) fn wmod_build(
        text: *const u8,
        length: usize,
        options: *const Options,
        out: *mut u8,
        room: usize,
        output: *mut Output,
    ) -> u32;
}

#[cfg(test)]
mod tests {
    use super::*;
    use crate::place::ALL_AWAITS;
    use std::mem::size_of_val;
    use std::ptr;

    fn address<T>(of: &T) -> usize {
        of as *const T as usize
    }

    /// The size of a value and the offsets of its fields, as lines of `layout.txt`.
    macro_rules! laid {
        ($name:literal, $value:expr, $($field:ident)*) => {{
            let value = $value;
            [
                format!("sizeof({}) {}\n", $name, size_of_val(&value)),
                $(format!(
                    "offsetof({}, {}) {}\n",
                    $name,
                    stringify!($field),
                    address(&value.$field) - address(&value)
                ),)*
            ]
            .concat()
        }};
    }

    /// The numbers of the parts of the format, by their names in capitals.
    fn awaited() -> String {
        let mut lines = String::new();
        for (i, awaits) in ALL_AWAITS.iter().enumerate() {
            lines += "WMOD_AWAITS";
            for letter in format!("{awaits:?}").chars() {
                if letter.is_uppercase() {
                    lines.push('_');
                }
                lines.push(letter.to_ascii_uppercase());
            }
            lines += &format!(" {}\n", i + 1);
        }
        lines
    }

    #[test]
    fn layout() {
        let options = crate::Options::new().0;
        let validator = Validator {
            state: ptr::null_mut(),
        };
        let found = [
            laid!("wmod_answer", Answer::default(), status why at functions moves operands controls probes),
            laid!("wmod_options", options, size profile max_bytes functions locals depth old_words),
            laid!("wmod_output", Output::default(), status why at length),
            laid!("wmod_validator", validator, state),
            laid!("struct wmod_place", Place::default(), section item index awaits byte),
            format!(
                "WMOD_VALID {VALID}\nWMOD_REFUSED {REFUSED}\nWMOD_MISUSE 2\nWMOD_MEMORY {MEMORY}\n"
            ),
            format!("WMOD_NO_ROOM {NO_ROOM}\nWMOD_PROFILE_1 1\nWMOD_PROFILE_2 2\n"),
            format!("WMOD_PROFILE_3 3\nWMOD_PROFILE_4 4\nWMOD_SIGN_EXT {SIGN_EXT}\n"),
            format!("WMOD_CALL_INDIRECT_OVERLONG {CALL_INDIRECT_OVERLONG}\n"),
            format!("WMOD_NONTRAPPING_FPTOINT {NONTRAPPING_FPTOINT}\n"),
            format!("WMOD_BULK_MEMORY_OPT {BULK_MEMORY_OPT}\n"),
            format!("WMOD_BULK_MEMORY {BULK_MEMORY}\n"),
            format!("WMOD_COMPILERS {COMPILERS}\n"),
            format!("WMOD_LIMIT_DEFAULT {LIMIT_DEFAULT}\nWMOD_LIMIT_MOST {LIMIT_MOST}\n"),
            format!("WMOD_NO_LIMIT {NO_LIMIT}\nWMOD_NONE {NONE}\n"),
            format!("WMOD_EXPLAIN_ROOM {EXPLAIN_ROOM}\n"),
            awaited(),
        ]
        .concat();
        assert_eq!(found, include_str!("../layout.txt"));
    }
}
