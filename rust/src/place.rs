use crate::sys;
use std::fmt;

/// The part of the format that a byte of a section belongs to.
#[derive(Clone, Copy, PartialEq, Eq, Hash, Debug)]
#[non_exhaustive]
pub enum Awaits {
    /// A size, a count, an index or an immediate, in LEB128.
    Number,
    /// A name.
    Name,
    /// A value type.
    ValueType,
    /// A block type.
    BlockType,
    /// The byte 60 that begins a function type.
    TypeForm,
    /// The flag of limits.
    LimitsFlag,
    /// The element type of a table.
    ElementType,
    /// The mutability of a global.
    Mutability,
    /// The first byte of an instruction.
    Opcode,
    /// A table index of a `call_indirect`, `table.init` or `table.copy`.
    TableByte,
    /// A byte 00 of a memory instruction.
    MemoryByte,
    /// The kind of an import, an export or the elements of a segment.
    Kind,
    /// Any byte: of a float constant, a data segment, or a custom section after its name.
    Any,
    /// The first byte of the number behind the byte FC of an instruction.
    OpcodeNumber,
}

/// Their numbers in `wmod.h` are 1 and so on, in this order.
pub(crate) const ALL_AWAITS: [Awaits; 14] = [
    Awaits::Number,
    Awaits::Name,
    Awaits::ValueType,
    Awaits::BlockType,
    Awaits::TypeForm,
    Awaits::LimitsFlag,
    Awaits::ElementType,
    Awaits::Mutability,
    Awaits::Opcode,
    Awaits::TableByte,
    Awaits::MemoryByte,
    Awaits::Kind,
    Awaits::Any,
    Awaits::OpcodeNumber,
];

/// The place of a byte in a module, from [`Validator::place`](crate::Validator::place).
#[derive(Clone, Copy, PartialEq, Eq, Hash, Debug)]
#[non_exhaustive]
pub struct Place {
    /// The id of its section: 0 for a custom section, else 1 to 12. `None` in the header of the module and at the id of
    /// a section.
    pub section: Option<u8>,
    /// How many members of the section come before it, such as types or function bodies. `None` in the size and the
    /// count of a section, in a custom section, and outside of sections.
    pub item: Option<u32>,
    /// The index of its member: `item`, and for a function or a global the imported ones before it.
    pub index: Option<u32>,
    /// The part of the format that it belongs to. `None` where `section` is, or if only a later library knows the part.
    pub awaits: Option<Awaits>,
    /// The byte that was refused. `None` if none was: the end of the input, the limit or memory decided, or nothing is
    /// refused so far.
    pub byte: Option<u8>,
}

fn present(field: u32) -> Option<u32> {
    (field != sys::NONE).then_some(field)
}

impl Place {
    pub(crate) fn of(place: &sys::Place) -> Place {
        let awaits = (place.awaits as usize).checked_sub(1);
        Place {
            section: u8::try_from(place.section).ok(),
            item: present(place.item),
            index: present(place.index),
            awaits: awaits.and_then(|it| ALL_AWAITS.get(it).copied()),
            byte: u8::try_from(place.byte).ok(),
        }
    }
}

/// What a refused byte begins in a later version of the standard, from [`Validator::hint`](crate::Validator::hint).
///
/// [`Display`](fmt::Display) writes it as the command does: `BEGINS (FEATURES); REMEDY`.
#[derive(Clone, PartialEq, Eq, Hash, Debug)]
#[non_exhaustive]
pub struct Hint {
    /// What the byte begins, such as `a tail call`.
    pub begins: String,
    /// The features that this needs, with `, ` between them: the words of `wmod --features`, or else those of LLVM.
    pub features: String,
    /// What to do, by options of the command or of a compiler.
    pub remedy: String,
}

impl Hint {
    /// Returns the hint of the refusal with this number. `None` if the byte begins nothing of a later version there.
    pub(crate) fn of(why: u32, place: &sys::Place) -> Option<Hint> {
        let mut text = [0_u8; sys::EXPLAIN_ROOM];
        // SAFETY: pointer and length are those of one array, and the call reads all fields of the place.
        let length = unsafe { sys::wmod_hint(why, place, text.as_mut_ptr().cast(), text.len()) };
        let text = std::str::from_utf8(text.get(..length)?).ok()?;
        let mut lines = text.lines().map(str::to_owned);
        Some(Hint {
            begins: lines.next()?,
            features: lines.next()?,
            remedy: lines.next()?,
        })
    }
}

impl fmt::Display for Hint {
    fn fmt(&self, f: &mut fmt::Formatter<'_>) -> fmt::Result {
        write!(f, "{} ({}); {}", self.begins, self.features, self.remedy)
    }
}
