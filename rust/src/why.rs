use crate::sys;
use std::fmt;

/// The NAME of a refusal that only a later library has.
#[derive(Clone, Copy, PartialEq, Eq, Hash)]
pub struct Name {
    /// NUL-terminated, as the library writes it.
    bytes: [u8; 32],
}

impl Name {
    fn of(number: u32) -> Name {
        let mut bytes = [0; 32];
        // SAFETY: pointer and length are those of one array. The library writes a 0 as its last byte.
        unsafe { sys::wmod_why_name(number, bytes.as_mut_ptr().cast(), bytes.len()) };
        Name { bytes }
    }

    /// The NAME.
    pub fn as_str(&self) -> &str {
        let name = self.bytes.split(|it| *it == 0).next().unwrap_or_default();
        std::str::from_utf8(name).unwrap_or_default()
    }
}

impl fmt::Debug for Name {
    fn fmt(&self, f: &mut fmt::Formatter<'_>) -> fmt::Result {
        self.as_str().fmt(f)
    }
}

/// Makes [`Why`] of rows. A row has the sentence of a refusal, its number in `wmod.h`, its NAME and its variant. The
/// project's CI compares the rows with the header and with the table of `wmod explain`.
macro_rules! refusals {
    ($($(#[doc = $sentence:literal])+ $number:literal $name:literal $why:ident,)+) => {
        /// Why a call failed: each NAME of a refusal, and its sentence.
        ///
        /// A refusal of a text begins with `Text`. In its sentence N is the offset that
        /// [`Error::offset`](crate::Error::offset) returns. [`Display`](fmt::Display) writes the NAME.
        ///
        /// ```
        /// use wmod::Why;
        ///
        /// let error = wmod::validate(b"\0asn").unwrap_err();
        /// assert_eq!(error.why(), Why::Magic);
        /// assert_eq!(error.why().to_string(), "Magic");
        /// assert!(error.why().explain().starts_with("One of the first four bytes is not that of the magic"));
        ///
        /// let error = wmod::build("(module (start $f))").unwrap_err();
        /// assert_eq!(error.why(), Why::TextUnknownId);
        /// assert_eq!(error.why().to_string(), "UnknownId");
        /// ```
        #[derive(Clone, Copy, PartialEq, Eq, Hash, Debug)]
        #[non_exhaustive]
        pub enum Why {
            $($(#[doc = $sentence])+ $why,)+
            /// The linked library is of another version: it does not know what this crate asks for.
            Library,
            /// The linked library is later than this crate, which does not know this refusal.
            Other(Name),
        }

        impl Why {
            /// The refusal with this number.
            pub(crate) fn of(number: u32) -> Why {
                match number {
                    $($number => Why::$why,)+
                    _ => Why::Other(Name::of(number)),
                }
            }

            pub(crate) fn name(&self) -> &str {
                match self {
                    $(Why::$why => $name,)+
                    Why::Library => "Library",
                    Why::Other(name) => name.as_str(),
                }
            }

            /// What this refusal means: the sentence of `wmod explain`.
            pub fn explain(&self) -> &'static str {
                match self {
                    $(Why::$why => concat!($($sentence),+).trim_start(),)+
                    Why::Library => "The linked library is of another version than this crate.",
                    Why::Other(_) => "The linked library is later than this crate, which does not know this refusal.",
                }
            }
        }
    };
}

impl fmt::Display for Why {
    fn fmt(&self, f: &mut fmt::Formatter<'_>) -> fmt::Result {
        f.pad(self.name())
    }
}

refusals! {
    /// One of the first four bytes is not that of the magic, `00 61 73 6D`.
    1 "Magic" Magic,
    /// One of the next four bytes is not that of version 1, `01 00 00 00`.
    2 "Version" Version,
    /// A section's id is above 11, or above 12 with the feature `bulk-memory`.
    3 "SectionId" SectionId,
    /// A section appears twice, or after a section that must follow it. The order is type, import, function, table,
    /// memory, global, export, start, element, data count, code, data. Custom sections may appear anywhere.
    4 "SectionOrder" SectionOrder,
    /// A section's contents do not match its size: they need more bytes, or bytes are left over.
    5 "SectionEnd" SectionEnd,
    /// An integer has more bytes than its type allows, or its value does not fit the type. Or a table index in an
    /// instruction is not 0, or the flag of a segment is above 2.
    6 "BadNumber" BadNumber,
    /// A name is not UTF-8. Its last byte decides.
    7 "BadUtf8" BadUtf8,
    /// This byte is not allowed here. One of these must come: `60` for a function type, a value type, a block type, the
    /// element type `70`, the element kind `00`, a kind, a flag, or a `00` of some instructions.
    8 "BadByte" BadByte,
    /// The module uses a floating-point type or instruction, but the profile has none.
    9 "Float" Float,
    /// No instruction of the profile begins with this byte. Or it follows `FC`, and no instruction of the profile has
    /// it there.
    10 "BadOpcode" BadOpcode,
    /// The input ends inside the header or a section.
    11 "Truncated" Truncated,
    /// The number of function bodies differs from the number of declared functions. Or functions are declared, but the
    /// data section or the end of the input comes without a code section before it.
    12 "CodeCount" CodeCount,
    /// A function body does not match its size: it needs more bytes, or bytes are left over.
    13 "BodyEnd" BodyEnd,
    /// A function declares 2^32 locals or more.
    14 "TooManyLocals" TooManyLocals,
    /// An index is out of range: there is no such type, function, table, memory, global, local, label or segment. The
    /// initial value of a global may name imported globals only.
    15 "Index" Index,
    /// An operand, a label or a constant has the wrong type, or an `if` with a result has no `else`. Operands are
    /// checked from the top of the stack: a wrong one above a missing one is `Type`, not `Arity`.
    16 "Type" Type,
    /// The number of values is wrong: an operand is missing, operands are left at an `else` or `end`, or a constant
    /// expression is not one instruction. Or a function type has two or more results; their count decides.
    17 "Arity" Arity,
    /// The limits of a table or memory are out of range: the minimum is above the maximum, or a memory has more than
    /// 65,536 pages.
    18 "Limits" Limits,
    /// The module has a second table or a second memory. Imported ones count.
    19 "Second" Second,
    /// Two exports have the same name. The last byte of the second name decides, or the last byte of its length if the
    /// name is empty.
    20 "DuplicateExport" DuplicateExport,
    /// The start function has a parameter or a result.
    21 "StartType" StartType,
    /// A constant expression has an instruction that is not constant, or a `global.get` of a mutable global.
    22 "NotConst" NotConst,
    /// A `global.set` sets an immutable global.
    23 "Immutable" Immutable,
    /// The alignment of a load or store is greater than the width of its access.
    24 "Align" Align,
    /// An `else` is not in the first branch of an `if`.
    25 "ElsePlace" ElsePlace,
    /// The input is longer than the limit. The first byte past the limit decides.
    26 "TooLong" TooLong,
    /// Memory was refused: nothing is known about the input.
    27 "Memory" Memory,
    /// The module has more functions than the policy allows. Imported functions count. The first function over the
    /// limit decides.
    28 "ManyFunctions" ManyFunctions,
    /// A function declares more locals than the policy allows. Parameters do not count. The run of locals that passes
    /// the limit decides.
    29 "ManyLocals" ManyLocals,
    /// More blocks, loops and ifs are open at once than the policy allows. The first one over the limit decides.
    30 "Deep" Deep,
    /// The number of data segments differs from that in the data count section. Or the section gives a number above 0,
    /// and the input ends without a data section.
    31 "DataCount" DataCount,
    /// The contents of a section of the built module have 2^32 bytes or more.
    100 "TooLarge" TooLarge,
    /// The text is not UTF-8. N is the length of its longest prefix that is UTF-8.
    101 "NotUtf8" TextNotUtf8,
    /// A character, or a run of identifier characters, is no token. Without floats in the profile, a literal such as
    /// `1.5` is no token either. For a control character in a string, N is the offset of the opening quote.
    102 "BadToken" TextBadToken,
    /// The text ends inside a block comment.
    103 "OpenComment" TextOpenComment,
    /// The text ends inside a string, or inside an escape of one.
    104 "OpenString" TextOpenString,
    /// A string has a malformed escape, or one that is no Unicode scalar value. N is the offset of the string's opening
    /// quote.
    105 "BadEscape" TextBadEscape,
    /// Another token must come here, such as an instruction and not a number, string or identifier. A form may be wrong
    /// after a type use, parameters, results, locals or a constant, or in place of a constant or an offset. N is then
    /// the offset of the token after its parenthesis.
    106 "Expected" TextExpected,
    /// A keyword names no field, or no instruction of the profile. An `else` or `end` without a block is also refused
    /// by this name.
    107 "UnknownWord" TextUnknownWord,
    /// A number is not an integer of the wanted range: it is a float, out of range, or has a sign that is not allowed.
    /// Also an `offset=` or `align=` without such an integer.
    108 "BadInteger" TextBadInteger,
    /// The name of an import or export is not UTF-8. N is the offset of its string.
    109 "BadName" TextBadName,
    /// An identifier names nothing in its index space, or no open block. N is its offset.
    110 "UnknownId" TextUnknownId,
    /// An identifier is defined twice in one index space, or among the parameters and locals of one function. N is the
    /// offset of the second one.
    111 "RepeatedId" TextRepeatedId,
    /// A type use names no type, whatever follows it, or its parameters or results differ from those of its type. N is
    /// the offset of the index. Or a parameter of a `call_indirect` has an identifier. N is then its offset.
    112 "TypeUse" TextTypeUse,
    /// An import comes after a function, table, memory or global. N is the offset of the keyword `import`.
    113 "ImportPlace" TextImportPlace,
    /// The module has a second start function. N is the offset of the second keyword `start`.
    114 "SecondStart" TextSecondStart,
    /// A constant expression has an instruction that is not constant, or a second instruction. N is the offset of its
    /// keyword.
    115 "NotConst" TextNotConst,
    /// An alignment is not a power of two. N is the offset of `align=`.
    116 "BadAlign" TextBadAlign,
    /// The identifier after an `else` or `end` is not that of its block. N is the offset of this identifier.
    117 "LabelEnd" TextLabelEnd,
    /// A function declares 2^32 locals or more. N is the offset of the value type that reaches 2^32.
    118 "TooManyLocals" TextTooManyLocals,
    /// The text uses a floating-point type or instruction, but the profile has none.
    119 "Float" TextFloat,
    /// A number or a NaN is no float of the wanted width: it is malformed, rounds to an infinity, or has a payload that
    /// is 0 or out of range.
    121 "BadFloat" TextBadFloat,
}

#[cfg(test)]
mod tests {
    use super::*;

    /// More than the greatest number of the header.
    const NUMBERS: std::ops::Range<u32> = 1..1000;

    #[test]
    fn the_library_has_the_same_names() {
        for number in NUMBERS {
            let why = Why::of(number);
            assert_eq!(why.to_string(), Name::of(number).as_str(), "{number}");
        }
    }

    /// The meaning of a refusal by the library: the first of the two lines of its text.
    fn meaning(number: u32) -> String {
        let mut text = [0_u8; sys::EXPLAIN_ROOM];
        // SAFETY: pointer and length are those of one array.
        let length = unsafe { sys::wmod_explain(number, text.as_mut_ptr().cast(), text.len()) };
        let text = std::str::from_utf8(&text[..length]).unwrap();
        text.lines().next().unwrap_or_default().to_owned()
    }

    #[test]
    fn the_library_has_the_same_sentences() {
        for number in NUMBERS {
            let wanted = match Why::of(number) {
                // the second number of `Memory`, for which no call returns this variant
                Why::Other(name) if name.as_str() == "Memory" => Why::Memory.explain(),
                Why::Other(_) => "",
                why => why.explain(),
            };
            assert_eq!(wanted, meaning(number), "{number}");
        }
    }

    #[test]
    fn sentences_of_one_line_and_of_two() {
        assert_eq!(
            Why::TextBadAlign.explain(),
            "An alignment is not a power of two. N is the offset of `align=`."
        );
        assert_eq!(
            Why::CodeCount.explain(),
            "The number of function bodies differs from the number of declared functions. Or functions are declared, \
             but the data section or the end of the input comes without a code section before it."
        );
    }
}
