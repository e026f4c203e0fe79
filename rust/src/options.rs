use crate::convert::converted;
use crate::validator::judged;
use crate::{sys, Error, Summary, Validator};

/// The features that a module may use. The default is [`Profile::ONE`].
#[derive(Clone, Copy, PartialEq, Eq, Debug, Default)]
pub struct Profile {
    floats: bool,
    sign_extension: bool,
}

impl Profile {
    /// WebAssembly 1.0 without floats.
    pub const ONE: Profile = Profile {
        floats: false,
        sign_extension: false,
    };

    /// `ONE`, and the five sign-extension instructions.
    pub const TWO: Profile = Profile {
        floats: false,
        sign_extension: true,
    };

    /// All of WebAssembly 1.0, floats too.
    pub const THREE: Profile = Profile {
        floats: true,
        sign_extension: false,
    };

    /// `THREE`, and the five sign-extension instructions.
    pub const FOUR: Profile = Profile {
        floats: true,
        sign_extension: true,
    };

    // Its number in the interface for C.
    fn number(self) -> u64 {
        match (self.floats, self.sign_extension) {
            (false, false) => 1,
            (false, true) => 2,
            (true, false) => 3,
            (true, true) => 4,
        }
    }
}

/// A feature, or a set of them, that [`Options::features`] adds to a profile. Each has a word that `wmod --features` takes:
/// LLVM's, or `compilers`.
#[derive(Clone, Copy, PartialEq, Eq, Debug)]
#[non_exhaustive]
pub enum Feature {
    /// `sign-ext`: the five sign-extension instructions, such as `i32.extend8_s`.
    SignExt,
    /// `call-indirect-overlong`: a table index of several bytes in `call_indirect`, as clang writes it.
    CallIndirectOverlong,
    /// `nontrapping-fptoint`: the eight truncations that saturate, such as `i32.trunc_sat_f64_s`.
    NontrappingFptoint,
    /// `bulk-memory-opt`: `memory.copy` and `memory.fill`.
    BulkMemoryOpt,
    /// `bulk-memory`: `bulk-memory-opt`, passive segments, and their instructions, such as `memory.init`.
    BulkMemory,
    /// `compilers`: all of the above, and floats: what clang and rustc emit by default.
    Compilers,
}

impl Feature {
    // Its bits in the number of a profile.
    fn bits(self) -> u64 {
        match self {
            Feature::SignExt => sys::SIGN_EXT,
            Feature::CallIndirectOverlong => sys::CALL_INDIRECT_OVERLONG,
            Feature::NontrappingFptoint => sys::NONTRAPPING_FPTOINT,
            Feature::BulkMemoryOpt => sys::BULK_MEMORY_OPT,
            Feature::BulkMemory => sys::BULK_MEMORY,
            Feature::Compilers => sys::COMPILERS,
        }
    }
}

/// The bits of a profile's number that say which of the four it is. The bits above are features.
const PROFILE_BITS: u64 = 0xFF;

/// A profile, features and limits. Each call of this crate is a method here too.
///
/// ```
/// use wmod::{Options, Profile};
///
/// let options = Options::new().profile(Profile::TWO).max_bytes(1_000_000).functions(10_000);
/// assert!(options.validate(b"\0asm\x01\0\0\0").is_ok());
///
/// let error = options.max_bytes(4).validate(b"\0asm\x01\0\0\0").unwrap_err();
/// assert_eq!(error.to_string(), "refused at 5: TooLong");
/// ```
#[derive(Clone, Copy, PartialEq, Eq, Debug)]
pub struct Options(pub(crate) sys::Options);

impl Default for Options {
    fn default() -> Options {
        Options::new()
    }
}

impl Options {
    /// Returns the defaults: the first profile, at most 2^32 - 1 bytes, and no other limit.
    pub fn new() -> Options {
        Options(sys::Options {
            size: std::mem::size_of::<sys::Options>() as u64,
            profile: 1,
            max_bytes: sys::LIMIT_DEFAULT,
            functions: sys::NO_LIMIT,
            locals: sys::NO_LIMIT,
            depth: sys::NO_LIMIT,
            old_words: 0,
        })
    }

    /// Sets the instructions and types that a module may use. Features that were added stay.
    #[must_use]
    pub fn profile(mut self, profile: Profile) -> Options {
        self.0.profile = self.0.profile & !PROFILE_BITS | profile.number();
        self
    }

    /// Adds features to those of the profile. A module that was accepted without them is accepted with them.
    ///
    /// ```
    /// use wmod::{Feature, Options, Profile};
    ///
    /// let options = Options::new().profile(Profile::THREE).features(&[Feature::SignExt]);
    /// assert!(options.build("(module (type (func)) (func (type 0) i32.const 9 i32.extend8_s drop))").is_ok());
    ///
    /// // what clang and rustc emit by default
    /// let options = Options::new().features(&[Feature::Compilers]);
    /// assert!(options.build("(module (global f32 (f32.const 1)) (data \"passive\"))").is_ok());
    /// ```
    #[must_use]
    pub fn features(mut self, features: &[Feature]) -> Options {
        for feature in features {
            self.0.profile |= feature.bits();
        }
        self
    }

    /// Sets the most bytes that the input may have, the text of [`build`](Options::build) too. More than 2^62 is taken
    /// as 2^62. A longer input is refused as `TooLong`.
    #[must_use]
    pub fn max_bytes(mut self, most: u64) -> Options {
        self.0.max_bytes = most.min(sys::LIMIT_MOST);
        self
    }

    /// Sets the most functions that a module may have; imported ones count. A module with more is refused as
    /// `ManyFunctions`.
    #[must_use]
    pub fn functions(mut self, most: u32) -> Options {
        self.0.functions = u64::from(most);
        self
    }

    /// Sets the most locals that a function may declare; parameters do not count. A module with more is refused as
    /// `ManyLocals`.
    #[must_use]
    pub fn locals(mut self, most: u32) -> Options {
        self.0.locals = u64::from(most);
        self
    }

    /// Sets the most blocks, loops and ifs that may be open at once in a function. A module with more is refused as
    /// `Deep`.
    #[must_use]
    pub fn depth(mut self, most: u32) -> Options {
        self.0.depth = u64::from(most);
        self
    }

    /// Sets whether [`build`](Options::build) reads the words of older tools too, such as `get_local`.
    #[must_use]
    pub fn old_words(mut self, are_read: bool) -> Options {
        self.0.old_words = u64::from(are_read);
        self
    }

    /// Validates as [`validate`](crate::validate) does, with these options.
    pub fn validate(&self, bytes: &[u8]) -> Result<Summary, Error> {
        judged(|answer| {
            // SAFETY: pointer and length are those of one slice; options and answer do not overlap it.
            unsafe { sys::wmod_validate_with(bytes.as_ptr(), bytes.len(), &self.0, answer) };
        })
    }

    /// Returns a [`Validator`] with these options that has read nothing.
    pub fn validator(&self) -> Result<Validator, Error> {
        Validator::begun(&self.0)
    }

    /// Converts as [`canon`](crate::canon) does, with these options.
    pub fn canon(&self, bytes: &[u8]) -> Result<Vec<u8>, Error> {
        // the canonical binary is never longer than the input
        converted(sys::wmod_canon, &self.0, bytes, bytes.len())
    }

    /// Converts as [`show`](crate::show) does, with these options.
    pub fn show(&self, bytes: &[u8]) -> Result<String, Error> {
        // few modules have a longer text; they cost a second call
        let text = converted(
            sys::wmod_show,
            &self.0,
            bytes,
            bytes.len().saturating_mul(8),
        )?;
        String::from_utf8(text).map_err(|_| Error::library())
    }

    /// Converts as [`build`](crate::build) does, with these options.
    ///
    /// ```
    /// let text = "(module (type (func (param i32))) (func (type 0) get_local 0 drop))";
    /// assert!(wmod::Options::new().old_words(true).build(text).is_ok());
    /// assert_eq!(wmod::build(text).unwrap_err().name(), "UnknownWord");
    /// ```
    pub fn build(&self, text: impl AsRef<[u8]>) -> Result<Vec<u8>, Error> {
        let text = text.as_ref();
        converted(sys::wmod_build, &self.0, text, text.len())
    }
}
