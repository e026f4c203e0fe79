//! Checks whether bytes are a valid WebAssembly 1.0 module, and converts modules to their canonical binary and to text.
//!
//! This crate calls the library of [wmod], which is proved. Unless memory runs out, it returns [`Ok`] for exactly the
//! valid modules of the profile within the limits that you set. The default profile refuses floats; [`Profile`] has the
//! others, and a [`Feature`] adds to one. [`Feature::Compilers`] adds what clang and rustc emit by default. Modules are
//! never run.
//!
//! ```
//! let module = b"\0asm\x01\0\0\0";
//! assert_eq!(wmod::validate(module).unwrap().functions, 0);
//!
//! let error = wmod::validate(b"\0asn").unwrap_err();
//! assert_eq!(error.to_string(), "refused at 4: Magic");
//! assert_eq!((error.why(), error.offset()), (wmod::Why::Magic, Some(4)));
//! ```
//!
//! # Which call
//!
//! | You have | Call | Returns |
//! |---|---|---|
//! | a module in memory | [`validate`] | a [`Summary`], or an [`Error`] |
//! | a module in pieces (input chunks), or from a reader | [`Validator`] | a [`Summary`], or an [`Error`] |
//! | a module, and want its canonical binary | [`canon`] | its bytes |
//! | a module, and want its text | [`show`] | a text that [`build`] reads |
//! | a text | [`build`] | the canonical binary of its module |
//! | a profile, features, or limits of your own | [`Options`] | the same, from its methods |
//!
//! # Linking
//!
//! While cargo builds, `WMOD_LIB_DIR` names the folder of `libwmod.a`. Without it the crate asks `pkg-config`, and then
//! the linker searches its own folders. The build fails if the library is in none of them.
//!
//! # Threads
//!
//! Any thread may call any function, at the same time as others. A [`Validator`] is used by one thread at a time, and
//! may move between threads: it is [`Send`], but not [`Sync`]. All other types are both.
//!
//! [wmod]: https://crates.io/crates/wmod
#![deny(missing_docs)]

mod convert;
mod error;
mod options;
mod place;
mod sys;
mod validator;
mod why;

pub use error::{Error, ErrorKind};
pub use options::{Feature, Options, Profile};
pub use place::{Awaits, Hint, Place};
pub use validator::{Summary, Validator};
pub use why::{Name, Why};

/// Validates a module in memory, with the default [`Options`].
///
/// ```
/// assert!(wmod::validate(b"\0asm\x01\0\0\0").is_ok());
/// ```
pub fn validate(bytes: &[u8]) -> Result<Summary, Error> {
    Options::new().validate(bytes)
}

/// Returns the canonical binary of a module: shortest numbers, no custom sections. It is never longer than the input.
/// Two modules have the same value if and only if these bytes are the same.
///
/// ```
/// let with_a_custom_section = b"\0asm\x01\0\0\0\0\x02\x01x";
/// assert_eq!(wmod::canon(with_a_custom_section).unwrap(), b"\0asm\x01\0\0\0");
/// ```
pub fn canon(bytes: &[u8]) -> Result<Vec<u8>, Error> {
    Options::new().canon(bytes)
}

/// Returns the text of a module, which [`build`] reads back.
///
/// Thirty bytes may declare 2^32 - 1 locals, whose text has 17 GB. Bound a stranger's module by [`Options::locals`] and
/// [`Options::functions`].
///
/// ```
/// assert_eq!(wmod::show(b"\0asm\x01\0\0\0").unwrap(), "(module)\n");
/// ```
pub fn show(bytes: &[u8]) -> Result<String, Error> {
    Options::new().show(bytes)
}

/// Returns the canonical binary of the module that a text writes.
///
/// ```
/// assert_eq!(wmod::build("(module)").unwrap(), b"\0asm\x01\0\0\0");
///
/// let error = wmod::build("(module (start $f))").unwrap_err();
/// assert_eq!(error.to_string(), "text refused at 15: UnknownId");
/// ```
pub fn build(text: impl AsRef<[u8]>) -> Result<Vec<u8>, Error> {
    Options::new().build(text)
}

/// Returns the major and minor version of the linked library.
///
/// ```
/// assert_eq!(wmod::library_version().0, 1);
/// ```
pub fn library_version() -> (u32, u32) {
    // SAFETY: it has no arguments.
    let version = unsafe { sys::wmod_version() };
    (version >> 16, version & 0xFFFF)
}
