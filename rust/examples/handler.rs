//! A service that takes a stranger's module: `cargo run --example handler < module.wasm`

use std::fmt;
use std::io::{self, Read};
use wmod::{Error, ErrorKind, Options, Why};

/// A module that the service accepts.
struct Module {
    bytes: Vec<u8>,
    functions: u64,
}

/// Why it accepts none.
enum Rejection {
    TooLarge,
    Refused(Error),
    BrokenOff(io::Error),
    Busy(Error),
}

impl Rejection {
    /// The HTTP status.
    fn status(&self) -> u16 {
        match self {
            Rejection::BrokenOff(_) => 400,
            Rejection::TooLarge => 413,
            Rejection::Refused(_) => 422,
            Rejection::Busy(_) => 503,
        }
    }
}

impl From<Error> for Rejection {
    fn from(error: Error) -> Rejection {
        match error.kind() {
            ErrorKind::Module if error.why() == Why::TooLong => Rejection::TooLarge,
            ErrorKind::Module => Rejection::Refused(error),
            _ => Rejection::Busy(error),
        }
    }
}

impl fmt::Display for Rejection {
    fn fmt(&self, f: &mut fmt::Formatter<'_>) -> fmt::Result {
        match self {
            Rejection::TooLarge => f.write_str("the module is too large"),
            Rejection::Refused(error) => error.fmt(f),
            Rejection::BrokenOff(error) => error.fmt(f),
            Rejection::Busy(error) => error.fmt(f),
        }
    }
}

/// The limits of this service.
fn policy() -> Options {
    Options::new()
        .max_bytes(1_000_000)
        .functions(10_000)
        .locals(1_000)
        .depth(500)
}

/// Judges each piece before keeping it: the first refusal ends the upload, and memory holds no more than the limit.
fn admit(mut body: impl Read, policy: &Options) -> Result<Module, Rejection> {
    let mut validator = policy.validator()?;
    let mut piece = [0; 16 * 1024];
    let mut bytes = Vec::new();
    loop {
        match body.read(&mut piece) {
            Ok(0) => break,
            Ok(n) => {
                validator.feed(&piece[..n])?;
                bytes.extend_from_slice(&piece[..n]);
            }
            Err(error) if error.kind() == io::ErrorKind::Interrupted => {}
            Err(error) => return Err(Rejection::BrokenOff(error)),
        }
    }
    let functions = validator.finish()?.functions;
    Ok(Module { bytes, functions })
}

fn main() {
    match admit(io::stdin().lock(), &policy()) {
        Ok(module) => println!(
            "200 {} bytes, {} functions",
            module.bytes.len(),
            module.functions
        ),
        Err(rejection) => println!("{} {rejection}", rejection.status()),
    }
}
