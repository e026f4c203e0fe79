use crate::{sys, Error, Hint, Options, Place};
use std::fmt;
use std::io;
use std::ptr;

/// Figures of a valid module.
#[derive(Clone, Copy, PartialEq, Eq, Debug)]
#[non_exhaustive]
pub struct Summary {
    /// The number of functions with a body.
    pub functions: u64,
    /// The most moves (pushes and pops of the two stacks) in one body.
    pub moves: u64,
    /// The greatest height of the operand stack in one body.
    pub operands: u64,
    /// The greatest height of the control stack in one body.
    pub controls: u64,
    /// The most probes of one search for a local.
    pub probes: u64,
}

/// Makes a result of the answer that a call fills in.
pub(crate) fn judged(call: impl FnOnce(&mut sys::Answer)) -> Result<Summary, Error> {
    let mut answer = sys::Answer::default();
    call(&mut answer);
    if answer.status != sys::VALID {
        return Err(Error::of(answer.status, answer.why, answer.at));
    }
    Ok(Summary {
        functions: answer.functions,
        moves: answer.moves,
        operands: answer.operands,
        controls: answer.controls,
        probes: answer.probes,
    })
}

/// Validates a module in pieces of any size. The result is that of [`validate`](crate::validate) for the joined pieces.
///
/// ```
/// let mut validator = wmod::Validator::new()?;
/// validator.feed(b"\0as")?;
/// validator.feed(b"m\x01\0\0\0")?;
/// assert_eq!(validator.finish()?.functions, 0);
/// # Ok::<(), wmod::Error>(())
/// ```
///
/// A validator is also a writer, so [`io::copy`] can feed it. A refusal ends the copy at once, and the error holds it:
///
/// ```
/// use std::io;
///
/// let mut upload: &[u8] = b"\0asn, and much more";
/// let mut validator = wmod::Validator::new()?;
/// let error = io::copy(&mut upload, &mut validator).unwrap_err();
/// let refusal = error.get_ref().and_then(|it| it.downcast_ref::<wmod::Error>());
/// assert_eq!(refusal.map(|it| it.why()), Some(wmod::Why::Magic));
/// assert_eq!(validator.finish().unwrap_err().to_string(), "refused at 4: Magic");
/// # Ok::<(), wmod::Error>(())
/// ```
///
/// A validator is [`Send`], so a future may hold it across an `.await`:
///
/// ```
/// use std::future::Future;
///
/// fn is_send<F: Future + Send>(_: &F) {}
///
/// is_send(&async {
///     let mut validator = wmod::Validator::new()?;
///     let piece = std::future::ready(b"\0asm\x01\0\0\0").await;
///     validator.feed(piece)?;
///     validator.finish()
/// });
/// ```
///
/// It is not [`Sync`], since a thread uses it alone:
///
/// ```compile_fail
/// fn is_sync<T: Sync>() {}
/// is_sync::<wmod::Validator>();
/// ```
pub struct Validator {
    handle: sys::Validator,
}

// SAFETY: the handle points to the library's state on the heap of C, which nothing else points to. The library has no
// thread-local data and no lock, and C's `free` takes memory of any thread. So the state may move between threads. One
// thread at a time uses it: each call that passes the handle takes `&mut self` or `self`.
unsafe impl Send for Validator {}

impl Validator {
    /// Returns a validator that has read nothing, with the default [`Options`]. [`Options::validator`] takes others.
    pub fn new() -> Result<Validator, Error> {
        Options::new().validator()
    }

    pub(crate) fn begun(options: &sys::Options) -> Result<Validator, Error> {
        let handle = sys::Validator {
            state: ptr::null_mut(),
        };
        let mut it = Validator { handle };
        // SAFETY: the handle is empty. It may move, since each call passes its address anew.
        match unsafe { sys::wmod_begin_with(&mut it.handle, options) } {
            sys::VALID => Ok(it),
            status => Err(Error::of(status, 0, 0)),
        }
    }

    /// Takes the next piece. An error stays: no later piece is read, and [`finish`](Validator::finish) returns it
    /// again.
    pub fn feed(&mut self, piece: &[u8]) -> Result<(), Error> {
        // SAFETY: the handle was begun; pointer and length are those of one slice.
        match unsafe { sys::wmod_feed(&mut self.handle, piece.as_ptr(), piece.len()) } {
            sys::VALID => Ok(()),
            // only `wmod_finish` says which refusal it was; it may be called again
            _ => self.ended().map(drop),
        }
    }

    /// Returns the place of the byte that was refused, or of the next byte if none was. [`Error::offset`] has the
    /// offset of the byte.
    ///
    /// ```
    /// let mut validator = wmod::Validator::new()?;
    /// // a type section of two types, and no function type begins with 0x40
    /// let error = validator.feed(b"\0asm\x01\0\0\0\x01\x07\x02\x60\0\0\x40").unwrap_err();
    /// assert_eq!((error.why(), error.offset()), (wmod::Why::BadByte, Some(15)));
    /// let place = validator.place();
    /// assert_eq!((place.section, place.item), (Some(1), Some(1)));
    /// assert_eq!((place.awaits, place.byte), (Some(wmod::Awaits::TypeForm), Some(0x40)));
    /// # Ok::<(), wmod::Error>(())
    /// ```
    pub fn place(&mut self) -> Place {
        Place::of(&self.spot())
    }

    /// Returns what the refused byte begins in a later version of the standard. `None` if no byte was refused, or if it
    /// begins nothing of a later version there.
    ///
    /// ```
    /// let mut validator = wmod::Validator::new()?;
    /// // a data count section
    /// validator.feed(b"\0asm\x01\0\0\0\x0C").unwrap_err();
    /// let hint = validator.hint().unwrap();
    /// assert_eq!((hint.begins.as_str(), hint.features.as_str()), ("a data count section", "bulk-memory"));
    /// assert_eq!(hint.to_string(), "a data count section (bulk-memory); use --features bulk-memory, or compile with -mno-bulk-memory");
    /// # Ok::<(), wmod::Error>(())
    /// ```
    pub fn hint(&mut self) -> Option<Hint> {
        let place = self.spot();
        if place.byte == sys::NONE {
            return None;
        }
        let mut answer = sys::Answer::default();
        // SAFETY: the handle was begun. Since a byte was refused, the end of the input changes nothing.
        unsafe { sys::wmod_finish(&mut self.handle, &mut answer) };
        Hint::of(answer.why, &place)
    }

    fn spot(&mut self) -> sys::Place {
        let mut place = sys::Place::default();
        // SAFETY: the handle was begun; the call writes all fields.
        unsafe { sys::wmod_place(&mut self.handle, &mut place) };
        place
    }

    /// Ends the input and returns its figures.
    pub fn finish(mut self) -> Result<Summary, Error> {
        self.ended()
    }

    fn ended(&mut self) -> Result<Summary, Error> {
        judged(|answer| {
            // SAFETY: the handle was begun.
            unsafe { sys::wmod_finish(&mut self.handle, answer) };
        })
    }
}

impl Drop for Validator {
    fn drop(&mut self) {
        // SAFETY: the handle was begun; it is empty afterwards.
        unsafe { sys::wmod_end(&mut self.handle) }
    }
}

impl fmt::Debug for Validator {
    fn fmt(&self, f: &mut fmt::Formatter<'_>) -> fmt::Result {
        f.debug_struct("Validator").finish_non_exhaustive()
    }
}

impl io::Write for Validator {
    fn write(&mut self, piece: &[u8]) -> io::Result<usize> {
        self.feed(piece)?;
        Ok(piece.len())
    }

    fn flush(&mut self) -> io::Result<()> {
        Ok(())
    }
}
