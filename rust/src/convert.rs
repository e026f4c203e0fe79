use crate::{sys, Error};

/// Runs a conversion with a buffer of `room` bytes, and again with the length that it asks for if they are too few.
pub(crate) fn converted(
    call: sys::Convert,
    options: &sys::Options,
    input: &[u8],
    mut room: usize,
) -> Result<Vec<u8>, Error> {
    let mut out = Vec::new();
    loop {
        out.try_reserve_exact(room).map_err(|_| Error::memory())?;
        let mut output = sys::Output::default();
        // SAFETY: pointer and length are those of one slice, and `out` owns `room` bytes.
        unsafe {
            call(
                input.as_ptr(),
                input.len(),
                options,
                out.as_mut_ptr(),
                room,
                &mut output,
            )
        };
        let length = usize::try_from(output.length).map_err(|_| Error::memory())?;
        match output.status {
            sys::VALID if length <= room => {
                // SAFETY: the call has written `length` bytes.
                unsafe { out.set_len(length) };
                return Ok(out);
            }
            sys::NO_ROOM if length > room => room = length,
            status => return Err(Error::of(status, output.why, output.at)),
        }
    }
}
