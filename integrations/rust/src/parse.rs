//! Calls that parse texts.

use crate::{ffi, Made, Mode, Rejection};

/// What a call with texts has made, and its status, which isn't `REJECTED`: a text that is rejected is an error.
pub(crate) fn parse<const N: usize, T>(
    texts: [&[u8]; N],
    mode: Mode,
    call: impl FnOnce([&[u8]; N], &mut ffi::TextError) -> Made<T>,
) -> Made<T> {
    let mut error = ffi::TextError::default();
    let (made, status) = call(texts, &mut error)?;
    if status == ffi::REJECTED {
        let rejected = texts[usize::from(error.which == 2)];
        return Err(Rejection::of(rejected, mode, &error)?.into());
    }
    Ok((made, status))
}
