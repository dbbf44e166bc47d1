//! JSON documents by value, over the library libvizhoniku: whether a text is a document, its value written in one form,
//! sort keys whose bytes compare as the values do, and sort keys and documents whose parts are found and changed.
//!
//! Equal values have equal keys, and `9.5` is below `10`:
//!
//! ```
//! use vizhoniku::{sort_key, Mode};
//!
//! # fn main() -> Result<(), vizhoniku::Error> {
//! let one = sort_key(r#"{"a":1, "b":2}"#, Mode::Standard)?;
//! let two = sort_key("{b: 2.0, a: 0x1} // the same value", Mode::Extended)?;
//! assert_eq!(one, two);
//! assert!(sort_key("9.5", Mode::Extended)? < sort_key("10", Mode::Extended)?);
//! assert_eq!(one.get("b").map(|b| b.to_string()), Some("2".to_string()));
//! # Ok(())
//! # }
//! ```
//!
//! A [`Value`] is there to match on, with exact numbers, and `to_string()` of it is its text:
//!
//! ```
//! use vizhoniku::Value;
//!
//! let value: Value = r#"{"name": "cup", "price": 1.50}"#.parse()?;
//! assert_eq!((value["name"].as_str(), value["price"].to_string()), (Some("cup"), "1.50".into()));
//! # Ok::<(), vizhoniku::Error>(())
//! ```
//!
//! With the feature `serde` types that derive `Deserialize` come out of texts, keys and documents (`from_text` and its
//! kin), and those that derive `Serialize` go in (`to_document` and its kin).
//!
//! A text is anything with bytes, such as `&str`, `String`, `&[u8]` or `Vec<u8>`. Each text is parsed in a [`Mode`]. No
//! call keeps anything, so all types are `Send` and `Sync`. A thread that parses untrusted text has 112 KB of stack
//! free.
#![warn(missing_docs)]
#![deny(unsafe_op_in_unsafe_fn)]

#[cfg(doctest)]
#[doc = include_str!("../README.md")]
struct Readme;

mod conversion;
#[cfg(feature = "serde")]
mod deserialize;
mod document;
mod error;
mod ffi;
mod key;
mod number;
mod parse;
#[cfg(feature = "serde")]
mod serialize;
mod step;
mod value;

pub use conversion::ConversionError;
#[cfg(feature = "serde")]
pub use deserialize::{from_document, from_key, from_text, from_value};
pub use document::Document;
pub use error::{Code, Error, Mismatch, Rejection};
pub use key::{Items, Key, KeyRef, Kind, Members};
pub use number::Number;
use parse::parse;
#[cfg(feature = "serde")]
pub use serialize::{to_document, to_key, to_text, to_value};
use std::cmp::Ordering;
pub use step::Step;
pub use value::{Object, Value};

/// The most arrays and objects that are nested in a document.
#[cfg(feature = "serde")]
const MOST_LEVELS: usize = 512;

/// How many arrays and objects are around the parts of one that is inside of so many.
#[cfg(feature = "serde")]
pub(crate) fn inner_levels(levels: usize) -> Result<usize, Error> {
    if levels >= MOST_LEVELS {
        return Err(Error::TooDeep);
    }
    Ok(levels + 1)
}

/// The grammar that a text is parsed by.
///
/// ```
/// use vizhoniku::{check, Mode};
///
/// let taken = |text, mode| check(text, mode).is_ok();
/// assert_eq!((taken("[1.5]", Mode::Standard), taken("[1.5]", Mode::Extended)), (false, true));
/// assert_eq!((taken("[1e5]", Mode::Extended), taken("[1e5]", Mode::Json)), (false, true));
/// assert_eq!((taken("{a: 1e5}", Mode::Json), taken("{a: 1e5}", Mode::ExtendedJson)), (false, true));
/// ```
#[derive(Clone, Copy, Debug, PartialEq, Eq, Hash)]
#[repr(u32)]
pub enum Mode {
    /// JSON as RFC 8259 has it, with integers of 64 bits alone as numbers.
    Standard = ffi::STANDARD,
    /// Also decimals of up to 38 digits, hexadecimals, comments, single quotes, names without quotes and more.
    Extended = ffi::EXTENDED,
    /// RFC 8259 to the letter. Numbers, also those with exponents, have their exact value, of at most 38 digits.
    Json = ffi::JSON,
    /// [`Mode::Extended`] in which decimals may have exponents.
    ExtendedJson = ffi::EXTENDED_JSON,
}

/// What a call has made, and its status.
pub(crate) type Made<T> = Result<(T, u32), Error>;

/// What a call has written, and its status, which isn't `TOO_SHORT`. The call gets a buffer and its size, again with as
/// much space as it asks for where that is too short.
pub(crate) fn write(capacity: usize, mut call: impl FnMut(*mut u8, usize, &mut usize) -> u32) -> Made<Vec<u8>> {
    let (mut buffer, mut size, mut capacity) = (Vec::new(), 0, capacity);
    loop {
        buffer.try_reserve_exact(capacity).map_err(|_| Error::OutOfMemory)?;
        let status = call(buffer.as_mut_ptr(), capacity, &mut size);
        if status != ffi::TOO_SHORT {
            // SAFETY: the call has written so many bytes of the buffer.
            unsafe { buffer.set_len(size.min(capacity)) };
            return Ok((buffer, status));
        }
        capacity = size;
    }
}

/// What a call writes of a key or a document, or `None` where it says `NO_PART`.
pub(crate) fn write_of(
    bytes: &[u8],
    capacity: usize,
    call: impl Fn(*const u8, usize, *mut u8, usize, &mut usize) -> u32,
    error: fn(u32) -> Error,
) -> Result<Option<Vec<u8>>, Error> {
    let (written, status) =
        write(capacity, |buffer, capacity, size| call(bytes.as_ptr(), bytes.len(), buffer, capacity, size))?;
    match status {
        ffi::ACCEPTED => Ok(Some(written)),
        ffi::NO_PART => Ok(None),
        _ => Err(error(status)),
    }
}

/// The error of the status of a call with texts, of which none is rejected.
fn accept(status: u32) -> Result<(), Error> {
    match status {
        ffi::ACCEPTED => Ok(()),
        ffi::NO_PATH => Err(Error::NoPath),
        _ => Err(Error::OutOfMemory),
    }
}

fn utf8(bytes: Vec<u8>) -> Result<String, Error> {
    String::from_utf8(bytes).map_err(|_| Error::NoKey)
}

/// Whether the text is a document.
///
/// # Errors
///
/// [`Error::Rejected`] says what is wrong with it and where.
///
/// ```
/// use vizhoniku::{check, Code, Mode};
///
/// assert_eq!(check("[1, 2]", Mode::Standard), Ok(()));
/// let error = check("{\n  \"port\": 8080,\n  \"port\": 8081\n}", Mode::Standard).unwrap_err();
/// assert_eq!(error.to_string(), "line 3, column 8, at /port: duplicate object attribute \"port\"");
/// let rejection = error.rejection().unwrap();
/// assert_eq!((rejection.code(), rejection.offset()), (Code::ObjectDuplicateKey, 25));
/// ```
pub fn check(text: impl AsRef<[u8]>, mode: Mode) -> Result<(), Error> {
    let ((), status) = parse([text.as_ref()], mode, |[text], error| {
        // SAFETY: the text has its size, and the error is whole.
        Ok(((), unsafe { ffi::vizhoniku_check(mode as u32, text.as_ptr(), text.len(), error) }))
    })?;
    accept(status)
}

/// The text of the document's value: without whitespace, and members in the order of the bytes of their names.
///
/// # Errors
///
/// [`Error::Rejected`] for a text that is no document, and [`Error::OutOfMemory`].
///
/// ```
/// let text = vizhoniku::text("{b: 0x1F, /* x */ a: [, +.5]} // end", vizhoniku::Mode::Extended)?;
/// assert_eq!(text, r#"{"a":[null,0.5],"b":31}"#);
/// assert_eq!(vizhoniku::text("[1e5, 1.50e-7]", vizhoniku::Mode::Json)?, "[100000,0.000000150]");
/// # Ok::<(), vizhoniku::Error>(())
/// ```
pub fn text(text: impl AsRef<[u8]>, mode: Mode) -> Result<String, Error> {
    let (written, status) = parse([text.as_ref()], mode, |[text], error| {
        write(text.len().saturating_add(16), |buffer, capacity, size| {
            // SAFETY: the text has its size and the buffer its space, and they don't overlap.
            unsafe { ffi::vizhoniku_text(mode as u32, text.as_ptr(), text.len(), buffer, capacity, size, error) }
        })
    })?;
    accept(status)?;
    utf8(written)
}

/// The sort key of the document's value.
///
/// # Errors
///
/// [`Error::Rejected`] for a text that is no document, and [`Error::OutOfMemory`].
///
/// ```
/// use vizhoniku::{sort_key, Mode};
///
/// assert!(sort_key("[9.5]", Mode::Json)? < sort_key("[10]", Mode::Json)?);
/// assert_eq!(sort_key("1e2", Mode::Json)?, sort_key("100.0", Mode::Json)?);
/// # Ok::<(), vizhoniku::Error>(())
/// ```
pub fn sort_key(text: impl AsRef<[u8]>, mode: Mode) -> Result<Key, Error> {
    let (written, status) = parse([text.as_ref()], mode, |[text], error| {
        write(text.len().saturating_add(16), |buffer, capacity, size| {
            // SAFETY: as in `text`.
            unsafe { ffi::vizhoniku_sort_key(mode as u32, text.as_ptr(), text.len(), buffer, capacity, size, error) }
        })
    })?;
    accept(status)?;
    Ok(Key::of(written))
}

/// The document of the text's value: its sort key with all digits kept.
///
/// # Errors
///
/// [`Error::Rejected`] for a text that is no document of the mode, and [`Error::OutOfMemory`].
///
/// ```
/// use vizhoniku::{document, Mode};
///
/// assert_eq!(document("[1.50, 1.5]", Mode::Json)?.to_text()?, "[1.50,1.5]");
/// # Ok::<(), vizhoniku::Error>(())
/// ```
pub fn document(text: impl AsRef<[u8]>, mode: Mode) -> Result<Document, Error> {
    let (written, status) = parse([text.as_ref()], mode, |[text], error| {
        write(text.len().saturating_add(16), |buffer, capacity, size| {
            // SAFETY: as in `text`.
            unsafe { ffi::vizhoniku_document(mode as u32, text.as_ptr(), text.len(), buffer, capacity, size, error) }
        })
    })?;
    accept(status)?;
    Ok(Document::of(written))
}

/// What [`text`] and [`sort_key`] return.
///
/// # Errors
///
/// Those of [`text`].
///
/// ```
/// use vizhoniku::{sort_key, text_and_key, Mode};
///
/// let (text, key) = text_and_key("[1.50, null]", Mode::Json)?;
/// assert_eq!((text.as_str(), key), ("[1.50,null]", sort_key("[1.50,null]", Mode::Json)?));
/// # Ok::<(), vizhoniku::Error>(())
/// ```
pub fn text_and_key(text: impl AsRef<[u8]>, mode: Mode) -> Result<(String, Key), Error> {
    let ((written, key), status) = parse([text.as_ref()], mode, |[text], error| write_text_and_key(text, mode, error))?;
    accept(status)?;
    Ok((utf8(written)?, Key::of(key)))
}

/// The bytes of a text and of its key.
fn write_text_and_key(text: &[u8], mode: Mode, error: &mut ffi::TextError) -> Made<(Vec<u8>, Vec<u8>)> {
    let (mut key, mut key_size) = (Vec::new(), text.len().saturating_add(16));
    let (written, status) = write(text.len().saturating_add(16), |buffer, capacity, size| {
        let key_capacity = key_size;
        if Vec::try_reserve_exact(&mut key, key_capacity).is_err() {
            return ffi::OUT_OF_MEMORY;
        }
        // SAFETY: as in `text`, and the key's buffer has its space.
        let status = unsafe {
            ffi::vizhoniku_text_and_key(
                mode as u32,
                text.as_ptr(),
                text.len(),
                buffer,
                capacity,
                size,
                key.as_mut_ptr(),
                key_capacity,
                &mut key_size,
                error,
            )
        };
        if status == ffi::ACCEPTED {
            // SAFETY: the call has written so many bytes of the key's buffer.
            unsafe { key.set_len(key_size.min(key_capacity)) };
        }
        status
    })?;
    Ok(((written, key), status))
}

/// How the values of two documents of one mode compare.
///
/// # Errors
///
/// [`Error::Rejected`] where a text is no document, of the first that is none ([`Rejection::is_second`]), and
/// [`Error::OutOfMemory`].
///
/// ```
/// use vizhoniku::{compare, Mode};
///
/// assert!(compare("9.5", "10", Mode::Json)?.is_lt());
/// assert!(compare("[1, 2.0]", "[1.0, 2]", Mode::Json)?.is_eq());
/// assert!(compare("[1]", "[1", Mode::Json).unwrap_err().rejection().unwrap().is_second());
/// # Ok::<(), vizhoniku::Error>(())
/// ```
pub fn compare(left: impl AsRef<[u8]>, right: impl AsRef<[u8]>, mode: Mode) -> Result<Ordering, Error> {
    let (order, status) = parse([left.as_ref(), right.as_ref()], mode, |[left, right], error| {
        let (mode, mut order) = (mode as u32, 0);
        // SAFETY: the texts have their sizes, and the order and the error are whole.
        let status = unsafe {
            ffi::vizhoniku_compare(mode, left.as_ptr(), left.len(), right.as_ptr(), right.len(), &mut order, error)
        };
        Ok((order, status))
    })?;
    accept(status)?;
    Ok(order.cmp(&0))
}

/// The text of the part at the path, a JSON Pointer (RFC 6901), or `None` where there is none. The whole text is
/// parsed: for several parts of a document [`sort_key`] and [`KeyRef::pointer`] are faster.
///
/// # Errors
///
/// [`Error::Rejected`] for a text that is no document, [`Error::NoPath`], and [`Error::OutOfMemory`].
///
/// ```
/// use vizhoniku::{part, Mode};
///
/// let text = r#"{"a": [0, {"b/c": [true, 16]}]}"#;
/// assert_eq!(part(text, "/a/1/b~1c", Mode::Standard)?.as_deref(), Some("[true,16]"));
/// assert_eq!(part(text, "/z", Mode::Standard)?, None);
/// # Ok::<(), vizhoniku::Error>(())
/// ```
pub fn part(text: impl AsRef<[u8]>, path: &str, mode: Mode) -> Result<Option<String>, Error> {
    let (written, status) = parse([text.as_ref()], mode, |[text], error| {
        write(256, |buffer, capacity, size| {
            let (mode, path, path_size) = (mode as u32, path.as_ptr(), path.len());
            // SAFETY: as in `text`, and the path has its size.
            unsafe {
                ffi::vizhoniku_part(mode, path, path_size, text.as_ptr(), text.len(), buffer, capacity, size, error)
            }
        })
    })?;
    if status == ffi::NO_PART {
        return Ok(None);
    }
    accept(status)?;
    utf8(written).map(Some)
}

/// The version of the library's interface, `VIZHONIKU_VERSION` of its header.
///
/// ```
/// assert!(vizhoniku::version() >= 10);
/// ```
pub fn version() -> u32 {
    // SAFETY: it takes nothing.
    unsafe { ffi::vizhoniku_version() }
}
