//! Why a call has no answer.

use crate::{ffi, write, ConversionError, Mode};
use std::fmt;

/// What is wrong with a text.
///
/// ```
/// use vizhoniku::{check, Code, Mode};
///
/// let error = check("[1e39]", Mode::Json).unwrap_err();
/// assert_eq!(error.rejection().map(|rejection| rejection.code()), Some(Code::NumberNotCarried));
/// ```
#[derive(Clone, Copy, Debug, PartialEq, Eq, Hash)]
#[non_exhaustive]
pub enum Code {
    /// The text ends too early.
    InvalidEof,
    /// A number is misspelled.
    InvalidNumberValue,
    /// A string isn't UTF-8.
    InvalidStringValue,
    /// A literal is misspelled.
    ExpectedSomeIdent,
    /// A value is expected, and the byte begins none.
    ExpectedSomeValue,
    /// `:` is expected.
    ExpectedColon,
    /// `,` or `]` is expected.
    ExpectedArrayCommaOrEnd,
    /// `,` or `}` is expected.
    ExpectedObjectCommaOrEnd,
    /// A document ends before the byte.
    UnexpectedTrailingCharacters,
    /// The name of a member isn't a string.
    KeyMustBeAString,
    /// A control character is in a string.
    ControlCharacterWhileParsingString,
    /// A backslash and a byte that are no escape.
    InvalidEscaped,
    /// A byte that is no hexadecimal digit.
    InvalidHex,
    /// The first half of a surrogate pair is alone.
    InvalidLoneLeadingSurrogateInHexEscape,
    /// The second half of a surrogate pair isn't one.
    InvalidSurrogateInHexEscape,
    /// An escape ends too early.
    UnexpectedEndOfHexEscape,
    /// A name is repeated in an object.
    ObjectDuplicateKey,
    /// The name of a member is a misspelled number.
    ObjectKeyInvalidNumber,
    /// A byte that can't be in a name without quotes.
    ObjectKeyInvalidCharacter,
    /// A number isn't representable.
    NumberNotCarried,
    /// More than 512 arrays and objects are open at once.
    DepthLimitExceeded,
    /// A code of a later version of the library, by its number.
    Other(u32),
}

const CODES: [Code; 21] = [
    Code::InvalidEof,
    Code::InvalidNumberValue,
    Code::InvalidStringValue,
    Code::ExpectedSomeIdent,
    Code::ExpectedSomeValue,
    Code::ExpectedColon,
    Code::ExpectedArrayCommaOrEnd,
    Code::ExpectedObjectCommaOrEnd,
    Code::UnexpectedTrailingCharacters,
    Code::KeyMustBeAString,
    Code::ControlCharacterWhileParsingString,
    Code::InvalidEscaped,
    Code::InvalidHex,
    Code::InvalidLoneLeadingSurrogateInHexEscape,
    Code::InvalidSurrogateInHexEscape,
    Code::UnexpectedEndOfHexEscape,
    Code::ObjectDuplicateKey,
    Code::ObjectKeyInvalidNumber,
    Code::ObjectKeyInvalidCharacter,
    Code::NumberNotCarried,
    Code::DepthLimitExceeded,
];

impl Code {
    pub(crate) fn of(number: u32) -> Code {
        let at = (number as usize).wrapping_sub(1);
        CODES.get(at).copied().unwrap_or(Code::Other(number))
    }

    /// The number of the code in `vizhoniku.h`.
    ///
    /// ```
    /// assert_eq!(vizhoniku::Code::InvalidEof.number(), 1);
    /// ```
    pub fn number(self) -> u32 {
        match self {
            Code::Other(number) => number,
            code => CODES.iter().position(|&it| it == code).map_or(0, |at| at as u32 + 1),
        }
    }
}

/// Why and where a text was rejected.
///
/// ```
/// let error = vizhoniku::check("{\"a\": [1,\n 01]}", vizhoniku::Mode::Json).unwrap_err();
/// let rejection = error.rejection().unwrap();
/// assert_eq!(rejection.to_string(), "line 2, column 3, at /a/1: invalid number");
/// ```
#[derive(Clone, Debug, PartialEq, Eq)]
pub struct Rejection {
    code: Code,
    is_second: bool,
    position: usize,
    offset: usize,
    line: usize,
    column: usize,
    path: String,
    message: String,
}

impl Rejection {
    /// Of a text that a call has rejected with this error.
    pub(crate) fn of(text: &[u8], mode: Mode, error: &ffi::TextError) -> Result<Rejection, Error> {
        let location = location(text, error);
        Ok(Rejection {
            code: Code::of(error.code),
            is_second: error.which == 2,
            position: error.position,
            offset: location.index,
            line: location.line,
            column: location.column,
            path: path(text, mode, error)?,
            message: reason(text, mode)?,
        })
    }

    /// What is wrong.
    ///
    /// ```
    /// let error = vizhoniku::check("{\"a\": [1,\n 01]}", vizhoniku::Mode::Json).unwrap_err();
    /// assert_eq!(error.rejection().unwrap().code(), vizhoniku::Code::InvalidNumberValue);
    /// ```
    pub fn code(&self) -> Code {
        self.code
    }

    /// Whether the second text of a comparison was rejected.
    ///
    /// ```
    /// let error = vizhoniku::check("{\"a\": [1,\n 01]}", vizhoniku::Mode::Json).unwrap_err();
    /// assert_eq!(error.rejection().unwrap().is_second(), false);
    /// ```
    pub fn is_second(&self) -> bool {
        self.is_second
    }

    /// The number of bytes that the library's clauses name: which byte it means depends on the code.
    ///
    /// ```
    /// let error = vizhoniku::check("{\"a\": [1,\n 01]}", vizhoniku::Mode::Json).unwrap_err();
    /// assert_eq!(error.rejection().unwrap().position(), 13);
    /// ```
    pub fn position(&self) -> usize {
        self.position
    }

    /// The byte to show, counted from 0; the size of the text where that ends too early.
    ///
    /// ```
    /// let error = vizhoniku::check("{\"a\": [1,\n 01]}", vizhoniku::Mode::Json).unwrap_err();
    /// assert_eq!(error.rejection().unwrap().offset(), 12);
    /// ```
    pub fn offset(&self) -> usize {
        self.offset
    }

    /// The line of that byte, counted from 1.
    ///
    /// ```
    /// let error = vizhoniku::check("{\"a\": [1,\n 01]}", vizhoniku::Mode::Json).unwrap_err();
    /// assert_eq!(error.rejection().unwrap().line(), 2);
    /// ```
    pub fn line(&self) -> usize {
        self.line
    }

    /// The column of that byte, counted from 1 in bytes.
    ///
    /// ```
    /// let error = vizhoniku::check("{\"a\": [1,\n 01]}", vizhoniku::Mode::Json).unwrap_err();
    /// assert_eq!(error.rejection().unwrap().column(), 3);
    /// ```
    pub fn column(&self) -> usize {
        self.column
    }

    /// The path of the part of the value that is wrong, a JSON Pointer (RFC 6901): of the innermost item or member with
    /// the fault, and `""` where that is the whole. Names are in it verbatim, with any control characters.
    ///
    /// ```
    /// let error = vizhoniku::check("{\"a\": [1,\n 01]}", vizhoniku::Mode::Json).unwrap_err();
    /// assert_eq!(error.rejection().unwrap().path(), "/a/1");
    /// ```
    pub fn path(&self) -> &str {
        &self.path
    }

    /// What is wrong, in words. A name that is repeated is in it verbatim, with any control characters.
    ///
    /// ```
    /// let error = vizhoniku::check("{\"a\": [1,\n 01]}", vizhoniku::Mode::Json).unwrap_err();
    /// assert_eq!(error.rejection().unwrap().message(), "invalid number");
    /// ```
    pub fn message(&self) -> &str {
        &self.message
    }
}

/// The path of what is wrong with a text.
fn path(text: &[u8], mode: Mode, error: &ffi::TextError) -> Result<String, Error> {
    let (path, status) = write(128, |buffer, capacity, size| {
        // SAFETY: the text has its size and the buffer its space, and the error is whole.
        unsafe { ffi::vizhoniku_error_path(mode as u32, text.as_ptr(), text.len(), error, buffer, capacity, size) }
    })?;
    if status != ffi::ACCEPTED {
        return Err(Error::OutOfMemory);
    }
    Ok(String::from_utf8_lossy(&path).into_owned())
}

/// The byte to show of an error.
fn location(text: &[u8], error: &ffi::TextError) -> ffi::Location {
    let mut location = ffi::Location::default();
    // SAFETY: the text has its size, and the error and the location are whole.
    unsafe { ffi::vizhoniku_locate(text.as_ptr(), text.len(), error, &mut location) };
    location
}

/// What is wrong with a text, in words, without its offset.
fn reason(text: &[u8], mode: Mode) -> Result<String, Error> {
    let (reason, status) = write(128, |buffer, capacity, size| {
        // SAFETY: the text has its size, and the buffer its space.
        unsafe { ffi::vizhoniku_reason(mode as u32, text.as_ptr(), text.len(), buffer, capacity, size) }
    })?;
    if status != ffi::REJECTED {
        return Err(Error::OutOfMemory);
    }
    Ok(String::from_utf8_lossy(&reason).into_owned())
}

impl fmt::Display for Rejection {
    fn fmt(&self, out: &mut fmt::Formatter<'_>) -> fmt::Result {
        let second = if self.is_second { "second text, " } else { "" };
        write!(out, "{second}line {}, column {}", self.line, self.column)?;
        write_at(&self.path, ", at ", out)?;
        write!(out, ": {}", self.message)
    }
}

impl std::error::Error for Rejection {}

/// Writes words and a path, unless that is the whole.
fn write_at(path: &str, words: &str, out: &mut fmt::Formatter<'_>) -> fmt::Result {
    if path.is_empty() {
        return Ok(());
    }
    write!(out, "{words}{path}")
}

/// Why a value doesn't fit a type, and where.
///
/// ```
/// use vizhoniku::{Error, Number};
///
/// match "[1.50]".parse::<Number>() {
///     Err(Error::Mismatch(mismatch)) => assert_eq!(mismatch.message(), "invalid type: array, expected number"),
///     other => panic!("{other:?}"),
/// }
/// ```
#[derive(Clone, Debug, PartialEq, Eq)]
pub struct Mismatch {
    path: String,
    message: String,
}

impl Mismatch {
    /// The path of the part that doesn't fit, a JSON Pointer (RFC 6901), and `""` where that is the whole.
    ///
    /// ```
    /// let error: vizhoniku::Error = u8::try_from(vizhoniku::Value::Null).unwrap_err().into();
    /// assert_eq!(error.mismatch().map(|mismatch| mismatch.path()), Some(""));
    /// ```
    pub fn path(&self) -> &str {
        &self.path
    }

    /// Why it doesn't fit, in words.
    ///
    /// ```
    /// let error: vizhoniku::Error = u8::try_from(vizhoniku::Value::Null).unwrap_err().into();
    /// assert_eq!(error.mismatch().map(|it| it.message()), Some("invalid type: null, expected u8"));
    /// ```
    pub fn message(&self) -> &str {
        &self.message
    }
}

impl fmt::Display for Mismatch {
    fn fmt(&self, out: &mut fmt::Formatter<'_>) -> fmt::Result {
        write_at(&self.path, "at ", out)?;
        write!(out, "{}{}", if self.path.is_empty() { "" } else { ": " }, self.message)
    }
}

impl std::error::Error for Mismatch {}

/// Why a call has no answer.
///
/// ```
/// use vizhoniku::{document, Error, Mode};
///
/// match document("[1, 2", Mode::Json) {
///     Err(Error::Rejected(rejection)) => assert_eq!((rejection.line(), rejection.column()), (1, 6)),
///     other => panic!("{other:?}"),
/// }
/// ```
#[derive(Clone, Debug, PartialEq, Eq)]
#[non_exhaustive]
pub enum Error {
    /// The text is no document of its mode.
    Rejected(Box<Rejection>),
    /// The path isn't a JSON Pointer (RFC 6901).
    NoPath,
    /// The bytes aren't a sort key.
    NoKey,
    /// The bytes aren't a document.
    NoDocument,
    /// The value doesn't fit a type.
    Mismatch(Box<Mismatch>),
    /// The value would have more than 512 nested arrays and objects.
    TooDeep,
    /// Memory ran out.
    OutOfMemory,
}

impl Error {
    /// Why and where the text was rejected, if that is the error.
    ///
    /// ```
    /// let error = vizhoniku::check("[1", vizhoniku::Mode::Json).unwrap_err();
    /// assert_eq!(error.rejection().map(|rejection| rejection.message()), Some("EOF while parsing a value"));
    /// ```
    pub fn rejection(&self) -> Option<&Rejection> {
        match self {
            Error::Rejected(rejection) => Some(rejection),
            _ => None,
        }
    }

    /// Why and where a value doesn't fit a type, if that is the error.
    ///
    /// ```
    /// let error = "true".parse::<vizhoniku::Number>().unwrap_err();
    /// assert!(error.mismatch().is_some() && error.rejection().is_none());
    /// ```
    pub fn mismatch(&self) -> Option<&Mismatch> {
        match self {
            Error::Mismatch(mismatch) => Some(mismatch),
            _ => None,
        }
    }

    /// The line at which a text was rejected, counted from 1.
    ///
    /// ```
    /// let error = vizhoniku::check("[1,\n 2,\n x]", vizhoniku::Mode::Json).unwrap_err();
    /// assert_eq!((error.line(), error.column(), error.path()), (Some(3), Some(2), Some("/2")));
    /// assert_eq!(error.to_string(), "line 3, column 2, at /2: expected value");
    /// ```
    pub fn line(&self) -> Option<usize> {
        self.rejection().map(Rejection::line)
    }

    /// The column at which a text was rejected, counted from 1 in bytes.
    ///
    /// ```
    /// let error = vizhoniku::check("[1 2]", vizhoniku::Mode::Json).unwrap_err();
    /// assert_eq!(error.column(), Some(4));
    /// ```
    pub fn column(&self) -> Option<usize> {
        self.rejection().map(Rejection::column)
    }

    /// The path of the part with the fault, or of the one that doesn't fit a type: a JSON Pointer (RFC 6901), and `""`
    /// where that is the whole.
    ///
    /// ```
    /// let error = vizhoniku::check(r#"{"a": nul}"#, vizhoniku::Mode::Json).unwrap_err();
    /// assert_eq!(error.path(), Some("/a"));
    /// ```
    pub fn path(&self) -> Option<&str> {
        match self {
            Error::Rejected(rejection) => Some(rejection.path()),
            Error::Mismatch(mismatch) => Some(mismatch.path()),
            _ => None,
        }
    }

    /// The error that a value doesn't fit, in the part at the path.
    pub(crate) fn of_mismatch(path: String, message: String) -> Error {
        Error::Mismatch(Box::new(Mismatch { path, message }))
    }

    /// The error of a part, where that is the member of this name or the item of this index.
    #[cfg(feature = "serde")]
    pub(crate) fn within(mut self, step: &str) -> Error {
        if let Error::Mismatch(mismatch) = &mut self {
            mismatch.path.insert_str(0, &step.replace('~', "~0").replace('/', "~1"));
            mismatch.path.insert(0, '/');
        }
        self
    }

    /// The error of a status of a call over keys.
    pub(crate) fn of_key(status: u32) -> Error {
        match status {
            ffi::NO_PATH => Error::NoPath,
            ffi::TOO_DEEP => Error::TooDeep,
            ffi::OUT_OF_MEMORY => Error::OutOfMemory,
            _ => Error::NoKey,
        }
    }

    /// The error of a status of a call over documents.
    pub(crate) fn of_document(status: u32) -> Error {
        match Error::of_key(status) {
            Error::NoKey => Error::NoDocument,
            error => error,
        }
    }
}

impl From<Rejection> for Error {
    fn from(rejection: Rejection) -> Error {
        Error::Rejected(Box::new(rejection))
    }
}

impl From<ConversionError> for Error {
    fn from(error: ConversionError) -> Error {
        Error::of_mismatch(String::new(), error.to_string())
    }
}

impl fmt::Display for Error {
    fn fmt(&self, out: &mut fmt::Formatter<'_>) -> fmt::Result {
        match self {
            Error::Rejected(rejection) => rejection.fmt(out),
            Error::Mismatch(mismatch) => mismatch.fmt(out),
            Error::NoPath => out.write_str("the path isn't a JSON Pointer (RFC 6901)"),
            Error::NoKey => out.write_str("the bytes aren't a sort key"),
            Error::NoDocument => out.write_str("the bytes aren't a document"),
            Error::TooDeep => out.write_str("the value would have more than 512 nested arrays and objects"),
            Error::OutOfMemory => out.write_str("memory ran out"),
        }
    }
}

/// An error has no source: what a [`Rejection`] and a [`Mismatch`] say, it says itself, so that it is told once.
impl std::error::Error for Error {}
