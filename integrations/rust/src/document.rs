//! Documents: values with all digits of their numbers, in the order of the values.

use crate::{ffi, utf8, write_of, Error, Key, KeyRef};
use std::fmt;

/// A value as a store keeps it: its sort key, and behind it the zeros that end its decimals, so that `1.50` stays so.
///
/// Documents are compared by their bytes: as their values are, and those of equal values by the zeros. Two are equal
/// where their texts are; their values are equal where their [`Document::key`]s are. A key is the document of a value
/// without such zeros.
///
/// ```
/// use vizhoniku::{document, Mode};
///
/// let price = document(r#"{"net": 1.50, "tax": [0.10]}"#, Mode::Extended)?;
/// let tax = document("0.20", Mode::Extended)?;
/// let changed = price.set("/tax/0", &tax, false)?.expect("there is an item");
/// assert_eq!(changed.to_text()?, r#"{"net":1.50,"tax":[0.20]}"#);
/// assert_eq!(price.pointer("/net")?.map(|net| net.to_string()).as_deref(), Some("1.50"));
/// assert!(changed > price && changed.key() > price.key());
/// # Ok::<(), vizhoniku::Error>(())
/// ```
#[derive(Clone, PartialEq, Eq, PartialOrd, Ord, Hash)]
pub struct Document(Box<[u8]>);

impl Document {
    pub(crate) fn of(bytes: Vec<u8>) -> Document {
        Document(bytes.into_boxed_slice())
    }

    /// The document whose bytes these are. They are checked as a whole: [`Document::to_text`] of a document that is
    /// accepted is a document of extended mode, whose document it is.
    ///
    /// # Errors
    ///
    /// [`Error::NoDocument`] where they aren't a document.
    ///
    /// ```
    /// use vizhoniku::{document, Document, Mode};
    ///
    /// let stored = document("[1.50]", Mode::Json)?.into_bytes();
    /// assert_eq!(Document::from_bytes(stored)?.to_string(), "[1.50]");
    /// assert!(Document::from_bytes(b"[1.50]".to_vec()).is_err());
    /// # Ok::<(), vizhoniku::Error>(())
    /// ```
    pub fn from_bytes(bytes: Vec<u8>) -> Result<Document, Error> {
        // SAFETY: the bytes have their size.
        match unsafe { ffi::vizhoniku_document_check(bytes.as_ptr(), bytes.len()) } {
            ffi::ACCEPTED => Ok(Document::of(bytes)),
            status => Err(Error::of_document(status)),
        }
    }

    /// The document whose bytes these are, which aren't checked: for bytes that a store gives back as they were put. Of
    /// other bytes the calls find nothing, or something in them; no call reads or writes past its memory.
    ///
    /// ```
    /// use vizhoniku::{document, Document, Mode};
    ///
    /// let stored = document("[1.50]", Mode::Json)?.into_bytes();
    /// assert_eq!(Document::from_trusted_bytes(stored).to_string(), "[1.50]");
    /// # Ok::<(), vizhoniku::Error>(())
    /// ```
    pub fn from_trusted_bytes(bytes: Vec<u8>) -> Document {
        Document::of(bytes)
    }

    /// The bytes, to be stored.
    ///
    /// ```
    /// let array = vizhoniku::document("[1.50]", vizhoniku::Mode::Json)?;
    /// assert_eq!(array.clone().into_bytes(), array.as_bytes());
    /// # Ok::<(), vizhoniku::Error>(())
    /// ```
    pub fn into_bytes(self) -> Vec<u8> {
        self.0.into_vec()
    }

    /// The bytes.
    ///
    /// ```
    /// let array = vizhoniku::document("[1.50]", vizhoniku::Mode::Json)?;
    /// assert!(array.as_bytes().starts_with(array.key().as_bytes()));
    /// # Ok::<(), vizhoniku::Error>(())
    /// ```
    pub fn as_bytes(&self) -> &[u8] {
        &self.0
    }

    /// The sort key of the value, which the document begins with.
    ///
    /// ```
    /// let document = vizhoniku::document(r#"{"net": 1.50, "tax": [0.10]}"#, vizhoniku::Mode::Json)?;
    /// assert_eq!(document.key().to_string(), r#"{"net":1.5,"tax":[0.1]}"#);
    /// assert_eq!(document.key().get("net").and_then(|net| net.as_f64()), Some(1.5));
    /// # Ok::<(), vizhoniku::Error>(())
    /// ```
    pub fn key(&self) -> &KeyRef {
        // SAFETY: the document has its size.
        let size = unsafe { ffi::vizhoniku_document_key(self.0.as_ptr(), self.0.len()) };
        KeyRef::from_trusted_bytes(self.0.get(..size).unwrap_or(&self.0))
    }

    /// The text of the value, with all its digits: `1.50` where the text had `1.50`.
    ///
    /// # Errors
    ///
    /// [`Error::OutOfMemory`], and [`Error::NoDocument`] for trusted bytes that are none.
    ///
    /// ```
    /// let document = vizhoniku::document(r#"{"net": 1.50, "tax": [0.10]}"#, vizhoniku::Mode::Json)?;
    /// assert_eq!(document.to_text()?, r#"{"net":1.50,"tax":[0.10]}"#);
    /// # Ok::<(), vizhoniku::Error>(())
    /// ```
    pub fn to_text(&self) -> Result<String, Error> {
        let capacity = self.0.len().saturating_add(64);
        let written = self.written(capacity, |document, document_size, buffer, capacity, size| {
            // SAFETY: the document has its size and the buffer its space, and they don't overlap.
            unsafe { ffi::vizhoniku_document_text(document, document_size, buffer, capacity, size) }
        });
        utf8(written?.ok_or(Error::NoDocument)?)
    }

    /// The document of the part at the path, a JSON Pointer (RFC 6901), or `None` where there is none. Parts of the
    /// [`Document::key`] are found without being copied.
    ///
    /// # Errors
    ///
    /// [`Error::NoPath`] and [`Error::OutOfMemory`].
    ///
    /// ```
    /// let document = vizhoniku::document(r#"{"net": 1.50, "tax": [0.10]}"#, vizhoniku::Mode::Json)?;
    /// assert_eq!(document.pointer("/tax/0")?.map(|tax| tax.to_string()).as_deref(), Some("0.10"));
    /// assert_eq!(document.pointer("/tax/1")?, None);
    /// # Ok::<(), vizhoniku::Error>(())
    /// ```
    pub fn pointer(&self, path: &str) -> Result<Option<Document>, Error> {
        self.made(0, |document, document_size, buffer, capacity, size| {
            // SAFETY: as in `to_text`, and the path has its size.
            unsafe {
                let path_size = path.len();
                ffi::vizhoniku_document_part(document, document_size, path.as_ptr(), path_size, buffer, capacity, size)
            }
        })
    }

    /// The document with this part at the path, or `None` where nothing changes. A part that is there is replaced.
    /// Where only the last step leads nowhere, and with `create`, a member is added to an object, and to an array an
    /// item.
    ///
    /// # Errors
    ///
    /// [`Error::NoPath`], [`Error::TooDeep`] and [`Error::OutOfMemory`].
    ///
    /// ```
    /// let document = vizhoniku::document(r#"{"net": 1.50, "tax": [0.10]}"#, vizhoniku::Mode::Json)?;
    /// let part = vizhoniku::document("2.00", vizhoniku::Mode::Json)?;
    /// assert_eq!(document.set("/net", &part, false)?.unwrap().to_string(), r#"{"net":2.00,"tax":[0.10]}"#);
    /// assert_eq!(document.set("/sum", &part, true)?.unwrap().to_string(), r#"{"net":1.50,"sum":2.00,"tax":[0.10]}"#);
    /// assert_eq!(document.set("/sum", &part, false)?, None);
    /// # Ok::<(), vizhoniku::Error>(())
    /// ```
    pub fn set(&self, path: &str, part: &Document, create: bool) -> Result<Option<Document>, Error> {
        self.made(path.len() + part.0.len(), |document, document_size, buffer, capacity, size| {
            // SAFETY: as in `to_text`, and the path and the part have their sizes.
            unsafe {
                ffi::vizhoniku_document_set(
                    document,
                    document_size,
                    path.as_ptr(),
                    path.len(),
                    part.0.as_ptr(),
                    part.0.len(),
                    create.into(),
                    buffer,
                    capacity,
                    size,
                )
            }
        })
    }

    /// The document without the part at the path, or `None` where there is no such part, or the path is the whole.
    ///
    /// # Errors
    ///
    /// [`Error::NoPath`] and [`Error::OutOfMemory`].
    ///
    /// ```
    /// let document = vizhoniku::document(r#"{"net": 1.50, "tax": [0.10]}"#, vizhoniku::Mode::Json)?;
    /// assert_eq!(document.remove("/tax/0")?.unwrap().to_string(), r#"{"net":1.50,"tax":[]}"#);
    /// assert_eq!(document.remove("/sum")?, None);
    /// # Ok::<(), vizhoniku::Error>(())
    /// ```
    pub fn remove(&self, path: &str) -> Result<Option<Document>, Error> {
        self.made(0, |document, document_size, buffer, capacity, size| {
            // SAFETY: as in `to_text`, and the path has its size.
            unsafe {
                let path_size = path.len();
                ffi::vizhoniku_document_remove(
                    document,
                    document_size,
                    path.as_ptr(),
                    path_size,
                    buffer,
                    capacity,
                    size,
                )
            }
        })
    }

    /// The document of an object with this member, instead of one of the name, or `None` where the value is no object.
    ///
    /// # Errors
    ///
    /// [`Error::TooDeep`] and [`Error::OutOfMemory`].
    ///
    /// ```
    /// let document = vizhoniku::document(r#"{"net": 1.50, "tax": [0.10]}"#, vizhoniku::Mode::Json)?;
    /// let part = vizhoniku::document("2.00", vizhoniku::Mode::Json)?;
    /// assert_eq!(document.put("net", &part)?.unwrap().to_string(), r#"{"net":2.00,"tax":[0.10]}"#);
    /// assert_eq!(part.put("net", &part)?, None);
    /// # Ok::<(), vizhoniku::Error>(())
    /// ```
    pub fn put(&self, name: &str, value: &Document) -> Result<Option<Document>, Error> {
        self.made(name.len() + value.0.len(), |document, document_size, buffer, capacity, size| {
            // SAFETY: as in `to_text`, and the name and the value have their sizes.
            unsafe {
                ffi::vizhoniku_document_put(
                    document,
                    document_size,
                    name.as_ptr(),
                    name.len(),
                    value.0.as_ptr(),
                    value.0.len(),
                    buffer,
                    capacity,
                    size,
                )
            }
        })
    }

    /// The document of an array with this item at its end, or `None` where the value is no array.
    ///
    /// # Errors
    ///
    /// [`Error::TooDeep`] and [`Error::OutOfMemory`].
    ///
    /// ```
    /// let array = vizhoniku::document("[1.50]", vizhoniku::Mode::Json)?;
    /// let part = vizhoniku::document("2.00", vizhoniku::Mode::Json)?;
    /// assert_eq!(array.push(&part)?.unwrap().to_string(), "[1.50,2.00]");
    /// assert_eq!(part.push(&part)?, None);
    /// # Ok::<(), vizhoniku::Error>(())
    /// ```
    pub fn push(&self, item: &Document) -> Result<Option<Document>, Error> {
        self.made(item.0.len(), |document, document_size, buffer, capacity, size| {
            // SAFETY: as in `to_text`, and the item has its size.
            unsafe {
                let (item, item_size) = (item.0.as_ptr(), item.0.len());
                ffi::vizhoniku_document_push(document, document_size, item, item_size, buffer, capacity, size)
            }
        })
    }

    /// The document of both values in one, as `||` of PostgreSQL's `jsonb` has it: two objects to one with the members
    /// of both, where those of the other win; else two arrays to one, where a value that is no array is one of itself.
    ///
    /// # Errors
    ///
    /// [`Error::TooDeep`] and [`Error::OutOfMemory`].
    ///
    /// ```
    /// let array = vizhoniku::document("[1.50]", vizhoniku::Mode::Json)?;
    /// let part = vizhoniku::document("2.00", vizhoniku::Mode::Json)?;
    /// assert_eq!(array.merge(&part)?.to_string(), "[1.50,2.00]");
    /// # Ok::<(), vizhoniku::Error>(())
    /// ```
    pub fn merge(&self, other: &Document) -> Result<Document, Error> {
        let merged = self.made(other.0.len(), |document, document_size, buffer, capacity, size| {
            // SAFETY: as in `to_text`, and the other document has its size.
            unsafe {
                let (other, other_size) = (other.0.as_ptr(), other.0.len());
                ffi::vizhoniku_document_merge(document, document_size, other, other_size, buffer, capacity, size)
            }
        })?;
        Ok(merged.unwrap_or_else(|| self.clone()))
    }

    /// The document that a call makes of this one, with space for so many bytes more at first.
    fn made(
        &self,
        more: usize,
        call: impl Fn(*const u8, usize, *mut u8, usize, &mut usize) -> u32,
    ) -> Result<Option<Document>, Error> {
        let capacity = self.0.len().saturating_add(more).saturating_add(16);
        Ok(self.written(capacity, call)?.map(Document::of))
    }

    /// What a call writes of the document, or `None` where it says `NO_PART`.
    fn written(
        &self,
        capacity: usize,
        call: impl Fn(*const u8, usize, *mut u8, usize, &mut usize) -> u32,
    ) -> Result<Option<Vec<u8>>, Error> {
        write_of(&self.0, capacity, call, Error::of_document)
    }
}

/// A key is the document of a value whose decimals end in no zeros.
impl From<Key> for Document {
    fn from(key: Key) -> Document {
        Document::of(key.into_bytes())
    }
}

impl From<Document> for Vec<u8> {
    fn from(document: Document) -> Vec<u8> {
        document.into_bytes()
    }
}

impl AsRef<[u8]> for Document {
    fn as_ref(&self) -> &[u8] {
        &self.0
    }
}

/// The text of the value, as [`Document::to_text`] has it.
impl fmt::Display for Document {
    fn fmt(&self, out: &mut fmt::Formatter<'_>) -> fmt::Result {
        out.write_str(&self.to_text().map_err(|_| fmt::Error)?)
    }
}

impl fmt::Debug for Document {
    fn fmt(&self, out: &mut fmt::Formatter<'_>) -> fmt::Result {
        match self.to_text() {
            Ok(text) => write!(out, "Document({text})"),
            Err(error) => write!(out, "Document({error})"),
        }
    }
}
