//! Sort keys as documents.

use crate::ffi;
use crate::{utf8, write, write_of, Error};
use std::borrow::Borrow;
use std::fmt;
use std::ops::Deref;

/// The kind of a value.
///
/// ```
/// use vizhoniku::{sort_key, Kind, Mode};
///
/// assert_eq!(sort_key("[1.5]", Mode::Json)?.item(0).map(|item| item.kind()), Some(Kind::Number));
/// # Ok::<(), vizhoniku::Error>(())
/// ```
#[derive(Clone, Copy, Debug, PartialEq, Eq, Hash)]
pub enum Kind {
    /// `null`
    Null,
    /// `true` or `false`
    Boolean,
    /// A number.
    Number,
    /// A string.
    String,
    /// An array.
    Array,
    /// An object.
    Object,
}

/// The kind as a word, such as `boolean`.
///
/// ```
/// assert_eq!(vizhoniku::Kind::Boolean.to_string(), "boolean");
/// ```
impl fmt::Display for Kind {
    fn fmt(&self, out: &mut fmt::Formatter<'_>) -> fmt::Result {
        out.write_str(match self {
            Kind::Null => "null",
            Kind::Boolean => "boolean",
            Kind::Number => "number",
            Kind::String => "string",
            Kind::Array => "array",
            Kind::Object => "object",
        })
    }
}

/// A sort key that is owned: a document whose bytes compare as the values do.
///
/// Keys are compared and hashed by their bytes, which is by value. It is to [`KeyRef`] what `String` is to `str`, so
/// that a map with such keys is asked by a [`KeyRef`]:
///
/// ```
/// use std::collections::BTreeMap;
/// use vizhoniku::{sort_key, Mode};
///
/// let mut map = BTreeMap::new();
/// map.insert(sort_key("[2]", Mode::Standard)?, "two");
/// map.insert(sort_key("[10]", Mode::Standard)?, "ten");
/// let document = sort_key(r#"{"which": [10]}"#, Mode::Standard)?;
/// assert_eq!(document.get("which").and_then(|which| map.get(which)), Some(&"ten"));
/// # Ok::<(), vizhoniku::Error>(())
/// ```
#[derive(Clone, PartialEq, Eq, PartialOrd, Ord, Hash)]
pub struct Key(Box<[u8]>);

/// A sort key that is borrowed, such as a part of another one, where it is.
///
/// ```
/// use vizhoniku::{sort_key, KeyRef, Mode};
///
/// fn first(key: &KeyRef) -> Option<&KeyRef> {
///     key.item(0)
/// }
///
/// let key = sort_key("[[1.50], 2]", Mode::Json)?;
/// assert_eq!(first(&key).and_then(first).map(|part| part.to_string()).as_deref(), Some("1.5"));
/// # Ok::<(), vizhoniku::Error>(())
/// ```
#[derive(PartialEq, Eq, PartialOrd, Ord, Hash)]
#[repr(transparent)]
pub struct KeyRef([u8]);

impl Key {
    pub(crate) fn of(bytes: Vec<u8>) -> Key {
        Key(bytes.into_boxed_slice())
    }

    /// The key whose bytes these are. They are checked as a whole, which takes no memory: [`KeyRef::to_text`] of a key
    /// that is accepted is a document of extended mode, whose key it is.
    ///
    /// # Errors
    ///
    /// [`Error::NoKey`] where they aren't a sort key.
    ///
    /// ```
    /// use vizhoniku::{sort_key, Key, Mode};
    ///
    /// let stored = sort_key("[1, null]", Mode::Standard)?.into_bytes();
    /// assert_eq!(Key::from_bytes(stored)?.to_text()?, "[1,null]");
    /// assert!(Key::from_bytes(b"[1,null]".to_vec()).is_err());
    /// # Ok::<(), vizhoniku::Error>(())
    /// ```
    pub fn from_bytes(bytes: Vec<u8>) -> Result<Key, Error> {
        KeyRef::from_bytes(&bytes)?;
        Ok(Key::of(bytes))
    }

    /// The bytes, to be stored.
    ///
    /// ```
    /// let key = vizhoniku::sort_key("[1, 2.50]", vizhoniku::Mode::Json)?;
    /// assert_eq!(key.clone().into_bytes(), key.as_bytes());
    /// # Ok::<(), vizhoniku::Error>(())
    /// ```
    pub fn into_bytes(self) -> Vec<u8> {
        self.0.into_vec()
    }
}

impl Deref for Key {
    type Target = KeyRef;

    fn deref(&self) -> &KeyRef {
        KeyRef::of(&self.0)
    }
}

impl Borrow<KeyRef> for Key {
    fn borrow(&self) -> &KeyRef {
        self
    }
}

impl AsRef<KeyRef> for Key {
    fn as_ref(&self) -> &KeyRef {
        self
    }
}

impl AsRef<[u8]> for Key {
    fn as_ref(&self) -> &[u8] {
        &self.0
    }
}

impl From<Key> for Vec<u8> {
    fn from(key: Key) -> Vec<u8> {
        key.into_bytes()
    }
}

impl From<&KeyRef> for Key {
    fn from(key: &KeyRef) -> Key {
        key.to_owned()
    }
}

impl fmt::Display for Key {
    fn fmt(&self, out: &mut fmt::Formatter<'_>) -> fmt::Result {
        fmt::Display::fmt(&**self, out)
    }
}

impl fmt::Debug for Key {
    fn fmt(&self, out: &mut fmt::Formatter<'_>) -> fmt::Result {
        fmt::Debug::fmt(&**self, out)
    }
}

impl ToOwned for KeyRef {
    type Owned = Key;

    fn to_owned(&self) -> Key {
        Key(self.0.into())
    }
}

impl AsRef<[u8]> for KeyRef {
    fn as_ref(&self) -> &[u8] {
        &self.0
    }
}

/// The text of the value, as [`KeyRef::to_text`] has it.
impl fmt::Display for KeyRef {
    fn fmt(&self, out: &mut fmt::Formatter<'_>) -> fmt::Result {
        out.write_str(&self.to_text().map_err(|_| fmt::Error)?)
    }
}

impl fmt::Debug for KeyRef {
    fn fmt(&self, out: &mut fmt::Formatter<'_>) -> fmt::Result {
        match self.to_text() {
            Ok(text) => write!(out, "Key({text})"),
            Err(error) => write!(out, "Key({error})"),
        }
    }
}

impl KeyRef {
    fn of(bytes: &[u8]) -> &KeyRef {
        // SAFETY: a KeyRef is bytes and nothing else (`repr(transparent)`).
        unsafe { &*(bytes as *const [u8] as *const KeyRef) }
    }

    /// The key whose bytes these are. They are checked as a whole, which takes no memory: [`KeyRef::to_text`] of a key
    /// that is accepted is a document of extended mode, whose key it is.
    ///
    /// # Errors
    ///
    /// [`Error::NoKey`] where they aren't a sort key.
    ///
    /// ```
    /// use vizhoniku::{sort_key, KeyRef, Mode};
    ///
    /// let stored = sort_key("[1, null]", Mode::Json)?.into_bytes();
    /// assert_eq!(KeyRef::from_bytes(&stored)?.count(), Some(2));
    /// assert!(KeyRef::from_bytes(b"[1,null]").is_err());
    /// # Ok::<(), vizhoniku::Error>(())
    /// ```
    pub fn from_bytes(bytes: &[u8]) -> Result<&KeyRef, Error> {
        // SAFETY: the bytes have their size.
        match unsafe { ffi::vizhoniku_key_check(bytes.as_ptr(), bytes.len()) } {
            ffi::ACCEPTED => Ok(KeyRef::of(bytes)),
            _ => Err(Error::NoKey),
        }
    }

    /// The key whose bytes these are, which aren't checked: for bytes that a store gives back as they were put. Of
    /// other bytes the calls find nothing, or something in them; no call reads or writes past its memory.
    ///
    /// ```
    /// use vizhoniku::{sort_key, KeyRef, Mode};
    ///
    /// let stored = sort_key("[1, null]", Mode::Json)?.into_bytes();
    /// assert_eq!(KeyRef::from_trusted_bytes(&stored).to_text()?, "[1,null]");
    /// # Ok::<(), vizhoniku::Error>(())
    /// ```
    pub fn from_trusted_bytes(bytes: &[u8]) -> &KeyRef {
        KeyRef::of(bytes)
    }

    /// The bytes.
    ///
    /// ```
    /// use vizhoniku::{sort_key, Mode};
    ///
    /// let (low, high) = (sort_key("[9.5]", Mode::Json)?, sort_key("[10]", Mode::Json)?);
    /// assert!(low.as_bytes() < high.as_bytes());
    /// # Ok::<(), vizhoniku::Error>(())
    /// ```
    pub fn as_bytes(&self) -> &[u8] {
        &self.0
    }

    /// The text of the value, with the fewest digits in each number: `1.5` where the text had `1.50`.
    ///
    /// # Errors
    ///
    /// [`Error::OutOfMemory`], and [`Error::NoKey`] for trusted bytes that are none.
    ///
    /// ```
    /// let key = vizhoniku::sort_key("[1, 2.50]", vizhoniku::Mode::Json)?;
    /// assert_eq!(key.to_text()?, "[1,2.5]");
    /// # Ok::<(), vizhoniku::Error>(())
    /// ```
    pub fn to_text(&self) -> Result<String, Error> {
        let capacity = self.0.len().saturating_add(64);
        let written = self.written(capacity, |key, key_size, buffer, capacity, size| {
            // SAFETY: the key has its size and the buffer its space, and they don't overlap.
            unsafe { ffi::vizhoniku_key_text(key, key_size, buffer, capacity, size) }
        });
        utf8(written?.ok_or(Error::NoKey)?)
    }

    /// The kind of the value.
    ///
    /// ```
    /// let key = vizhoniku::sort_key(r#"{"name": "Ann", "tags": ["x", 2.50]}"#, vizhoniku::Mode::Json)?;
    /// assert_eq!((key.kind(), key.get("name").unwrap().kind()), (vizhoniku::Kind::Object, vizhoniku::Kind::String));
    /// # Ok::<(), vizhoniku::Error>(())
    /// ```
    pub fn kind(&self) -> Kind {
        // SAFETY: the key has its size.
        match unsafe { ffi::vizhoniku_key_kind(self.0.as_ptr(), self.0.len()) } {
            ffi::BOOLEAN => Kind::Boolean,
            ffi::NUMBER => Kind::Number,
            ffi::STRING => Kind::String,
            ffi::ARRAY => Kind::Array,
            ffi::OBJECT => Kind::Object,
            _ => Kind::Null,
        }
    }

    /// How many items an array or members an object has. `None` for other kinds.
    ///
    /// ```
    /// let key = vizhoniku::sort_key(r#"{"name": "Ann", "tags": ["x", 2.50]}"#, vizhoniku::Mode::Json)?;
    /// assert_eq!((key.count(), key.get("name").unwrap().count()), (Some(2), None));
    /// # Ok::<(), vizhoniku::Error>(())
    /// ```
    pub fn count(&self) -> Option<usize> {
        let mut count = 0;
        // SAFETY: the key has its size.
        let status = unsafe { ffi::vizhoniku_key_count(self.0.as_ptr(), self.0.len(), &mut count) };
        (status == ffi::ACCEPTED).then_some(count)
    }

    /// The member of an object by its name.
    ///
    /// ```
    /// let key = vizhoniku::sort_key(r#"{"name": "Ann", "tags": ["x", 2.50]}"#, vizhoniku::Mode::Json)?;
    /// assert_eq!(key.get("name").and_then(|name| name.as_string()).as_deref(), Some("Ann"));
    /// assert_eq!(key.get("age"), None);
    /// # Ok::<(), vizhoniku::Error>(())
    /// ```
    pub fn get(&self, name: impl AsRef<str>) -> Option<&KeyRef> {
        let (name, mut offset, mut size) = (name.as_ref(), 0, 0);
        // SAFETY: the key and the name have their sizes.
        let status = unsafe {
            ffi::vizhoniku_key_member(self.0.as_ptr(), self.0.len(), name.as_ptr(), name.len(), &mut offset, &mut size)
        };
        self.found(status, offset, size)
    }

    /// The item of an array by its index, from 0 on; a negative one counts from the end, where -1 is the last item.
    ///
    /// ```
    /// let key = vizhoniku::sort_key("[1, 2.50]", vizhoniku::Mode::Json)?;
    /// assert_eq!((key.item(-1), key.item(1).and_then(|item| item.as_f64())), (key.item(1), Some(2.5)));
    /// assert_eq!(key.item(2), None);
    /// # Ok::<(), vizhoniku::Error>(())
    /// ```
    pub fn item(&self, index: i64) -> Option<&KeyRef> {
        let (mut offset, mut size) = (0, 0);
        // SAFETY: the key has its size.
        let status = unsafe { ffi::vizhoniku_key_item(self.0.as_ptr(), self.0.len(), index, &mut offset, &mut size) };
        self.found(status, offset, size)
    }

    /// The part at the path, a JSON Pointer (RFC 6901), or `None` where there is none.
    ///
    /// # Errors
    ///
    /// [`Error::NoPath`], and [`Error::OutOfMemory`].
    ///
    /// ```
    /// use vizhoniku::{sort_key, Mode};
    ///
    /// let key = sort_key(r#"{"user": {"name": "Ann"}, "tags": ["x", "y"]}"#, Mode::Standard)?;
    /// assert_eq!(key.pointer("/user/name")?.and_then(|name| name.as_string()).as_deref(), Some("Ann"));
    /// assert_eq!(key.pointer("/tags/2")?, None);
    /// # Ok::<(), vizhoniku::Error>(())
    /// ```
    pub fn pointer(&self, path: &str) -> Result<Option<&KeyRef>, Error> {
        let (mut offset, mut size) = (0, 0);
        // SAFETY: the key and the path have their sizes.
        let status = unsafe {
            ffi::vizhoniku_key_part(self.0.as_ptr(), self.0.len(), path.as_ptr(), path.len(), &mut offset, &mut size)
        };
        match status {
            ffi::ACCEPTED | ffi::NO_PART => Ok(self.found(status, offset, size)),
            _ => Err(Error::of_key(status)),
        }
    }

    fn found(&self, status: u32, offset: usize, size: usize) -> Option<&KeyRef> {
        if status != ffi::ACCEPTED {
            return None;
        }
        self.0.get(offset..)?.get(..size).map(KeyRef::of)
    }

    /// The items of an array in their order. There are none where the value is no array.
    ///
    /// ```
    /// use vizhoniku::{sort_key, Mode};
    ///
    /// let key = sort_key("[1.50, [], true]", Mode::Extended)?;
    /// let texts: Vec<String> = key.items().map(|item| item.to_string()).collect();
    /// assert_eq!(texts, ["1.5", "[]", "true"]);
    /// # Ok::<(), vizhoniku::Error>(())
    /// ```
    pub fn items(&self) -> Items<'_> {
        Items(Parts::new(self, Kind::Array))
    }

    /// The members of an object in the order of the bytes of their names. There are none where the value is no object.
    ///
    /// ```
    /// use vizhoniku::{sort_key, Mode};
    ///
    /// let key = sort_key("{b: 1, a: 2}", Mode::Extended)?;
    /// let names: Vec<String> = key.members().map(|(name, _)| name).collect();
    /// assert_eq!(names, ["a", "b"]);
    /// # Ok::<(), vizhoniku::Error>(())
    /// ```
    pub fn members(&self) -> Members<'_> {
        Members(Parts::new(self, Kind::Object))
    }

    /// The text of a string, without quotes and escapes. `None` for other kinds.
    ///
    /// ```
    /// let key = vizhoniku::sort_key("[]", vizhoniku::Mode::Json)?;
    /// assert_eq!(key.as_string(), None);
    /// assert_eq!(vizhoniku::sort_key(r#""x\"y""#, vizhoniku::Mode::Json)?.as_string().as_deref(), Some("x\"y"));
    /// # Ok::<(), vizhoniku::Error>(())
    /// ```
    pub fn as_string(&self) -> Option<String> {
        let written = self.written(self.0.len(), |key, key_size, buffer, capacity, size| {
            // SAFETY: as in `to_text`.
            unsafe { ffi::vizhoniku_key_string(key, key_size, buffer, capacity, size) }
        });
        String::from_utf8(written.ok()??).ok()
    }

    /// The boolean. `None` for other kinds.
    ///
    /// ```
    /// let key = vizhoniku::sort_key("true", vizhoniku::Mode::Json)?;
    /// assert_eq!(key.as_bool(), Some(true));
    /// # Ok::<(), vizhoniku::Error>(())
    /// ```
    pub fn as_bool(&self) -> Option<bool> {
        let mut value = 0;
        // SAFETY: the key has its size.
        let status = unsafe { ffi::vizhoniku_key_boolean(self.0.as_ptr(), self.0.len(), &mut value) };
        (status == ffi::ACCEPTED).then_some(value != 0)
    }

    /// The number, where it is an integer of this type. `None` for others and for other kinds.
    ///
    /// ```
    /// let key = vizhoniku::sort_key("-7.0", vizhoniku::Mode::Json)?;
    /// assert_eq!(key.as_i64(), Some(-7));
    /// # Ok::<(), vizhoniku::Error>(())
    /// ```
    pub fn as_i64(&self) -> Option<i64> {
        let mut value = 0;
        // SAFETY: the key has its size.
        let status = unsafe { ffi::vizhoniku_key_integer(self.0.as_ptr(), self.0.len(), &mut value) };
        (status == ffi::ACCEPTED).then_some(value)
    }

    /// The number, where it is an integer of this type. `None` for others and for other kinds.
    ///
    /// ```
    /// let key = vizhoniku::sort_key("18446744073709551615", vizhoniku::Mode::Json)?;
    /// assert_eq!((key.as_u64(), key.as_i64()), (Some(u64::MAX), None));
    /// # Ok::<(), vizhoniku::Error>(())
    /// ```
    pub fn as_u64(&self) -> Option<u64> {
        self.digits()?.parse().ok()
    }

    /// The double that is nearest to the number. `None` for other kinds.
    ///
    /// ```
    /// let key = vizhoniku::sort_key("0.10", vizhoniku::Mode::Json)?;
    /// assert_eq!(key.as_f64(), Some(0.1));
    /// # Ok::<(), vizhoniku::Error>(())
    /// ```
    pub fn as_f64(&self) -> Option<f64> {
        self.digits()?.parse().ok()
    }

    fn digits(&self) -> Option<String> {
        if self.kind() != Kind::Number {
            return None;
        }
        self.to_text().ok()
    }

    /// Whether the value contains the other, as `@>` of PostgreSQL's `jsonb` says: an object each member of the other,
    /// an array each item, and a scalar an equal one.
    ///
    /// ```
    /// let key = vizhoniku::sort_key(r#"{"name": "Ann", "tags": ["x", 2.50]}"#, vizhoniku::Mode::Json)?;
    /// let other = vizhoniku::sort_key(r#"{"tags": [2.5]}"#, vizhoniku::Mode::Json)?;
    /// assert!(key.contains(&other) && !other.contains(&key));
    /// # Ok::<(), vizhoniku::Error>(())
    /// ```
    pub fn contains(&self, other: &KeyRef) -> bool {
        // SAFETY: the keys have their sizes.
        let status =
            unsafe { ffi::vizhoniku_key_contains(self.0.as_ptr(), self.0.len(), other.0.as_ptr(), other.0.len()) };
        status == ffi::ACCEPTED
    }

    /// The key with this part at the path, or `None` where nothing changes. A part that is there is replaced. Where
    /// only the last step leads nowhere, and with `create`, a member is added to an object, and to an array an item.
    ///
    /// # Errors
    ///
    /// [`Error::NoPath`], [`Error::TooDeep`] and [`Error::OutOfMemory`].
    ///
    /// ```
    /// use vizhoniku::{sort_key, Mode};
    ///
    /// let (key, age) = (sort_key(r#"{"age":41}"#, Mode::Standard)?, sort_key("42", Mode::Standard)?);
    /// let changed = key.set("/age", &age, false)?;
    /// assert_eq!(changed.map(|key| key.to_string()).as_deref(), Some(r#"{"age":42}"#));
    /// assert_eq!(key.set("/name", &age, false)?, None);
    /// # Ok::<(), vizhoniku::Error>(())
    /// ```
    pub fn set(&self, path: &str, part: &KeyRef, create: bool) -> Result<Option<Key>, Error> {
        self.changed(path.len() + part.0.len(), |key, key_size, buffer, capacity, size| {
            // SAFETY: as in `to_text`, and the path and the part have their sizes.
            unsafe {
                ffi::vizhoniku_document_set(
                    key,
                    key_size,
                    path.as_ptr(),
                    path.len(),
                    part.0.as_ptr(),
                    part.0.len(),
                    create.into(),
                    buffer,
                    capacity,
                    size,
                )
            }
        })
    }

    /// The key without the part at the path, or `None` where there is no such part, or the path is the whole.
    ///
    /// # Errors
    ///
    /// [`Error::NoPath`] and [`Error::OutOfMemory`].
    ///
    /// ```
    /// let key = vizhoniku::sort_key(r#"{"name": "Ann", "tags": ["x", 2.50]}"#, vizhoniku::Mode::Json)?;
    /// assert_eq!(key.remove("/tags/0")?.unwrap().to_string(), r#"{"name":"Ann","tags":[2.5]}"#);
    /// assert_eq!(key.remove("/age")?, None);
    /// # Ok::<(), vizhoniku::Error>(())
    /// ```
    pub fn remove(&self, path: &str) -> Result<Option<Key>, Error> {
        self.changed(0, |key, key_size, buffer, capacity, size| {
            // SAFETY: as in `to_text`, and the path has its size.
            unsafe { ffi::vizhoniku_document_remove(key, key_size, path.as_ptr(), path.len(), buffer, capacity, size) }
        })
    }

    /// The key of an object with this member, instead of one of the name, or `None` where the value is no object.
    ///
    /// # Errors
    ///
    /// [`Error::TooDeep`] and [`Error::OutOfMemory`].
    ///
    /// ```
    /// let key = vizhoniku::sort_key(r#"{"name": "Ann", "tags": ["x", 2.50]}"#, vizhoniku::Mode::Json)?;
    /// let part = vizhoniku::sort_key("7", vizhoniku::Mode::Json)?;
    /// assert_eq!(key.put("tags", &part)?.unwrap().to_string(), r#"{"name":"Ann","tags":7}"#);
    /// assert_eq!(part.put("tags", &part)?, None);
    /// # Ok::<(), vizhoniku::Error>(())
    /// ```
    pub fn put(&self, name: &str, value: &KeyRef) -> Result<Option<Key>, Error> {
        self.changed(name.len() + value.0.len(), |key, key_size, buffer, capacity, size| {
            // SAFETY: as in `to_text`, and the name and the value have their sizes.
            unsafe {
                ffi::vizhoniku_document_put(
                    key,
                    key_size,
                    name.as_ptr(),
                    name.len(),
                    value.0.as_ptr(),
                    value.0.len(),
                    buffer,
                    capacity,
                    size,
                )
            }
        })
    }

    /// The key of an array with this item at its end, or `None` where the value is no array.
    ///
    /// # Errors
    ///
    /// [`Error::TooDeep`] and [`Error::OutOfMemory`].
    ///
    /// ```
    /// let key = vizhoniku::sort_key("[1, 2.50]", vizhoniku::Mode::Json)?;
    /// let part = vizhoniku::sort_key("7", vizhoniku::Mode::Json)?;
    /// assert_eq!(key.push(&part)?.unwrap().to_string(), "[1,2.5,7]");
    /// assert_eq!(part.push(&part)?, None);
    /// # Ok::<(), vizhoniku::Error>(())
    /// ```
    pub fn push(&self, item: &KeyRef) -> Result<Option<Key>, Error> {
        self.changed(item.0.len(), |key, key_size, buffer, capacity, size| {
            // SAFETY: as in `to_text`, and the item has its size.
            unsafe {
                let (item, item_size) = (item.0.as_ptr(), item.0.len());
                ffi::vizhoniku_document_push(key, key_size, item, item_size, buffer, capacity, size)
            }
        })
    }

    /// The key of both values in one, as `||` of PostgreSQL's `jsonb` has it: two objects to one with the members of
    /// both, where those of the other win; else two arrays to one, where a value that is no array is one of itself.
    ///
    /// # Errors
    ///
    /// [`Error::TooDeep`] and [`Error::OutOfMemory`].
    ///
    /// ```
    /// let key = vizhoniku::sort_key("[1, 2.50]", vizhoniku::Mode::Json)?;
    /// let part = vizhoniku::sort_key("7", vizhoniku::Mode::Json)?;
    /// assert_eq!(key.merge(&part)?.to_string(), "[1,2.5,7]");
    /// assert_eq!(part.merge(&key)?.to_string(), "[7,1,2.5]");
    /// # Ok::<(), vizhoniku::Error>(())
    /// ```
    pub fn merge(&self, other: &KeyRef) -> Result<Key, Error> {
        let merged = self.changed(other.0.len(), |key, key_size, buffer, capacity, size| {
            // SAFETY: as in `to_text`, and the other key has its size.
            unsafe {
                let (other, other_size) = (other.0.as_ptr(), other.0.len());
                ffi::vizhoniku_document_merge(key, key_size, other, other_size, buffer, capacity, size)
            }
        })?;
        Ok(merged.unwrap_or_else(|| self.to_owned()))
    }

    /// The changed key, with space for so many bytes more at first, or `None` where nothing changes.
    fn changed(
        &self,
        more: usize,
        call: impl Fn(*const u8, usize, *mut u8, usize, &mut usize) -> u32,
    ) -> Result<Option<Key>, Error> {
        let capacity = self.0.len().saturating_add(more).saturating_add(16);
        Ok(self.written(capacity, call)?.map(Key::of))
    }

    /// What a call writes of the key, or `None` where it says `NO_PART`.
    fn written(
        &self,
        capacity: usize,
        call: impl Fn(*const u8, usize, *mut u8, usize, &mut usize) -> u32,
    ) -> Result<Option<Vec<u8>>, Error> {
        write_of(&self.0, capacity, call, Error::of_key)
    }
}

/// One part of an array or an object after the other: the bytes of its name, and its key.
#[derive(Clone)]
struct Parts<'a> {
    key: &'a KeyRef,
    cursor: Option<ffi::KeyCursor>,
}

impl<'a> Parts<'a> {
    fn new(key: &'a KeyRef, kind: Kind) -> Parts<'a> {
        let mut cursor = ffi::KeyCursor::default();
        // SAFETY: the key has its size.
        let status = unsafe { ffi::vizhoniku_key_begin(key.0.as_ptr(), key.0.len(), &mut cursor) };
        let begun = status == ffi::ACCEPTED && key.kind() == kind;
        Parts { key, cursor: begun.then_some(cursor) }
    }

    fn next(&mut self) -> Option<(&'a [u8], &'a KeyRef)> {
        let mut entry = ffi::KeyEntry::default();
        let cursor = self.cursor.as_mut()?;
        // SAFETY: the key has its size, and the cursor is of this key.
        let status = unsafe { ffi::vizhoniku_key_next(self.key.0.as_ptr(), self.key.0.len(), cursor, &mut entry) };
        if status != ffi::ACCEPTED {
            self.cursor = None;
            return None;
        }
        let name = self.key.0.get(entry.name_offset..)?.get(..entry.name_size)?;
        Some((name, self.key.found(status, entry.offset, entry.size)?))
    }
}

/// The items of an array, from [`KeyRef::items`].
///
/// ```
/// let key = vizhoniku::sort_key("[1, 2.50]", vizhoniku::Mode::Json)?;
/// let mut items: vizhoniku::Items<'_> = key.items();
/// assert_eq!((items.next().and_then(|item| item.as_i64()), items.count()), (Some(1), 1));
/// # Ok::<(), vizhoniku::Error>(())
/// ```
#[derive(Clone)]
pub struct Items<'a>(Parts<'a>);

impl<'a> Iterator for Items<'a> {
    type Item = &'a KeyRef;

    fn next(&mut self) -> Option<&'a KeyRef> {
        self.0.next().map(|(_, item)| item)
    }
}

impl std::iter::FusedIterator for Items<'_> {}

/// The members of an object, from [`KeyRef::members`]: each name with its value's key.
///
/// ```
/// let key = vizhoniku::sort_key(r#"{"name": "Ann", "tags": ["x", 2.50]}"#, vizhoniku::Mode::Json)?;
/// let mut members: vizhoniku::Members<'_> = key.members();
/// assert_eq!(members.next().map(|(name, value)| (name, value.to_string())), Some(("name".into(), "\"Ann\"".into())));
/// # Ok::<(), vizhoniku::Error>(())
/// ```
#[derive(Clone)]
pub struct Members<'a>(Parts<'a>);

impl<'a> Iterator for Members<'a> {
    type Item = (String, &'a KeyRef);

    fn next(&mut self) -> Option<(String, &'a KeyRef)> {
        let (name, value) = self.0.next()?;
        let written = write(name.len(), |buffer, capacity, size| {
            // SAFETY: the name has its size and the buffer its space, and they don't overlap.
            unsafe { ffi::vizhoniku_key_name(name.as_ptr(), name.len(), buffer, capacity, size) }
        });
        Some((String::from_utf8(written.ok()?.0).ok()?, value))
    }
}

impl std::iter::FusedIterator for Members<'_> {}
