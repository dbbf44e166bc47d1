//! Serde: what is serialized becomes a text, a key, a document or a value.

use crate::value::write_string;
use crate::{document, inner_levels, sort_key, text, Document, Error, Key, KeyRef, Mode, Number, Value};
use serde::ser::{self, Error as _, Impossible, SerializeMap, SerializeSeq, Serializer};
use serde::Serialize;
use std::fmt::{self, Write};

/// The name of the struct that a [`Number`] is for serde, by which this crate's serializer and deserializer know it.
pub(crate) const NUMBER: &str = "$vizhoniku::Number";

/// The text of what is serialized: without whitespace, and members in the order of the bytes of their names.
///
/// # Errors
///
/// [`Error::Mismatch`] with the path of the part for what no document has: an infinity and what is no number, a number
/// of more than 38 digits, a name twice in an object, and a name of a member that is no string and no integer; and
/// [`Error::TooDeep`].
///
/// ```
/// #[derive(serde::Serialize)]
/// struct Line {
///     name: String,
///     count: u32,
/// }
///
/// let line = Line { name: "cup".into(), count: 2 };
/// assert_eq!(vizhoniku::to_text(&line)?, r#"{"count":2,"name":"cup"}"#);
/// let error = vizhoniku::to_text(&[0.5, f64::NAN]).unwrap_err();
/// assert_eq!(error.path(), Some("/1"));
/// # Ok::<(), vizhoniku::Error>(())
/// ```
pub fn to_text<T: Serialize + ?Sized>(value: &T) -> Result<String, Error> {
    made(value, |written| text(written, Mode::Json))
}

/// The sort key of what is serialized.
///
/// # Errors
///
/// Those of [`to_text`].
///
/// ```
/// assert!(vizhoniku::to_key(&("cup", 9.5))? < vizhoniku::to_key(&("cup", 10))?);
/// # Ok::<(), vizhoniku::Error>(())
/// ```
pub fn to_key<T: Serialize + ?Sized>(value: &T) -> Result<Key, Error> {
    made(value, |written| sort_key(written, Mode::Json))
}

/// The document of what is serialized, with all digits of a [`Number`].
///
/// # Errors
///
/// Those of [`to_text`].
///
/// ```
/// let price: vizhoniku::Number = "1.50".parse()?;
/// assert_eq!(vizhoniku::to_document(&[price])?.to_string(), "[1.50]");
/// # Ok::<(), vizhoniku::Error>(())
/// ```
pub fn to_document<T: Serialize + ?Sized>(value: &T) -> Result<Document, Error> {
    made(value, |written| document(written, Mode::Json))
}

/// The value of what is serialized.
///
/// # Errors
///
/// Those of [`to_text`].
///
/// ```
/// assert_eq!(vizhoniku::to_value(&Some([1, 2]))?, vizhoniku::Value::from([1, 2]));
/// # Ok::<(), vizhoniku::Error>(())
/// ```
pub fn to_value<T: Serialize + ?Sized>(value: &T) -> Result<Value, Error> {
    to_document(value)?.to_value()
}

/// What a call makes of the text that is written. Its caller never sees that text, so what is wrong has a path alone.
fn made<T, M>(value: &T, of_text: impl FnOnce(&str) -> Result<M, Error>) -> Result<M, Error>
where
    T: Serialize + ?Sized,
{
    let mut writer = Writer { text: String::new(), levels: 0 };
    value.serialize(&mut writer)?;
    of_text(&writer.text).map_err(|error| match error.rejection() {
        Some(rejection) => Error::of_mismatch(rejection.path().into(), rejection.message().into()),
        None => error,
    })
}

impl ser::Error for Error {
    fn custom<M: fmt::Display>(message: M) -> Error {
        Error::of_mismatch(String::new(), message.to_string())
    }
}

/// An integer as itself, and a decimal as the double that has its digits. Where none has, a format of another crate
/// gets an error; this crate's own calls keep all digits.
impl Serialize for Number {
    fn serialize<S: Serializer>(&self, serializer: S) -> Result<S::Ok, S::Error> {
        let is_human_readable = serializer.is_human_readable();
        serializer.serialize_newtype_struct(NUMBER, &Inside { number: *self, is_human_readable })
    }
}

/// What is inside of a [`Number`] for serde.
struct Inside {
    number: Number,
    /// What the serializer of the number says of its format. That of its inside says the same, but for this crate's
    /// own, which so asks for the digits.
    is_human_readable: bool,
}

impl Serialize for Inside {
    fn serialize<S: Serializer>(&self, serializer: S) -> Result<S::Ok, S::Error> {
        let number = self.number;
        if self.is_human_readable && !serializer.is_human_readable() {
            return serializer.collect_str(&number);
        }
        if number.scale > 0 {
            let double = number.as_double();
            let double =
                double.ok_or_else(|| S::Error::custom(format_args!("no double has the digits of {number}")))?;
            return serializer.serialize_f64(double);
        }
        if let Ok(integer) = i64::try_from(number.digits) {
            return serializer.serialize_i64(integer);
        }
        match u64::try_from(number.digits) {
            Ok(integer) => serializer.serialize_u64(integer),
            Err(_) => serializer.serialize_i128(number.digits),
        }
    }
}

/// The value as it is, with numbers as [`Number`] has them. An error where more than 512 arrays and objects are nested,
/// which bounds the machine stack that is taken.
impl Serialize for Value {
    fn serialize<S: Serializer>(&self, serializer: S) -> Result<S::Ok, S::Error> {
        Nested { value: self, levels: 0 }.serialize(serializer)
    }
}

/// The value of the key.
impl Serialize for KeyRef {
    fn serialize<S: Serializer>(&self, serializer: S) -> Result<S::Ok, S::Error> {
        self.to_value().map_err(S::Error::custom)?.serialize(serializer)
    }
}

/// The value of the key.
impl Serialize for Key {
    fn serialize<S: Serializer>(&self, serializer: S) -> Result<S::Ok, S::Error> {
        (**self).serialize(serializer)
    }
}

/// The value of the document, with all its digits.
impl Serialize for Document {
    fn serialize<S: Serializer>(&self, serializer: S) -> Result<S::Ok, S::Error> {
        self.to_value().map_err(S::Error::custom)?.serialize(serializer)
    }
}

/// A value inside of so many arrays and objects.
struct Nested<'a> {
    value: &'a Value,
    levels: usize,
}

impl Nested<'_> {
    /// How many arrays and objects are around the parts of this one.
    fn inner_levels<E: ser::Error>(&self) -> Result<usize, E> {
        inner_levels(self.levels).map_err(E::custom)
    }
}

impl Serialize for Nested<'_> {
    fn serialize<S: Serializer>(&self, serializer: S) -> Result<S::Ok, S::Error> {
        match self.value {
            Value::Null => serializer.serialize_unit(),
            Value::Bool(boolean) => serializer.serialize_bool(*boolean),
            Value::Number(number) => number.serialize(serializer),
            Value::String(text) => serializer.serialize_str(text),
            Value::Array(items) => {
                let mut parts = serializer.serialize_seq(Some(items.len()))?;
                let levels = self.inner_levels()?;
                items.iter().try_for_each(|value| parts.serialize_element(&Nested { value, levels }))?;
                parts.end()
            }
            Value::Object(members) => {
                let mut parts = serializer.serialize_map(Some(members.len()))?;
                let levels = self.inner_levels()?;
                members.iter().try_for_each(|(name, value)| parts.serialize_entry(name, &Nested { value, levels }))?;
                parts.end()
            }
        }
    }
}

/// Writes the text of what is serialized, inside of so many arrays and objects.
struct Writer {
    text: String,
    levels: usize,
}

impl Writer {
    fn write(&mut self, scalar: impl fmt::Display) -> Result<(), Error> {
        write!(self.text, "{scalar}").map_err(|_| Error::OutOfMemory)
    }

    fn write_string(&mut self, text: &str) -> Result<(), Error> {
        write_string(text, &mut self.text).map_err(|_| Error::OutOfMemory)
    }

    /// Writes the name of a member.
    fn write_name(&mut self, name: &str) -> Result<(), Error> {
        self.write_string(name)?;
        self.write(':')
    }

    /// Writes a double, or an error where it is none of JSON.
    fn write_double(&mut self, is_finite: bool, double: impl fmt::Debug) -> Result<(), Error> {
        if !is_finite {
            return Err(Error::custom(format_args!("{double:?} isn't a number of JSON")));
        }
        self.write(format_args!("{double:?}"))
    }

    fn open(&mut self, bracket: char) -> Result<(), Error> {
        self.levels = inner_levels(self.levels)?;
        self.write(bracket)
    }

    fn close(&mut self, bracket: char) -> Result<(), Error> {
        self.levels -= 1;
        self.write(bracket)
    }

    /// Opens an array or an object, and before it the object of the variant whose value it is.
    fn open_parts(&mut self, variant: Option<&'static str>, shape: Shape) -> Result<Parts<'_>, Error> {
        if let Some(name) = variant {
            self.open('{')?;
            self.write_name(name)?;
        }
        self.open(if shape == Shape::Array { '[' } else { '{' })?;
        Ok(Parts { writer: self, variant, shape, count: 0, name: String::new() })
    }
}

#[derive(Clone, Copy, PartialEq, Eq)]
enum Shape {
    Array,
    Object,
}

/// The parts of an array or an object, one after the other.
struct Parts<'a> {
    writer: &'a mut Writer,
    /// The variant of an enum whose value this is.
    variant: Option<&'static str>,
    shape: Shape,
    count: usize,
    /// The name of the member whose value comes next.
    name: String,
}

impl Parts<'_> {
    fn write_comma(&mut self) -> Result<(), Error> {
        self.count += 1;
        self.writer.write(if self.count > 1 { "," } else { "" })
    }

    fn write_item<T: Serialize + ?Sized>(&mut self, item: &T) -> Result<(), Error> {
        let index = self.count;
        self.write_comma()?;
        item.serialize(&mut *self.writer).map_err(|error| self.within(error, &index.to_string()))
    }

    fn write_member<T: Serialize + ?Sized>(&mut self, name: &str, value: &T) -> Result<(), Error> {
        self.write_comma()?;
        self.writer.write_name(name)?;
        value.serialize(&mut *self.writer).map_err(|error| self.within(error, name))
    }

    /// The error of a part.
    fn within(&self, error: Error, step: &str) -> Error {
        let error = error.within(step);
        match self.variant {
            Some(variant) => error.within(variant),
            None => error,
        }
    }

    fn close(self) -> Result<(), Error> {
        self.writer.close(if self.shape == Shape::Array { ']' } else { '}' })?;
        match self.variant {
            Some(_) => self.writer.close('}'),
            None => Ok(()),
        }
    }
}

/// Methods of a serializer that write an integer or a boolean.
macro_rules! write_scalars {
    ($($method:ident: $type:ty;)*) => {$(
        fn $method(self, scalar: $type) -> Result<(), Error> {
            self.write(scalar)
        }
    )*};
}

impl<'a> Serializer for &'a mut Writer {
    type Ok = ();
    type Error = Error;
    type SerializeSeq = Parts<'a>;
    type SerializeTuple = Parts<'a>;
    type SerializeTupleStruct = Parts<'a>;
    type SerializeTupleVariant = Parts<'a>;
    type SerializeMap = Parts<'a>;
    type SerializeStruct = Parts<'a>;
    type SerializeStructVariant = Parts<'a>;

    write_scalars! {
        serialize_bool: bool;
        serialize_i8: i8;
        serialize_i16: i16;
        serialize_i32: i32;
        serialize_i64: i64;
        serialize_i128: i128;
        serialize_u8: u8;
        serialize_u16: u16;
        serialize_u32: u32;
        serialize_u64: u64;
        serialize_u128: u128;
    }

    fn serialize_f32(self, double: f32) -> Result<(), Error> {
        self.write_double(double.is_finite(), double)
    }

    fn serialize_f64(self, double: f64) -> Result<(), Error> {
        self.write_double(double.is_finite(), double)
    }

    fn serialize_char(self, character: char) -> Result<(), Error> {
        self.write_string(character.encode_utf8(&mut [0; 4]))
    }

    fn serialize_str(self, text: &str) -> Result<(), Error> {
        self.write_string(text)
    }

    fn serialize_bytes(self, bytes: &[u8]) -> Result<(), Error> {
        self.collect_seq(bytes)
    }

    fn serialize_none(self) -> Result<(), Error> {
        self.serialize_unit()
    }

    fn serialize_some<T: Serialize + ?Sized>(self, value: &T) -> Result<(), Error> {
        value.serialize(self)
    }

    fn serialize_unit(self) -> Result<(), Error> {
        self.write("null")
    }

    fn serialize_unit_struct(self, _name: &'static str) -> Result<(), Error> {
        self.serialize_unit()
    }

    fn serialize_unit_variant(self, _name: &'static str, _at: u32, variant: &'static str) -> Result<(), Error> {
        self.write_string(variant)
    }

    fn serialize_newtype_struct<T: Serialize + ?Sized>(self, name: &'static str, value: &T) -> Result<(), Error> {
        if name == NUMBER {
            return self.write(value.serialize(Word { is_human_readable: false })?);
        }
        value.serialize(self)
    }

    fn serialize_newtype_variant<T: Serialize + ?Sized>(
        self,
        _name: &'static str,
        _at: u32,
        variant: &'static str,
        value: &T,
    ) -> Result<(), Error> {
        let mut parts = self.open_parts(None, Shape::Object)?;
        parts.write_member(variant, value)?;
        parts.close()
    }

    fn serialize_seq(self, _size: Option<usize>) -> Result<Parts<'a>, Error> {
        self.open_parts(None, Shape::Array)
    }

    fn serialize_tuple(self, _size: usize) -> Result<Parts<'a>, Error> {
        self.open_parts(None, Shape::Array)
    }

    fn serialize_tuple_struct(self, _name: &'static str, _size: usize) -> Result<Parts<'a>, Error> {
        self.open_parts(None, Shape::Array)
    }

    fn serialize_tuple_variant(
        self,
        _name: &'static str,
        _at: u32,
        variant: &'static str,
        _size: usize,
    ) -> Result<Parts<'a>, Error> {
        self.open_parts(Some(variant), Shape::Array)
    }

    fn serialize_map(self, _size: Option<usize>) -> Result<Parts<'a>, Error> {
        self.open_parts(None, Shape::Object)
    }

    fn serialize_struct(self, _name: &'static str, _size: usize) -> Result<Parts<'a>, Error> {
        self.open_parts(None, Shape::Object)
    }

    fn serialize_struct_variant(
        self,
        _name: &'static str,
        _at: u32,
        variant: &'static str,
        _size: usize,
    ) -> Result<Parts<'a>, Error> {
        self.open_parts(Some(variant), Shape::Object)
    }
}

/// Traits for what has items.
macro_rules! items {
    ($($trait:ident::$method:ident)*) => {$(
        impl ser::$trait for Parts<'_> {
            type Ok = ();
            type Error = Error;

            fn $method<T: Serialize + ?Sized>(&mut self, item: &T) -> Result<(), Error> {
                self.write_item(item)
            }

            fn end(self) -> Result<(), Error> {
                self.close()
            }
        }
    )*};
}

items! {
    SerializeSeq::serialize_element
    SerializeTuple::serialize_element
    SerializeTupleStruct::serialize_field
    SerializeTupleVariant::serialize_field
}

/// Traits for what has fields.
macro_rules! fields {
    ($($trait:ident)*) => {$(
        impl ser::$trait for Parts<'_> {
            type Ok = ();
            type Error = Error;

            fn serialize_field<T: Serialize + ?Sized>(&mut self, name: &'static str, value: &T) -> Result<(), Error> {
                self.write_member(name, value)
            }

            fn end(self) -> Result<(), Error> {
                self.close()
            }
        }
    )*};
}

fields! { SerializeStruct SerializeStructVariant }

impl SerializeMap for Parts<'_> {
    type Ok = ();
    type Error = Error;

    fn serialize_key<T: Serialize + ?Sized>(&mut self, name: &T) -> Result<(), Error> {
        self.name = name.serialize(Word { is_human_readable: true })?;
        Ok(())
    }

    fn serialize_value<T: Serialize + ?Sized>(&mut self, value: &T) -> Result<(), Error> {
        let name = std::mem::take(&mut self.name);
        self.write_member(&name, value)
    }

    fn end(self) -> Result<(), Error> {
        self.close()
    }
}

/// The text of a string or an integer, which the name of a member is, and the digits of a [`Number`].
struct Word {
    is_human_readable: bool,
}

/// The error of what is no name.
fn no_name<T>() -> Result<T, Error> {
    Err(Error::custom("the name of a member must be a string or an integer"))
}

macro_rules! words {
    ($($method:ident: $type:ty;)*) => {$(
        fn $method(self, word: $type) -> Result<String, Error> {
            Ok(word.to_string())
        }
    )*};
}

macro_rules! no_names {
    ($($method:ident($($type:ty),*) -> $answer:ty;)*) => {$(
        fn $method(self, $(_: $type),*) -> Result<$answer, Error> {
            no_name()
        }
    )*};
}

type NoParts = Impossible<String, Error>;

impl Serializer for Word {
    type Ok = String;
    type Error = Error;
    type SerializeSeq = NoParts;
    type SerializeTuple = NoParts;
    type SerializeTupleStruct = NoParts;
    type SerializeTupleVariant = NoParts;
    type SerializeMap = NoParts;
    type SerializeStruct = NoParts;
    type SerializeStructVariant = NoParts;

    words! {
        serialize_i8: i8;
        serialize_i16: i16;
        serialize_i32: i32;
        serialize_i64: i64;
        serialize_i128: i128;
        serialize_u8: u8;
        serialize_u16: u16;
        serialize_u32: u32;
        serialize_u64: u64;
        serialize_u128: u128;
        serialize_char: char;
        serialize_str: &str;
    }

    no_names! {
        serialize_bool(bool) -> String;
        serialize_f32(f32) -> String;
        serialize_f64(f64) -> String;
        serialize_bytes(&[u8]) -> String;
        serialize_none() -> String;
        serialize_unit() -> String;
        serialize_unit_struct(&'static str) -> String;
        serialize_seq(Option<usize>) -> NoParts;
        serialize_tuple(usize) -> NoParts;
        serialize_tuple_struct(&'static str, usize) -> NoParts;
        serialize_tuple_variant(&'static str, u32, &'static str, usize) -> NoParts;
        serialize_map(Option<usize>) -> NoParts;
        serialize_struct(&'static str, usize) -> NoParts;
        serialize_struct_variant(&'static str, u32, &'static str, usize) -> NoParts;
    }

    fn serialize_unit_variant(self, _name: &'static str, _at: u32, variant: &'static str) -> Result<String, Error> {
        Ok(variant.into())
    }

    fn serialize_some<T: Serialize + ?Sized>(self, value: &T) -> Result<String, Error> {
        value.serialize(self)
    }

    fn serialize_newtype_struct<T: Serialize + ?Sized>(self, _name: &'static str, value: &T) -> Result<String, Error> {
        value.serialize(self)
    }

    fn serialize_newtype_variant<T: Serialize + ?Sized>(
        self,
        _name: &'static str,
        _at: u32,
        _variant: &'static str,
        _value: &T,
    ) -> Result<String, Error> {
        no_name()
    }

    fn is_human_readable(&self) -> bool {
        self.is_human_readable
    }
}
