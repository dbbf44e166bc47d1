//! Serde: what a text, a key, a document or a value is deserialized to.

use crate::serialize::NUMBER;
use crate::step::integer;
use crate::{document, inner_levels, Document, Error, Key, KeyRef, Mode, Number, Object, Value};
use serde::de::{
    self, Deserialize, DeserializeOwned, DeserializeSeed, Deserializer, EnumAccess, Error as _, IntoDeserializer,
    MapAccess, SeqAccess, Unexpected, VariantAccess, Visitor,
};
use serde::forward_to_deserialize_any;
use std::collections::btree_map;
use std::fmt;
use std::slice;

/// What a text of the mode is deserialized to.
///
/// An integer takes a number that is exactly one of its type, also `1.0`; a double takes the nearest one to any number;
/// and a string takes a string, or the digits of a number. For exact numbers take [`Number`].
///
/// # Errors
///
/// [`Error::Rejected`] for a text that is no document, with line, column and path; [`Error::Mismatch`] with the path of
/// the part that doesn't fit the type; and [`Error::OutOfMemory`].
///
/// ```
/// use vizhoniku::{from_text, Mode, Number};
///
/// #[derive(serde::Deserialize)]
/// struct Line {
///     name: String,
///     price: Number,
/// }
///
/// let lines: Vec<Line> = from_text(r#"[{"name": "cup", "price": 1.50}]"#, Mode::Json)?;
/// assert_eq!((lines[0].name.as_str(), lines[0].price.to_string().as_str()), ("cup", "1.50"));
/// let error = from_text::<Vec<Line>>(r#"[{"name": null, "price": 1}]"#, Mode::Json).err().unwrap();
/// assert_eq!(error.to_string(), "at /0/name: invalid type: null, expected a string");
/// # Ok::<(), vizhoniku::Error>(())
/// ```
pub fn from_text<T: DeserializeOwned>(text: impl AsRef<[u8]>, mode: Mode) -> Result<T, Error> {
    from_document(&document(text, mode)?)
}

/// What a document is deserialized to, with all its digits ([`from_text`]).
///
/// # Errors
///
/// [`Error::Mismatch`], and those of [`Document::to_text`].
///
/// ```
/// use vizhoniku::{document, from_document, Mode};
///
/// let document = document(r#"{"cup": 2}"#, Mode::Json)?;
/// let counts: std::collections::HashMap<String, u8> = from_document(&document)?;
/// assert_eq!(counts["cup"], 2);
/// # Ok::<(), vizhoniku::Error>(())
/// ```
pub fn from_document<T: DeserializeOwned>(document: &Document) -> Result<T, Error> {
    from_value(&document.to_value()?)
}

/// What a key, or a part of one, is deserialized to ([`from_text`]).
///
/// # Errors
///
/// [`Error::Mismatch`], and those of [`KeyRef::to_text`].
///
/// ```
/// use vizhoniku::{from_key, sort_key, Mode};
///
/// let key = sort_key(r#"{"size": [2, 3]}"#, Mode::Json)?;
/// let size: Option<(u32, u32)> = key.get("size").map(from_key).transpose()?;
/// assert_eq!(size, Some((2, 3)));
/// # Ok::<(), vizhoniku::Error>(())
/// ```
pub fn from_key<T: DeserializeOwned>(key: &KeyRef) -> Result<T, Error> {
    from_value(&key.to_value()?)
}

/// What a value is deserialized to ([`from_text`]). A type may borrow the strings of the value.
///
/// # Errors
///
/// [`Error::Mismatch`], and [`Error::TooDeep`] where a program has made a value with more than 512 levels.
///
/// ```
/// let value: vizhoniku::Value = r#"["x", "y"]"#.parse()?;
/// let tags: Vec<&str> = vizhoniku::from_value(&value)?;
/// assert_eq!(tags, ["x", "y"]);
/// # Ok::<(), vizhoniku::Error>(())
/// ```
pub fn from_value<'de, T: Deserialize<'de>>(value: &'de Value) -> Result<T, Error> {
    T::deserialize(Part { value, levels: 0 })
}

impl de::Error for Error {
    fn custom<M: fmt::Display>(message: M) -> Error {
        Error::of_mismatch(String::new(), message.to_string())
    }

    fn invalid_type(found: Unexpected<'_>, expected: &dyn de::Expected) -> Error {
        match found {
            Unexpected::Unit => Error::custom(format_args!("invalid type: null, expected {expected}")),
            _ => Error::custom(format_args!("invalid type: {found}, expected {expected}")),
        }
    }
}

/// What begins the bytes that are a number. No text has bytes, and these are no UTF-8.
const MARK: &[u8] = b"\xff$vizhoniku::Number ";

/// Passes a number with all its digits, as bytes.
fn visit_exactly<'de, V: Visitor<'de>>(number: Number, visitor: V) -> Result<V::Value, Error> {
    visitor.visit_byte_buf([MARK, number.to_string().as_bytes()].concat())
}

/// The number that was passed as bytes.
fn number_of<E: de::Error>(bytes: &[u8]) -> Result<Number, E> {
    let digits = bytes.strip_prefix(MARK).and_then(|digits| std::str::from_utf8(digits).ok());
    let number = digits.and_then(Number::of_plain);
    number.ok_or_else(|| E::invalid_type(Unexpected::Bytes(bytes), &"a value of JSON"))
}

/// Passes a number to a type that takes any value, in the way of serde: as an integer of 64 bits, or as the double that
/// has its digits. One that is neither is passed exactly, which a type of this crate takes, and a double doesn't.
fn visit_number<'de, V: Visitor<'de>>(number: Number, visitor: V) -> Result<V::Value, Error> {
    if number.scale > 0 {
        if let Some(double) = number.as_double() {
            return visitor.visit_f64(double);
        }
    } else if let Ok(integer) = i64::try_from(number.digits) {
        return visitor.visit_i64(integer);
    } else if let Ok(integer) = u64::try_from(number.digits) {
        return visitor.visit_u64(integer);
    }
    let error = no_number(number, &visitor);
    visit_exactly(number, visitor).map_err(|_| error)
}

/// The error of a number where another type is expected.
fn no_number(number: Number, expected: &dyn de::Expected) -> Error {
    Error::invalid_type(Unexpected::Other(&format!("number {number}")), expected)
}

/// Passes an integer to a type of one.
fn visit_integer<'de, V: Visitor<'de>>(integer: i128, visitor: V) -> Result<V::Value, Error> {
    if let Ok(integer) = i64::try_from(integer) {
        return visitor.visit_i64(integer);
    }
    match u64::try_from(integer) {
        Ok(integer) => visitor.visit_u64(integer),
        Err(_) => visitor.visit_i128(integer),
    }
}

/// A value inside of so many arrays and objects.
#[derive(Clone, Copy)]
struct Part<'de> {
    value: &'de Value,
    levels: usize,
}

impl<'de> Part<'de> {
    fn visit_items<V: Visitor<'de>>(self, items: &'de [Value], visitor: V) -> Result<V::Value, Error> {
        let mut rest = Items { rest: items.iter(), index: 0, levels: inner_levels(self.levels)? };
        let visited = visitor.visit_seq(&mut rest)?;
        match rest.rest.len() {
            0 => Ok(visited),
            _ => Err(Error::invalid_length(items.len(), &"fewer items")),
        }
    }

    fn visit_members<V: Visitor<'de>>(self, members: &'de Object, visitor: V) -> Result<V::Value, Error> {
        let mut rest = Members { rest: members.iter(), value: None, levels: inner_levels(self.levels)? };
        let visited = visitor.visit_map(&mut rest)?;
        match rest.rest.len() {
            0 => Ok(visited),
            _ => Err(Error::invalid_length(members.len(), &"fewer members")),
        }
    }

    /// The error that the value is of another type.
    fn other_type<T>(self, expected: &str) -> Result<T, Error> {
        Err(Error::custom(format_args!("invalid type: {}, expected {expected}", self.value.kind())))
    }
}

/// Methods of a deserializer for types of integers.
macro_rules! integers {
    ($($method:ident)*) => {$(
        fn $method<V: Visitor<'de>>(self, visitor: V) -> Result<V::Value, Error> {
            match self.value.as_number().and_then(|number| number.at_scale(0)) {
                Some(integer) => visit_integer(integer, visitor),
                None => self.deserialize_any(visitor),
            }
        }
    )*};
}

/// Methods of a deserializer for types of doubles, which take the nearest one.
macro_rules! doubles {
    ($($method:ident: $visit:ident;)*) => {$(
        fn $method<V: Visitor<'de>>(self, visitor: V) -> Result<V::Value, Error> {
            match self.value.as_number().and_then(Number::nearest) {
                Some(double) => visitor.$visit(double),
                None => self.deserialize_any(visitor),
            }
        }
    )*};
}

impl<'de> Deserializer<'de> for Part<'de> {
    type Error = Error;

    fn deserialize_any<V: Visitor<'de>>(self, visitor: V) -> Result<V::Value, Error> {
        match self.value {
            Value::Null => visitor.visit_unit(),
            Value::Bool(boolean) => visitor.visit_bool(*boolean),
            Value::Number(number) => visit_number(*number, visitor),
            Value::String(text) => visitor.visit_borrowed_str(text),
            Value::Array(items) => self.visit_items(items, visitor),
            Value::Object(members) => self.visit_members(members, visitor),
        }
    }

    integers! {
        deserialize_i8 deserialize_i16 deserialize_i32 deserialize_i64 deserialize_i128
        deserialize_u8 deserialize_u16 deserialize_u32 deserialize_u64 deserialize_u128
    }

    doubles! {
        deserialize_f32: visit_f32;
        deserialize_f64: visit_f64;
    }

    fn deserialize_str<V: Visitor<'de>>(self, visitor: V) -> Result<V::Value, Error> {
        match self.value {
            Value::Number(number) => visitor.visit_string(number.to_string()),
            _ => self.deserialize_any(visitor),
        }
    }

    fn deserialize_string<V: Visitor<'de>>(self, visitor: V) -> Result<V::Value, Error> {
        self.deserialize_str(visitor)
    }

    fn deserialize_bytes<V: Visitor<'de>>(self, visitor: V) -> Result<V::Value, Error> {
        match self.value {
            Value::Number(number) => Err(no_number(*number, &visitor)),
            _ => self.deserialize_any(visitor),
        }
    }

    fn deserialize_byte_buf<V: Visitor<'de>>(self, visitor: V) -> Result<V::Value, Error> {
        self.deserialize_bytes(visitor)
    }

    fn deserialize_option<V: Visitor<'de>>(self, visitor: V) -> Result<V::Value, Error> {
        match self.value {
            Value::Null => visitor.visit_none(),
            _ => visitor.visit_some(self),
        }
    }

    fn deserialize_newtype_struct<V: Visitor<'de>>(self, name: &'static str, visitor: V) -> Result<V::Value, Error> {
        match self.value {
            Value::Number(number) if name == NUMBER => visit_exactly(*number, visitor),
            _ => visitor.visit_newtype_struct(self),
        }
    }

    fn deserialize_enum<V: Visitor<'de>>(
        self,
        _name: &'static str,
        _variants: &'static [&'static str],
        visitor: V,
    ) -> Result<V::Value, Error> {
        match self.value {
            Value::String(variant) => visitor.visit_enum(variant.as_str().into_deserializer()),
            Value::Object(members) if members.len() == 1 => {
                visitor.visit_enum(Members { rest: members.iter(), value: None, levels: inner_levels(self.levels)? })
            }
            Value::Object(_) => Err(Error::invalid_value(Unexpected::Map, &"an object with one member")),
            _ => self.other_type("a string or an object"),
        }
    }

    fn deserialize_ignored_any<V: Visitor<'de>>(self, visitor: V) -> Result<V::Value, Error> {
        visitor.visit_unit()
    }

    forward_to_deserialize_any! {
        bool char unit unit_struct seq tuple tuple_struct map struct identifier
    }
}

/// The items of an array.
struct Items<'de> {
    rest: slice::Iter<'de, Value>,
    index: usize,
    levels: usize,
}

impl<'de> SeqAccess<'de> for Items<'de> {
    type Error = Error;

    fn next_element_seed<T: DeserializeSeed<'de>>(&mut self, seed: T) -> Result<Option<T::Value>, Error> {
        let value = match self.rest.next() {
            Some(value) => value,
            None => return Ok(None),
        };
        let index = self.index;
        self.index += 1;
        let part = Part { value, levels: self.levels };
        seed.deserialize(part).map(Some).map_err(|error| error.within(&index.to_string()))
    }

    fn size_hint(&self) -> Option<usize> {
        Some(self.rest.len())
    }
}

/// The members of an object, and the one member of that of a variant.
struct Members<'de> {
    rest: btree_map::Iter<'de, String, Value>,
    /// The member whose name was taken.
    value: Option<(&'de str, &'de Value)>,
    levels: usize,
}

impl<'de> Members<'de> {
    /// What is made of the value of the member whose name was taken.
    fn made<T>(&mut self, of_part: impl FnOnce(Part<'de>) -> Result<T, Error>) -> Result<T, Error> {
        let (name, value) = self.value.take().ok_or_else(|| Error::custom("a value is taken before its name"))?;
        of_part(Part { value, levels: self.levels }).map_err(|error| error.within(name))
    }
}

impl<'de> MapAccess<'de> for Members<'de> {
    type Error = Error;

    fn next_key_seed<T: DeserializeSeed<'de>>(&mut self, seed: T) -> Result<Option<T::Value>, Error> {
        let (name, value) = match self.rest.next() {
            Some(member) => member,
            None => return Ok(None),
        };
        self.value = Some((name, value));
        seed.deserialize(Name(name)).map(Some).map_err(|error| error.within(name))
    }

    fn next_value_seed<T: DeserializeSeed<'de>>(&mut self, seed: T) -> Result<T::Value, Error> {
        self.made(|part| seed.deserialize(part))
    }

    fn size_hint(&self) -> Option<usize> {
        Some(self.rest.len())
    }
}

impl<'de> EnumAccess<'de> for Members<'de> {
    type Error = Error;
    type Variant = Members<'de>;

    fn variant_seed<T: DeserializeSeed<'de>>(mut self, seed: T) -> Result<(T::Value, Members<'de>), Error> {
        let variant = self.next_key_seed(seed)?.ok_or_else(|| Error::custom("an object with no member"))?;
        Ok((variant, self))
    }
}

impl<'de> VariantAccess<'de> for Members<'de> {
    type Error = Error;

    fn unit_variant(mut self) -> Result<(), Error> {
        self.made(<()>::deserialize)
    }

    fn newtype_variant_seed<T: DeserializeSeed<'de>>(mut self, seed: T) -> Result<T::Value, Error> {
        self.made(|part| seed.deserialize(part))
    }

    fn tuple_variant<V: Visitor<'de>>(mut self, _size: usize, visitor: V) -> Result<V::Value, Error> {
        self.made(|part| match part.value {
            Value::Array(items) => part.visit_items(items, visitor),
            _ => part.other_type("an array"),
        })
    }

    fn struct_variant<V: Visitor<'de>>(
        mut self,
        _fields: &'static [&'static str],
        visitor: V,
    ) -> Result<V::Value, Error> {
        self.made(|part| match part.value {
            Value::Object(members) => part.visit_members(members, visitor),
            _ => part.other_type("an object"),
        })
    }
}

/// The name of a member: a string, or for types of integers one that is written as a string.
struct Name<'de>(&'de str);

/// Methods of a deserializer for types of integers.
macro_rules! integers_as_strings {
    ($($method:ident)*) => {$(
        fn $method<V: Visitor<'de>>(self, visitor: V) -> Result<V::Value, Error> {
            match integer(self.0) {
                Some(integer) => visit_integer(integer, visitor),
                None => self.deserialize_any(visitor),
            }
        }
    )*};
}

impl<'de> Deserializer<'de> for Name<'de> {
    type Error = Error;

    fn deserialize_any<V: Visitor<'de>>(self, visitor: V) -> Result<V::Value, Error> {
        visitor.visit_borrowed_str(self.0)
    }

    integers_as_strings! {
        deserialize_i8 deserialize_i16 deserialize_i32 deserialize_i64 deserialize_i128
        deserialize_u8 deserialize_u16 deserialize_u32 deserialize_u64 deserialize_u128
    }

    fn deserialize_option<V: Visitor<'de>>(self, visitor: V) -> Result<V::Value, Error> {
        visitor.visit_some(self)
    }

    fn deserialize_newtype_struct<V: Visitor<'de>>(self, _name: &'static str, visitor: V) -> Result<V::Value, Error> {
        visitor.visit_newtype_struct(self)
    }

    fn deserialize_enum<V: Visitor<'de>>(
        self,
        _name: &'static str,
        _variants: &'static [&'static str],
        visitor: V,
    ) -> Result<V::Value, Error> {
        visitor.visit_enum(self.0.into_deserializer())
    }

    forward_to_deserialize_any! {
        bool f32 f64 char str string bytes byte_buf unit unit_struct seq tuple tuple_struct map struct identifier
        ignored_any
    }
}

/// A number, with all digits where the format is of this crate. Other formats give an integer, or a double, whose
/// shortest decimal it is.
impl<'de> Deserialize<'de> for Number {
    fn deserialize<D: Deserializer<'de>>(deserializer: D) -> Result<Number, D::Error> {
        deserializer.deserialize_newtype_struct(NUMBER, NumberVisitor)
    }
}

struct NumberVisitor;

/// Methods of a visitor that make a number, or what has one.
macro_rules! visit_numbers {
    ($($method:ident($name:ident: $type:ty) -> $number:expr;)*) => {$(
        fn $method<E: de::Error>(self, $name: $type) -> Result<Self::Value, E> {
            let number: Option<Number> = $number;
            let number = number.ok_or_else(|| E::custom(format_args!("{} has no number of 38 digits", $name)))?;
            Ok(number.into())
        }
    )*};
}

/// All methods of a visitor that make a number.
macro_rules! visit_all_numbers {
    () => {
        visit_numbers! {
            visit_i64(integer: i64) -> Some(integer.into());
            visit_u64(integer: u64) -> Some(integer.into());
            visit_i128(integer: i128) -> Some(integer.into());
            visit_u128(integer: u128) -> integer.try_into().ok();
            visit_f32(double: f32) -> Number::of_scientific(&format!("{double:?}"));
            visit_f64(double: f64) -> Number::shortest(double);
        }

        fn visit_bytes<E: de::Error>(self, bytes: &[u8]) -> Result<Self::Value, E> {
            Ok(number_of::<E>(bytes)?.into())
        }
    };
}

impl<'de> Visitor<'de> for NumberVisitor {
    type Value = Number;

    fn expecting(&self, out: &mut fmt::Formatter<'_>) -> fmt::Result {
        out.write_str("a number")
    }

    fn visit_newtype_struct<D: Deserializer<'de>>(self, deserializer: D) -> Result<Number, D::Error> {
        deserializer.deserialize_any(self)
    }

    visit_all_numbers! {}
}

/// The value as it is, with numbers as [`Number`] has them. An error where more than 512 arrays and objects are nested,
/// which bounds the machine stack that is taken, and where a name is twice in an object.
impl<'de> Deserialize<'de> for Value {
    fn deserialize<D: Deserializer<'de>>(deserializer: D) -> Result<Value, D::Error> {
        ValueVisitor { levels: 0 }.deserialize(deserializer)
    }
}

/// The key of the value.
impl<'de> Deserialize<'de> for Key {
    fn deserialize<D: Deserializer<'de>>(deserializer: D) -> Result<Key, D::Error> {
        Key::try_from(&Value::deserialize(deserializer)?).map_err(D::Error::custom)
    }
}

/// The document of the value, with all its digits.
impl<'de> Deserialize<'de> for Document {
    fn deserialize<D: Deserializer<'de>>(deserializer: D) -> Result<Document, D::Error> {
        Document::try_from(&Value::deserialize(deserializer)?).map_err(D::Error::custom)
    }
}

/// Makes a value that is inside of so many arrays and objects.
#[derive(Clone, Copy)]
struct ValueVisitor {
    levels: usize,
}

impl ValueVisitor {
    /// Makes the parts of an array or an object.
    fn parts<E: de::Error>(self) -> Result<ValueVisitor, E> {
        Ok(ValueVisitor { levels: inner_levels(self.levels).map_err(E::custom)? })
    }
}

impl<'de> DeserializeSeed<'de> for ValueVisitor {
    type Value = Value;

    fn deserialize<D: Deserializer<'de>>(self, deserializer: D) -> Result<Value, D::Error> {
        deserializer.deserialize_newtype_struct(NUMBER, self)
    }
}

impl<'de> Visitor<'de> for ValueVisitor {
    type Value = Value;

    fn expecting(&self, out: &mut fmt::Formatter<'_>) -> fmt::Result {
        out.write_str("a value of JSON")
    }

    fn visit_newtype_struct<D: Deserializer<'de>>(self, deserializer: D) -> Result<Value, D::Error> {
        deserializer.deserialize_any(self)
    }

    visit_all_numbers! {}

    fn visit_bool<E>(self, boolean: bool) -> Result<Value, E> {
        Ok(boolean.into())
    }

    fn visit_str<E>(self, text: &str) -> Result<Value, E> {
        Ok(text.into())
    }

    fn visit_string<E>(self, text: String) -> Result<Value, E> {
        Ok(text.into())
    }

    fn visit_unit<E>(self) -> Result<Value, E> {
        Ok(Value::Null)
    }

    fn visit_none<E>(self) -> Result<Value, E> {
        Ok(Value::Null)
    }

    fn visit_some<D: Deserializer<'de>>(self, deserializer: D) -> Result<Value, D::Error> {
        self.deserialize(deserializer)
    }

    fn visit_seq<A: SeqAccess<'de>>(self, mut access: A) -> Result<Value, A::Error> {
        let (parts, mut items) = (self.parts()?, Vec::new());
        while let Some(item) = access.next_element_seed(parts)? {
            items.push(item);
        }
        Ok(Value::Array(items))
    }

    fn visit_map<A: MapAccess<'de>>(self, mut access: A) -> Result<Value, A::Error> {
        let (parts, mut members) = (self.parts()?, Object::new());
        while let Some(name) = access.next_key::<String>()? {
            match members.entry(name) {
                btree_map::Entry::Vacant(entry) => drop(entry.insert(access.next_value_seed(parts)?)),
                btree_map::Entry::Occupied(entry) => {
                    return Err(A::Error::custom(format_args!("duplicate object attribute \"{}\"", entry.key())));
                }
            }
        }
        Ok(Value::Object(members))
    }
}
