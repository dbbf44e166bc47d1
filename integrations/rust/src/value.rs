//! Values of Rust: what a key or a document is of, to match on, and the way back.

use crate::step::{steps, Step};
use crate::{document, sort_key, Document, Error, Key, KeyRef, Kind, Mode, Number};
use std::collections::{btree_map, BTreeMap};
use std::fmt::{self, Write};
use std::ops::Index;
use std::slice;
use std::str::FromStr;

/// The members of an object, in the order of the bytes of their names.
///
/// ```
/// let members = vizhoniku::Object::from([("b".into(), 1.into()), ("a".into(), 2.into())]);
/// assert_eq!(vizhoniku::Value::from(members).to_string(), r#"{"a":2,"b":1}"#);
/// ```
pub type Object = BTreeMap<String, Value>;

/// A value of JSON, to match on, from [`KeyRef::to_value`], [`Document::to_value`] and `parse`.
///
/// Values are equal where their texts are. Those that are the same number with other digits, as 1.5 and 1.50, have equal
/// keys. They have no order: that is the one of their keys. A value of a key or a document has at most 512 levels, so
/// that it is cloned, compared and dropped within a bound of the machine stack; what a program nests deeper has none.
///
/// ```
/// use vizhoniku::{document, Document, Mode, Value};
///
/// let order = document(r#"{"id": 7, "lines": [{"price": 1.50}, {"price": 0.25}]}"#, Mode::Extended)?.to_value()?;
/// let cents = |line: &Value| line.get("price")?.as_number()?.at_scale(2);
/// let total: i128 = match order.get("lines") {
///     Some(Value::Array(lines)) => lines.iter().filter_map(cents).sum(),
///     _ => 0,
/// };
/// assert_eq!(total, 175);
/// assert_eq!(order.to_string(), r#"{"id":7,"lines":[{"price":1.50},{"price":0.25}]}"#);
/// assert_eq!(Document::try_from(&order)?.to_string(), order.to_string());
/// # Ok::<(), vizhoniku::Error>(())
/// ```
#[derive(Clone, Debug, Default, PartialEq, Eq, Hash)]
pub enum Value {
    /// `null`
    #[default]
    Null,
    /// `true` or `false`
    Bool(bool),
    /// A number.
    Number(Number),
    /// A string.
    String(String),
    /// An array.
    Array(Vec<Value>),
    /// An object.
    Object(Object),
}

impl Value {
    /// The kind of the value.
    ///
    /// ```
    /// use vizhoniku::{Kind, Value};
    ///
    /// assert_eq!((Value::from("x").kind(), Value::Null.kind()), (Kind::String, Kind::Null));
    /// ```
    pub fn kind(&self) -> Kind {
        match self {
            Value::Null => Kind::Null,
            Value::Bool(_) => Kind::Boolean,
            Value::Number(_) => Kind::Number,
            Value::String(_) => Kind::String,
            Value::Array(_) => Kind::Array,
            Value::Object(_) => Kind::Object,
        }
    }

    /// The member of an object by its name, or the item of an array by its index from 0 on. `None` where there is none,
    /// and for other kinds.
    ///
    /// ```
    /// let value: vizhoniku::Value = r#"{"tags": ["x"]}"#.parse()?;
    /// assert_eq!(value.get("tags").and_then(|tags| tags.get(0)?.as_str()), Some("x"));
    /// assert_eq!((value.get("name"), value.get(0)), (None, None));
    /// # Ok::<(), vizhoniku::Error>(())
    /// ```
    pub fn get<S: Step>(&self, step: S) -> Option<&Value> {
        step.of(self)
    }

    /// What [`Value::get`] finds, to be changed.
    ///
    /// ```
    /// let mut value: vizhoniku::Value = r#"{"age": 41}"#.parse()?;
    /// if let Some(age) = value.get_mut("age") {
    ///     *age = 42.into();
    /// }
    /// assert_eq!(value.to_string(), r#"{"age":42}"#);
    /// # Ok::<(), vizhoniku::Error>(())
    /// ```
    pub fn get_mut<S: Step>(&mut self, step: S) -> Option<&mut Value> {
        step.of_mut(self)
    }

    /// The part at the path, a JSON Pointer (RFC 6901), or `None` where there is none.
    ///
    /// # Errors
    ///
    /// [`Error::NoPath`].
    ///
    /// ```
    /// let value: vizhoniku::Value = r#"{"tags": ["x", "y"]}"#.parse()?;
    /// assert_eq!(value.pointer("/tags/1")?.and_then(|tag| tag.as_str()), Some("y"));
    /// assert_eq!(value.pointer("/tags/2")?, None);
    /// # Ok::<(), vizhoniku::Error>(())
    /// ```
    pub fn pointer(&self, path: &str) -> Result<Option<&Value>, Error> {
        Ok(steps(path)?.try_fold(self, |value, step| step.of(value)))
    }

    /// What [`Value::pointer`] finds, to be changed.
    ///
    /// # Errors
    ///
    /// [`Error::NoPath`].
    ///
    /// ```
    /// let mut value: vizhoniku::Value = r#"{"tags": ["x", "y"]}"#.parse()?;
    /// if let Some(tag) = value.pointer_mut("/tags/0")? {
    ///     *tag = "z".into();
    /// }
    /// assert_eq!(value.to_string(), r#"{"tags":["z","y"]}"#);
    /// # Ok::<(), vizhoniku::Error>(())
    /// ```
    pub fn pointer_mut(&mut self, path: &str) -> Result<Option<&mut Value>, Error> {
        Ok(steps(path)?.try_fold(self, |value, step| step.of_mut(value)))
    }

    /// The items of an array in their order. There are none where the value is no array.
    ///
    /// ```
    /// let value: vizhoniku::Value = "[1, 2, 3]".parse()?;
    /// assert_eq!(value.items().filter_map(|item| item.as_i64()).sum::<i64>(), 6);
    /// # Ok::<(), vizhoniku::Error>(())
    /// ```
    pub fn items(&self) -> slice::Iter<'_, Value> {
        self.as_array().unwrap_or_default().iter()
    }

    /// The members of an object in the order of the bytes of their names. There are none where the value is no object.
    ///
    /// ```
    /// let value: vizhoniku::Value = r#"{"b": 1, "a": 2}"#.parse()?;
    /// assert_eq!(value.members().map(|(name, _)| name).collect::<Vec<_>>(), ["a", "b"]);
    /// # Ok::<(), vizhoniku::Error>(())
    /// ```
    pub fn members(&self) -> impl Iterator<Item = (&str, &Value)> {
        self.as_object().into_iter().flatten().map(|(name, value)| (name.as_str(), value))
    }

    /// Whether the value is a null.
    ///
    /// ```
    /// assert!(vizhoniku::Value::default().is_null());
    /// ```
    pub fn is_null(&self) -> bool {
        matches!(self, Value::Null)
    }

    /// The members of an object. `None` for other kinds.
    ///
    /// ```
    /// let value: vizhoniku::Value = r#"{"a": 1}"#.parse()?;
    /// assert_eq!(value.as_object().map(|members| members.len()), Some(1));
    /// # Ok::<(), vizhoniku::Error>(())
    /// ```
    pub fn as_object(&self) -> Option<&Object> {
        if let Value::Object(members) = self {
            Some(members)
        } else {
            None
        }
    }

    /// The members of an object, to be changed. `None` for other kinds.
    ///
    /// ```
    /// let mut value: vizhoniku::Value = r#"{"a": 1}"#.parse()?;
    /// if let Some(members) = value.as_object_mut() {
    ///     members.insert("b".into(), 2.into());
    /// }
    /// assert_eq!(value.to_string(), r#"{"a":1,"b":2}"#);
    /// # Ok::<(), vizhoniku::Error>(())
    /// ```
    pub fn as_object_mut(&mut self) -> Option<&mut Object> {
        if let Value::Object(members) = self {
            Some(members)
        } else {
            None
        }
    }

    /// The items of an array. `None` for other kinds.
    ///
    /// ```
    /// let value: vizhoniku::Value = "[1, true]".parse()?;
    /// assert_eq!(value.as_array(), Some(&[1.into(), true.into()][..]));
    /// # Ok::<(), vizhoniku::Error>(())
    /// ```
    pub fn as_array(&self) -> Option<&[Value]> {
        if let Value::Array(items) = self {
            Some(items)
        } else {
            None
        }
    }

    /// The items of an array, to be changed. `None` for other kinds.
    ///
    /// ```
    /// let mut value: vizhoniku::Value = "[1]".parse()?;
    /// if let Some(items) = value.as_array_mut() {
    ///     items.push("x".into());
    /// }
    /// assert_eq!(value.to_string(), r#"[1,"x"]"#);
    /// # Ok::<(), vizhoniku::Error>(())
    /// ```
    pub fn as_array_mut(&mut self) -> Option<&mut Vec<Value>> {
        if let Value::Array(items) = self {
            Some(items)
        } else {
            None
        }
    }

    /// The text of a string. `None` for other kinds.
    ///
    /// ```
    /// assert_eq!(vizhoniku::Value::from("x").as_str(), Some("x"));
    /// ```
    pub fn as_str(&self) -> Option<&str> {
        if let Value::String(text) = self {
            Some(text)
        } else {
            None
        }
    }

    /// The number. `None` for other kinds.
    ///
    /// ```
    /// let value: vizhoniku::Value = "1.50".parse()?;
    /// assert_eq!(value.as_number().and_then(|number| number.at_scale(2)), Some(150));
    /// # Ok::<(), vizhoniku::Error>(())
    /// ```
    pub fn as_number(&self) -> Option<Number> {
        if let Value::Number(number) = self {
            Some(*number)
        } else {
            None
        }
    }

    /// The number, where it is an integer of this type. `None` for others and for other kinds.
    ///
    /// ```
    /// let [one, two] = ["8080.0", "8080.5"].map(|text| text.parse::<vizhoniku::Value>());
    /// assert_eq!((one?.as_i64(), two?.as_i64()), (Some(8080), None));
    /// # Ok::<(), vizhoniku::Error>(())
    /// ```
    pub fn as_i64(&self) -> Option<i64> {
        self.try_into().ok()
    }

    /// The number, where it is an integer of this type. `None` for others and for other kinds.
    ///
    /// ```
    /// assert_eq!(vizhoniku::Value::from(u64::MAX).as_u64(), Some(u64::MAX));
    /// assert_eq!(vizhoniku::Value::from(-1).as_u64(), None);
    /// ```
    pub fn as_u64(&self) -> Option<u64> {
        self.try_into().ok()
    }

    /// The double that is nearest to the number. `None` for other kinds. `f64::try_from(&value)` is only that which is
    /// the number exactly.
    ///
    /// ```
    /// let value: vizhoniku::Value = "0.1".parse()?;
    /// assert_eq!(value.as_f64(), Some(0.1));
    /// # Ok::<(), vizhoniku::Error>(())
    /// ```
    pub fn as_f64(&self) -> Option<f64> {
        self.as_number().map(Number::to_f64)
    }

    /// The boolean. `None` for other kinds.
    ///
    /// ```
    /// assert_eq!(vizhoniku::Value::from(true).as_bool(), Some(true));
    /// ```
    pub fn as_bool(&self) -> Option<bool> {
        self.try_into().ok()
    }
}

/// The member or the item that a step leads to, and a null where there is none, so that steps follow one another.
///
/// ```
/// let value: vizhoniku::Value = r#"{"tags": ["x", "y"]}"#.parse()?;
/// assert_eq!(value["tags"][1].as_str(), Some("y"));
/// assert!(value["tags"][2].is_null() && value["names"]["first"].is_null());
/// # Ok::<(), vizhoniku::Error>(())
/// ```
impl<S: Step> Index<S> for Value {
    type Output = Value;

    fn index(&self, step: S) -> &Value {
        static NULL: Value = Value::Null;
        self.get(step).unwrap_or(&NULL)
    }
}

/// The value of a text of JSON ([`Mode::Json`]), with all its digits. An error is [`Error::Rejected`] with the line,
/// the column and the path of the fault.
///
/// ```
/// use vizhoniku::Value;
///
/// assert_eq!("[1.50, null]".parse::<Value>()?, Value::from([Value::Number("1.50".parse()?), Value::Null]));
/// assert_eq!("[1.5,".parse::<Value>().unwrap_err().line(), Some(1));
/// # Ok::<(), vizhoniku::Error>(())
/// ```
impl FromStr for Value {
    type Err = Error;

    fn from_str(text: &str) -> Result<Value, Error> {
        document(text, Mode::Json)?.to_value()
    }
}

/// Writes a string in quotes. The library's escapes are shorter, but its parser takes these.
pub(crate) fn write_string(text: &str, out: &mut dyn Write) -> fmt::Result {
    out.write_char('"')?;
    for character in text.chars() {
        match character {
            '"' | '\\' => write!(out, "\\{character}")?,
            '\n' => out.write_str("\\n")?,
            '\r' => out.write_str("\\r")?,
            '\t' => out.write_str("\\t")?,
            '\0'..='\u{1f}' => write!(out, "\\u{:04x}", character as u32)?,
            _ => out.write_char(character)?,
        }
    }
    out.write_char('"')
}

/// What is still to be written of an array or an object.
enum Rest<'a> {
    Items(slice::Iter<'a, Value>),
    Members(btree_map::Iter<'a, String, Value>),
}

impl<'a> Rest<'a> {
    /// Writes a comma where one is due, and the name of the next part, or else the bracket at the end.
    fn write_next(&mut self, is_first: bool, out: &mut dyn Write) -> Result<Option<&'a Value>, fmt::Error> {
        let comma = if is_first { "" } else { "," };
        match self {
            Rest::Items(items) => {
                let item = items.next();
                out.write_str(if item.is_some() { comma } else { "]" })?;
                Ok(item)
            }
            Rest::Members(members) => {
                let member = members.next();
                out.write_str(if member.is_some() { comma } else { "}" })?;
                if let Some((name, _)) = member {
                    write_string(name, out)?;
                    out.write_char(':')?;
                }
                Ok(member.map(|(_, value)| value))
            }
        }
    }
}

/// Writes a scalar, or the bracket that begins an array or an object, whose rest it returns.
fn write_begin<'a>(value: &'a Value, out: &mut fmt::Formatter<'_>) -> Result<Option<Rest<'a>>, fmt::Error> {
    match value {
        Value::Null => out.write_str("null")?,
        Value::Bool(boolean) => write!(out, "{boolean}")?,
        Value::Number(number) => write!(out, "{number}")?,
        Value::String(text) => write_string(text, out)?,
        Value::Array(items) => {
            out.write_char('[')?;
            return Ok(Some(Rest::Items(items.iter())));
        }
        Value::Object(members) => {
            out.write_char('{')?;
            return Ok(Some(Rest::Members(members.iter())));
        }
    }
    Ok(None)
}

/// The text of the value, as the library writes it. It takes the same machine stack however deep the value is nested.
impl fmt::Display for Value {
    fn fmt(&self, out: &mut fmt::Formatter<'_>) -> fmt::Result {
        let (mut open, mut is_first) = (Vec::new(), true);
        open.extend(write_begin(self, out)?);
        while let Some(rest) = open.last_mut() {
            let begun = match rest.write_next(is_first, out)? {
                Some(part) => write_begin(part, out)?,
                None => {
                    open.pop();
                    None
                }
            };
            is_first = begun.is_some();
            open.extend(begun);
        }
        Ok(())
    }
}

/// An array or an object whose end is still to come, with the name of the member that is read.
enum Open {
    Items(Vec<Value>),
    Members(Object, String),
}

/// Reads a text that the library wrote, which has no whitespace, and is of its one form. It doesn't call itself, so
/// that a document of 512 levels takes no more of the stack than a flat one.
struct Reader<'a>(&'a str);

impl<'a> Reader<'a> {
    fn take(&mut self, size: usize) -> Option<&'a str> {
        let (taken, rest) = (self.0.get(..size)?, self.0.get(size..)?);
        self.0 = rest;
        Some(taken)
    }

    fn string(&mut self) -> Option<String> {
        self.take(1)?;
        let mut text = String::new();
        loop {
            text.push_str(self.take(self.0.find(['"', '\\'])?)?);
            if self.take(1)? == "\"" {
                return Some(text);
            }
            text.push(match self.take(1)? {
                "n" => '\n',
                "r" => '\r',
                "t" => '\t',
                "u" => char::from_u32(u32::from_str_radix(self.take(4)?, 16).ok()?)?,
                other => other.chars().next()?,
            });
        }
    }

    fn name(&mut self) -> Option<String> {
        let name = self.string()?;
        self.take(1)?;
        Some(name)
    }

    fn scalar(&mut self) -> Option<Value> {
        if self.0.starts_with('"') {
            return self.string().map(Value::String);
        }
        let end = self.0.find([',', ']', '}']).unwrap_or(self.0.len());
        Some(match self.take(end)? {
            "null" => Value::Null,
            "true" => Value::Bool(true),
            "false" => Value::Bool(false),
            number => Value::Number(Number::of_plain(number)?),
        })
    }

    /// A scalar or an empty container, or `None` where one is opened that has parts.
    fn start(&mut self, open: &mut Vec<Open>) -> Option<Option<Value>> {
        if !self.0.starts_with(['[', '{']) {
            return self.scalar().map(Some);
        }
        let is_array = self.take(1)? == "[";
        if self.0.starts_with([']', '}']) {
            self.take(1)?;
            return Some(Some(if is_array { Value::Array(Vec::new()) } else { Value::Object(Object::new()) }));
        }
        open.push(if is_array { Open::Items(Vec::new()) } else { Open::Members(Object::new(), self.name()?) });
        Some(None)
    }

    fn value(&mut self) -> Option<Value> {
        let mut open = Vec::new();
        loop {
            let mut value = match self.start(&mut open)? {
                Some(value) => value,
                None => continue,
            };
            loop {
                match open.last_mut() {
                    None => return self.0.is_empty().then_some(value),
                    Some(Open::Items(items)) => items.push(value),
                    Some(Open::Members(members, name)) => drop(members.insert(std::mem::take(name), value)),
                }
                if self.take(1)? == "," {
                    break;
                }
                value = match open.pop()? {
                    Open::Items(items) => Value::Array(items),
                    Open::Members(members, _) => Value::Object(members),
                };
            }
            if let Some(Open::Members(_, name)) = open.last_mut() {
                *name = self.name()?;
            }
        }
    }
}

impl KeyRef {
    /// The value, with the fewest digits in each number: 1.5 where the text had 1.50.
    ///
    /// # Errors
    ///
    /// Those of [`KeyRef::to_text`].
    ///
    /// ```
    /// let key = vizhoniku::sort_key("[1.50]", vizhoniku::Mode::Json)?;
    /// assert_eq!(key.to_value()?, "[1.5]".parse()?);
    /// # Ok::<(), vizhoniku::Error>(())
    /// ```
    pub fn to_value(&self) -> Result<Value, Error> {
        Reader(&self.to_text()?).value().ok_or(Error::NoKey)
    }
}

impl Document {
    /// The value, with all its digits.
    ///
    /// # Errors
    ///
    /// Those of [`Document::to_text`].
    ///
    /// ```
    /// let document = vizhoniku::document("[1.50]", vizhoniku::Mode::Json)?;
    /// assert_eq!(document.to_value()?, "[1.50]".parse()?);
    /// # Ok::<(), vizhoniku::Error>(())
    /// ```
    pub fn to_value(&self) -> Result<Value, Error> {
        Reader(&self.to_text()?).value().ok_or(Error::NoDocument)
    }
}

/// The key of the value. An error is [`Error::Rejected`] where a number has more than 38 digits, or arrays and objects
/// are nested more than 512 deep.
impl TryFrom<&Value> for Key {
    type Error = Error;

    fn try_from(value: &Value) -> Result<Key, Error> {
        sort_key(value.to_string(), Mode::Extended)
    }
}

/// The document of the value, with all its digits. An error is as that of a key.
impl TryFrom<&Value> for Document {
    type Error = Error;

    fn try_from(value: &Value) -> Result<Document, Error> {
        document(value.to_string(), Mode::Extended)
    }
}
