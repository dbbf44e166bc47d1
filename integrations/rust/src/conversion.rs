//! Values of Rust made of others, and what is in a value taken out as a type of Rust.

use crate::{Kind, Number, Object, Value};
use std::borrow::Cow;
use std::collections::HashMap;
use std::fmt;

/// Why a value isn't one of a type.
///
/// ```
/// use vizhoniku::{ConversionError, Kind, Value};
///
/// let error = u8::try_from(Value::from("x")).unwrap_err();
/// assert_eq!(error, ConversionError::Kind { expected: "u8", found: Kind::String });
/// assert_eq!(error.to_string(), "invalid type: string, expected u8");
/// assert_eq!(u8::try_from(Value::from(256)).unwrap_err().to_string(), "invalid value: number 256, expected u8");
/// ```
#[derive(Clone, Copy, Debug, PartialEq, Eq)]
#[non_exhaustive]
pub enum ConversionError {
    /// The value is of another kind.
    Kind {
        /// The type.
        expected: &'static str,
        /// The kind of the value.
        found: Kind,
    },
    /// The number isn't exactly one of the type.
    Number {
        /// The type.
        expected: &'static str,
        /// The number.
        found: Number,
    },
    /// The integer or the double isn't exactly a [`Number`].
    Digits,
}

impl fmt::Display for ConversionError {
    fn fmt(&self, out: &mut fmt::Formatter<'_>) -> fmt::Result {
        match self {
            ConversionError::Kind { expected, found } => write!(out, "invalid type: {found}, expected {expected}"),
            ConversionError::Number { expected, found } => {
                write!(out, "invalid value: number {found}, expected {expected}")
            }
            ConversionError::Digits => out.write_str("a number of at most 38 digits isn't exactly that"),
        }
    }
}

impl std::error::Error for ConversionError {}

macro_rules! from {
    ($($type:ty: $name:ident => $value:expr;)*) => {$(
        impl From<$type> for Value {
            fn from($name: $type) -> Value {
                $value
            }
        }
    )*};
}

from! {
    bool: it => Value::Bool(it);
    Number: it => Value::Number(it);
    &str: it => Value::String(it.into());
    &String: it => Value::String(it.clone());
    Cow<'_, str>: it => Value::String(it.into_owned());
    String: it => Value::String(it);
    Object: it => Value::Object(it);
}

macro_rules! from_integers {
    ($($type:ty)*) => {
        from! { $($type: it => Value::Number(it.into());)* }
    };
}

from_integers! { i8 i16 i32 i64 i128 isize u8 u16 u32 u64 usize }

/// A null for `None`.
impl<T: Into<Value>> From<Option<T>> for Value {
    fn from(it: Option<T>) -> Value {
        it.map_or(Value::Null, Into::into)
    }
}

impl<T: Into<Value>> From<Vec<T>> for Value {
    fn from(items: Vec<T>) -> Value {
        items.into_iter().collect()
    }
}

impl<T: Into<Value>, const N: usize> From<[T; N]> for Value {
    fn from(items: [T; N]) -> Value {
        items.into_iter().collect()
    }
}

impl<T: Into<Value> + Clone> From<&[T]> for Value {
    fn from(items: &[T]) -> Value {
        items.iter().cloned().collect()
    }
}

impl<S> From<HashMap<String, Value, S>> for Value {
    fn from(members: HashMap<String, Value, S>) -> Value {
        members.into_iter().collect()
    }
}

/// Exactly the double, as [`Number`] has it.
impl TryFrom<f64> for Value {
    type Error = ConversionError;

    fn try_from(double: f64) -> Result<Value, ConversionError> {
        Number::try_from(double).map(Value::Number)
    }
}

/// An array of the items.
///
/// ```
/// let squares: vizhoniku::Value = (1..4).map(|it| it * it).collect();
/// assert_eq!(squares.to_string(), "[1,4,9]");
/// ```
impl<T: Into<Value>> FromIterator<T> for Value {
    fn from_iter<I: IntoIterator<Item = T>>(items: I) -> Value {
        Value::Array(items.into_iter().map(Into::into).collect())
    }
}

/// An object of the members. Of those of one name the last one stays.
///
/// ```
/// let lengths: vizhoniku::Value = ["one", "three"].map(|word| (word, word.len())).into_iter().collect();
/// assert_eq!(lengths.to_string(), r#"{"one":3,"three":5}"#);
/// ```
impl<K: Into<String>, V: Into<Value>> FromIterator<(K, V)> for Value {
    fn from_iter<I: IntoIterator<Item = (K, V)>>(members: I) -> Value {
        Value::Object(members.into_iter().map(|(name, value)| (name.into(), value.into())).collect())
    }
}

/// What a value is of a kind, or the error that it is of another one.
macro_rules! into_kinds {
    ($($variant:ident: $type:ty, $expected:literal;)*) => {$(
        impl TryFrom<Value> for $type {
            type Error = ConversionError;

            fn try_from(value: Value) -> Result<$type, ConversionError> {
                match value {
                    Value::$variant(it) => Ok(it),
                    other => Err(ConversionError::Kind { expected: $expected, found: other.kind() }),
                }
            }
        }
    )*};
}

into_kinds! {
    Bool: bool, "bool";
    Number: Number, "number";
    String: String, "string";
    Array: Vec<Value>, "array";
    Object: Object, "object";
}

macro_rules! as_kinds {
    ($($variant:ident: $type:ty, $expected:literal, $name:ident => $it:expr;)*) => {$(
        impl<'a> TryFrom<&'a Value> for $type {
            type Error = ConversionError;

            fn try_from(value: &'a Value) -> Result<$type, ConversionError> {
                match value {
                    Value::$variant($name) => Ok($it),
                    other => Err(ConversionError::Kind { expected: $expected, found: other.kind() }),
                }
            }
        }
    )*};
}

as_kinds! {
    Bool: bool, "bool", it => *it;
    Number: Number, "number", it => *it;
    String: String, "string", it => it.clone();
    String: &'a str, "string", it => it;
    Array: &'a [Value], "array", it => it;
    Object: &'a Object, "object", it => it;
}

/// What the number of a value is, where it is exactly one of the type.
macro_rules! into_numbers {
    ($($type:ident)*) => {$(
        impl TryFrom<&Value> for $type {
            type Error = ConversionError;

            fn try_from(value: &Value) -> Result<$type, ConversionError> {
                match value {
                    Value::Number(number) => $type::try_from(*number),
                    other => Err(ConversionError::Kind { expected: stringify!($type), found: other.kind() }),
                }
            }
        }

        impl TryFrom<Value> for $type {
            type Error = ConversionError;

            fn try_from(value: Value) -> Result<$type, ConversionError> {
                $type::try_from(&value)
            }
        }
    )*};
}

into_numbers! { i8 i16 i32 i64 i128 isize u8 u16 u32 u64 u128 usize f64 }
