//! Steps from a value to one of its parts.

use crate::{Error, Value};
use std::str::FromStr;

/// A step from a [`Value`] to a part of it: the name of a member (`&str`, `&String`, `String`), or the index of an item
/// from 0 on (`usize`).
///
/// ```
/// let value: vizhoniku::Value = r#"{"a": [1]}"#.parse()?;
/// let name = String::from("a");
/// assert_eq!(value.get("a").and_then(|a| a.get(0)), Some(&value[&name][0]));
/// # Ok::<(), vizhoniku::Error>(())
/// ```
pub trait Step: sealed::Step {}

impl<S: sealed::Step + ?Sized> Step for S {}

mod sealed {
    use crate::Value;

    pub trait Step {
        /// The part that the step leads to.
        fn of<'a>(&self, value: &'a Value) -> Option<&'a Value>;

        /// The part that the step leads to, to be changed.
        fn of_mut<'a>(&self, value: &'a mut Value) -> Option<&'a mut Value>;
    }

    impl Step for str {
        fn of<'a>(&self, value: &'a Value) -> Option<&'a Value> {
            value.as_object()?.get(self)
        }

        fn of_mut<'a>(&self, value: &'a mut Value) -> Option<&'a mut Value> {
            value.as_object_mut()?.get_mut(self)
        }
    }

    impl Step for String {
        fn of<'a>(&self, value: &'a Value) -> Option<&'a Value> {
            self.as_str().of(value)
        }

        fn of_mut<'a>(&self, value: &'a mut Value) -> Option<&'a mut Value> {
            self.as_str().of_mut(value)
        }
    }

    impl Step for usize {
        fn of<'a>(&self, value: &'a Value) -> Option<&'a Value> {
            value.as_array()?.get(*self)
        }

        fn of_mut<'a>(&self, value: &'a mut Value) -> Option<&'a mut Value> {
            value.as_array_mut()?.get_mut(*self)
        }
    }

    impl<S: Step + ?Sized> Step for &S {
        fn of<'a>(&self, value: &'a Value) -> Option<&'a Value> {
            (**self).of(value)
        }

        fn of_mut<'a>(&self, value: &'a mut Value) -> Option<&'a mut Value> {
            (**self).of_mut(value)
        }
    }
}

/// A step of a path: a name, and in an array an index, where it is digits without leading zeros.
pub(crate) struct PathStep(String);

impl PathStep {
    pub(crate) fn of<'a>(&self, value: &'a Value) -> Option<&'a Value> {
        match value {
            Value::Array(_) => value.get(integer::<usize>(&self.0)?),
            _ => value.get(&self.0),
        }
    }

    pub(crate) fn of_mut<'a>(&self, value: &'a mut Value) -> Option<&'a mut Value> {
        match value {
            Value::Array(_) => value.get_mut(integer::<usize>(&self.0)?),
            _ => value.get_mut(&self.0),
        }
    }
}

/// The steps of a path, a JSON Pointer (RFC 6901).
pub(crate) fn steps(path: &str) -> Result<impl Iterator<Item = PathStep> + '_, Error> {
    let mut escapes = path.split('~').skip(1);
    if !(path.is_empty() || path.starts_with('/')) || !escapes.all(|rest| rest.starts_with(['0', '1'])) {
        return Err(Error::NoPath);
    }
    Ok(path.split('/').skip(1).map(|step| PathStep(step.replace("~1", "/").replace("~0", "~"))))
}

/// The integer of a text that is its one form: digits without leading zeros, with a minus where it is negative.
pub(crate) fn integer<T: FromStr + ToString>(text: &str) -> Option<T> {
    text.parse().ok().filter(|integer: &T| integer.to_string() == text)
}
