//! Numbers of values, exactly.

use crate::{ConversionError, Error, Value};
use std::fmt::{self, Write};
use std::str::FromStr;

/// The least integer with more digits than a number of a key or a document has.
const BOUND: u128 = 10u128.pow(38);

/// How many digits of a number of a key or a document are behind the point at most.
const MOST_BEHIND_THE_POINT: u32 = 38;

/// A number, exactly: `digits` divided by ten to the power of `scale`. That of a key or a document has at most 38
/// digits, before and behind the point together.
///
/// Two are equal where their texts are: 1.5 isn't 1.50, but [`Number::normalized`] makes them so. None becomes a double
/// but by a call that says so.
///
/// ```
/// use vizhoniku::Number;
///
/// let price: Number = "1.50".parse()?;
/// assert_eq!(price, Number { digits: 150, scale: 2 });
/// assert_eq!((price.to_string(), price.normalized().to_string()), ("1.50".into(), "1.5".into()));
/// assert_eq!(Number::from(-7_i32).to_string(), "-7");
/// assert_eq!("25e-1".parse::<Number>()?.to_string(), "2.5");
/// # Ok::<(), vizhoniku::Error>(())
/// ```
#[derive(Clone, Copy, Debug, Default, PartialEq, Eq, Hash)]
pub struct Number {
    /// The digits as an integer.
    pub digits: i128,
    /// How many of them are behind the point.
    pub scale: u32,
}

impl Number {
    /// The digits where so many are behind the point, as cents for 2: `None` where that isn't exact, or too large.
    ///
    /// ```
    /// let price: vizhoniku::Number = "1.5".parse()?;
    /// assert_eq!((price.at_scale(2), price.at_scale(0)), (Some(150), None));
    /// # Ok::<(), vizhoniku::Error>(())
    /// ```
    pub fn at_scale(self, scale: u32) -> Option<i128> {
        if scale >= self.scale {
            return self.digits.checked_mul(10i128.checked_pow(scale - self.scale)?);
        }
        let number = self.normalized();
        if number.scale > scale {
            return None;
        }
        number.digits.checked_mul(10i128.checked_pow(scale - number.scale)?)
    }

    /// The same number with the fewest digits, as a key has it: 1.5 for 1.50, and 10 for 10.0.
    ///
    /// ```
    /// let [one, two] = ["1.500", "1.5"].map(|text| text.parse::<vizhoniku::Number>());
    /// assert_eq!(one?.normalized(), two?);
    /// # Ok::<(), vizhoniku::Error>(())
    /// ```
    #[must_use]
    pub fn normalized(self) -> Number {
        let Number { mut digits, mut scale } = self;
        if digits == 0 {
            return Number::default();
        }
        while scale > 0 && digits % 10 == 0 {
            digits /= 10;
            scale -= 1;
        }
        Number { digits, scale }
    }

    /// The double that is nearest to the number. `f64::try_from(number)` is only that which is the number exactly.
    ///
    /// ```
    /// let tenth: vizhoniku::Number = "0.1".parse()?;
    /// assert_eq!(tenth.to_f64(), 0.1);
    /// assert!(f64::try_from(tenth).is_err());
    /// # Ok::<(), vizhoniku::Error>(())
    /// ```
    pub fn to_f64(self) -> f64 {
        self.nearest().unwrap_or(f64::NAN)
    }

    /// The decimal with the fewest digits that the double is the nearest one to, as programs write doubles: 0.1 for
    /// 0.1, and 5.0 for 5. `None` for an infinity and what is no number, and where the decimal takes more than 38
    /// digits. `Number::try_from(double)` is exactly the double.
    ///
    /// ```
    /// use vizhoniku::Number;
    ///
    /// assert_eq!(Number::shortest(0.1), Some(Number { digits: 1, scale: 1 }));
    /// assert_eq!((Number::shortest(1e300), Number::shortest(f64::NAN)), (None, None));
    /// ```
    pub fn shortest(double: f64) -> Option<Number> {
        Number::of_scientific(&format!("{double:?}"))
    }

    /// The double that is nearest to the number, where the shortest decimal of that is the number again.
    #[cfg(feature = "serde")]
    pub(crate) fn as_double(self) -> Option<f64> {
        let double = self.to_f64();
        (Number::shortest(double)?.normalized() == self.normalized()).then_some(double)
    }

    /// The number of a binary type that is nearest to the number.
    pub(crate) fn nearest<T: FromStr>(self) -> Option<T> {
        format!("{}e-{}", self.digits, self.scale).parse().ok()
    }

    /// The number that digits spell, with a minus or none and a point or none, as `-1.50`.
    pub(crate) fn of_plain(text: &str) -> Option<Number> {
        let (whole, fraction) = text.split_once('.').unwrap_or((text, ""));
        let digits = [whole, fraction].concat().parse().ok()?;
        Some(Number { digits, scale: fraction.len() as u32 })
    }

    /// The number that digits spell with an exponent or none, as `-1.5e-7`, where it has at most 38 digits.
    pub(crate) fn of_scientific(text: &str) -> Option<Number> {
        let (front, exponent) = text.split_once('e').unwrap_or((text, "0"));
        let Number { digits, scale } = Number::of_plain(front)?;
        let scale = i64::from(scale) - exponent.parse::<i64>().ok()?;
        let power = 10i128.checked_pow(u32::try_from(-scale).unwrap_or(0))?;
        Number { digits: digits.checked_mul(power)?, scale: u32::try_from(scale).unwrap_or(0) }.in_range()
    }

    /// The number, where a key or a document can have it.
    fn in_range(self) -> Option<Number> {
        (self.digits.unsigned_abs() < BOUND && self.scale <= MOST_BEHIND_THE_POINT).then_some(self)
    }

    /// The double that is the number exactly: an integer of at most 53 bits by a power of two.
    fn exact_double(self) -> Option<f64> {
        let Number { digits, scale } = self.normalized();
        let power = 5i128.checked_pow(scale)?;
        if digits == 0 || digits % power != 0 {
            return (digits == 0).then_some(0.0);
        }
        let integer = digits / power;
        let is_exact = (integer >> integer.trailing_zeros()).unsigned_abs() < 1 << 53;
        is_exact.then(|| integer as f64 / 2f64.powi(scale as i32))
    }
}

/// Exactly the double, where at most 38 digits are: 0.5, and no 0.1, since the double of that name is another number.
///
/// ```
/// use vizhoniku::Number;
///
/// assert_eq!(Number::try_from(-0.5), Ok(Number { digits: -5, scale: 1 }));
/// assert!(Number::try_from(0.1).is_err());
/// ```
impl TryFrom<f64> for Number {
    type Error = ConversionError;

    fn try_from(double: f64) -> Result<Number, ConversionError> {
        let text = format!("{double:.38}");
        let number = Number::of_plain(text.trim_end_matches('0').trim_end_matches('.')).and_then(Number::in_range);
        number.filter(|number| number.exact_double() == Some(double)).ok_or(ConversionError::Digits)
    }
}

/// The double that is exactly the number.
///
/// ```
/// use vizhoniku::Number;
///
/// assert_eq!(f64::try_from(Number { digits: 150, scale: 2 }), Ok(1.5));
/// assert!(f64::try_from(Number { digits: 1, scale: 1 }).is_err());
/// ```
impl TryFrom<Number> for f64 {
    type Error = ConversionError;

    fn try_from(number: Number) -> Result<f64, ConversionError> {
        number.exact_double().ok_or(ConversionError::Number { expected: "f64", found: number })
    }
}

/// An integer of 128 bits without a sign, where one with a sign has it.
impl TryFrom<u128> for Number {
    type Error = ConversionError;

    fn try_from(integer: u128) -> Result<Number, ConversionError> {
        i128::try_from(integer).map(Number::from).map_err(|_| ConversionError::Digits)
    }
}

macro_rules! from_integers {
    ($($type:ty)*) => {$(
        impl From<$type> for Number {
            fn from(integer: $type) -> Number {
                Number { digits: integer as i128, scale: 0 }
            }
        }
    )*};
}

from_integers! { i8 i16 i32 i64 i128 isize u8 u16 u32 u64 usize }

macro_rules! into_integers {
    ($($type:ident)*) => {$(
        /// The integer that is exactly the number.
        impl TryFrom<Number> for $type {
            type Error = ConversionError;

            fn try_from(number: Number) -> Result<$type, ConversionError> {
                let integer = number.at_scale(0).and_then(|integer| integer.try_into().ok());
                integer.ok_or(ConversionError::Number { expected: stringify!($type), found: number })
            }
        }
    )*};
}

into_integers! { i8 i16 i32 i64 i128 isize u8 u16 u32 u64 u128 usize }

/// The number of a text, as JSON has it ([`crate::Mode::Json`]). An error is [`Error::Rejected`] where the text is no
/// document, and [`Error::Mismatch`] where it is one of another kind.
impl FromStr for Number {
    type Err = Error;

    fn from_str(text: &str) -> Result<Number, Error> {
        Ok(Number::try_from(&text.parse::<Value>()?)?)
    }
}

/// The digits, with a minus where the number is negative, and a point where some are behind it.
impl fmt::Display for Number {
    fn fmt(&self, out: &mut fmt::Formatter<'_>) -> fmt::Result {
        let (digits, scale) = (self.digits.unsigned_abs().to_string(), self.scale as usize);
        out.write_str(if self.digits < 0 { "-" } else { "" })?;
        if scale == 0 {
            return out.write_str(&digits);
        }
        if digits.len() > scale {
            let (whole, fraction) = digits.split_at(digits.len() - scale);
            return write!(out, "{whole}.{fraction}");
        }
        out.write_str("0.")?;
        (digits.len()..scale).try_for_each(|_| out.write_char('0'))?;
        out.write_str(&digits)
    }
}
