//! The feature serde: types that derive Serialize and Deserialize, beside what serde_json does with them.
#![cfg(feature = "serde")]

use serde::de::value::F32Deserializer;
use serde::de::{DeserializeOwned, DeserializeSeed, IntoDeserializer, SeqAccess, Visitor};
use serde::{forward_to_deserialize_any, Deserialize, Deserializer, Serialize, Serializer};
use std::collections::{BTreeMap, HashMap};
use std::ffi::CString;
use std::fmt::Debug;
use vizhoniku::{
    document, from_document, from_key, from_text, from_value, sort_key, text, to_document, to_key, to_text, to_value,
    Code, Document, Error, Key, Mode, Number, Value,
};

const LONG: &str = "0.12345678901234567890123456789012345678";
const LONG_INTEGER: &str = "-99999999999999999999999999999999999999";

fn value(text: &str) -> Value {
    text.parse().expect(text)
}

fn number(text: &str) -> Number {
    text.parse().expect(text)
}

#[derive(Clone, Debug, PartialEq, Serialize, Deserialize)]
struct Order {
    id: u64,
    customer: Customer,
    lines: Vec<Line>,
    note: Option<String>,
    #[serde(default)]
    paid: bool,
}

#[derive(Clone, Debug, PartialEq, Serialize, Deserialize)]
struct Customer(String);

#[derive(Clone, Debug, PartialEq, Serialize, Deserialize)]
struct Line {
    name: String,
    price: Number,
    count: u8,
}

const ORDER: &str = r#"{"id": 7, "customer": "ann", "note": null,
    "lines": [{"name": "cup", "price": 1.50, "count": 2}, {"count": 1, "price": 0.25, "name": "pen"}]}"#;

fn order() -> Order {
    let line = |name: &str, price, count| Line { name: name.into(), price: number(price), count };
    let lines = vec![line("cup", "1.50", 2), line("pen", "0.25", 1)];
    Order { id: 7, customer: Customer("ann".into()), lines, note: None, paid: false }
}

#[test]
fn a_struct_comes_out_and_goes_in() {
    assert_eq!(from_text::<Order>(ORDER, Mode::Json), Ok(order()));
    assert_eq!(from_document::<Order>(&document(ORDER, Mode::Json).unwrap()), Ok(order()));
    let of_key = from_key::<Order>(&sort_key(ORDER, Mode::Json).unwrap()).unwrap();
    assert_eq!(of_key.lines[0].price, number("1.5"));
    let written = concat!(
        r#"{"customer":"ann","id":7,"lines":[{"count":2,"name":"cup","price":1.50},"#,
        r#"{"count":1,"name":"pen","price":0.25}],"note":null,"paid":false}"#
    );
    assert_eq!(to_text(&order()).as_deref(), Ok(written));
    assert_eq!(to_document(&order()).unwrap().to_string(), written);
    assert_eq!(to_key(&order()), sort_key(written, Mode::Json));
    assert_eq!(to_value(&order()), Ok(value(written)));
    let lines: Vec<Line> = from_key(sort_key(ORDER, Mode::Json).unwrap().get("lines").unwrap()).unwrap();
    assert_eq!(lines.len(), 2);
}

#[derive(Clone, Debug, PartialEq, Serialize, Deserialize)]
enum Shape {
    Point,
    Circle(f64),
    Line(i32, i32),
    Box { width: u16, height: Option<u16> },
}

#[derive(Debug, PartialEq, Serialize, Deserialize)]
#[serde(tag = "type")]
enum Tagged {
    Price { amount: Number, rounded: f64 },
    Nothing,
}

#[derive(Debug, PartialEq, Serialize, Deserialize)]
#[serde(untagged)]
enum Untagged {
    Integer(i64),
    Text(String),
    Number(Number),
}

#[derive(Debug, PartialEq, Serialize, Deserialize)]
struct Unit;

#[derive(Debug, PartialEq, Serialize, Deserialize)]
struct Pair(i8, String);

/// What is written is the value that serde_json writes, and what is read is what it reads.
fn as_in_serde_json<T: Serialize + DeserializeOwned + PartialEq + Debug>(it: T) {
    let theirs = serde_json::to_string(&it).unwrap();
    let ours = to_text(&it).expect(&theirs);
    assert_eq!(Ok(&ours), text(&theirs, Mode::Json).as_ref());
    assert_eq!(from_text::<T>(&theirs, Mode::Json).as_ref(), Ok(&it), "{theirs}");
    assert_eq!(serde_json::from_str::<T>(&ours).ok().as_ref(), Some(&it), "{ours}");
}

#[test]
fn types_are_as_in_serde_json() {
    as_in_serde_json(vec![Shape::Point, Shape::Circle(0.1), Shape::Line(-1, 2)]);
    as_in_serde_json([Shape::Box { width: 1, height: None }, Shape::Box { width: 2, height: Some(65_535) }]);
    as_in_serde_json(vec![Shape::Line(0, 0); 600]);
    as_in_serde_json(vec![Tagged::Price { amount: number("1.5"), rounded: 1.5 }, Tagged::Nothing]);
    as_in_serde_json(vec![Untagged::Integer(1), Untagged::Text("1".into()), Untagged::Number(number("0.5"))]);
    as_in_serde_json((Unit, (), Pair(-1, "x".into()), Some(Some(true)), None::<u8>));
    as_in_serde_json(('é', "\"\\\n\u{1}😀".to_string(), vec![0_u8, 255], [[1.5_f32, 0.1]; 2]));
    as_in_serde_json((i8::MIN, i16::MIN, i32::MIN, i64::MIN, u8::MAX, u16::MAX, u32::MAX, u64::MAX));
    as_in_serde_json((10i128.pow(38) - 1, 1 - 10i128.pow(38), 10u128.pow(38) - 1));
    as_in_serde_json((5.0, -0.5, 1e16, 1e-7, 0.1 + 0.2, f32::MIN_POSITIVE.sqrt(), 123_456_789.125));
    as_in_serde_json(BTreeMap::from([(7_u64, "a"), (u64::MAX, "b")].map(|(name, it)| (name, it.to_string()))));
    as_in_serde_json(BTreeMap::from([((-7_i8), 1), (0, 2)]));
    as_in_serde_json(HashMap::from([('x', vec![None, Some(1)])]));
    as_in_serde_json(BTreeMap::from([("a/b~c".to_string(), BTreeMap::<String, u8>::new())]));
    as_in_serde_json(value(r#"{"a": [1, -2.5, "x", {}, [], null, true], "b": 18446744073709551615}"#));
}

#[test]
fn integers_are_exact() {
    assert_eq!(from_text::<i64>("-9223372036854775808", Mode::Json), Ok(i64::MIN));
    assert_eq!(from_text::<u64>("18446744073709551615", Mode::Json), Ok(u64::MAX));
    assert_eq!(from_text::<i128>(LONG_INTEGER, Mode::Json), Ok(1 - 10i128.pow(38)));
    assert_eq!(from_text::<u128>(&LONG_INTEGER[1..], Mode::Json), Ok(10u128.pow(38) - 1));
    assert_eq!((from_text::<u8>("2.0", Mode::Json), from_text::<u8>("25.5e1", Mode::Json)), (Ok(2), Ok(255)));
    for (given, message) in [
        ("256", "invalid value: integer `256`, expected u8"),
        ("-1", "invalid value: integer `-1`, expected u8"),
        ("1.5", "invalid type: floating point `1.5`, expected u8"),
        (LONG, "invalid type: number 0.12345678901234567890123456789012345678, expected u8"),
        ("\"1\"", "invalid type: string \"1\", expected u8"),
        ("null", "invalid type: null, expected u8"),
    ] {
        assert_eq!(from_text::<u8>(given, Mode::Json).unwrap_err().to_string(), message);
    }
    assert!(from_text::<i64>("9223372036854775808", Mode::Json).is_err());
    assert!(from_text::<u64>(&LONG_INTEGER[1..], Mode::Json).is_err());
}

/// A double is the nearest one to the number, also where that has 38 digits.
#[test]
fn doubles_are_the_nearest() {
    for given in ["0.1", "1.50", "9007199254740993", LONG, LONG_INTEGER, "1e-38", "0.30000000000000004"] {
        assert_eq!(from_text::<f64>(given, Mode::Json), Ok(given.parse().unwrap()), "{given}");
        assert_eq!(from_text::<f32>(given, Mode::Json), Ok(given.parse().unwrap()), "{given}");
    }
    // A little above the middle of 1 and the next f32, which is the nearest f64.
    let middle = "1.00000005960464477539062500001";
    assert_eq!(from_text::<f32>(middle, Mode::Json), Ok(1.000_000_1));
    for double in [f64::NAN, f64::INFINITY, f64::NEG_INFINITY] {
        let error = to_text(&BTreeMap::from([("a", [0.0, double])])).unwrap_err();
        assert_eq!((error.path(), error.line()), (Some("/a/1"), None), "{error}");
        assert_eq!(error.to_string(), format!("at /a/1: {double:?} isn't a number of JSON"));
    }
    assert!(to_text(&[f32::NAN]).is_err());
    for (variant, path) in [
        (Measure::One(f64::NAN), "/0/One"),
        (Measure::Two(0.0, f64::NAN), "/0/Two/1"),
        (Measure::Named { size: f64::NAN }, "/0/Named/size"),
    ] {
        assert_eq!(to_text(&[variant]).unwrap_err().path(), Some(path));
    }
    let error = to_text(&[1e300]).unwrap_err();
    assert_eq!(error.to_string(), "at /0: number not carried");
}

#[derive(Serialize)]
enum Measure {
    One(f64),
    Two(f64, f64),
    Named { size: f64 },
}

#[derive(Debug, PartialEq, Serialize, Deserialize)]
struct Exact {
    value: Value,
    number: Number,
    string: String,
}

#[derive(Debug, PartialEq, Serialize, Deserialize)]
struct Rest {
    id: u8,
    #[serde(flatten)]
    rest: BTreeMap<String, Value>,
}

#[test]
fn all_digits_are_kept() {
    for digits in ["1.50", "0.00", LONG, LONG_INTEGER, "-0.10", "18446744073709551616", "9007199254740993"] {
        let given = format!(r#"{{"number":{digits},"string":{digits},"value":[{digits}]}}"#);
        let exact: Exact = from_text(&given, Mode::Json).unwrap();
        assert_eq!((exact.number, exact.string.as_str()), (number(digits), digits));
        assert_eq!(exact.value, value(&format!("[{digits}]")));
        let written = given.replace(&format!("\"string\":{digits}"), &format!("\"string\":\"{digits}\""));
        assert_eq!(to_text(&exact), Ok(written));
        let one = value(&given);
        assert_eq!((from_value::<Value>(&one).as_ref(), to_value(&one).as_ref()), (Ok(&one), Ok(&one)));
        assert_eq!(from_text::<Vec<Value>>(format!("[{digits}]"), Mode::Json), Ok(vec![number(digits).into()]));
        assert_eq!(from_text::<Option<Number>>(digits, Mode::Json), Ok(Some(number(digits))));
    }
    // Where serde holds parts before it knows their type, a number keeps its value, and one with many digits all of
    // them.
    for (digits, kept) in [(LONG, LONG), (LONG_INTEGER, LONG_INTEGER), ("1.50", "1.5"), ("2.0", "2.0"), ("3", "3")] {
        let rest: Rest = from_text(format!(r#"{{"id":1,"a":[{digits}]}}"#), Mode::Json).unwrap();
        assert_eq!(rest.rest["a"], value(&format!("[{kept}]")));
        assert_eq!(to_text(&rest), Ok(format!(r#"{{"a":[{kept}],"id":1}}"#)));
        let one: Untagged = from_text(digits, Mode::Json).unwrap();
        assert_eq!(to_text(&one).as_deref(), Ok(kept));
    }
    let tagged = format!(r#"{{"amount":{LONG},"rounded":0.5,"type":"Price"}}"#);
    let price: Tagged = from_text(&tagged, Mode::Json).unwrap();
    assert_eq!(price, Tagged::Price { amount: number(LONG), rounded: 0.5 });
    assert_eq!(to_text(&price), Ok(tagged.clone()));
    // A double of such a part is an error, and not rounded, where no double has the digits.
    assert!(from_text::<Tagged>(tagged.replace("0.5", LONG), Mode::Json).is_err());
}

#[derive(Debug, PartialEq, Serialize, Deserialize)]
struct Row {
    key: Key,
    document: Document,
}

/// A key and a document are their values, in this crate's texts and in those of other formats.
#[test]
fn keys_and_documents_are_values() {
    let given = r#"{"document":{"a":[1.50]},"key":{"a":[1.50]}}"#;
    let part = r#"{"a":[1.50]}"#;
    let row = Row { key: sort_key(part, Mode::Json).unwrap(), document: document(part, Mode::Json).unwrap() };
    assert_eq!(from_text::<Row>(given, Mode::Json).as_ref(), Ok(&row));
    assert_eq!(to_text(&row).as_deref(), Ok(r#"{"document":{"a":[1.50]},"key":{"a":[1.5]}}"#));
    assert_eq!(to_text(row.key.get("a").unwrap()).as_deref(), Ok("[1.5]"));
    assert_eq!(serde_json::to_string(&row).unwrap(), r#"{"key":{"a":[1.5]},"document":{"a":[1.5]}}"#);
    assert_eq!(serde_json::from_str::<Row>(given).unwrap().key, row.key);
}

/// A text can't spell what this crate passes through serde.
#[test]
fn names_of_members_mean_nothing() {
    for text in [r#"{"$vizhoniku::Number":"5"}"#, r#"{"$serde_json::private::Number":"5"}"#] {
        assert_eq!(from_text::<Value>(text, Mode::Json), Ok(value(text)));
        assert_eq!(to_text(&value(text)).as_deref(), Ok(text));
        assert!(from_text::<Number>(text, Mode::Json).is_err());
    }
    assert!(from_text::<Number>("\"5\"", Mode::Json).is_err());
}

#[derive(Debug, Deserialize)]
#[serde(deny_unknown_fields)]
#[allow(dead_code)]
struct Strict {
    shape: Shape,
    lines: Vec<Line>,
    #[serde(default)]
    counts: BTreeMap<u8, bool>,
}

/// An error has the path of the part that doesn't fit.
#[test]
fn paths_of_errors() {
    for (given, message) in [
        (r#"{"lines": []}"#, "missing field `shape`"),
        (r#"{"shape": "Point", "lines": 1}"#, "at /lines: invalid type: integer `1`, expected a sequence"),
        (
            r#"{"shape": "Point", "lines": [{"name": "", "price": 1, "count": 1}, {"name": "", "price": "1", "count": 1}]}"#,
            "at /lines/1/price: invalid type: string \"1\", expected a number",
        ),
        (r#"{"shape": "Point", "lines": [{"name": "x"}]}"#, "at /lines/0: missing field `price`"),
        (
            r#"{"shape": "Square", "lines": []}"#,
            "at /shape: unknown variant `Square`, expected one of `Point`, `Circle`, `Line`, `Box`",
        ),
        (r#"{"shape": {"Line": [1, 2, 3]}, "lines": []}"#, "at /shape/Line: invalid length 3, expected fewer items"),
        (
            r#"{"shape": {"Line": [1, true]}, "lines": []}"#,
            "at /shape/Line/1: invalid type: boolean `true`, expected i32",
        ),
        (r#"{"shape": {"Line": {}}, "lines": []}"#, "at /shape/Line: invalid type: object, expected an array"),
        (r#"{"shape": {"Box": []}, "lines": []}"#, "at /shape/Box: invalid type: array, expected an object"),
        (r#"{"shape": {"Point": 1}, "lines": []}"#, "at /shape/Point: invalid type: integer `1`, expected unit"),
        (r#"{"shape": {}, "lines": []}"#, "at /shape: invalid value: map, expected an object with one member"),
        (
            r#"{"shape": {"Circle": 1, "Line": [1, 2]}, "lines": []}"#,
            "at /shape: invalid value: map, expected an object with one member",
        ),
        (r#"{"shape": null, "lines": []}"#, "at /shape: invalid type: null, expected a string or an object"),
        (
            r#"{"shape": "Point", "lines": [], "counts": {"07": true}}"#,
            "at /counts/07: invalid type: string \"07\", expected u8",
        ),
        (
            r#"{"shape": "Point", "lines": [], "counts": {"7": 1}}"#,
            "at /counts/7: invalid type: integer `1`, expected a boolean",
        ),
        (
            r#"{"shape": "Point", "lines": [], "a/b~": 1}"#,
            "at /a~1b~0: unknown field `a/b~`, expected one of `shape`, `lines`, `counts`",
        ),
    ] {
        let error = from_text::<Strict>(given, Mode::Json).unwrap_err();
        assert!(matches!(error, Error::Mismatch(_)), "{given}");
        assert_eq!(error.to_string(), message);
    }
    let error = from_text::<Strict>("{\"shape\": \"Point\",\n\"lines\": [1, nul]}", Mode::Json).unwrap_err();
    assert_eq!((error.line(), error.column(), error.path()), (Some(2), Some(17), Some("/lines/1")));
    assert_eq!(error.rejection().map(|it| it.code()), Some(Code::ExpectedSomeIdent));
}

/// Names of members are strings, or integers as strings, and none is there twice.
#[test]
fn names_of_members() {
    for (made, message) in [
        (to_text(&HashMap::from([(true, 1)])), "the name of a member must be a string or an integer"),
        (to_text(&HashMap::from([((1, 2), 1)])), "the name of a member must be a string or an integer"),
        (to_text(&HashMap::from([(None::<u8>, 1)])), "the name of a member must be a string or an integer"),
        (to_text(&[Twice]), "at /0/a: duplicate object attribute \"a\""),
        (to_text(&[10i128.pow(38)]), "at /0: number not carried"),
        (to_text(&Number { digits: 1, scale: 39 }), "number not carried"),
    ] {
        assert_eq!(made.unwrap_err().to_string(), message);
    }
    let names = BTreeMap::from([(Customer("x".into()).0, 1)]);
    assert_eq!(to_text(&names).as_deref(), Ok(r#"{"x":1}"#));
    let error = from_text::<BTreeMap<i8, u8>>(r#"{"-0": 1}"#, Mode::Json).unwrap_err();
    assert_eq!(error.path(), Some("/-0"));
    assert_eq!(from_text::<BTreeMap<i8, u8>>(r#"{"-1": 1}"#, Mode::Json), Ok(BTreeMap::from([(-1, 1)])));
}

struct Twice;

impl Serialize for Twice {
    fn serialize<S: Serializer>(&self, serializer: S) -> Result<S::Ok, S::Error> {
        serializer.collect_map([("a", 1), ("a", 2)])
    }
}

#[derive(Debug, PartialEq, Serialize, Deserialize)]
struct Nested {
    inner: Option<Box<Nested>>,
}

#[derive(Debug, PartialEq, Serialize, Deserialize)]
struct Arrays(Vec<Arrays>);

fn deep<T: Serialize + DeserializeOwned + PartialEq + Debug>(text: &str) {
    let read: T = from_text(text, Mode::Json).unwrap();
    assert_eq!(to_text(&read).as_deref(), Ok(text));
}

/// 512 levels fit in the stack of a thread of Rust, which is 2 MB, also where nothing is optimized.
#[test]
fn deep_documents() {
    let arrays = "[".repeat(512) + &"]".repeat(512);
    let objects = r#"{"inner":"#.repeat(511) + r#"{"inner":null}"# + &"}".repeat(511);
    let run = move || {
        deep::<Value>(&arrays);
        deep::<Value>(&objects);
        deep::<Arrays>(&arrays);
        deep::<Nested>(&objects);
        let deeper = Value::Array(vec![value(&arrays)]);
        assert_eq!(to_text(&deeper), Err(Error::TooDeep));
        assert_eq!(
            (to_text(&[value(&objects)]), to_key(&(Shape::Point, &deeper))),
            (Err(Error::TooDeep), Err(Error::TooDeep))
        );
        assert_eq!(from_value::<Value>(&deeper), Err(Error::TooDeep));
        assert_eq!(from_value::<Arrays>(&deeper), Err(Error::TooDeep));
        let error = serde_json::to_string(&deeper).unwrap_err();
        assert_eq!(error.to_string(), "the value would have more than 512 nested arrays and objects");
    };
    std::thread::Builder::new().stack_size(2 << 20).spawn(run).unwrap().join().unwrap();
}

/// A format of arrays that never end.
struct Endless;

impl<'de> Deserializer<'de> for Endless {
    type Error = Error;

    fn deserialize_any<V: Visitor<'de>>(self, visitor: V) -> Result<V::Value, Error> {
        visitor.visit_seq(self)
    }

    fn deserialize_newtype_struct<V: Visitor<'de>>(self, _name: &'static str, visitor: V) -> Result<V::Value, Error> {
        visitor.visit_newtype_struct(self)
    }

    forward_to_deserialize_any! {
        bool i8 i16 i32 i64 i128 u8 u16 u32 u64 u128 f32 f64 char str string bytes byte_buf option unit unit_struct seq
        tuple tuple_struct map struct enum identifier ignored_any
    }
}

impl<'de> SeqAccess<'de> for Endless {
    type Error = Error;

    fn next_element_seed<T: DeserializeSeed<'de>>(&mut self, seed: T) -> Result<Option<T::Value>, Error> {
        seed.deserialize(Endless).map(Some)
    }
}

#[test]
fn formats_without_an_end() {
    let run = || Value::deserialize(Endless).map_err(|error| error.to_string());
    let read = std::thread::Builder::new().stack_size(2 << 20).spawn(run).unwrap().join().unwrap();
    assert_eq!(read, Err(Error::TooDeep.to_string()));
}

/// Bytes take none that stand for a number.
#[test]
fn bytes() {
    let text = CString::new("x").unwrap();
    assert_eq!(to_text(&text).as_deref(), Ok("[120]"));
    assert_eq!(from_text::<CString>("[120]", Mode::Json), Ok(text));
    for given in ["1", LONG] {
        let error = from_text::<CString>(given, Mode::Json).unwrap_err();
        assert_eq!(error.to_string(), format!("invalid type: number {given}, expected byte array"));
    }
}

/// In other formats a number is an integer or a double, where that has its digits, and else an error.
#[test]
fn other_formats() {
    let all = value(r#"{"a": [1, -2, 18446744073709551615, 2.50, 0.1], "b": "x"}"#);
    let written = serde_json::to_string(&all).unwrap();
    assert_eq!(written, r#"{"a":[1,-2,18446744073709551615,2.5,0.1],"b":"x"}"#);
    assert_eq!(serde_json::from_str::<Value>(&written).unwrap(), value(&written));
    assert_eq!(serde_json::to_value(&all).unwrap(), serde_json::from_str::<serde_json::Value>(&written).unwrap());
    assert_eq!(serde_json::to_string(&number(LONG_INTEGER)).unwrap(), LONG_INTEGER);
    let error = serde_json::to_string(&number(LONG)).unwrap_err();
    assert_eq!(error.to_string(), format!("no double has the digits of {LONG}"));
    assert_eq!(serde_json::from_str::<Number>("0.1").unwrap(), number("0.1"));
    let of_float: F32Deserializer<Error> = 0.1_f32.into_deserializer();
    assert_eq!(Number::deserialize(of_float), Ok(number("0.1")));
    assert!(serde_json::from_str::<Number>("1e300").is_err() && serde_json::from_str::<Number>("\"1\"").is_err());
    let error = serde_json::from_str::<Value>(r#"{"a":1,"a":2}"#).unwrap_err();
    assert!(error.to_string().starts_with("duplicate object attribute \"a\""), "{error}");
    let theirs: serde_json::Value = from_text(&written, Mode::Json).unwrap();
    assert_eq!(theirs, serde_json::from_str::<serde_json::Value>(&written).unwrap());
    assert_eq!(to_text(&theirs), Ok(written));
    let error = from_text::<serde_json::Value>(format!("[{LONG}]"), Mode::Json).unwrap_err();
    assert_eq!(error.to_string(), format!("at /0: invalid type: number {LONG}, expected any valid JSON value"));
}
