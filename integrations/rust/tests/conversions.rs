//! Values and numbers made of Rust's own types, and these made of them: exactly, or with an error.

use std::collections::{BTreeMap, HashMap};
use std::error::Error as _;
use vizhoniku::{
    check, compare, sort_key, Code, ConversionError, Document, Error, Key, KeyRef, Kind, Mode, Number, Object, Value,
};

fn value(text: &str) -> Value {
    text.parse().expect(text)
}

fn number(text: &str) -> Number {
    text.parse().expect(text)
}

#[test]
fn made_of_other_types() {
    for (made, text) in [
        (Value::from(true), "true"),
        (i8::MIN.into(), "-128"),
        (u16::MAX.into(), "65535"),
        (i64::MIN.into(), "-9223372036854775808"),
        (u64::MAX.into(), "18446744073709551615"),
        ((10i128.pow(38) - 1).into(), "99999999999999999999999999999999999999"),
        (7_usize.into(), "7"),
        ((-7_isize).into(), "-7"),
        (number("1.50").into(), "1.50"),
        ("a\"b".into(), r#""a\"b""#),
        (String::from("é").into(), "\"é\""),
        ((&String::from("x")).into(), "\"x\""),
        (vec![Value::Null].into(), "[null]"),
        (vec![1, 2].into(), "[1,2]"),
        ([Some("x"), None].into(), r#"["x",null]"#),
        ((&[1_u8, 2][..]).into(), "[1,2]"),
        (BTreeMap::from([("a".to_string(), Value::from(1))]).into(), r#"{"a":1}"#),
        (HashMap::from([("a".to_string(), Value::from(1))]).into(), r#"{"a":1}"#),
        ((1..3).collect(), "[1,2]"),
        ([("b", 1), ("a", 2), ("b", 3)].into_iter().collect(), r#"{"a":2,"b":3}"#),
        (Value::try_from(0.5).expect("exact"), "0.5"),
    ] {
        assert_eq!(made.to_string(), text);
        assert_eq!(value(text), made);
    }
    assert_eq!(Number::try_from(u128::MAX), Err(ConversionError::Digits));
    assert_eq!(Number::try_from(5_u128), Ok(5.into()));
}

#[test]
fn taken_out() {
    let all = value(r#"[true, 255, -1, 2.0, 2.5, "x", [1], {"a": 1}, null]"#);
    assert_eq!(bool::try_from(&all[0]), Ok(true));
    assert_eq!(u8::try_from(&all[1]), Ok(255));
    assert_eq!((i8::try_from(&all[1]).is_err(), u128::try_from(&all[2]).is_err()), (true, true));
    assert_eq!((i128::try_from(&all[2]), i64::try_from(&all[3]), usize::try_from(&all[3])), (Ok(-1), Ok(2), Ok(2)));
    assert_eq!((f64::try_from(&all[4]), f64::try_from(&all[3])), (Ok(2.5), Ok(2.0)));
    assert_eq!((<&str>::try_from(&all[5]), String::try_from(&all[5])), (Ok("x"), Ok("x".into())));
    assert_eq!(String::try_from(all[5].clone()), Ok("x".into()));
    assert_eq!(<&[Value]>::try_from(&all[6]), Ok(&[1.into()][..]));
    assert_eq!(Vec::<Value>::try_from(all[6].clone()), Ok(vec![1.into()]));
    assert_eq!(<&Object>::try_from(&all[7]).map(BTreeMap::len), Ok(1));
    assert_eq!(Object::try_from(all[7].clone()).map(|it| it.len()), Ok(1));
    assert_eq!(Number::try_from(&all[3]), Ok(number("2.0")));
    let wrong = ConversionError::Number { expected: "u64", found: number("2.5") };
    assert_eq!(u64::try_from(&all[4]), Err(wrong));
    assert_eq!(wrong.to_string(), "invalid value: number 2.5, expected u64");
    assert_eq!(bool::try_from(all[8].clone()), Err(ConversionError::Kind { expected: "bool", found: Kind::Null }));
    assert_eq!(f64::try_from(&value("0.1")).map_err(|error| error.to_string()), {
        Err("invalid value: number 0.1, expected f64".to_string())
    });
    let error = Error::from(wrong);
    assert_eq!((error.path(), error.line(), error.to_string()), (Some(""), None, wrong.to_string()));
}

/// A double goes in where it is a decimal of at most 38 digits exactly, and comes out where the decimal is a double.
#[test]
fn doubles() {
    for (double, text) in [
        (0.5, "0.5"),
        (-0.0, "0"),
        (3.0, "3"),
        (1e22, "10000000000000000000000"),
        (1e38, "99999999999999997748809823456034029568"),
        (1_152_921_504_606_846_976.0, "1152921504606846976"),
        // 2 to the power of -24 and of -25
        (1.0 / 16_777_216.0, "0.000000059604644775390625"),
        (1.0 / 33_554_432.0, "0.0000000298023223876953125"),
        // 2 to the power of -38 has 38 digits behind the point
        (2f64.powi(-38), "0.00000000000363797880709171295166015625"),
    ] {
        assert_eq!(Number::try_from(double), Ok(number(text)), "{double}");
        assert_eq!(f64::try_from(number(text)), Ok(double));
    }
    for double in [0.1, 2f64.powi(-39), 1.1e38, 1e300, f64::MIN_POSITIVE, f64::NAN, f64::INFINITY, f64::NEG_INFINITY] {
        assert_eq!(Number::try_from(double), Err(ConversionError::Digits), "{double}");
    }
    // 2 to the power of 53, and 1, has 54 bits.
    for text in ["0.1", "9007199254740993", "0.30000000000000004", "0.00000000000000000000000000000000000001"] {
        assert!(f64::try_from(number(text)).is_err(), "{text}");
    }
    assert_eq!(f64::try_from(number("9007199254740994")), Ok(9_007_199_254_740_994.0));
    assert_eq!(number("9007199254740993").to_f64(), 9_007_199_254_740_992.0);
    for (double, text) in [
        (0.1, "0.1"),
        (5.0, "5.0"),
        (1e22, "10000000000000000000000"),
        (-1.5e-7, "-0.00000015"),
        (0.1 + 0.2, "0.30000000000000004"),
    ] {
        assert_eq!(Number::shortest(double).map(|it| it.to_string()).as_deref(), Some(text));
        assert_eq!(number(text).to_f64(), double);
    }
    for double in [1e38, 1e-39, f64::MAX, f64::NAN, f64::INFINITY] {
        assert_eq!(Number::shortest(double), None, "{double}");
    }
    assert_eq!((value("0.1").as_f64(), value("\"x\"").as_f64()), (Some(0.1), None));
    assert_eq!(Number { digits: 1, scale: u32::MAX }.to_f64(), 0.0);
}

#[test]
fn numbers() {
    assert_eq!((number("-2.50e1"), number("15e-1")), (number("-25.0"), number("1.5")));
    for (text, message) in
        [("\"1\"", "invalid type: string, expected number"), ("1e39", "line 1, column 4: number not carried")]
    {
        assert_eq!(text.parse::<Number>().unwrap_err().to_string(), message);
    }
    assert!("+1".parse::<Number>().is_err() && "".parse::<Number>().is_err() && "0x1".parse::<Number>().is_err());
    let zero = Number { digits: 0, scale: u32::MAX };
    assert_eq!((zero.normalized(), number("-100.00").normalized()), (0.into(), number("-100")));
    assert_eq!(Number { digits: 5, scale: 70_000 }.to_string(), format!("0.{}5", "0".repeat(69_999)));
    assert_eq!((number("1.00").at_scale(1), number("1.01").at_scale(1)), (Some(10), None));
}

/// A step that leads nowhere gives a null, as in serde_json.
#[test]
fn steps() {
    let mut all = value(r#"{"a": [1, {"b": null}], "": 7}"#);
    assert_eq!((&all["a"][0], &all[""], &all["a"][1]["b"]), (&1.into(), &7.into(), &Value::Null));
    assert!([&all["b"], &all[0], &all["a"]["0"], &all["a"][2], &all["b"]["c"][1]].iter().all(|it| it.is_null()));
    assert_eq!((all.get("a").map(Value::kind), all.get(0), all["a"].get(2)), (Some(Kind::Array), None, None));
    assert_eq!(all["a"].items().count() + all.members().count(), 4);
    assert_eq!(all.items().count() + all["a"].members().count() + all[""].items().count(), 0);
    *all.pointer_mut("/a/1/b").expect("a path").expect("a part") = "x".into();
    *all.get_mut("a").and_then(|a| a.get_mut(0)).expect("an item") = 2.into();
    all["a"].as_array().expect("an array");
    assert_eq!(all.to_string(), r#"{"":7,"a":[2,{"b":"x"}]}"#);
    assert_eq!(all.pointer_mut("/a/2"), Ok(None));
    assert_eq!(all.pointer_mut("a"), Err(Error::NoPath));
}

/// A path leads where the library says that it leads in the key.
#[test]
fn paths() {
    let text = r#"{"a":[1,[2],{"b":3}],"":{"":4},"0":5,"~":6,"/":7,"~1":8,"m~n/o":[9],"-1":{"+0":10}}"#;
    let (all, key) = (value(text), sort_key(text, Mode::Json).expect(text));
    let steps =
        ["", "a", "0", "1", "-1", "+0", "00", "01", "2", "b", "~", "~0", "~1", "~01", "~2", "m~0n~1o", "-", "é"];
    let (mut found, mut none, mut wrong) = (0, 0, 0);
    let mut compare_at = |path: &str| match (all.pointer(path), key.pointer(path)) {
        (Ok(Some(part)), Ok(Some(of_key))) => {
            assert_eq!(part.to_string(), of_key.to_string(), "{path}");
            found += 1;
        }
        (ours, theirs) => {
            assert_eq!((ours.is_err(), ours.ok().flatten()), (theirs.is_err(), None), "{path}");
            *(if theirs.is_err() { &mut wrong } else { &mut none }) += 1;
        }
    };
    compare_at("");
    for one in steps {
        compare_at(one);
        compare_at(&format!("/{one}"));
        for two in steps {
            compare_at(&format!("/{one}/{two}"));
            compare_at(&format!("/{one}/2/{two}"));
        }
    }
    assert!(found > 10 && none > 100 && wrong > 50, "{found} {none} {wrong}");
    assert_eq!(all.pointer(&format!("/a/{}", u128::MAX)), Ok(None));
}

/// `parse` takes JSON to the letter.
#[test]
fn parsed() {
    assert_eq!(value("[1e2, 1.50, {\"b\":[],\"a\":null}]").to_string(), "[100,1.50,{\"a\":null,\"b\":[]}]");
    for text in ["", "[1,]", "{a:1}", "'x'", "// x\n1", "+1", "[1e39]", "{\"a\":1,\"a\":2}", "NaN"] {
        assert!(matches!(text.parse::<Value>(), Err(Error::Rejected(_))), "{text}");
    }
}

/// The text of a value that a program has nested deeper than a document is written with no more of the stack.
#[test]
fn deeper_than_a_document() {
    let deep = std::thread::Builder::new().stack_size(128 << 10).spawn(|| {
        let value = (0..100_000).fold(Value::Null, |value, _| Value::Array(vec![value]));
        let made = [Key::try_from(&value).err(), Document::try_from(&value).err()];
        assert_eq!(value.to_string().len(), 200_004);
        std::mem::forget(value); // to drop it would take the stack
        made.map(|error| error.and_then(|it| it.rejection().map(|it| it.code())))
    });
    assert_eq!(deep.unwrap().join().unwrap(), [Some(Code::DepthLimitExceeded); 2]);
}

/// An error says line, column and path, once.
#[test]
fn errors() {
    let error = check("{\"a\":\n [1, x]}", Mode::Json).unwrap_err();
    assert_eq!((error.line(), error.column(), error.path()), (Some(2), Some(6), Some("/a/1")));
    assert_eq!(error.to_string(), "line 2, column 6, at /a/1: expected value");
    assert!(error.source().is_none() && error.rejection().unwrap().source().is_none());
    let error = check("[1, 2", Mode::Json).unwrap_err();
    assert_eq!((error.line(), error.column(), error.path()), (Some(1), Some(6), Some("/1")));
    let error = check("x", Mode::Json).unwrap_err();
    assert_eq!((error.path(), error.to_string().as_str()), (Some(""), "line 1, column 1: expected value"));
    let error = compare("[1]", "[1,x]", Mode::Json).unwrap_err();
    assert_eq!(error.to_string(), "second text, line 1, column 4, at /1: expected value");
    let error: Box<dyn std::error::Error> = KeyRef::from_bytes(b"x").unwrap_err().into();
    assert_eq!((error.to_string().as_str(), error.source().is_none()), ("the bytes aren't a sort key", true));
    assert_eq!((Error::NoPath.line(), Error::NoPath.path(), Error::NoPath.mismatch()), (None, None, None));
}
