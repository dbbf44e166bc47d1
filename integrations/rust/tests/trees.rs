//! Values of Rust: of the texts of the vectors, and the way back.

use std::collections::BTreeMap;
use std::path::Path;
use vizhoniku::{document, sort_key, Document, Error, Key, Mode, Number, Value};

fn of(text: &str) -> Value {
    document(text, Mode::Extended).unwrap().to_value().unwrap()
}

#[test]
fn each_kind() {
    let value = of(r#"{"a":[null,true,false,"x",-1.50,0,[],{}],"b":{"c":"\"\\\n\r\t\u0001\u007f é😀"}}"#);
    let (a, b) = (value.get("a").expect("a"), value.get("b").expect("b"));
    let items = a.as_array().expect("an array");
    let number = Number { digits: -150, scale: 2 };
    let parts = [Value::Null, true.into(), false.into(), "x".into(), number.into(), 0.into(), Value::Array(vec![])];
    assert_eq!(items[..7], parts);
    assert_eq!(items[7], Value::Object(BTreeMap::new()));
    assert_eq!(b.get("c").and_then(Value::as_str), Some("\"\\\n\r\t\u{1}\u{7f} é😀"));
    assert_eq!(of("1.50").as_number(), Some(Number { digits: 150, scale: 2 }));
    assert_eq!(sort_key("1.50", Mode::Extended).unwrap().to_value().unwrap().to_string(), "1.5");
}

#[test]
fn numbers() {
    for text in [
        "0",
        "-0.05",
        "0.00",
        "1.0",
        "99999999999999999999999999999999999999",
        "-0.12345678901234567890123456789012345678",
    ] {
        assert_eq!(of(text).to_string(), text);
    }
    let cents = |text| of(text).as_number().unwrap().at_scale(2);
    assert_eq!((cents("1.5"), cents("-1.500"), cents("1.505"), cents("7")), (Some(150), Some(-150), None, Some(700)));
    assert_eq!(cents(&"9".repeat(38)), None);
    assert_eq!((of("8080.0").as_i64(), of("8080.5").as_i64()), (Some(8080), None));
    assert_eq!(of("-0.1").as_number().unwrap().to_f64(), -0.1);
    let long = Value::Number(Number { digits: i128::MIN, scale: 40 });
    assert_eq!(long.to_string(), "-0.0170141183460469231731687303715884105728");
    assert!(matches!(Key::try_from(&long), Err(Error::Rejected(_))));
}

#[test]
fn deep() {
    let text = "[".repeat(512) + &"]".repeat(512);
    std::thread::Builder::new()
        .stack_size(256 << 10)
        .spawn(move || assert!(of(&text).as_array().is_some()))
        .unwrap()
        .join()
        .unwrap();
}

/// What the value of each text of the vectors is written as is the library's text, and its document is that of the
/// text.
#[test]
fn vectors() {
    let file = Path::new(env!("CARGO_MANIFEST_DIR")).join("../../tests/vectors.jsonl");
    let rows = match std::fs::read_to_string(file) {
        Ok(rows) => rows,
        Err(_) => return, // the crate was taken out of its repository
    };
    let mut texts = 0;
    for row in rows.lines() {
        let input = sort_key(row, Mode::Extended).unwrap().get("input").unwrap().as_string().unwrap();
        let bytes: Vec<u8> =
            (0..input.len() / 2).map(|at| u8::from_str_radix(&input[2 * at..2 * at + 2], 16).unwrap()).collect();
        let of_text = match document(&bytes, Mode::Extended) {
            Ok(of_text) => of_text,
            Err(_) => continue,
        };
        let value = of_text.to_value().unwrap();
        assert_eq!(value.to_string(), of_text.to_string());
        assert_eq!(Document::try_from(&value).unwrap(), of_text);
        assert_eq!(Key::try_from(&of_text.key().to_value().unwrap()).unwrap(), of_text.key().to_owned());
        texts += 1;
    }
    assert!(texts > 500);
}
