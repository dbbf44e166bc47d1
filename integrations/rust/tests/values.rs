//! Order, parts and changes of values, errors, and calls from threads.

use std::cmp::Ordering;
use std::collections::{hash_map::DefaultHasher, BTreeSet, HashSet};
use std::hash::{Hash, Hasher};
use vizhoniku::{
    check, compare, document, part, sort_key, text, text_and_key, version, Code, ConversionError, Document, Error, Key,
    KeyRef, Kind, Mode, Number, Value,
};

/// Documents in the order of their values; those of one line are equal.
const IN_ORDER: [&[&str]; 24] = [
    &["false", "FALSE"],
    &["true"],
    &["-18446744073709551616"],
    &["-1.5", "-01.50"],
    &["-0.05"],
    &["0", "-0", "0.00", "0x0"],
    &["0.5", ".5", "+.50"],
    &["1", "1.0", "0x1", "+1", "/* one */ 1 // end"],
    &["9"],
    &["10", "0xA"],
    &["18446744073709551615"],
    &["\"\"", "''"],
    &["\"\\u0000\""],
    &["\"a\"", "\"\\u0061\"", "'a'"],
    &["\"ab\""],
    &["\"é\"", "\"\\u00e9\""],
    &["{}"],
    &["{\"a\":1}", "{a:1.0}"],
    &["{\"a\":1,\"b\":2}", "{b:2,a:1}"],
    &["{\"b\":null}"],
    &["[]"],
    &["[1]"],
    &["[1,2]", "[1.0,0x2]"],
    &["null", ""],
];

fn key(text: &str) -> Key {
    sort_key(text, Mode::Extended).expect(text)
}

fn texts(key: Result<Option<Key>, Error>) -> Option<String> {
    key.expect("no error").map(|key| key.to_string())
}

fn hash<T: Hash + ?Sized>(it: &T) -> u64 {
    let mut hasher = DefaultHasher::new();
    it.hash(&mut hasher);
    hasher.finish()
}

#[test]
fn keys_have_the_order_of_values() {
    let (mut ordered, mut hashed) = (BTreeSet::new(), HashSet::new());
    for (i, left) in IN_ORDER.iter().enumerate() {
        for (j, right) in IN_ORDER.iter().enumerate() {
            for (one, two) in left.iter().flat_map(|one| right.iter().map(move |two| (one, two))) {
                assert_eq!(compare(one, two, Mode::Extended), Ok(i.cmp(&j)), "{one} {two}");
                assert_eq!(key(one).cmp(&key(two)), i.cmp(&j), "{one} {two}");
                assert_eq!(key(one) == key(two), i == j);
            }
        }
        ordered.extend(left.iter().map(|it| key(it)));
        hashed.extend(left.iter().map(|it| key(it)));
    }
    assert_eq!((ordered.len(), hashed.len()), (IN_ORDER.len(), IN_ORDER.len()));
    for line in IN_ORDER {
        let one = key(line[0]);
        let borrowed: &KeyRef = &one;
        assert!(ordered.contains(borrowed) && hashed.contains(borrowed));
        assert_eq!(hash(&one), hash(borrowed));
    }
    let sorted: Vec<String> = ordered.iter().map(|key| key.to_string()).collect();
    let wanted: Vec<String> = IN_ORDER.iter().map(|line| key(line[0]).to_string()).collect();
    assert_eq!(sorted, wanted);
}

#[test]
fn parts() {
    let document = key("{user: {name: 'Änn\\u0000', age: 30}, tags: ['x', 2.50, true, null], '': {'a/b~': -7}}");
    assert_eq!((document.kind(), document.count()), (Kind::Object, Some(3)));
    let user = document.get("user").expect("a member");
    assert_eq!(user.get("name").and_then(KeyRef::as_string).as_deref(), Some("Änn\0"));
    assert_eq!(user.get(String::from("age")).and_then(KeyRef::as_i64), Some(30));
    assert_eq!((user.get("Age"), user.item(0), user.as_string()), (None, None, None));
    let tags = document.get("tags").expect("a member");
    let kinds: Vec<Kind> = tags.items().map(KeyRef::kind).collect();
    assert_eq!(kinds, [Kind::String, Kind::Number, Kind::Boolean, Kind::Null]);
    assert_eq!((tags.item(1), tags.item(-3)), (Some(&*key("2.5")), Some(&*key("2.5"))));
    assert_eq!((tags.item(4), tags.item(-5), tags.item(i64::MIN), tags.get("0")), (None, None, None, None));
    assert_eq!(tags.item(1).and_then(KeyRef::as_f64), Some(2.5));
    assert_eq!((tags.item(1).and_then(KeyRef::as_i64), tags.item(1).and_then(KeyRef::as_bool)), (None, None));
    assert_eq!(tags.item(2).and_then(KeyRef::as_bool), Some(true));
    assert_eq!(document.pointer("//a~1b~0").expect("a path").and_then(KeyRef::as_i64), Some(-7));
    assert_eq!(document.pointer("").expect("a path"), Some(&*document));
    assert_eq!(document.pointer("/tags/4"), Ok(None));
    assert_eq!(document.pointer("tags"), Err(Error::NoPath));
    assert_eq!(document.pointer("/~2"), Err(Error::NoPath));
    let names: Vec<String> = document.members().map(|(name, _)| name).collect();
    assert_eq!(names, ["", "tags", "user"]);
    for (name, value) in document.members() {
        assert_eq!(document.get(name), Some(value));
    }
    for scalar in ["1", "'a'", "null", "true"] {
        let scalar = key(scalar);
        assert_eq!((scalar.count(), scalar.items().count(), scalar.members().count()), (None, 0, 0));
    }
    assert_eq!((tags.members().count(), user.items().count()), (0, 0));
    assert_eq!(key("18446744073709551615").as_u64(), Some(u64::MAX));
    assert_eq!(part("{a: [0, {'b/c': [true, 0x10]}]}", "/a/1/b~1c", Mode::Extended).unwrap().unwrap(), "[true,16]");
    assert_eq!(part("[1]", "/1", Mode::Standard), Ok(None));
    assert_eq!(part("[1]", "1", Mode::Standard), Err(Error::NoPath));
}

#[test]
fn changes() {
    let document = key("{a: {b: [1, 2]}, c: 3}");
    assert_eq!(texts(document.set("/a/b/0", &key("9"), false)).as_deref(), Some(r#"{"a":{"b":[9,2]},"c":3}"#));
    assert_eq!(texts(document.set("/a/b/-1", &key("9"), false)).as_deref(), Some(r#"{"a":{"b":[1,9]},"c":3}"#));
    assert_eq!(texts(document.set("/d", &key("{}"), true)).as_deref(), Some(r#"{"a":{"b":[1,2]},"c":3,"d":{}}"#));
    assert_eq!(texts(document.set("/d", &key("{}"), false)), None);
    assert_eq!(document.set("d", &key("{}"), false), Err(Error::NoPath));
    assert_eq!(texts(document.remove("/a/b")).as_deref(), Some(r#"{"a":{},"c":3}"#));
    assert_eq!((texts(document.remove("/x")), texts(document.remove(""))), (None, None));
    assert_eq!(texts(document.put("c", &key("[]"))).as_deref(), Some(r#"{"a":{"b":[1,2]},"c":[]}"#));
    assert_eq!((texts(document.push(&key("1"))), texts(key("[]").put("a", &key("1")))), (None, None));
    assert_eq!(texts(key("[1]").push(&key("'x'"))).as_deref(), Some(r#"[1,"x"]"#));
    assert_eq!(document.merge(&key("{c: 4, d: 5}")), Ok(key("{a: {b: [1, 2]}, c: 4, d: 5}")));
    assert_eq!(key("1").merge(&key("[2]")), Ok(key("[1,2]")));
    assert_eq!(document.merge(&key("{}")), Ok(document.clone()));
    let long = "x".repeat(10_000);
    assert_eq!(texts(key("{}").put(&long, &key(&format!("'{long}'")))), Some(format!("{{\"{long}\":\"{long}\"}}")));
    let deep = key(&("[".repeat(512) + &"]".repeat(512)));
    assert_eq!(key("[]").push(&deep), Err(Error::TooDeep));
    assert!(document.contains(&key("{a: {b: [2.0]}}")) && !document.contains(&key("{a: {b: [3]}}")));
    assert!(key("[1, 2]").contains(&key("2")) && !key("2").contains(&key("[2]")));
}

#[test]
fn errors() {
    let error = compare("1", "[1,\n x", Mode::Extended).expect_err("an error");
    assert_eq!(error.to_string(), "second text, line 2, column 2, at /1: expected value");
    let rejection = error.rejection().expect("a rejection");
    assert!(rejection.is_second());
    assert_eq!((rejection.code(), rejection.code().number()), (Code::ExpectedSomeValue, 5));
    assert_eq!((rejection.offset(), rejection.line(), rejection.column()), (5, 2, 2));
    let long = "k".repeat(100_000);
    let error = check(format!("{{{long}:1,{long}:2}}"), Mode::Extended).expect_err("an error");
    assert_eq!(error.rejection().unwrap().message(), format!("duplicate object attribute \"{long}\""));
    let error = check(b"\"\xff\"", Mode::Standard).expect_err("an error");
    assert_eq!(error.to_string(), "line 1, column 3: invalid string");
    assert!(matches!(check("1.5", Mode::Standard), Err(Error::Rejected(_))));
    for bytes in [&b""[..], b"x", b"\xd2", b"\xd2\x00\x00", b"\xa1\x14\x00"] {
        assert_eq!(KeyRef::from_bytes(bytes), Err(Error::NoKey));
        assert_eq!(Key::from_bytes(bytes.to_vec()), Err(Error::NoKey));
    }
    let boxed: Box<dyn std::error::Error + Send + Sync> = Error::NoPath.into();
    assert_eq!(boxed.to_string(), "the path isn't a JSON Pointer (RFC 6901)");
    assert!(version() >= 6);
}

/// Of any bytes the calls find something or nothing, and none panics.
#[test]
fn bytes_that_are_no_key() {
    let mut state = 1_u64;
    let mut draw = |below: u64| {
        state = state.wrapping_mul(6_364_136_223_846_793_005).wrapping_add(1_442_695_040_888_963_407);
        (state >> 33) % below
    };
    let real = key("{a: [1, -2.5, 'x', {b: null}], c: {d: [true, [], {}], e: 'long enough to be cut'}, f: 0}");
    for _ in 0..20_000 {
        let mut bytes = real.as_bytes().to_vec();
        for _ in 0..draw(4) {
            let at = draw(bytes.len() as u64) as usize;
            bytes[at] = draw(256) as u8;
        }
        bytes.truncate(draw(bytes.len() as u64 + 1) as usize);
        let (any, is_key) = (KeyRef::from_trusted_bytes(&bytes), KeyRef::from_bytes(&bytes).is_ok());
        let outcome = (any.kind(), any.count(), any.to_text(), any.as_string(), any.as_i64(), any.as_bool());
        let parts = (any.items().count(), any.members().count(), any.get("c"), any.item(1), any.pointer("/c/d/0"));
        let changed = (any.set("/c/d/0", &real, true), any.remove("/a"), any.push(&real), any.put("b", &real));
        let _ = (any.merge(&real), any.contains(&real), real.contains(any), format!("{any:?}"));
        if is_key {
            assert!(outcome.2.is_ok() && changed.0.is_ok() && changed.1.is_ok(), "{any:?}");
            assert_eq!(outcome.1.unwrap_or(0), parts.0 + parts.1);
        }
    }
}

#[test]
fn texts_that_grow() {
    for given in [format!("\"{}\"", "\u{1}".repeat(1000)), format!("[{}]", ",".repeat(1000)), String::new()] {
        let (written, made) = text_and_key(&given, Mode::Extended).expect("a document");
        assert_eq!(text(&given, Mode::Extended).as_ref(), Ok(&written));
        assert_eq!(sort_key(&given, Mode::Extended).as_ref(), Ok(&made));
        assert_eq!(made.to_text().as_ref(), Ok(&written));
        assert!(written.len() > given.len());
    }
}

#[test]
fn threads() {
    fn is_shared<T: Send + Sync + 'static>() {}
    is_shared::<(Key, Box<KeyRef>, Error, Mode, Kind, Code, Document, Value, Number, ConversionError)>();
    let text: &str = &format!("[{}]", "{\"a\": [1, 2.5], \"b\": \"x\"},".repeat(200) + "0");
    let shared = &key(text);
    std::thread::scope(|scope| {
        for _ in 0..8 {
            scope.spawn(move || {
                for _ in 0..20 {
                    assert_eq!(&key(text), shared);
                    assert_eq!(shared.items().count(), 201);
                }
            });
        }
    });
}

#[test]
fn deep() {
    for (front, back) in [("[", "]"), ("{\"a\":", "}")] {
        let given = front.repeat(512) + "1" + &back.repeat(512);
        assert_eq!(text(&given, Mode::Standard).as_ref(), Ok(&given));
        assert_eq!(compare(&given, &given, Mode::Standard), Ok(Ordering::Equal));
        let error = check(format!("{front}{given}{back}"), Mode::Standard).expect_err("an error");
        assert_eq!(error.rejection().map(|it| it.code()), Some(Code::DepthLimitExceeded));
    }
}

fn kept(text: &str) -> Document {
    document(text, Mode::ExtendedJson).expect(text)
}

#[test]
fn documents_keep_all_digits() {
    for (text, bytes) in [
        ("1.5", &[0xA1, 0x1E][..]),
        ("1.50", &[0xA1, 0x1E, 0, 1, 2, 0xFF]),
        ("[1,2.500,\"x\"]", &[0xD2, 0xA1, 0x14, 0xA1, 0x32, 0xD0, 0x78, 0, 1, 0, 3, 2, 2, 0xFF]),
    ] {
        assert_eq!(kept(text).as_bytes(), bytes);
        assert_eq!(kept(text).to_text().as_deref(), Ok(text));
        assert_eq!(kept(text).key(), &*key(text));
        assert_eq!(Document::from_trusted_bytes(bytes.to_vec()), kept(text));
        assert_eq!(Document::from_bytes(bytes.to_vec()), Ok(kept(text)));
        assert_eq!(Document::from_bytes([bytes, &[0]].concat()), Err(Error::NoDocument));
    }
    assert_eq!(kept("1.50e1").to_string(), "15.0");
    assert_eq!(format!("{:?}", kept("[2.0]")), "Document([2.0])");
    assert_eq!(Document::from(key("[1.50]")).to_string(), "[1.5]");
    assert_eq!(
        document("[1,", Mode::Standard).unwrap_err().to_string(),
        "line 1, column 4, at /1: EOF while parsing a value"
    );
}

#[test]
fn documents_have_the_order_of_values() {
    for (i, left) in IN_ORDER.iter().enumerate() {
        for (j, right) in IN_ORDER.iter().enumerate() {
            for (one, two) in left.iter().flat_map(|one| right.iter().map(move |two| (one, two))) {
                assert_eq!(kept(one).key().cmp(kept(two).key()), i.cmp(&j), "{one} {two}");
                if i != j {
                    assert_eq!(kept(one).cmp(&kept(two)), i.cmp(&j), "{one} {two}");
                }
            }
        }
    }
    assert!(kept("1.5") < kept("1.50") && kept("1.50") < kept("1.51"));
}

#[test]
fn documents_are_changed() {
    let shown = |made: Result<Option<Document>, Error>| made.expect("no error").map(|made| made.to_string());
    let (price, tax) = (kept("{net: 1.50, tax: [0.10, 2]}"), kept("7.0"));
    for (made, text) in [
        (price.set("/tax/-1", &tax, false), Some(r#"{"net":1.50,"tax":[0.10,7.0]}"#)),
        (price.set("/tax/2", &tax, true), Some(r#"{"net":1.50,"tax":[0.10,2,7.0]}"#)),
        (price.set("/sum", &tax, false), None),
        (price.remove("/net"), Some(r#"{"tax":[0.10,2]}"#)),
        (price.remove("/sum"), None),
        (price.put("sum", &tax), Some(r#"{"net":1.50,"sum":7.0,"tax":[0.10,2]}"#)),
        (price.push(&tax), None),
        (kept("[1.0]").push(&tax), Some("[1.0,7.0]")),
        (price.pointer("/tax"), Some("[0.10,2]")),
        (price.pointer("/tax/2"), None),
        (price.merge(&kept("{net: 2.00}")).map(Some), Some(r#"{"net":2.00,"tax":[0.10,2]}"#)),
        (tax.merge(&kept("[1.0]")).map(Some), Some("[7.0,1.0]")),
    ] {
        assert_eq!(shown(made).as_deref(), text);
    }
    assert_eq!(price.remove("net"), Err(Error::NoPath));
    let deep = kept(&("[".repeat(512) + &"]".repeat(512)));
    assert_eq!(kept("[0]").set("/0", &deep, false), Err(Error::TooDeep));
    assert_eq!(Document::from_trusted_bytes(vec![0]).to_text(), Err(Error::NoDocument));
    assert_eq!(Error::NoDocument.to_string(), "the bytes aren't a document");
}
