//! Numbers with exponents: JSON and extended JSON take them with exactly their values, and the other modes take none.

use std::cmp::Ordering;
use vizhoniku::{check, compare, part, sort_key, text, text_and_key, Code, Error, Key, Mode, Rejection};

fn written(given: &str) -> String {
    text(given, Mode::ExtendedJson).expect(given)
}

fn key(given: &str) -> Key {
    sort_key(given, Mode::ExtendedJson).expect(given)
}

fn rejection<T>(answer: Result<T, Error>) -> Rejection {
    answer.err().and_then(|error| error.rejection().cloned()).expect("a rejection")
}

/// Code, offset, line, column and message of what is wrong with a text, which each call says.
fn fault(given: &str) -> (Code, usize, usize, usize, String) {
    let found = rejection(check(given, Mode::ExtendedJson));
    assert_eq!(rejection(text(given, Mode::ExtendedJson)), found);
    assert_eq!(rejection(sort_key(given, Mode::ExtendedJson)), found);
    assert_eq!(rejection(text_and_key(given, Mode::ExtendedJson)), found);
    assert_eq!(rejection(part(given, "", Mode::ExtendedJson)), found);
    assert_eq!(rejection(compare(given, "1e1", Mode::ExtendedJson)), found);
    let second = rejection(compare("1e1", given, Mode::ExtendedJson));
    assert!(second.is_second() && !found.is_second());
    assert_eq!((second.code(), second.position(), second.offset()), (found.code(), found.position(), found.offset()));
    (found.code(), found.offset(), found.line(), found.column(), found.message().to_string())
}

#[test]
fn values() {
    for (given, wanted) in [
        ("1e5", "100000"),
        ("1E+2", "100"),
        ("1.5e-7", "0.00000015"),
        ("-2.50e1", "-25.0"),
        ("0e999", "0"),
        ("-0e5", "0"),
        ("1e37", "10000000000000000000000000000000000000"),
        ("1e-38", "0.00000000000000000000000000000000000001"),
        ("[1e2,\n{\"1e2\": \"1e2 \\\" 1e2\"}, 1.50]", "[100,{\"1e2\":\"1e2 \\\" 1e2\"},1.50]"),
        ("[1e2] // 1e2 'and' /* more", "[100]"),
    ] {
        assert_eq!(check(given, Mode::ExtendedJson), Ok(()), "{given}");
        assert_eq!(written(given), wanted);
        assert_eq!(key(given), key(wanted));
        assert_eq!(text_and_key(given, Mode::ExtendedJson), Ok((wanted.to_string(), key(wanted))));
        assert_eq!(part(given, "", Mode::ExtendedJson), Ok(Some(wanted.to_string())));
        assert_eq!(compare(given, wanted, Mode::ExtendedJson), Ok(Ordering::Equal));
        assert_eq!(compare(wanted, given, Mode::ExtendedJson), Ok(Ordering::Equal));
        assert_eq!(compare(given, given, Mode::ExtendedJson), Ok(Ordering::Equal));
    }
    assert_eq!(key("1e2"), key("100"));
    assert_eq!(compare("99", "1e2", Mode::ExtendedJson), Ok(Ordering::Less));
    assert_eq!(compare("1e2", "99", Mode::ExtendedJson), Ok(Ordering::Greater));
    let document = "{\"a\": [6.02e23, 'b']}";
    assert_eq!(part(document, "/a/0", Mode::ExtendedJson), Ok(Some("602000000000000000000000".to_string())));
    assert_eq!(part(document, "/b", Mode::ExtendedJson), Ok(None));
    assert_eq!(part(document, "a", Mode::ExtendedJson), Err(Error::NoPath));
    let long = format!("[{}0]", "1e37,".repeat(1000));
    assert_eq!(written(&long), long.replace("1e37", &format!("1{}", "0".repeat(37))));
}

#[test]
fn two_modes_take_none() {
    for (given, mode) in
        ["1e5", "[1E+2]", "{\"a\":1.5e-7}"].map(|it| [(it, Mode::Standard), (it, Mode::Extended)]).concat()
    {
        let found = rejection(check(given, mode));
        assert_eq!((found.code(), found.message()), (Code::NumberNotCarried, "number not carried"));
        assert_eq!(rejection(text(given, mode)), found);
        assert_eq!(rejection(sort_key(given, mode)), found);
        assert_eq!(rejection(text_and_key(given, mode)), found);
        assert_eq!(rejection(part(given, "", mode)), found);
        assert_eq!(rejection(compare(given, "1", mode)), found);
        assert!(rejection(compare("1", given, mode)).is_second());
    }
}

/// JSON takes RFC 8259 alone.
#[test]
fn only_json() {
    for (given, message) in [
        ("[1e5, +1e5]", "line 1, column 7, at /1: expected value"),
        ("[1e5, .5]", "line 1, column 7, at /1: expected value"),
        ("[01]", "line 1, column 3, at /0: invalid number"),
        ("[1e5,\n\x0c1]", "line 2, column 1, at /1: expected value"),
        ("[\"\t\"]", "line 1, column 3, at /0: control character (\\u0000-\\u001F) found while parsing a string"),
        ("{a: 1}", "line 1, column 2: expected a name in quotes, or `true`, `false` or `null`"),
        ("[1e39]", "line 1, column 5, at /0: number not carried"),
    ] {
        assert_eq!(rejection(check(given, Mode::Json)).to_string(), message, "{given}");
    }
    assert_eq!(text("{\"a\": 1.50e1}", Mode::Json), Ok("{\"a\":15.0}".to_string()));
    assert_eq!(rejection(check("[1,]", Mode::Json)).code(), Code::ExpectedSomeValue);
}

#[test]
fn numbers_that_are_too_long() {
    let not_carried =
        |offset, line, column| (Code::NumberNotCarried, offset, line, column, "number not carried".to_string());
    assert_eq!(fault("1e38"), not_carried(3, 1, 4));
    assert_eq!(fault("1e-39"), not_carried(4, 1, 5));
    assert_eq!(fault("[1e2,\n 1e300, x]"), not_carried(11, 2, 6));
    let digits = "9".repeat(39);
    assert_eq!(fault(&digits), not_carried(38, 1, 39));
    assert_eq!(fault(&format!("[1e5,{digits}]")), not_carried(43, 1, 44));
    assert_eq!(fault("[1e5, +1e39]"), not_carried(10, 1, 11));
}

#[test]
fn errors_have_their_location_in_the_text_that_was_passed() {
    let fault = |given: &str| {
        let (code, offset, line, column, message) = fault(given);
        let front = &given[..offset];
        let line_begin = front.rfind('\n').map_or(0, |at| at + 1);
        assert_eq!((line, column), (1 + front.matches('\n').count(), offset - line_begin + 1));
        (code, offset, message)
    };
    let repeated = "duplicate object attribute \"a\"".to_string();
    assert_eq!(fault("{\"a\":1,\"a\":1e1}"), (Code::ObjectDuplicateKey, 9, repeated.clone()));
    assert_eq!(fault("{\"a\":1e1,\n\"a\":2}"), (Code::ObjectDuplicateKey, 12, repeated.clone()));
    assert_eq!(fault("{\"a\":10e-1,\"a\":2}"), (Code::ObjectDuplicateKey, 13, repeated));
    let value = "expected value".to_string();
    assert_eq!(fault("[x, 1e5]"), (Code::ExpectedSomeValue, 1, value.clone()));
    assert_eq!(fault("[1e5, 1E-7,\n1e+30, x]"), (Code::ExpectedSomeValue, 19, value.clone()));
    assert_eq!(fault("[1e0,100e-2,\"1e5\",x]"), (Code::ExpectedSomeValue, 18, value));
    let end = "EOF while parsing a value".to_string();
    assert_eq!(fault("[1e5"), (Code::InvalidEof, 4, end.clone()));
    assert_eq!(fault("[1e5\n, "), (Code::InvalidEof, 7, end.clone()));
    assert_eq!(fault("[1e0,\""), (Code::InvalidEof, 6, end));
    assert_eq!(fault("[1e5 1e5]").1, 5);
    assert_eq!(fault("[1e5 -0e5]").1, 5);
    assert_eq!(fault("[1e5,\n\"a\" 0.5e1]").1, 10);
    assert_eq!(fault("1e0}").1, 3);
    assert_eq!(fault("{\"a\": 1e5, 1e5: 2}").1, 11);
    // An exponent that takes as many bytes as what is written for it changes nothing of an error.
    for given in
        ["[1e2,\"\\x\"]", "[1e2,\"\\u12g4\"]", "[1e2,\"\\u12", "[1e2 2]", "{\"a\":1e2 2}", "[1e2,nul]", "[1e2,1.e]"]
    {
        assert_eq!(fault(given), fault(&given.replace("1e2", "100")), "{given}");
    }
    // Of two texts the first that is wrong is reported, each in its own text.
    let found = rejection(compare("[1e5,x", "[1e5,x", Mode::ExtendedJson));
    assert_eq!((found.is_second(), found.offset()), (false, 5));
    let found = rejection(compare("[1e5]", "[1e5,x", Mode::ExtendedJson));
    assert_eq!((found.is_second(), found.offset()), (true, 5));
}

/// The path of what is wrong is that of the innermost item or member with the fault.
#[test]
fn error_paths() {
    for (given, wanted) in [
        ("1e300", ""),
        ("[1e5, 1e-40, 2]", "/1"),
        ("{\"a\": {\"b/c~d\": [1e2, 1e300]}}", "/a/b~1c~0d/1"),
        ("{\"a\":1e5,\"\\u00e9\\n\":[0,{\"a\":2}],'b':1e99}", "/b"),
        ("{\"a\":1e1,\"b\":{\"x\":1,\"x\":1e300}}", "/b/x"),
        ("[[1],[2,[3,nul]]]", "/1/1/1"),
        ("[1e5 2]", "/0"),
        ("{\"a\":1e5 \"b\":2}", "/a"),
        ("{\"a\":{\"b\":1},}", ""),
        ("{\"a\":{\"b\" 1}}", "/a/b"),
        ("[0,[1,", "/1/1"),
        ("[0,[1e5", "/1/0"),
        ("[0,{\"k\":\"x", "/1/k"),
        ("[1e5]]", ""),
    ] {
        assert_eq!(rejection(check(given, Mode::ExtendedJson)).path(), wanted, "{given}");
    }
    assert_eq!(rejection(check("{\"a\":[true,1e5]}", Mode::Standard)).path(), "/a/1");
}

/// Numbers with random digits and exponents against the same written out here, and errors behind them.
#[test]
fn random_numbers() {
    let mut state = 1_u64;
    let mut draw = |below: u64| {
        state = state.wrapping_mul(6_364_136_223_846_793_005).wrapping_add(1_442_695_040_888_963_407);
        (state >> 33) % below
    };
    let (mut taken, mut rejected) = (0, 0);
    for _ in 0..20_000 {
        let (whole, fraction) = (draw(1_000), draw(1_000_000).to_string());
        let up = draw(90) as i64 - 45;
        let sign = ["", "-"][draw(2) as usize];
        let number = format!("{sign}{whole}.{fraction}{}{up}", ["e", "E"][draw(2) as usize]);
        let scale = fraction.len() as i64 - up;
        let digits = format!("{whole}{fraction}");
        let digits = digits.trim_start_matches('0');
        let zeros = "0".repeat(scale.min(0).unsigned_abs() as usize);
        let too_many = scale > 38 || (!digits.is_empty() && digits.len() + zeros.len() > 38);
        if too_many {
            rejected += 1;
            assert_eq!(fault(&format!("[1e5, {number}]")).1, 5 + number.len());
            continue;
        }
        taken += 1;
        let padded = format!("{digits:0>width$}{zeros}", width = scale.max(0) as usize + 1);
        let point = padded.len() - scale.max(0) as usize;
        let front = padded[..point].trim_start_matches('0');
        let front = if front.is_empty() { "0" } else { front };
        let plain = format!("{sign}{front}{}{}", if scale > 0 { "." } else { "" }, &padded[point..]);
        assert_eq!(key(&number), key(&plain), "{number}");
        assert_eq!(written(&format!("[{number}]")), written(&format!("[{plain}]")), "{number}");
        assert_eq!(fault(&format!("[{number}, {number} x")).1, 2 * number.len() + 4);
    }
    assert!(taken > 1_000 && rejected > 1_000, "{taken} taken, {rejected} rejected");
}
