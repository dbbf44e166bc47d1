//! The texts of tests/vectors.jsonl with their answers: 2,000 texts in both modes.

use std::path::Path;
use vizhoniku::{check, compare, sort_key, text, text_and_key, Key, KeyRef, Mode};

fn bytes_of(digits: &str) -> Vec<u8> {
    let digit = |byte: u8| (byte as char).to_digit(16).expect("a digit") as u8;
    digits.as_bytes().chunks(2).map(|pair| digit(pair[0]) << 4 | digit(pair[1])).collect()
}

fn string(key: &KeyRef, path: &str) -> Option<String> {
    key.pointer(path).expect("a path")?.as_string()
}

#[test]
fn each_text_has_its_answer() {
    let file = Path::new(env!("CARGO_MANIFEST_DIR")).join("../../tests/vectors.jsonl");
    let lines = match std::fs::read_to_string(file) {
        Ok(lines) => lines,
        Err(_) => return, // the crate was taken out of its repository
    };
    let mut documents: Vec<Vec<u8>> = Vec::new();
    let (mut accepted, mut rejected) = (0, 0);
    for line in lines.lines() {
        let row = sort_key(line, Mode::Extended).expect("a row");
        let input = bytes_of(&string(&row, "/input").expect("an input"));
        for (name, mode) in [("standard", Mode::Standard), ("extended", Mode::Extended)] {
            let answer = row.get(name).expect("an answer");
            if let Some(written) = string(answer, "/text") {
                accepted += 1;
                assert_eq!(check(&input, mode), Ok(()));
                assert_eq!(text(&input, mode).expect("a text").as_bytes(), bytes_of(&written));
                let (both, key) = text_and_key(&input, mode).expect("a text");
                assert_eq!(Ok(both.as_str()), text(&input, mode).as_deref());
                assert_eq!(sort_key(&input, mode).as_ref(), Ok(&key));
                assert_eq!(sort_key(key.to_text().expect("a text"), Mode::Extended), Ok(key.clone()));
                assert_eq!(Key::from_bytes(key.as_bytes().to_vec()), Ok(key));
                documents.push(input.clone());
            } else {
                rejected += 1;
                let error = check(&input, mode).expect_err("an error");
                let rejection = error.rejection().expect("a rejection");
                let position = answer.get("position").and_then(KeyRef::as_u64).expect("a position");
                assert_eq!(rejection.position() as u64, position);
                assert_eq!(rejection.message(), string(answer, "/reason").expect("a message"));
                let code = format!("{:?}", rejection.code()).to_lowercase();
                assert_eq!(code, string(answer, "/rejected").expect("a code").to_lowercase());
                assert!(rejection.offset() <= input.len());
                let front = &input[..rejection.offset()];
                assert_eq!(rejection.line(), 1 + front.iter().filter(|&&byte| byte == b'\n').count());
                let begins = front.iter().rposition(|&byte| byte == b'\n').map_or(0, |at| at + 1);
                assert_eq!(rejection.column(), front.len() - begins + 1);
                assert_eq!(text(&input, mode), Err(error.clone()));
                assert_eq!(sort_key(&input, mode), Err(error));
            }
        }
    }
    assert!(accepted > 1000 && rejected > 1000, "{accepted} accepted, {rejected} rejected");
    for pair in documents.windows(2) {
        let [left, right] = [&pair[0], &pair[1]].map(|it| sort_key(it, Mode::Extended).expect("a key"));
        assert_eq!(compare(&pair[0], &pair[1], Mode::Extended), Ok(left.cmp(&right)));
    }
}
