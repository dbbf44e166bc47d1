//! The operations of the benchmark, done by serde_json. They take and answer what those of bench_calls do.

use serde::de::IgnoredAny;
use serde::Deserialize;
use serde_json::Value;
use std::hint::black_box;

/// # Safety
///
/// `text` points to `len` bytes.
unsafe fn bytes<'a>(text: *const u8, len: usize) -> &'a [u8] {
    std::slice::from_raw_parts(text, len)
}

/// How many rounds went well before the first that did not.
fn repeat(rounds: usize, mut is_good: impl FnMut() -> bool) -> usize {
    (0..rounds).find(|_| !is_good()).unwrap_or(rounds)
}

#[no_mangle]
pub unsafe extern "C" fn serde_bench_read(text: *const u8, len: usize, rounds: usize) -> usize {
    let text = bytes(text, len);
    repeat(rounds, || black_box(read(text)).is_some())
}

/// Nothing is made of the text.
#[no_mangle]
pub unsafe extern "C" fn serde_bench_check(text: *const u8, len: usize, rounds: usize) -> usize {
    let text = bytes(text, len);
    repeat(rounds, || black_box(read_as::<IgnoredAny>(text)).is_some())
}

#[no_mangle]
pub unsafe extern "C" fn serde_bench_part(
    path: *const u8,
    path_len: usize,
    text: *const u8,
    len: usize,
    rounds: usize,
) -> usize {
    let Ok(path) = std::str::from_utf8(bytes(path, path_len)) else { return 0 };
    let text = bytes(text, len);
    let mut written = Vec::new();
    repeat(rounds, || {
        written.clear();
        let Some(value) = read(text) else { return false };
        let Some(part) = value.pointer(path) else { return false };
        serde_json::to_writer(&mut written, part).is_ok()
    })
}

#[no_mangle]
pub unsafe extern "C" fn serde_bench_reject(text: *const u8, len: usize, rounds: usize) -> usize {
    let text = bytes(text, len);
    repeat(rounds, || black_box(read(text)).is_none())
}

#[no_mangle]
pub unsafe extern "C" fn serde_bench_write(text: *const u8, len: usize, rounds: usize) -> usize {
    let Some(value) = read(bytes(text, len)) else { return 0 };
    let mut written = Vec::new();
    repeat(rounds, || {
        written.clear();
        serde_json::to_writer(&mut written, black_box(&value)).is_ok()
    })
}

#[no_mangle]
pub unsafe extern "C" fn serde_bench_compare(text: *const u8, len: usize, rounds: usize) -> usize {
    let text = bytes(text, len);
    let (Some(value), Some(twin)) = (read(text), read(text)) else { return 0 };
    repeat(rounds, || black_box(&value) == black_box(&twin))
}

#[no_mangle]
pub unsafe extern "C" fn serde_bench_clone(text: *const u8, len: usize, rounds: usize) -> usize {
    let Some(value) = read(bytes(text, len)) else { return 0 };
    repeat(rounds, || {
        drop(black_box(black_box(&value).clone()));
        true
    })
}

fn read(text: &[u8]) -> Option<Value> {
    read_as(text)
}

/// The limit of depth, 128, is off, as the deep documents go beyond it.
fn read_as<'a, T: Deserialize<'a>>(text: &'a [u8]) -> Option<T> {
    let mut reader = serde_json::Deserializer::from_slice(text);
    reader.disable_recursion_limit();
    let value = T::deserialize(&mut reader).ok()?;
    reader.end().ok()?;
    Some(value)
}
