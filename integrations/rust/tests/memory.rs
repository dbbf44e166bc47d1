//! What calls allocate in Rust: a text without an exponent no more than the answer, and no call keeps any of it.

use std::alloc::{GlobalAlloc, Layout, System};
use std::cell::Cell;
use vizhoniku::{check, compare, part, sort_key, text, text_and_key, Mode};

struct Counting;

thread_local! {
    static MADE: Cell<usize> = const { Cell::new(0) };
    static LIVE: Cell<isize> = const { Cell::new(0) };
}

// SAFETY: the system's allocator does all of it, and each thread counts what it asks for.
unsafe impl GlobalAlloc for Counting {
    unsafe fn alloc(&self, layout: Layout) -> *mut u8 {
        MADE.with(|made| made.set(made.get() + 1));
        LIVE.with(|live| live.set(live.get() + layout.size() as isize));
        System.alloc(layout)
    }

    unsafe fn dealloc(&self, at: *mut u8, layout: Layout) {
        LIVE.with(|live| live.set(live.get() - layout.size() as isize));
        System.dealloc(at, layout);
    }
}

#[global_allocator]
static ALLOCATOR: Counting = Counting;

/// How often a call allocates. It keeps nothing.
fn made<T>(call: impl Fn() -> T) -> usize {
    let (begin, live) = (MADE.with(Cell::get), LIVE.with(Cell::get));
    drop(call());
    assert_eq!(LIVE.with(Cell::get), live);
    MADE.with(Cell::get) - begin
}

#[test]
fn a_text_takes_no_more() {
    let given = "{a: [1.50, 'x', 7], b: null}";
    assert_eq!(made(|| check(given, Mode::Extended)), 0);
    assert_eq!(made(|| compare(given, given, Mode::Extended)), 0);
    assert_eq!(made(|| text(given, Mode::Extended)), 1);
    assert_eq!(made(|| part(given, "/a", Mode::Extended)), 1);
    assert_eq!(made(|| check("{\"a\": 1e5}", Mode::Json)), 0);
}

#[test]
fn nothing_is_kept() {
    let long = format!("[{}0]", "1e37,".repeat(1000));
    for given in ["1", "1e5", "[1e300]", "[1e5,x", "[1e5", "{\"a\":1e5,\"a\":1}", &long] {
        for mode in [Mode::Standard, Mode::Extended, Mode::Json, Mode::ExtendedJson] {
            made(|| check(given, mode));
            made(|| text(given, mode));
            made(|| sort_key(given, mode));
            made(|| text_and_key(given, mode));
            made(|| part(given, "/0", mode));
            made(|| compare(given, "1e1", mode));
            made(|| compare("1e1", given, mode));
        }
    }
}
