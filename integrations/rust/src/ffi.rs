//! What the crate takes of `vizhoniku.h`. packaging/calls makes this file of the header, for what the sources name.

#[repr(C)]
#[derive(Clone, Default)]
pub struct TextError {
    pub code: u32,
    pub which: u32,
    pub position: usize,
}

#[repr(C)]
#[derive(Clone, Default)]
pub struct Location {
    pub index: usize,
    pub line: usize,
    pub column: usize,
}

#[repr(C)]
#[derive(Clone, Default)]
pub struct KeyCursor {
    pub kind: u32,
    pub offset: usize,
}

#[repr(C)]
#[derive(Clone, Default)]
pub struct KeyEntry {
    pub name_offset: usize,
    pub name_size: usize,
    pub offset: usize,
    pub size: usize,
}

pub const STANDARD: u32 = 0;
pub const EXTENDED: u32 = 1;
pub const JSON: u32 = 2;
pub const EXTENDED_JSON: u32 = 3;
pub const ACCEPTED: u32 = 0;
pub const REJECTED: u32 = 1;
pub const OUT_OF_MEMORY: u32 = 2;
pub const TOO_SHORT: u32 = 4;
pub const NO_PART: u32 = 5;
pub const NO_PATH: u32 = 6;
pub const TOO_DEEP: u32 = 8;
pub const BOOLEAN: u32 = 2;
pub const NUMBER: u32 = 3;
pub const STRING: u32 = 4;
pub const ARRAY: u32 = 5;
pub const OBJECT: u32 = 6;

#[rustfmt::skip] // a function a line
extern "C" {
    pub fn vizhoniku_version() -> u32;
    pub fn vizhoniku_check(mode: u32, text: *const u8, text_size: usize, error: *mut TextError) -> u32;
    pub fn vizhoniku_text(mode: u32, text: *const u8, text_size: usize, buffer: *mut u8, buffer_size: usize, size: *mut usize, error: *mut TextError) -> u32;
    pub fn vizhoniku_part(mode: u32, path: *const u8, path_size: usize, text: *const u8, text_size: usize, buffer: *mut u8, buffer_size: usize, size: *mut usize, error: *mut TextError) -> u32;
    pub fn vizhoniku_sort_key(mode: u32, text: *const u8, text_size: usize, buffer: *mut u8, buffer_size: usize, size: *mut usize, error: *mut TextError) -> u32;
    pub fn vizhoniku_key_text(key: *const u8, key_size: usize, buffer: *mut u8, buffer_size: usize, size: *mut usize) -> u32;
    pub fn vizhoniku_text_and_key(mode: u32, text: *const u8, text_size: usize, buffer: *mut u8, buffer_size: usize, size: *mut usize, key_buffer: *mut u8, key_buffer_size: usize, key_size: *mut usize, error: *mut TextError) -> u32;
    pub fn vizhoniku_compare(mode: u32, left: *const u8, left_size: usize, right: *const u8, right_size: usize, order: *mut i32, error: *mut TextError) -> u32;
    pub fn vizhoniku_locate(text: *const u8, text_size: usize, error: *const TextError, location: *mut Location);
    pub fn vizhoniku_reason(mode: u32, text: *const u8, text_size: usize, buffer: *mut u8, buffer_size: usize, size: *mut usize) -> u32;
    pub fn vizhoniku_key_check(key: *const u8, key_size: usize) -> u32;
    pub fn vizhoniku_key_kind(key: *const u8, key_size: usize) -> u32;
    pub fn vizhoniku_key_count(key: *const u8, key_size: usize, count: *mut usize) -> u32;
    pub fn vizhoniku_key_member(key: *const u8, key_size: usize, name: *const u8, name_size: usize, offset: *mut usize, size: *mut usize) -> u32;
    pub fn vizhoniku_key_item(key: *const u8, key_size: usize, index: i64, offset: *mut usize, size: *mut usize) -> u32;
    pub fn vizhoniku_key_part(key: *const u8, key_size: usize, path: *const u8, path_size: usize, offset: *mut usize, size: *mut usize) -> u32;
    pub fn vizhoniku_key_begin(key: *const u8, key_size: usize, cursor: *mut KeyCursor) -> u32;
    pub fn vizhoniku_key_next(key: *const u8, key_size: usize, cursor: *mut KeyCursor, entry: *mut KeyEntry) -> u32;
    pub fn vizhoniku_key_string(key: *const u8, key_size: usize, buffer: *mut u8, buffer_size: usize, size: *mut usize) -> u32;
    pub fn vizhoniku_key_name(name: *const u8, name_size: usize, buffer: *mut u8, buffer_size: usize, size: *mut usize) -> u32;
    pub fn vizhoniku_key_boolean(key: *const u8, key_size: usize, value: *mut u32) -> u32;
    pub fn vizhoniku_key_integer(key: *const u8, key_size: usize, value: *mut i64) -> u32;
    pub fn vizhoniku_key_contains(key: *const u8, key_size: usize, other: *const u8, other_size: usize) -> u32;
    pub fn vizhoniku_document(mode: u32, text: *const u8, text_size: usize, buffer: *mut u8, buffer_size: usize, size: *mut usize, error: *mut TextError) -> u32;
    pub fn vizhoniku_document_check(document: *const u8, document_size: usize) -> u32;
    pub fn vizhoniku_document_text(document: *const u8, document_size: usize, buffer: *mut u8, buffer_size: usize, size: *mut usize) -> u32;
    pub fn vizhoniku_document_key(document: *const u8, document_size: usize) -> usize;
    pub fn vizhoniku_document_part(document: *const u8, document_size: usize, path: *const u8, path_size: usize, buffer: *mut u8, buffer_size: usize, size: *mut usize) -> u32;
    pub fn vizhoniku_document_set(document: *const u8, document_size: usize, path: *const u8, path_size: usize, part: *const u8, part_size: usize, create: u32, buffer: *mut u8, buffer_size: usize, size: *mut usize) -> u32;
    pub fn vizhoniku_document_remove(document: *const u8, document_size: usize, path: *const u8, path_size: usize, buffer: *mut u8, buffer_size: usize, size: *mut usize) -> u32;
    pub fn vizhoniku_document_put(document: *const u8, document_size: usize, name: *const u8, name_size: usize, value: *const u8, value_size: usize, buffer: *mut u8, buffer_size: usize, size: *mut usize) -> u32;
    pub fn vizhoniku_document_push(document: *const u8, document_size: usize, item: *const u8, item_size: usize, buffer: *mut u8, buffer_size: usize, size: *mut usize) -> u32;
    pub fn vizhoniku_document_merge(left: *const u8, left_size: usize, right: *const u8, right_size: usize, buffer: *mut u8, buffer_size: usize, size: *mut usize) -> u32;
    pub fn vizhoniku_error_path(mode: u32, text: *const u8, text_size: usize, error: *const TextError, buffer: *mut u8, buffer_size: usize, size: *mut usize) -> u32;
}
