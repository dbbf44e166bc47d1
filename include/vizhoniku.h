/* Vizhoniku for C: check JSON texts, write their values as text and as sort keys, compare them, report errors; find the
 * parts of values in their sort keys, and change these.
 *
 * A text is any bytes, with its size; it needs no zero byte at its end. A call keeps nothing: there is no state, a call
 * frees all memory that it allocates, and it writes only to what its caller passes. So calls in different threads need
 * no lock, as long as none writes to what another uses.
 *
 * What a caller owes:
 *  - No pointer is null, but that of a text, a path, a name, a key or a buffer of size 0, which isn't dereferenced.
 *  - What a call writes to (buffer, key_buffer, size, key_size, order, error, location, offset, count, value, start,
 *    cursor, entry) doesn't overlap any other argument.
 *  - No text, no key and no buffer is longer than PTRDIFF_MAX bytes.
 *  - The thread has 112 KB of stack free, where input is untrusted: no call was seen to take more, and
 *    vizhoniku_check and vizhoniku_message take no more than 32 KB. docs/C.md has figures. A thread of musl has 128 KB
 *    by default.
 *  - No call comes from a signal handler, or from the child that a process with threads forked.
 *  - malloc, realloc and free are of one allocator, and align a block to each power of two up to 16 that divides its
 *    size.
 *
 * docs/C.md says how to build and link the library, and what is proved. */
#ifndef VIZHONIKU_H
#define VIZHONIKU_H

#include <stddef.h>
#include <stdint.h>

#ifdef __cplusplus
extern "C" {
#endif

/* The version of the library that this header belongs to. */
#define VIZHONIKU_VERSION_STRING "0.2.0"

/* The version of this interface. It grows where a function, a status or a code is added. vizhoniku_version returns that
 * of the library. */
#define VIZHONIKU_VERSION 10

uint32_t vizhoniku_version(void);

/* The grammar of a text. docs/GRAMMAR.md has all four. Any other number is VIZHONIKU_UNKNOWN_MODE. */
enum vizhoniku_mode {
  VIZHONIKU_STANDARD = 0,     /* JSON as RFC 8259 has it, with 64-bit integers alone as numbers */
  VIZHONIKU_EXTENDED = 1,     /* comments, single quotes, unquoted keys, decimals, hexadecimals and more */
  VIZHONIKU_JSON = 2,         /* RFC 8259 to the letter, with fractions and exponents at their exact value */
  VIZHONIKU_EXTENDED_JSON = 3 /* extended, with exponents */
};

/* What a call returns. */
enum vizhoniku_status {
  VIZHONIKU_ACCEPTED = 0,      /* success: each text is a document */
  VIZHONIKU_REJECTED = 1,      /* a text is no document of the mode: the error says why */
  VIZHONIKU_OUT_OF_MEMORY = 2, /* memory ran out: this doesn't say whether a text is a document */
  VIZHONIKU_UNKNOWN_MODE = 3,  /* no mode has this number */
  VIZHONIKU_TOO_SHORT = 4,     /* the buffer is shorter than the text: the size says what is needed */
  VIZHONIKU_NO_PART = 5,       /* the document or the key has no such part */
  VIZHONIKU_NO_PATH = 6,       /* the path isn't a JSON Pointer (RFC 6901) */
  VIZHONIKU_NO_KEY = 7,        /* the bytes aren't the sort key of a value */
  VIZHONIKU_TOO_DEEP = 8,      /* the value would have more than 512 nested arrays and objects */
  VIZHONIKU_NO_ZEROS = 9,      /* the bytes aren't the text of a value, or not the zeros of one */
  VIZHONIKU_NO_DOCUMENT = 10,  /* the bytes aren't the document of a value */
  VIZHONIKU_PRESENT = 11       /* a member that is to be inserted is there already */
};

/* Names of earlier versions, which the next one drops. */
#define VIZHONIKU_REFUSED VIZHONIKU_REJECTED
#define vizhoniku_refusal vizhoniku_error
#define vizhoniku_place vizhoniku_locate

/* What is wrong with a text. docs/GRAMMAR.md says when, and which byte the position means. */
enum vizhoniku_code {
  VIZHONIKU_NO_CODE = 0,
  VIZHONIKU_INVALID_EOF = 1, /* the text ends too early */
  VIZHONIKU_INVALID_NUMBER_VALUE = 2,
  VIZHONIKU_INVALID_STRING_VALUE = 3,
  VIZHONIKU_EXPECTED_SOME_IDENT = 4,
  VIZHONIKU_EXPECTED_SOME_VALUE = 5, /* a value is expected, and the byte begins none */
  VIZHONIKU_EXPECTED_COLON = 6,
  VIZHONIKU_EXPECTED_ARRAY_COMMA_OR_END = 7,
  VIZHONIKU_EXPECTED_OBJECT_COMMA_OR_END = 8,
  VIZHONIKU_UNEXPECTED_TRAILING_CHARACTERS = 9, /* a document ends before the byte */
  VIZHONIKU_KEY_MUST_BE_A_STRING = 10,
  VIZHONIKU_CONTROL_CHARACTER_WHILE_PARSING_STRING = 11,
  VIZHONIKU_INVALID_ESCAPED = 12,
  VIZHONIKU_INVALID_HEX = 13,
  VIZHONIKU_INVALID_LONE_LEADING_SURROGATE_IN_HEX_ESCAPE = 14,
  VIZHONIKU_INVALID_SURROGATE_IN_HEX_ESCAPE = 15,
  VIZHONIKU_UNEXPECTED_END_OF_HEX_ESCAPE = 16,
  VIZHONIKU_OBJECT_DUPLICATE_KEY = 17, /* a key is repeated in an object; the position is after the second */
  VIZHONIKU_OBJECT_KEY_INVALID_NUMBER = 18,
  VIZHONIKU_OBJECT_KEY_INVALID_CHARACTER = 19,
  VIZHONIKU_NUMBER_NOT_CARRIED = 20,   /* a number that isn't representable; the position is after it */
  VIZHONIKU_DEPTH_LIMIT_EXCEEDED = 21  /* more than 512 arrays and objects are open at once */
};

/* Which text was rejected, and why. All three are 0 where the status is not VIZHONIKU_REJECTED. */
struct vizhoniku_error {
  uint32_t code;   /* of enum vizhoniku_code */
  uint32_t which;  /* 1 for the only or the first text, 2 for the second */
  size_t position; /* a number of bytes: which byte it means depends on the code, and it may pass the end */
};

/* Checks whether the text is a document of the mode. The status is never VIZHONIKU_TOO_SHORT. */
uint32_t vizhoniku_check(uint32_t mode, const unsigned char *text, size_t text_size, struct vizhoniku_error *error);

/* Writes the text's value as text to the start of the buffer: without whitespace, and the members of objects in the
 * order of their keys' bytes. What was written is a document of the same value, and is written as itself.
 *
 *  - VIZHONIKU_ACCEPTED: *size bytes were written, with no zero byte after them. The rest of the buffer is as before.
 *  - VIZHONIKU_TOO_SHORT: *size bytes are needed, and nothing was written.
 *  - any other status: *size is 0, and nothing was written. */
uint32_t vizhoniku_text(uint32_t mode, const unsigned char *text, size_t text_size, unsigned char *buffer,
                        size_t buffer_size, size_t *size, struct vizhoniku_error *error);

/* Writes the part of the text's value at the path, as vizhoniku_text writes the whole. A path is a JSON Pointer (RFC
 * 6901): "" is the whole, and "/a/0" the first item of the member "a". In an array a step is an index: decimal digits
 * without leading zeros, of a number below 2^64. Any other step is no index, and leads nowhere.
 *
 *  - VIZHONIKU_ACCEPTED and VIZHONIKU_TOO_SHORT: as of vizhoniku_text.
 *  - VIZHONIKU_NO_PART, VIZHONIKU_NO_PATH: the text is a document. *size is 0, and nothing was written.
 *  - any other status: *size is 0, and nothing was written. */
uint32_t vizhoniku_part(uint32_t mode, const unsigned char *path, size_t path_size, const unsigned char *text,
                        size_t text_size, unsigned char *buffer, size_t buffer_size, size_t *size,
                        struct vizhoniku_error *error);

/* Writes the sort key of the text's value to the start of the buffer: bytes that compare, as memcmp does and the
 * shorter first, as vizhoniku_compare does, and that are equal exactly for equal values. No key is a prefix of another,
 * so keys may be concatenated. docs/SORT_KEYS.md has the format.
 *
 *  - VIZHONIKU_ACCEPTED: *size bytes were written. The rest of the buffer is as before.
 *  - VIZHONIKU_TOO_SHORT: *size bytes are needed, and nothing was written.
 *  - any other status: *size is 0, and nothing was written. */
uint32_t vizhoniku_sort_key(uint32_t mode, const unsigned char *text, size_t text_size, unsigned char *buffer,
                            size_t buffer_size, size_t *size, struct vizhoniku_error *error);

/* Writes the text of the value whose sort key the bytes are, as vizhoniku_text writes it, with the fewest digits in each
 * number: the key of 1.50 is that of 1.5, and gives 1.5. No value is built, and the machine stack that is taken is the
 * same for each key.
 *
 *  - VIZHONIKU_ACCEPTED: *size bytes were written, with no zero byte after them. The rest of the buffer is as before.
 *  - VIZHONIKU_TOO_SHORT: *size bytes are needed, and nothing was written.
 *  - VIZHONIKU_NO_KEY: the bytes can't be the sort key of a JSON value with at most 512 nested arrays and objects. *size
 *    is 0, and nothing was written.
 *  - VIZHONIKU_OUT_OF_MEMORY: *size is 0, and nothing was written.
 *
 * It isn't a check of a key: other bytes have a text too, also one that isn't JSON, or VIZHONIKU_NO_KEY. */
uint32_t vizhoniku_key_text(const unsigned char *key, size_t key_size, unsigned char *buffer, size_t buffer_size,
                            size_t *size);

/* Writes the text's value as text and as sort key, as vizhoniku_text and vizhoniku_sort_key do: each to the start of a
 * buffer of its own. The two buffers don't overlap.
 *
 *  - VIZHONIKU_ACCEPTED: *size and *key_size bytes were written. The rest of both buffers is as before.
 *  - VIZHONIKU_TOO_SHORT: one of the buffers is too short. *size and *key_size bytes are needed, and nothing was
 *    written.
 *  - any other status: *size and *key_size are 0, and nothing was written. */
uint32_t vizhoniku_text_and_key(uint32_t mode, const unsigned char *text, size_t text_size, unsigned char *buffer,
                                size_t buffer_size, size_t *size, unsigned char *key_buffer, size_t key_buffer_size,
                                size_t *key_size, struct vizhoniku_error *error);

/* Writes the values of the lines of a text, each of which is a text of its own, as vizhoniku_text does, and a line feed
 * behind each: JSON Lines, of which a short one takes less time than a call of its own. The last line may lack its line
 * feed. No line is left out, also not an empty one.
 *
 *  - VIZHONIKU_ACCEPTED: *size bytes were written. The rest of the buffer is as before.
 *  - VIZHONIKU_TOO_SHORT: *size bytes are needed, and nothing was written.
 *  - VIZHONIKU_REJECTED: the line that begins at the offset *start is the first that is rejected, and *error says why. For
 *    vizhoniku_locate that line alone, without its line feed, is the text.
 *  - any other status: *size is 0, and nothing was written, as with VIZHONIKU_REJECTED.
 *
 * But where a line is rejected *start is 0. */
uint32_t vizhoniku_lines(uint32_t mode, const unsigned char *text, size_t text_size, unsigned char *buffer,
                         size_t buffer_size, size_t *size, size_t *start, struct vizhoniku_error *error);

/* Compares the values of two texts of one mode: *order is -1 where the first is below the second, 0 where they are the
 * same, and 1 where it is above. It is one total order; docs/VALUES.md has it. Where the status is not
 * VIZHONIKU_ACCEPTED, *order is 0. Where both texts are rejected, the first is reported. The status is never
 * VIZHONIKU_TOO_SHORT. */
uint32_t vizhoniku_compare(uint32_t mode, const unsigned char *left, size_t left_size, const unsigned char *right,
                           size_t right_size, int32_t *order, struct vizhoniku_error *error);

/* The byte to show of an error: the offset of the wrong byte, or of the last byte of the faulty number, string, key or
 * escape, or the text's size where the text ends too early; and the line and the column of that, both counted from 1,
 * the column in bytes. */
struct vizhoniku_location {
  size_t index;
  size_t line;
  size_t column;
};

/* Returns the byte to show of an error of this text. */
void vizhoniku_locate(const unsigned char *text, size_t text_size, const struct vizhoniku_error *error,
                      struct vizhoniku_location *location);

/* Returns which character of the text the byte at an index is of, counted from 1 at the byte at `first`. With the first
 * byte of the line, location.index - (location.column - 1), that is the column in characters, and with 0 the character
 * of the text. In UTF-8 each byte but 0x80 to 0xBF begins a character. An index past the end counts as the end of the
 * text, where one begins too. It is 1 where the index isn't above `first`. */
size_t vizhoniku_character(const unsigned char *text, size_t text_size, size_t first, size_t index);

/* Writes the error message of the text to the start of the buffer, as the program jsonb_cat prints it, such as
 * `duplicate object attribute "a", pos 10`. The text is parsed for that, so no other call need check it before.
 *
 *  - VIZHONIKU_REJECTED: *size bytes were written, with no zero byte after them. The rest of the buffer is as before.
 *  - VIZHONIKU_TOO_SHORT: *size bytes are needed, and nothing was written.
 *  - VIZHONIKU_ACCEPTED: the text is a document. *size is 0, as with any other status, and nothing was written. */
uint32_t vizhoniku_message(uint32_t mode, const unsigned char *text, size_t text_size, unsigned char *buffer,
                           size_t buffer_size, size_t *size);

/* Writes what is wrong for a user's eyes, for a program that shows line and column beside it: the same message without its
 * end `, pos N`, as `duplicate object attribute "a"`, but where that takes to know the parser: `invalid escape: `s` after a
 * backslash`. The statuses are those of vizhoniku_message. */
uint32_t vizhoniku_reason(uint32_t mode, const unsigned char *text, size_t text_size, unsigned char *buffer,
                          size_t buffer_size, size_t *size);

/* A sort key as a stored document. The calls below take the key of a value, as vizhoniku_sort_key wrote it, and find
 * the keys of its parts in it: an offset and a size. No text is parsed, no value is made, and nothing is
 * kept. A part's range is the key of the part, to which each of these calls may be applied again. A key is changed as a
 * document is, by vizhoniku_document_set and its kin.
 *
 * Any bytes may be passed, and a range lies within them. They aren't checked as a whole: of bytes that are the key of
 * no value a call says VIZHONIKU_NO_KEY, or finds something in them. The keys of binary data, dates, times and
 * intervals, which no text has, are none here. Where the status isn't VIZHONIKU_ACCEPTED, what a call writes to is 0. */

/* The kind of a value. */
enum vizhoniku_kind {
  VIZHONIKU_NO_KIND = 0, /* no sort key of a value begins so */
  VIZHONIKU_NULL = 1,
  VIZHONIKU_BOOLEAN = 2,
  VIZHONIKU_NUMBER = 3,
  VIZHONIKU_STRING = 4,
  VIZHONIKU_ARRAY = 5,
  VIZHONIKU_OBJECT = 6
};

/* Checks whether bytes are the sort key of a value that a text can have: JSON, with at most 512 nested arrays and
 * objects, and numbers of at most 38 digits, before and behind the point. VIZHONIKU_NO_KEY: they aren't. Of a key that is
 * accepted vizhoniku_key_text writes a document of extended mode, whose sort key it is. The calls below don't check a key
 * as a whole, so a key from outside is checked by this first. It takes no memory, and its time is linear in the size. */
uint32_t vizhoniku_key_check(const unsigned char *key, size_t key_size);

/* Returns the kind of the value whose key this is, of enum vizhoniku_kind. It looks at the first byte alone, and
 * returns VIZHONIKU_NO_KIND where there is none, and where no key of these kinds begins with it: a first byte of 17 to
 * 37, 7F or C8 to CF (hexadecimal) is no kind, nor is one below 15 or above D3. */
uint32_t vizhoniku_key_kind(const unsigned char *key, size_t key_size);

/* Counts the items of an array, or the members of an object. VIZHONIKU_NO_PART: the value is neither. */
uint32_t vizhoniku_key_count(const unsigned char *key, size_t key_size, size_t *count);

/* Finds the member of an object by its name, which is UTF-8 as it is, with no escapes. VIZHONIKU_NO_PART: the value is
 * no object, or has no such member. */
uint32_t vizhoniku_key_member(const unsigned char *key, size_t key_size, const unsigned char *name, size_t name_size,
                              size_t *offset, size_t *size);

/* Finds the item of an array by its index, from 0 on; a negative one counts from the end, where -1 is the last item.
 * VIZHONIKU_NO_PART: the value is no array, or has no such item. */
uint32_t vizhoniku_key_item(const unsigned char *key, size_t key_size, int64_t index, size_t *offset, size_t *size);

/* Finds the part at the path, a JSON Pointer (RFC 6901), as vizhoniku_part does in a text. VIZHONIKU_NO_PART,
 * VIZHONIKU_NO_PATH and VIZHONIKU_OUT_OF_MEMORY are as there; memory is taken only for a path with an escape (~0, ~1),
 * and for one that isn't UTF-8. */
uint32_t vizhoniku_key_part(const unsigned char *key, size_t key_size, const unsigned char *path, size_t path_size,
                            size_t *offset, size_t *size);

/* Which item or member of an array or an object comes next. It is the caller's, and may be copied. */
struct vizhoniku_key_cursor {
  uint32_t kind; /* VIZHONIKU_ARRAY or VIZHONIKU_OBJECT */
  size_t offset;
};

/* The range of an item in a key, or those of a member: its name, and its value. An item has no name: name_size is 0. */
struct vizhoniku_key_entry {
  size_t name_offset;
  size_t name_size; /* with the two bytes that end a name; vizhoniku_key_name has the name itself */
  size_t offset;
  size_t size;
};

/* Puts the cursor before the first item or member. VIZHONIKU_NO_PART: the value is neither an array nor an object. */
uint32_t vizhoniku_key_begin(const unsigned char *key, size_t key_size, struct vizhoniku_key_cursor *cursor);

/* Finds the next item or member, in the order of the array or of the names' bytes, and moves the cursor
 * behind it. The key is that of vizhoniku_key_begin. VIZHONIKU_NO_PART: there is none any more. The cursor stays where
 * it is then, and with VIZHONIKU_NO_KEY. */
uint32_t vizhoniku_key_next(const unsigned char *key, size_t key_size, struct vizhoniku_key_cursor *cursor,
                            struct vizhoniku_key_entry *entry);

/* Writes the text of a string, from its key, to the start of the buffer: UTF-8 as it is, without quotes and escapes, in
 * which there may be zero bytes.
 *
 *  - VIZHONIKU_ACCEPTED: *size bytes were written, with no zero byte after them. The rest of the buffer is as before.
 *  - VIZHONIKU_TOO_SHORT: *size bytes are needed, and nothing was written. The key is always longer than its text.
 *  - VIZHONIKU_NO_PART: the value is no string. *size is 0, and nothing was written.
 *  - VIZHONIKU_NO_KEY: *size is 0, and nothing was written. */
uint32_t vizhoniku_key_string(const unsigned char *key, size_t key_size, unsigned char *buffer, size_t buffer_size,
                              size_t *size);

/* Writes the name of a member, from its range in a key, as vizhoniku_key_string writes the text of a string. */
uint32_t vizhoniku_key_name(const unsigned char *name, size_t name_size, unsigned char *buffer, size_t buffer_size,
                            size_t *size);

/* Returns the boolean of a key in *value: 1 for true, 0 for false. VIZHONIKU_NO_PART: the value is no boolean. */
uint32_t vizhoniku_key_boolean(const unsigned char *key, size_t key_size, uint32_t *value);

/* Finds the integer that a number is. VIZHONIKU_NO_PART: the value is no number, or not a whole one, or it has more than 64
 * bits. *value is 0 then, and with VIZHONIKU_NO_KEY. */
uint32_t vizhoniku_key_integer(const unsigned char *key, size_t key_size, int64_t *value);

/* Finds the decimal that a number is, with the fewest digits: *digits / 10^*scale, where *digits has at most 18, and the
 * last of them isn't 0 where *scale isn't. VIZHONIKU_NO_PART: the value is no number, or it has more digits. *digits and
 * *scale are 0 then, and with VIZHONIKU_NO_KEY. */
uint32_t vizhoniku_key_decimal(const unsigned char *key, size_t key_size, int64_t *digits, uint32_t *scale);

/* Writes the sort key of an integer to the start of the buffer, of at most 11 bytes.
 *
 *  - VIZHONIKU_ACCEPTED: *size bytes were written. The rest of the buffer is as before.
 *  - VIZHONIKU_TOO_SHORT: *size bytes are needed, and nothing was written.
 *  - VIZHONIKU_OUT_OF_MEMORY: *size is 0, and nothing was written. */
uint32_t vizhoniku_key_of_integer(int64_t value, unsigned char *buffer, size_t buffer_size, size_t *size);

/* Writes the sort key of a string to the start of the buffer, from its text in UTF-8, with no quotes and escapes.
 *
 *  - VIZHONIKU_ACCEPTED: *size bytes were written. The rest of the buffer is as before.
 *  - VIZHONIKU_TOO_SHORT: *size bytes are needed, and nothing was written.
 *  - VIZHONIKU_NO_KEY: the text isn't UTF-8. *size is 0, and nothing was written.
 *  - VIZHONIKU_OUT_OF_MEMORY: *size is 0, and nothing was written. */
uint32_t vizhoniku_key_of_string(const unsigned char *text, size_t text_size, unsigned char *buffer, size_t buffer_size,
                                 size_t *size);

/* Writes the step of a path for a name to the start of the buffer: a slash, and the name, with ~0 for ~ and ~1 for /.
 * The steps of several names make up a path (RFC 6901). The name is UTF-8 as it is.
 *
 *  - VIZHONIKU_ACCEPTED: *size bytes were written. The rest of the buffer is as before.
 *  - VIZHONIKU_TOO_SHORT: *size bytes are needed, and nothing was written.
 *  - VIZHONIKU_NO_PATH: the name isn't UTF-8. *size is 0, and nothing was written.
 *  - VIZHONIKU_OUT_OF_MEMORY: *size is 0, and nothing was written. */
uint32_t vizhoniku_path_step(const unsigned char *name, size_t name_size, unsigned char *buffer, size_t buffer_size,
                             size_t *size);

/* Whether a value contains another, from their keys, as @> of PostgreSQL's jsonb does: an object contains an
 * object where for each member of that it has one of that name whose value contains the other's, an array an array where
 * for each item of that it has one that contains it, and a scalar an equal one. Only where the whole of the first is an
 * array, it also contains a scalar that is one of its items. VIZHONIKU_NO_PART: it doesn't contain it.
 *
 * No memory is taken. The members of two objects are passed once, but each item of the other's arrays is looked for
 * among all items. */
uint32_t vizhoniku_key_contains(const unsigned char *key, size_t key_size, const unsigned char *other,
                                size_t other_size);

/* The zeros that end decimals, where they are stored apart from a sort key, which has all of a value but them (documents,
 * below, hold both): writes the text of a value from the one that vizhoniku_key_text writes of its key, and its zeros.
 *
 * The zeros have an entry for each number that some end behind the point, in the order of the text: how many numbers
 * without any come before it, since the last entry (LEB128: seven bits in a byte, the lowest first, with the highest bit
 * where more follow), and how many zeros it has, in one byte.
 *
 *  - VIZHONIKU_ACCEPTED: *size bytes were written. The rest of the buffer is as before.
 *  - VIZHONIKU_TOO_SHORT: *size bytes are needed, and nothing was written.
 *  - VIZHONIKU_NO_ZEROS: the bytes aren't the text of a value, or not the zeros of one with this text. *size is 0, and
 *    nothing was written. Not all such bytes are found: of others any bytes may be written.
 *  - VIZHONIKU_OUT_OF_MEMORY: *size is 0, and nothing was written. */
uint32_t vizhoniku_text_with_zeros(const unsigned char *text, size_t text_size, const unsigned char *zeros,
                                   size_t zeros_size, unsigned char *buffer, size_t buffer_size, size_t *size);

/* Documents: values as a store keeps them, in their order, and with the zeros that end their decimals. A sort key has all
 * of a value but these: 1.5 and 1.50 have one key. A document is the sort key of a value, and where zeros end some of its
 * decimals, these behind it. So
 *
 *  - a sort key is the document of a value without such zeros: what was stored as a key is a document;
 *  - documents compare, as memcmp does and the shorter first, as their values do; of equal values, by their zeros.
 *    Documents of values from a up to, but not with, b are those from the key of a up to that of b;
 *  - two values are equal exactly where the keys of their documents are equal, and have one text exactly where the
 *    documents are. An index by value is one over the keys, whose size vizhoniku_document_key returns.
 *
 * A document ends where the store says: nothing follows it, as it may follow a key. In a composite key take the
 * document's key.
 *
 * Behind the key is an entry for each number with zeros at its end, in the order of the key: how many bytes of the key
 * are between the first byte of the last such number and this one's, or before the first one's (LEB128), and how many
 * zeros it has, in one byte: for [1.50,1.50] 1, 1 and 1, 1. Then how many bytes all these entries are, as LEB128 written
 * from the end; and the byte FF, with which no key ends.
 *
 * The calls over sort keys, above, take a document's key, which is its first bytes. The ranges that they give are those
 * of vizhoniku_document_range. Calls that write a document or a text write it to the start of the buffer:
 *
 *  - VIZHONIKU_ACCEPTED: *size bytes were written. The rest of the buffer is as before.
 *  - VIZHONIKU_TOO_SHORT: *size bytes are needed, and nothing was written.
 *  - VIZHONIKU_NO_PART: there is no such part, or nothing changes, so that the document that was passed is the answer.
 *    *size is 0, and nothing was written.
 *  - VIZHONIKU_NO_DOCUMENT: the bytes aren't the document of a value that a text can have, with at most 512 nested arrays
 *    and objects. *size is 0, and nothing was written.
 *  - VIZHONIKU_TOO_DEEP, VIZHONIKU_NO_PATH, VIZHONIKU_OUT_OF_MEMORY: *size is 0, and nothing was written.
 *
 * Any bytes may be passed as a document; they aren't checked as a whole, and of bytes that are none any bytes may be
 * written. A document from outside is checked by vizhoniku_document_check first. */

/* Writes the document of the text's value. The statuses and the error are those of vizhoniku_text. */
uint32_t vizhoniku_document(uint32_t mode, const unsigned char *text, size_t text_size, unsigned char *buffer,
                            size_t buffer_size, size_t *size, struct vizhoniku_error *error);

/* Checks whether bytes are the document of a value that a text can have: JSON, with at most 512 nested arrays and objects,
 * and numbers of at most 38 digits, before and behind the point. VIZHONIKU_NO_DOCUMENT: they aren't. Each text has one
 * document. It takes no memory, and time linear in the bytes. */
uint32_t vizhoniku_document_check(const unsigned char *document, size_t document_size);

/* Writes the serialized form of the document's value, as vizhoniku_text wrote it of the text that the document was made
 * of. */
uint32_t vizhoniku_document_text(const unsigned char *document, size_t document_size, unsigned char *buffer,
                                 size_t buffer_size, size_t *size);

/* Returns how many of the document's first bytes are its key, also where its table is behind it. It looks at the last ten
 * bytes of the document alone, and the last three of the table. Of any bytes it is at most their number. */
size_t vizhoniku_document_key(const unsigned char *document, size_t document_size);

/* Compares the values of two documents: -1 where the first is below the second, 0 where they are equal, and 1 where it is
 * above. Zeros don't count. It takes no memory. */
int32_t vizhoniku_document_compare(const unsigned char *left, size_t left_size, const unsigned char *right,
                                   size_t right_size);

/* Writes the document of the part at the path, a JSON Pointer (RFC 6901), as vizhoniku_key_part finds it. */
uint32_t vizhoniku_document_part(const unsigned char *document, size_t document_size, const unsigned char *path,
                                 size_t path_size, unsigned char *buffer, size_t buffer_size, size_t *size);

/* Writes the document of the part whose key is at the offset in the document's key, and has this size, as the calls over
 * keys give them. VIZHONIKU_NO_DOCUMENT: the range isn't within the key. */
uint32_t vizhoniku_document_range(const unsigned char *document, size_t document_size, size_t offset, size_t part_size,
                                  unsigned char *buffer, size_t buffer_size, size_t *size);

/* Which item or member of a document comes next, and what is left of its zeros there. It is the caller's, and may be
 * copied. */
struct vizhoniku_document_cursor {
  struct vizhoniku_key_cursor parts; /* in the document's key */
  size_t before;                     /* how many bytes of the key come before the next number with zeros */
  size_t entries;                    /* where in the document's zeros the entries behind that number begin */
  unsigned char count;               /* how many zeros that number has; 0 where none with zeros is left */
};

/* Puts the cursor before the first item or member. VIZHONIKU_NO_PART: the value is neither an array nor an object. It
 * takes no memory. */
uint32_t vizhoniku_document_begin(const unsigned char *document, size_t document_size,
                                  struct vizhoniku_document_cursor *cursor);

/* Writes the document of the next item or of the next member's value, in the order of vizhoniku_key_next, and moves the
 * cursor behind it. The entry has its ranges in the document's key. The document is that of vizhoniku_document_begin.
 * VIZHONIKU_NO_PART: there is none any more. With each status but VIZHONIKU_ACCEPTED the cursor stays where it is, and
 * the entry is all 0; after VIZHONIKU_TOO_SHORT the same call with a longer buffer writes the part. The zeros are
 * passed once: all parts take time linear in the document. */
uint32_t vizhoniku_document_next(const unsigned char *document, size_t document_size,
                                 struct vizhoniku_document_cursor *cursor, struct vizhoniku_key_entry *entry,
                                 unsigned char *buffer, size_t buffer_size, size_t *size);

/* A walk over all that is in a document, in the order of its key: what is open, and what is left of the zeros. It is the
 * caller's, and may be copied. */
struct vizhoniku_walk {
  size_t offset;              /* how many bytes of the document's key are passed */
  size_t depth;               /* how many arrays and objects are open */
  size_t passed;              /* up to which byte of the key the zeros are passed */
  size_t before;              /* how many bytes come from there to the next number with zeros */
  unsigned char count;        /* how many zeros that number has; 0 where none with zeros is left */
  size_t entries;             /* where in the document's zeros the entries behind that number begin */
  unsigned char objects[512]; /* of those that are open, outermost first: 1 for an object, 0 for an array */
};

/* What a walk meets: a value that begins, or the end of the innermost array or object. */
struct vizhoniku_event {
  uint32_t kind;      /* of the value; VIZHONIKU_NO_KIND for an end */
  uint32_t zeros;     /* that end a number */
  size_t name_offset; /* of a member's name in the document's key, as vizhoniku_key_next gives it */
  size_t name_size;   /* 0 for an item, and for the value itself */
  size_t offset;      /* of the value in the document's key; for an end, what is behind it */
  size_t size;        /* of a value that is neither an array nor an object; else 0 */
};

/* Begins a walk over a document, and reports the first event: that the value itself begins. With VIZHONIKU_NO_DOCUMENT
 * the event is all 0, and the walk has no event left. It takes no memory, nor do the next three. */
uint32_t vizhoniku_walk_begin(const unsigned char *document, size_t document_size, struct vizhoniku_walk *walk,
                              struct vizhoniku_event *event);

/* Reports the next event, and moves the walk behind it. The document is that of vizhoniku_walk_begin. VIZHONIKU_NO_PART:
 * there is none any more. With each status but VIZHONIKU_ACCEPTED the walk stays where it is, and the event is all 0.
 * Each byte is looked at once: all events take time linear in the document. */
uint32_t vizhoniku_walk_next(const unsigned char *document, size_t document_size, struct vizhoniku_walk *walk,
                             struct vizhoniku_event *event);

/* Moves the walk behind the innermost array or object that is open. VIZHONIKU_NO_PART: none is. With each status but
 * VIZHONIKU_ACCEPTED the walk stays where it is. */
uint32_t vizhoniku_walk_skip(const unsigned char *document, size_t document_size, struct vizhoniku_walk *walk);

/* Moves the walk before the next member of this name, of the innermost that is open, so that vizhoniku_walk_next
 * reports that member next. VIZHONIKU_NO_PART: none of those that are left has the name, and the walk is before the
 * first one whose name is greater, or before the end of the object; or an array is innermost, or nothing is open, and
 * the walk stays where it is. Members are in the order of their names: one call after the other, for names that ascend,
 * passes each member once. With VIZHONIKU_NO_DOCUMENT the walk stays where it is. */
uint32_t vizhoniku_walk_member(const unsigned char *document, size_t document_size, struct vizhoniku_walk *walk,
                               const unsigned char *name, size_t name_size);

/* A document changed, by the calls below: no text is parsed and no value is made, and what stays is copied as it is. They
 * change sort keys too: where none of the documents that are passed has zeros, the sort key of the changed value is
 * written.
 *
 * The bytes D1 00 00 are the document of an object with no members, and D2 00 that of an array with no items.
 *
 * A path is a JSON Pointer (RFC 6901), as of vizhoniku_key_part. In an array a step is the index of an item in decimal
 * digits without leading zeros; with a minus sign before them it counts from the end, where -1 is the last item. Digits
 * of 2^64 and more are no index. */

/* Sets the part at the path, as jsonb_set of PostgreSQL does: the part that is there is replaced. Where only the last
 * step leads nowhere and create isn't 0, a member is added to an object; to an array an item is added at its end, or at
 * its front for an index that counts from the end. VIZHONIKU_NO_PART: the path has no steps, an earlier step leads
 * nowhere or is in no array and no object, a step in an array is no index, or the last step leads nowhere and create is
 * 0. */
uint32_t vizhoniku_document_set(const unsigned char *document, size_t document_size, const unsigned char *path,
                                size_t path_size, const unsigned char *part, size_t part_size, uint32_t create,
                                unsigned char *buffer, size_t buffer_size, size_t *size);

/* Removes the part at the path, as the operator #- of PostgreSQL's jsonb does. VIZHONIKU_NO_PART: there is no such part,
 * or the path has no steps. The status is never VIZHONIKU_TOO_DEEP. */
uint32_t vizhoniku_document_remove(const unsigned char *document, size_t document_size, const unsigned char *path,
                                   size_t path_size, unsigned char *buffer, size_t buffer_size, size_t *size);

/* Puts a member into an object, instead of the one of that name where there is one. The name is UTF-8 as it is, with no
 * escapes. VIZHONIKU_NO_PART: the value is no object. VIZHONIKU_NO_PATH: the name isn't UTF-8. */
uint32_t vizhoniku_document_put(const unsigned char *document, size_t document_size, const unsigned char *name,
                                size_t name_size, const unsigned char *value, size_t value_size, unsigned char *buffer,
                                size_t buffer_size, size_t *size);

/* Puts an item at the end of an array. VIZHONIKU_NO_PART: the value is no array. */
uint32_t vizhoniku_document_push(const unsigned char *document, size_t document_size, const unsigned char *item,
                                 size_t item_size, unsigned char *buffer, size_t buffer_size, size_t *size);

/* Inserts the part at the path. Where the last step leads into an array, the part is put before the item of that index,
 * or behind it if after isn't 0; at the end where there are fewer items; and before all of them where there are fewer
 * than an index with a minus sign counts from the end. Where it leads into an object, the part is a new member:
 * VIZHONIKU_PRESENT, where the object has one of that name; *size is 0, and nothing was written. VIZHONIKU_NO_PART: a
 * step before the last one leads nowhere, or the last one is no index of an array. So jsonb_insert of PostgreSQL does
 * with jsonb. */
uint32_t vizhoniku_document_insert(const unsigned char *document, size_t document_size, const unsigned char *path,
                                   size_t path_size, const unsigned char *part, size_t part_size, uint32_t after,
                                   unsigned char *buffer, size_t buffer_size, size_t *size);

/* Merges two values, as the operator || of PostgreSQL's jsonb does: two objects to one with the members of both, where
 * those of the right one win; else two arrays to one, for which a value that is no array is an array of itself. The
 * status is neither VIZHONIKU_NO_PART nor VIZHONIKU_NO_PATH. */
uint32_t vizhoniku_document_merge(const unsigned char *left, size_t left_size, const unsigned char *right,
                                  size_t right_size, unsigned char *buffer, size_t buffer_size, size_t *size);

/* Leaves out what an object names, of which the document or the key is passed, as `-` of PostgreSQL's jsonb does: of an
 * object the members that have one of its names, of an array the items that are strings equal to one of them.
 * VIZHONIKU_NO_PART: there are none, or what names isn't an object. */
uint32_t vizhoniku_document_without(const unsigned char *document, size_t document_size, const unsigned char *names,
                                    size_t names_size, unsigned char *buffer, size_t buffer_size, size_t *size);

/* Leaves out the members that are null, at all depths, and the items that are too if in_arrays isn't 0, as
 * jsonb_strip_nulls of PostgreSQL does. A null alone stays. Where there are none, the same document is written. */
uint32_t vizhoniku_document_strip_nulls(const unsigned char *document, size_t document_size, uint32_t in_arrays,
                                        unsigned char *buffer, size_t buffer_size, size_t *size);

/* Tables of members: what a store keeps behind a document, so that a member of the outermost object is found without a
 * walk over those before it. The value has a table where it is an object with at least 4 members whose key takes 256 to
 * 65535 bytes. The table is, for each member in the order of the key, the offset in the key at which the member's name
 * begins; then their number, each in two bytes with the higher one first; and the byte FE, with which no key and no
 * document ends. So a document with a table behind it is told from one without by its last byte, and the table is no part
 * of the document: the other calls take the document alone, but vizhoniku_document_key.
 *
 * A table is made for its key and is not changed: a changed document has another. What vizhoniku_table_member finds is
 * promised for a key and its table. Any bytes may be passed, and the ranges are within the key; a table from outside is
 * checked by vizhoniku_table_check first. No call takes memory but vizhoniku_table. */

/* Writes the table of the key to the start of the buffer.
 *
 *  - VIZHONIKU_ACCEPTED: *size bytes were written. The rest of the buffer is as before.
 *  - VIZHONIKU_TOO_SHORT: *size bytes are needed, and nothing was written. They are at most two thirds of those of the
 *    key, and one.
 *  - VIZHONIKU_NO_PART: the value has no table. *size is 0, and nothing was written.
 *  - VIZHONIKU_NO_KEY, VIZHONIKU_OUT_OF_MEMORY: *size is 0, and nothing was written. */
uint32_t vizhoniku_table(const unsigned char *key, size_t key_size, unsigned char *buffer, size_t buffer_size,
                         size_t *size);

/* Returns how many of the last bytes are a table, and 0 where there is none behind the document. */
size_t vizhoniku_table_size(const unsigned char *stored, size_t stored_size);

/* Finds the member of an object by its name, as vizhoniku_key_member does, by the table of the key. */
uint32_t vizhoniku_table_member(const unsigned char *key, size_t key_size, const unsigned char *table,
                                size_t table_size, const unsigned char *name, size_t name_size, size_t *offset,
                                size_t *size);

/* Checks whether the bytes are the table of the key. VIZHONIKU_NO_PART: they aren't. The key is one that
 * vizhoniku_key_check accepts. It takes time linear in the key. */
uint32_t vizhoniku_table_check(const unsigned char *key, size_t key_size, const unsigned char *table,
                               size_t table_size);

/* Writes the path of the part of the text's value at which the text is rejected to the start of the buffer: a JSON
 * Pointer (RFC 6901), such as /values/17. It is that of the innermost item or member with the fault, and "" where that
 * is the whole. Where a comma or the end of an array or an object is missing, it is that of the item or member before;
 * where a comment without an end begins there, that of the item that would come next, or of the object. Where a key is
 * wrong, or missing, it is that of the object, and of a repeated key that of the member.
 * The error is the one of this text and mode. The text is parsed up to five times more.
 *
 *  - VIZHONIKU_ACCEPTED: *size bytes were written, with no zero byte after them, which are UTF-8. The rest of the buffer
 *    is as before. Zero bytes may be among them, where a key has some.
 *  - VIZHONIKU_TOO_SHORT: *size bytes are needed, and nothing was written.
 *  - VIZHONIKU_OUT_OF_MEMORY, VIZHONIKU_UNKNOWN_MODE: *size is 0, and nothing was written. */
uint32_t vizhoniku_error_path(uint32_t mode, const unsigned char *text, size_t text_size,
                              const struct vizhoniku_error *error, unsigned char *buffer, size_t buffer_size,
                              size_t *size);

#ifdef __cplusplus
}
#endif

#endif
