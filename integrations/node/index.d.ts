/// <reference types="node" />

/** The grammar of a text; each constant is one. */
export type Mode = 'standard' | 'extended' | 'json' | 'extended_json';

/** JSON as RFC 8259 has it, with integers of 64 bits alone as numbers. */
export const STANDARD: 'standard';

/** Comments, single quotes, names without quotes, decimals, hexadecimals and more. */
export const EXTENDED: 'extended';

/** RFC 8259 to the letter. Numbers, also those with exponents, have their exact value, of at most 38 digits. */
export const JSON: 'json';

/** `EXTENDED`, in which numbers may have exponents: the default. */
export const EXTENDED_JSON: 'extended_json';

/** A text: a string, or bytes in UTF-8. A string with half of a surrogate pair throws `TypeError`. */
export type Text = string | Uint8Array;

/** What `parse` and `value` return. Objects have own properties alone, also one that is named `__proto__`. */
export type Value = null | boolean | number | bigint | string | Decimal | Value[] | { [name: string]: Value };

/** The kind of a value. */
export type Kind = 'null' | 'boolean' | 'number' | 'string' | 'array' | 'object';

/** Below, equal or above. */
export type Order = -1 | 0 | 1;

/** A text is no document. The message is such as `line 1, column 7: expected value`. */
export class ParseError extends SyntaxError {
  private constructor();

  readonly name: 'ParseError';

  /** The number of what is wrong: `enum vizhoniku_code` of `vizhoniku.h`. */
  readonly code: number;

  /** Of what is at fault, from 0 on: `text[offset]` in a string, and the same in bytes. */
  readonly offset: number;

  /** The line of it, from 1 on. */
  readonly line: number;

  /** Which character of its line it is, from 1 on. A surrogate pair is one. */
  readonly column: number;

  /** The innermost item or member with the fault, a JSON Pointer (RFC 6901); `''` is the whole. */
  readonly path: string;

  /** The message without line and column. */
  readonly reason: string;

  /** 2 where the second text of `compare` is rejected, else 1. */
  readonly which: 1 | 2;
}

/** A number with digits behind the point, exactly. `Number(decimal)` and arithmetic take the nearest double. */
export class Decimal {
  /** The decimal of a number of JSON, such as `1.50` or `1e-7`. */
  constructor(text: string);

  /** The number without an exponent, with all its digits. */
  readonly text: string;

  /** The same as `text`. */
  toString(): string;

  /** The nearest double. */
  valueOf(): number;

  /** The double of this value for `JSON.stringify`. Throws `TypeError` where that would write another value. */
  toJSON(): number;
}

/** Throws `ParseError` where the text is no document. */
export function check(text: Text, mode?: Mode): void;

/** Whether the text is a document. */
export function valid(text: Text, mode?: Mode): boolean;

/** The text of its value: no whitespace, members in the order of the bytes of their names, all digits of numbers. */
export function text(text: Text, mode?: Mode): string;

/** The bytes of its sort key: they compare as the values do, and are equal for equal values. */
export function sortKey(text: Text, mode?: Mode): Buffer;

/** The bytes of its document: the sort key, and behind it the zeros that end decimals. */
export function document(text: Text, mode?: Mode): Buffer;

/** Whether the value of the left text is below that of the right one, equal to it or above it. */
export function compare(left: Text, right: Text, mode?: Mode): Order;

/** The text of the part at a path, a JSON Pointer (RFC 6901), or undefined. Of a key parts are found sooner. */
export function part(text: Text, path: string, mode?: Mode): string | undefined;

/**
 * The value of a text, exactly: an integer within `Number.MAX_SAFE_INTEGER` is a number, another one a bigint, and a
 * number with a point a `Decimal`.
 */
export function parse(text: Text, mode?: Mode): Value;

/**
 * The text of a value, as `text` writes it, with each number as it is: null, booleans, numbers, bigints, strings,
 * arrays, plain objects, decimals, keys, documents, and what `toJSON` of another object returns. Anything else throws
 * `TypeError`, also undefined, and NaN `RangeError`: the message has the path of it.
 */
export function stringify(value: unknown): string;

/** The path of the part that names and indices lead to: `pointer('a/b', 0)` is `/a~1b/0`. */
export function pointer(...steps: (string | number)[]): string;

/** What keys and documents have in common. What is changed is another one, or the same where nothing changes. */
declare abstract class Stored {
  /** The bytes to store. They aren't changed. */
  readonly bytes: Buffer;

  /** A string of the bytes, one character each: equal and ordered as these, for `Map`, `Set`, `<` and `sort`. */
  readonly id: string;

  /** The kind of the value; `none` of bytes that were trusted and are none. */
  readonly kind: Kind | 'none';

  /** The part at a path, a JSON Pointer (RFC 6901), or undefined. */
  get(path: string): this | undefined;

  /** Whether there is a part at the path. */
  has(path: string): boolean;

  /** Whether the value contains another one, as `@>` of PostgreSQL's `jsonb` says. */
  contains(other: unknown): boolean;

  /** The order of the bytes. */
  compare(other: this): Order;

  /** Whether the other is one of the same class with the same bytes. */
  equals(other: unknown): boolean;

  /** With another part at the path: a key, a document or a value. Where only the last step leads nowhere, it's added. */
  set(path: string, value: unknown, create?: boolean): this;

  /** Without the part at the path. In an array -1 is the last item, as in that of `set`. */
  remove(path: string): this;

  /** An object with this member. Throws `TypeError` where it is none. */
  put(name: string, value: unknown): this;

  /** An array with this item at its end. Throws `TypeError` where it is none. */
  push(item: unknown): this;

  /** Both in one: of two objects the members of both, where those of the other win; else arrays joined. */
  merge(other: unknown): this;

  /** The value, as `parse` returns it. */
  value(): Value;

  /** The text of the value. */
  toString(): string;

  /** The same as `value`, for `JSON.stringify`. */
  toJSON(): Value;

  /** The `id` for `<` and `>`, else the text. */
  [Symbol.toPrimitive](hint: string): string;
}

/** A value as its sort key, in which the keys of its parts are. Equal values have equal keys: 1.50 is 1.5. */
export class Key extends Stored {
  private constructor();

  /** The key of a text. */
  static parse(text: Text, mode?: Mode): Key;

  /** The key of a value, as `stringify` takes it. A string is a string, and no text. */
  static of(value: unknown): Key;

  /** The key of stored bytes, which are checked and copied. */
  static fromBytes(bytes: Uint8Array): Key;

  /** The key of stored bytes, which aren't checked: of others calls find nothing, or something, or throw. */
  static fromTrustedBytes(bytes: Uint8Array): Key;

  /** How many items or members there are, or undefined for other kinds. */
  readonly length: number | undefined;

  /** The names of an object, in the order of their bytes. */
  keys(): IterableIterator<string>;

  /** The items of an array, or the values of an object. */
  values(): IterableIterator<Key>;

  /** The names of an object with the values. */
  entries(): IterableIterator<[string, Key]>;

  /** The items of an array, the entries of an object. */
  [Symbol.iterator](): IterableIterator<Key> | IterableIterator<[string, Key]>;
}

/** A value as a store keeps it: its sort key, and behind it the zeros that end its decimals, so that 1.50 stays so. */
export class Document extends Stored {
  private constructor();

  /** The document of a text. */
  static parse(text: Text, mode?: Mode): Document;

  /** The document of a value, as `stringify` takes it. A string is a string, and no text. */
  static of(value: unknown): Document;

  /** The document of stored bytes, which are checked and copied. Those of a key are one. */
  static fromBytes(bytes: Uint8Array): Document;

  /** The document of stored bytes, which aren't checked: of others calls find nothing, or something, or throw. */
  static fromTrustedBytes(bytes: Uint8Array): Document;

  /** The key of the value, in which parts are found. It shares the bytes. */
  readonly key: Key;
}
export {};
