'use strict';

/** The calls of the library over texts, and what fails, in words. */

const { types } = require('util');
const { markAsUntransferable } = require('worker_threads');
const native = require('../build/Release/vizhoniku.node');

/** The modes by their names, each with its number. */
const MODES = new Map([
  ['standard', native.STANDARD],
  ['extended', native.EXTENDED],
  ['json', native.JSON],
  ['extended_json', native.EXTENDED_JSON],
]);
const [STANDARD, EXTENDED, JSON, EXTENDED_JSON] = MODES.keys();

class ParseError extends SyntaxError {
  constructor({ reason, path, code, line, column }, offset, which) {
    super(`${which === 2 ? 'second text, ' : ''}line ${line}, column ${column}: ${reason}`);
    Object.assign(this, { code, offset, line, column, path, reason, which });
  }
}
Object.defineProperty(ParseError.prototype, 'name', { value: 'ParseError', configurable: true, writable: true });

/** The errors of calls, by the status of the library. */
const FAILURES = {
  [native.OUT_OF_MEMORY]: [RangeError, 'memory ran out'],
  [native.NO_PATH]: [
    SyntaxError,
    'the path is no JSON Pointer (RFC 6901): it is empty or begins with /, and ~ occurs only in ~0 and ~1',
  ],
  [native.NO_KEY]: [RangeError, "the bytes aren't a sort key"],
  [native.NO_DOCUMENT]: [RangeError, "the bytes aren't a document"],
  [native.TOO_DEEP]: [RangeError, 'more than 512 nested arrays and objects'],
};

/** The error of a call that returned less than 0. */
function failure(returned) {
  const [Class, words] = FAILURES[-returned];
  return new Class(words);
}

/** The offset of a fault: in a string as its units count, so that text[offset] is the character; in bytes as these. */
function offsetOf(fault, text) {
  if (typeof text !== 'string') return fault.index;
  let offset = 0;
  for (let i = 1; i < fault.character; i++) offset += text.codePointAt(offset) > 0xffff ? 2 : 1;
  return offset;
}

/** The error of a call over texts that returned less than 0: of the first text that is rejected, where one is. */
function rejection(returned, mode, ...texts) {
  if (returned !== -native.REJECTED) return failure(returned);
  const faults = texts.map((text) => native.why(mode, text));
  const first = faults.findIndex((fault) => fault !== 0);
  const fault = faults[first];
  return typeof fault === 'number' ? failure(fault) : new ParseError(fault, offsetOf(fault, texts[first]), first + 1);
}

/** What a value is, for an error. */
function nameOf(value) {
  if (value === null || typeof value !== 'object') return value === null ? 'null' : typeof value;
  const { constructor } = value;
  return typeof constructor === 'function' && constructor.name ? constructor.name : 'object';
}

const isWellFormed = String.prototype.isWellFormed
  ? (string) => string.isWellFormed()
  : (string) => !/\p{Surrogate}/u.test(string);

/** Checks a string. */
function stringOf(string, what) {
  if (typeof string !== 'string') throw new TypeError(`${what} is a string, and not ${nameOf(string)}`);
  if (!isWellFormed(string)) throw new TypeError(`${what} has half of a surrogate pair`);
  return string;
}

/** Checks bytes. Those that another thread can change are copied. */
function dataOf(data, what) {
  if (!types.isUint8Array(data)) throw new TypeError(`${what}, and not ${nameOf(data)}`);
  return types.isSharedArrayBuffer(data.buffer) ? Buffer.from(data) : data;
}

/** Checks a text. */
function textOf(text) {
  return typeof text === 'string' ? stringOf(text, 'a text') : dataOf(text, 'a text is a string or a Uint8Array');
}

/** The number of a mode. */
function modeOf(mode) {
  const number = MODES.get(mode);
  if (number !== undefined) return number;
  const names = Array.from(MODES.keys(), (name) => `'${name}'`);
  const words = `a mode is ${names.slice(0, -1).join(', ')} or ${names[names.length - 1]}`;
  throw typeof mode === 'string'
    ? new RangeError(`${words}, and not '${mode}'`)
    : new TypeError(`${words}, and not ${nameOf(mode)}`);
}

/** Short results are written to one piece of memory of so many bytes, one behind the other. */
const POOL = 8192;
const SHORT = POOL / 4;
let pool = Buffer.alloc(0);
let used = 0;

function renewPool() {
  pool = Buffer.allocUnsafeSlow(POOL);
  markAsUntransferable(pool.buffer);
  used = 0;
}

/**
 * The bytes that a call writes to a Buffer from an offset on, or less than 0, what it returned. As a rule it writes so
 * many at most; where it needs more, it is called again.
 */
function written(most, call) {
  const isShort = most <= SHORT;
  if (isShort && pool.length - used <= most) renewPool();
  let to = isShort ? pool : Buffer.allocUnsafeSlow(most);
  let from = isShort ? used : 0;
  let size = call(to, from);
  if (size > to.length - from) {
    to = Buffer.allocUnsafeSlow(size);
    from = 0;
    size = call(to, from);
  }
  if (size < 0) return size;
  if (to === pool) used += size;
  return to.subarray(from, from + size);
}

/** How many more bytes than its text a key has as a rule at most. */
const MORE = 64;

/** How many bytes a text has, or of a short string may have. */
function mostOf(text) {
  if (typeof text !== 'string') return text.length;
  const most = 3 * text.length;
  return most < SHORT / 2 ? most : Buffer.byteLength(text);
}

/** The bytes that a call writes of a text. */
function bytesOfText(call, given, mode = EXTENDED_JSON) {
  const text = textOf(given);
  const number = modeOf(mode);
  const bytes = written(mostOf(text) + MORE, (to, from) => call(number, text, to, from));
  if (typeof bytes === 'number') throw rejection(bytes, number, text);
  return bytes;
}

function check(given, mode = EXTENDED_JSON) {
  const text = textOf(given);
  const number = modeOf(mode);
  const returned = native.check(number, text);
  if (returned !== 0) throw rejection(returned, number, text);
}

function valid(given, mode = EXTENDED_JSON) {
  const returned = native.check(modeOf(mode), textOf(given));
  if (returned !== 0 && returned !== -native.REJECTED) throw failure(returned);
  return returned === 0;
}

function text(given, mode = EXTENDED_JSON) {
  const checked = textOf(given);
  const number = modeOf(mode);
  const returned = native.text(number, checked);
  if (typeof returned === 'number') throw rejection(returned, number, checked);
  return returned;
}

function sortKey(given, mode) {
  return bytesOfText(native.sortKey, given, mode);
}

function document(given, mode) {
  return bytesOfText(native.document, given, mode);
}

function compare(left, right, mode = EXTENDED_JSON) {
  const [one, two] = [textOf(left), textOf(right)];
  const number = modeOf(mode);
  const returned = native.compare(number, one, two);
  if (returned < 0) throw rejection(returned, number, one, two);
  return returned - 1;
}

function part(given, path, mode = EXTENDED_JSON) {
  const checked = textOf(given);
  const number = modeOf(mode);
  const returned = native.part(number, stringOf(path, 'a path'), checked);
  if (returned === -native.NO_PART) return undefined;
  if (typeof returned === 'number') throw rejection(returned, number, checked);
  return returned;
}

/** The step of a path for a name or an index. */
function stepOf(step) {
  const name = Number.isSafeInteger(step) ? String(step) : stringOf(step, 'a step that is no integer');
  const returned = native.pathStep(name);
  if (typeof returned === 'number') throw failure(returned);
  return returned;
}

function pointer(...steps) {
  return steps.map(stepOf).join('');
}

module.exports = {
  EXTENDED,
  EXTENDED_JSON,
  JSON,
  MORE,
  ParseError,
  SHORT,
  STANDARD,
  bytesOfText,
  check,
  compare,
  dataOf,
  document,
  failure,
  isWellFormed,
  nameOf,
  native,
  part,
  pointer,
  sortKey,
  stringOf,
  text,
  valid,
  written,
};
