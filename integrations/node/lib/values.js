'use strict';

/** Values of JavaScript, exactly: of the texts that the library writes, and written for it. */

const { inspect } = require('util');
const calls = require('./calls.js');

const { ParseError, compare, isWellFormed, nameOf, pointer, stringOf, text } = calls;

/** A type with this mark is written as String has it. */
const IS_JSON = Symbol('its string is JSON');

/** Says that what a constructor is passed was made here. */
const TRUSTED = Symbol('trusted');

/** The text of a number, as the library writes it. */
function numberText(given) {
  const written = text(stringOf(given, 'the text of a decimal'), calls.JSON);
  if (!/^[-\d]/.test(written)) throw new TypeError('the text of a decimal is a number, such as "1.50"');
  return written;
}

class Decimal {
  constructor(given, mark) {
    this.text = mark === TRUSTED ? given : numberText(given);
  }

  toString() {
    return this.text;
  }

  valueOf() {
    return Number(this.text);
  }

  toJSON() {
    const number = this.valueOf();
    if (compare(String(number), this.text, calls.JSON) === 0) return number;
    throw new TypeError(`JSON.stringify would round ${this}: take stringify of vizhoniku`);
  }

  [inspect.custom]() {
    return `Decimal('${this}')`;
  }
}
Decimal.prototype[IS_JSON] = true;

/** Whether JSON.parse gives exactly what a number is here: an integer that a double holds. */
const isExact = (token) => !token.includes('.') && Number.isSafeInteger(Number(token));

const exactNumber = (token) => (token.includes('.') ? new Decimal(token, TRUSTED) : BigInt(token));

/** The index behind the string that begins at another one: a quote ends it behind an even number of backslashes. */
function behindString(written, begin) {
  for (let at = written.indexOf('"', begin + 1); ; at = written.indexOf('"', at + 1)) {
    let front = at;
    while (written[front - 1] === '\\') front--;
    if ((at - front) % 2 === 0) return at + 1;
  }
}

/** A text with a half in place of each number that isn't exact: its place among these, which are appended. */
function marked(written, numbers) {
  const pattern = /"|-?\d+\.\d+|-?\d{16,}/g;
  let text = '';
  let from = 0;
  for (let found = pattern.exec(written); found; found = pattern.exec(written)) {
    const [token] = found;
    if (token === '"') pattern.lastIndex = behindString(written, found.index);
    else if (!isExact(token)) {
      text += `${written.slice(from, found.index)}${numbers.push(exactNumber(token)) - 1}.5`;
      from = pattern.lastIndex;
    }
  }
  return text + written.slice(from);
}

/** A value with the numbers in place of the halves in it. */
function restored(value, numbers) {
  if (typeof value === 'number') return Number.isInteger(value) ? value : numbers[Math.floor(value)];
  if (typeof value !== 'object' || value === null) return value;
  if (Array.isArray(value)) {
    for (let i = 0; i < value.length; i++) value[i] = restored(value[i], numbers);
  } else {
    for (const name of Object.keys(value)) value[name] = restored(value[name], numbers);
  }
  return value;
}

/** The exact value of a text that the library wrote. */
function exactly(written) {
  if (!/\.|\d{16}/.test(written)) return JSON.parse(written);
  const numbers = [];
  return restored(JSON.parse(marked(written, numbers)), numbers);
}

function parse(given, mode) {
  return exactly(text(given, mode));
}

/** How many arrays and objects are in one another at most. */
const LEVELS = 512;

const A_VALUE =
  'a value is null, a boolean, number, bigint, string, array or plain object, ' +
  'a Decimal, Key or Document, or has toJSON';

function isPlain(object) {
  const prototype = Object.getPrototypeOf(object);
  return prototype === null || Object.getPrototypeOf(prototype) === null;
}

/** What JSON.stringify only puts in quotes. */
const PLAIN = /^[^"\\\u0000-\u001f\ud800-\udfff]*$/;

/** Writes a value as JSON, with each number as it is. */
class Writer {
  constructor() {
    this.open = []; // the arrays and objects that are written
    this.steps = []; // the name or the index of what is written in each of these
  }

  /** The error of what has no text, and is so deep. */
  fault(Class, words, depth = this.open.length) {
    const path = pointer(...this.steps.slice(0, depth));
    return new Class(path ? `${words} at ${path}` : words);
  }

  write(given) {
    const value = this.replaced(given);
    if (value === null || typeof value === 'boolean' || typeof value === 'bigint') return String(value);
    if (typeof value === 'string') return this.string(value, 'a string');
    if (typeof value === 'number') return this.number(value);
    if (typeof value !== 'object') throw this.fault(TypeError, `${A_VALUE}, and not ${nameOf(value)}`);
    return this.object(value);
  }

  /** What toJSON returns, where there is one. */
  replaced(value) {
    if (typeof value !== 'object' || value === null || value[IS_JSON]) return value;
    return typeof value.toJSON === 'function' ? value.toJSON(String(this.steps[this.open.length - 1] ?? '')) : value;
  }

  string(string, what, depth) {
    if (PLAIN.test(string)) return `"${string}"`;
    if (!isWellFormed(string)) throw this.fault(TypeError, `${what} has half of a surrogate pair`, depth);
    return JSON.stringify(string);
  }

  number(number) {
    if (!Number.isFinite(number)) throw this.fault(RangeError, `${number} is no number of JSON`);
    return String(number);
  }

  object(object) {
    if (object[IS_JSON]) return String(object);
    const isArray = Array.isArray(object);
    if (!isArray && !isPlain(object)) throw this.fault(TypeError, `${A_VALUE}, and not ${nameOf(object)}`);
    if (this.open.includes(object)) throw this.fault(TypeError, 'circular reference');
    if (this.open.length === LEVELS) throw this.fault(RangeError, 'more than 512 nested arrays and objects');
    const depth = this.open.push(object);
    const written = isArray ? `[${this.items(object, depth)}]` : `{${this.members(object, depth)}}`;
    this.open.pop();
    return written;
  }

  items(array, depth) {
    let written = '';
    for (let i = 0; i < array.length; i++) {
      this.steps[depth - 1] = i;
      written += (i ? ',' : '') + this.write(array[i]);
    }
    return written;
  }

  members(object, depth) {
    let written = '';
    for (const name of Object.keys(object)) {
      const quoted = this.string(name, 'a name', depth - 1);
      this.steps[depth - 1] = name;
      written += `${written && ','}${quoted}:${this.write(object[name])}`;
    }
    return written;
  }
}

/** The result of a call over the text of a value. What it rejects is a number, or too deep. */
function ofValue(value, call) {
  const written = new Writer().write(value);
  try {
    return call(written, calls.JSON);
  } catch (error) {
    if (!(error instanceof ParseError)) throw error;
    throw new RangeError(error.path ? `${error.reason} at ${error.path}` : error.reason);
  }
}

function stringify(value) {
  return ofValue(value, text);
}

module.exports = { Decimal, IS_JSON, TRUSTED, exactly, ofValue, parse, stringify };
