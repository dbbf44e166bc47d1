'use strict';

/** What several tests need: documents in order, random ones, and their order worked out without the library. */

const assert = require('assert');
const fs = require('fs');
const path = require('path');

const TOP = path.join(__dirname, '../../..');

const MODES = ['standard', 'extended', 'json', 'extended_json'];

/** Documents in the order of their values; those of one line are equal. */
const IN_ORDER = [
  ['false', 'FALSE'],
  ['true'],
  ['-18446744073709551616'],
  ['-1.5', '-01.50', '-15e-1'],
  ['-0.05'],
  ['0', '-0', '0.00', '0x0', '0e9', '-0.0'],
  ['0.5', '.5', '+.50', '5e-1'],
  ['1', '1.0', '1.00', '0x1', '+1', '/* one */ 1 // end'],
  ['9'],
  ['10', '0xA', '1e1'],
  ['18446744073709551615'],
  ['""', "''"],
  ['"\\u0000"'],
  ['"a"', '"\\u0061"', "'a'"],
  ['"ab"'],
  ['"é"', '"\\u00e9"', '"\\u00E9"'],
  ['"\uffee"'],
  ['"𝄞"', '"\\ud834\\udd1e"'],
  ['{}', '{ }'],
  ['{"a":1}', '{a:1.0}'],
  ['{"a":1,"b":2}', '{"b":2,"a":1}', '{b: 0x2, a: +1}'],
  ['{"a":2}'],
  ['{"b":0}'],
  ['{"\uffee":0}'],
  ['{"𝄞":0}'],
  ['[]'],
  ['[1]', '[1.0]'],
  ['[1,0]'],
  ['[1,null]', '[1,]'],
  ['[[]]'],
  ['null', 'NULL', '', ' // nothing\n'],
];

/** The rows of a file of JSON Lines in the folder tests of the repository, with their inputs as bytes. */
function rowsOf(file) {
  const lines = fs.readFileSync(path.join(TOP, 'tests', file), 'utf8').trimEnd().split('\n');
  return lines.map((line) => {
    const { input, repeat: [unit, times] = ['', 0], ...row } = JSON.parse(line);
    return { ...row, input: Buffer.from(unit.repeat(times) + input, 'hex') };
  });
}

/** Numbers from 0 up to and without a bound, the same in each run. */
function drawing(seed) {
  let state = seed >>> 0;
  const next = () => {
    state = (state + 0x6d2b79f5) >>> 0;
    let mixed = Math.imul(state ^ (state >>> 15), 1 | state);
    mixed = (mixed + Math.imul(mixed ^ (mixed >>> 7), 61 | mixed)) ^ mixed;
    return (mixed ^ (mixed >>> 14)) >>> 0;
  };
  const draw = (bound) => next() % bound;
  draw.of = (choices) => choices[draw(choices.length)];
  draw.digits = (count) => Array.from({ length: count }, () => draw(10)).join('');
  return draw;
}

/**
 * A random value: null, a boolean, a string, a number as { digits, scale }, an array, or a Map. The number is the digits,
 * a bigint, divided by ten to the power of the scale.
 */
function drawn(draw, depth) {
  const kind = draw(depth ? 7 : 5);
  if (kind === 6) return new Map(Array.from({ length: draw(4) }, () => [drawnString(draw), drawn(draw, depth - 1)]));
  if (kind === 5) return Array.from({ length: draw(4) }, () => drawn(draw, depth - 1));
  if (kind > 2) return drawnNumber(draw);
  return [null, draw(2) === 1, drawnString(draw)][kind];
}

function drawnString(draw) {
  const letters = ['', 'a', 'b', '"', '\\', '/', '~', '\n', '\u0000', '\u007f', 'é', '\uffee', '𝄞', '__proto__', '1'];
  return draw.of(letters) + draw.of(letters);
}

function drawnNumber(draw) {
  const sign = draw(2) ? 1n : -1n;
  const digits = BigInt(draw.digits(1 + draw(draw(2) ? 3 : 20)));
  return { digits: sign * digits, scale: draw(2) ? 0 : draw(18) };
}

const KINDS = ['boolean', 'number', 'string', 'object', 'array', 'null'];

function kindOf(value) {
  if (value === null || typeof value !== 'object') return value === null ? 'null' : typeof value;
  if (Array.isArray(value)) return 'array';
  return value instanceof Map ? 'object' : 'number';
}

const sign = (order) => (order > 0) - (order < 0);

const compareBytes = (left, right) => Buffer.compare(Buffer.from(left), Buffer.from(right));

/** The members of an object in the order of their names, each as a name and a value. */
const membersOf = (object) => [...object].sort(([left], [right]) => compareBytes(left, right));

/** Which of two lists is below the other: by the first entries that differ, and the shorter first. */
function compareLists(left, right, compareEntries) {
  for (let i = 0; i < Math.min(left.length, right.length); i++) {
    const order = compareEntries(left[i], right[i]);
    if (order !== 0) return order;
  }
  return sign(left.length - right.length);
}

/** The order of two values, as docs/VALUES.md says it. */
function compareValues(left, right) {
  const kind = kindOf(left);
  if (kind !== kindOf(right)) return sign(KINDS.indexOf(kind) - KINDS.indexOf(kindOf(right)));
  switch (kind) {
    case 'boolean':
      return sign(left - right);
    case 'number': {
      const one = left.digits * 10n ** BigInt(right.scale);
      const two = right.digits * 10n ** BigInt(left.scale);
      return one < two ? -1 : one > two ? 1 : 0;
    }
    case 'string':
      return compareBytes(left, right);
    case 'array':
      return compareLists(left, right, compareValues);
    case 'object':
      return compareLists(membersOf(left), membersOf(right), ([name, value], [other, one]) =>
        compareBytes(name, other) || compareValues(value, one)
      );
    default:
      return 0;
  }
}

/** The text of a number, with zeros at its end or without. */
function numberText({ digits, scale }, keepsZeros) {
  const minus = digits < 0n ? '-' : '';
  const all = String(digits < 0n ? -digits : digits).padStart(scale + 1, '0');
  const [whole, behind] = [all.slice(0, all.length - scale), all.slice(all.length - scale)];
  const kept = keepsZeros ? behind : behind.replace(/0+$/, '');
  return (digits === 0n ? '' : minus) + whole + (kept && `.${kept}`);
}

/** The text of a value, as the library writes it. */
function textOf(value, keepsZeros) {
  switch (kindOf(value)) {
    case 'number':
      return numberText(value, keepsZeros);
    case 'string':
      return quoted(value);
    case 'array':
      return `[${value.map((item) => textOf(item, keepsZeros))}]`;
    case 'object':
      return `{${membersOf(value).map(([name, one]) => `${quoted(name)}:${textOf(one, keepsZeros)}`)}}`;
    default:
      return String(value);
  }
}

/** A string in quotes, as docs/VALUES.md says it. */
function quoted(string) {
  const escapes = { '"': '\\"', '\\': '\\\\', '\n': '\\n', '\r': '\\r', '\t': '\\t' };
  const escape = (unit) => escapes[unit] ?? `\\u${unit.charCodeAt(0).toString(16).padStart(4, '0')}`;
  return `"${string.replace(/["\\\u0000-\u001f]/g, escape)}"`;
}

/** Checks that a call throws an error of a class with these words, and returns it. */
function throws(call, Class, words) {
  let thrown;
  try {
    call();
  } catch (error) {
    thrown = error;
  }
  assert.ok(thrown, `${call} throws nothing`);
  assert.strictEqual(thrown.constructor, Class, String(thrown));
  if (words !== undefined) assert.strictEqual(thrown.message, words);
  return thrown;
}

/** A value of JavaScript that is nested so deep. */
function nested(levels, innermost = []) {
  let value = innermost;
  for (let i = 1; i < levels; i++) value = [value];
  return value;
}

module.exports = {
  IN_ORDER,
  MODES,
  TOP,
  compareValues,
  drawing,
  drawn,
  kindOf,
  membersOf,
  nested,
  numberText,
  rowsOf,
  sign,
  textOf,
  throws,
};
