'use strict';

/** Values of JavaScript: of texts, and as keys and documents. */

const assert = require('assert');
const vm = require('vm');
const { inspect } = require('util');
const test = require('node:test');
const v = require('..');
const { IN_ORDER, drawing, drawn, kindOf, membersOf, nested, numberText, rowsOf, textOf, throws } = require('./helpers.js');

/** All characters of ASCII. */
const ASCII = String.fromCharCode(...Array(128).keys());

const decimal = (text) => new v.Decimal(text);

/** A random value as JavaScript has it, exactly. */
function valueOf(drawnValue, keepsZeros) {
  switch (kindOf(drawnValue)) {
    case 'number': {
      const text = numberText(drawnValue, keepsZeros);
      if (text.includes('.')) return decimal(text);
      const whole = BigInt(text);
      return whole > 2n ** 53n - 1n || whole < 1n - 2n ** 53n ? whole : Number(whole);
    }
    case 'array':
      return drawnValue.map((item) => valueOf(item, keepsZeros));
    case 'object': {
      const object = {};
      for (const [name, one] of membersOf(drawnValue)) {
        const value = valueOf(one, keepsZeros);
        Object.defineProperty(object, name, { value, configurable: true, enumerable: true, writable: true });
      }
      return object;
    }
    default:
      return drawnValue;
  }
}

test('numbers of a text are exact', () => {
  const nines = '9'.repeat(38);
  const rows = [
    ['0', 0],
    ['-0', 0],
    ['-0.0', decimal('0.0')],
    ['-1', -1],
    ['999999999999999', 999999999999999],
    ['9007199254740991', 9007199254740991],
    ['-9007199254740991', -9007199254740991],
    ['9007199254740992', 9007199254740992n],
    ['-9007199254740992', -9007199254740992n],
    ['9007199254740993', 9007199254740993n],
    ['18446744073709551616', 18446744073709551616n],
    [nines, BigInt(nines)],
    [`-${nines}`, -BigInt(nines)],
    ['1e37', 10n ** 37n],
    ['1e15', 1e15],
    ['1e16', 10n ** 16n],
    ['0x1F', 31],
    ['1.5', decimal('1.5')],
    ['1.50', decimal('1.50')],
    ['1.0', decimal('1.0')],
    ['1.50e1', decimal('15.0')],
    ['15e-1', decimal('1.5')],
    ['1e-38', decimal(`0.${'0'.repeat(37)}1`)],
    ['-1e-7', decimal('-0.0000001')],
    [`0.${nines}`, decimal(`0.${nines}`)],
    ['9007199254740993.0', decimal('9007199254740993.0')],
    ['["1.5", "9007199254740993", 0.5, "\\\\"]', ['1.5', '9007199254740993', decimal('0.5'), '\\']],
    ['["\\\\", 1.5, "\\"2.5", -0.25]', ['\\', decimal('1.5'), '"2.5', decimal('-0.25')]],
    ['{"2": 2.5, "10": 1.5, "a.5": [0.5]}', { 2: decimal('2.5'), 10: decimal('1.5'), 'a.5': [decimal('0.5')] }],
  ];
  for (const [text, value] of rows) {
    assert.deepStrictEqual(v.parse(text), value, text);
    assert.deepStrictEqual(v.parse(Buffer.from(text)), value, text);
    assert.strictEqual(v.stringify(value), v.text(text));
    assert.ok(v.Key.of(value).equals(v.Key.parse(text)));
    assert.deepStrictEqual(v.Document.parse(text).value(), value);
    assert.deepStrictEqual(v.Document.of(value).bytes, v.document(text));
  }
  throws(() => v.parse('1e38'), v.ParseError, 'line 1, column 4: number not carried');
  throws(() => v.parse('1.5', 'standard'), v.ParseError, 'line 1, column 3: number not carried');
});

test('a key has the fewest digits, and a document all', () => {
  const text = '{"a": [1.50, 2.0, 1e2, 9007199254740993.00, 0.00]}';
  assert.deepStrictEqual(v.Key.parse(text).value(), { a: [decimal('1.5'), 2, 100, 9007199254740993n, 0] });
  const all = ['1.50', '2.0', 100, '9007199254740993.00', '0.00'].map((one) => (one === 100 ? one : decimal(one)));
  assert.deepStrictEqual(v.Document.parse(text).value(), { a: all });
});

test('a decimal is exact', () => {
  const price = decimal('1.50');
  assert.deepStrictEqual([String(price), `${price}`, price.text, inspect(price)], ['1.50', '1.50', '1.50', "Decimal('1.50')"]);
  assert.deepStrictEqual([Number(price), price + 1, price * 2, price < 1.6, price > 1.4], [1.5, 2.5, 3, true, true]);
  assert.deepStrictEqual([String(decimal('-1.5e-7')), String(decimal('1e3'))], ['-0.00000015', '1000']);
  assert.notDeepStrictEqual(decimal('1.5'), decimal('1.50'));
  assert.strictEqual(JSON.stringify({ price, share: decimal('0.0000001') }), '{"price":1.5,"share":1e-7}');
  const long = '0.1000000000000000000000000000000000001';
  throws(() => JSON.stringify([decimal(long)]), TypeError, `JSON.stringify would round ${long}: take stringify of vizhoniku`);
  assert.strictEqual(v.stringify([decimal(long), price]), `[${long},1.50]`);
  throws(() => decimal(1.5), TypeError, 'the text of a decimal is a string, and not number');
  throws(() => decimal(), TypeError, 'the text of a decimal is a string, and not undefined');
  throws(() => decimal('"1"'), TypeError, 'the text of a decimal is a number, such as "1.50"');
  throws(() => decimal('[1]'), TypeError, 'the text of a decimal is a number, such as "1.50"');
  throws(() => decimal('1.'), v.ParseError);
  throws(() => decimal('NaN'), v.ParseError);
  throws(() => decimal('1e38'), v.ParseError, 'line 1, column 4: number not carried');
});

test('each double is exact, or not carried', () => {
  const draw = drawing(4);
  const digitsOf = (double) => {
    const [, whole, behind = '', power = '0'] = /^-?(\d+)(?:\.(\d+))?(?:e([-+]\d+))?$/.exec(String(double));
    return { digits: BigInt(whole + behind), scale: behind.length - Number(power) };
  };
  let [taken, rejected] = [0, 0];
  for (let i = 0; i < 4000; i++) {
    const double = (draw(2) ? 1 : -1) * draw(1e9) * 10 ** (draw(100) - 50) * (draw(3) ? Math.PI : 1);
    let { digits, scale } = digitsOf(double);
    while (scale < 0) [digits, scale] = [digits * 10n, scale + 1];
    while (scale > 0 && digits % 10n === 0n) [digits, scale] = [digits / 10n, scale - 1];
    if (scale > 38 || String(digits).length > 38) {
      throws(() => v.Key.of([double]), RangeError, 'number not carried at /0');
      rejected++;
      continue;
    }
    assert.strictEqual(v.Key.of(double).toString(), numberText({ digits: double < 0 ? -digits : digits, scale }, false));
    assert.strictEqual(Number(v.Key.of(double).value()), double === 0 ? 0 : double);
    taken++;
  }
  assert.ok(taken > 1500 && rejected > 500, `${taken} taken, ${rejected} rejected`);
});

test('names are own properties, whatever they are', () => {
  const text = '{"__proto__":{"polluted":1.5},"constructor":{"prototype":{"polluted":2}},"toString":1,"hasOwnProperty":2}';
  for (const one of [text, text.replace('1.5', '1')]) {
    for (const value of [v.parse(one), v.Key.parse(one).value(), v.Document.parse(one).value()]) {
      assert.deepStrictEqual(Object.keys(value), ['__proto__', 'constructor', 'hasOwnProperty', 'toString']);
      assert.strictEqual(Object.getPrototypeOf(value), Object.prototype);
      assert.ok(Object.prototype.hasOwnProperty.call(value, '__proto__'));
      assert.strictEqual(Number(Object.getOwnPropertyDescriptor(value, '__proto__').value.polluted), one === text ? 1.5 : 1);
      assert.strictEqual(v.stringify(value), v.text(one));
    }
  }
  assert.strictEqual({}.polluted, undefined);
  assert.strictEqual(Object.polluted, undefined);
  assert.deepStrictEqual([...v.Key.parse('{"__proto__": 1}').entries()].map(([name, key]) => [name, key.value()]), [['__proto__', 1]]);
});

test('values are written exactly', () => {
  class Money {
    constructor(text) {
      this.amount = text;
    }
    toJSON(name) {
      return { [name]: decimal(this.amount) };
    }
  }
  const same = [1];
  const rows = [
    [null, 'null'],
    [true, 'true'],
    [-0, '0'],
    [0.1, '0.1'],
    [1e-7, '0.0000001'],
    [1e21, `1${'0'.repeat(21)}`],
    [1e22, `1${'0'.repeat(22)}`],
    [2 ** 53, '9007199254740992'],
    [10n ** 38n - 1n, '9'.repeat(38)],
    [-5n, '-5'],
    ['', '""'],
    ['a"\\\n\u0000é𝄞\u007f\u2028', '"a\\"\\\\\\n\\u0000é𝄞\u007f\u2028"'],
    [ASCII, textOf(ASCII)],
    [{ [ASCII]: ASCII }, `{${textOf(ASCII)}:${textOf(ASCII)}}`],
    [[], '[]'],
    [{}, '{}'],
    [Object.create(null), '{}'],
    [vm.runInNewContext('({ b: [1], a: {} })'), '{"a":{},"b":[1]}'],
    [[1, [2, [3, {}]]], '[1,[2,[3,{}]]]'],
    [{ b: 1, a: { c: null } }, '{"a":{"c":null},"b":1}'],
    [[same, same, { a: same }], '[[1],[1],{"a":[1]}]'],
    [new Date(0), '"1970-01-01T00:00:00.000Z"'],
    [{ at: [new Date(1.5e12)] }, '{"at":["2017-07-14T02:40:00.000Z"]}'],
    [{ x: new Money('1.50') }, '{"x":{"x":1.50}}'],
    [[new Money('2.0')], '[{"0":2.0}]'],
    [new Money('3'), '{"":3}'],
    [[decimal('1.50'), v.Key.parse('[1.50]'), { k: v.Document.parse('{a: 1.50}') }], '[1.50,[1.5],{"k":{"a":1.50}}]'],
    [nested(512), '['.repeat(512) + ']'.repeat(512)],
  ];
  for (const [value, text] of rows) {
    assert.strictEqual(v.stringify(value), text);
    assert.strictEqual(v.Document.of(value).toString(), text);
    assert.ok(v.Key.of(value).equals(v.Key.parse(text)), text);
  }
  const sparse = { get a() { return [1]; } };
  Object.defineProperty(sparse, 'hidden', { value: 1 });
  sparse[Symbol('x')] = 1;
  assert.strictEqual(v.stringify(sparse), '{"a":[1]}');
});

test('what is no value is rejected in words, with its path', () => {
  const array = [1];
  array.push({ 'a/b': [array] });
  const object = {};
  object['~'] = object;
  const aValue =
    'a value is null, a boolean, number, bigint, string, array or plain object, a Decimal, Key or Document, or has toJSON, and not ';
  class User {}
  const rows = [
    [undefined, TypeError, `${aValue}undefined`],
    [{ a: undefined }, TypeError, `${aValue}undefined at /a`],
    [[1, , 3], TypeError, `${aValue}undefined at /1`], // eslint-disable-line no-sparse-arrays
    [() => 1, TypeError, `${aValue}function`],
    [[Symbol('x')], TypeError, `${aValue}symbol at /0`],
    [{ a: [{ x: 1 }, new Map()] }, TypeError, `${aValue}Map at /a/1`],
    [new Set(), TypeError, `${aValue}Set`],
    [[new User()], TypeError, `${aValue}User at /0`],
    [Object(1), TypeError, `${aValue}Number`],
    [new Uint8Array(1), TypeError, `${aValue}Uint8Array`],
    [{ toJSON: () => undefined }, TypeError, `${aValue}undefined`],
    [NaN, RangeError, 'NaN is no number of JSON'],
    [{ '': -Infinity }, RangeError, '-Infinity is no number of JSON at /'],
    [{ values: [...Array(17).fill(0.5), 1e300] }, RangeError, 'number not carried at /values/17'],
    [[5e-324], RangeError, 'number not carried at /0'],
    [10n ** 38n, RangeError, 'number not carried'],
    [{ a: ['x\ud800'] }, TypeError, 'a string has half of a surrogate pair at /a/0'],
    [{ a: [{ x: 1, '\udfff': 1 }] }, TypeError, 'a name has half of a surrogate pair at /a/0'],
    [array, TypeError, 'circular reference at /1/a~1b/0'],
    [object, TypeError, 'circular reference at /~0'],
    [nested(513), RangeError, `more than 512 nested arrays and objects at ${'/0'.repeat(512)}`],
    [[[], v.Key.of(nested(512))], RangeError, `depth limit exceeded at /1${'/0'.repeat(511)}`],
  ];
  const empty = v.Key.of([]);
  for (const [value, Class, words] of rows) {
    for (const call of [v.stringify, (one) => v.Key.of(one), (one) => v.Document.of(one)]) throws(() => call(value), Class, words);
    for (const call of ['push', 'merge', 'contains']) throws(() => empty[call](value), Class, words);
    throws(() => empty.set('/0', value), Class, words);
    throws(() => v.Document.of({}).put('a', value), Class, words);
  }
  const thrown = new Error('of toJSON');
  assert.strictEqual(throws(() => v.stringify({ toJSON: () => { throw thrown; } }), Error), thrown);
});

test('a value of a text gives the text again', () => {
  const texts = [...rowsOf('vectors.jsonl'), ...rowsOf('json_test_suite.jsonl')].map((row) => row.input);
  const documents = [...texts, ...IN_ORDER.flat()].filter((text) => v.valid(text));
  for (const text of documents) {
    const value = v.parse(text);
    assert.strictEqual(v.stringify(value), v.text(text));
    assert.deepStrictEqual(v.parse(v.stringify(value)), value);
    assert.ok(v.Key.of(value).equals(v.Key.parse(text)));
    assert.ok(v.Document.of(value).equals(v.Document.parse(text)));
    assert.deepStrictEqual(v.Key.of(v.Key.parse(text).value()), v.Key.parse(text));
  }
  assert.ok(documents.length > 1200);
});

test('random values are those of a reference', () => {
  const draw = drawing(5);
  let [decimals, bigints] = [0, 0];
  for (let i = 0; i < 1500; i++) {
    const one = drawn(draw, 3);
    const text = textOf(one, true);
    assert.deepStrictEqual(v.parse(text), valueOf(one, true), text);
    assert.deepStrictEqual(v.Key.parse(text).value(), valueOf(one, false), text);
    assert.strictEqual(v.stringify(valueOf(one, true)), text);
    decimals += text.includes('.');
    bigints += /\d{17}/.test(text);
  }
  assert.ok(decimals > 300 && bigints > 50, `${decimals}, ${bigints}`);
});

test('JSON.stringify takes keys and documents, exactly or not at all', () => {
  const row = { id: 7, body: v.Key.parse('{"b": 1.50, "a": [true]}'), kept: v.Document.parse('[1.50]') };
  assert.strictEqual(JSON.stringify(row), '{"id":7,"body":{"a":[true],"b":1.5},"kept":[1.5]}');
  throws(() => JSON.stringify(v.Key.parse('[9007199254740993]')), TypeError);
  assert.strictEqual(v.stringify({ key: v.Key.parse('[9007199254740993]') }), '{"key":[9007199254740993]}');
});
