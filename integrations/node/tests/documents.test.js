'use strict';

/** Documents, which keep the zeros that end decimals. */

const assert = require('assert');
const test = require('node:test');
const { inspect } = require('util');
const v = require('..');
const changes = require('./changes.js');
const { drawing, nested, sign, throws } = require('./helpers.js');

const { Document, Key } = v;
const document = (text) => Document.parse(text);

test('a document has the bytes of docs/SORT_KEYS.md', () => {
  const rows = [
    ['1.5', 'a11e'],
    ['1.50', 'a11e000102ff'],
    ['[1,2.500,"x"]', 'd2a114a132d078000100030202ff'],
  ];
  for (const [text, hex] of rows) {
    const one = document(text);
    const bytes = Buffer.from(hex, 'hex');
    assert.deepStrictEqual([one.bytes, v.document(text), String(one), one.kind], [bytes, bytes, text, one.key.kind]);
    assert.deepStrictEqual(one.key, Key.parse(text));
    assert.strictEqual(one.key.bytes.buffer, one.bytes.buffer);
    assert.deepStrictEqual([Document.fromBytes(bytes), Document.fromTrustedBytes(new Uint8Array(bytes))], [one, one]);
    assert.strictEqual(one.id, bytes.toString('latin1'));
    assert.strictEqual(Document.of(one), one);
    assert.strictEqual(inspect(one), `Document(${inspect(text)})`);
  }
  assert.strictEqual(String(document('1.50e1')), '15.0');
  assert.strictEqual(String(Document.fromBytes(Key.parse('[1.50]').bytes)), '[1.5]');
  assert.strictEqual(String(Document.of(Key.parse('[1.50]'))), '[1.5]');
});

test('bytes that are no document are rejected', () => {
  const tails = ['00', '0002ff', '000002ff', '010102ff', '80000103ff', '00018200ff', '000126ff', '000302fe'];
  for (const hex of ['', ...tails.map((tail) => `a11e${tail}`)]) {
    const bytes = Buffer.from(hex, 'hex');
    throws(() => Document.fromBytes(bytes), RangeError, "the bytes aren't a document");
    assert.deepStrictEqual(Document.fromTrustedBytes(bytes).bytes, bytes);
  }
  const none = Document.fromTrustedBytes(Buffer.alloc(0));
  for (const call of [() => String(none), () => none.value()]) throws(call, RangeError, "the bytes aren't a document");
  throws(() => none.push(1), TypeError, 'none is no array');
  assert.deepStrictEqual([none.key.bytes.length, none.kind], [0, 'none']);
  assert.strictEqual(inspect(none), 'Document.fromTrustedBytes(<Buffer >)');
  throws(() => new Document(none.bytes), TypeError, 'a Document is made by parse, of or fromBytes');
});

test('documents are in the order of their values, and then of their zeros', () => {
  const scalars = [['-1.5', '-1.50', '-1.500'], ['0', '0.0', '0.00'], ['1', '1.0'], ['1.5', '1.50'], ['1.51']];
  const lines = [...scalars, ['[1.50]', '[1.500]'], ['[1.50,0]']];
  const all = lines.flat();
  all.forEach((left, i) =>
    all.forEach((right, j) => {
      const [one, two] = [document(left), document(right)];
      assert.deepStrictEqual([one < two, one <= two, one.equals(two)], [i < j, i <= j, i === j]);
      assert.strictEqual(one.compare(two), sign(i - j));
    })
  );
  for (const line of lines) assert.strictEqual(new Set(line.map((text) => document(text).key.id)).size, 1);
  throws(() => document('1').compare(Key.parse('1')), TypeError, 'a Document is compared with one, not with Key');
  throws(() => Key.parse('1').compare('1'), TypeError, 'a Key is compared with one, not with string');
  assert.deepStrictEqual([document('1').equals(Key.parse('1')), Key.parse('1').equals(undefined)], [false, false]);
});

test('changes keep all digits', () => {
  const [price, tax] = [document('{net: 1.50, tax: [0.10, 2]}'), document('7.0')];
  const rows = [
    [price.set('/tax/-1', tax, false), '{"net":1.50,"tax":[0.10,7.0]}'],
    [price.set('/tax/2', tax), '{"net":1.50,"tax":[0.10,2,7.0]}'],
    [price.set('/tax/0', new v.Decimal('0.1000')), '{"net":1.50,"tax":[0.1000,2]}'],
    [price.set('/tax/0', Key.parse('0.10')), '{"net":1.50,"tax":[0.1,2]}'],
    [price.set('/net', '2.50'), '{"net":"2.50","tax":[0.10,2]}'],
    [price.remove('/net'), '{"tax":[0.10,2]}'],
    [price.remove('/tax/0'), '{"net":1.50,"tax":[2]}'],
    [price.put('sum', tax), '{"net":1.50,"sum":7.0,"tax":[0.10,2]}'],
    [document('[1.0]').push(tax), '[1.0,7.0]'],
    [price.merge({ net: new v.Decimal('2.00') }), '{"net":2.00,"tax":[0.10,2]}'],
    [tax.merge(document('[1.0]')), '[7.0,1.0]'],
  ];
  for (const [changed, text] of rows) assert.deepStrictEqual([String(changed), changed], [text, document(text)]);
  for (const same of [price.set('/sum', tax, false), price.remove('/sum'), price.remove(''), price.set('', tax)]) {
    assert.strictEqual(same, price);
  }
  for (const [path, text] of [['/tax', '[0.10,2]'], ['/tax/0', '0.10'], ['', String(price)], ['/net', '1.50']]) {
    assert.deepStrictEqual([price.get(path), price.has(path)], [document(text), true]);
  }
  assert.deepStrictEqual([price.get('/tax/2'), price.has('/tax/2')], [undefined, false]);
  const long = document(`["${'x'.repeat(5000)}",1.50]`);
  assert.deepStrictEqual(long.get('/0'), document(`"${'x'.repeat(5000)}"`));
  assert.deepStrictEqual(document('[1.0]').set('/0', long).get('/0'), long);
  assert.ok(price.contains({ tax: [0.1] }) && price.contains(document('{net: 1.500}')));
  assert.ok(price.key.contains(document('{net: 1.500}')));
  assert.ok(!price.contains({ tax: [3] }));
  assert.deepStrictEqual(Key.parse('[1]').push(document('2.50')), Key.parse('[1,2.5]'));
});

test('changes are those of a reference, and each number keeps its digits', () => {
  const draw = drawing(10);
  const scalars = [null, 'x', 1, ...['1.0', '1.50', '-20.00'].map((text) => new v.Decimal(text))];
  const drawnValue = (depth) => changes.drawnValue(draw, depth, scalars);
  let changed = 0;
  for (let i = 0; i < 2000; i++) {
    const [value, other, path, create] = [drawnValue(3), drawnValue(2), changes.drawnPath(draw), draw(2) === 1];
    const whole = Document.of(value);
    const given = draw.of([other, Document.of(other)]);
    const rows = [
      [whole, value],
      [whole.set(path, given, create), changes.set(value, path, other, create)],
      [whole.remove(path), changes.remove(value, path)],
      [whole.merge(given), changes.merge(value, other)],
    ];
    if (whole.kind === 'object') rows.push([whole.put('n', given), { ...value, n: other }]);
    if (whole.kind === 'array') rows.push([whole.push(given), [...value, other]]);
    const part = whole.get(path);
    if (part === undefined) assert.strictEqual(whole.key.get(path), undefined);
    else rows.push([part, changes.find(value, changes.stepsOf(path))]);
    for (const [made, one] of rows) {
      assert.strictEqual(String(made), v.stringify(one));
      assert.deepStrictEqual([made, made.key], [document(String(made)), Key.of(one)]);
      changed += !made.equals(whole);
    }
    assert.strictEqual(whole.contains(given), changes.contains(value, other));
  }
  assert.ok(changed > 3000, String(changed));
});

test('changes that make no document are rejected', () => {
  const [number, array, object] = [document('1.0'), document('[1.0]'), document('{"a":1.0}')];
  const deepest = Document.of(nested(512));
  const tooDeep = 'more than 512 nested arrays and objects';
  throws(() => array.put('a', 1), TypeError, 'array is no object');
  throws(() => number.push(1), TypeError, 'number is no array');
  throws(() => array.push(deepest), RangeError, tooDeep);
  throws(() => object.put('a', deepest), RangeError, tooDeep);
  throws(() => object.set('/a', deepest), RangeError, tooDeep);
  const words = 'the path is no JSON Pointer (RFC 6901): it is empty or begins with /, and ~ occurs only in ~0 and ~1';
  for (const call of ['get', 'has', 'remove']) throws(() => object[call]('a'), SyntaxError, words);
});

test('damaged documents do no harm', () => {
  const whole = document('{"a":[1.50,-2.00,"x",null,{"b":[[0.0]]}],"é":12345678901234567890.10}').bytes;
  let [passed, rejected] = [0, 0];
  for (let i = 0; i < whole.length; i++) {
    for (const byte of [0, 1, 2, 0x14, 0x80, 0xa1, 0xd0, 0xd1, 0xd2, 0xff]) {
      const bytes = Buffer.from(whole);
      bytes[i] = byte;
      const one = Document.fromTrustedBytes(bytes);
      try {
        assert.deepStrictEqual(document(String(Document.fromBytes(bytes))).bytes, bytes);
      } catch (error) {
        assert.strictEqual(error.message, "the bytes aren't a document");
        rejected++;
      }
      for (const call of [
        () => String(one),
        () => one.value(),
        () => one.get('/a/0'),
        () => one.remove('/a/1'),
        () => one.set('/a/0', one),
        () => one.put('c', 1),
        () => one.merge([1]),
        () => document('[1.0]').push(one),
        () => one.contains([1]),
        () => inspect(one) + one.key.id,
      ]) {
        try {
          call();
          passed++;
        } catch (error) {
          assert.ok([RangeError, TypeError].includes(error.constructor), String(error));
        }
      }
    }
  }
  assert.ok(passed > 1000 && rejected > 100, `${passed}, ${rejected}`);
});
