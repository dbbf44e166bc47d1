'use strict';

/** Sort keys as documents: the class Key. */

const assert = require('assert');
const test = require('node:test');
const { inspect } = require('util');
const v = require('..');
const changes = require('./changes.js');
const { IN_ORDER, compareValues, drawing, drawn, nested, sign, textOf, throws } = require('./helpers.js');

const { Key } = v;
const key = (text) => Key.parse(text);
const textsOf = (keys) => Array.from(keys, String);

test('a key has the kind and the bytes of its value', () => {
  const kinds = { null: 'null', true: 'boolean', '-1.50': 'number', '"x"': 'string', '[]': 'array', '{}': 'object' };
  for (const [text, kind] of Object.entries(kinds)) {
    assert.deepStrictEqual([key(text).kind, key(text).bytes], [kind, v.sortKey(text)]);
  }
  assert.deepStrictEqual(key('[1,null]').bytes, Buffer.from('d2a114d300', 'hex'));
  assert.ok(Buffer.isBuffer(key('1').bytes));
  throws(() => new Key(Buffer.from('d300', 'hex')), TypeError, 'a Key is made by parse, of or fromBytes');
});

test('keys are in the order of their values', () => {
  const keys = IN_ORDER.map((line) => line.map(key));
  keys.forEach((left, i) =>
    keys.forEach((right, j) => {
      const [one, two] = [left[0], right[right.length - 1]];
      assert.deepStrictEqual([one < two, one <= two, one > two, one >= two], [i < j, i <= j, i > j, i >= j]);
      assert.deepStrictEqual([one.compare(two), one.equals(two), one.id === two.id], [sign(i - j), i === j, i === j]);
      assert.strictEqual(one.id < two.id, i < j);
    })
  );
  const all = keys.flat();
  assert.deepStrictEqual([...new Set(all.map((one) => one.id))].sort(), keys.map(([one]) => one.id));
  assert.strictEqual(new Set(all.map((one) => one.id)).size, IN_ORDER.length);
  const draw = drawing(6);
  const shuffled = all.map((one) => [draw(1e9), one]).sort(([left], [right]) => left - right).map(([, one]) => one);
  const texts = (line) => line.map((one) => one.toString());
  assert.deepStrictEqual(texts(shuffled.sort((left, right) => left.compare(right))), texts(all));
});

test('keys of random documents are in the order of a reference', () => {
  const draw = drawing(7);
  const documents = Array.from({ length: 1000 }, () => drawn(draw, 3));
  const keys = documents.map((one) => [one, key(textOf(one, true))]);
  const byKey = [...keys].sort(([, left], [, right]) => (left < right ? -1 : left > right ? 1 : 0));
  const byReference = [...keys].sort(([left], [right]) => compareValues(left, right));
  assert.deepStrictEqual(byKey.map(([, one]) => one.id), byReference.map(([, one]) => one.id));
  for (let i = 1; i < byKey.length; i++) {
    const [[left, one], [right, two]] = [byKey[i - 1], byKey[i]];
    assert.strictEqual(one.compare(two), compareValues(left, right));
    assert.strictEqual(one.equals(two), compareValues(left, right) === 0);
  }
});

test('a part is found by its path, in the same memory', () => {
  const whole = key('{"a": [0, {"b/c": [true, 0x10], "~": 1}], "": {"": 2}, "é": null}');
  const rows = [
    ['/a/1/b~1c', '[true,16]'],
    ['/a/1/~0', '1'],
    ['//', '2'],
    ['', String(whole)],
    ['/é', 'null'],
    ['/a/0', '0'],
  ];
  for (const [path, text] of rows) {
    const part = whole.get(path);
    assert.deepStrictEqual([String(part), part, whole.has(path)], [text, key(text), true]);
    assert.strictEqual(part.bytes.buffer, whole.bytes.buffer);
  }
  for (const path of ['/a/2', '/a/-', '/a/-1', '/b', '/a/01', '/a/0/0']) {
    assert.deepStrictEqual([whole.get(path), whole.has(path)], [undefined, false]);
  }
  const words = 'the path is no JSON Pointer (RFC 6901): it is empty or begins with /, and ~ occurs only in ~0 and ~1';
  for (const path of ['a', '/~', '/a~2']) {
    for (const call of ['get', 'has', 'remove']) throws(() => whole[call](path), SyntaxError, words);
    throws(() => whole.set(path, 1), SyntaxError, words);
  }
});

test('parts come one after the other', () => {
  const array = key("[1, 'x', [2]]");
  const object = key('{"b": 1, "a": [2], "": null, "b\\u0000": 3}');
  const lengths = [array, object, key('[]'), key('{}'), key('""')].map((one) => one.length);
  assert.deepStrictEqual(lengths, [3, 4, 0, 0, undefined]);
  assert.deepStrictEqual(textsOf(array), ['1', '"x"', '[2]']);
  assert.deepStrictEqual(textsOf(array.values()), ['1', '"x"', '[2]']);
  assert.deepStrictEqual([...object.keys()], ['', 'a', 'b', 'b\u0000']);
  assert.deepStrictEqual(textsOf(object.values()), ['null', '[2]', '1', '3']);
  const entries = Array.from(object.entries(), ([name, part]) => [name, part.value()]);
  assert.deepStrictEqual(entries, [['', null], ['a', [2]], ['b', 1], ['b\u0000', 3]]);
  assert.deepStrictEqual([...new Map(object)].map(([name]) => name), ['', 'a', 'b', 'b\u0000']);
  assert.deepStrictEqual(Object.keys(Object.fromEntries(object)), ['', 'a', 'b', 'b\u0000']);
  assert.deepStrictEqual([...key('[]'), ...key('{}')], []);
  const [first, second] = [array.values(), array.values()];
  assert.deepStrictEqual([first, second, first, second].map((one) => String(one.next().value)), ['1', '1', '"x"', '"x"']);
  const long = `${'n'.repeat(3000)}é`;
  assert.deepStrictEqual([...Key.of({ [long]: 1 }).keys()], [long]);
  throws(() => key('1').values(), TypeError, 'number is no array and no object');
  throws(() => [...key('null')], TypeError, 'null is no array and no object');
  throws(() => array.keys(), TypeError, 'array is no object');
  throws(() => array.entries(), TypeError, 'array is no object');
});

test('parts, names and lengths of random documents are those of JSON.parse', () => {
  const draw = drawing(8);
  let parts = 0;
  const check = (value, one) => {
    parts++;
    assert.strictEqual(v.stringify(value), String(one));
    if (value === null || typeof value !== 'object') return;
    const names = Object.keys(value).sort((left, right) => Buffer.compare(Buffer.from(left), Buffer.from(right)));
    const steps = Array.isArray(value) ? [...value.keys()] : names;
    if (steps === names) assert.deepStrictEqual([...one.keys()], names);
    assert.strictEqual(one.length, steps.length);
    const found = [...one.values()];
    steps.forEach((step, i) => {
      check(value[step], found[i]);
      assert.ok(one.get(v.pointer(step)).equals(found[i]));
    });
  };
  for (let i = 0; i < 200; i++) {
    const value = changes.drawnValue(draw, 4, [null, true, 1, 'a', 'x'.repeat(3), 12.5]);
    check(JSON.parse(JSON.stringify(value)), Key.parse(JSON.stringify(value)));
  }
  assert.ok(parts > 1000);
});

test('stored bytes are checked, and copied', () => {
  for (const [text] of IN_ORDER) {
    const one = key(text);
    const behind = Buffer.concat([Buffer.from('x'), one.bytes]).subarray(1);
    for (const bytes of [one.bytes, new Uint8Array(one.bytes), behind]) {
      assert.deepStrictEqual(Key.fromBytes(bytes), one);
      assert.deepStrictEqual(Key.fromTrustedBytes(bytes), one);
    }
    const longer = [[...one.bytes, 0], [255, ...one.bytes]].map((bytes) => Buffer.from(bytes));
    for (const bytes of [one.bytes.subarray(0, -1), ...longer]) {
      throws(() => Key.fromBytes(bytes), RangeError, "the bytes aren't a sort key");
    }
  }
  throws(() => Key.fromBytes(Buffer.alloc(0)), RangeError, "the bytes aren't a sort key");
  const shared = new Uint8Array(new SharedArrayBuffer(3));
  shared.set(key('"x"').bytes.subarray(0, 3));
  throws(() => Key.fromBytes(shared), RangeError, "the bytes aren't a sort key");
  const stored = Buffer.from(key('[7]').bytes);
  const kept = Key.fromBytes(stored);
  stored.fill(0);
  assert.strictEqual(String(kept), '[7]');
  assert.strictEqual(String(Key.of(v.Document.parse('[1.50]'))), '[1.5]');
  assert.strictEqual(Key.of(kept), kept);
});

test('a text may be in memory that threads share', () => {
  const shared = new Uint8Array(new SharedArrayBuffer(5));
  shared.set(Buffer.from('[1.5]'));
  assert.deepStrictEqual([v.text(shared), String(Key.parse(shared)), v.valid(shared)], ['[1.5]', '[1.5]', true]);
});

test('a key is shown as its text', () => {
  const one = key("{a: ['x', 1.50]}");
  const text = '{"a":["x",1.5]}';
  assert.deepStrictEqual([`${one}`, String(one), one + '!', inspect(one)], [text, text, `${text}!`, `Key('${text}')`]);
  assert.strictEqual(inspect([key('1')]), "[ Key('1') ]");
  assert.strictEqual(inspect(Key.fromTrustedBytes(Buffer.from([1]))), 'Key.fromTrustedBytes(<Buffer 01>)');
  assert.ok(one == '{"a":["x",1.5]}' && one != key(String(one))); // eslint-disable-line eqeqeq
});

test('changes are those of a reference', () => {
  const draw = drawing(9);
  const scalars = [null, true, 1, 'a', 'xxx'];
  const drawnValue = (depth) => changes.drawnValue(draw, depth, scalars);
  const same = (one, value) => {
    assert.strictEqual(String(one), v.stringify(value));
    assert.ok(Key.fromBytes(one.bytes).equals(one));
  };
  let [unchanged, contained] = [0, 0];
  for (let i = 0; i < 3000; i++) {
    const [value, other, path, create] = [drawnValue(3), drawnValue(2), changes.drawnPath(draw), draw(2) === 1];
    const whole = Key.of(value);
    const given = draw.of([other, Key.of(other), v.Document.of(other)]);
    const set = whole.set(path, given, create);
    same(set, changes.set(value, path, other, create));
    same(whole.set(path, given), changes.set(value, path, other, true));
    const removed = whole.remove(path);
    same(removed, changes.remove(value, path));
    assert.strictEqual(removed === whole, v.stringify(changes.remove(value, path)) === v.stringify(value));
    unchanged += set === whole;
    same(whole.merge(given), changes.merge(value, other));
    const small = draw.of([other, value, drawnValue(1), removed.value()]);
    assert.strictEqual(whole.contains(small), changes.contains(value, small), `${whole}, ${v.stringify(small)}`);
    contained += whole.contains(Key.of(small));
    if (whole.kind === 'object') same(whole.put('new\u0000é', given), { ...value, 'new\u0000é': other });
    if (whole.kind === 'array') same(whole.push(given), [...value, other]);
    same(whole, value);
  }
  assert.ok(unchanged > 300 && contained > 700, `${unchanged}, ${contained}`);
});

test('what changes a key returns another one', () => {
  const whole = key('{"user": {"name": "ann"}, "tags": ["x"]}');
  const tags = whole.get('/tags');
  const rows = [
    [whole.set('/user/age', 30), '{"tags":["x"],"user":{"age":30,"name":"ann"}}'],
    [whole.set('/user/name', 'bob', false), '{"tags":["x"],"user":{"name":"bob"}}'],
    [whole.set('/tags/-2', 1.5), '{"tags":[1.5,"x"],"user":{"name":"ann"}}'],
    [whole.remove('/tags/-1'), '{"tags":[],"user":{"name":"ann"}}'],
    [tags.push({ a: new v.Decimal('2.50') }), '["x",{"a":2.5}]'],
    [whole.get('/user').put('name', null).merge({ age: 1n }), '{"age":1,"name":null}'],
    [key('1').merge(key('[2]')), '[1,2]'],
    [key('{}').put('x'.repeat(10_000), 'é'.repeat(10_000)), `{"${'x'.repeat(10_000)}":"${'é'.repeat(10_000)}"}`],
  ];
  for (const [changed, text] of rows) assert.strictEqual(String(changed), text);
  const unchanged = [
    whole.set('', 1),
    whole.set('/none/a', 1),
    whole.set('/user/age', 30, false),
    whole.set('/tags/x', 1),
    whole.remove(''),
    whole.remove('/none'),
    whole.set('/user/name/x', 1),
  ];
  for (const one of unchanged) assert.strictEqual(one, whole);
  assert.deepStrictEqual(
    [whole.contains({ tags: ['x'] }), tags.contains('x'), whole.contains({ tags: ['y'] }), tags.contains(v.Document.of('x'))],
    [true, true, false, true]
  );
});

test('changes that make no value are rejected', () => {
  const [number, array, object] = [key('1'), key('[1]'), key('{"a":1}')];
  const [deep, deepest] = [Key.of(nested(511)), Key.of(nested(512))];
  const tooDeep = 'more than 512 nested arrays and objects';
  throws(() => array.put('a', 1), TypeError, 'array is no object');
  throws(() => number.put('a', 1), TypeError, 'number is no object');
  throws(() => object.push(1), TypeError, 'object is no array');
  throws(() => key('null').push(1), TypeError, 'null is no array');
  throws(() => array.push(deep).push(deepest), RangeError, tooDeep);
  throws(() => object.set('/a', deep).set('/a/0', deep), RangeError, tooDeep);
  throws(() => object.put('a', deepest), RangeError, tooDeep);
  throws(() => key('""').merge(key(`${'{a:'.repeat(512)}1${'}'.repeat(512)}`)), RangeError, tooDeep);
});

test('bytes that pass the check are walked through, and others do no harm', () => {
  const whole = key('{"a":[1,-2.5,"x",null,true,{"b":[[]]}],"é":{"c":12345678901234567890}}').bytes;
  let [taken, rejected] = [0, 0];
  const attempt = (call) => {
    try {
      call();
    } catch (error) {
      assert.ok(error instanceof RangeError || error instanceof TypeError, String(error));
    }
  };
  for (let i = 0; i < whole.length; i++) {
    for (const byte of [0, 1, 0x14, 0x80, 0xa1, 0xd0, 0xd1, 0xd2, 0xff]) {
      const bytes = Buffer.from(whole);
      bytes[i] = byte;
      const one = Key.fromTrustedBytes(bytes);
      for (const call of [
        () => one.kind + one.length + one.id + inspect(one),
        () => one.value(),
        () => [...one].map(String),
        () => [...one.keys()],
        () => one.get('/a/5/b'),
        () => one.set('/a/0', one),
        () => one.remove('/a'),
        () => one.put('b', one),
        () => one.push(one),
        () => one.merge(one),
        () => [one.contains({ a: [1] }), Key.of([1]).contains(one)],
      ]) {
        attempt(call);
      }
      try {
        assert.deepStrictEqual(v.sortKey(String(Key.fromBytes(bytes))), bytes);
        taken++;
      } catch (error) {
        assert.strictEqual(error.message, "the bytes aren't a sort key");
        rejected++;
      }
    }
  }
  assert.ok(taken > 20 && rejected > 100, `${taken}, ${rejected}`);
});
