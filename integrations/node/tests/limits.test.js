'use strict';

/** Wrong arguments, deep and large documents, memory, and threads. */

const assert = require('assert');
const { execFileSync } = require('child_process');
const fs = require('fs');
const os = require('os');
const path = require('path');
const test = require('node:test');
const { Worker, receiveMessageOnPort } = require('worker_threads');
const v = require('..');
const native = require('../build/Release/vizhoniku.node');
const { IN_ORDER, nested, throws } = require('./helpers.js');

const FOLDER = path.join(__dirname, '..');

/** What is no text, with what it is called. */
const WRONG = [
  [undefined, 'undefined'],
  [null, 'null'],
  [0, 'number'],
  [NaN, 'number'],
  [10n, 'bigint'],
  [true, 'boolean'],
  [{}, 'Object'],
  [[49], 'Array'],
  [Symbol('x'), 'symbol'],
  [() => '1', 'function'],
  [new Uint16Array(1), 'Uint16Array'],
  [new ArrayBuffer(1), 'ArrayBuffer'],
  [new DataView(new ArrayBuffer(1)), 'DataView'],
];

const half = /^(a text|a path|a name|a string|the text of a decimal|a step that is no integer) has half of a surrogate pair$/;

test('each call rejects arguments of a wrong type in words', () => {
  const [key, object] = [v.Key.parse('[1]'), v.Document.parse('{}')];
  const aText = 'a text is a string or a Uint8Array, and not ';
  const calls = {
    [aText]: [
      (wrong) => v.check(wrong),
      (wrong) => v.valid(wrong),
      (wrong) => v.text(wrong),
      (wrong) => v.sortKey(wrong),
      (wrong) => v.document(wrong),
      (wrong) => v.parse(wrong),
      (wrong) => v.part(wrong, ''),
      (wrong) => v.compare(wrong, '1'),
      (wrong) => v.compare('1', wrong),
      (wrong) => v.Key.parse(wrong),
      (wrong) => v.Document.parse(wrong),
    ],
    'a path is a string, and not ': [
      (wrong) => v.part('1', wrong),
      ...[key, object].flatMap((one) => [
        (wrong) => one.get(wrong),
        (wrong) => one.has(wrong),
        (wrong) => one.set(wrong, 1),
        (wrong) => one.remove(wrong),
      ]),
    ],
    'a name is a string, and not ': [(wrong) => object.put(wrong, 1), (wrong) => object.key.put(wrong, 1)],
    'the bytes of a Key are a Uint8Array, and not ': [(wrong) => v.Key.fromBytes(wrong), (wrong) => v.Key.fromTrustedBytes(wrong)],
    'the bytes of a Document are a Uint8Array, and not ': [
      (wrong) => v.Document.fromBytes(wrong),
      (wrong) => v.Document.fromTrustedBytes(wrong),
    ],
  };
  for (const [words, those] of Object.entries(calls)) {
    const wrongs = words.includes('are a Uint8Array') ? [...WRONG, ['1', 'string']] : WRONG;
    for (const call of those) {
      for (const [wrong, name] of wrongs) throws(() => call(wrong), TypeError, words + name);
    }
  }
  for (const call of [(create) => key.set('/0', 1, create), (create) => object.set('/a', 1, create)]) {
    for (const wrong of [null, 0, 1, 'true', {}]) throws(() => call(wrong), TypeError, 'create is a boolean');
  }
  throws(() => v.pointer({}), TypeError, 'a step that is no integer is a string, and not Object');
  throws(() => v.pointer(1.5), TypeError, 'a step that is no integer is a string, and not number');
});

test('a mode is one of four names', () => {
  const words = "a mode is 'standard', 'extended', 'json' or 'extended_json', and not ";
  const calls = [v.check, v.valid, v.text, v.sortKey, v.document, v.parse, (text, mode) => v.part(text, '', mode)];
  calls.push((text, mode) => v.compare(text, text, mode));
  calls.push((text, mode) => v.Key.parse(text, mode), (text, mode) => v.Document.parse(text, mode));
  for (const call of calls) {
    for (const mode of ['JSON', '', '__proto__']) throws(() => call('1', mode), RangeError, `${words}'${mode}'`);
    for (const [mode, name] of [[null, 'null'], [0, 'number'], [{}, 'Object'], [['json'], 'Array']]) {
      throws(() => call('1', mode), TypeError, words + name);
    }
    assert.doesNotThrow(() => call('1', undefined));
  }
  throws(() => ['1', '2'].map(v.text), TypeError, `${words}number`);
});

test('half of a surrogate pair is rejected in words', () => {
  const [array, object] = [v.Key.parse('[1]'), v.Document.parse('{}')];
  const calls = [v.check, v.valid, v.text, v.sortKey, v.document, v.parse, v.stringify, v.pointer, (half) => new v.Decimal(half)];
  calls.push(
    ...[array, object].flatMap((one) => [
      (half) => one.get(half),
      (half) => one.has(half),
      (half) => one.set(half, 1),
      (half) => one.remove(half),
      (half) => one.merge(half),
      (half) => one.contains(half),
    ]),
    (half) => v.compare('1', half),
    (half) => v.part('1', half),
    (half) => v.Key.parse(half),
    (half) => v.Document.of(half),
    (half) => array.push(half),
    (half) => object.put(half, 1),
    (half) => object.put('a', half)
  );
  for (const string of ['\ud800', '"\udc00"', '/𝄞\ud834', 'x'.repeat(5000) + '\udfff', '\ud834\ud834\udd1e']) {
    for (const call of calls) assert.match(throws(() => call(string), TypeError).message, half);
  }
  assert.strictEqual(v.text('"\ufffd"'), '"\ufffd"');
  assert.strictEqual(v.text('"\\ud800"'), '"\\\\ud800"');
});

test('the module in C takes any arguments without harm', () => {
  const bytes = v.sortKey('{"a":[1,{"b":2}]}');
  const there = () => [
    ...[0, 3, 4, -1, 1.5, 1e300, '', '1', '/a', 'x'.repeat(5000), bytes, Buffer.alloc(0), new Uint8Array(64)],
    ...[new Float64Array(4), new Float64Array(1), new Float64Array([NaN, -1, 1e300, 5])],
    ...WRONG.map(([wrong]) => wrong),
  ];
  let [returned, thrown] = [0, 0];
  const attempt = (call, given) => {
    try {
      call(...given);
      returned++;
    } catch (error) {
      assert.strictEqual(error.constructor, TypeError);
      thrown++;
    }
  };
  const right = [3, '[1.50]', bytes, '/a/0', new Float64Array(4), Buffer.alloc(100), 0, true];
  for (const call of Object.values(native).filter((one) => typeof one === 'function')) {
    attempt(call, []);
    for (const one of there()) {
      attempt(call, [one]);
      for (const two of there()) {
        attempt(call, [one, two]);
        attempt(call, [right[0], one, two]);
        attempt(call, [bytes, one, two, Buffer.alloc(9), 0]);
        attempt(call, [bytes, '/a/0', one, two, Buffer.alloc(9), 0]);
        attempt(call, [bytes, '/a/0', bytes, true, one, two]);
      }
      for (let i = 0; i < 8; i++) attempt(call, right.map((other, at) => (at === i ? one : other)));
    }
  }
  assert.ok(returned > 1000 && thrown > 1000, `${returned}, ${thrown}`);
  throws(() => native.documentRemove(bytes, '/a', bytes, 0), TypeError, 'the bytes are those that are written to');
  assert.strictEqual(native.sortKey(3, '[1]', Buffer.alloc(9), 6), 4);
  assert.strictEqual(native.sortKey(3, '[1]', Buffer.alloc(9), 5), 4);
  for (const mode of [4, 7, 1.5, NaN, -1, 2 ** 32, Infinity]) assert.strictEqual(native.check(mode, '[1]'), -3);
  const memory = new ArrayBuffer(9);
  const view = new Uint8Array(memory);
  structuredClone(memory, { transfer: [memory] });
  throws(() => native.sortKey(3, '1', view, 0), TypeError, 'an offset is within the bytes');
  assert.strictEqual(native.keyCheck(view), native.NO_KEY);
});

test('what a call writes leaves other keys as they were', () => {
  const texts = Array.from({ length: 5000 }, (none, i) => `{"id":${i},"text":"${'x'.repeat(i % 900)}"}`);
  const keys = texts.map((text) => v.Key.parse(text));
  keys.forEach((key, i) => {
    assert.strictEqual(key.set('/id', i + 1).get('/id').value(), i + 1);
    assert.strictEqual(String(v.Document.of(key).remove('/text')), `{"id":${i}}`);
  });
  keys.forEach((key, i) => assert.strictEqual(String(key), texts[i]));
  const whole = new Uint8Array(keys[0].bytes.buffer);
  assert.throws(() => v.text(whole), (error) => error instanceof SyntaxError || error instanceof TypeError);
});

test('512 arrays and objects are taken, and 513 are not', () => {
  for (const [front, back] of [['[', ']'], ['{"a":', '}']]) {
    const text = `${front.repeat(512)}1${back.repeat(512)}`;
    assert.deepStrictEqual([v.text(text), v.compare(text, text), String(v.Key.parse(text))], [text, 0, text]);
    assert.strictEqual(v.stringify(v.parse(text)), text);
    assert.strictEqual(v.stringify(v.parse(text.replace('1', '1.50'))), text.replace('1', '1.50'));
    assert.ok(v.Key.parse(text).contains(v.Key.parse(text)));
    assert.ok(v.Key.of(v.parse(text)).equals(v.Key.parse(text)));
    const fault = throws(() => v.check(front + text + back), v.ParseError);
    assert.deepStrictEqual([fault.reason, fault.offset], ['depth limit exceeded', 512 * front.length]);
  }
  assert.strictEqual(v.Key.of(nested(512)).get('/0'.repeat(511)).length, 0);
});

/** Seconds of the processor that a call takes, the least of some runs. */
function secondsOf(call, runs) {
  const seconds = Array.from({ length: runs }, () => {
    const begun = process.cpuUsage();
    call();
    const { user, system } = process.cpuUsage(begun);
    return (user + system) / 1e6;
  });
  return Math.min(...seconds);
}

/** Checks that calls take time in proportion to the size: integrations/growth.py has the rule. */
function checkGrowth(callsOf) {
  const most = Number(process.env.VIZHONIKU_MOST_TIMES ?? 8);
  const [small, large] = [20_000, 80_000].map(callsOf);
  for (const name of Object.keys(small)) {
    let [one, four] = [secondsOf(small[name], 2), secondsOf(large[name], 1)];
    for (let run = 0; run < 8 && four >= 0.06 && four > most * one; run++) {
      one = Math.min(one, secondsOf(small[name], 2));
      four = Math.min(four, secondsOf(large[name], 2));
    }
    assert.ok(four < 0.06 || four <= most * one, `${name}: ${one} s, and ${four} s for four times as many`);
  }
}

test('time is in proportion to the document', () => {
  checkGrowth((size) => {
    const items = Array.from({ length: size }, (none, i) => ['"a"', `{"id":${i},"price":${i}.50}`, `${i}.25`][i % 3]);
    const members = Array.from({ length: size }, (none, i) => `"k${i}":${['null', '"x"', `[${i}.50]`, `${i}.25`][i % 4]}`);
    const calls = {};
    for (const [what, text] of [['array', `[${items}]`], ['object', `{${members}}`]]) {
      const [key, document, value] = [v.Key.parse(text), v.Document.parse(text), v.parse(text)];
      const path = what === 'array' ? `/${size - 1}` : '/k9998';
      Object.assign(calls, {
        [`check, ${what}`]: () => v.check(text),
        [`check, ${what}, bytes`]: () => v.check(Buffer.from(text)),
        [`a rejected ${what}`]: () => throws(() => v.check(`${text}x`), v.ParseError),
        [`text, ${what}`]: () => v.text(text),
        [`parse, ${what}`]: () => v.parse(text),
        [`stringify, ${what}`]: () => v.stringify(value),
        [`Key.of, ${what}`]: () => v.Key.of(value),
        [`compare, ${what}`]: () => v.compare(text, `${text} `),
        [`part, ${what}`]: () => v.part(text, path),
        [`Key.parse, ${what}`]: () => v.Key.parse(text),
        [`key, ${what}`]: () => [key.get(path), key.set(path, 1), key.remove(path), key.merge(key), key.length, key.id],
        [`key to text, ${what}`]: () => String(key),
        [`key to value, ${what}`]: () => key.value(),
        [`parts, ${what}`]: () => [...key.values()],
        [`names, ${what}`]: () => what === 'object' && [...key.keys()],
        [`contains, ${what}`]: () => (what === 'object' ? key.contains(key) : key.contains([1])),
        [`fromBytes, ${what}`]: () => v.Key.fromBytes(key.bytes).compare(key),
        [`document, ${what}`]: () => [v.Document.parse(text), document.get(path), document.set(path, 1), document.merge(document)],
        [`document to text, ${what}`]: () => String(document),
        [`document to value, ${what}`]: () => document.value(),
      });
    }
    return calls;
  });
});

test('a string of 10 MB and an array of 1,000,000 items', () => {
  const string = `"${'x1.5\\n'.repeat(1_700_000)}"`;
  assert.strictEqual(v.text(string), string);
  assert.strictEqual(v.stringify(v.parse(string)), string);
  assert.strictEqual(v.Key.parse(string).value().length, 5 * 1_700_000);
  assert.strictEqual(v.parse(`[0.5,${string}]`)[1].length, 5 * 1_700_000);
  const array = `[${Array.from({ length: 1_000_000 }, (none, i) => (i % 2 ? i : `${i}.5`))}]`;
  const key = v.Key.parse(array);
  assert.deepStrictEqual([key.length, key.get('/999999').value(), String(key) === array], [1_000_000, 999_999, true]);
  let sum = 0;
  for (const item of key) sum += item.kind === 'number';
  assert.strictEqual(sum, 1_000_000);
  const value = key.value();
  assert.deepStrictEqual([value.length, String(value[999_998]), value[999_999]], [1_000_000, '999998.5', 999_999]);
  assert.ok(v.Key.of(value).equals(key));
  const fault = throws(() => v.check(`${array.slice(0, -1)},x]`), v.ParseError);
  assert.deepStrictEqual([fault.offset, fault.column, fault.path], [array.length, array.length + 1, '/1000000']);
});

/** Runs a program in a process of its own, and returns what it prints. */
function runNode(words, program, environment = {}) {
  const options = { encoding: 'utf8', env: { ...process.env, NODE_TEST_CONTEXT: undefined, ...environment }, cwd: FOLDER };
  return execFileSync(process.execPath, [...words, '-e', program], options);
}

test('memory is given back', () => {
  const program = `
    const v = require('./index.js');
    const text = '{"a":[' + '1.50,'.repeat(50) + '0],"b":"' + 'x'.repeat(100000) + '"}';
    const bytes = Buffer.from(text);
    const attempt = (call) => { try { call(); } catch {} };
    function calls() {
      const [key, document] = [v.Key.parse(text), v.Document.parse(bytes)];
      v.check(text); v.text(bytes); v.parse(text); v.compare(text, bytes); v.part(text, '/b'); v.Key.of(key.value());
      key.set('/a/0', document); key.remove('/a'); key.put(text, 1); key.merge(document); key.get('/a').push(key);
      document.set('/a/0', key); document.remove('/b'); document.get('/a'); document.key.contains(key); document.value();
      v.Key.fromBytes(key.bytes); v.Document.fromBytes(document.bytes); [...key.get('/a')]; [...key.keys()]; key.id;
      attempt(() => v.check(text + 'x')); attempt(() => v.parse(bytes.subarray(1))); attempt(() => key.get('a'));
      attempt(() => v.compare('1', text + ']')); attempt(() => key.set('/a', undefined)); attempt(() => v.text(text, 'x'));
    }
    function measured(count) {
      for (let i = 0; i < count; i++) calls();
      gc(); gc();
      const { rss, external, heapUsed } = process.memoryUsage();
      return { rss, external, heapUsed };
    }
    const before = measured(400), after = measured(1000); // the first ones also fill the heap
    console.log(JSON.stringify(['rss', 'external', 'heapUsed'].map((one) => after[one] - before[one])));`;
  const [rss, external, heapUsed] = JSON.parse(runNode(['--expose-gc'], program));
  // One text of 100 KB that each of 1,000 rounds kept were 100 MB.
  assert.ok(external < 4e6 && heapUsed < 4e6 && rss < 70e6, `${rss}, ${external}, ${heapUsed}`);
});

test('memory that runs out is a RangeError', (t) => {
  const folder = fs.mkdtempSync(path.join(os.tmpdir(), 'vizhoniku-'));
  t.after(() => fs.rmSync(folder, { recursive: true }));
  const source = path.join(folder, 'scarce.c');
  const library = path.join(folder, 'scarce.so');
  // malloc and realloc fail for blocks of 40 MB and more, of which Node itself takes none by them here.
  fs.writeFileSync(source, `
    #define _GNU_SOURCE
    #include <dlfcn.h>
    #include <stddef.h>
    void *malloc(size_t size) {
      static void *(*real)(size_t);
      if (!real) real = (void *(*)(size_t))dlsym(RTLD_NEXT, "malloc");
      return size < 40000000 ? real(size) : NULL;
    }
    void *realloc(void *block, size_t size) {
      static void *(*real)(void *, size_t);
      if (!real) real = (void *(*)(void *, size_t))dlsym(RTLD_NEXT, "realloc");
      return size < 40000000 ? real(block, size) : NULL;
    }`);
  execFileSync('cc', ['-O1', '-shared', '-fPIC', '-o', library, source, '-ldl']);
  const program = `
    const v = require('./index.js');
    const text = '"' + 'x'.repeat(45e6) + '"', bytes = new Uint8Array(45e6).fill(120);
    bytes[0] = bytes[bytes.length - 1] = 34;
    const calls = [() => v.text(bytes), () => v.text(text), () => v.sortKey(bytes), () => v.Key.parse(text), () => v.document(text),
      () => v.parse(bytes), () => v.compare('1', text), () => v.part(bytes, ''), () => v.check(text),
      () => v.valid(text), () => v.Key.of(text), () => v.Key.parse('{}').get('/' + text), () => v.Key.parse('{}').put(text, 1)];
    for (const call of calls) {
      try {
        call();
        console.log(call + ' returned');
      } catch (error) {
        // Buffers say it in words of Node's.
        const isTold = ['memory ran out', 'Array buffer allocation failed'].includes(error.message);
        if (error.constructor !== RangeError || !isTold) console.log(call + ': ' + String(error).slice(0, 100));
      }
    }
    console.log(v.text('[1]'), v.valid(bytes));`;
  assert.strictEqual(runNode([], program, { LD_PRELOAD: library }), '[1] true\n');
});

test('threads call at the same time', async () => {
  const program = `
    const { parentPort, workerData } = require('worker_threads');
    const v = require(workerData.folder);
    const answers = [];
    for (let i = 0; i < 50; i++) {
      for (const text of workerData.texts) {
        const key = v.Key.parse(text);
        answers.push(key.id, String(key), v.stringify(v.parse(text)), String(key.merge(i)));
        try { v.check(text + ']]'); } catch (error) { answers.push(error.message); }
      }
    }
    parentPort.postMessage(answers.join('\\n'));`;
  const texts = [...IN_ORDER.flat(), `[${'{"a": [1, 2.50], "b": "x"},'.repeat(500)}0]`];
  const workers = Array.from({ length: 6 }, () => new Worker(program, { eval: true, workerData: { folder: FOLDER, texts } }));
  const answers = await Promise.all(
    workers.map((worker) => new Promise((resolve, reject) => worker.on('message', resolve).on('error', reject)))
  );
  assert.strictEqual(new Set(answers).size, 1);
  assert.ok(answers[0].length > 1e6);
});

test('a thread that is stopped in a call takes nothing with it', async () => {
  const program = "const v = require(require('worker_threads').workerData); for (;;) v.Key.parse('[1,2.5]').set('/0', 'x');";
  for (let i = 0; i < 5; i++) {
    const worker = new Worker(program, { eval: true, workerData: FOLDER });
    await new Promise((resolve) => worker.on('online', () => setTimeout(resolve, 30)));
    assert.strictEqual(await worker.terminate(), 1);
  }
  assert.strictEqual(v.text('[1, 2]'), '[1,2]');
});

test('a key goes to another thread as its bytes', () => {
  const key = v.Key.parse('{"a": 1.50}');
  const { port1, port2 } = new MessageChannel();
  port1.postMessage(key.bytes);
  assert.ok(v.Key.fromBytes(receiveMessageOnPort(port2).message).equals(key));
  try {
    port1.postMessage(key.bytes, [key.bytes.buffer]); // other keys are in this memory, so that it stays here
  } catch (error) {
    assert.strictEqual(error.name, 'DataCloneError');
  }
  port1.close();
  assert.strictEqual(String(key), '{"a":1.5}');
});
