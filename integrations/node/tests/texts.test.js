'use strict';

/** The calls over texts, and what is said of those that are rejected. */

const assert = require('assert');
const fs = require('fs');
const path = require('path');
const test = require('node:test');
const v = require('..');
const { IN_ORDER, MODES, TOP, compareValues, drawing, drawn, rowsOf, sign, textOf, throws } = require('./helpers.js');

const header = fs.readFileSync(path.join(TOP, 'include/vizhoniku.h'), 'utf8');

/** The codes of the header by their names without case and underscores. */
const codes = new Map(
  [...header.matchAll(/^ {2}VIZHONIKU_(\w+) = (\d+)/gm)].map(([, name, number]) => [name.replaceAll('_', ''), +number])
);

/** The offset of the byte to show, by the position of an error: the rule of fault_index in docs/GRAMMAR.md. */
function indexOf(name, position, size) {
  const back = { InvalidEscaped: 2, InvalidHex: 2, UnexpectedEndOfHexEscape: 2, ControlCharacterWhileParsingString: 2 };
  const none = ['InvalidEOF', 'ExpectedColon', 'ExpectedArrayCommaOrEnd', 'ExpectedObjectCommaOrEnd'];
  const less = back[name] ?? ([...none, 'ObjectKeyInvalidCharacter'].includes(name) ? 0 : 1);
  return Math.min(Math.max(position - less, 0), size);
}

/** How many characters begin in bytes. */
const charactersIn = (bytes) => bytes.filter((byte) => (byte & 0xc0) !== 0x80).length;

/** What each call over one text throws of it, after it was seen that all throw the same. */
function faultOf(text, mode) {
  const fault = throws(() => v.check(text, mode), v.ParseError);
  const { which, ...rest } = fault;
  assert.strictEqual(which, 1);
  const calls = [
    () => v.text(text, mode),
    () => v.sortKey(text, mode),
    () => v.document(text, mode),
    () => v.parse(text, mode),
    () => v.Key.parse(text, mode),
    () => v.Document.parse(text, mode),
    () => v.part(text, '', mode),
    () => v.compare(text, '1', mode),
    () => v.compare(text, text, mode),
  ];
  for (const call of calls) assert.deepStrictEqual({ ...throws(call, v.ParseError, fault.message) }, { ...fault });
  const second = throws(() => v.compare('1', text, mode), v.ParseError, `second text, ${fault.message}`);
  assert.deepStrictEqual({ ...second }, { ...rest, which: 2 });
  assert.strictEqual(v.valid(text, mode), false);
  return fault;
}

function checkRejected(bytes, mode, { rejected, position, reason }) {
  const fault = faultOf(bytes, mode);
  const index = indexOf(rejected, position, bytes.length);
  const before = bytes.subarray(0, index);
  const begin = before.lastIndexOf(10) + 1;
  const others = bytes.subarray(begin + 1, index + 1); // of the line, up to the byte
  assert.strictEqual(fault.code, codes.get(rejected.toUpperCase()));
  assert.strictEqual(fault.reason, reason);
  assert.strictEqual(fault.offset, index);
  assert.strictEqual(fault.line, 1 + before.filter((byte) => byte === 10).length);
  assert.strictEqual(fault.column, 1 + charactersIn(others) + (index === bytes.length && index > begin ? 1 : 0));
  assert.strictEqual(fault.message, `line ${fault.line}, column ${fault.column}: ${fault.reason}`);
  return fault;
}

function checkAccepted(bytes, mode, written) {
  const key = v.sortKey(bytes, mode);
  assert.strictEqual(v.check(bytes, mode), undefined);
  assert.strictEqual(v.valid(bytes, mode), true);
  assert.strictEqual(v.text(bytes, mode), written);
  assert.deepStrictEqual(v.sortKey(written), key);
  assert.deepStrictEqual(v.Key.parse(bytes, mode).bytes, key);
  assert.deepStrictEqual(v.Key.fromBytes(key).bytes, key);
  assert.strictEqual(v.Document.parse(bytes, mode).toString(), written);
  assert.deepStrictEqual(v.document(bytes, mode), v.Document.parse(written).bytes);
  assert.deepStrictEqual(v.Key.of(v.parse(bytes, mode)).bytes, key);
  assert.strictEqual(v.stringify(v.parse(bytes, mode)), written);
}

/** A string of the bytes, where they are UTF-8. */
function stringOf(bytes) {
  try {
    return new TextDecoder('utf-8', { fatal: true, ignoreBOM: true }).decode(bytes);
  } catch {
    return undefined;
  }
}

test('the texts of tests/vectors.jsonl have their results', () => {
  const documents = [];
  let [accepted, rejected, strings] = [0, 0, 0];
  for (const row of rowsOf('vectors.jsonl')) {
    const bytes = row.input;
    const string = stringOf(bytes);
    for (const mode of ['standard', 'extended']) {
      const answer = row[mode];
      if (answer.text !== undefined) {
        const written = Buffer.from(answer.text, 'hex').toString();
        checkAccepted(bytes, mode, written);
        if (mode === 'extended') checkAccepted(bytes, 'extended_json', written);
        if (string !== undefined) assert.strictEqual(v.text(string, mode), written);
        documents.push(bytes);
        accepted++;
      } else {
        const fault = checkRejected(bytes, mode, answer);
        rejected++;
        if (string === undefined) continue;
        const { offset, ...ofString } = throws(() => v.check(string, mode), v.ParseError, fault.message);
        const from = Buffer.byteLength(string.slice(0, offset));
        const size = Buffer.byteLength(String.fromCodePoint(string.codePointAt(offset) ?? 0));
        assert.ok(from <= fault.offset && fault.offset < from + size, string);
        assert.deepStrictEqual({ ...ofString, offset: fault.offset }, { ...fault });
        strings++;
      }
    }
  }
  assert.ok(accepted > 1000 && rejected > 1000 && strings > 1000, `${accepted}, ${rejected}, ${strings}`);
  for (let i = 1; i < documents.length; i++) {
    const [left, right] = [documents[i - 1], documents[i]];
    assert.strictEqual(v.compare(left, right), Buffer.compare(v.sortKey(left), v.sortKey(right)));
  }
});

test('the cases of JSONTestSuite have their results', () => {
  for (const { name, input: bytes, ...answers } of rowsOf('json_test_suite.jsonl')) {
    for (const mode of ['standard', 'extended']) {
      if (answers[mode] === 'accepted') assert.strictEqual(v.valid(bytes, mode), true, name);
      else assert.strictEqual(faultOf(bytes, mode).code, codes.get(answers[mode].toUpperCase()), name);
    }
    const isJSON = { y: true, n: false }[name[0]]; // the rest may be either
    if (isJSON === false) assert.strictEqual(v.valid(bytes, 'json'), false, name);
  }
});

test('the mode json takes what JSON.parse takes, but for what README names', () => {
  const inputs = [...rowsOf('vectors.jsonl'), ...rowsOf('json_test_suite.jsonl')].map((row) => row.input);
  const others = ['NUMBERNOTCARRIED', 'OBJECTDUPLICATEKEY', 'DEPTHLIMITEXCEEDED'].map((name) => codes.get(name));
  let [taken, rejected, other] = [0, 0, 0];
  for (const input of inputs) {
    const text = stringOf(input);
    if (text === undefined) continue;
    const withoutSign = (text) => JSON.parse(text, (name, value) => (value === 0 ? 0 : value));
    let value;
    try {
      value = withoutSign(text);
    } catch {
      assert.strictEqual(v.valid(text, 'json'), false, text);
      rejected++;
      continue;
    }
    if (v.valid(text, 'json')) {
      const isPaired = !/\\u[dD][89a-fA-F]/.test(text); // a lone surrogate stays an escape
      if (isPaired) assert.deepStrictEqual(withoutSign(v.text(text, 'json')), value);
      assert.strictEqual(v.text(text), v.text(text, 'json'));
      taken++;
    } else {
      assert.ok(others.includes(faultOf(text, 'json').code), text);
      other++;
    }
  }
  assert.ok(taken > 200 && rejected > 1000 && other > 20, `${taken}, ${rejected}, ${other}`);
});

test('each mode takes its texts', () => {
  const taken = [
    ['[1,2]', MODES],
    ['1.5', ['extended', 'json', 'extended_json']],
    ['1e5', ['json', 'extended_json']],
    ['+1e5', ['extended_json']],
    ['.5e3', ['extended_json']],
    ['1\f', ['standard', 'extended', 'extended_json']],
    ['"\t"', ['standard', 'extended', 'extended_json']],
    ['"\\u{0041}"', ['standard', 'extended', 'extended_json']],
    ...['[1,]', '{a:1}', '', '// c\n1', '0x1', "'a'"].map((text) => [text, ['extended', 'extended_json']]),
    ...['1e39', '{"a":1,"a":2}', '[1', '\ufeff1'].map((text) => [text, []]),
  ];
  for (const [text, modes] of taken) {
    assert.deepStrictEqual(MODES.filter((mode) => v.valid(text, mode)), modes, text);
    assert.strictEqual(v.valid(text), modes.includes('extended_json'));
    assert.strictEqual(v.valid(Buffer.from(text)), modes.includes('extended_json'));
  }
  assert.deepStrictEqual([v.STANDARD, v.EXTENDED, v.JSON, v.EXTENDED_JSON], MODES);
});

test('a text is written in one form', () => {
  const rows = [
    ['{b: 0x1F, /* x */ a: [, +.5]} // end', '{"a":[null,0.5],"b":31}'],
    ['"a\u0000b"', '"a\\u0000b"'],
    [`"${'\u0001'.repeat(5000)}"`, `"${'\\u0001'.repeat(5000)}"`],
    ['"é𝄞\ufffd"', '"é𝄞\ufffd"'],
    [`{${'é'.repeat(700)}: 1.50}`, `{"${'é'.repeat(700)}":1.50}`],
    [',', undefined],
    [`[${','.repeat(3000)}]`, `[${Array(3001).fill('null')}]`],
    ['', 'null'],
    ['\u00e9: 1', undefined],
  ];
  for (const [text, written] of rows) {
    for (const one of [text, Buffer.from(text), new Uint8Array(Buffer.from(`x${text}`)).subarray(1)]) {
      if (written === undefined) throws(() => v.text(one), v.ParseError);
      else checkAccepted(one, 'extended_json', written);
    }
  }
});

test('strings of each length around the buffers are read whole', () => {
  for (const letter of ['x', 'é', '\ufffd', '𝄞']) {
    for (const bytes of [600, 1024, 2040, 2048, 2056, 4096, 8192]) {
      for (let more = -9; more <= 9; more++) {
        const text = `"${letter.repeat(Math.floor((bytes + more) / Buffer.byteLength(letter)))}${'y'.repeat(more & 3)}"`;
        assert.strictEqual(v.text(text), text);
        assert.strictEqual(v.Key.parse(text).toString(), text);
        assert.strictEqual(v.Key.of({ [text]: 1 }).keys().next().value, text);
      }
    }
  }
});

test('numbers with exponents have their exact value', () => {
  const ten = `1${'0'.repeat(37)}`;
  const rows = [
    ['1e5', '100000'],
    ['1E+2', '100'],
    ['1.5e-7', '0.00000015'],
    ['-2.50e1', '-25.0'],
    ['0e999', '0'],
    ['-0e5', '0'],
    ['1e37', ten],
    ['1e-38', `0.${'0'.repeat(37)}1`],
    ['[1e2,\n{"1e2": "1e2 \\" 1e2"}, 1.50]', '[100,{"1e2":"1e2 \\" 1e2"},1.50]'],
    ["[1e2] // 1e2 'and' /* more", '[100]'],
    [`[${'1e37,'.repeat(1000)}0]`, `[${`${ten},`.repeat(1000)}0]`],
  ];
  for (const [text, written] of rows) {
    checkAccepted(text, 'extended_json', written);
    assert.strictEqual(v.part(text, ''), written);
    assert.deepStrictEqual([v.compare(text, written), v.compare(written, text), v.compare(text, text)], [0, 0, 0]);
  }
  assert.strictEqual(v.part("{\"a\": [6.02e23, 'b']}", '/a/0'), '602000000000000000000000');
  for (const text of ['1e5', '[1E+2]', '{"a":1.5e-7}']) {
    for (const mode of ['standard', 'extended']) assert.strictEqual(faultOf(text, mode).reason, 'number not carried');
  }
});

test('what is rejected is told with line and column', () => {
  const digits = '9'.repeat(39);
  const rows = [
    ['json', '[1e5, +1e5]', 'line 1, column 7: expected value'],
    ['json', '[1e5, .5]', 'line 1, column 7: expected value'],
    ['json', '[01]', 'line 1, column 3: invalid number'],
    ['json', '[1e5,\n\f1]', 'line 2, column 1: expected value'],
    ['json', '["\t"]', 'line 1, column 3: control character (\\u0000-\\u001F) found while parsing a string'],
    ['json', '{a: 1}', 'line 1, column 2: expected a name in quotes, or `true`, `false` or `null`'],
    ['json', '[1e39]', 'line 1, column 5: number not carried'],
    ['extended_json', '1e38', 'line 1, column 4: number not carried'],
    ['extended_json', '1e-39', 'line 1, column 5: number not carried'],
    ['extended_json', '[1e2,\n 1e300, x]', 'line 2, column 6: number not carried'],
    ['extended_json', digits, 'line 1, column 39: number not carried'],
    ['extended_json', `[1e5,${digits}]`, 'line 1, column 44: number not carried'],
    ['extended_json', '[1e5, +1e39]', 'line 1, column 11: number not carried'],
    ['standard', '{\n  "a": 1,\n  "b": [2.5]\n}', 'line 3, column 11: number not carried'],
    ['standard', '{\n  "port": 8080,\n  "port": 8081\n}', 'line 3, column 8: duplicate object attribute "port"'],
    ['standard', '[1,\n2 3]', 'line 2, column 3: expected `,` or `]`'],
    ['standard', '', 'line 1, column 1: EOF while parsing a value'],
    ['json', '', 'line 1, column 1: EOF while parsing a value'],
    ['extended', '{"a, pos 26":1,"a, pos 26":2}', 'line 1, column 26: duplicate object attribute "a, pos 26"'],
  ];
  for (const [mode, text, words] of rows) {
    const fault = faultOf(text, mode);
    assert.strictEqual(fault.message, words);
    assert.strictEqual(String(fault), `ParseError: ${words}`);
    assert.ok(fault instanceof SyntaxError && fault.stack.startsWith(`ParseError: ${words}\n`));
  }
  const long = 'k'.repeat(100_000);
  assert.strictEqual(faultOf(`{"${long}":1,"${long}":2}`).reason, `duplicate object attribute "${long}"`);
});

test('an error has its code and its offset', () => {
  const rows = [
    ['{"a":1,"a":1e1}', 'OBJECT_DUPLICATE_KEY', 9, 'line 1, column 10: duplicate object attribute "a"'],
    ['{"a":1e1,\n"a":2}', 'OBJECT_DUPLICATE_KEY', 12, 'line 2, column 3: duplicate object attribute "a"'],
    ['{"a":10e-1,"a":2}', 'OBJECT_DUPLICATE_KEY', 13, 'line 1, column 14: duplicate object attribute "a"'],
    ['[x, 1e5]', 'EXPECTED_SOME_VALUE', 1, 'line 1, column 2: expected value'],
    ['[1e5, 1E-7,\n1e+30, x]', 'EXPECTED_SOME_VALUE', 19, 'line 2, column 8: expected value'],
    ['[1e0,100e-2,"1e5",x]', 'EXPECTED_SOME_VALUE', 18, 'line 1, column 19: expected value'],
    ['[1e5', 'INVALID_EOF', 4, 'line 1, column 5: EOF while parsing a value'],
    ['[1e5\n, ', 'INVALID_EOF', 7, 'line 2, column 3: EOF while parsing a value'],
    ['[1e0,"', 'INVALID_EOF', 6, 'line 1, column 7: EOF while parsing a value'],
    ['[1e5 -0e5]', 'EXPECTED_ARRAY_COMMA_OR_END', 5, 'line 1, column 6: expected `,` or `]`'],
    ['[1e5,\n"a" 0.5e1]', 'EXPECTED_ARRAY_COMMA_OR_END', 10, 'line 2, column 5: expected `,` or `]`'],
  ];
  for (const [text, code, offset, words] of rows) {
    const fault = faultOf(text);
    assert.deepStrictEqual([fault.code, fault.offset, fault.message], [codes.get(code.replaceAll('_', '')), offset, words]);
  }
});

test('an error has the path of the innermost part with the fault', () => {
  const deep = `${'{"a~/é": [0, '.repeat(200)}x${']}'.repeat(200)}`;
  const rows = [
    ['1e300', ''],
    ['[1e5, 1e-40, 2]', '/1'],
    ['{"a": {"b/c~d": [1e2, 1e300]}}', '/a/b~1c~0d/1'],
    ['{"a":1e5,"\\u00e9\\n":[0,{"a":2}],\'b\':1e99}', '/b'],
    ['{"a":1e1,"b":{"x":1,"x":1e300}}', '/b/x'],
    ['[[1],[2,[3,nul]]]', '/1/1/1'],
    ['[1e5 2]', '/0'],
    ['{"a":1e5 "b":2}', '/a'],
    ['{"a":{"b":1},}', ''],
    ['{"a":{"b" 1}}', '/a/b'],
    ['[0,[1,', '/1/1'],
    ['[0,[1e5', '/1/0'],
    ['[0,{"k":"x', '/1/k'],
    ['[1e5]]', ''],
    [deep, '/a~0~1é/1'.repeat(200)],
  ];
  for (const [text, found] of rows) {
    assert.strictEqual(faultOf(text).path, found, text);
    assert.strictEqual(faultOf(Buffer.from(text)).path, found, text);
  }
  assert.strictEqual(faultOf('{"a":[true,1e5]}', 'standard').path, '/a/1');
});

test('offset and column count what a user counts', () => {
  const text = '{"é": "𝄞",\n "é𝄞é": x}';
  const fault = faultOf(text);
  assert.deepStrictEqual([fault.line, fault.column, fault.offset, text[fault.offset]], [2, 9, text.indexOf('x'), 'x']);
  const bytes = Buffer.from(text);
  const ofBytes = faultOf(bytes);
  assert.deepStrictEqual([ofBytes.line, ofBytes.column, ofBytes.offset], [2, 9, bytes.indexOf('x')]);
  for (const [one, column, offset] of [['["é', 4, 3], ['["𝄞', 4, 4], ['{é: 1, é: 2}', 8, 7], ['{𝄞: 1, 𝄞: 2}', 8, 8]]) {
    const found = faultOf(one);
    assert.deepStrictEqual([found.column, found.offset], [column, offset], one);
  }
});

test('what is wrong behind a number with an exponent has its place', () => {
  const long = '1'.repeat(39);
  const rows = [
    ['[%s, x]', 'x', '/1', 5],
    ['{"é𝄞": %s, "b": [%s,\n%s, "é", x]}', 'x', '/b/3', 5],
    ['[%s\n x]', 'x', '/0', 7],
    ['{"a": %s, "b": {"~/": "\\x"}}', 'x', '/b/~0~1', 12],
    [`[[%s, ${long}], 1]`, long, '/0/1', 20],
    ['%s x', 'x', '', 9],
  ];
  for (const number of ['1e5', '1.50e-7', '-6.02E+23', '0e0']) {
    for (const [front, at, found, code] of rows) {
      const text = front.replaceAll('%s', number);
      const offset = text.indexOf(at) + at.length - 1;
      const before = text.slice(text.lastIndexOf('\n', offset) + 1, offset);
      const fault = faultOf(text);
      assert.deepStrictEqual(
        [fault.offset, fault.line, fault.column, fault.code, fault.path],
        [offset, text.slice(0, offset).split('\n').length, [...before].length + 1, code, found]
      );
    }
  }
});

test('random numbers with exponents are exact, or not carried', () => {
  const draw = drawing(1);
  let [taken, rejected] = [0, 0];
  for (let i = 0; i < 3000; i++) {
    const [whole, behind, power] = [draw(2000) - 1000, draw(1e6), draw(90) - 45];
    const text = `${whole}.${behind}e${power}`;
    // The value is these digits times 10 to the power of -scale.
    let [digits, scale] = [BigInt(`${whole}${behind}`), String(behind).length - power];
    while (scale < 0) [digits, scale] = [digits * 10n, scale + 1];
    const count = String(digits < 0n ? -digits : digits).length;
    if (scale > 38 || count > 38) {
      rejected++;
      const fault = faultOf(`[1e5, ${text}]`);
      assert.deepStrictEqual([fault.offset, fault.reason, fault.path], [5 + text.length, 'number not carried', '/1']);
      continue;
    }
    taken++;
    assert.strictEqual(v.text(text), textOf({ digits, scale }, true), text);
    assert.strictEqual(v.Key.parse(text).toString(), textOf({ digits, scale }, false), text);
    assert.strictEqual(faultOf(`[${text}, ${text} x`).offset, 2 * text.length + 4);
  }
  assert.ok(taken > 600 && rejected > 600, `${taken} taken, ${rejected} rejected`);
});

test('two texts are compared by value', () => {
  IN_ORDER.forEach((left, i) =>
    IN_ORDER.forEach((right, j) => {
      for (const one of left) assert.strictEqual(v.compare(one, right[right.length - 1]), sign(i - j), `${one}, ${right}`);
    })
  );
  assert.strictEqual(v.compare(Buffer.from('9.5'), '10'), -1);
  const fault = throws(() => v.compare('1', '[1,\n x'), v.ParseError, 'second text, line 2, column 2: expected value');
  assert.deepStrictEqual([fault.which, fault.reason, fault.path], [2, 'expected value', '/1']);
});

test('random documents are in the order of a reference, and written as it writes them', () => {
  const draw = drawing(2);
  const documents = Array.from({ length: 400 }, () => drawn(draw, 3));
  const texts = documents.map((value) => textOf(value, true));
  const spread = texts.map((text) => text.replace(/"(?:[^"\\]|\\.)*"|[,:]/g, (one) => (one.length > 1 ? one : `${one} `)));
  const orders = [0, 0, 0];
  documents.forEach((value, i) => {
    assert.strictEqual(v.text(spread[i], 'json'), texts[i]);
    assert.strictEqual(v.Key.parse(texts[i]).toString(), textOf(value, false));
    for (let j = 0; j < documents.length; j += 7) {
      const order = compareValues(value, documents[j]);
      assert.strictEqual(v.compare(texts[i], spread[j]), order);
      orders[order + 1]++;
    }
  });
  assert.ok(Math.min(...orders) > 50, orders.join());
});

test('a part of a text is found by its path', () => {
  const text = `{"a": [0, {"b/c": [true, 0x10], "~": 1}], "": {"": 2}, "é": 1.50, "long": "${'x'.repeat(5000)}"}`;
  const rows = [
    ['/a/1/b~1c', '[true,16]'],
    ['/a/1/~0', '1'],
    ['//', '2'],
    ['', v.text(text)],
    ['/long', `"${'x'.repeat(5000)}"`],
    ['/é', '1.50'],
  ];
  for (const [found, written] of rows) {
    assert.strictEqual(v.part(text, found), written);
    assert.strictEqual(v.part(Buffer.from(text), found), written);
  }
  for (const none of ['/a/2', '/a/-', '/a/-1', '/b', '/a/01', '/a/0/0']) assert.strictEqual(v.part(text, none), undefined);
  const words = 'the path is no JSON Pointer (RFC 6901): it is empty or begins with /, and ~ occurs only in ~0 and ~1';
  for (const wrong of ['a', '/~', '/a~2']) throws(() => v.part(text, wrong), SyntaxError, words);
  throws(() => v.part('[1', '/0', 'json'), v.ParseError, 'line 1, column 3: EOF while parsing a value');
  throws(() => v.part('[1.5]', '/0', 'standard'), v.ParseError, 'line 1, column 4: number not carried');
});

test('a path is made of names and indices', () => {
  assert.strictEqual(v.pointer(), '');
  assert.strictEqual(v.pointer('a/b', 0, '', '~é', -1), '/a~1b/0//~0é/-1');
  const draw = drawing(3);
  for (let i = 0; i < 200; i++) {
    const name = textOf(drawn(draw, 2), true);
    assert.ok(v.Key.of({ [name]: [i] }).get(v.pointer(name, 0)).equals(v.Key.of(i)));
  }
});
