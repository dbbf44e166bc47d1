'use strict';

/** README.md, the example, the types, and the package. */

const assert = require('assert');
const { spawnSync } = require('child_process');
const fs = require('fs');
const os = require('os');
const path = require('path');
const test = require('node:test');
const v = require('..');
const { TOP } = require('./helpers.js');

const FOLDER = path.join(__dirname, '..');

const read = (file) => fs.readFileSync(path.join(FOLDER, file), 'utf8');

/** A folder in which the package is installed, and which goes when the test ends. */
function installed(t) {
  const folder = fs.mkdtempSync(path.join(os.tmpdir(), 'vizhoniku-'));
  t.after(() => fs.rmSync(folder, { recursive: true }));
  fs.mkdirSync(path.join(folder, 'node_modules'));
  fs.symlinkSync(FOLDER, path.join(folder, 'node_modules/vizhoniku'));
  return folder;
}

function run(command, words, folder, input) {
  const env = { ...process.env, NODE_TEST_CONTEXT: undefined };
  const { status, stdout, stderr } = spawnSync(command, words, { cwd: folder, encoding: 'utf8', env, input });
  return { status, stdout, stderr };
}

/** The blocks of README.md in a language. */
function blocksOf(language) {
  const blocks = [...read('README.md').matchAll(/^```(\w+)\n([^]*?)^```$/gm)];
  return blocks.filter(([, name]) => name === language).map(([, , block]) => block);
}

test('the first program of README.md prints what is written', (t) => {
  const folder = installed(t);
  const [program] = blocksOf('js');
  const [typed] = blocksOf('sh');
  assert.ok(program.split('\n').length <= 30);
  fs.writeFileSync(path.join(folder, 'dedupe.js'), program);
  const comments = [...typed.matchAll(/^# (.*)$/gm)].map(([, line]) => line);
  const { status, stdout, stderr } = run('bash', ['-c', typed], folder);
  assert.deepStrictEqual([status, ...stderr.trim().split('\n'), ...stdout.trim().split('\n')], [0, ...comments]);
});

test('the other programs of README.md print what is behind their lines', (t) => {
  const folder = installed(t);
  const programs = blocksOf('js').slice(1);
  for (const program of programs) {
    const printed = [...program.matchAll(/^ *console\.log\(.*\); \/\/ (.*)$/gm)].map(([, line]) => line);
    fs.writeFileSync(path.join(folder, 'program.js'), program);
    const { status, stdout, stderr } = run(process.execPath, ['program.js'], folder);
    assert.deepStrictEqual([status, stderr, stdout.trimEnd().split('\n')], [0, '', printed]);
    assert.strictEqual(printed.length, program.split('console.log(').length - 1);
  }
  assert.ok(programs.length >= 5);
});

test('the store keeps documents by value', (t) => {
  const folder = installed(t);
  const file = path.join(folder, 'documents.jsonl');
  const store = (...words) => {
    const { status, stdout, stderr } = run(process.execPath, [path.join(FOLDER, 'examples/store.js'), file, ...words], folder);
    assert.deepStrictEqual([status, stderr], [0, '']);
    return stdout.trimEnd().split('\n');
  };
  const put = store('put', '[2]', '{"a": 1, "b": 2.50}', '"x"', '{b: 2.5, a: 1}', '10', '9.5');
  assert.deepStrictEqual(put, ['new', 'new', 'new', 'there already', 'new', 'new']);
  assert.deepStrictEqual(store('put', '10.0', '-5'), ['there already', 'new']);
  assert.deepStrictEqual(store('get', '{b: 25e-1, a: 0x1}'), ['{"a":1,"b":2.50}']);
  assert.deepStrictEqual(store('get', '[3]'), ['nothing']);
  assert.deepStrictEqual(store('range', '9', '{}'), ['9.5', '10', '"x"']);
  assert.deepStrictEqual(store('range', 'false', 'null'), ['-5', '9.5', '10', '"x"', '{"a":1,"b":2.50}', '[2]']);
  assert.strictEqual(fs.readFileSync(file, 'utf8').split('\n').length, 7);
  const { Store } = require('../examples/store.js');
  const many = new Store(path.join(folder, 'many.jsonl'));
  for (let i = 0; i < 500; i++) many.put(`{"n": ${(i * 37) % 101}}`);
  const numbers = Array.from(many.range('{"n": 10}', '{"n": 20}'), (document) => document.value().n);
  assert.deepStrictEqual(numbers, [10, 11, 12, 13, 14, 15, 16, 17, 18, 19]);
});

test('the package can be imported', (t) => {
  const folder = installed(t);
  const program = `
    import v, { JSON as mode, Key, ${Object.keys(v).filter((name) => !['JSON', 'Key'].includes(name)).join(', ')} } from 'vizhoniku';
    console.log(mode, v.Key === Key, String(Key.parse('[1.50]', mode)), text('[ ]'), new Decimal('1.50') + 1);`;
  fs.writeFileSync(path.join(folder, 'program.mjs'), program);
  const { stdout, stderr } = run(process.execPath, ['program.mjs'], folder);
  assert.deepStrictEqual([stdout, stderr], ['json true [1.5] [] 2.5\n', '']);
});

test('the package has the version of the library', () => {
  const header = fs.readFileSync(path.join(TOP, 'include/vizhoniku.h'), 'utf8');
  const { version, files } = JSON.parse(read('package.json'));
  assert.strictEqual(version, /#define VIZHONIKU_VERSION_STRING "(.*)"/.exec(header)[1]);
  for (const file of files) assert.ok(fs.existsSync(path.join(FOLDER, file)), file);
});

/** The names of what a class has, its own and those of what it extends, but what objects have. */
function namesOf(prototype) {
  const names = [];
  for (let each = prototype; each !== Object.prototype && each !== SyntaxError.prototype; each = Object.getPrototypeOf(each)) {
    names.push(...Object.getOwnPropertyNames(each));
  }
  return new Set(names.filter((name) => name !== 'constructor'));
}

test('index.d.ts names what there is, each with a comment', () => {
  const types = read('index.d.ts');
  const names = [...types.matchAll(/^export (?:const|function|class) (\w+)/gm)].map(([, name]) => name);
  assert.deepStrictEqual(names.sort(), Object.keys(v).sort());
  const pattern = /^(?:export|declare abstract) class (\w+)(?: extends (\w+))? \{\n([^]*?)^\}$/gm;
  const classes = new Map([...types.matchAll(pattern)].map(([, name, base, body]) => [name, { base, body }]));
  const membersIn = (body) => [...body.matchAll(/^ {2}(static )?(?:readonly )?(?!constructor)(\w+)[(:]/gm)];
  const fields = {
    Key: ['bytes'],
    Document: ['bytes'],
    Decimal: ['text'],
    ParseError: ['code', 'offset', 'line', 'column', 'path', 'reason', 'which'],
  };
  for (const name of Object.keys(fields)) {
    const { base, body } = classes.get(name);
    const members = membersIn(body + (classes.get(base)?.body ?? ''));
    const named = (isStatic) => members.filter(([, found]) => Boolean(found) === isStatic).map(([, , member]) => member);
    const there = new Set([...namesOf(v[name].prototype), ...fields[name]]);
    if (name === 'Key') there.delete('key'); // the key itself
    assert.deepStrictEqual(named(false).sort(), [...there].sort(), name);
    if (base !== 'Stored') continue;
    const statics = [v[name], Object.getPrototypeOf(v[name])].flatMap((one) => Object.getOwnPropertyNames(one));
    const calls = statics.filter((one) => !['length', 'name', 'prototype'].includes(one));
    assert.deepStrictEqual(named(true).sort(), calls.sort(), name);
  }
  const described = /^(?:export (?!\{)|declare abstract class| {2}(?!private|\*|\/)\S)/;
  types.split('\n').forEach((line, i, lines) => {
    const isName = line === "  readonly name: 'ParseError';";
    if (described.test(line) && !isName) assert.ok(lines[i - 1].endsWith('*/'), line);
  });
});

test('a program over the types compiles', (t) => {
  const folder = installed(t);
  if (spawnSync('tsc', ['--version']).error) return t.skip('node-typescript is missing');
  fs.mkdirSync(path.join(folder, 'node_modules/@types/node'), { recursive: true });
  const types = path.join(folder, 'node_modules/@types/node/index.d.ts');
  fs.writeFileSync(types, 'declare class Buffer extends Uint8Array {}\n');
  fs.copyFileSync(path.join(FOLDER, 'tests/types.ts'), path.join(folder, 'types.ts'));
  const modules = ['--module', 'node16', '--moduleResolution', 'node16', '--preserveSymlinks'];
  const words = ['--strict', '--noEmit', '--target', 'es2022', ...modules, 'types.ts'];
  assert.deepStrictEqual(run('tsc', words, folder), { status: 0, stdout: '', stderr: '' });
});
