'use strict';

/** Sort keys and documents as classes. */

const { inspect } = require('util');
const { MORE, SHORT, bytesOfText, dataOf, failure, nameOf, native, stringOf, written } = require('./calls.js');
const { IS_JSON, TRUSTED, exactly, ofValue } = require('./values.js');

/** The names of kinds, by their numbers. */
const KINDS = ['none', 'null', 'boolean', 'number', 'string', 'array', 'object'];

/** The calls of the library over what a class has. */
const CALLS = Symbol('calls');

/** Where a call writes the range of a part. */
const range = new Float64Array(native.SLOTS);

/** The key at a range of another one. */
function partAt(key, slots) {
  const from = slots[native.OFFSET];
  return new Key(key.bytes.subarray(from, from + slots[native.SIZE]), TRUSTED);
}

/** Throws where a key or a document is of none of these kinds. */
function needKind(stored, ...kinds) {
  const { kind } = stored;
  if (!kinds.includes(kind)) throw new TypeError(`${kind} is ${kinds.map((one) => `no ${one}`).join(' and ')}`);
}

/** Each part of a key: what a function returns of its name, null of an item, and its range. */
function* partsOf(key, made) {
  const slots = new Float64Array(native.SLOTS);
  const begun = native.begin(key.bytes, slots);
  if (begun !== 0) throw failure(begun);
  for (let name = native.next(key.bytes, slots); name !== -native.NO_PART; name = native.next(key.bytes, slots)) {
    if (typeof name === 'number') throw failure(name);
    yield made(name, slots);
  }
}

/** The bytes of a value for a class: those of a key or a document, or of what it makes of another value. */
function bytesFor(Class, value) {
  if (value instanceof Stored) return Class === Key ? value.key.bytes : value.bytes;
  return ofValue(value, (text, mode) => bytesOfText(Class.prototype[CALLS].make, text, mode));
}

/**
 * What a change of a document writes of a key or a document, with so many bytes more at most, or the same where nothing
 * changes.
 */
function changed(stored, more, call) {
  const bytes = written(stored.bytes.length + more + MORE, call);
  if (bytes === -native.NO_PART) return stored;
  if (bytes === -native.NO_DOCUMENT && stored instanceof Key) throw failure(-native.NO_KEY);
  if (typeof bytes === 'number') throw failure(bytes);
  return new stored.constructor(bytes, TRUSTED);
}

/** A key or a document: bytes that don't change. */
class Stored {
  constructor(bytes, mark) {
    if (mark !== TRUSTED) throw new TypeError(`a ${new.target.name} is made by parse, of or fromBytes`);
    this.bytes = bytes;
  }

  static parse(text, mode) {
    return new this(bytesOfText(this.prototype[CALLS].make, text, mode), TRUSTED);
  }

  static of(value) {
    return value instanceof this ? value : new this(bytesFor(this, value), TRUSTED);
  }

  static fromBytes(data) {
    const made = this.fromTrustedBytes(data);
    const status = made[CALLS].check(made.bytes);
    if (status !== 0) throw failure(-status);
    return made;
  }

  static fromTrustedBytes(data) {
    const what = `the bytes of a ${this.name} are a Uint8Array`;
    return new this(Buffer.from(dataOf(data, what)), TRUSTED);
  }

  get id() {
    return this.bytes.toString('latin1');
  }

  get kind() {
    return KINDS[native.kind(this.bytes)];
  }

  has(path) {
    const returned = native.keyPart(this.key.bytes, stringOf(path, 'a path'), range);
    if (returned !== 0 && returned !== -native.NO_PART) throw failure(returned);
    return returned === 0;
  }

  contains(other) {
    const returned = native.contains(this.key.bytes, bytesFor(Key, other));
    if (returned !== 0 && returned !== -native.NO_PART) throw failure(returned);
    return returned === 0;
  }

  compare(other) {
    if (!(other instanceof this.constructor)) {
      throw new TypeError(`a ${this.constructor.name} is compared with one, not with ${nameOf(other)}`);
    }
    return Buffer.compare(this.bytes, other.bytes);
  }

  equals(other) {
    return other instanceof this.constructor && this.bytes.equals(other.bytes);
  }

  set(path, value, create = true) {
    const part = bytesFor(this.constructor, value);
    stringOf(path, 'a path');
    return changed(this, 3 * path.length + part.length, (to, from) =>
      native.documentSet(this.bytes, path, part, create, to, from)
    );
  }

  remove(path) {
    stringOf(path, 'a path');
    return changed(this, 0, (to, from) => native.documentRemove(this.bytes, path, to, from));
  }

  put(name, value) {
    needKind(this, 'object');
    const part = bytesFor(this.constructor, value);
    stringOf(name, 'a name');
    return changed(this, 3 * name.length + part.length, (to, from) =>
      native.documentPut(this.bytes, name, part, to, from)
    );
  }

  push(item) {
    needKind(this, 'array');
    const part = bytesFor(this.constructor, item);
    return changed(this, part.length, (to, from) => native.documentPush(this.bytes, part, to, from));
  }

  merge(other) {
    const part = bytesFor(this.constructor, other);
    return changed(this, part.length, (to, from) => native.documentMerge(this.bytes, part, to, from));
  }

  value() {
    return exactly(this.toString());
  }

  toString() {
    const returned = this[CALLS].text(this.bytes);
    if (typeof returned === 'number') throw failure(returned);
    return returned;
  }

  toJSON() {
    return this.value();
  }

  [Symbol.toPrimitive](hint) {
    return hint === 'number' ? this.id : this.toString();
  }

  [inspect.custom]() {
    const { name } = this.constructor;
    const returned = this[CALLS].text(this.bytes);
    return typeof returned === 'string'
      ? `${name}(${inspect(returned)})`
      : `${name}.fromTrustedBytes(${inspect(this.bytes)})`;
  }
}
Stored.prototype[IS_JSON] = true;

class Key extends Stored {
  get key() {
    return this;
  }

  get(path) {
    const returned = native.keyPart(this.bytes, stringOf(path, 'a path'), range);
    if (returned === -native.NO_PART) return undefined;
    if (returned !== 0) throw failure(returned);
    return partAt(this, range);
  }

  get length() {
    const returned = native.count(this.bytes);
    if (returned === -native.NO_PART) return undefined;
    if (returned < 0) throw failure(returned);
    return returned;
  }

  keys() {
    needKind(this, 'object');
    return partsOf(this, (name) => name);
  }

  values() {
    needKind(this, 'array', 'object');
    return partsOf(this, (name, slots) => partAt(this, slots));
  }

  entries() {
    needKind(this, 'object');
    return partsOf(this, (name, slots) => [name, partAt(this, slots)]);
  }

  [Symbol.iterator]() {
    return this.kind === 'object' ? this.entries() : this.values();
  }
}
Key.prototype[CALLS] = { make: native.sortKey, check: native.keyCheck, text: native.keyText };

class Document extends Stored {
  get key() {
    return new Key(this.bytes.subarray(0, native.documentKey(this.bytes)), TRUSTED);
  }

  get(path) {
    stringOf(path, 'a path');
    const most = Math.min(this.bytes.length, SHORT);
    const bytes = written(most, (to, from) => native.documentPart(this.bytes, path, to, from));
    if (bytes === -native.NO_PART) return undefined;
    if (typeof bytes === 'number') throw failure(bytes);
    return new Document(bytes, TRUSTED);
  }
}
Document.prototype[CALLS] = { make: native.document, check: native.documentCheck, text: native.documentText };

module.exports = { Document, Key };
