import { Decimal, Document, EXTENDED_JSON, JSON as JSON_MODE, Key, ParseError } from 'vizhoniku';
import type { Kind, Mode, Order, Text, Value } from 'vizhoniku';
import * as v from 'vizhoniku';

const texts: Text[] = ['[1]', new Uint8Array(2)];
const modes: Mode[] = [v.STANDARD, v.EXTENDED, JSON_MODE, EXTENDED_JSON, 'json'];
const order: Order = v.compare(texts[0], '[1.0]', modes[0]);
const bytes: Uint8Array = v.sortKey(texts[1]);
const kept: Buffer = v.document('1.50', 'json');
const part: string | undefined = v.part('[1]', v.pointer('a', 0));

const key: Key = Key.parse('{"a": [1.50]}', v.JSON).set('/a/0', 1n).merge({ b: new Decimal('1.5') });
const inner: Key | undefined = key.get('/a');
const kind: Kind | 'none' = key.kind;
const names: string[] = [...key.keys()];
const pairs: [string, Key][] = [...key.entries()];
const total: number = (key.length ?? 0) + names.length + pairs.length + order + bytes.length + kept.length;
const ids: Map<string, Key> = new Map([[key.id, key]]);
const document: Document = Document.of(key).put('c', [null]).remove('/a');
const value: Value = document.key.value();

function numberIn(one: Value): number {
  if (one instanceof Decimal) return Number(one);
  if (Array.isArray(one)) return one.map(numberIn).length;
  if (typeof one === 'bigint' || typeof one === 'number') return Number(one);
  return one === null || typeof one === 'string' || typeof one === 'boolean' ? 0 : Object.keys(one).length;
}

try {
  v.check('[');
} catch (error) {
  if (error instanceof ParseError) {
    const told: [number, number, number, number, string, string] = [
      error.code, error.offset, error.line, error.column, error.path, error.message + error.reason + error.name,
    ];
    console.log(told, error.which === 2);
  }
}

// @ts-expect-error: a mode has one of four names
v.check('1', 'JSON');
// @ts-expect-error: a text is no number
v.check(1);
// @ts-expect-error: a key is made by parse, of or fromBytes
new Key();
// @ts-expect-error: a key is compared with a key
key.compare(document);
// @ts-expect-error: a decimal is made of a text
new Decimal(1.5);
// @ts-expect-error: bytes are no array
Key.fromBytes([1]);
// @ts-expect-error: a part may be missing
key.get('/a').value();

export { document, ids, inner, kind, numberIn, part, total, value };
