'use strict';

/** Makes each call, also with what is rejected and with damaged bytes: for valgrind, under which it is run. */

const v = require('..');

/** Calls each function, and goes on where one throws an error of the package. */
function attempt(...calls) {
  for (const call of calls) {
    try {
      call();
    } catch (error) {
      const isTold = [v.ParseError, SyntaxError, TypeError, RangeError].includes(error.constructor);
      if (!isTold) throw error;
    }
  }
}

function overText(text, mode) {
  attempt(
    () => v.check(text, mode),
    () => v.valid(text, mode),
    () => v.text(text, mode),
    () => v.sortKey(text, mode),
    () => v.document(text, mode),
    () => v.stringify(v.parse(text, mode)),
    () => v.compare(text, '[1]', mode),
    () => v.compare('[1]', text, mode),
    () => v.part(text, '/a/0', mode),
    () => v.part(text, 'a', mode)
  );
}

function overStored(Class, one) {
  const other = Class.of({ a: [1n, new v.Decimal('2.0')], [`~/${'y'.repeat(3000)}`]: null });
  attempt(
    () => String(one),
    () => one.value(),
    () => [one.id, one.kind, one.key.length],
    () => one.get('/a'),
    () => one.has('/b/c'),
    () => [one.contains(other), other.contains(one)],
    () => [one.compare(other), one.equals(other)],
    () => one.set('/a/0', other),
    () => one.set('/z', 'y'.repeat(3000)),
    () => one.remove('/a'),
    () => one.put('n', other),
    () => one.push(other),
    () => other.merge(one),
    () => Class.fromBytes(one.bytes),
    () => Class.fromBytes(one.bytes.subarray(1)),
    () => [...one.key],
    () => [...one.key.keys()]
  );
}

function overDamaged(Class, bytes) {
  for (let i = 0; i < Math.min(bytes.length, 50); i++) {
    const damaged = Buffer.from(bytes);
    damaged[i] ^= 0x81;
    overStored(Class, Class.fromTrustedBytes(damaged));
  }
}

const texts = [
  '{"a":[1.50,2,"x",null,true],"b":{"c":"é𝄞"}}',
  `"${'x'.repeat(5000)}"`,
  '[1e5, x]',
  '',
  '{"k":1,"k":2}',
  `{"${'n'.repeat(3000)}": `,
  Buffer.from('[1,{"b":2.0}]'),
];
for (const text of texts) {
  for (const mode of [v.STANDARD, v.EXTENDED, v.JSON, v.EXTENDED_JSON]) overText(text, mode);
  if (!v.valid(text)) continue;
  for (const Class of [v.Key, v.Document]) {
    const one = Class.parse(text);
    overStored(Class, one);
    if (one.bytes.length < 100) overDamaged(Class, one.bytes);
  }
}
console.log('each call was made');
