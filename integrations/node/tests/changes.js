'use strict';

/** What the calls that change a value do, done to values of JavaScript, as the header says it. */

const { Decimal } = require('..');

const isNumber = (value) => typeof value === 'number' || value instanceof Decimal;

const isObject = (value) => typeof value === 'object' && value !== null && !Array.isArray(value) && !isNumber(value);

const stepsOf = (path) => path.split('/').slice(1).map((step) => step.replaceAll('~1', '/').replaceAll('~0', '~'));

/** The index that a step is, from the front, which may lie outside of the array; or undefined. */
function indexOf(step, length) {
  if (!/^-?(?:0|[1-9][0-9]*)$/.test(step)) return undefined;
  return step.startsWith('-') ? Number(step) + length : Number(step);
}

/** The part that steps lead to, or undefined. */
function find(value, steps) {
  return steps.reduce((around, step) => {
    if (Array.isArray(around)) return around[indexOf(step, around.length) ?? -1];
    return isObject(around) && Object.hasOwn(around, step) ? around[step] : undefined;
  }, value);
}

/** A copy, in which decimals stay. */
function copyOf(value) {
  if (Array.isArray(value)) return value.map(copyOf);
  return isObject(value) ? Object.fromEntries(Object.entries(value).map(([name, one]) => [name, copyOf(one)])) : value;
}

/** The copy of a value after a function was called with what is around the last step, and that. */
function at(value, path, change) {
  const copy = copyOf(value);
  const steps = stepsOf(path);
  if (steps.length) change(find(copy, steps.slice(0, -1)), steps[steps.length - 1]);
  return copy;
}

function set(value, path, part, create) {
  return at(value, path, (around, step) => {
    if (isObject(around) && (create || Object.hasOwn(around, step))) around[step] = part;
    if (!Array.isArray(around)) return;
    const index = indexOf(step, around.length);
    if (index === undefined) return;
    if (index in around) around[index] = part;
    else if (create) around.splice(index < 0 ? 0 : around.length, 0, part);
  });
}

function remove(value, path) {
  return at(value, path, (around, step) => {
    if (isObject(around)) delete around[step];
    const index = Array.isArray(around) ? indexOf(step, around.length) : undefined;
    if (index !== undefined && index in around) around.splice(index, 1);
  });
}

function merge(left, right) {
  if (isObject(left) && isObject(right)) return { ...left, ...right };
  return [left, right].flatMap((one) => (Array.isArray(one) ? one : [one]));
}

function holds(value, other) {
  if (isObject(value) && isObject(other)) {
    return Object.keys(other).every((name) => Object.hasOwn(value, name) && holds(value[name], other[name]));
  }
  if (Array.isArray(value) && Array.isArray(other)) return other.every((part) => value.some((one) => holds(one, part)));
  return isNumber(value) && isNumber(other) ? Number(value) === Number(other) : value === other;
}

function contains(value, other) {
  const isScalar = !Array.isArray(other) && !isObject(other);
  return Array.isArray(value) && isScalar ? value.some((one) => holds(one, other)) : holds(value, other);
}

/** A random value of JavaScript, whose scalars are some of these. */
function drawnValue(draw, depth, scalars) {
  const kind = depth ? 2 + draw(4) : 0;
  const length = draw(4);
  const names = ['a', 'b', '', '/~', 'é', '1'];
  if (kind > 3) return Object.fromEntries(Array.from({ length }, () => [draw.of(names), drawnValue(draw, depth - 1, scalars)]));
  if (kind > 1) return Array.from({ length }, () => drawnValue(draw, draw(depth), scalars));
  return draw.of(scalars);
}

const STEPS = ['a', 'b', '', '~1~0', 'é', '0', '1', '-1', '-3', '7', 'x', '01'];

const drawnPath = (draw) => Array.from({ length: draw(4) }, () => `/${draw.of(STEPS)}`).join('');

module.exports = { contains, drawnPath, drawnValue, find, merge, remove, set, stepsOf };
