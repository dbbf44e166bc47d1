'use strict';

/** JSON documents by value, over the library libvizhoniku. index.d.ts describes each call. */

const calls = require('./lib/calls.js');
const { Document, Key } = require('./lib/keys.js');
const { Decimal, parse, stringify } = require('./lib/values.js');

const { STANDARD, EXTENDED, JSON, EXTENDED_JSON, ParseError } = calls;
const { check, compare, document, part, pointer, sortKey, text, valid } = calls;

module.exports = {
  STANDARD,
  EXTENDED,
  JSON,
  EXTENDED_JSON,
  Decimal,
  Document,
  Key,
  ParseError,
  check,
  compare,
  document,
  parse,
  part,
  pointer,
  sortKey,
  stringify,
  text,
  valid,
};
