#!/usr/bin/env node
'use strict';

/**
 * Documents by value in a file of JSON Lines, one for each value.
 *
 *     node store.js FILE put TEXT ...
 *     node store.js FILE get TEXT
 *     node store.js FILE range LOW HIGH
 */

const fs = require('fs');
const { Document, Key } = require('..');

class Store {
  constructor(file) {
    this.file = file;
    const lines = fs.existsSync(file) ? fs.readFileSync(file, 'utf8').split('\n').filter(Boolean) : [];
    const documents = lines.map((line) => Document.parse(line));
    this.documents = new Map(documents.map((document) => [document.key.id, document]));
    this.ids = [...this.documents.keys()].sort();
  }

  /** How many ids are below one. */
  rank(id) {
    let [from, to] = [0, this.ids.length];
    while (from < to) {
      const middle = (from + to) >> 1;
      if (this.ids[middle] < id) from = middle + 1;
      else to = middle;
    }
    return from;
  }

  /** Keeps the document, unless there is one of an equal value. Returns whether it is new. */
  put(text) {
    const document = Document.parse(text);
    const { id } = document.key;
    if (this.documents.has(id)) return false;
    fs.appendFileSync(this.file, `${document}\n`);
    this.documents.set(id, document);
    this.ids.splice(this.rank(id), 0, id);
    return true;
  }

  /** The document of an equal value, or undefined. */
  get(text) {
    return this.documents.get(Key.parse(text).id);
  }

  /** The documents from a value on, up to and without another one, in order. */
  *range(low, high) {
    const [from, to] = [low, high].map((text) => this.rank(Key.parse(text).id));
    for (const id of this.ids.slice(from, to)) yield this.documents.get(id);
  }
}

function main([file, command, ...texts]) {
  const store = new Store(file);
  if (command === 'put') for (const text of texts) console.log(store.put(text) ? 'new' : 'there already');
  else if (command === 'get') console.log(String(store.get(texts[0]) ?? 'nothing'));
  else if (command === 'range') for (const document of store.range(texts[0], texts[1])) console.log(String(document));
  else throw new Error('put, get or range');
}

if (require.main === module) main(process.argv.slice(2));

module.exports = { Store };
