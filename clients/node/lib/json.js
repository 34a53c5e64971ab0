"use strict";

// JSON whose integers are exact: each is a BigInt, and any other number a number.

const DEPTH_MAX = 32;
const DIGITS_MAX = 60; // no field holds this many
const SPACE = /[ \t\n\r]*/y;
const NUMBER = /-?(?:0|[1-9]\d*)(\.\d+)?([eE][+-]?\d+)?/y;
const WORDS = { true: true, false: false, null: null };

class Reader {
  #text;
  #at = 0;

  constructor(text) {
    this.#text = text;
  }

  /** The value that is all of the text. */
  all() {
    const value = this.#value(0);
    this.#skip();
    if (this.#at < this.#text.length) throw this.#fault("more follows");
    return value;
  }

  #fault(what) {
    return new SyntaxError(`${what} at character ${this.#at}`);
  }

  #skip() {
    SPACE.lastIndex = this.#at;
    this.#at += SPACE.exec(this.#text)[0].length;
  }

  /** Whether this character is next, which is then passed. */
  #passes(character) {
    this.#skip();
    if (this.#text[this.#at] !== character) return false;
    this.#at += 1;
    return true;
  }

  #expect(character) {
    if (!this.#passes(character)) throw this.#fault(`no ${character}`);
  }

  #value(depth) {
    if (depth > DEPTH_MAX) throw this.#fault("nested too deeply");
    this.#skip();
    const first = this.#text[this.#at];
    if (first === "{") return this.#object(depth);
    if (first === "[") return this.#array(depth);
    if (first === '"') return this.#string();
    for (const word of Object.keys(WORDS)) {
      if (this.#text.startsWith(word, this.#at)) {
        this.#at += word.length;
        return WORDS[word];
      }
    }
    return this.#number();
  }

  #object(depth) {
    const found = new Map();
    this.#expect("{");
    if (this.#passes("}")) return found;
    do {
      this.#skip();
      const name = this.#string();
      if (found.has(name)) throw this.#fault(`two fields ${JSON.stringify(name.slice(0, 40))}`);
      this.#expect(":");
      found.set(name, this.#value(depth + 1));
    } while (this.#passes(","));
    this.#expect("}");
    return found;
  }

  #array(depth) {
    const found = [];
    this.#expect("[");
    if (this.#passes("]")) return found;
    do found.push(this.#value(depth + 1));
    while (this.#passes(","));
    this.#expect("]");
    return found;
  }

  #string() {
    const begin = this.#at;
    if (this.#text[begin] !== '"') throw this.#fault("no string");
    let end = begin + 1;
    while (end < this.#text.length && this.#text[end] !== '"') {
      end += this.#text[end] === "\\" ? 2 : 1;
    }
    this.#at = end + 1;
    return JSON.parse(this.#text.slice(begin, end + 1));
  }

  #number() {
    NUMBER.lastIndex = this.#at;
    const found = NUMBER.exec(this.#text);
    if (found === null) throw this.#fault("no value");
    const [text, fraction, exponent] = found;
    this.#at += text.length;
    if (fraction !== undefined || exponent !== undefined) return Number(text);
    return BigInt(text.slice(0, DIGITS_MAX)); // too large is too large
  }
}

/** What a JSON text stands for: an object is a Map. Throws SyntaxError. */
function parsed(text) {
  return new Reader(text).all();
}

module.exports = { parsed };
