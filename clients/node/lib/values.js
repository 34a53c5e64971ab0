"use strict";

// The tests of what fields and arguments hold. Each fault names the field.

const { InvalidType, InvalidValue } = require("./errors.js");

const U16 = 2 ** 16 - 1;
const U32 = 2 ** 32 - 1;
const U64 = 2n ** 64n - 1n;
const U128 = 2n ** 128n - 1n;
const TIMER_MAX = 2 ** 31 - 1; // milliseconds: the system's timers take no more

function kindOf(value) {
  if (value === null) return "null";
  if (Array.isArray(value)) return "an array";
  return typeof value === "object" ? "an object" : typeof value;
}

/** A number as an error shows it: not one that fills the page. */
function shown(number) {
  if (typeof number === "bigint" && (number > U128 || number < -U128)) return "a larger number";
  for (const bits of [128n, 64n])
    if (number === 2n ** bits - 1n) return `2^${bits} - 1`;
  return String(number);
}

/** A BigInt within its range. A number is refused: it may have been rounded. */
function wide(field, value, greatest, least = 0n) {
  if (typeof value !== "bigint") {
    throw new InvalidType(field, `must be a bigint, not ${kindOf(value)}`);
  }
  if (value < least || value > greatest) {
    throw new InvalidValue(
      field,
      `must be ${shown(least)} to ${shown(greatest)}, not ${shown(value)}`,
    );
  }
  return value;
}

/** A whole number within its range, of at most 32 bits. */
function narrow(field, value, greatest, least = 0) {
  if (typeof value !== "number") {
    throw new InvalidType(field, `must be a number, not ${kindOf(value)}`);
  }
  if (!Number.isInteger(value) || value < least || value > greatest) {
    throw new InvalidValue(field, `must be a whole number, ${least} to ${greatest}, not ${value}`);
  }
  return value;
}

/** A time in milliseconds, whole or not. */
function milliseconds(field, value, least) {
  if (typeof value !== "number") {
    throw new InvalidType(field, `must be a number of milliseconds, not ${kindOf(value)}`);
  }
  if (!(value >= least && value <= TIMER_MAX)) {
    throw new InvalidValue(field, `must be ${least} to ${TIMER_MAX} milliseconds, not ${value}`);
  }
  return value;
}

/** An array, of at most this many items. */
function listed(name, items, most = Infinity) {
  if (!Array.isArray(items)) {
    throw new InvalidType(name, `must be an array, not ${kindOf(items)}`);
  }
  if (items.length > most) {
    throw new InvalidValue(name, `must have at most ${most} items, not ${items.length}`);
  }
  return items;
}

/** Bytes, as a Buffer over the same memory. */
function bytesOf(field, data) {
  if (!(data instanceof Uint8Array)) {
    throw new InvalidType(field, `must be a Uint8Array, not ${kindOf(data)}`);
  }
  return Buffer.from(data.buffer, data.byteOffset, data.byteLength);
}

/** A path that the system can take. */
function pathOf(field, path) {
  if (typeof path !== "string") {
    throw new InvalidType(field, `must be a path as a string, not ${kindOf(path)}`);
  }
  if (path === "" || path.includes("\0")) throw new InvalidValue(field, "is no path");
  return path;
}

/** An object of options, or nothing. */
function optionsOf(field, options) {
  if (options === undefined) return {};
  if (typeof options !== "object" || options === null || Array.isArray(options)) {
    throw new InvalidType(field, `must be an object, not ${kindOf(options)}`);
  }
  return options;
}

module.exports = {
  U16,
  U32,
  U64,
  U128,
  bytesOf,
  kindOf,
  listed,
  milliseconds,
  narrow,
  optionsOf,
  pathOf,
  shown,
  wide,
};
