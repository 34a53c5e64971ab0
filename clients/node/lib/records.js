"use strict";

// Accounts, transfers and results, and their bytes (docs/use/FORMATS.md).

const { LAYOUTS, RECORD_SIZE } = require("../names.js");
const { InvalidType, InvalidValue } = require("./errors.js");
const { U16, U32, U64, U128, kindOf, narrow, wide } = require("./values.js");

const MOST = { 2: U16, 4: U32, 8: U64, 16: U128 };

function kindNamed(name, shown) {
  const fields = LAYOUTS[name].map((it) => ({ ...it, most: MOST[it.bytes] }));
  return { shown, fields, names: new Set(fields.map((it) => it.name)) };
}

const ACCOUNT = kindNamed("account", "an account");
const TRANSFER = kindNamed("transfer", "a transfer");

/** What writes numbers into the memory of these bytes. */
function viewOf(data) {
  return new DataView(data.buffer, data.byteOffset, data.byteLength);
}

function placesOf(name) {
  return Object.fromEntries(LAYOUTS[name].map((it) => [it.name, it.at]));
}

const A = placesOf("account");
const T = placesOf("transfer");

function putWide(view, at, value) {
  view.setBigUint64(at, value, true); // of which it takes the lower half
  if (value > U64) view.setBigUint64(at + 8, value >> 64n, true);
}

function wideAt(data, at) {
  const low = data.readBigUInt64LE(at);
  const high = data.readBigUInt64LE(at + 8);
  return high === 0n ? low : (high << 64n) | low;
}

/** Whether a value is one that a field of a record holds. */
function holds(field, value) {
  if (field.bytes >= 8) return typeof value === "bigint" && value >= 0n && value <= field.most;
  return Number.isInteger(value) && value >= 0 && value <= field.most;
}

/** Throws what is wrong with a value that a field does not hold. */
function refuse(name, field, value) {
  if (field.bytes >= 8) wide(name, value, field.most);
  else narrow(name, value, field.most);
}

function putField(field, value, view, at) {
  if (field.bytes === 16) putWide(view, at, value);
  else if (field.bytes === 8) view.setBigUint64(at, value, true);
  else if (field.bytes === 4) view.setUint32(at, value, true);
  else view.setUint16(at, value, true);
}

/**
 * Puts a record's bytes, over zeros. Omitted fields are 0. One that is undefined is
 * refused, and so is one that the record does not have: a misspelt field would otherwise be 0.
 */
function putRecord(kind, item, where, view, at) {
  if (typeof item !== "object" || item === null || Array.isArray(item)) {
    throw new InvalidType(where, `must be ${kind.shown}, not ${kindOf(item)}`);
  }
  for (const field of kind.fields) {
    const value = item[field.name];
    if (value === undefined && !(field.name in item)) continue;
    if (!holds(field, value)) refuse(`${where}.${field.name}`, field, value);
    putField(field, value, view, at + field.at);
  }
  for (const name in item) {
    if (!kind.names.has(name)) {
      throw new InvalidValue(`${where}.${name}`, `is no field of ${kind.shown}`);
    }
  }
  if (item.id === undefined) throw new InvalidType(`${where}.id`, "is missing");
}

// The same for records in which nothing is wrong: each field is taken by its name, which is faster.
// What puts a value returns 1, or 0 if the field is omitted; a wrong value makes any sum wrong.

const WRONG = NaN;

function put128(view, at, value) {
  if (value === undefined) return 0;
  if (typeof value !== "bigint" || value < 0n) return WRONG;
  view.setBigUint64(at, value, true); // of which it takes the lower half
  if (value <= U64) return 1;
  if (value > U128) return WRONG;
  view.setBigUint64(at + 8, value >> 64n, true);
  return 1;
}

function put64(view, at, value) {
  if (value === undefined) return 0;
  if (typeof value !== "bigint" || value < 0n || value > U64) return WRONG;
  view.setBigUint64(at, value, true);
  return 1;
}

function put32(view, at, value) {
  if (value === undefined) return 0;
  if (typeof value !== "number" || value >>> 0 !== value) return WRONG;
  view.setUint32(at, value, true);
  return 1;
}

function put16(view, at, value) {
  if (value === undefined) return 0;
  if (typeof value !== "number" || (value & U16) !== value) return WRONG;
  view.setUint16(at, value, true);
  return 1;
}

/** Whether an object has so many fields. */
function hasOnly(item, count) {
  let found = 0;
  for (const _ in item) found += 1;
  return found === count;
}

function putAccount(item, view, at) {
  return put128(view, at + A.id, item.id) +
    put128(view, at + A.debits_pending, item.debits_pending) +
    put128(view, at + A.debits_posted, item.debits_posted) +
    put128(view, at + A.credits_pending, item.credits_pending) +
    put128(view, at + A.credits_posted, item.credits_posted) +
    put128(view, at + A.user_data_128, item.user_data_128) +
    put64(view, at + A.user_data_64, item.user_data_64) +
    put32(view, at + A.user_data_32, item.user_data_32) +
    put32(view, at + A.ledger, item.ledger) +
    put16(view, at + A.code, item.code) +
    put16(view, at + A.flags, item.flags) +
    put64(view, at + A.timestamp, item.timestamp);
}

function putTransfer(item, view, at) {
  return put128(view, at + T.id, item.id) +
    put128(view, at + T.debit_account_id, item.debit_account_id) +
    put128(view, at + T.credit_account_id, item.credit_account_id) +
    put128(view, at + T.amount, item.amount) +
    put128(view, at + T.pending_id, item.pending_id) +
    put128(view, at + T.user_data_128, item.user_data_128) +
    put64(view, at + T.user_data_64, item.user_data_64) +
    put32(view, at + T.user_data_32, item.user_data_32) +
    put32(view, at + T.timeout, item.timeout) +
    put32(view, at + T.ledger, item.ledger) +
    put16(view, at + T.code, item.code) +
    put16(view, at + T.flags, item.flags) +
    put64(view, at + T.timestamp, item.timestamp);
}

/**
 * Puts the bytes of records into a frame, over zeros. A record with a fault is put again, one field
 * after another, which says what the fault is.
 */
function putRecords(kind, items, name, view, first) {
  const put = kind === ACCOUNT ? putAccount : putTransfer;
  for (let index = 0, at = first; at < view.byteLength; index += 1, at += RECORD_SIZE) {
    const item = items[index];
    const isRecord = typeof item === "object" && item !== null && !Array.isArray(item);
    if (isRecord && item.id !== undefined && hasOnly(item, put(item, view, at))) continue;
    for (let word = 0; word < RECORD_SIZE; word += 8) view.setBigUint64(at + word, 0n);
    putRecord(kind, item, `${name}[${index}]`, view, at);
  }
}

function fieldAt(field, data, at) {
  if (field.bytes === 16) return wideAt(data, at);
  return field.bytes === 8 ? data.readBigUInt64LE(at) : data.readUIntLE(at, field.bytes);
}

/** The record that the bytes encode, with all its fields. All that they can encode is in range. */
function recordAt(kind, data, at) {
  const record = {};
  for (const field of kind.fields) record[field.name] = fieldAt(field, data, at + field.at);
  return record;
}

function whole(kind, name, fields) {
  const data = Buffer.alloc(RECORD_SIZE);
  putRecord(kind, fields, name, viewOf(data), 0);
  return Object.freeze(recordAt(kind, data, 0));
}

/** A whole account of these fields: each is checked, and omitted ones are 0. */
function account(fields) {
  return whole(ACCOUNT, "Account", fields);
}

/** A whole transfer of these fields: each is checked, and omitted ones are 0. */
function transfer(fields) {
  return whole(TRANSFER, "Transfer", fields);
}

/** The names of the flags that are set: `flagNames(TransferFlags, 3)` is ["linked", "pending"]. */
function flagNames(kind, flags) {
  return Object.keys(kind).filter((name) => (flags & kind[name]) !== 0);
}

module.exports = {
  ACCOUNT,
  TRANSFER,
  account,
  flagNames,
  putRecords,
  putWide,
  recordAt,
  transfer,
  viewOf,
  wideAt,
};
