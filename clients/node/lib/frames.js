"use strict";

// Frames of requests and replies (docs/use/FORMATS.md).

const {
  CreateAccountResult,
  CreateTransferResult,
  HEADER_SIZE,
  ID_SIZE,
  ITEMS_MAX,
  LAYOUTS,
  Operation,
  RECORD_SIZE,
  REPLY_ITEM_SIZES,
  REQUEST_ITEM_SIZES,
  RESULT_SIZE,
  Status,
} = require("../names.js");
const { BadReply, InvalidType, InvalidValue } = require("./errors.js");
const { ACCOUNT, TRANSFER, putRecords, putWide } = require("./records.js");
const { recordAt, viewOf, wideAt } = require("./records.js");
const { U128, kindOf, listed, shown, wide } = require("./values.js");

/** The offsets of the fields of a layout, by name. */
function placesOf(layout) {
  return Object.fromEntries(LAYOUTS[layout].map((it) => [it.name, it.at]));
}

/** The places of a header that no field has: their bytes are 0. */
function gapsOf(layout) {
  const isField = (place) =>
    LAYOUTS[layout].some((it) => place >= it.at && place < it.at + it.bytes);
  return Array.from({ length: HEADER_SIZE }, (_, place) => place).filter((it) => !isField(it));
}

const REQUEST = placesOf("request_header");
const REPLY = placesOf("reply_header");
const REQUEST_GAPS = gapsOf("request_header");
const REPLY_GAPS = gapsOf("reply_header");
// what a reply repeats of its request; the session of a register is new
const COPIED = ["client", "session", "request", "operation"];
const REPEATED = LAYOUTS.reply_header.filter((it) => COPIED.includes(it.name));
const RESULT = placesOf("result");
const STATUS_MAX = Math.max(...Object.values(Status));
const NAMES = new Map(Object.entries(Operation).map(([name, number]) => [number, name]));
const ITEM_NAMES = {
  [Operation.create_accounts]: "accounts",
  [Operation.create_transfers]: "transfers",
  [Operation.lookup_accounts]: "ids",
  [Operation.lookup_transfers]: "ids",
};
const RECORDS = {
  [Operation.create_accounts]: ACCOUNT,
  [Operation.create_transfers]: TRANSFER,
  [Operation.lookup_accounts]: ACCOUNT,
  [Operation.lookup_transfers]: TRANSFER,
};

function namesOf(results) {
  return new Map(Object.entries(results).map(([name, number]) => [number, name]));
}

const RESULTS = {
  [Operation.create_accounts]: namesOf(CreateAccountResult),
  [Operation.create_transfers]: namesOf(CreateTransferResult),
};

function isCreate(operation) {
  return operation === Operation.create_accounts || operation === Operation.create_transfers;
}

/** An operation's number, of that number or of its name. */
function operationOf(value) {
  if (typeof value !== "number" && typeof value !== "string") {
    throw new InvalidType("operation", `must be one of Operation, not ${kindOf(value)}`);
  }
  if (NAMES.has(value)) return value;
  if (typeof value === "string" && Object.hasOwn(Operation, value)) return Operation[value];
  throw new InvalidValue("operation", `must be one of ${Object.keys(Operation).join(", ")}`);
}

// Requests

/**
 * The frame of a request with these items, whose client, session and number are still 0. A
 * only a register may omit them.
 */
function framed(operation, items) {
  if (operation === Operation.register) {
    if (items !== undefined && listed("items", items).length !== 0) {
      throw new InvalidValue("items", "of a register must be empty");
    }
    return headed(operation, 0);
  }
  const name = ITEM_NAMES[operation];
  const size = REQUEST_ITEM_SIZES[operation];
  const frame = headed(operation, listed(name, items, ITEMS_MAX).length * size);
  const view = viewOf(frame);
  if (isCreate(operation)) putRecords(RECORDS[operation], items, name, view, HEADER_SIZE);
  else {
    for (let index = 0, at = HEADER_SIZE; at < frame.length; index += 1, at += size) {
      putWide(view, at, wide(`${name}[${index}]`, items[index], U128));
    }
  }
  return frame;
}

function headed(operation, length) {
  const frame = Buffer.alloc(HEADER_SIZE + length);
  frame.writeUInt8(operation, REQUEST.operation);
  frame.writeUInt32LE(length, REQUEST.length);
  return frame;
}

/** Puts the client, the session and the number into a request's frame. */
function number(frame, client, session, request) {
  frame.fill(0, REQUEST.client, REQUEST.client + ID_SIZE); // which another session may have had
  putWide(viewOf(frame), REQUEST.client, client);
  frame.writeBigUInt64LE(session, REQUEST.session);
  frame.writeUInt32LE(request, REQUEST.request);
}

/** The name of the first fault of a request's frame, by the tests of FORMATS.md in their order. */
function requestFault(frame) {
  if (frame.length < HEADER_SIZE) return "Short";
  const { operation, session, request } = headerOf(frame);
  const length = frame.readUInt32LE(REQUEST.length);
  const isRegister = operation === Operation.register;
  const size = REQUEST_ITEM_SIZES[operation];
  if (isZero(frame, REQUEST.client, ID_SIZE)) return "ClientZero";
  if (!isRegister && size === undefined) return "UnknownOperation";
  if (REQUEST_GAPS.some((place) => frame[place] !== 0)) return "Reserved";
  if (isRegister && (session !== 0n || request !== 0)) return "RegisterNumbers";
  if (!isRegister && request === 0) return "RequestZero";
  if (isRegister ? length !== 0 : length % size !== 0) return "BadLength";
  if (length / size > ITEMS_MAX) return "TooMany";
  return frame.length < HEADER_SIZE + length ? "Short" : undefined;
}

/** Refuses bytes that the server would find malformed, and end the connection at. */
function testRequest(frame) {
  const fault = requestFault(frame);
  if (fault !== undefined) throw new InvalidValue("frame", `is no request (${fault})`);
  const length = HEADER_SIZE + frame.readUInt32LE(REQUEST.length);
  if (frame.length !== length) {
    throw new InvalidValue("frame", `has ${frame.length} bytes, and its header says ${length}`);
  }
}

/** Client, session, number and operation of a request's frame. */
function headerOf(frame) {
  return {
    client: wideAt(frame, REQUEST.client),
    session: frame.readBigUInt64LE(REQUEST.session),
    request: frame.readUInt32LE(REQUEST.request),
    operation: frame.readUInt8(REQUEST.operation),
  };
}

/** The records or ids of a request's frame. */
function recordsOf(frame, operation) {
  const items = [];
  if (operation === Operation.register) return items;
  for (let at = HEADER_SIZE; at < frame.length; at += REQUEST_ITEM_SIZES[operation]) {
    const kind = RECORDS[operation];
    items.push(isCreate(operation) ? recordAt(kind, frame, at) : wideAt(frame, at));
  }
  return items;
}

/** What a request's frame asks for, with its records or ids. */
function requestOf(frame) {
  const { client, session, request, operation } = headerOf(frame);
  const items = recordsOf(frame, operation);
  return { client, session, number: request, operation: NAMES.get(operation), items };
}

// Replies

function isZero(data, at, count) {
  for (let place = at; place < at + count; place += 1)
    if (data[place] !== 0) return false;
  return true;
}

/** The length of the frame whose header this is. */
function replyLength(header) {
  return HEADER_SIZE + header.readUInt32LE(REPLY.length);
}

/** Whether session, commit and status of a reply go together. */
function areNumbers(header, isRegister, isRefusal) {
  const commit = header.readBigUInt64LE(REPLY.commit);
  if (isRefusal) return commit === 0n;
  const session = header.readBigUInt64LE(REPLY.session);
  return session > 0n && (isRegister ? session === commit : session < commit);
}

/** The name of the first fault of a reply's header, by the tests of FORMATS.md in their order. */
function replyFault(header) {
  if (header.length < HEADER_SIZE) return "Short";
  const operation = header.readUInt8(REPLY.operation);
  const status = header.readUInt8(REPLY.status);
  const request = header.readUInt32LE(REPLY.request);
  const length = header.readUInt32LE(REPLY.length);
  const isRegister = operation === Operation.register;
  const isRefusal = status !== Status.Reply;
  const size = REPLY_ITEM_SIZES[operation];
  if (isZero(header, REPLY.client, ID_SIZE)) return "ClientZero";
  if (!isRegister && size === undefined) return "UnknownOperation";
  if (status > STATUS_MAX || REPLY_GAPS.some((place) => header[place] !== 0)) return "Reserved";
  if (isRegister && (request !== 0 || (isRefusal && !isZero(header, REPLY.session, 8)))) {
    return "RegisterNumbers";
  }
  if (!isRegister && request === 0) return "RequestZero";
  if (!areNumbers(header, isRegister, isRefusal)) return "ReplyNumbers";
  if (isRegister || isRefusal ? length !== 0 : length % size !== 0) return "BadLength";
  return length / size > ITEMS_MAX ? "TooMany" : undefined;
}

/** Throws BadReply if this is no header of a reply, before its body is waited for. */
function testReply(header) {
  const fault = replyFault(header);
  if (fault === undefined) return;
  const [line] = /^[ -~]{8,}/.exec(header.toString("latin1")) ?? []; // it may go to a terminal
  const text = line === undefined ? "" : `: ${line}`;
  throw new BadReply(`what came is no frame of a reply (${fault})${text}`);
}

/** Throws BadReply if the header of a reply, which has no fault, is not of this request. */
function testAsked(frame, header) {
  const isRegister = header.readUInt8(REPLY.operation) === Operation.register;
  const isSame = ({ name, at, bytes }) =>
    (isRegister && name === "session") ||
    header.compare(frame, REQUEST[name], REQUEST[name] + bytes, at, at + bytes) === 0;
  if (REPEATED.every(isSame)) return;
  const request = frame.readUInt32LE(REQUEST.request);
  throw new BadReply(
    `a reply to request ${header.readUInt32LE(REPLY.request)} of client ` +
    `${shown(wideAt(header, REPLY.client))} came for request ${request}`,
  );
}

/** Session and status of a reply's header. */
function answerOf(reply) {
  return {
    session: reply.readBigUInt64LE(REPLY.session),
    status: reply.readUInt8(REPLY.status),
  };
}

/**
 * What the reply to this request says: the results of a create, the records of a lookup, nothing
 * of a register. Throws BadReply if no reply to it says so.
 */
function saidBy(frame, reply) {
  const operation = frame.readUInt8(REQUEST.operation);
  if (operation === Operation.register) return undefined;
  const read = isCreate(operation) ? resultsOf : foundBy;
  return read(frame, reply, operation);
}

/** Results are of events that failed, in the order of the events. */
function resultsOf(frame, reply, operation) {
  const count = (frame.length - HEADER_SIZE) / RECORD_SIZE;
  const results = [];
  let before = -1;
  for (let at = HEADER_SIZE; at < reply.length; at += RESULT_SIZE) {
    const index = reply.readUInt32LE(at + RESULT.index);
    const code = reply.readUInt32LE(at + RESULT.result);
    const result = RESULTS[operation].get(code);
    if (result === undefined) throw new BadReply(`${code} is no result of event ${index}`);
    if (code === 0) throw new BadReply(`event ${index} came as ok among those that failed`);
    if (index >= count) throw new BadReply(`a result of event ${index} came for ${count} events`);
    if (index <= before) {
      throw new BadReply(`a result of event ${index} came behind that of event ${before}`);
    }
    results.push({ index, result, code });
    before = index;
  }
  return results;
}

/** Records are those that were looked up, in the order of the ids. */
function foundBy(frame, reply, operation) {
  const records = [];
  let asked = HEADER_SIZE;
  for (let at = HEADER_SIZE; at < reply.length; at += RECORD_SIZE) {
    while (asked < frame.length && reply.compare(frame, asked, asked + ID_SIZE, at, at + ID_SIZE)) {
      asked += ID_SIZE;
    }
    if (asked >= frame.length) {
      throw new BadReply(`a record with id ${wideAt(reply, at)} came, not looked up there`);
    }
    asked += ID_SIZE;
    records.push(recordAt(RECORDS[operation], reply, at));
  }
  return records;
}

module.exports = {
  answerOf,
  framed,
  headed,
  headerOf,
  isCreate,
  number,
  operationOf,
  recordsOf,
  replyLength,
  requestOf,
  saidBy,
  testAsked,
  testReply,
  testRequest,
};
