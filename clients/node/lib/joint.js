"use strict";

// Lists that go out as one request: what its reply says for each, and what a chain did that was
// made before.

const { AccountFlags, HEADER_SIZE, ID_SIZE, LAYOUTS } = require("../names.js");
const { Operation, RECORD_SIZE, TransferFlags } = require("../names.js");
const { headed, isCreate, recordsOf } = require("./frames.js");
const { wideAt } = require("./records.js");

const FLAGS_AT = LAYOUTS.transfer.find((it) => it.name === "flags").at;
const LOOKUPS = {
  [Operation.create_accounts]: Operation.lookup_accounts,
  [Operation.create_transfers]: Operation.lookup_transfers,
};
const RESOLVING = TransferFlags.post_pending_transfer | TransferFlags.void_pending_transfer;
const BALANCING = TransferFlags.balancing_debit | TransferFlags.balancing_credit;
// what a record has that is not as it was asked for
const SUMS = ["debits_pending", "debits_posted", "credits_pending", "credits_posted", "timestamp"];

/** Whether the event at this place of a frame is linked with the next one. */
function isLinked(frame, at) {
  return (frame[at + FLAGS_AT] & TransferFlags.linked) !== 0;
}

/** The frame of one request with the items of all of these. */
function jointFrame(operation, frames) {
  if (frames.length === 1) return frames[0];
  const bodies = frames.map((it) => it.subarray(HEADER_SIZE));
  const length = bodies.reduce((sum, it) => sum + it.length, 0);
  const frame = headed(operation, length);
  let at = HEADER_SIZE;
  for (const it of bodies) at += it.copy(frame, at);
  return frame;
}

/** What a reply says for each of the frames that were joined, by their own indexes. */
function split(operation, frames, said) {
  if (frames.length === 1) return [said];
  return isCreate(operation) ? splitResults(frames, said) : splitRecords(frames, said);
}

function splitResults(frames, results) {
  let first = 0;
  let at = 0;
  return frames.map((frame) => {
    const end = first + (frame.length - HEADER_SIZE) / RECORD_SIZE;
    const own = [];
    for (; at < results.length && results[at].index < end; at += 1) {
      own.push({ ...results[at], index: results[at].index - first });
    }
    first = end;
    return own;
  });
}

/** Records come in the order of the ids, and an id that is not there has no record. */
function splitRecords(frames, records) {
  let at = 0;
  return frames.map((frame) => {
    const own = [];
    for (let place = HEADER_SIZE; place < frame.length; place += ID_SIZE) {
      if (at < records.length && records[at].id === wideAt(frame, place)) {
        own.push(records[at]);
        at += 1;
      }
    }
    return own;
  });
}

// A request that may have been executed before, in a session that has ended

/** The first event and the end of each chain of two events or more. */
function* chains(frame) {
  const count = (frame.length - HEADER_SIZE) / RECORD_SIZE;
  let first = 0;
  for (let event = 0; event < count; event += 1) {
    if (isLinked(frame, HEADER_SIZE + event * RECORD_SIZE)) continue;
    if (event > first) yield [first, event + 1];
    first = event + 1;
  }
}

/**
 * The results of a create that may have been executed before. A chain that was is refused now,
 * because its first event exists; if all its events are there as they were asked for, each of
 * them exists.
 */
async function settled(operation, frame, results, lookUp) {
  const names = new Map(results.map((it) => [it.index, it.result]));
  const doubtful = [...chains(frame)].filter(
    ([first, end]) =>
    names.get(first) === "exists" &&
    eventsOf(first + 1, end).every((it) => names.get(it) === "linked_event_failed"),
  );
  if (doubtful.length === 0) return results;
  const exists = results.find((it) => it.result === "exists");
  const asked = recordsOf(frame, operation);
  const events = doubtful.flatMap(([first, end]) => eventsOf(first, end));
  const found = await lookUp(
    LOOKUPS[operation],
    events.map((it) => asked[it].id),
  );
  const there = new Map(found.map((it) => [it.id, it]));
  const done = new Set();
  for (const [first, end] of doubtful) {
    const own = eventsOf(first, end);
    if (own.every((it) => isAsAsked(asked[it], there.get(asked[it].id)))) {
      for (const it of own) done.add(it);
    }
  }
  return results.map((it) => (done.has(it.index) ? { ...exists, index: it.index } : it));
}

function eventsOf(first, end) {
  return Array.from({ length: end - first }, (_, at) => first + at);
}

/** Whether this record is what became of the one that was asked for. */
function isAsAsked(asked, found) {
  if (found === undefined) return false;
  const isTransfer = "debit_account_id" in asked;
  const isResolving = isTransfer && (asked.flags & RESOLVING) !== 0;
  const isAny = isResolving || (isTransfer && (asked.flags & BALANCING) !== 0);
  return Object.entries(asked).every(([name, wanted]) => {
    if (SUMS.includes(name) || (isAny && name === "amount")) return true;
    if (!isTransfer && name === "flags") {
      return (wanted | AccountFlags.closed) === (found.flags | AccountFlags.closed);
    }
    // a post or void takes from the pending transfer what it leaves out
    return wanted === found[name] || (isResolving && (wanted === 0n || wanted === 0));
  });
}

module.exports = { isAsAsked, isLinked, jointFrame, settled, split };
