"use strict";

const assert = require("node:assert/strict");
const { getEventListeners } = require("node:events");
const { test } = require("node:test");

const tb = require("../index.js");
const frames = require("../lib/frames.js");
const { Ids } = require("../lib/ids.js");
const { parsed } = require("../lib/json.js");

const SALE = { id: 11n, debit_account_id: 1n, credit_account_id: 2n, amount: 100n, code: 10 };

/** A transport that replies by a function of the request's frame. */
function direct(serve) {
  return {
    sent: [],
    async exchange(frame, options) {
      this.sent.push(Buffer.from(frame).toString("hex"));
      return serve(Buffer.from(frame), options);
    }
  };
}

/** The reply to a request, with this status, body and session. */
function reply(frame, { status = 0, body = Buffer.alloc(0), session } = {}) {
  const header = Buffer.alloc(48);
  frame.copy(header, 0, 0, 29);
  const of = session ?? frame.readBigUInt64LE(16);
  header.writeBigUInt64LE(of, 16);
  header.writeUInt8(status, 29);
  header.writeUInt32LE(body.length, 32);
  const commit = frame.readUInt8(28) === 2 ? of : of + 1n;
  header.writeBigUInt64LE(status === 0 ? commit : 0n, 36);
  return Buffer.concat([header, body]);
}

function serving(frame) {
  return reply(frame, frame.readUInt8(28) === 2 ? { session: 1n } : {});
}

function resumed(transport, options) {
  const saved = { client: 7n, session: 1n, number: 0, pending: "" };
  return tb.Session.resumed(transport, saved, options);
}

test("a register's frame, and the next request's", async () => {
  const transport = direct(serving);
  const session = await tb.Session.register(transport, { client: 7n });
  assert.deepEqual(await session.lookupAccounts([1n]), []);
  assert.deepEqual(transport.sent, [
    "07000000000000000000000000000000" + "000000000000000000000000" + "02" + "0".repeat(38),
    "07000000000000000000000000000000" + "0100000000000000" + "01000000" + "83000000" + "10000000" +
      "0".repeat(24) + "01000000000000000000000000000000",
  ]);
  assert.equal(session.number, 1);
});

test("a transfer's bytes, field by field", () => {
  const most = 2n ** 128n - 1n;
  const frame = frames.framed(130, [
    { ...SALE, amount: most, user_data_64: 2n ** 64n - 1n, timeout: 60, ledger: 700, flags: 3 },
  ]);
  const u128 = (number) => number.toString(16).padStart(32, "0").match(/../g).reverse().join("");
  const wide = [11n, 1n, 2n, most, 0n, 0n].map(u128).join("");
  const narrow = "ffffffffffffffff" + "00000000" + "3c000000" + "bc020000" + "0a00" + "0300";
  assert.equal(frame.toString("hex", 48), `${wide}${narrow}${"0".repeat(16)}`);
  frames.number(frame, 7n, 1n, 1);
  const [item] = frames.requestOf(frame).items;
  assert.equal(item.amount, most);
  assert.deepEqual(tb.flagNames(tb.TransferFlags, item.flags), ["linked", "pending"]);
});

test("values that no field may hold", () => {
  const wrong = [
    [{ ...SALE, amount: 100 }, tb.InvalidType, "transfers[0].amount"],
    [{ ...SALE, amount: 2n ** 128n }, tb.InvalidValue, "transfers[0].amount"],
    [{ ...SALE, amount: -1n }, tb.InvalidValue, "transfers[0].amount"],
    [{ ...SALE, amount: undefined }, tb.InvalidType, "transfers[0].amount"],
    [{ ...SALE, ammount: 100n }, tb.InvalidValue, "transfers[0].ammount"],
    [{ ...SALE, code: 1.5 }, tb.InvalidValue, "transfers[0].code"],
    [{ ...SALE, code: 10n }, tb.InvalidType, "transfers[0].code"],
    [{ ...SALE, ledger: 2 ** 32 }, tb.InvalidValue, "transfers[0].ledger"],
    [{ amount: 100n }, tb.InvalidType, "transfers[0].id"],
    [tb.account({ id: 11n }), tb.InvalidValue, "transfers[0].debits_pending"],
    [[], tb.InvalidType, "transfers[0]"],
  ];
  for (const [item, Kind, field] of wrong) {
    assert.throws(() => frames.framed(130, [item]), (error) => {
      assert.ok(error instanceof Kind, `${error.name} of ${field}`);
      assert.equal(error.field, field);
      assert.equal(error.sent, false);
      return true;
    });
  }
  assert.throws(() => tb.transfer({ ...SALE, amount: 1.5 }), { field: "Transfer.amount" });
  const many = new Array(8191).fill(1n);
  assert.throws(() => frames.framed(131, many), { name: "InvalidValue", field: "ids" });
});

test("a record with a getter behind it is read as it is", () => {
  class Sale {
    id = 11n;
    get amount() {
      return 100n;
    }
  }
  const frame = frames.framed(130, [new Sale()]);
  frames.number(frame, 7n, 1n, 1);
  assert.equal(frames.requestOf(frame).items[0].amount, 100n);
});

test("ids rise where the clock stands, is set back, and where the random bits overflow", () => {
  const times = [1000, 1000, 999, 1001, 1001];
  const drawn = ["00".repeat(10), "ff".repeat(10)];
  const ids = new Ids(() => times.shift(), () => Buffer.from(drawn.shift(), "hex"));
  const made = [0, 0, 0, 0, 0].map(() => ids.next());
  const first = 1000n << 80n;
  assert.deepEqual(made, [first, first + 1n, first + 2n, (1002n << 80n) - 1n, 1002n << 80n]);
  assert.ok(tb.id() < tb.id());
});

test("JSON with exact integers", () => {
  const found = parsed('{"a": 340282366920938463463374607431768211455, "b": [1.5, "\\u0041\\""]}');
  assert.deepEqual(Object.fromEntries(found), { a: 2n ** 128n - 1n, b: [1.5, 'A"'] });
  for (const text of ["", "{", "[1,]", "01", "{'a': 1}", '{"a": 1, "a": 1}', '"\n"', '"', "1 2"]) {
    assert.throws(() => parsed(text), SyntaxError, text);
  }
  assert.throws(() => parsed("[".repeat(1e5)), SyntaxError);
  const saved = { client: 2n ** 128n - 1n, session: 2n ** 64n - 1n, number: 4, pending: "" };
  assert.deepEqual(tb.decodeSaved(tb.encodeSaved(saved)), saved);
});

test("encodeSaved refuses what decodeSaved could not give back", () => {
  const session = resumed(direct(serving));
  session.prepare("create_transfers", [SALE]);
  for (const [saved, field] of [
    [session, "saved.pending"], // in place of session.saved
    [undefined, "saved"],
    [{ ...session.saved, client: 7 }, "saved.client"],
    [{ ...session.saved, number: -1 }, "saved.number"],
    [{ ...session.saved, pending: undefined }, "saved.pending"],
  ]) {
    assert.throws(() => tb.encodeSaved(saved), { sent: false, field });
  }
  assert.deepEqual(tb.decodeSaved(tb.encodeSaved(session.saved)), session.saved);
});

test("a reply of another request is no reply, whatever carried it", async () => {
  const others = [
    (frame) => reply(frame.fill(8, 0, 1)),
    (frame) => reply(frame.fill(9, 24, 25)),
    (frame) => reply(frame, { body: Buffer.from("0000000000000000", "hex") }),
    (frame) => reply(frame, { body: Buffer.from("0000000012000000", "hex") }),
    (frame) => reply(frame, { body: Buffer.from("0100000036000000", "hex") }),
    (frame) => reply(frame).subarray(0, 47),
    () => Buffer.from("x"),
  ];
  for (const serve of others) {
    const session = resumed(direct(serve));
    await assert.rejects(session.createTransfers([SALE]), tb.BadReply);
    assert.equal(session.inDoubt.items[0].amount, 100n);
    assert.equal(session.number, 0);
  }
});

test("a result by its name, and requireOk", async () => {
  const body = Buffer.from("0000000036000000", "hex");
  const session = resumed(direct((frame) => reply(frame, { body })));
  const results = await session.createTransfers([SALE]);
  assert.deepEqual(results, [{ index: 0, result: "exceeds_credits", code: 54 }]);
  assert.throws(() => tb.requireOk(results), { name: "EventsFailed", results });
  tb.requireOk(undefined);
  tb.requireOk([tb.account({ id: 1n })]);
});

test("a refusal stays in doubt, and has its status", async () => {
  const session = resumed(direct((frame) => reply(frame, { status: 1 })));
  await assert.rejects(session.createTransfers([SALE]), (error) => {
    assert.ok(error instanceof tb.NoSession && error instanceof tb.Evicted);
    assert.equal(error.status, tb.Status.NoSession);
    assert.equal(error.sent, true);
    return true;
  });
  await assert.rejects(session.lookupAccounts([1n]), tb.InDoubt);
  assert.throws(() => session.prepare("lookup_accounts", [1n]), tb.InDoubt);
});

test("calls at once go one after another, by the numbers in order", async () => {
  const transport = direct(async (frame) => {
    await new Promise((resolve) => setTimeout(resolve, 5));
    return reply(frame);
  });
  const session = resumed(transport);
  await Promise.all([1n, 2n, 3n].map((it) => session.lookupAccounts([it])));
  const numbers = transport.sent.map((it) => it.slice(48, 50));
  assert.deepEqual(numbers, ["01", "02", "03"]);
});

test("the items are those of the call, however they change while it waits", async () => {
  const transport = direct(serving);
  const session = resumed(transport);
  const ids = [1n];
  const calls = [session.lookupAccounts([9n]), session.lookupAccounts(ids)];
  ids[0] = 2n;
  await Promise.all(calls);
  assert.equal(transport.sent[1].slice(96, 98), "01");
});

test("a caller's limit ends a call that waits for its turn: nothing is sent", async () => {
  const held = {};
  const transport = direct((frame) => new Promise((resolve) => {
    held.answer = () => resolve(reply(frame));
  }));
  const session = resumed(transport);
  const first = session.lookupAccounts([1n]);
  const limit = new AbortController();
  const second = session.lookupAccounts([2n], { signal: limit.signal });
  const third = session.lookupAccounts([3n], { within: 10 });
  limit.abort(new Error("enough"));
  await assert.rejects(second, { name: "Cancelled", sent: false, cause: limit.signal.reason });
  await assert.rejects(third, { name: "Cancelled", sent: false });
  held.answer();
  assert.deepEqual(await first, []);
  assert.equal(transport.sent.length, 1);
  assert.equal(session.inDoubt, null);
  const over = AbortSignal.abort();
  await assert.rejects(session.lookupAccounts([1n], { signal: over }), { sent: false });
  await assert.rejects(session.lookupAccounts([1n], { signal: 7 }), { field: "signal" });
  await assert.rejects(session.lookupAccounts([1n], { within: -1 }), { field: "within" });
});

test("a request that is prepared amid the reading of items is kept", () => {
  const session = resumed(direct(serving));
  const item = {
    id: 12n,
    get amount() {
      session.prepare("create_transfers", [SALE]);
      return 5n;
    },
  };
  assert.throws(() => session.prepare("create_transfers", [item]), tb.InDoubt);
  assert.equal(session.inDoubt.items[0].id, SALE.id);
});

test("a prepared request without items is refused, but for a register", () => {
  const session = resumed(direct(serving));
  for (const [operation, name] of [["create_transfers", "transfers"], ["lookup_accounts", "ids"]]) {
    assert.throws(() => session.prepare(operation), { name: "InvalidType", field: name });
    assert.throws(() => session.prepare(operation, undefined), { field: name });
  }
  assert.equal(session.inDoubt, null);
  const fresh = new tb.Session(direct(serving));
  fresh.prepare("register");
  assert.equal(fresh.inDoubt.operation, "register");
});

test("many calls wait for one signal: no warning of a leak, and no listener is left", async () => {
  const session = resumed(direct(async (frame) => reply(frame)));
  const { signal } = new AbortController();
  const warned = [];
  const take = (warning) => warned.push(warning.message);
  process.on("warning", take);
  const call = (id) => session.lookupAccounts([id], { signal });
  await Promise.all(Array.from({ length: 20 }, (_, at) => call(BigInt(at + 1))));
  await new Promise(setImmediate);
  process.off("warning", take);
  assert.deepEqual([warned, getEventListeners(signal, "abort")], [[], []]);
});

test("a transport that throws something else leaves the request in doubt", async () => {
  const session = resumed(direct(() => {
    throw new TypeError("of its own");
  }));
  await assert.rejects(session.createTransfers([SALE]), TypeError);
  assert.equal(session.inDoubt.number, 1);
});

test("lost, then not connected, is ReplyLost", async () => {
  const faults = [new tb.ReplyLost("lost"), new tb.CannotConnect("nobody")];
  const session = resumed(direct(() => {
    throw faults.shift();
  }));
  await assert.rejects(session.createTransfers([SALE]), { name: "ReplyLost", sent: true });
  assert.equal(session.saved.pending.length, 2 * (48 + 128));
});
