"use strict";

const assert = require("node:assert/strict");
const { execFileSync, spawn, spawnSync } = require("node:child_process");
const dns = require("node:dns");
const { once } = require("node:events");
const {
  mkdtempSync,
  promises: fs,
  readFileSync,
  readdirSync,
  rmSync,
  utimesSync,
  writeFileSync,
} = require("node:fs");
const net = require("node:net");
const { tmpdir } = require("node:os");
const { performance } = require("node:perf_hooks");
const path = require("node:path");
const { after, test } = require("node:test");
const tls = require("node:tls");

const tb = require("../index.js");
const { SECONDS } = require("../helpers/keepers.js");

const folder = mkdtempSync(path.join(tmpdir(), "tb-client-"));
const servers = [];
after(() => {
  for (const it of servers) it.close();
  rmSync(folder, { recursive: true });
});

/** A server at a Unix socket, and what it does with each connection. */
async function listening(name, serve) {
  const place = path.join(folder, name);
  const server = net.createServer(serve);
  servers.push(server);
  await new Promise((resolve) => server.listen(place, resolve));
  return place;
}

/** Replies to each request, which is only a header or a lookup of one id. */
function answers(it, pieces = 1) {
  it.on("error", () => {});
  it.on("data", (frame) => {
    const reply = Buffer.alloc(48);
    frame.copy(reply, 0, 0, 29);
    const session = frame.readBigUInt64LE(16) || 1n;
    reply.writeBigUInt64LE(session, 16);
    reply.writeBigUInt64LE(frame[28] === 2 ? session : session + 1n, 36);
    const size = 48 / pieces;
    for (let at = 0; at < 48; at += size) it.write(reply.subarray(at, at + size));
  });
}

test("requests over a Unix socket, on one connection", async () => {
  let count = 0;
  const place = await listening("one.sock", (it) => {
    count += 1;
    answers(it, 48);
  });
  const session = await tb.Session.register(new tb.Socket(place));
  for (let at = 0; at < 5; at += 1) assert.deepEqual(await session.lookupAccounts([1n]), []);
  assert.deepEqual([count, session.number], [1, 5]);
  session.close();
  await assert.rejects(session.lookupAccounts([1n]), tb.Closed);
  assert.equal(session.inDoubt, null);
});

test("close ends a call in flight: ReplyLost, and the request stays in doubt", async () => {
  const place = await listening("silent.sock", (it) => it.on("data", () => session.close()));
  const saved = { client: 7n, session: 1n, number: 0, pending: "" };
  const session = tb.Session.resumed(new tb.Socket(place), saved);
  await assert.rejects(session.lookupAccounts([1n]), { name: "ReplyLost", sent: true });
  assert.equal(session.inDoubt.number, 1);
});

test("close ends a call that connects: nothing was sent", async () => {
  const socket = new tb.Socket(path.join(folder, "none.sock"), { timeout: 60_000 });
  const call = tb.Session.register(socket);
  setTimeout(() => socket.close(), 30);
  await assert.rejects(call, { name: "Closed", sent: false });
});

test("nobody listens: CannotConnect, with the system's error", async () => {
  const socket = new tb.Socket(path.join(folder, "none.sock"), { timeout: 50 });
  await assert.rejects(tb.Session.register(socket), (error) => {
    assert.ok(error instanceof tb.CannotConnect);
    assert.equal(error.cause.code, "ENOENT");
    return true;
  });
});

test("why no connection can be made is told, also with no time left for a last call", async () => {
  const server = net.createServer((it) => setTimeout(() => it.destroy(), 50)); // it speaks no TLS
  servers.push(server);
  await new Promise((resolve) => server.listen(0, "127.0.0.1", resolve));
  const { port } = server.address();
  const socket = new tb.Socket({ host: "127.0.0.1", port }, { timeout: 1000, tls: {} });
  await assert.rejects(tb.Session.register(socket), ({ name, message, cause }) => {
    assert.deepEqual([name, cause.code], ["CannotConnect", "ECONNRESET"], message);
    assert.ok(message.startsWith(`127.0.0.1:${port}: ${cause.message}`), message);
    return true;
  });
});

/** A server over TLS that replies, and the options for it. */
async function listeningOverTls(serve) {
  const [key, cert] = ["key.pem", "cert.pem"].map((name) => path.join(folder, name));
  const words = ["req", "-x509", "-newkey", "ec", "-pkeyopt", "ec_paramgen_curve:prime256v1"];
  words.push("-nodes", "-days", "2", "-subj", "/CN=localhost");
  words.push("-addext", "subjectAltName=DNS:localhost", "-keyout", key, "-out", cert);
  execFileSync("openssl", words, { stdio: "ignore" });
  const ca = readFileSync(cert);
  const server = tls.createServer({ key: readFileSync(key), cert: ca }, serve);
  servers.push(server);
  await new Promise((resolve) => server.listen(0, "127.0.0.1", resolve));
  return [{ host: "localhost", port: server.address().port }, { ca }];
}

const noOpenssl = spawnSync("openssl", ["version"]).status !== 0;

test("over TLS a ticket that came at once is not waited for", { skip: noOpenssl }, async (t) => {
  const [place, secure] = await listeningOverTls((it) => answers(it));
  const { setTimeout } = globalThis;
  t.mock.method(globalThis, "setImmediate", (call) => setTimeout(call, 20)); // it comes meanwhile
  t.mock.method(globalThis, "setTimeout", (call, ms) => setTimeout(call, ms === 100 ? 9000 : ms));
  const began = performance.now();
  const socket = new tb.Socket(place, { timeout: 60_000, tls: secure });
  await tb.Session.register(socket);
  socket.close();
  assert.ok(performance.now() - began < 9000);
});

test("over TLS a ticket that does not come leaves time for the request", {
  skip: noOpenssl,
}, async (t) => {
  const [place, secure] = await listeningOverTls((it) => answers(it));
  const { setTimeout } = globalThis;
  const now = performance.now.bind(performance);
  const { once } = tls.TLSSocket.prototype;
  t.mock.method(tls.TLSSocket.prototype, "once", function take(word, call) {
    return word === "session" ? this : once.call(this, word, call);
  });
  t.mock.method(performance, "now", () => now() / 1000); // so that no limit is reached
  const waits = [];
  t.mock.method(globalThis, "setTimeout", (call, ms) => {
    waits.push(ms);
    return setTimeout(call, ms > 100 ? 1000 * ms : 0);
  });
  const socket = new tb.Socket(place, { timeout: 120, tls: secure });
  await tb.Session.register(socket, { attempts: 1 });
  socket.close();
  assert.deepEqual(waits.map((ms) => ms <= 30), [false, true, false], String(waits));
});

test("a call that is given up while a ticket is waited for sends nothing", {
  skip: noOpenssl,
}, async (t) => {
  let count = 0;
  const [place, secure] = await listeningOverTls((it) => it.on("data", () => (count += 1)));
  const limit = new AbortController();
  t.mock.method(tls.TLSSocket.prototype, "getProtocol", () => {
    limit.abort(); // it has agreed
    return "TLSv1.3";
  });
  const socket = new tb.Socket(place, { tls: secure });
  const call = tb.Session.register(socket, { signal: limit.signal });
  call.catch(() => {}).then(() => socket.close());
  await assert.rejects(call, { name: "Cancelled", sent: false });
  assert.equal(count, 0);
});

test("a limit that ends while a ticket is waited for ends the call at once", {
  skip: noOpenssl,
}, async (t) => {
  const [place, secure] = await listeningOverTls((it) => answers(it));
  const { setTimeout } = globalThis;
  const { once } = tls.TLSSocket.prototype;
  const limit = new AbortController();
  t.mock.method(tls.TLSSocket.prototype, "once", function take(word, call) {
    if (word !== "session") return once.call(this, word, call);
    setImmediate(() => setImmediate(() => setImmediate(() => limit.abort())));
    return this; // no ticket comes
  });
  t.mock.method(globalThis, "setTimeout", (call, ms) => setTimeout(call, ms === 100 ? 9000 : ms));
  const began = performance.now();
  const socket = new tb.Socket(place, { timeout: 60_000, tls: secure });
  const call = tb.Session.register(socket, { signal: limit.signal });
  call.catch(() => {}).then(() => socket.close());
  await assert.rejects(call, { name: "Cancelled", sent: false });
  assert.ok(performance.now() - began < 9000);
});

test("who asks for the same host meanwhile shares one lookup of it", async (t) => {
  const calls = [];
  t.mock.method(dns, "lookup", (host, options, call) => calls.push(call));
  const socket = () => new tb.Socket({ host: "ledger.example", port: 3001 }, { timeout: 50 });
  const register = () => tb.Session.register(socket(), { attempts: 1 });
  for (const count of [1, 2]) {
    await Promise.all([1, 2, 3].map(() => assert.rejects(register(), tb.CannotConnect)));
    assert.equal(calls.length, count);
    calls[count - 1](new Error("no such host")); // what is asked later is looked up again
  }
});

test("a close at any moment of a connecting is told by its name", async (t) => {
  const place = await listening("closed.sock", (it) => answers(it));
  const { setImmediate } = globalThis;
  for (let turns = 0; turns < 24; turns += 1) {
    const socket = new tb.Socket(place);
    t.mock.method(globalThis, "setImmediate", (call) =>
      setImmediate(async () => {
        call();
        if (call.length === 0) return;
        for (let turn = 0; turn < turns; turn += 1) await undefined;
        socket.close(); // a number of turns after what the connecting waits for
      }),
    );
    const told = await tb.Session.register(socket, { attempts: 1 }).catch((why) => why);
    t.mock.restoreAll();
    socket.close();
    assert.ok(told instanceof tb.Session || told instanceof tb.ClientError, told.stack);
  }
});

test("of several addresses the one is named whose fault is told", async () => {
  const none = path.join(folder, "none.sock");
  const other = path.join(folder, "other-none.sock");
  const starts = await listening("starts.sock", (it) => it.end("tb_listen: Starting\n"));
  const known = /ENOENT|Starting/; // of the last one, never that no time was left
  for (const addresses of [[none, starts], [none, other]]) {
    const socket = new tb.Socket(addresses, { timeout: 100 });
    await assert.rejects(tb.Session.register(socket), ({ name, message, cause }) => {
      assert.equal(name, "CannotConnect");
      const named = /ENOENT/.test(cause.message) ? cause.message.split(" ").at(-1) : starts;
      assert.ok(message.startsWith(`${named}: ${cause.message}`), message);
      assert.match(cause.message, known);
      return true;
    });
  }
});

test("a server that was starting, and is silent then: its word is told", async (t) => {
  const now = performance.now.bind(performance);
  t.mock.method(performance, "now", () => now() / 20); // time to connect twice, on a busy machine
  let count = 0;
  const place = await listening("begins.sock", (it) => {
    count += 1;
    if (count === 1) it.end("tb_listen: Starting\n");
  });
  const socket = new tb.Socket(place, { timeout: 1000 });
  await assert.rejects(tb.Session.register(socket, { attempts: 1 }), ({ name, message }) => {
    assert.equal(name, "ReplyLost");
    assert.match(message, /^no reply came in time, after .*begins\.sock: .*: Starting$/);
    return true;
  });
});

test("what a server says is shown without its control characters", async () => {
  const page = `HTTP/1.1 400 \x1b[2J${"x".repeat(40)}`;
  for (const [name, said, shown] of [
    ["told.sock", "tb_listen: \x1b[2J\x9bIdle\n", /closed the connection: \?\[2J\?Idle$/],
    ["page.sock", page, /HTTP\/1\.1 400 $/],
  ]) {
    const place = await listening(name, (it) => it.on("data", () => it.end(said, "latin1")));
    const session = tb.Session.register(new tb.Socket(place), { attempts: 1 });
    await assert.rejects(session, ({ message, told = "" }) => {
      assert.match(message, shown);
      assert.doesNotMatch(message + told, /[^ -~]/);
      return true;
    });
  }
});

test("a path that is too long for a socket is not cut to that of another one", async () => {
  const long = path.join(folder, "x".repeat(120));
  let count = 0;
  await listening(path.basename(long).slice(0, 108 - folder.length - 1), (it) => {
    count += 1;
    it.destroy();
  });
  const socket = new tb.Socket(long, { timeout: 50 });
  await assert.rejects(tb.Session.register(socket), { name: "CannotConnect" });
  assert.equal(count, 0);
});

test("a flood while nothing is asked ends the connection: the next call makes one", async () => {
  const came = [];
  const place = await listening("flood.sock", (it) => {
    came.push(it);
    answers(it);
  });
  const session = await tb.Session.register(new tb.Socket(place), { attempts: 1 });
  const closed = once(came[0], "close", { signal: AbortSignal.timeout(1000 * SECONDS) });
  came[0].write(Buffer.alloc(1 << 16));
  await closed;
  assert.deepEqual(await session.lookupAccounts([1n]), []);
  assert.equal(came.length, 2);
  session.close();
});

test("a program that is busy beyond the timeout finds the reply that came meanwhile", async () => {
  const place = path.join(folder, "other.sock");
  const serve = `require("node:net").createServer(${answers})
    .listen(${JSON.stringify(place)}, () => console.log("listens"))`;
  const server = spawn(process.execPath, ["-e", serve], { stdio: ["ignore", "pipe", "inherit"] });
  try {
    await new Promise((resolve) => server.stdout.once("data", resolve));
    const socket = new tb.Socket(place, { timeout: 1000 });
    const session = await tb.Session.register(socket, { attempts: 1 });
    const call = session.lookupAccounts([1n]);
    for (let turn = 0; turn < 3; turn += 1) await new Promise(setImmediate); // it is sent
    const busy = performance.now() + 1500;
    while (performance.now() < busy);
    assert.deepEqual(await call, []);
    session.close();
  } finally {
    server.kill();
  }
});

test("a connection that was made for a call that was given up lets the program end", async () => {
  const place = await listening("given-up.sock", () => {});
  const code = `const net = require("node:net");
    const tb = require(${JSON.stringify(path.join(__dirname, ".."))});
    const limit = new AbortController();
    const { connect } = net;
    net.connect = (...words) => {
      const it = connect(...words);
      it.once("connect", () => setImmediate(() => limit.abort())); // before a word is waited for
      return it;
    };
    tb.Session.register(new tb.Socket(${JSON.stringify(place)}), { signal: limit.signal })
      .catch((why) => console.log(why.name, why.sent));`;
  const ended = spawnSync(process.execPath, ["-e", code], { encoding: "utf8", timeout: 60_000 });
  assert.deepEqual([ended.status, ended.stdout], [0, "Cancelled false\n"], ended.stderr);
});

test("wrong addresses and options", () => {
  const wrong = [
    [[7], "address"],
    [["a\0b"], "address"],
    [[[]], "address"],
    [[{ host: "h", port: 0 }], "port"],
    [[{ host: "", port: 1 }], "host"],
    [["x.sock", { timeout: NaN }], "timeout"],
    [["x.sock", { tls: {} }], "tls"],
    [["x.sock", 5], "options"],
  ];
  for (const [words, field] of wrong) {
    assert.throws(() => new tb.Socket(...words), (error) => {
      assert.ok(error instanceof tb.Invalid);
      assert.match(error.field, new RegExp(`\\b${field}$`));
      return true;
    });
  }
});

test("a session is saved where the system syncs no folder, as on Windows", async (t) => {
  const session = new tb.Session(new tb.Socket(path.join(folder, "none.sock")));
  const { open } = fs;
  t.mock.method(fs, "open", async (name, ...how) => {
    const it = await open(name, ...how);
    const denied = Object.assign(new Error("EPERM: fsync"), { code: "EPERM" });
    if ((await it.stat()).isDirectory()) it.sync = () => Promise.reject(denied);
    return it;
  });
  const place = path.join(folder, "windows.json");
  await assert.rejects(session.save(place), { name: "FileError", code: "EPERM" });
  const { platform } = process;
  Object.defineProperty(process, "platform", { value: "win32" });
  try {
    await session.save(place);
  } finally {
    Object.defineProperty(process, "platform", { value: platform });
  }
  assert.equal((await tb.Session.load(new tb.Socket("none"), place)).client, session.client);
});

test("saves at once leave the last one whole, and nothing next to it", async () => {
  const place = path.join(folder, "session.json");
  const left = `${place}.1-0123456789abcdef.new`;
  writeFileSync(left, "what a crash left");
  utimesSync(left, 0, 0);
  const saved = { client: 7n, session: 1n, number: 0, pending: "" };
  const session = tb.Session.resumed({ exchange() {} }, saved);
  const saves = [session.save(place), session.save(place)];
  session.prepare("lookup_accounts", [1n]);
  saves.push(session.save(place));
  await Promise.all(saves);
  assert.equal(tb.decodeSaved(readFileSync(place, "ascii")).pending, session.saved.pending);
  assert.deepEqual(readdirSync(folder).filter((it) => it.startsWith("session.json")), [
    "session.json",
  ]);
  await assert.rejects(session.save(path.join(folder, "none", "x")), { code: "ENOENT" });
  await assert.rejects(session.save(folder), { name: "InvalidValue", field: "path" });
  await assert.rejects(session.save(""), { name: "InvalidValue", field: "path" });
  const again = await tb.Session.load({ exchange() {} }, place);
  assert.deepEqual(again.saved, session.saved);
});
