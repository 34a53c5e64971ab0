"use strict";

// `open`: a ledger in a file, as a child process; `connect`: the same client over sockets.

const assert = require("node:assert/strict");
const { spawn, spawnSync } = require("node:child_process");
const { once } = require("node:events");
const fs = require("node:fs");
const path = require("node:path");
const { test } = require("node:test");

const tb = require("../index.js");
const { SECONDS, STAND_IN, folderOf, keeper, killAll } = require("../helpers/keepers.js");
const { script, serving, until } = require("../helpers/keepers.js");
const { Moments, runningClock } = require("../lib/moments.js");

const LISTENER = path.join(__dirname, "..", "..", "..", "server", "out", "tb-listen");
const ACCOUNTS = [1n, 2n].map((id) => ({ id, ledger: 700, code: 10 }));
const HOUR = 3_600_000; // milliseconds

function sale(id = tb.id()) {
  return { id, debit_account_id: 1n, credit_account_id: 2n, amount: 10n, ledger: 700, code: 10 };
}

/** A folder with a file that is opened, by a program that fails as it is told. */
function placed(t, fail) {
  const folder = folderOf(t);
  const program = keeper(folder, fail);
  const file = path.join(folder, "books.tbk");
  const open = async (options) => {
    const given = { program, report: () => {}, lockTimeout: 0, ...options };
    const ledger = await tb.open(file, given);
    t.after(() => ledger.close());
    return ledger;
  };
  return { folder, program, file, open };
}

async function credited(ledger) {
  return (await ledger.lookupAccounts([2n]))[0].credits_posted;
}

test("a file is made, and found again", async (t) => {
  const { file, open } = placed(t);
  const lines = [];
  const report = (line) => lines.push(line);
  const ledger = await open({ report });
  assert.deepEqual(await ledger.createAccounts(ACCOUNTS), []);
  assert.deepEqual(await ledger.createTransfers([sale()]), []);
  await ledger.close();
  await ledger.close();
  await assert.rejects(ledger.lookupAccounts([1n]), tb.Closed);
  assert.deepEqual(serving(file), []);
  assert.equal(await credited(await open({ existing: true, report })), 10n);
  assert.deepEqual(lines, [`tbd: made ${file}`]);
});

test("existing makes no file", async (t) => {
  const { file, open } = placed(t);
  await assert.rejects(open({ existing: true }), (why) => {
    assert.ok(why instanceof tb.ProgramEnded);
    assert.deepEqual([why.told, why.status, why.sent], ["Device", 1, false]);
    return true;
  });
  assert.ok(!fs.existsSync(file));
});

for (const [name, value] of Object.entries({
    existing: 1,
    dropTorn: 1,
    clientsMax: 65,
    profile: 3,
    lockTimeout: -1,
    aheadMax: NaN,
    report: 1,
    progress: 1,
    program: 1,
    signal: 1,
    within: -1,
    exsisting: true,
  })) {
  test(`the option ${name}: ${value} is refused`, async (t) => {
    const { file, open } = placed(t);
    const wrong = (why) => why instanceof tb.Invalid && why.field === name;
    await assert.rejects(open({
      [name]: value
    }), wrong);
    assert.ok(!fs.existsSync(file));
  });
}

for (const wrong of ["", "a\0b", 7, null]) {
  test(`the path ${JSON.stringify(wrong)} is refused`, async (t) => {
    const { program } = placed(t);
    await assert.rejects(tb.open(wrong, { program }), (why) => why.field === "file");
  });
}

/** A variable of the environment, as it was before after a test. */
function setVariable(t, name, value) {
  const before = process.env[name];
  t.after(() => {
    if (before === undefined) delete process.env[name];
    else process.env[name] = before;
  });
  if (value === undefined) delete process.env[name];
  else process.env[name] = value;
}

for (const where of ["option", "variable", "path", "package"]) {
  test(`the program is found by ${where}`, async (t) => {
    const { folder, file } = placed(t);
    const program = keeper(folder, "Full:8:99");
    setVariable(t, "TBD", where === "variable" ? program : undefined);
    if (where === "path") setVariable(t, "PATH", `${folder}:${process.env.PATH}`);
    let client = tb;
    if (where === "package") {
      const copy = path.join(folder, "package");
      fs.cpSync(path.join(__dirname, ".."), copy, { recursive: true });
      fs.copyFileSync(program, path.join(copy, "tbd"));
      client = require(copy);
    }
    const options = where === "option" ? { program } : {};
    const ledger = await client.open(file, { report: () => {}, ...options });
    t.after(() => ledger.close());
    assert.deepEqual(await ledger.createAccounts(ACCOUNTS), []);
  });
}

for (const given of ["nothing", "program", "TBD"]) {
  test(`a missing program says what to install, of ${given}`, async (t) => {
    const { folder, file } = placed(t);
    setVariable(t, "PATH", folder);
    setVariable(t, "TBD", given === "TBD" ? "/nowhere/tbd" : undefined);
    fs.rmSync(path.join(folder, "tbd"), { force: true });
    const options = given === "program" ? { program: "/nowhere/tbd" } : {};
    await assert.rejects(tb.open(file, options), (why) => {
      assert.ok(why instanceof tb.CannotStart && !why.sent);
      assert.match(why.message, /install the package telovamish/);
      assert.equal(why.message.includes("/nowhere/tbd is no program"), given !== "nothing");
      return true;
    });
  });
}

test("a program that does not start", async (t) => {
  const { folder, file } = placed(t);
  const program = path.join(folder, "wrong");
  fs.writeFileSync(program, "#!/nowhere/sh\n", { mode: 0o755 });
  await assert.rejects(tb.open(file, { program }), tb.CannotStart);
});

const READING = [64, 128].map((it) => `echo 'tbd: reading books.tbk, ${it} of 900 MB' >&2`);

test("the progress of a long start", async (t) => {
  const { folder, open } = placed(t);
  const program = script(folder, "slow", ...READING, `exec python3 -SE '${STAND_IN}' "$@"`);
  const found = [];
  await open({ program, progress: (...it) => found.push(it) });
  assert.deepEqual(found, [[64, 900], [128, 900], [900, 900]]);
});

for (const how of ["signal", "within"]) {
  test(`a start that ${how} ends leaves no child`, async (t) => {
    const { folder, file, open } = placed(t);
    const program = script(folder, "slow", ...READING, "exec sleep 1000");
    const controller = new AbortController();
    const progress = () => controller.abort(new Error("enough"));
    const given = how === "signal" ? { signal: controller.signal, progress } : { within: 50 };
    await assert.rejects(open({ program, ...given }), (why) => {
      assert.ok(why instanceof tb.Cancelled && !why.sent);
      return true;
    });
    assert.deepEqual(serving(file), []);
  });
}

for (const place of ["read", "half", "kept", "part", "told"]) {
  // `exists` would be the reply to other bytes, or in another session
  test(`a call gets its first reply, of a child that is killed at ${place}`, async (t) => {
    const { open } = placed(t, `SIGKILL:${place}:3`);
    const ledger = await open();
    await ledger.createAccounts(ACCOUNTS);
    for (let at = 0; at < 6; at += 1) {
      assert.deepEqual(await ledger.createTransfers([sale()]), []);
    }
    assert.equal(await credited(ledger), 60n);
  });
}

test("a child that is killed between calls", async (t) => {
  const { file, open } = placed(t);
  const ledger = await open();
  await ledger.createAccounts(ACCOUNTS);
  for (let at = 0; at < 2; at += 1) {
    killAll(serving(file));
    assert.deepEqual(await ledger.createTransfers([sale()]), []);
  }
  assert.equal(await credited(ledger), 20n);
  await ledger.close();
  assert.deepEqual(serving(file), []);
});

test("a restart makes no other ledger", async (t) => {
  const { file, open } = placed(t);
  const ledger = await open();
  await ledger.createAccounts(ACCOUNTS);
  fs.renameSync(file, `${file}.old`);
  killAll(serving(file));
  const transfer = sale();
  await assert.rejects(ledger.createTransfers([transfer]), (why) => why.told === "Device");
  assert.ok(!fs.existsSync(file));
  fs.renameSync(`${file}.old`, file);
  assert.deepEqual(await ledger.createTransfers([transfer]), []);
});

test("a child that is killed at each start", async (t) => {
  const { folder, open } = placed(t);
  const program = script(folder, "killed", `echo >> ${folder}/starts`, "kill -9 $$");
  await assert.rejects(open({ program }), (why) => {
    assert.ok(why instanceof tb.CannotStart);
    assert.match(why.message, /killed by SIGKILL, each of 5 times/);
    return true;
  });
  assert.equal(fs.readFileSync(path.join(folder, "starts"), "utf8"), "\n".repeat(5));
});

test("a ledger that is closed while it is read again", async (t) => {
  const { folder, file, open } = placed(t);
  const once = path.join(folder, "once");
  const program = script(folder, "slow", `test -e ${once} && read it`, `touch ${once}`,
    `FAIL=SIGKILL:read:3 exec python3 -SE '${STAND_IN}' "$@"`);
  const ledger = await open({ program });
  await ledger.createAccounts(ACCOUNTS);
  const [killed] = serving(file); // by itself, when it has read the transfer
  const call = ledger.createTransfers([sale()]);
  const refused = assert.rejects(call, tb.ReplyLost);
  await until(() => serving(file).some((it) => it !== killed));
  await ledger.close();
  await refused;
  assert.deepEqual(serving(file), []);
});

const ENDS = {
  "at its end": "",
  "by process.exit": "process.exit(0)",
  "by a kill": 'process.kill(process.pid, "SIGKILL")',
  "by an exception": "throw new Error()",
};

for (const [how, text] of Object.entries(ENDS)) {
  test(`the child ends with the program, ${how}`, async (t) => {
    const { file, program } = placed(t);
    const code = `
      const tb = require(${JSON.stringify(path.join(__dirname, ".."))});
      tb.open(process.argv[1], { program: process.argv[2], report() {} }).then(async (ledger) => {
        await ledger.createAccounts([{ id: 1n, ledger: 700, code: 10 }]);
        console.log("made");
        ${text}
      });`;
    const ran = spawnSync(process.execPath, ["-e", code, file, program], { encoding: "utf8" });
    assert.equal(ran.stdout, "made\n", ran.stderr);
    const isKilled = how === "by a kill";
    assert.equal(ran.signal, isKilled ? "SIGKILL" : null);
    if (!isKilled) assert.equal(ran.status, how === "by an exception" ? 1 : 0);
    await until(() => serving(file).length === 0);
  });
}

test("a file that is open elsewhere", async (t) => {
  const { file, open } = placed(t);
  const ledger = await open();
  const [owner] = serving(file);
  await assert.rejects(open(), (why) => {
    assert.ok(why instanceof tb.Locked && why instanceof tb.ProgramEnded && !why.sent);
    assert.deepEqual([why.owner, why.told, why.status], [owner, "Locked", 4]);
    assert.match(why.fault, /^Locked: .* is open in another program; end that one first$/);
    assert.match(why.message, new RegExp(`process ${owner} .* by process ${process.pid} `, "s"));
    return true;
  });
  assert.deepEqual(await ledger.createAccounts(ACCOUNTS), []);
  const next = open({ lockTimeout: 1000 * SECONDS });
  await ledger.close(); // the child of a program that was killed ends a moment after it
  assert.deepEqual(await (await next).createTransfers([sale()]), []);
});

for (const [how, wanted] of Object.entries({
    "another file": ["NotAJournal", 5],
    "other rules": ["OtherRules", 7],
  })) {
  test(`${how} is refused`, async (t) => {
    const { file, open } = placed(t);
    if (how === "another file") fs.writeFileSync(file, "no ledger, and not empty");
    else await (await open()).close();
    const before = fs.readFileSync(file);
    await assert.rejects(open({ clientsMax: 2 }), (why) => {
      assert.deepEqual([why.told, why.status], wanted);
      assert.ok(why.fault.startsWith(wanted[0]));
      return true;
    });
    assert.deepEqual(fs.readFileSync(file), before);
  });
}

test("a fault amid the service is passed on, and the next call starts again", async (t) => {
  const { open } = placed(t, "Full:8:3");
  const ledger = await open();
  await ledger.createAccounts(ACCOUNTS);
  const transfer = sale();
  await assert.rejects(ledger.createTransfers([transfer]), (why) => {
    assert.ok(why instanceof tb.ProgramEnded && why.sent);
    assert.deepEqual([why.fault, why.status], ["Full", 8]);
    return true;
  });
  assert.deepEqual(await ledger.createTransfers([transfer]), []);
});

test("what is no reply ends the child", async (t) => {
  const { folder, open } = placed(t);
  const ready = "echo 'tbd: ready: commit 0, time 0' >&2";
  const program = script(folder, "wrong", ready, "yes 'no reply' | head -c 100",
    `touch ${folder}/said`, "exec cat > /dev/null");
  const ledger = await open({ program });
  await until(() => fs.existsSync(path.join(folder, "said")));
  await assert.rejects(ledger.createAccounts(ACCOUNTS), tb.BadReply);
});

test("callers share a ledger", async (t) => {
  const { open } = placed(t);
  const ledger = await open();
  await ledger.createAccounts(ACCOUNTS);
  const calls = Array.from({ length: 100 }, () => ledger.createTransfers([sale()]));
  assert.ok((await Promise.all(calls)).every((it) => it.length === 0));
  assert.equal(await credited(ledger), 1000n);
});

test("a ledger whose time is ahead", async (t) => {
  const { folder, file, open } = placed(t);
  const time = BigInt(Date.now() + HOUR) * 1_000_000n;
  const line = `echo 'tbd: ready: commit 1, time ${time}' >&2`;
  const program = script(folder, "ahead", line, "exec cat > /dev/null");
  await assert.rejects(open({ program }), (why) => {
    assert.ok(why instanceof tb.ClockJumped && !why.sent);
    assert.match(why.message, /last time is 3[56]\d\d/);
    return true;
  });
  assert.deepEqual(serving(file), []);
  for (const aheadMax of [2 * HOUR, null]) await (await open({ program, aheadMax })).close();
});

// each step is what the clock and the time that goes by rise by
for (const [name, steps, wanted] of [
  ["as the clock", [[5n, 5n]], [105n]],
  ["set back", [[5n, 5n], [-50n, 1n], [0n, 9n]], [105n, 105n, 105n]],
  ["set ahead", [[5000n, 2000n], [1_000_000n, 1000n]], [2102n, 3103n]],
]) {
  test(`moments never fall: ${name}`, () => {
    const at = [100n, 7n];
    const moments = new Moments(() => at[0], () => at[1]);
    const found = steps.map(([clock, gone]) => {
      at[0] += clock;
      at[1] += gone;
      return moments.next();
    });
    assert.deepEqual(found, wanted);
    moments.goOn(9_000_000n);
    moments.goOn(8_000_000n);
    assert.equal(moments.next(), 9_000_000n);
  });
}

test("the time of a sleep counts", () => {
  const SECOND = 1_000_000_000n;
  let steady = 5n * SECOND;
  let uptime = 7.9;
  const running = runningClock(() => steady, () => uptime);
  assert.equal(running(), 5n * SECOND);
  steady += 2n * SECOND;
  uptime += 2;
  assert.equal(running(), 7n * SECOND);
  steady += SECOND;
  uptime += 3601;
  const most = 8n * SECOND + 3600n * SECOND;
  assert.ok(running() <= most && running() > most - 3n * SECOND);
});

test("the same client over sockets", async (t) => {
  const { folder, program, open } = placed(t);
  const { constructor } = await open();
  const place = path.join(folder, "ledger.sock");
  const words = ["--unix", place, "--tcp", "127.0.0.1:0", "--", program];
  words.push("run", path.join(folder, "other.tbk"), "64");
  const listener = spawn(LISTENER, words, { stdio: ["ignore", "ignore", "pipe"] });
  t.after(async () => {
    const ended = once(listener, "exit");
    listener.kill();
    await ended;
  });
  let said = "";
  listener.stderr.on("data", (text) => (said += text));
  await until(() => /listens on 127\.0\.0\.1:\d+/.test(said));
  const [, port] = /listens on 127\.0\.0\.1:(\d+)/.exec(said);
  for (const address of [place, port, `127.0.0.1:1,127.0.0.1:${port}`]) {
    const ledger = await tb.connect(address);
    assert.equal(ledger.constructor, constructor);
    const results = await ledger.createAccounts(ACCOUNTS);
    assert.ok(results.every((it) => it.result === "exists"));
    await ledger.close();
  }
  assert.throws(() => tb.connect(""), tb.Invalid);
});

test("the end of a block closes a client, where Node has that", {
  skip: Symbol.asyncDispose === undefined,
}, async (t) => {
  const { file, open } = placed(t);
  const ledger = await open();
  await ledger[Symbol.asyncDispose]();
  assert.deepEqual(serving(file), []);
});
