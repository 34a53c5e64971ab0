// Only types: what the compiler takes, and in the lines that are marked, what it refuses.
import {
  AccountFlags,
  CreateTransferResult,
  Evicted,
  EventsFailed,
  Locked,
  Operation,
  ProgramEnded,
  Session,
  Socket,
  TransferFlags,
  connect,
  flagNames,
  id,
  open,
  requireOk,
  type Client,
  type Transfer,
  type TransferRecord,
  type TransferResult,
} from "tb-client";

export async function pay(session: Session, file: string, amount: bigint): Promise<bigint> {
  const sale: Transfer = {
    id: id(),
    debit_account_id: 1n,
    credit_account_id: 2n,
    amount,
    ledger: 700,
    code: 10,
    flags: TransferFlags.linked | TransferFlags.pending,
  };
  session.prepare(Operation.create_transfers, [sale]);
  await session.save(file);
  const said = await session.retry<TransferResult[]>({ within: 2000 });
  requireOk(said.filter((it) => it.result !== "exists"));
  await session.save(file);
  return sale.id;
}

export async function begin(file: string): Promise<Session> {
  const places = [{ host: "10.0.0.1", port: 3001 }, { host: "10.0.0.2", port: 3001 }];
  const session = await Session.register(new Socket(places, { tls: { ca: "PEM" } }), {
    attempts: 10,
  });
  requireOk(
    await session.createAccounts([
      { id: 1n, ledger: 700, code: 10 },
      { id: 2n, ledger: 700, code: 10, flags: AccountFlags.debits_must_not_exceed_credits },
    ]),
  );
  await session.save(file);
  return session;
}

export async function resumed(file: string): Promise<TransferRecord[]> {
  const socket = new Socket("ledger.sock", { timeout: 1000 });
  let session = await Session.load(socket, file);
  try {
    requireOk(await session.retry());
  } catch (why) {
    if (why instanceof EventsFailed) return [];
    const asked = session.inDoubt;
    if (!(why instanceof Evicted) || asked?.operation !== "create_transfers") throw why;
    session = await Session.register(socket);
    const results = await session.createTransfers(asked.items);
    const refused = results.filter((it) => it.result !== "exists");
    for (const it of refused) console.log(it.index, CreateTransferResult[it.result]);
  }
  const found = await session.lookupTransfers([1n]);
  const amount: bigint = found[0]?.amount ?? 0n;
  console.log(flagNames(TransferFlags, found[0]?.flags ?? 0).includes("pending"), amount);
  return found;
}

export async function inAFile(file: string): Promise<Client> {
  try {
    const lines: string[] = [];
    const progress = (done: number, size: number) => console.log(done / size);
    const report = (line: string) => void lines.push(line);
    const ledger: Client = await open(file, { existing: true, aheadMax: null, report, progress });
    await ledger[Symbol.asyncDispose]();
  } catch (why) {
    if (why instanceof Locked) console.log(why.owner?.toFixed() ?? "no owner");
    else if (why instanceof ProgramEnded) console.log(why.fault, why.told, why.status);
  }
  return connect("10.0.0.1:3001,10.0.0.2:3001", { sessions: 4, timeout: 1000 });
}

declare const console: { log(...words: unknown[]): void };
declare const session: Session;

// @ts-expect-error an amount is no number
void session.createTransfers([{ id: 1n, amount: 10.99 }]);
// @ts-expect-error nor is an id
void session.lookupAccounts([1]);
// @ts-expect-error nor is it a string
void session.createTransfers([{ id: "1" }]);
// @ts-expect-error a field that no transfer has
void session.createTransfers([{ id: 1n, ammount: 1n }]);
// @ts-expect-error a transfer without an id
void session.createTransfers([{ amount: 1n }]);
// @ts-expect-error ids of a lookup are no records
session.prepare(Operation.lookup_accounts, [{ id: 1n }]);
// @ts-expect-error no such operation
session.prepare("create", []);
// @ts-expect-error no such result
void session.createTransfers([]).then((results) => results[0]?.result === "exist");
// @ts-expect-error an option that open does not have
void open("books.tbk", { exsisting: true });
// @ts-expect-error a wide profile
void open("books.tbk", { profile: 3 });
// @ts-expect-error a promise of a client is none
open("books.tbk").createAccounts([]);
