// The types of tb-client. They need no others: neither Node's nor the browser's.

import type {
  Account,
  CreateAccountResultName,
  CreateTransferResultName,
  Operation,
  OperationName,
  Status,
  Transfer,
} from "./names";

export {
  AMOUNT_MAX,
  Account,
  AccountFlags,
  CreateAccountResult,
  CreateAccountResultName,
  CreateTransferResult,
  CreateTransferResultName,
  ITEMS_MAX,
  NUMBER_MAX,
  Operation,
  OperationName,
  Status,
  StatusName,
  Transfer,
  TransferFlags,
} from "./names";

declare global {
  interface SymbolConstructor {
    readonly asyncDispose: unique symbol;
  }
}

// Values

/** An account as the ledger has it, with all its fields. */
export type AccountRecord = Readonly<Required<Account>>;
/** A transfer as the ledger has it, with all its fields. */
export type TransferRecord = Readonly<Required<Transfer>>;

/** An event of a batch that was not accepted: its place in the batch, from 0, and why. */
export interface EventResult<Name extends string = string> {
  readonly index: number;
  readonly result: Name;
  /** The number of the result, in CreateAccountResult or CreateTransferResult. */
  readonly code: number;
}
/** An account that was not created, and why. */
export type AccountResult = EventResult<CreateAccountResultName>;
/** A transfer that was not made, and why. */
export type TransferResult = EventResult<CreateTransferResultName>;

/**
 * A whole account of these fields: each is checked, and omitted ones are 0. Calls take
 * plain objects too; this tests them early.
 */
export declare function account(fields: Account): AccountRecord;
/** A whole transfer of these fields: each is checked, and omitted ones are 0. */
export declare function transfer(fields: Transfer): TransferRecord;
/** The names of the flags that are set: `flagNames(TransferFlags, 3)` is ["linked", "pending"]. */
export declare function flagNames<Name extends string>(
  kind: { readonly [name in Name]: number },
  flags: number,
): Name[];
/**
 * A new id of 128 bits: 48 bits of milliseconds since 1970, and 80 random ones. It is above each
 * earlier one of this thread, also if the clock is set back.
 */
export declare function id(): bigint;

// Calls

/** An AbortSignal, as Node and browsers have it. */
export interface CallSignal {
  readonly aborted: boolean;
  readonly reason?: any;
  addEventListener(type: "abort", listener: () => void, options?: { once?: boolean }): void;
  removeEventListener(type: "abort", listener: () => void): void;
}

/** The caller's own limits of a call: if one comes, the call is Cancelled. */
export interface CallOptions {
  /** An AbortSignal. */
  signal?: CallSignal;
  /** Milliseconds. */
  within?: number;
}

/** The options of a session. */
export interface SessionOptions {
  /** How often a request is sent in one call: 5. */
  attempts?: number;
  /**
   * Milliseconds before a request is sent again if the server said to come later: 50. It is
   * doubled each time, up to a second or to `pause`, whichever is longer.
   */
  pause?: number;
}

/** The options of a new session. */
export interface NewSessionOptions extends SessionOptions {
  /** The client's id, 1 to 2^128 - 1, that no other client has: otherwise a new one. */
  client?: bigint;
}

/** What outlives a client. */
export interface Saved {
  /** The client's id. */
  readonly client: bigint;
  /** Its session, 0 before it is registered. */
  readonly session: bigint;
  /** The number of the last request that was answered. */
  readonly number: number;
  /** The bytes of the request in doubt, in hex, or "". */
  readonly pending: string;
}

/** What was saved, as JSON with exact integers: what `save` writes. */
export declare function encodeSaved(saved: Saved): string;
/** What such JSON says. `Session.resumed` tests the values. */
export declare function decodeSaved(text: string): Saved;

/** A request that has no reply yet, with its records or ids. */
export type Request =
  | RequestOf<"register", never>
  | RequestOf<"create_accounts", AccountRecord>
  | RequestOf<"create_transfers", TransferRecord>
  | RequestOf<"lookup_accounts" | "lookup_transfers", bigint>;

/** A request of some operations. */
export interface RequestOf<Name extends OperationName, Item> {
  readonly client: bigint;
  readonly session: bigint;
  readonly number: number;
  readonly operation: Name;
  readonly items: readonly Item[];
}

/** What a reply says: results of a create, records of a lookup, undefined of a register. */
export type Said =
  | AccountResult[]
  | TransferResult[]
  | AccountRecord[]
  | TransferRecord[]
  | undefined;

// Transports

/** Carries frames. */
export interface Transport {
  /**
   * Sends the frame of a request, and returns the frame of its reply. Rejects by ReplyLost if none
   * came, by Busy if the server said to come later, and by a NotSent if nothing was sent.
   */
  exchange(frame: Uint8Array, options?: { signal?: CallSignal }): Promise<Uint8Array>;
  /** Closes it, at once. */
  close?(): void;
}

/** A Unix socket's path, or a host and a port. */
export type Address = string | { readonly host: string; readonly port: number };

/** The options of `tls.connect`, of which these are the usual ones. */
export interface TlsOptions {
  /** The authorities, PEM: otherwise those that Node knows. */
  ca?: string | Uint8Array | readonly (string | Uint8Array)[];
  /** The client's own certificate, PEM. */
  cert?: string | Uint8Array;
  /** Its key, PEM. */
  key?: string | Uint8Array;
  /** The name that the server's certificate has to be of: otherwise the host. */
  servername?: string;
  [option: string]: unknown;
}

/** The options of a Socket. */
export interface SocketOptions {
  /** Milliseconds for one sending, from the connecting to the reply's last byte: 5000. */
  timeout?: number;
  /** TLS, to a host and a port. */
  tls?: TlsOptions;
}

/**
 * A connection to a server at a Unix socket's path, or at a host and a port; or to one of several,
 * in an array.
 *
 * It is made when a request is to be sent. One that broke, that the server closed, or on which no
 * reply came in time is closed, and the next exchange makes a new one, to the next address if there
 * are several. If no connection can be made within `timeout`, nothing is sent, and it is
 * CannotConnect. Sessions may share a Socket: their exchanges go one after another.
 */
export declare class Socket implements Transport {
  constructor(address: Address | readonly Address[], options?: SocketOptions);
  /** The address of the connection, or of the next one. */
  readonly address: Address;
  exchange(frame: Uint8Array, options?: { signal?: CallSignal }): Promise<Uint8Array>;
  /** Closes the connection, at once: an exchange in flight is ReplyLost. Later ones are Closed. */
  close(): void;
}

// Sessions

/**
 * The session of a client.
 *
 * `saved` is what outlives the client. Whoever keeps it between `prepare` and `retry` can go on
 * after a crash, by `Session.resumed`, and knows after `retry` what the last request did. `save`
 * and `load` keep it in a file.
 *
 * A request is sent `attempts` times at most in a call, and then stays in doubt. Calls at once go
 * one after another: while one is in doubt the others are InDoubt.
 */
export declare class Session {
  /** A session that is not registered: sends nothing. */
  constructor(transport: Transport, options?: NewSessionOptions);
  /** Registers a client, and returns its new session. */
  static register(
    transport: Transport,
    options?: NewSessionOptions & CallOptions,
  ): Promise<Session>;
  /** The session as it was when `saved` was taken. If a request was in doubt, `retry` it. */
  static resumed(transport: Transport, saved: Saved, options?: SessionOptions): Session;
  /** The session that `save` kept in a file. If a request was in doubt, `retry` it first. */
  static load(transport: Transport, path: string, options?: SessionOptions): Promise<Session>;

  /** The client's id. */
  readonly client: bigint;
  /** The session, 0 before it is registered. */
  readonly session: bigint;
  /** The number of the last request that was answered. */
  readonly number: number;
  /** What outlives the client. */
  readonly saved: Saved;
  /**
   * The request that has no reply yet, with its records or ids, or null. It is kept over refusals,
   * because it may have been executed before: after an eviction create its records again, with the
   * same ids, in a new session.
   */
  readonly inDoubt: Request | null;

  /** Creates accounts. Returns the results of those that were not created, by index. */
  createAccounts(accounts: readonly Account[], options?: CallOptions): Promise<AccountResult[]>;
  /** Makes transfers. Returns the results of those that were not made, by index. */
  createTransfers(transfers: readonly Transfer[], options?: CallOptions): Promise<TransferResult[]>;
  /** The accounts that are there, in the order of the ids. */
  lookupAccounts(ids: readonly bigint[], options?: CallOptions): Promise<AccountRecord[]>;
  /** The transfers that are there, in the order of the ids. */
  lookupTransfers(ids: readonly bigint[], options?: CallOptions): Promise<TransferRecord[]>;

  /** Makes the next request, which is in doubt from then on: keep `saved`, then `retry`. */
  prepare(operation: typeof Operation.register | "register"): void;
  prepare(
    operation: typeof Operation.create_accounts | "create_accounts",
    accounts: readonly Account[],
  ): void;
  prepare(
    operation: typeof Operation.create_transfers | "create_transfers",
    transfers: readonly Transfer[],
  ): void;
  prepare(
    operation:
      | typeof Operation.lookup_accounts
      | typeof Operation.lookup_transfers
      | "lookup_accounts"
      | "lookup_transfers",
    ids: readonly bigint[],
  ): void;
  /**
   * Sends the request in doubt, the same bytes each time, until its reply has come. Returns what
   * it says: `retry<TransferResult[]>()` is typed by what was prepared.
   */
  retry<S extends Said = Said>(options?: CallOptions): Promise<S>;

  /**
   * Keeps `saved` in a file, whole: after a crash the file has it as it is now or as it was
   * before.
   */
  save(path: string): Promise<void>;
  /** Closes the transport. */
  close(): void;
}

/**
 * Throws EventsFailed if an event was not accepted. What else a reply says, as the records of a
 * lookup, is passed over.
 */
export declare function requireOk(results: Said): void;

// Clients that callers share

/** The options of `createClient`: those of TigerBeetle's, and more. */
export interface ClientOptions extends SocketOptions {
  /** Any number: the server has no such id, and it is not sent. */
  cluster_id: bigint;
  /**
   * Ports ("3000", 3000), hosts with or without a port ("10.0.0.1:3000"), or paths of Unix sockets,
   * which have a slash. All have to serve one ledger.
   */
  replica_addresses: string | number | readonly (string | number)[];
  /** How many requests may be in flight, each in a session of its own: 1, which keeps the order. */
  sessions?: number;
  /** The upper 64 bits of the ids of the client's sessions. */
  client_range?: bigint;
}

/**
 * A client that callers share, with the calls of TigerBeetle's own. Lists of calls that wait while
 * a request is in flight go out as the next request, and each call gets its own results.
 *
 * A call waits until its reply is there, whatever is lost and whoever ends meanwhile, or until its
 * `signal` or `within` ends it. One that ends does not disturb the others. A session that was
 * evicted is replaced, and what was in doubt then is settled.
 */
export interface Client {
  /** Creates accounts. Returns the results of those that were not created, by index. */
  createAccounts(accounts: readonly Account[], options?: CallOptions): Promise<AccountResult[]>;
  /** Makes transfers. Returns the results of those that were not made, by index. */
  createTransfers(transfers: readonly Transfer[], options?: CallOptions): Promise<TransferResult[]>;
  /** The accounts that are there, in the order of the ids. */
  lookupAccounts(ids: readonly bigint[], options?: CallOptions): Promise<AccountRecord[]>;
  /** The transfers that are there, in the order of the ids. */
  lookupTransfers(ids: readonly bigint[], options?: CallOptions): Promise<TransferRecord[]>;
  /** TigerBeetle's queries, which the server does not answer: each is NotSupported. */
  queryAccounts(...given: unknown[]): Promise<never>;
  queryTransfers(...given: unknown[]): Promise<never>;
  getAccountTransfers(...given: unknown[]): Promise<never>;
  getAccountBalances(...given: unknown[]): Promise<never>;
  /**
   * Closes the client. A request in flight is waited for, as long as one sending may take; calls
   * of which nothing was sent are Closed.
   */
  close(): Promise<void>;
  /** Begins to close the client, as TigerBeetle's does. */
  destroy(): void;
  /** `close`, at the end of the block of an `await using`. Node has it from 18.18 on. */
  [Symbol.asyncDispose](): Promise<void>;
}

/** A client of the server at these addresses. It connects nothing yet. */
export declare function createClient(options: ClientOptions): Client;

// A ledger by its file, or by its addresses: the same client

/** The options of `open`. `signal` and `within` end the opening. */
export interface OpenOptions extends CallOptions {
  /** The path of tbd: otherwise the variable TBD, on PATH, next to this package or to Node. */
  program?: string;
  /** Whether a file that is not there is a fault: otherwise it is made. */
  existing?: boolean;
  /** How many clients the file has places for, as it is made, and was: 64. */
  clientsMax?: number;
  /** The profile with which the file is made, and was: 1. */
  profile?: 1 | 2;
  /**
   * Milliseconds that a locked file is waited for: 5000. The child of a program that was killed
   * ends a moment after it.
   */
  lockTimeout?: number;
  /**
   * Milliseconds that the ledger's last time may be ahead of this computer's clock: 60000. null is
   * no check.
   */
  aheadMax?: number | null;
  /** Gets the lines on what a start did to the file: otherwise they go to standard error. */
  report?: (line: string) => void;
  /**
   * Gets the MB that were read of a large file, and its MB: otherwise a terminal shows them in a
   * line.
   */
  progress?: (done: number, size: number) => void;
  /** Whether a start cuts off torn bytes without a copy. A file has 16 copies at most. */
  dropTorn?: boolean;
}

/** The options of `connect`: those of `createClient` without the addresses. */
export type ConnectOptions = Omit<ClientOptions, "cluster_id" | "replica_addresses">;

/**
 * Opens the ledger in a file, which is made if it is not there, and resolves to its client once
 * the file was read.
 *
 * tbd serves the file as a child of this process. If it is killed, it is started again, and calls
 * go on: a call that waits gets its first reply. It ends with this process. One process has a file
 * open: Locked names another. A fault of tbd is ProgramEnded, here or of a call, and the next call
 * starts tbd again.
 */
export declare function open(file: string, options?: OpenOptions): Promise<Client>;

/**
 * The client of a ledger that listens: on a port ("3001"), on a Unix socket, whose path has a
 * slash ("./ledger.sock"), or on several machines ("10.0.0.1:3001,10.0.0.2:3001"). It connects
 * when it is first asked.
 */
export declare function connect(
  addresses: ClientOptions["replica_addresses"],
  options?: ConnectOptions,
): Client;

// Errors

/** The base of all errors of this package. */
export declare class ClientError extends Error {
  /** Whether the call may have sent its request. */
  readonly sent: boolean;
  /** What it comes from, if there is something. */
  readonly cause?: unknown;
}

/** Nothing was sent by this call. */
export declare class NotSent extends ClientError {
  readonly sent: false;
}
/** A field or an argument, `field`, may not hold what was given. */
export declare class Invalid extends NotSent {
  readonly field: string;
}
/** It has the wrong type. */
export declare class InvalidType extends Invalid {}
/** It is out of its range. */
export declare class InvalidValue extends Invalid {}
/** The last request has no reply yet: `retry` it before another one is made. */
export declare class InDoubt extends NotSent {}
/** There is no request to be sent again. */
export declare class NothingInDoubt extends NotSent {}
/** The transport was closed. */
export declare class Closed extends NotSent {}
/** The server has no such call. */
export declare class NotSupported extends NotSent {
  readonly instead: string;
}
/** No connection to the server can be made. */
export declare class CannotConnect extends NotSent {
  /** One side does not trust the other, at each address. */
  readonly isFinal: boolean;
}
/** The program tbd is not found, or does not start. */
export declare class CannotStart extends NotSent {}
/** The last time of a ledger is too far ahead of this computer's clock. */
export declare class ClockJumped extends NotSent {}
/** The system refused a file: `code` is its error, as ENOENT. */
export declare class FileError extends NotSent {
  readonly path: string;
  readonly code: string;
}

/** The caller's own limit ended the call: its AbortSignal, or `within`. */
export declare class Cancelled extends ClientError {}
/** No reply came. The request may have been executed or not: send the same bytes again. */
export declare class ReplyLost extends ClientError {
  /** The name that the server gave before it closed the connection, or "". */
  readonly told: string;
}
/**
 * The server has too many connections, or this peer has its share, and the server did not take the
 * request: come later.
 */
export declare class Busy extends ReplyLost {}
/** The program tbd ended by a fault. */
export declare class ProgramEnded extends ClientError {
  /** Its line, without `tbd: `. */
  readonly fault: string;
  /** The name that the line begins with: "Full". */
  readonly told: string;
  /** The exit status. */
  readonly status: number;
}
/** The file is open in another process. */
export declare class Locked extends ProgramEnded {
  /** The process, or undefined if the system does not say. */
  readonly owner: number | undefined;
}
/** What came is no reply to the request that was sent. */
export declare class BadReply extends ClientError {}

/** The server refused the request, and changed nothing. */
export declare class Refused extends ClientError {
  /** The number of the reason, in Status. */
  readonly status: typeof Status[keyof typeof Status];
}
/** The session has ended. The last request may have been executed before that. */
export declare class Evicted extends Refused {}
/** The client has no session, register again. */
export declare class NoSession extends Evicted {}
/** The client has a later session. */
export declare class SessionTooLow extends Evicted {}
/** The server knows no such session. */
export declare class NewerSession extends Refused {}
/** A later request of the session was executed. */
export declare class Older extends Refused {}
/** The request's number was used for another request. */
export declare class Collision extends Refused {}
/** A request before it is missing. */
export declare class NewerRequest extends Refused {}
/** The request is not shown yet. */
export declare class NotYet extends Refused {}

/** Events of a batch were not accepted. */
export declare class EventsFailed extends ClientError {
  readonly results: readonly EventResult[];
}
