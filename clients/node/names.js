// Made by tools/tables.py --write from tools/ledger.json: edit that.

"use strict";

/** Bytes of the header of a request or reply. */
const HEADER_SIZE = 48;
/** Bytes of an account or a transfer. */
const RECORD_SIZE = 128;
/** Bytes of an id. */
const ID_SIZE = 16;
/** Bytes of the result of an event. */
const RESULT_SIZE = 8;
/** Accounts, transfers or ids in a request. */
const ITEMS_MAX = 8190;
/** Clients that can have a session at one time. */
const CLIENTS_MAX = 64;
/** The last number of a request in its session. */
const NUMBER_MAX = 4294967295;
/** No entry has a later time, in nanoseconds. */
const TIME_MAX = 9223372036854775807n;
/** As the amount of a post: all of the pending amount. */
const AMOUNT_MAX = 340282366920938463463374607431768211455n;

/** What a request asks for. */
const Operation = Object.freeze({
  register: 2,
  create_accounts: 129,
  create_transfers: 130,
  lookup_accounts: 131,
  lookup_transfers: 132,
});

/** What the server says of a request. */
const Status = Object.freeze({
  Reply: 0,
  NoSession: 1,
  SessionTooLow: 2,
  NewerSession: 3,
  Older: 4,
  Collision: 5,
  NewerRequest: 6,
  NotYet: 7,
});

/** What became of an event of create_accounts. */
const CreateAccountResult = Object.freeze({
  ok: 0,
  linked_event_failed: 1,
  linked_event_chain_open: 2,
  timestamp_must_be_zero: 3,
  reserved_field: 4,
  reserved_flag: 5,
  id_must_not_be_zero: 6,
  id_must_not_be_int_max: 7,
  flags_are_mutually_exclusive: 8,
  debits_pending_must_be_zero: 9,
  debits_posted_must_be_zero: 10,
  credits_pending_must_be_zero: 11,
  credits_posted_must_be_zero: 12,
  ledger_must_not_be_zero: 13,
  code_must_not_be_zero: 14,
  exists_with_different_flags: 15,
  exists_with_different_user_data_128: 16,
  exists_with_different_user_data_64: 17,
  exists_with_different_user_data_32: 18,
  exists_with_different_ledger: 19,
  exists_with_different_code: 20,
  exists: 21,
});

/** What became of an event of create_transfers. */
const CreateTransferResult = Object.freeze({
  ok: 0,
  linked_event_failed: 1,
  linked_event_chain_open: 2,
  timestamp_must_be_zero: 3,
  reserved_flag: 4,
  id_must_not_be_zero: 5,
  id_must_not_be_int_max: 6,
  flags_are_mutually_exclusive: 7,
  debit_account_id_must_not_be_zero: 8,
  debit_account_id_must_not_be_int_max: 9,
  credit_account_id_must_not_be_zero: 10,
  credit_account_id_must_not_be_int_max: 11,
  accounts_must_be_different: 12,
  pending_id_must_be_zero: 13,
  pending_id_must_not_be_zero: 14,
  pending_id_must_not_be_int_max: 15,
  pending_id_must_be_different: 16,
  timeout_reserved_for_pending_transfer: 17,
  ledger_must_not_be_zero: 19,
  code_must_not_be_zero: 20,
  debit_account_not_found: 21,
  credit_account_not_found: 22,
  accounts_must_have_the_same_ledger: 23,
  transfer_must_have_the_same_ledger_as_accounts: 24,
  pending_transfer_not_found: 25,
  pending_transfer_not_pending: 26,
  pending_transfer_has_different_debit_account_id: 27,
  pending_transfer_has_different_credit_account_id: 28,
  pending_transfer_has_different_ledger: 29,
  pending_transfer_has_different_code: 30,
  exceeds_pending_transfer_amount: 31,
  pending_transfer_has_different_amount: 32,
  pending_transfer_already_posted: 33,
  pending_transfer_already_voided: 34,
  pending_transfer_expired: 35,
  exists_with_different_flags: 36,
  exists_with_different_debit_account_id: 37,
  exists_with_different_credit_account_id: 38,
  exists_with_different_amount: 39,
  exists_with_different_pending_id: 40,
  exists_with_different_user_data_128: 41,
  exists_with_different_user_data_64: 42,
  exists_with_different_user_data_32: 43,
  exists_with_different_timeout: 44,
  exists_with_different_code: 45,
  exists: 46,
  overflows_debits_pending: 47,
  overflows_credits_pending: 48,
  overflows_debits_posted: 49,
  overflows_credits_posted: 50,
  overflows_debits: 51,
  overflows_credits: 52,
  overflows_timeout: 53,
  exceeds_credits: 54,
  exceeds_debits: 55,
  closing_transfer_must_be_pending: 64,
  debit_account_already_closed: 65,
  credit_account_already_closed: 66,
  exists_with_different_ledger: 67,
  id_already_failed: 68,
});

/** The flags of accounts. */
const AccountFlags = Object.freeze({
  linked: 1,
  debits_must_not_exceed_credits: 2,
  credits_must_not_exceed_debits: 4,
  history: 8,
  imported: 16,
  closed: 32,
});

/** The flags of transfers. */
const TransferFlags = Object.freeze({
  linked: 1,
  pending: 2,
  post_pending_transfer: 4,
  void_pending_transfer: 8,
  balancing_debit: 16,
  balancing_credit: 32,
  closing_debit: 64,
  closing_credit: 128,
  imported: 256,
});

/** Bytes of an item in the body of a request, by operation. */
const REQUEST_ITEM_SIZES = Object.freeze({
  129: 128,
  130: 128,
  131: 16,
  132: 16,
});

/** Bytes of an item in the body of a reply, by operation. */
const REPLY_ITEM_SIZES = Object.freeze({
  129: 8,
  130: 8,
  131: 128,
  132: 128,
});

/** Where each field is, and how many bytes it has. */
const LAYOUTS = Object.freeze({
  account: Object.freeze([
    Object.freeze({ name: "id", at: 0, bytes: 16 }),
    Object.freeze({ name: "debits_pending", at: 16, bytes: 16 }),
    Object.freeze({ name: "debits_posted", at: 32, bytes: 16 }),
    Object.freeze({ name: "credits_pending", at: 48, bytes: 16 }),
    Object.freeze({ name: "credits_posted", at: 64, bytes: 16 }),
    Object.freeze({ name: "user_data_128", at: 80, bytes: 16 }),
    Object.freeze({ name: "user_data_64", at: 96, bytes: 8 }),
    Object.freeze({ name: "user_data_32", at: 104, bytes: 4 }),
    Object.freeze({ name: "reserved", at: 108, bytes: 4 }),
    Object.freeze({ name: "ledger", at: 112, bytes: 4 }),
    Object.freeze({ name: "code", at: 116, bytes: 2 }),
    Object.freeze({ name: "flags", at: 118, bytes: 2 }),
    Object.freeze({ name: "timestamp", at: 120, bytes: 8 }),
  ]),
  transfer: Object.freeze([
    Object.freeze({ name: "id", at: 0, bytes: 16 }),
    Object.freeze({ name: "debit_account_id", at: 16, bytes: 16 }),
    Object.freeze({ name: "credit_account_id", at: 32, bytes: 16 }),
    Object.freeze({ name: "amount", at: 48, bytes: 16 }),
    Object.freeze({ name: "pending_id", at: 64, bytes: 16 }),
    Object.freeze({ name: "user_data_128", at: 80, bytes: 16 }),
    Object.freeze({ name: "user_data_64", at: 96, bytes: 8 }),
    Object.freeze({ name: "user_data_32", at: 104, bytes: 4 }),
    Object.freeze({ name: "timeout", at: 108, bytes: 4 }),
    Object.freeze({ name: "ledger", at: 112, bytes: 4 }),
    Object.freeze({ name: "code", at: 116, bytes: 2 }),
    Object.freeze({ name: "flags", at: 118, bytes: 2 }),
    Object.freeze({ name: "timestamp", at: 120, bytes: 8 }),
  ]),
  result: Object.freeze([
    Object.freeze({ name: "index", at: 0, bytes: 4 }),
    Object.freeze({ name: "result", at: 4, bytes: 4 }),
  ]),
  request_header: Object.freeze([
    Object.freeze({ name: "client", at: 0, bytes: 16 }),
    Object.freeze({ name: "session", at: 16, bytes: 8 }),
    Object.freeze({ name: "request", at: 24, bytes: 4 }),
    Object.freeze({ name: "operation", at: 28, bytes: 1 }),
    Object.freeze({ name: "length", at: 32, bytes: 4 }),
  ]),
  reply_header: Object.freeze([
    Object.freeze({ name: "client", at: 0, bytes: 16 }),
    Object.freeze({ name: "session", at: 16, bytes: 8 }),
    Object.freeze({ name: "request", at: 24, bytes: 4 }),
    Object.freeze({ name: "operation", at: 28, bytes: 1 }),
    Object.freeze({ name: "status", at: 29, bytes: 1 }),
    Object.freeze({ name: "length", at: 32, bytes: 4 }),
    Object.freeze({ name: "commit", at: 36, bytes: 8 }),
  ]),
});

module.exports = {
  HEADER_SIZE,
  RECORD_SIZE,
  ID_SIZE,
  RESULT_SIZE,
  ITEMS_MAX,
  CLIENTS_MAX,
  NUMBER_MAX,
  TIME_MAX,
  AMOUNT_MAX,
  Operation,
  Status,
  CreateAccountResult,
  CreateTransferResult,
  AccountFlags,
  TransferFlags,
  REQUEST_ITEM_SIZES,
  REPLY_ITEM_SIZES,
  LAYOUTS,
};
