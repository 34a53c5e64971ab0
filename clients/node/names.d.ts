// Made by tools/tables.py --write from tools/ledger.json: edit that.

/** Bytes of the header of a request or reply. */
export declare const HEADER_SIZE: number;
/** Bytes of an account or a transfer. */
export declare const RECORD_SIZE: number;
/** Bytes of an id. */
export declare const ID_SIZE: number;
/** Bytes of the result of an event. */
export declare const RESULT_SIZE: number;
/** Accounts, transfers or ids in a request. */
export declare const ITEMS_MAX: number;
/** Clients that can have a session at one time. */
export declare const CLIENTS_MAX: number;
/** The last number of a request in its session. */
export declare const NUMBER_MAX: number;
/** No entry has a later time, in nanoseconds. */
export declare const TIME_MAX: bigint;
/** As the amount of a post: all of the pending amount. */
export declare const AMOUNT_MAX: bigint;

/** What a request asks for. */
export declare const Operation: {
  /** Begins a session of a client. */
  readonly register: 2;
  /** Creates accounts. */
  readonly create_accounts: 129;
  /** Creates transfers. */
  readonly create_transfers: 130;
  /** Looks accounts up by their ids. */
  readonly lookup_accounts: 131;
  /** Looks transfers up by their ids. */
  readonly lookup_transfers: 132;
};
/** The names of Operation. */
export type OperationName = "register" | "create_accounts" | "create_transfers" | "lookup_accounts" | "lookup_transfers";

/** What the server says of a request. */
export declare const Status: {
  /** It is in the history, and this is its reply. */
  readonly Reply: 0;
  /** It is of a client without a session: it was never registered, or evicted. */
  readonly NoSession: 1;
  /** It has a session below the client's. */
  readonly SessionTooLow: 2;
  /** It has a session above the client's. */
  readonly NewerSession: 3;
  /** It has a number below the client's last. */
  readonly Older: 4;
  /** It has the last number and another content. */
  readonly Collision: 5;
  /** It skips a number. */
  readonly NewerRequest: 6;
  /** It is new and not yet shown (only seats return this). */
  readonly NotYet: 7;
};
/** The names of Status. */
export type StatusName = "Reply" | "NoSession" | "SessionTooLow" | "NewerSession" | "Older" | "Collision" | "NewerRequest" | "NotYet";

/** What became of an event of create_accounts. */
export declare const CreateAccountResult: {
  /** The account is recorded. */
  readonly ok: 0;
  /** Another event of its linked chain failed. */
  readonly linked_event_failed: 1;
  /** It is linked, and the batch ends with it. */
  readonly linked_event_chain_open: 2;
  /** Its timestamp is not 0. */
  readonly timestamp_must_be_zero: 3;
  /** Its reserved field is not 0. */
  readonly reserved_field: 4;
  /** It has the flag imported, or a bit that is no flag. */
  readonly reserved_flag: 5;
  /** Its id is 0. */
  readonly id_must_not_be_zero: 6;
  /** Its id is the largest number. */
  readonly id_must_not_be_int_max: 7;
  /** It has both debits_must_not_exceed_credits and credits_must_not_exceed_debits. */
  readonly flags_are_mutually_exclusive: 8;
  /** Its debits_pending is not 0. */
  readonly debits_pending_must_be_zero: 9;
  /** Its debits_posted is not 0. */
  readonly debits_posted_must_be_zero: 10;
  /** Its credits_pending is not 0. */
  readonly credits_pending_must_be_zero: 11;
  /** Its credits_posted is not 0. */
  readonly credits_posted_must_be_zero: 12;
  /** Its ledger is 0. */
  readonly ledger_must_not_be_zero: 13;
  /** Its code is 0. */
  readonly code_must_not_be_zero: 14;
  /** The account of this id has other flags. */
  readonly exists_with_different_flags: 15;
  /** The account of this id has another user_data_128. */
  readonly exists_with_different_user_data_128: 16;
  /** The account of this id has another user_data_64. */
  readonly exists_with_different_user_data_64: 17;
  /** The account of this id has another user_data_32. */
  readonly exists_with_different_user_data_32: 18;
  /** The account of this id has another ledger. */
  readonly exists_with_different_ledger: 19;
  /** The account of this id has another code. */
  readonly exists_with_different_code: 20;
  /** The same account exists already. */
  readonly exists: 21;
};
/** The names of CreateAccountResult. */
export type CreateAccountResultName = "ok" | "linked_event_failed" | "linked_event_chain_open" | "timestamp_must_be_zero" | "reserved_field" | "reserved_flag" | "id_must_not_be_zero" | "id_must_not_be_int_max" | "flags_are_mutually_exclusive" | "debits_pending_must_be_zero" | "debits_posted_must_be_zero" | "credits_pending_must_be_zero" | "credits_posted_must_be_zero" | "ledger_must_not_be_zero" | "code_must_not_be_zero" | "exists_with_different_flags" | "exists_with_different_user_data_128" | "exists_with_different_user_data_64" | "exists_with_different_user_data_32" | "exists_with_different_ledger" | "exists_with_different_code" | "exists";

/** What became of an event of create_transfers. */
export declare const CreateTransferResult: {
  /** The transfer is recorded. */
  readonly ok: 0;
  /** Another event of its linked chain failed. */
  readonly linked_event_failed: 1;
  /** It is linked, and the batch ends with it. */
  readonly linked_event_chain_open: 2;
  /** Its timestamp is not 0. */
  readonly timestamp_must_be_zero: 3;
  /** It has the flag imported, or a bit that is no flag. */
  readonly reserved_flag: 4;
  /** Its id is 0. */
  readonly id_must_not_be_zero: 5;
  /** Its id is the largest number. */
  readonly id_must_not_be_int_max: 6;
  /** It both posts and voids, or does either and is pending, balancing or closing too. */
  readonly flags_are_mutually_exclusive: 7;
  /** Its debit_account_id is 0. */
  readonly debit_account_id_must_not_be_zero: 8;
  /** Its debit_account_id is the largest number. */
  readonly debit_account_id_must_not_be_int_max: 9;
  /** Its credit_account_id is 0. */
  readonly credit_account_id_must_not_be_zero: 10;
  /** Its credit_account_id is the largest number. */
  readonly credit_account_id_must_not_be_int_max: 11;
  /** Debit and credit account are the same. */
  readonly accounts_must_be_different: 12;
  /** It has a pending_id, and neither posts nor voids. */
  readonly pending_id_must_be_zero: 13;
  /** It posts or voids, and its pending_id is 0. */
  readonly pending_id_must_not_be_zero: 14;
  /** It posts or voids, and its pending_id is the largest number. */
  readonly pending_id_must_not_be_int_max: 15;
  /** It posts or voids, and its pending_id is its own id. */
  readonly pending_id_must_be_different: 16;
  /** It has a timeout, and is not pending. */
  readonly timeout_reserved_for_pending_transfer: 17;
  /** Its ledger is 0. */
  readonly ledger_must_not_be_zero: 19;
  /** Its code is 0. */
  readonly code_must_not_be_zero: 20;
  /** No account has its debit_account_id. */
  readonly debit_account_not_found: 21;
  /** No account has its credit_account_id. */
  readonly credit_account_not_found: 22;
  /** The two accounts are of two ledgers. */
  readonly accounts_must_have_the_same_ledger: 23;
  /** Its ledger is not that of the accounts. */
  readonly transfer_must_have_the_same_ledger_as_accounts: 24;
  /** No transfer has its pending_id. */
  readonly pending_transfer_not_found: 25;
  /** The transfer of its pending_id was not pending. */
  readonly pending_transfer_not_pending: 26;
  /** It gives another debit account than the pending transfer. */
  readonly pending_transfer_has_different_debit_account_id: 27;
  /** It gives another credit account than the pending transfer. */
  readonly pending_transfer_has_different_credit_account_id: 28;
  /** It gives another ledger than the pending transfer. */
  readonly pending_transfer_has_different_ledger: 29;
  /** It gives another code than the pending transfer. */
  readonly pending_transfer_has_different_code: 30;
  /** Its amount is above that of the pending transfer. */
  readonly exceeds_pending_transfer_amount: 31;
  /** It voids, and its amount is below that of the pending transfer. */
  readonly pending_transfer_has_different_amount: 32;
  /** The pending transfer was posted. */
  readonly pending_transfer_already_posted: 33;
  /** The pending transfer was voided. */
  readonly pending_transfer_already_voided: 34;
  /** The pending transfer has expired. */
  readonly pending_transfer_expired: 35;
  /** The transfer of this id has other flags. */
  readonly exists_with_different_flags: 36;
  /** The transfer of this id has another debit_account_id. */
  readonly exists_with_different_debit_account_id: 37;
  /** The transfer of this id has another credit_account_id. */
  readonly exists_with_different_credit_account_id: 38;
  /** The transfer of this id has another amount; of a balancing transfer, a greater one. */
  readonly exists_with_different_amount: 39;
  /** The transfer of this id has another pending_id. */
  readonly exists_with_different_pending_id: 40;
  /** The transfer of this id has another user_data_128. */
  readonly exists_with_different_user_data_128: 41;
  /** The transfer of this id has another user_data_64. */
  readonly exists_with_different_user_data_64: 42;
  /** The transfer of this id has another user_data_32. */
  readonly exists_with_different_user_data_32: 43;
  /** The transfer of this id has another timeout. */
  readonly exists_with_different_timeout: 44;
  /** The transfer of this id has another code. */
  readonly exists_with_different_code: 45;
  /** The same transfer exists already. */
  readonly exists: 46;
  /** It is pending, and the debit account's debits_pending would leave 128 bits. */
  readonly overflows_debits_pending: 47;
  /** It is pending, and the credit account's credits_pending would leave 128 bits. */
  readonly overflows_credits_pending: 48;
  /** The debit account's debits_posted would leave 128 bits. */
  readonly overflows_debits_posted: 49;
  /** The credit account's credits_posted would leave 128 bits. */
  readonly overflows_credits_posted: 50;
  /** The debit account's debits, pending and posted, would leave 128 bits. */
  readonly overflows_debits: 51;
  /** The credit account's credits, pending and posted, would leave 128 bits. */
  readonly overflows_credits: 52;
  /** It would expire after the last moment of the clock. */
  readonly overflows_timeout: 53;
  /** The debit account's debits would exceed its credits, which it forbids. */
  readonly exceeds_credits: 54;
  /** The credit account's credits would exceed its debits, which it forbids. */
  readonly exceeds_debits: 55;
  /** It closes an account, and is not pending. */
  readonly closing_transfer_must_be_pending: 64;
  /** The debit account is closed. */
  readonly debit_account_already_closed: 65;
  /** The credit account is closed. */
  readonly credit_account_already_closed: 66;
  /** The transfer of this id has another ledger. */
  readonly exists_with_different_ledger: 67;
  /** By profile 2: a transfer of this id was refused for a cause that may pass. */
  readonly id_already_failed: 68;
};
/** The names of CreateTransferResult. */
export type CreateTransferResultName = "ok" | "linked_event_failed" | "linked_event_chain_open" | "timestamp_must_be_zero" | "reserved_flag" | "id_must_not_be_zero" | "id_must_not_be_int_max" | "flags_are_mutually_exclusive" | "debit_account_id_must_not_be_zero" | "debit_account_id_must_not_be_int_max" | "credit_account_id_must_not_be_zero" | "credit_account_id_must_not_be_int_max" | "accounts_must_be_different" | "pending_id_must_be_zero" | "pending_id_must_not_be_zero" | "pending_id_must_not_be_int_max" | "pending_id_must_be_different" | "timeout_reserved_for_pending_transfer" | "ledger_must_not_be_zero" | "code_must_not_be_zero" | "debit_account_not_found" | "credit_account_not_found" | "accounts_must_have_the_same_ledger" | "transfer_must_have_the_same_ledger_as_accounts" | "pending_transfer_not_found" | "pending_transfer_not_pending" | "pending_transfer_has_different_debit_account_id" | "pending_transfer_has_different_credit_account_id" | "pending_transfer_has_different_ledger" | "pending_transfer_has_different_code" | "exceeds_pending_transfer_amount" | "pending_transfer_has_different_amount" | "pending_transfer_already_posted" | "pending_transfer_already_voided" | "pending_transfer_expired" | "exists_with_different_flags" | "exists_with_different_debit_account_id" | "exists_with_different_credit_account_id" | "exists_with_different_amount" | "exists_with_different_pending_id" | "exists_with_different_user_data_128" | "exists_with_different_user_data_64" | "exists_with_different_user_data_32" | "exists_with_different_timeout" | "exists_with_different_code" | "exists" | "overflows_debits_pending" | "overflows_credits_pending" | "overflows_debits_posted" | "overflows_credits_posted" | "overflows_debits" | "overflows_credits" | "overflows_timeout" | "exceeds_credits" | "exceeds_debits" | "closing_transfer_must_be_pending" | "debit_account_already_closed" | "credit_account_already_closed" | "exists_with_different_ledger" | "id_already_failed";

/** The flags of accounts. */
export declare const AccountFlags: {
  /** Linked to the next event: both succeed, or both fail. */
  readonly linked: 1;
  /** Pending and posted debits together are at most the posted credits. */
  readonly debits_must_not_exceed_credits: 2;
  /** Pending and posted credits together are at most the posted debits. */
  readonly credits_must_not_exceed_debits: 4;
  /** Kept with the account; it changes nothing here. */
  readonly history: 8;
  /** Refused as reserved_flag. */
  readonly imported: 16;
  /** The account accepts no transfer except a void. */
  readonly closed: 32;
};

/** The flags of transfers. */
export declare const TransferFlags: {
  /** Linked to the next event: both succeed, or both fail. */
  readonly linked: 1;
  /** The amount is held until the transfer is posted or voided, or expires. */
  readonly pending: 2;
  /** It posts the pending transfer of its pending_id. */
  readonly post_pending_transfer: 4;
  /** It voids the pending transfer of its pending_id. */
  readonly void_pending_transfer: 8;
  /** It moves at most what the debit account has left. */
  readonly balancing_debit: 16;
  /** It moves at most what the credit account has left. */
  readonly balancing_credit: 32;
  /** It closes the debit account as long as it is pending. */
  readonly closing_debit: 64;
  /** It closes the credit account as long as it is pending. */
  readonly closing_credit: 128;
  /** Refused. */
  readonly imported: 256;
};

/** An account: fields that are left out are 0. */
export interface Account {
  /** u128. */
  id: bigint;
  /** u128. */
  debits_pending?: bigint;
  /** u128. */
  debits_posted?: bigint;
  /** u128. */
  credits_pending?: bigint;
  /** u128. */
  credits_posted?: bigint;
  /** u128. */
  user_data_128?: bigint;
  /** u64. */
  user_data_64?: bigint;
  /** u32. */
  user_data_32?: number;
  /** u32. */
  reserved?: number;
  /** u32. */
  ledger?: number;
  /** u16. */
  code?: number;
  /** u16. */
  flags?: number;
  /** u64, in nanoseconds. */
  timestamp?: bigint;
}

/** A transfer: fields that are left out are 0. */
export interface Transfer {
  /** u128. */
  id: bigint;
  /** u128. */
  debit_account_id?: bigint;
  /** u128. */
  credit_account_id?: bigint;
  /** u128. */
  amount?: bigint;
  /** u128. */
  pending_id?: bigint;
  /** u128. */
  user_data_128?: bigint;
  /** u64. */
  user_data_64?: bigint;
  /** u32. */
  user_data_32?: number;
  /** u32, in seconds. */
  timeout?: number;
  /** u32. */
  ledger?: number;
  /** u16. */
  code?: number;
  /** u16. */
  flags?: number;
  /** u64, in nanoseconds. */
  timestamp?: bigint;
}
