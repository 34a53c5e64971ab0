//! The ledger server inside a Rust program: a safe wrapper of the calls that `tb_embed.h` declares, and what their frames are made of
//! (docs/use/FORMATS.md).
//!
//! A `Server` owns its handle and closes it. It may go to another thread, and serves one call at a time; several threads
//! share one under a mutex. `Server::ask` takes a `Request` and returns its `Reply`; `Server::serve` does so with bytes.
use std::fmt;
use std::ops::BitOr;

// generated: limits, by tools/tables.py from tools/ledger.json
/// The bytes of a header.
pub const HEADER_SIZE: usize = 48;
/// The bytes of an account or a transfer.
pub const RECORD_SIZE: usize = 128;
/// The bytes of an id.
pub const ID_SIZE: usize = 16;
/// The bytes of an event's result.
pub const RESULT_SIZE: usize = 8;
/// How many accounts, transfers or ids a request has at most.
pub const ITEMS_MAX: usize = 8190;
/// The bytes of the longest request.
pub const REQUEST_MAX: usize = HEADER_SIZE + ITEMS_MAX * RECORD_SIZE;
/// The room that every reply has enough of: a header, and as many records.
pub const REPLY_MAX: usize = HEADER_SIZE + ITEMS_MAX * RECORD_SIZE;
/// How many clients can have a session at one time, at most.
pub const CLIENTS_MAX: u32 = 64;
/// No entry has a later time, in nanoseconds.
pub const TIME_MAX: u64 = 9223372036854775807;
/// The largest amount: as the amount of a post it means all of the pending amount.
pub const AMOUNT_MAX: u128 = 340282366920938463463374607431768211455;
// end of limits

// Names

/// An enum of numbers that have names. A number that has no name is kept.
macro_rules! numbered {
    ($(#[$about:meta])* $kind:ident { $($(#[$note:meta])* $variant:ident = $number:literal $name:literal,)* }) => {
        $(#[$about])*
        #[derive(Clone, Copy, Debug, PartialEq, Eq, Hash)]
        pub enum $kind {
            $($(#[$note])* $variant,)*
            /// A number that has no name here.
            Unknown(u32),
        }

        impl $kind {
            /// All that have names, by rising number.
            pub const ALL: &[$kind] = &[$($kind::$variant),*];

            pub const fn from_number(number: u32) -> $kind {
                match number {
                    $($number => $kind::$variant,)*
                    _ => $kind::Unknown(number),
                }
            }

            pub const fn number(self) -> u32 {
                match self {
                    $($kind::$variant => $number,)*
                    $kind::Unknown(number) => number,
                }
            }
        }

        impl fmt::Display for $kind {
            fn fmt(&self, f: &mut fmt::Formatter<'_>) -> fmt::Result {
                match self {
                    $($kind::$variant => f.write_str($name),)*
                    $kind::Unknown(number) => write!(f, "unknown {number}"),
                }
            }
        }
    };
}

// generated: enums, by tools/tables.py from tools/ledger.json
numbered! {
    /// What a request asks for.
    Operation {
        Register = 2 "register",
        CreateAccounts = 129 "create_accounts",
        CreateTransfers = 130 "create_transfers",
        LookupAccounts = 131 "lookup_accounts",
        LookupTransfers = 132 "lookup_transfers",
    }
}

numbered! {
    /// What the server says of a request, in its reply. With any but `Reply` it was not executed now.
    Status {
        /// It is in the history, and this is its reply.
        Reply = 0 "Reply",
        /// It is of a client without a session: it was never registered, or evicted.
        NoSession = 1 "NoSession",
        /// It has a session below the client's.
        SessionTooLow = 2 "SessionTooLow",
        /// It has a session above the client's.
        NewerSession = 3 "NewerSession",
        /// It has a number below the client's last.
        Older = 4 "Older",
        /// It has the last number and another content.
        Collision = 5 "Collision",
        /// It skips a number.
        NewerRequest = 6 "NewerRequest",
        /// It is new and not yet shown (only seats return this).
        NotYet = 7 "NotYet",
    }
}

numbered! {
    /// What became of an event of create_accounts: docs/use/RULES.md says where each holds, docs/use/CLIENTS.md what to do.
    CreateAccountResult {
        Ok = 0 "ok",
        LinkedEventFailed = 1 "linked_event_failed",
        LinkedEventChainOpen = 2 "linked_event_chain_open",
        TimestampMustBeZero = 3 "timestamp_must_be_zero",
        ReservedField = 4 "reserved_field",
        ReservedFlag = 5 "reserved_flag",
        IdMustNotBeZero = 6 "id_must_not_be_zero",
        IdMustNotBeIntMax = 7 "id_must_not_be_int_max",
        FlagsAreMutuallyExclusive = 8 "flags_are_mutually_exclusive",
        DebitsPendingMustBeZero = 9 "debits_pending_must_be_zero",
        DebitsPostedMustBeZero = 10 "debits_posted_must_be_zero",
        CreditsPendingMustBeZero = 11 "credits_pending_must_be_zero",
        CreditsPostedMustBeZero = 12 "credits_posted_must_be_zero",
        LedgerMustNotBeZero = 13 "ledger_must_not_be_zero",
        CodeMustNotBeZero = 14 "code_must_not_be_zero",
        ExistsWithDifferentFlags = 15 "exists_with_different_flags",
        ExistsWithDifferentUserData128 = 16 "exists_with_different_user_data_128",
        ExistsWithDifferentUserData64 = 17 "exists_with_different_user_data_64",
        ExistsWithDifferentUserData32 = 18 "exists_with_different_user_data_32",
        ExistsWithDifferentLedger = 19 "exists_with_different_ledger",
        ExistsWithDifferentCode = 20 "exists_with_different_code",
        Exists = 21 "exists",
    }
}

numbered! {
    /// What became of an event of create_transfers.
    CreateTransferResult {
        Ok = 0 "ok",
        LinkedEventFailed = 1 "linked_event_failed",
        LinkedEventChainOpen = 2 "linked_event_chain_open",
        TimestampMustBeZero = 3 "timestamp_must_be_zero",
        ReservedFlag = 4 "reserved_flag",
        IdMustNotBeZero = 5 "id_must_not_be_zero",
        IdMustNotBeIntMax = 6 "id_must_not_be_int_max",
        FlagsAreMutuallyExclusive = 7 "flags_are_mutually_exclusive",
        DebitAccountIdMustNotBeZero = 8 "debit_account_id_must_not_be_zero",
        DebitAccountIdMustNotBeIntMax = 9 "debit_account_id_must_not_be_int_max",
        CreditAccountIdMustNotBeZero = 10 "credit_account_id_must_not_be_zero",
        CreditAccountIdMustNotBeIntMax = 11 "credit_account_id_must_not_be_int_max",
        AccountsMustBeDifferent = 12 "accounts_must_be_different",
        PendingIdMustBeZero = 13 "pending_id_must_be_zero",
        PendingIdMustNotBeZero = 14 "pending_id_must_not_be_zero",
        PendingIdMustNotBeIntMax = 15 "pending_id_must_not_be_int_max",
        PendingIdMustBeDifferent = 16 "pending_id_must_be_different",
        TimeoutReservedForPendingTransfer = 17 "timeout_reserved_for_pending_transfer",
        LedgerMustNotBeZero = 19 "ledger_must_not_be_zero",
        CodeMustNotBeZero = 20 "code_must_not_be_zero",
        DebitAccountNotFound = 21 "debit_account_not_found",
        CreditAccountNotFound = 22 "credit_account_not_found",
        AccountsMustHaveTheSameLedger = 23 "accounts_must_have_the_same_ledger",
        TransferMustHaveTheSameLedgerAsAccounts = 24 "transfer_must_have_the_same_ledger_as_accounts",
        PendingTransferNotFound = 25 "pending_transfer_not_found",
        PendingTransferNotPending = 26 "pending_transfer_not_pending",
        PendingTransferHasDifferentDebitAccountId = 27 "pending_transfer_has_different_debit_account_id",
        PendingTransferHasDifferentCreditAccountId = 28 "pending_transfer_has_different_credit_account_id",
        PendingTransferHasDifferentLedger = 29 "pending_transfer_has_different_ledger",
        PendingTransferHasDifferentCode = 30 "pending_transfer_has_different_code",
        ExceedsPendingTransferAmount = 31 "exceeds_pending_transfer_amount",
        PendingTransferHasDifferentAmount = 32 "pending_transfer_has_different_amount",
        PendingTransferAlreadyPosted = 33 "pending_transfer_already_posted",
        PendingTransferAlreadyVoided = 34 "pending_transfer_already_voided",
        PendingTransferExpired = 35 "pending_transfer_expired",
        ExistsWithDifferentFlags = 36 "exists_with_different_flags",
        ExistsWithDifferentDebitAccountId = 37 "exists_with_different_debit_account_id",
        ExistsWithDifferentCreditAccountId = 38 "exists_with_different_credit_account_id",
        ExistsWithDifferentAmount = 39 "exists_with_different_amount",
        ExistsWithDifferentPendingId = 40 "exists_with_different_pending_id",
        ExistsWithDifferentUserData128 = 41 "exists_with_different_user_data_128",
        ExistsWithDifferentUserData64 = 42 "exists_with_different_user_data_64",
        ExistsWithDifferentUserData32 = 43 "exists_with_different_user_data_32",
        ExistsWithDifferentTimeout = 44 "exists_with_different_timeout",
        ExistsWithDifferentCode = 45 "exists_with_different_code",
        Exists = 46 "exists",
        OverflowsDebitsPending = 47 "overflows_debits_pending",
        OverflowsCreditsPending = 48 "overflows_credits_pending",
        OverflowsDebitsPosted = 49 "overflows_debits_posted",
        OverflowsCreditsPosted = 50 "overflows_credits_posted",
        OverflowsDebits = 51 "overflows_debits",
        OverflowsCredits = 52 "overflows_credits",
        OverflowsTimeout = 53 "overflows_timeout",
        ExceedsCredits = 54 "exceeds_credits",
        ExceedsDebits = 55 "exceeds_debits",
        ClosingTransferMustBePending = 64 "closing_transfer_must_be_pending",
        DebitAccountAlreadyClosed = 65 "debit_account_already_closed",
        CreditAccountAlreadyClosed = 66 "credit_account_already_closed",
        ExistsWithDifferentLedger = 67 "exists_with_different_ledger",
        IdAlreadyFailed = 68 "id_already_failed",
    }
}
// end of enums

/// Flags of one kind of record: a type of its own, so that they are not mixed with those of the other.
macro_rules! flags {
    ($(#[$about:meta])* $kind:ident { $($flag:ident = $bit:literal $name:literal,)* }) => {
        $(#[$about])*
        #[derive(Clone, Copy, Debug, Default, PartialEq, Eq, Hash)]
        pub struct $kind(pub u16);

        impl $kind {
            $(pub const $flag: $kind = $kind($bit);)*

            /// Whether all of these flags are set.
            pub const fn contains(self, flags: $kind) -> bool {
                self.0 & flags.0 == flags.0
            }
        }

        impl BitOr for $kind {
            type Output = $kind;

            fn bitor(self, other: $kind) -> $kind {
                $kind(self.0 | other.0)
            }
        }

        /// The names, and the bits that have no name as a number: `linked | history | 0x8000`.
        impl fmt::Display for $kind {
            fn fmt(&self, f: &mut fmt::Formatter<'_>) -> fmt::Result {
                write_flags(f, self.0, &[$(($bit, $name)),*])
            }
        }

        impl Field for $kind {
            fn put(self, bytes: &mut [u8], at: usize) {
                self.0.put(bytes, at);
            }

            fn get(bytes: &[u8], at: usize) -> $kind {
                $kind(u16::get(bytes, at))
            }
        }
    };
}

fn write_flags(f: &mut fmt::Formatter<'_>, flags: u16, names: &[(u16, &str)]) -> fmt::Result {
    let (mut rest, mut between) = (flags, "");
    for (bit, name) in names {
        if rest & bit != 0 {
            write!(f, "{between}{name}")?;
            (rest, between) = (rest & !bit, " | ");
        }
    }
    if rest != 0 {
        write!(f, "{between}{rest:#x}")
    } else {
        Ok(())
    }
}

// generated: flags, by tools/tables.py from tools/ledger.json
flags! {
    /// The flags of an account. An imported one is answered reserved_flag.
    AccountFlags {
        LINKED = 1 "linked",
        DEBITS_MUST_NOT_EXCEED_CREDITS = 2 "debits_must_not_exceed_credits",
        CREDITS_MUST_NOT_EXCEED_DEBITS = 4 "credits_must_not_exceed_debits",
        HISTORY = 8 "history",
        IMPORTED = 16 "imported",
        CLOSED = 32 "closed",
    }
}

flags! {
    /// The flags of a transfer. An imported one is answered reserved_flag.
    TransferFlags {
        LINKED = 1 "linked",
        PENDING = 2 "pending",
        POST_PENDING_TRANSFER = 4 "post_pending_transfer",
        VOID_PENDING_TRANSFER = 8 "void_pending_transfer",
        BALANCING_DEBIT = 16 "balancing_debit",
        BALANCING_CREDIT = 32 "balancing_credit",
        CLOSING_DEBIT = 64 "closing_debit",
        CLOSING_CREDIT = 128 "closing_credit",
        IMPORTED = 256 "imported",
    }
}
// end of flags

// generated: faults, by tools/tables.py from tools/ledger.json
/// What is wrong with a frame: docs/use/FORMATS.md says where each holds.
#[derive(Clone, Copy, Debug, PartialEq, Eq, Hash)]
pub enum Fault {
    /// The header or the body is cut.
    Short = 1,
    /// The client is 0.
    ClientZero = 2,
    /// No operation has this number.
    UnknownOperation = 3,
    /// A zero byte is not 0, or the status of a reply is above 7.
    Reserved = 4,
    /// The body has no whole items, or has some where there are none.
    BadLength = 5,
    /// There are more than 8190 items.
    TooMany = 6,
    /// A register has a session or a request.
    RegisterNumbers = 7,
    /// Another operation has request 0.
    RequestZero = 8,
    /// A device failed; bytes alone never give this.
    Device = 9,
    /// Out of memory; bytes alone never give this.
    NoMemory = 10,
    /// Session, commit and status do not go together.
    ReplyNumbers = 11,
}
// end of faults

impl fmt::Display for Fault {
    fn fmt(&self, f: &mut fmt::Formatter<'_>) -> fmt::Result {
        fmt::Debug::fmt(self, f)
    }
}

impl std::error::Error for Fault {}

// Records and headers

/// A number in a record or a header, its lowest byte first.
trait Field {
    fn put(self, bytes: &mut [u8], at: usize);
    fn get(bytes: &[u8], at: usize) -> Self;
}

macro_rules! number_fields {
    ($($kind:ty)*) => {$(
        impl Field for $kind {
            fn put(self, bytes: &mut [u8], at: usize) {
                bytes[at..at + size_of::<$kind>()].copy_from_slice(&self.to_le_bytes());
            }

            fn get(bytes: &[u8], at: usize) -> $kind {
                let mut number = [0; size_of::<$kind>()];
                number.copy_from_slice(&bytes[at..at + size_of::<$kind>()]);
                <$kind>::from_le_bytes(number)
            }
        }
    )*};
}

number_fields!(u8 u16 u32 u64 u128);

/// A struct of fields, each with its place in the bytes. Bytes without a field are 0.
macro_rules! record {
    ($(#[$about:meta])* $kind:ident, $size:ident { $($at:literal $field:ident: $type:ty,)* }) => {
        $(#[$about])*
        #[derive(Clone, Copy, Debug, Default, PartialEq, Eq, Hash)]
        pub struct $kind {
            $(pub $field: $type,)*
        }

        impl $kind {
            pub fn to_bytes(&self) -> [u8; $size] {
                let mut bytes = [0; $size];
                $(self.$field.put(&mut bytes, $at);)*
                bytes
            }

            pub fn from_bytes(bytes: &[u8; $size]) -> $kind {
                $kind { $($field: <$type>::get(bytes, $at)),* }
            }
        }
    };
}

// generated: records, by tools/tables.py from tools/ledger.json
record! {
    /// An account. A new one has an id, a ledger and a code, and the rest as the default has it, except user data and flags.
    Account, RECORD_SIZE {
        0 id: u128,
        16 debits_pending: u128,
        32 debits_posted: u128,
        48 credits_pending: u128,
        64 credits_posted: u128,
        80 user_data_128: u128,
        96 user_data_64: u64,
        104 user_data_32: u32,
        108 reserved: u32,
        112 ledger: u32,
        116 code: u16,
        118 flags: AccountFlags,
        120 timestamp: u64,
    }
}

record! {
    /// A transfer. The timeout is in seconds.
    Transfer, RECORD_SIZE {
        0 id: u128,
        16 debit_account_id: u128,
        32 credit_account_id: u128,
        48 amount: u128,
        64 pending_id: u128,
        80 user_data_128: u128,
        96 user_data_64: u64,
        104 user_data_32: u32,
        108 timeout: u32,
        112 ledger: u32,
        116 code: u16,
        118 flags: TransferFlags,
        120 timestamp: u64,
    }
}

record! {
    /// The header of a request's frame.
    RequestHeader, HEADER_SIZE {
        0 client: u128,
        16 session: u64,
        24 request: u32,
        28 operation: u8,
        32 length: u32,
    }
}

record! {
    /// The header of a reply's frame.
    ReplyHeader, HEADER_SIZE {
        0 client: u128,
        16 session: u64,
        24 request: u32,
        28 operation: u8,
        29 status: u8,
        32 length: u32,
        36 commit: u64,
    }
}
// end of records

/// What became of one event of a create: its place in the request, and the result. Events that were accepted are not told.
#[derive(Clone, Copy, Debug, PartialEq, Eq, Hash)]
pub struct EventResult<R> {
    pub index: u32,
    pub result: R,
}

impl<R: fmt::Display> fmt::Display for EventResult<R> {
    fn fmt(&self, f: &mut fmt::Formatter<'_>) -> fmt::Result {
        write!(f, "event {}: {}", self.index, self.result)
    }
}

// Requests

/// What a request asks for, with its items.
#[derive(Clone, Debug, PartialEq, Eq)]
pub enum Body {
    Register,
    CreateAccounts(Vec<Account>),
    CreateTransfers(Vec<Transfer>),
    LookupAccounts(Vec<u128>),
    LookupTransfers(Vec<u128>),
}

/// A request. To send it again send the same one: what was executed gets its first reply.
#[derive(Clone, Debug, PartialEq, Eq)]
pub struct Request {
    pub client: u128,
    pub session: u64,
    /// Its number in the session: 1, 2, 3 and so on, and 0 of a register.
    pub number: u32,
    pub body: Body,
}

impl Request {
    pub fn new(client: u128, session: u64, number: u32, body: Body) -> Request {
        Request {
            client,
            session,
            number,
            body,
        }
    }

    /// Begins a session of a client: the reply's session is that of its later requests.
    pub fn register(client: u128) -> Request {
        Request::new(client, 0, 0, Body::Register)
    }

    pub fn create_accounts(
        client: u128,
        session: u64,
        number: u32,
        accounts: Vec<Account>,
    ) -> Request {
        Request::new(client, session, number, Body::CreateAccounts(accounts))
    }

    pub fn create_transfers(
        client: u128,
        session: u64,
        number: u32,
        transfers: Vec<Transfer>,
    ) -> Request {
        Request::new(client, session, number, Body::CreateTransfers(transfers))
    }

    pub fn lookup_accounts(client: u128, session: u64, number: u32, ids: Vec<u128>) -> Request {
        Request::new(client, session, number, Body::LookupAccounts(ids))
    }

    pub fn lookup_transfers(client: u128, session: u64, number: u32, ids: Vec<u128>) -> Request {
        Request::new(client, session, number, Body::LookupTransfers(ids))
    }

    pub fn operation(&self) -> Operation {
        match self.body {
            Body::Register => Operation::Register,
            Body::CreateAccounts(_) => Operation::CreateAccounts,
            Body::CreateTransfers(_) => Operation::CreateTransfers,
            Body::LookupAccounts(_) => Operation::LookupAccounts,
            Body::LookupTransfers(_) => Operation::LookupTransfers,
        }
    }

    /// How many accounts, transfers or ids it has.
    pub fn item_count(&self) -> usize {
        match &self.body {
            Body::Register => 0,
            Body::CreateAccounts(accounts) => accounts.len(),
            Body::CreateTransfers(transfers) => transfers.len(),
            Body::LookupAccounts(ids) | Body::LookupTransfers(ids) => ids.len(),
        }
    }

    /// Room enough for its reply.
    pub fn reply_max(&self) -> usize {
        HEADER_SIZE + self.item_count() * reply_item_size(self.operation())
    }

    /// The bytes of its frame, or what is wrong with its numbers.
    pub fn to_bytes(&self) -> Result<Vec<u8>, Fault> {
        if let Some(fault) = self.fault() {
            return Err(fault);
        }
        let mut frame = vec![0; HEADER_SIZE];
        match &self.body {
            Body::Register => {}
            Body::CreateAccounts(accounts) => {
                accounts.iter().for_each(|it| frame.extend(it.to_bytes()))
            }
            Body::CreateTransfers(transfers) => {
                transfers.iter().for_each(|it| frame.extend(it.to_bytes()))
            }
            Body::LookupAccounts(ids) | Body::LookupTransfers(ids) => {
                ids.iter().for_each(|id| frame.extend(id.to_le_bytes()))
            }
        }
        let header = RequestHeader {
            client: self.client,
            session: self.session,
            request: self.number,
            operation: self.operation().number() as u8,
            length: (frame.len() - HEADER_SIZE) as u32,
        };
        frame[..HEADER_SIZE].copy_from_slice(&header.to_bytes());
        Ok(frame)
    }

    /// The request whose frame is at the beginning of the bytes, and how many bytes its frame has. `Server::serve` takes exactly these.
    pub fn from_bytes(bytes: &[u8]) -> Result<(Request, usize), Fault> {
        let (first, rest) = bytes.split_first_chunk().ok_or(Fault::Short)?;
        let header = RequestHeader::from_bytes(first);
        if let Some(fault) = header.fault(first) {
            return Err(fault);
        }
        let body = rest.get(..header.length as usize).ok_or(Fault::Short)?;
        let request = Request {
            client: header.client,
            session: header.session,
            number: header.request,
            body: Body::from_bytes(header.operation(), body),
        };
        Ok((request, HEADER_SIZE + body.len()))
    }

    fn fault(&self) -> Option<Fault> {
        let is_register = self.body == Body::Register;
        if self.client == 0 {
            Some(Fault::ClientZero)
        } else if is_register && (self.session != 0 || self.number != 0) {
            Some(Fault::RegisterNumbers)
        } else if !is_register && self.number == 0 {
            Some(Fault::RequestZero)
        } else if self.item_count() > ITEMS_MAX {
            Some(Fault::TooMany)
        } else {
            None
        }
    }
}

/// The bytes of an item in a request of an operation: a record, or an id. A register has no items.
fn request_item_size(operation: Operation) -> usize {
    match operation {
        Operation::CreateAccounts | Operation::CreateTransfers => RECORD_SIZE,
        _ => ID_SIZE,
    }
}

impl RequestHeader {
    fn operation(&self) -> Operation {
        Operation::from_number(self.operation.into())
    }

    /// What is wrong with it, by the tests of docs/use/FORMATS.md in their order. The zero bytes are those of `bytes`.
    fn fault(&self, bytes: &[u8; HEADER_SIZE]) -> Option<Fault> {
        let operation = self.operation();
        let is_register = operation == Operation::Register;
        if self.client == 0 {
            Some(Fault::ClientZero)
        } else if matches!(operation, Operation::Unknown(_)) {
            Some(Fault::UnknownOperation)
        } else if self.to_bytes() != *bytes {
            Some(Fault::Reserved)
        } else if is_register && (self.session != 0 || self.request != 0) {
            Some(Fault::RegisterNumbers)
        } else if !is_register && self.request == 0 {
            Some(Fault::RequestZero)
        } else {
            length_fault(self.length, request_item_size(operation), is_register)
        }
    }
}

/// A body is empty, or has whole items, and not too many.
fn length_fault(length: u32, item_size: usize, is_empty: bool) -> Option<Fault> {
    let length = length as usize;
    if length % item_size != 0 || is_empty && length != 0 {
        Some(Fault::BadLength)
    } else if length / item_size > ITEMS_MAX {
        Some(Fault::TooMany)
    } else {
        None
    }
}

fn records<R>(body: &[u8], read: fn(&[u8; RECORD_SIZE]) -> R) -> Vec<R> {
    let chunks = body.chunks_exact(RECORD_SIZE);
    chunks.filter_map(|it| it.first_chunk()).map(read).collect()
}

fn ids(body: &[u8]) -> Vec<u128> {
    body.chunks_exact(ID_SIZE)
        .map(|it| u128::get(it, 0))
        .collect()
}

impl Body {
    /// The items of a body, which has whole ones.
    fn from_bytes(operation: Operation, body: &[u8]) -> Body {
        match operation {
            Operation::CreateAccounts => Body::CreateAccounts(records(body, Account::from_bytes)),
            Operation::CreateTransfers => {
                Body::CreateTransfers(records(body, Transfer::from_bytes))
            }
            Operation::LookupAccounts => Body::LookupAccounts(ids(body)),
            Operation::LookupTransfers => Body::LookupTransfers(ids(body)),
            _ => Body::Register,
        }
    }
}

// Replies

/// What a reply says.
#[derive(Clone, Debug, PartialEq, Eq)]
pub enum ReplyBody {
    /// Nothing: of a register, and of every refusal.
    Empty,
    AccountResults(Vec<EventResult<CreateAccountResult>>),
    TransferResults(Vec<EventResult<CreateTransferResult>>),
    Accounts(Vec<Account>),
    Transfers(Vec<Transfer>),
}

/// A reply.
#[derive(Clone, Debug, PartialEq, Eq)]
pub struct Reply {
    pub client: u128,
    pub session: u64,
    pub number: u32,
    pub operation: Operation,
    pub status: Status,
    /// The entry of the history that the request is, or 0 of a refusal.
    pub commit: u64,
    pub body: ReplyBody,
}

/// The bytes of an item in the reply to an operation.
fn reply_item_size(operation: Operation) -> usize {
    match operation {
        Operation::LookupAccounts | Operation::LookupTransfers => RECORD_SIZE,
        _ => RESULT_SIZE,
    }
}

impl ReplyHeader {
    /// What is wrong with it, by the tests of docs/use/FORMATS.md in their order. The zero bytes are those of `bytes`.
    fn fault(&self, bytes: &[u8; HEADER_SIZE]) -> Option<Fault> {
        let operation = Operation::from_number(self.operation.into());
        let status = Status::from_number(self.status.into());
        let is_register = operation == Operation::Register;
        let is_refusal = status != Status::Reply;
        if self.client == 0 {
            Some(Fault::ClientZero)
        } else if matches!(operation, Operation::Unknown(_)) {
            Some(Fault::UnknownOperation)
        } else if matches!(status, Status::Unknown(_)) || self.to_bytes() != *bytes {
            Some(Fault::Reserved)
        } else if is_register && (self.request != 0 || is_refusal && self.session != 0) {
            Some(Fault::RegisterNumbers)
        } else if !is_register && self.request == 0 {
            Some(Fault::RequestZero)
        } else if !self.has_commit(is_register, is_refusal) {
            Some(Fault::ReplyNumbers)
        } else {
            let is_empty = is_register || is_refusal;
            length_fault(self.length, reply_item_size(operation), is_empty)
        }
    }

    /// A refusal has commit 0. A register's session is its commit, and any other's is below it.
    fn has_commit(&self, is_register: bool, is_refusal: bool) -> bool {
        if is_refusal {
            self.commit == 0
        } else if is_register {
            self.session != 0 && self.session == self.commit
        } else {
            self.session != 0 && self.session < self.commit
        }
    }
}

fn results<R>(body: &[u8], result: fn(u32) -> R) -> Vec<EventResult<R>> {
    let read = |it: &[u8]| (u32::get(it, 0), result(u32::get(it, 4)));
    let chunks = body.chunks_exact(RESULT_SIZE);
    chunks
        .map(read)
        .map(|(index, result)| EventResult { index, result })
        .collect()
}

impl ReplyBody {
    /// The items of a body, which has whole ones.
    fn from_bytes(operation: Operation, body: &[u8]) -> ReplyBody {
        match operation {
            Operation::CreateAccounts => {
                ReplyBody::AccountResults(results(body, CreateAccountResult::from_number))
            }
            Operation::CreateTransfers => {
                ReplyBody::TransferResults(results(body, CreateTransferResult::from_number))
            }
            Operation::LookupAccounts => ReplyBody::Accounts(records(body, Account::from_bytes)),
            Operation::LookupTransfers => ReplyBody::Transfers(records(body, Transfer::from_bytes)),
            _ => ReplyBody::Empty,
        }
    }
}

impl Reply {
    /// The reply whose frame is at the beginning of the bytes, and how many bytes its frame has.
    pub fn from_bytes(bytes: &[u8]) -> Result<(Reply, usize), Fault> {
        let (first, rest) = bytes.split_first_chunk().ok_or(Fault::Short)?;
        let header = ReplyHeader::from_bytes(first);
        if let Some(fault) = header.fault(first) {
            return Err(fault);
        }
        let body = rest.get(..header.length as usize).ok_or(Fault::Short)?;
        let operation = Operation::from_number(header.operation.into());
        let status = Status::from_number(header.status.into());
        let reply = Reply {
            client: header.client,
            session: header.session,
            number: header.request,
            operation,
            status,
            commit: header.commit,
            body: if status == Status::Reply {
                ReplyBody::from_bytes(operation, body)
            } else {
                ReplyBody::Empty
            },
        };
        Ok((reply, HEADER_SIZE + body.len()))
    }

    /// The events of a create_accounts that were not accepted.
    pub fn account_results(&self) -> Result<&[EventResult<CreateAccountResult>], Error> {
        match &self.body {
            ReplyBody::AccountResults(results) => Ok(results),
            _ => Err(self.of_another_kind()),
        }
    }

    /// The events of a create_transfers that were not accepted.
    pub fn transfer_results(&self) -> Result<&[EventResult<CreateTransferResult>], Error> {
        match &self.body {
            ReplyBody::TransferResults(results) => Ok(results),
            _ => Err(self.of_another_kind()),
        }
    }

    /// The accounts that a lookup_accounts found, in the order of its ids.
    pub fn accounts(&self) -> Result<&[Account], Error> {
        match &self.body {
            ReplyBody::Accounts(accounts) => Ok(accounts),
            _ => Err(self.of_another_kind()),
        }
    }

    /// The transfers that a lookup_transfers found, in the order of its ids.
    pub fn transfers(&self) -> Result<&[Transfer], Error> {
        match &self.body {
            ReplyBody::Transfers(transfers) => Ok(transfers),
            _ => Err(self.of_another_kind()),
        }
    }

    fn of_another_kind(&self) -> Error {
        match self.status {
            Status::Reply => Error::AnotherKind(self.operation),
            status => Error::Refused(status),
        }
    }
}

// The server

#[repr(C)]
struct Handle {
    at: *mut u8,
    is_open: u8,
}

const _: () = assert!(size_of::<Handle>() == 16 && std::mem::offset_of!(Handle, is_open) == 8);

unsafe extern "C" {
    fn tb_embed_open(server: *mut Handle, profile: u32, clients_max: u32) -> u32;
    fn tb_embed_serve(
        server: *mut Handle,
        moment: u64,
        request: *const u8,
        request_length: usize,
        reply: *mut u8,
        reply_room: usize,
        written: *mut usize,
    ) -> u32;
    fn tb_embed_account(
        server: *mut Handle,
        id_low: u64,
        id_high: u64,
        account: *mut u8,
        room: usize,
    ) -> u32;
    fn tb_embed_transfer(
        server: *mut Handle,
        id_low: u64,
        id_high: u64,
        transfer: *mut u8,
        room: usize,
    ) -> u32;
    fn tb_embed_close(server: *mut Handle);
}

/// Why a call did not do what it is for.
#[derive(Clone, Copy, Debug, PartialEq, Eq)]
pub enum Refusal {
    /// The profile is not 1 or 2, or the number of clients not 1 to `CLIENTS_MAX`.
    Usage,
    /// There was no memory, and nothing changed.
    NoMemory,
    /// The bytes have a fault, or more bytes follow the frame; nothing changed.
    Malformed,
    /// The request is new, and no time is left for it; nothing changed.
    TimeExhausted,
    /// The reply needs this many bytes, of which the whole room has the first. The request was served: sent again, it gets this reply.
    TooSmall(usize),
    /// The call answered a status that it does not have: another library is linked.
    Unknown(u32),
}

impl fmt::Display for Refusal {
    fn fmt(&self, f: &mut fmt::Formatter<'_>) -> fmt::Result {
        fmt::Debug::fmt(self, f)
    }
}

impl std::error::Error for Refusal {}

fn answered(status: u32, written: usize) -> Result<usize, Refusal> {
    match status {
        0 => Ok(written),
        2 => Err(Refusal::Usage),
        3 => Err(Refusal::NoMemory),
        4 => Err(Refusal::Malformed),
        5 => Err(Refusal::TimeExhausted),
        7 => Err(Refusal::TooSmall(written)),
        _ => Err(Refusal::Unknown(status)),
    }
}

/// Why a request has no reply that says what was asked for.
#[derive(Clone, Copy, Debug, PartialEq, Eq)]
pub enum Error {
    /// The request has this fault, and was not sent.
    Request(Fault),
    /// The call did not do what it is for: `Refusal` says what changed.
    Call(Refusal),
    /// What came is no frame of a reply: another library is linked.
    Reply(Fault),
    /// The server refused the request: it was not executed now.
    Refused(Status),
    /// The reply is to this operation, and has no items of the kind that was asked for.
    AnotherKind(Operation),
}

impl fmt::Display for Error {
    fn fmt(&self, f: &mut fmt::Formatter<'_>) -> fmt::Result {
        match self {
            Error::Request(fault) => write!(f, "the request is wrong: {fault}"),
            Error::Call(refusal) => write!(f, "the call failed: {refusal}"),
            Error::Reply(fault) => write!(f, "the reply is wrong: {fault}"),
            Error::Refused(status) => write!(f, "refused: {status}"),
            Error::AnotherKind(operation) => {
                write!(f, "the reply to {operation} has no such items")
            }
        }
    }
}

impl std::error::Error for Error {}

/// A server, from the empty history on.
pub struct Server {
    handle: Handle,
}

// A handle names memory that only it owns, and the library keeps nothing of a thread.
unsafe impl Send for Server {}

impl Server {
    /// A server by profile 1 or 2, with 1 to `CLIENTS_MAX` clients that can have a session at one
    /// time.
    pub fn open(profile: u32, clients_max: u32) -> Result<Server, Refusal> {
        let mut server = Server {
            handle: Handle {
                at: std::ptr::null_mut(),
                is_open: 0,
            },
        };
        let status = unsafe { tb_embed_open(&mut server.handle, profile, clients_max) };
        answered(status, 0).map(|_| server)
    }

    /// Serves a request that comes at a moment, in nanoseconds. It was executed, now or before, if its reply is returned.
    pub fn ask(&mut self, moment: u64, request: &Request) -> Result<Reply, Error> {
        let frame = request.to_bytes().map_err(Error::Request)?;
        let mut room = vec![0; request.reply_max()];
        let bytes = self.serve(moment, &frame, &mut room).map_err(Error::Call)?;
        let (reply, _) = Reply::from_bytes(bytes).map_err(Error::Reply)?;
        match reply.status {
            Status::Reply => Ok(reply),
            status => Err(Error::Refused(status)),
        }
    }

    /// Serves the frame of a request that comes at a moment, in nanoseconds: the frame of its reply, in the room.
    pub fn serve<'a>(
        &mut self,
        moment: u64,
        request: &[u8],
        room: &'a mut [u8],
    ) -> Result<&'a [u8], Refusal> {
        let mut written = 0;
        let status = unsafe {
            tb_embed_serve(
                &mut self.handle,
                moment,
                request.as_ptr(),
                request.len(),
                room.as_mut_ptr(),
                room.len(),
                &mut written,
            )
        };
        answered(status, written).map(|length| &room[..length])
    }

    /// The 128 bytes of an account as it is after the last request: `Account::from_bytes` reads them.
    pub fn account(&mut self, id: u128) -> Option<[u8; 128]> {
        let mut record = [0; 128];
        let status = unsafe {
            tb_embed_account(
                &mut self.handle,
                id as u64,
                (id >> 64) as u64,
                record.as_mut_ptr(),
                128,
            )
        };
        (status == 0).then_some(record)
    }

    /// The 128 bytes of a transfer as it was recorded: `Transfer::from_bytes` reads them.
    pub fn transfer(&mut self, id: u128) -> Option<[u8; 128]> {
        let mut record = [0; 128];
        let status = unsafe {
            tb_embed_transfer(
                &mut self.handle,
                id as u64,
                (id >> 64) as u64,
                record.as_mut_ptr(),
                128,
            )
        };
        (status == 0).then_some(record)
    }
}

impl Drop for Server {
    fn drop(&mut self) {
        unsafe { tb_embed_close(&mut self.handle) }
    }
}

// A client's session

/// All that a client's session is. Store it with the frame of the request that waits, before this is sent.
#[repr(C)]
#[derive(Clone, Copy, Debug, PartialEq, Eq)]
pub struct Numbers {
    pub id_low: u64,
    pub id_high: u64,
    /// 0 before there is one.
    pub session: u64,
    /// The number of the last request that was made, 0 before.
    pub last: u32,
    /// 0 not registered, 1 a request waits, 2 no request waits, 3 the session is over.
    pub phase: u32,
}

const _: () = assert!(size_of::<Numbers>() == 32);

unsafe extern "C" {
    fn tb_caller_call(
        caller: *mut Numbers,
        request: *const u8,
        request_length: usize,
        frame: *mut u8,
        frame_room: usize,
        written: *mut usize,
    ) -> u32;
    fn tb_caller_received(
        caller: *mut Numbers,
        frame: *const u8,
        frame_length: usize,
        reply: *const u8,
        reply_length: usize,
        heard: *mut u32,
        read: *mut usize,
    ) -> u32;
    fn tb_caller_check(caller: *const Numbers, frame: *const u8, frame_length: usize) -> u32;
}

/// What a reply is for the request that waits.
#[derive(Clone, Copy, Debug, PartialEq, Eq)]
pub enum Heard {
    /// Its reply: it was executed, once.
    Returned,
    /// The session is over, and the request was executed once or not at all.
    Ended,
    /// It was refused now, which says nothing of an earlier sending.
    Refused,
    /// For no request that waits.
    Other,
}

/// Why a call over a client's session did nothing. The client is as it was.
#[derive(Clone, Copy, Debug, PartialEq, Eq)]
pub enum CallerFault {
    NotRegistered,
    Registered,
    Unanswered,
    Ended,
    NoNumber,
    Malformed,
    NoMemory,
    RegisterNumbers,
    OtherClient,
    OtherSession,
    OtherNumber,
    NoClient,
    /// The call answered a status that it does not have: another library is linked.
    Unknown(u32),
}

impl CallerFault {
    fn of(status: u32) -> Result<(), CallerFault> {
        Err(match status {
            0 => return Ok(()),
            1 => CallerFault::NotRegistered,
            2 => CallerFault::Registered,
            3 => CallerFault::Unanswered,
            4 => CallerFault::Ended,
            5 => CallerFault::NoNumber,
            6 => CallerFault::Malformed,
            8 => CallerFault::NoMemory,
            9 => CallerFault::RegisterNumbers,
            10 => CallerFault::OtherClient,
            11 => CallerFault::OtherSession,
            12 => CallerFault::OtherNumber,
            13 => CallerFault::NoClient,
            _ => CallerFault::Unknown(status),
        })
    }
}

impl fmt::Display for CallerFault {
    fn fmt(&self, f: &mut fmt::Formatter<'_>) -> fmt::Result {
        fmt::Debug::fmt(self, f)
    }
}

impl std::error::Error for CallerFault {}

/// The proved session of one client: what it may send, and what it takes for a reply.
pub struct Caller {
    numbers: Numbers,
    frame: Vec<u8>,
}

impl Caller {
    /// A client that has not registered. Once for each id.
    pub fn new(id: u128) -> Caller {
        let numbers = Numbers {
            id_low: id as u64,
            id_high: (id >> 64) as u64,
            session: 0,
            last: 0,
            phase: 0,
        };
        Caller {
            numbers,
            frame: Vec::new(),
        }
    }

    /// The client that goes on from what was stored, which is checked.
    pub fn from_stored(numbers: Numbers, frame: Vec<u8>) -> Result<Caller, CallerFault> {
        let status = unsafe { tb_caller_check(&numbers, frame.as_ptr(), frame.len()) };
        CallerFault::of(status).map(|()| Caller { numbers, frame })
    }

    /// What is to be stored, with `frame`.
    pub fn numbers(&self) -> Numbers {
        self.numbers
    }

    /// The frame of the request that waits, or was left in doubt; empty without one.
    pub fn frame(&self) -> &[u8] {
        &self.frame
    }

    /// Makes the next request, the register first, and returns its frame: store the client before it is sent. The request has
    /// the body of the frame `request`, whose client, session and number do not count.
    pub fn call(&mut self, request: &[u8]) -> Result<&[u8], CallerFault> {
        let (mut room, mut written) = (vec![0; request.len()], 0);
        let status = unsafe {
            tb_caller_call(
                &mut self.numbers,
                request.as_ptr(),
                request.len(),
                room.as_mut_ptr(),
                room.len(),
                &mut written,
            )
        };
        CallerFault::of(status)?;
        room.truncate(written);
        self.frame = room;
        Ok(&self.frame)
    }

    /// The frame of the request that waits, the same bytes each time.
    pub fn again(&self) -> Option<&[u8]> {
        (self.numbers.phase == 1).then_some(self.frame.as_slice())
    }

    /// Takes the reply that the bytes begin with: what it is for the request that waits, and the length of its frame.
    pub fn received(&mut self, bytes: &[u8]) -> Result<(Heard, usize), CallerFault> {
        let (mut heard, mut read) = (3, 0);
        let status = unsafe {
            tb_caller_received(
                &mut self.numbers,
                self.frame.as_ptr(),
                self.frame.len(),
                bytes.as_ptr(),
                bytes.len(),
                &mut heard,
                &mut read,
            )
        };
        CallerFault::of(status)?;
        if self.numbers.phase == 2 {
            self.frame.clear();
        }
        let heard = match heard {
            0 => Heard::Returned,
            1 => Heard::Ended,
            2 => Heard::Refused,
            _ => Heard::Other,
        };
        Ok((heard, read))
    }
}
