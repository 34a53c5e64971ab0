// The plain Rust server of plain.rs and hash.rs, which give it their tables: for comparison of speed and of replies.
//
// It uses only std, and does what one usually writes over such tables, without unsafe code:
// - an account's sums are in its row, in Cells, so that both accounts of a transfer are changed where they were found;
// - open pending transfers with a timeout are in an index by the moment of expiry, so that a request looks only at its first one;
// - events are read into records, and old rows are noted in an undo log, which takes a broken chain back;
// - a request searches once for its client, whose session keeps the body and the frame of the reply.
use std::cell::Cell;
use std::collections::{BTreeMap, BTreeSet};
use std::io::{BufReader, BufWriter, Read, Write};

use self::tables::{Due, Rows};

const MAX_TIME: u64 = (1 << 63) - 1;
const SECOND: u64 = 1_000_000_000;

// The flags of an account and of a transfer.
const LINKED: u16 = 1;
const DEBITS_LIMITED: u16 = 2;
const CREDITS_LIMITED: u16 = 4;
const CLOSED: u16 = 32;
const PENDING: u16 = 2;
const POST: u16 = 4;
const VOID: u16 = 8;
const BALANCING_DEBIT: u16 = 16;
const BALANCING_CREDIT: u16 = 32;
const CLOSING_DEBIT: u16 = 64;
const CLOSING_CREDIT: u16 = 128;

#[derive(Clone)]
struct Account {
    id: u128,
    debits_pending: Cell<u128>,
    debits_posted: Cell<u128>,
    credits_pending: Cell<u128>,
    credits_posted: Cell<u128>,
    user128: u128,
    user64: u64,
    user32: u32,
    reserved: u32,
    ledger: u32,
    code: u16,
    flags: u16,
    timestamp: u64,
    closers: Cell<u32>,
}

#[derive(Clone, Copy)]
enum State {
    Open,
    Posted,
    Voided,
    Expired,
}

#[derive(Clone)]
struct Transfer {
    id: u128,
    debit: u128,
    credit: u128,
    amount: u128,
    pending_id: u128,
    user128: u128,
    user64: u64,
    user32: u32,
    timeout: u32,
    ledger: u32,
    code: u16,
    flags: u16,
    timestamp: u64,
    state: Cell<State>,
}

fn number(b: &[u8], at: usize, n: usize) -> u128 {
    let mut x = [0u8; 16];
    x[..n].copy_from_slice(&b[at..at + n]);
    u128::from_le_bytes(x)
}

fn put(b: &mut [u8], at: usize, bytes: &[u8]) {
    b[at..at + bytes.len()].copy_from_slice(bytes)
}

impl Account {
    fn read(b: &[u8]) -> Account {
        Account {
            id: number(b, 0, 16),
            debits_pending: Cell::new(number(b, 16, 16)),
            debits_posted: Cell::new(number(b, 32, 16)),
            credits_pending: Cell::new(number(b, 48, 16)),
            credits_posted: Cell::new(number(b, 64, 16)),
            user128: number(b, 80, 16),
            user64: number(b, 96, 8) as u64,
            user32: number(b, 104, 4) as u32,
            reserved: number(b, 108, 4) as u32,
            ledger: number(b, 112, 4) as u32,
            code: number(b, 116, 2) as u16,
            flags: number(b, 118, 2) as u16,
            timestamp: number(b, 120, 8) as u64,
            closers: Cell::new(0),
        }
    }
    fn present_flags(&self) -> u16 {
        if self.closers.get() > 0 {
            self.flags | CLOSED
        } else {
            self.flags
        }
    }
    fn closed(&self) -> bool {
        self.present_flags() & CLOSED != 0
    }
    fn write(&self, out: &mut Vec<u8>) {
        let mut b = [0; 128];
        put(&mut b, 0, &self.id.to_le_bytes());
        put(&mut b, 16, &self.debits_pending.get().to_le_bytes());
        put(&mut b, 32, &self.debits_posted.get().to_le_bytes());
        put(&mut b, 48, &self.credits_pending.get().to_le_bytes());
        put(&mut b, 64, &self.credits_posted.get().to_le_bytes());
        put(&mut b, 80, &self.user128.to_le_bytes());
        put(&mut b, 96, &self.user64.to_le_bytes());
        put(&mut b, 104, &self.user32.to_le_bytes());
        put(&mut b, 108, &self.reserved.to_le_bytes());
        put(&mut b, 112, &self.ledger.to_le_bytes());
        put(&mut b, 116, &self.code.to_le_bytes());
        put(&mut b, 118, &self.present_flags().to_le_bytes());
        put(&mut b, 120, &self.timestamp.to_le_bytes());
        out.extend_from_slice(&b);
    }
}

impl Transfer {
    fn read(b: &[u8]) -> Transfer {
        Transfer {
            id: number(b, 0, 16),
            debit: number(b, 16, 16),
            credit: number(b, 32, 16),
            amount: number(b, 48, 16),
            pending_id: number(b, 64, 16),
            user128: number(b, 80, 16),
            user64: number(b, 96, 8) as u64,
            user32: number(b, 104, 4) as u32,
            timeout: number(b, 108, 4) as u32,
            ledger: number(b, 112, 4) as u32,
            code: number(b, 116, 2) as u16,
            flags: number(b, 118, 2) as u16,
            timestamp: number(b, 120, 8) as u64,
            state: Cell::new(State::Open),
        }
    }
    fn write(&self, out: &mut Vec<u8>) {
        let mut b = [0; 128];
        put(&mut b, 0, &self.id.to_le_bytes());
        put(&mut b, 16, &self.debit.to_le_bytes());
        put(&mut b, 32, &self.credit.to_le_bytes());
        put(&mut b, 48, &self.amount.to_le_bytes());
        put(&mut b, 64, &self.pending_id.to_le_bytes());
        put(&mut b, 80, &self.user128.to_le_bytes());
        put(&mut b, 96, &self.user64.to_le_bytes());
        put(&mut b, 104, &self.user32.to_le_bytes());
        put(&mut b, 108, &self.timeout.to_le_bytes());
        put(&mut b, 112, &self.ledger.to_le_bytes());
        put(&mut b, 116, &self.code.to_le_bytes());
        put(&mut b, 118, &self.flags.to_le_bytes());
        put(&mut b, 120, &self.timestamp.to_le_bytes());
        out.extend_from_slice(&b);
    }
    fn is(&self, bit: u16) -> bool {
        self.flags & bit != 0
    }
    fn expires(&self) -> (u64, u64) {
        (
            self.timestamp + self.timeout as u64 * SECOND,
            self.timestamp,
        )
    }
}

enum Undo {
    AddedAccount(u128),
    AddedTransfer(u128),
    Account(Account),
    Transfer(Transfer),
    Due((u64, u64)),
    Undue((u64, u64), u128),
}

struct Ledger {
    accounts: Rows<Account>,
    transfers: Rows<Transfer>,
    due: Due,
    failed: Option<BTreeSet<u128>>,
    undo_log: Vec<Undo>,
}

impl Ledger {
    fn release(p: &Transfer, d: &Account, c: &Account, state: State) {
        d.debits_pending.set(d.debits_pending.get() - p.amount);
        if p.is(CLOSING_DEBIT) {
            d.closers.set(d.closers.get() - 1);
        }
        c.credits_pending.set(c.credits_pending.get() - p.amount);
        if p.is(CLOSING_CREDIT) {
            c.closers.set(c.closers.get() - 1);
        }
        p.state.set(state);
    }

    fn expire(&mut self, t: u64) {
        while let Some((key, id)) = self.due.pop_until(t) {
            // (a heap keeps entries of transfers that were posted, voided or taken back since)
            let Some(p) = self.transfers.get(&id) else {
                continue;
            };
            if p.expires() == key && matches!(p.state.get(), State::Open) {
                let (d, c) = (
                    self.accounts.get(&p.debit).unwrap(),
                    self.accounts.get(&p.credit).unwrap(),
                );
                Ledger::release(p, d, c, State::Expired);
            }
        }
    }

    fn create_account(&mut self, a: &Account, time: u64) -> u32 {
        if a.timestamp != 0 {
            return 3;
        }
        if a.reserved != 0 {
            return 4;
        }
        if a.flags & 0xFFD0 != 0 {
            return 5;
        }
        if a.id == 0 {
            return 6;
        }
        if a.id == u128::MAX {
            return 7;
        }
        if let Some(e) = self.accounts.get(&a.id) {
            if a.flags != e.present_flags() {
                return 15;
            }
            if a.user128 != e.user128 {
                return 16;
            }
            if a.user64 != e.user64 {
                return 17;
            }
            if a.user32 != e.user32 {
                return 18;
            }
            if a.ledger != e.ledger {
                return 19;
            }
            if a.code != e.code {
                return 20;
            }
            return 21;
        }
        if a.flags & DEBITS_LIMITED != 0 && a.flags & CREDITS_LIMITED != 0 {
            return 8;
        }
        if a.debits_pending.get() != 0 {
            return 9;
        }
        if a.debits_posted.get() != 0 {
            return 10;
        }
        if a.credits_pending.get() != 0 {
            return 11;
        }
        if a.credits_posted.get() != 0 {
            return 12;
        }
        if a.ledger == 0 {
            return 13;
        }
        if a.code == 0 {
            return 14;
        }
        self.accounts.insert(
            a.id,
            Account {
                timestamp: time,
                ..a.clone()
            },
        );
        self.undo_log.push(Undo::AddedAccount(a.id));
        0
    }

    fn create_transfer(&mut self, t: &Transfer, time: u64) -> u32 {
        if t.timestamp != 0 {
            return 3;
        }
        if t.flags & 0xFF00 != 0 {
            return 4;
        }
        if t.id == 0 {
            return 5;
        }
        if t.id == u128::MAX {
            return 6;
        }
        let resolves = t.is(POST | VOID);
        let p = if resolves {
            self.transfers.get(&t.pending_id)
        } else {
            None
        };
        let mut f = t.clone();
        if let Some(p) = p {
            if f.debit == 0 {
                f.debit = p.debit;
            }
            if f.credit == 0 {
                f.credit = p.credit;
            }
            if f.user128 == 0 {
                f.user128 = p.user128;
            }
            if f.user64 == 0 {
                f.user64 = p.user64;
            }
            if f.user32 == 0 {
                f.user32 = p.user32;
            }
            if f.ledger == 0 {
                f.ledger = p.ledger;
            }
            if f.code == 0 {
                f.code = p.code;
            }
            if f.is(POST) {
                if f.amount == u128::MAX {
                    f.amount = p.amount;
                }
            } else if f.amount == 0 {
                f.amount = p.amount;
            }
        }
        if let Some(e) = self.transfers.get(&t.id) {
            if f.flags != e.flags {
                return 36;
            }
            if f.pending_id != e.pending_id {
                return 40;
            }
            if f.timeout != e.timeout {
                return 44;
            }
            if f.debit != e.debit {
                return 37;
            }
            if f.credit != e.credit {
                return 38;
            }
            if f.is(BALANCING_DEBIT | BALANCING_CREDIT) {
                if f.amount < e.amount {
                    return 39;
                }
            } else if f.amount != e.amount {
                return 39;
            }
            if f.user128 != e.user128 {
                return 41;
            }
            if f.user64 != e.user64 {
                return 42;
            }
            if f.user32 != e.user32 {
                return 43;
            }
            if f.ledger != e.ledger {
                return 67;
            }
            if f.code != e.code {
                return 45;
            }
            return 46;
        }
        if let Some(failed) = &self.failed {
            if failed.contains(&t.id) {
                return 68;
            }
        }
        f.timestamp = time;
        if resolves {
            self.resolve(t, f)
        } else {
            self.single(f, time)
        }
    }

    fn resolve(&mut self, t: &Transfer, f: Transfer) -> u32 {
        if f.is(POST) && f.is(VOID)
            || f.is(PENDING | BALANCING_DEBIT | BALANCING_CREDIT | CLOSING_DEBIT | CLOSING_CREDIT)
        {
            return 7;
        }
        if f.pending_id == 0 {
            return 14;
        }
        if f.pending_id == u128::MAX {
            return 15;
        }
        if f.pending_id == f.id {
            return 16;
        }
        if f.timeout != 0 {
            return 17;
        }
        let Some(p) = self.transfers.get(&f.pending_id) else {
            return 25;
        };
        if !p.is(PENDING) {
            return 26;
        }
        if t.debit != 0 && t.debit != p.debit {
            return 27;
        }
        if t.credit != 0 && t.credit != p.credit {
            return 28;
        }
        if t.ledger != 0 && t.ledger != p.ledger {
            return 29;
        }
        if t.code != 0 && t.code != p.code {
            return 30;
        }
        if f.amount > p.amount {
            return 31;
        }
        if f.is(VOID) && f.amount < p.amount {
            return 32;
        }
        match p.state.get() {
            State::Posted => return 33,
            State::Voided => return 34,
            State::Expired => return 35,
            State::Open => {}
        }
        let (d, c) = (
            self.accounts.get(&p.debit).unwrap(),
            self.accounts.get(&p.credit).unwrap(),
        );
        if f.is(POST) && d.closed() {
            return 65;
        }
        if f.is(POST) && c.closed() {
            return 66;
        }
        self.undo_log.push(Undo::Account(d.clone()));
        self.undo_log.push(Undo::Account(c.clone()));
        self.undo_log.push(Undo::Transfer(p.clone()));
        Ledger::release(
            p,
            d,
            c,
            if f.is(POST) {
                State::Posted
            } else {
                State::Voided
            },
        );
        if f.is(POST) {
            d.debits_posted.set(d.debits_posted.get() + f.amount);
            c.credits_posted.set(c.credits_posted.get() + f.amount);
        }
        if p.timeout != 0 {
            self.due.remove(&p.expires());
            self.undo_log.push(Undo::Undue(p.expires(), p.id));
        }
        self.undo_log.push(Undo::AddedTransfer(f.id));
        self.transfers.insert(f.id, f);
        0
    }

    fn single(&mut self, mut f: Transfer, time: u64) -> u32 {
        if f.debit == 0 {
            return 8;
        }
        if f.debit == u128::MAX {
            return 9;
        }
        if f.credit == 0 {
            return 10;
        }
        if f.credit == u128::MAX {
            return 11;
        }
        if f.debit == f.credit {
            return 12;
        }
        if f.pending_id != 0 {
            return 13;
        }
        let pending = f.is(PENDING);
        if f.timeout != 0 && !pending {
            return 17;
        }
        if f.is(CLOSING_DEBIT | CLOSING_CREDIT) && !pending {
            return 64;
        }
        if f.ledger == 0 {
            return 19;
        }
        if f.code == 0 {
            return 20;
        }
        let Some(d) = self.accounts.get(&f.debit) else {
            return 21;
        };
        let Some(c) = self.accounts.get(&f.credit) else {
            return 22;
        };
        if d.ledger != c.ledger {
            return 23;
        }
        if f.ledger != d.ledger {
            return 24;
        }
        if d.closed() {
            return 65;
        }
        if c.closed() {
            return 66;
        }
        let (d_pending, d_posted) = (d.debits_pending.get(), d.debits_posted.get());
        let (c_pending, c_posted) = (c.credits_pending.get(), c.credits_posted.get());
        if f.is(BALANCING_DEBIT) {
            f.amount = f
                .amount
                .min(d.credits_posted.get().saturating_sub(d_posted + d_pending));
        }
        if f.is(BALANCING_CREDIT) {
            f.amount = f
                .amount
                .min(c.debits_posted.get().saturating_sub(c_posted + c_pending));
        }
        let over = |xs: &[u128]| {
            let mut s = 0u128;
            for x in xs {
                match s.checked_add(*x) {
                    Some(n) => s = n,
                    None => return true,
                }
            }
            false
        };
        let n = f.amount;
        if pending && over(&[d_pending, n]) {
            return 47;
        }
        if pending && over(&[c_pending, n]) {
            return 48;
        }
        if over(&[d_posted, n]) {
            return 49;
        }
        if over(&[c_posted, n]) {
            return 50;
        }
        if over(&[d_pending, d_posted, n]) {
            return 51;
        }
        if over(&[c_pending, c_posted, n]) {
            return 52;
        }
        if time as u128 + f.timeout as u128 * SECOND as u128 > MAX_TIME as u128 {
            return 53;
        }
        if d.flags & DEBITS_LIMITED != 0 && d_pending + d_posted + n > d.credits_posted.get() {
            return 54;
        }
        if c.flags & CREDITS_LIMITED != 0 && c_pending + c_posted + n > c.debits_posted.get() {
            return 55;
        }
        self.undo_log.push(Undo::Account(d.clone()));
        self.undo_log.push(Undo::Account(c.clone()));
        if pending {
            d.debits_pending.set(d_pending + n);
            c.credits_pending.set(c_pending + n);
            if f.is(CLOSING_DEBIT) {
                d.closers.set(d.closers.get() + 1);
            }
            if f.is(CLOSING_CREDIT) {
                c.closers.set(c.closers.get() + 1);
            }
        } else {
            d.debits_posted.set(d_posted + n);
            c.credits_posted.set(c_posted + n);
        }
        if pending && f.timeout != 0 {
            self.due.insert(f.expires(), f.id);
            self.undo_log.push(Undo::Due(f.expires()));
        }
        self.undo_log.push(Undo::AddedTransfer(f.id));
        self.transfers.insert(f.id, f);
        0
    }

    fn unwind(&mut self) {
        while let Some(u) = self.undo_log.pop() {
            match u {
                Undo::AddedAccount(id) => {
                    self.accounts.remove(&id);
                }
                Undo::AddedTransfer(id) => {
                    self.transfers.remove(&id);
                }
                Undo::Account(a) => {
                    self.accounts.insert(a.id, a);
                }
                Undo::Transfer(t) => {
                    self.transfers.insert(t.id, t);
                }
                Undo::Due(key) => {
                    self.due.remove(&key);
                }
                Undo::Undue(key, id) => {
                    self.due.insert(key, id);
                }
            }
        }
    }
}

fn batch<E>(
    l: &mut Ledger,
    events: &[E],
    time: u64,
    linked: fn(&E) -> bool,
    id: fn(&E) -> Option<u128>,
    take: fn(&mut Ledger, &E, u64) -> u32,
) -> Vec<u8> {
    let n = events.len();
    let mut out = Vec::new();
    let mut start = 0;
    while start < n {
        let mut end = start;
        while end + 1 < n && linked(&events[end]) {
            end += 1;
        }
        l.undo_log.clear();
        let mut broke = None;
        for i in start..=end {
            let code = if i + 1 == n && linked(&events[i]) {
                2
            } else {
                take(l, &events[i], time - n as u64 + i as u64 + 1)
            };
            if code != 0 {
                broke = Some((i, code));
                break;
            }
        }
        if let Some((at, code)) = broke {
            l.unwind();
            if let (Some(failed), Some(id)) = (l.failed.as_mut(), id(&events[at])) {
                if [21, 22, 25, 54, 55, 65, 66].contains(&code) {
                    failed.insert(id);
                }
            }
            for i in start..=end {
                let c: u32 = if i == at {
                    code
                } else if i + 1 == n && linked(&events[i]) {
                    2
                } else {
                    1
                };
                out.extend((i as u32).to_le_bytes());
                out.extend(c.to_le_bytes());
            }
        }
        start = end + 1;
    }
    out
}

struct Row {
    session: u64,
    request: u32,
    operation: u8,
    body: Vec<u8>,
    reply: Vec<u8>,
    commit: u64,
}

fn frame(
    client: u128,
    session: u64,
    request: u32,
    operation: u8,
    status: u8,
    commit: u64,
    body: &[u8],
) -> Vec<u8> {
    let mut out = Vec::with_capacity(48 + body.len());
    out.extend(client.to_le_bytes());
    out.extend(session.to_le_bytes());
    out.extend(request.to_le_bytes());
    out.extend([operation, status, 0, 0]);
    out.extend((body.len() as u32).to_le_bytes());
    out.extend(commit.to_le_bytes());
    out.extend([0; 4]);
    out.extend(body);
    out
}

/// A machine: the ledger, the sessions, and the last commit number and time.
pub struct Machine {
    clients_max: usize,
    ledger: Ledger,
    rows: BTreeMap<u128, Row>,
    commit: u64,
    time: u64,
}

impl Machine {
    /// An empty machine; only profile 2 keeps failed ids.
    pub fn new(clients_max: usize, keeps_failed: bool) -> Machine {
        let failed = if keeps_failed {
            Some(BTreeSet::new())
        } else {
            None
        };
        let ledger = Ledger {
            accounts: Rows::new(),
            transfers: Rows::new(),
            due: Due::new(),
            failed,
            undo_log: Vec::new(),
        };
        Machine {
            clients_max,
            ledger,
            rows: BTreeMap::new(),
            commit: 0,
            time: 0,
        }
    }

    /// The number of requests that were executed.
    #[allow(dead_code)]
    pub fn commit(&self) -> u64 {
        self.commit
    }

    /// Serves the request of a header and a body that comes at a moment, and writes the reply; false if there is no time for it.
    pub fn serve(&mut self, moment: u64, h: &[u8], body: Vec<u8>, output: &mut impl Write) -> bool {
        let (client, session, request, operation, len) = (
            number(h, 0, 16),
            number(h, 16, 8) as u64,
            number(h, 24, 4) as u32,
            h[28],
            body.len(),
        );
        let found = self.rows.get_mut(&client);
        let status = match &found {
            None => {
                if operation == 2 {
                    100
                } else {
                    1
                }
            }
            Some(row) if operation == 2 => {
                if row.request == 0 {
                    0
                } else {
                    4
                }
            }
            Some(row) => {
                if session < row.session {
                    2
                } else if session > row.session {
                    3
                } else if request < row.request {
                    4
                } else if request == row.request {
                    if operation == row.operation && body == row.body {
                        0
                    } else {
                        5
                    }
                } else if request as u64 == row.request as u64 + 1 {
                    100
                } else {
                    6
                }
            }
        };
        if status == 100 {
            let n = match operation {
                129 | 130 => len / 128,
                _ => 0,
            };
            let t = moment as u128;
            let t = t.max(self.time as u128 + n.max(1) as u128);
            if t > MAX_TIME as u128 {
                return false;
            }
            let t = t as u64;
            let l = &mut self.ledger;
            l.expire(t);
            let out = match operation {
                129 => {
                    let events: Vec<Account> = body.chunks(128).map(Account::read).collect();
                    batch(
                        l,
                        &events,
                        t,
                        |a| a.flags & LINKED != 0,
                        |_| None,
                        Ledger::create_account,
                    )
                }
                130 => {
                    let events: Vec<Transfer> = body.chunks(128).map(Transfer::read).collect();
                    batch(
                        l,
                        &events,
                        t,
                        |e| e.is(LINKED),
                        |e| Some(e.id),
                        Ledger::create_transfer,
                    )
                }
                131 => {
                    let mut out = Vec::new();
                    for id in body.chunks(16) {
                        if let Some(a) = l.accounts.get(&number(id, 0, 16)) {
                            a.write(&mut out);
                        }
                    }
                    out
                }
                132 => {
                    let mut out = Vec::new();
                    for id in body.chunks(16) {
                        if let Some(t) = l.transfers.get(&number(id, 0, 16)) {
                            t.write(&mut out);
                        }
                    }
                    out
                }
                _ => Vec::new(),
            };
            self.commit += 1;
            self.time = t;
            let session = if operation == 2 { self.commit } else { session };
            let reply = frame(client, session, request, operation, 0, self.commit, &out);
            output.write_all(&reply).unwrap();
            let row = Row {
                session,
                request,
                operation,
                body,
                reply,
                commit: self.commit,
            };
            if let Some(found) = found {
                *found = row;
                return true;
            }
            if self.rows.len() >= self.clients_max {
                let gone = *self.rows.iter().min_by_key(|(_, r)| r.commit).unwrap().0;
                self.rows.remove(&gone);
            }
            self.rows.insert(client, row);
        } else if let (0, Some(row)) = (status, found) {
            output.write_all(&row.reply).unwrap();
        } else {
            output
                .write_all(&frame(client, session, request, operation, status, 0, &[]))
                .unwrap();
        }
        true
    }
}

#[allow(dead_code)]
fn main() {
    let args: Vec<String> = std::env::args().collect();
    let mut machine = Machine::new(args[1].parse().unwrap(), args.len() > 2 && args[2] == "2");
    let mut input = BufReader::with_capacity(65536, std::io::stdin().lock());
    let mut output = BufWriter::with_capacity(65536, std::io::stdout().lock());
    let mut head = [0u8; 56];
    while input.read_exact(&mut head).is_ok() {
        let mut body = vec![0u8; number(&head, 40, 4) as usize];
        input.read_exact(&mut body).unwrap();
        if !machine.serve(number(&head, 0, 8) as u64, &head[8..], body, &mut output) {
            output.flush().unwrap();
            eprintln!("tbs: TimeExhausted");
            std::process::exit(2);
        }
    }
    output.flush().unwrap();
}
