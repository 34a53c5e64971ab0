// The server of plain.rs over SQLite in memory, by its C API: for comparison of speed and of
// replies.
//
//     gcc -O2 -march=x86-64-v2 sqlite.c -lsqlite3 -o sqlite
//     ./sqlite CLIENTS_MAX PROFILE < script > replies
//
// - all statements are prepared once; a request is one transaction, a chain of two events or more a
//   savepoint in it;
// - keys are blobs of 16 bytes, the high byte first, so that their order is that of the ids; sums
//   are blobs too, because SQLite's integers have 64 bits;
// - an index has only the open pending transfers with a timeout, by the time of expiry;
// - the sessions and their replies are in the program's memory, which is the cheapest that they can
//   be.
//
// If SQLite reports an error (it has no memory left, say), the server prints it and ends with
// status 1.
#include <endian.h>
#include <sqlite3.h>
#include <stdbool.h>
#include <stdint.h>
#include <stdio.h>
#include <stdlib.h>
#include <string.h>

typedef unsigned __int128 u128;

#define MAX_TIME ((uint64_t)INT64_MAX)
#define SECOND 1000000000ull
#define MAX_ID (~(u128)0)

// The flags of an account and of a transfer.
enum { LINKED = 1, DEBITS_LIMITED = 2, CREDITS_LIMITED = 4, CLOSED = 32 };
enum {
    PENDING = 2,
    POST = 4,
    VOID = 8,
    BALANCING_DEBIT = 16,
    BALANCING_CREDIT = 32,
    CLOSING_DEBIT = 64,
    CLOSING_CREDIT = 128
};
enum { OPEN, POSTED, VOIDED, EXPIRED };
enum {
    REGISTER = 2,
    CREATE_ACCOUNTS = 129,
    CREATE_TRANSFERS = 130,
    LOOKUP_ACCOUNTS = 131,
    LOOKUP_TRANSFERS = 132
};

// Records as the wire has them.
typedef struct {
    u128 id, debits_pending, debits_posted, credits_pending, credits_posted, user128;
    uint64_t user64;
    uint32_t user32, reserved, ledger;
    uint16_t code, flags;
    uint64_t timestamp;
} Account;

typedef struct {
    u128 id, debit, credit, amount, pending_id, user128;
    uint64_t user64;
    uint32_t user32, timeout, ledger;
    uint16_t code, flags;
    uint64_t timestamp;
} Transfer;

_Static_assert(sizeof(Account) == 128 && sizeof(Transfer) == 128, "records have 128 bytes");

// Rows: a record, and what it does not have.
typedef struct {
    Account is;
    uint32_t closers;
} AccountRow;
typedef struct {
    Transfer is;
    int state;
} TransferRow;

static const char SCHEMA[] =
    "PRAGMA cache_size = -16777216; PRAGMA synchronous = OFF; PRAGMA locking_mode = EXCLUSIVE; PRAGMA temp_store = MEMORY;"
    "CREATE TABLE accounts(id BLOB PRIMARY KEY, debits_pending BLOB, debits_posted BLOB, credits_pending BLOB, credits_posted BLOB,"
    " user_data_128 BLOB, user_data_64 INTEGER, user_data_32 INTEGER, ledger INTEGER, code INTEGER, flags INTEGER,"
    " timestamp INTEGER, closers INTEGER) WITHOUT ROWID;"
    "CREATE TABLE transfers(id BLOB PRIMARY KEY, debit BLOB, credit BLOB, amount BLOB, pending_id BLOB, user_data_128 BLOB,"
    " user_data_64 INTEGER, user_data_32 INTEGER, timeout INTEGER, ledger INTEGER, code INTEGER, flags INTEGER,"
    " timestamp INTEGER, state INTEGER, expires INTEGER) WITHOUT ROWID;"
    "CREATE INDEX due ON transfers(expires, timestamp) WHERE expires IS NOT NULL;"
    "CREATE TABLE failed(id BLOB PRIMARY KEY) WITHOUT ROWID;";

enum {
    BEGIN,
    COMMIT,
    SAVEPOINT,
    ROLL_BACK,
    RELEASE,
    FIND_ACCOUNT,
    ADD_ACCOUNT,
    SET_DEBITS,
    SET_CREDITS,
    FIND_TRANSFER,
    ADD_TRANSFER,
    SET_STATE,
    FIRST_DUE,
    FIND_FAILED,
    ADD_FAILED,
    STATEMENTS
};

static const char *const TEXTS[STATEMENTS] = {
    [BEGIN] = "BEGIN",
    [COMMIT] = "COMMIT",
    [SAVEPOINT] = "SAVEPOINT chain",
    [ROLL_BACK] = "ROLLBACK TO chain",
    [RELEASE] = "RELEASE chain",
    [FIND_ACCOUNT] =
        "SELECT debits_pending, debits_posted, credits_pending, credits_posted, user_data_128, user_data_64,"
        " user_data_32, ledger, code, flags, timestamp, closers FROM accounts WHERE id = ?1",
    [ADD_ACCOUNT] =
        "INSERT INTO accounts VALUES(?1, ?2, ?3, ?4, ?5, ?6, ?7, ?8, ?9, ?10, ?11, ?12, 0)",
    [SET_DEBITS] =
        "UPDATE accounts SET debits_pending = ?2, debits_posted = ?3, closers = ?4 WHERE id = ?1",
    [SET_CREDITS] =
        "UPDATE accounts SET credits_pending = ?2, credits_posted = ?3, closers = ?4 WHERE id = ?1",
    [FIND_TRANSFER] =
        "SELECT debit, credit, amount, pending_id, user_data_128, user_data_64, user_data_32, timeout, ledger, code,"
        " flags, timestamp, state FROM transfers WHERE id = ?1",
    [ADD_TRANSFER] =
        "INSERT INTO transfers VALUES(?1, ?2, ?3, ?4, ?5, ?6, ?7, ?8, ?9, ?10, ?11, ?12, ?13, 0, ?14)",
    [SET_STATE] = "UPDATE transfers SET state = ?2, expires = NULL WHERE id = ?1",
    [FIRST_DUE] =
        "SELECT id FROM transfers WHERE expires <= ?1 ORDER BY expires, timestamp LIMIT 1",
    [FIND_FAILED] = "SELECT 1 FROM failed WHERE id = ?1",
    [ADD_FAILED] = "INSERT OR IGNORE INTO failed VALUES(?1)",
};

static sqlite3 *db;
static sqlite3_stmt *statements[STATEMENTS];
static bool keeps_failed;

static void check(bool holds, const char *what) {
    if (!holds) {
        fprintf(stderr, "sqlite: %s: %s\n", what, db ? sqlite3_errmsg(db) : "out of memory");
        exit(1);
    }
}

static void *memory(void *old, size_t size) {
    void *made = realloc(old, size ? size : 1);
    check(made != NULL, "memory");
    return made;
}

// Binding and reading columns

typedef struct {
    uint64_t high, low;
} Key;

static Key key_of(u128 id) { return (Key){htobe64((uint64_t)(id >> 64)), htobe64((uint64_t)id)}; }
static void bind_key(sqlite3_stmt *s, int at, const Key *key) {
    sqlite3_bind_blob(s, at, key, 16, SQLITE_STATIC);
}
static void bind_wide(sqlite3_stmt *s, int at, const u128 *n) {
    sqlite3_bind_blob(s, at, n, 16, SQLITE_STATIC);
}
static void bind(sqlite3_stmt *s, int at, uint64_t n) {
    sqlite3_bind_int64(s, at, (sqlite3_int64)n);
}

static u128 wide(sqlite3_stmt *s, int at) {
    u128 n;
    memcpy(&n, sqlite3_column_blob(s, at), 16);
    return n;
}

static uint64_t column(sqlite3_stmt *s, int at) { return (uint64_t)sqlite3_column_int64(s, at); }

static u128 key(sqlite3_stmt *s, int at) {
    Key k;
    memcpy(&k, sqlite3_column_blob(s, at), 16);
    return (u128)be64toh(k.high) << 64 | be64toh(k.low);
}

// Runs a statement; whether it found a row, which can be read until it is reset.
static bool step(sqlite3_stmt *s) {
    int status = sqlite3_step(s);
    check(status == SQLITE_ROW || status == SQLITE_DONE, sqlite3_sql(s));
    return status == SQLITE_ROW;
}

static void run(int which) {
    step(statements[which]);
    sqlite3_reset(statements[which]);
}

// Tables

static bool find_account(u128 id, AccountRow *row) {
    sqlite3_stmt *s = statements[FIND_ACCOUNT];
    Key k = key_of(id);
    bind_key(s, 1, &k);
    bool found = step(s);
    if (found) {
        row->is = (Account){
            .id = id,
            .debits_pending = wide(s, 0),
            .debits_posted = wide(s, 1),
            .credits_pending = wide(s, 2),
            .credits_posted = wide(s, 3),
            .user128 = wide(s, 4),
            .user64 = column(s, 5),
            .user32 = (uint32_t)column(s, 6),
            .ledger = (uint32_t)column(s, 7),
            .code = (uint16_t)column(s, 8),
            .flags = (uint16_t)column(s, 9),
            .timestamp = column(s, 10),
        };
        row->closers = (uint32_t)column(s, 11);
    }
    sqlite3_reset(s);
    return found;
}

static void add_account(const Account *a, uint64_t time) {
    sqlite3_stmt *s = statements[ADD_ACCOUNT];
    Key k = key_of(a->id);
    bind_key(s, 1, &k);
    bind_wide(s, 2, &a->debits_pending);
    bind_wide(s, 3, &a->debits_posted);
    bind_wide(s, 4, &a->credits_pending);
    bind_wide(s, 5, &a->credits_posted);
    bind_wide(s, 6, &a->user128);
    bind(s, 7, a->user64);
    bind(s, 8, a->user32);
    bind(s, 9, a->ledger);
    bind(s, 10, a->code);
    bind(s, 11, a->flags);
    bind(s, 12, time);
    run(ADD_ACCOUNT);
}

static void set_sums(
    int which, u128 id, const u128 *pending, const u128 *posted, uint32_t closers) {
    sqlite3_stmt *s = statements[which];
    Key k = key_of(id);
    bind_key(s, 1, &k);
    bind_wide(s, 2, pending);
    bind_wide(s, 3, posted);
    bind(s, 4, closers);
    run(which);
}

static void set_debits(const AccountRow *d) {
    set_sums(SET_DEBITS, d->is.id, &d->is.debits_pending, &d->is.debits_posted, d->closers);
}
static void set_credits(const AccountRow *c) {
    set_sums(SET_CREDITS, c->is.id, &c->is.credits_pending, &c->is.credits_posted, c->closers);
}

static bool find_transfer(u128 id, TransferRow *row) {
    sqlite3_stmt *s = statements[FIND_TRANSFER];
    Key k = key_of(id);
    bind_key(s, 1, &k);
    bool found = step(s);
    if (found) {
        row->is = (Transfer){
            .id = id,
            .debit = wide(s, 0),
            .credit = wide(s, 1),
            .amount = wide(s, 2),
            .pending_id = wide(s, 3),
            .user128 = wide(s, 4),
            .user64 = column(s, 5),
            .user32 = (uint32_t)column(s, 6),
            .timeout = (uint32_t)column(s, 7),
            .ledger = (uint32_t)column(s, 8),
            .code = (uint16_t)column(s, 9),
            .flags = (uint16_t)column(s, 10),
            .timestamp = column(s, 11),
        };
        row->state = (int)column(s, 12);
    }
    sqlite3_reset(s);
    return found;
}

static void add_transfer(const Transfer *t) {
    sqlite3_stmt *s = statements[ADD_TRANSFER];
    Key k = key_of(t->id);
    bind_key(s, 1, &k);
    bind_wide(s, 2, &t->debit);
    bind_wide(s, 3, &t->credit);
    bind_wide(s, 4, &t->amount);
    bind_wide(s, 5, &t->pending_id);
    bind_wide(s, 6, &t->user128);
    bind(s, 7, t->user64);
    bind(s, 8, t->user32);
    bind(s, 9, t->timeout);
    bind(s, 10, t->ledger);
    bind(s, 11, t->code);
    bind(s, 12, t->flags);
    bind(s, 13, t->timestamp);
    if (t->flags & PENDING && t->timeout != 0)
        bind(s, 14, t->timestamp + t->timeout * SECOND);
    else
        sqlite3_bind_null(s, 14);
    run(ADD_TRANSFER);
}

static void set_state(u128 id, int state) {
    sqlite3_stmt *s = statements[SET_STATE];
    Key k = key_of(id);
    bind_key(s, 1, &k);
    bind(s, 2, (uint64_t)state);
    run(SET_STATE);
}

static bool has_failed(u128 id) {
    if (!keeps_failed) return false;
    sqlite3_stmt *s = statements[FIND_FAILED];
    Key k = key_of(id);
    bind_key(s, 1, &k);
    bool found = step(s);
    sqlite3_reset(s);
    return found;
}

static void note_failed(u128 id, uint32_t code) {
    bool is_transient = code == 21 || code == 22 || code == 25 || code == 54 || code == 55 ||
        code == 65 || code == 66;
    if (!keeps_failed || !is_transient) return;
    Key k = key_of(id);
    bind_key(statements[ADD_FAILED], 1, &k);
    run(ADD_FAILED);
}

// The ledger

static bool is_closed(const AccountRow *a) { return a->closers > 0 || a->is.flags & CLOSED; }
static uint16_t present_flags(const AccountRow *a) {
    return is_closed(a) ? a->is.flags | CLOSED : a->is.flags;
}

static bool overflows(u128 a, u128 b) { return a + b < a; }
static bool overflows3(u128 a, u128 b, u128 c) { return overflows(a, b) || overflows(a + b, c); }

// Takes a pending amount from both accounts, and opens those that it closed.
static void release(const Transfer *p, AccountRow *d, AccountRow *c, int state) {
    d->is.debits_pending -= p->amount;
    c->is.credits_pending -= p->amount;
    if (p->flags & CLOSING_DEBIT) d->closers--;
    if (p->flags & CLOSING_CREDIT) c->closers--;
    set_state(p->id, state);
}

static void expire(uint64_t time) {
    sqlite3_stmt *s = statements[FIRST_DUE];
    bind(s, 1, time);
    while (step(s)) {
        u128 id = key(s, 0);
        sqlite3_reset(s);
        TransferRow p;
        AccountRow d, c;
        check(
            find_transfer(id, &p) && find_account(p.is.debit, &d) && find_account(p.is.credit, &c),
            "a row is missing");
        release(&p.is, &d, &c, EXPIRED);
        set_debits(&d);
        set_credits(&c);
    }
    sqlite3_reset(s);
}

static uint32_t create_account(const void *event, uint64_t time) {
    const Account *a = event;
    AccountRow e;
    if (a->timestamp != 0) return 3;
    if (a->reserved != 0) return 4;
    if (a->flags & 0xFFD0) return 5;
    if (a->id == 0) return 6;
    if (a->id == MAX_ID) return 7;
    if (find_account(a->id, &e)) {
        if (a->flags != present_flags(&e)) return 15;
        if (a->user128 != e.is.user128) return 16;
        if (a->user64 != e.is.user64) return 17;
        if (a->user32 != e.is.user32) return 18;
        if (a->ledger != e.is.ledger) return 19;
        if (a->code != e.is.code) return 20;
        return 21;
    }
    if (a->flags & DEBITS_LIMITED && a->flags & CREDITS_LIMITED) return 8;
    if (a->debits_pending != 0) return 9;
    if (a->debits_posted != 0) return 10;
    if (a->credits_pending != 0) return 11;
    if (a->credits_posted != 0) return 12;
    if (a->ledger == 0) return 13;
    if (a->code == 0) return 14;
    add_account(a, time);
    return 0;
}

// The result if `e` has the id already.
static uint32_t exists(const Transfer *f, const Transfer *e) {
    if (f->flags != e->flags) return 36;
    if (f->pending_id != e->pending_id) return 40;
    if (f->timeout != e->timeout) return 44;
    if (f->debit != e->debit) return 37;
    if (f->credit != e->credit) return 38;
    if (f->amount < e->amount) return 39;
    if (f->amount > e->amount && !(f->flags & (BALANCING_DEBIT | BALANCING_CREDIT))) return 39;
    if (f->user128 != e->user128) return 41;
    if (f->user64 != e->user64) return 42;
    if (f->user32 != e->user32) return 43;
    if (f->ledger != e->ledger) return 67;
    if (f->code != e->code) return 45;
    return 46;
}

// What a post or void leaves open is taken from the pending transfer.
static void fill(Transfer *f, const Transfer *p) {
    if (f->debit == 0) f->debit = p->debit;
    if (f->credit == 0) f->credit = p->credit;
    if (f->user128 == 0) f->user128 = p->user128;
    if (f->user64 == 0) f->user64 = p->user64;
    if (f->user32 == 0) f->user32 = p->user32;
    if (f->ledger == 0) f->ledger = p->ledger;
    if (f->code == 0) f->code = p->code;
    if (f->amount == (f->flags & POST ? MAX_ID : 0)) f->amount = p->amount;
}

static uint32_t resolve(const Transfer *t, const Transfer *f, const TransferRow *p) {
    AccountRow d, c;
    bool posts = f->flags & POST;
    if (posts && f->flags & VOID) return 7;
    if (f->flags & (PENDING | BALANCING_DEBIT | BALANCING_CREDIT | CLOSING_DEBIT | CLOSING_CREDIT))
        return 7;
    if (f->pending_id == 0) return 14;
    if (f->pending_id == MAX_ID) return 15;
    if (f->pending_id == f->id) return 16;
    if (f->timeout != 0) return 17;
    if (p == NULL) return 25;
    if (!(p->is.flags & PENDING)) return 26;
    if (t->debit != 0 && t->debit != p->is.debit) return 27;
    if (t->credit != 0 && t->credit != p->is.credit) return 28;
    if (t->ledger != 0 && t->ledger != p->is.ledger) return 29;
    if (t->code != 0 && t->code != p->is.code) return 30;
    if (f->amount > p->is.amount) return 31;
    if (!posts && f->amount < p->is.amount) return 32;
    if (p->state == POSTED) return 33;
    if (p->state == VOIDED) return 34;
    if (p->state == EXPIRED) return 35;
    check(find_account(p->is.debit, &d) && find_account(p->is.credit, &c), "an account is missing");
    if (posts && is_closed(&d)) return 65;
    if (posts && is_closed(&c)) return 66;
    release(&p->is, &d, &c, posts ? POSTED : VOIDED);
    if (posts) {
        d.is.debits_posted += f->amount;
        c.is.credits_posted += f->amount;
    }
    set_debits(&d);
    set_credits(&c);
    add_transfer(f);
    return 0;
}

static u128 at_most(u128 amount, u128 sum, u128 less) {
    u128 left = sum > less ? sum - less : 0;
    return amount < left ? amount : left;
}

static uint32_t two_party(Transfer *f) {
    AccountRow d, c;
    bool is_pending = f->flags & PENDING;
    if (f->debit == 0) return 8;
    if (f->debit == MAX_ID) return 9;
    if (f->credit == 0) return 10;
    if (f->credit == MAX_ID) return 11;
    if (f->debit == f->credit) return 12;
    if (f->pending_id != 0) return 13;
    if (f->timeout != 0 && !is_pending) return 17;
    if (f->flags & (CLOSING_DEBIT | CLOSING_CREDIT) && !is_pending) return 64;
    if (f->ledger == 0) return 19;
    if (f->code == 0) return 20;
    if (!find_account(f->debit, &d)) return 21;
    if (!find_account(f->credit, &c)) return 22;
    if (d.is.ledger != c.is.ledger) return 23;
    if (f->ledger != d.is.ledger) return 24;
    if (is_closed(&d)) return 65;
    if (is_closed(&c)) return 66;
    u128 *debit_pending = &d.is.debits_pending, *debit_posted = &d.is.debits_posted;
    u128 *credit_pending = &c.is.credits_pending, *credit_posted = &c.is.credits_posted;
    if (f->flags & BALANCING_DEBIT)
        f->amount = at_most(f->amount, d.is.credits_posted, *debit_posted + *debit_pending);
    if (f->flags & BALANCING_CREDIT)
        f->amount = at_most(f->amount, c.is.debits_posted, *credit_posted + *credit_pending);
    u128 n = f->amount;
    if (is_pending && overflows(*debit_pending, n)) return 47;
    if (is_pending && overflows(*credit_pending, n)) return 48;
    if (overflows(*debit_posted, n)) return 49;
    if (overflows(*credit_posted, n)) return 50;
    if (overflows3(*debit_pending, *debit_posted, n)) return 51;
    if (overflows3(*credit_pending, *credit_posted, n)) return 52;
    if (f->timestamp + f->timeout * SECOND > MAX_TIME) return 53;
    if (d.is.flags & DEBITS_LIMITED && *debit_pending + *debit_posted + n > d.is.credits_posted)
        return 54;
    if (c.is.flags & CREDITS_LIMITED && *credit_pending + *credit_posted + n > c.is.debits_posted)
        return 55;
    *(is_pending ? debit_pending : debit_posted) += n;
    *(is_pending ? credit_pending : credit_posted) += n;
    if (f->flags & CLOSING_DEBIT) d.closers++;
    if (f->flags & CLOSING_CREDIT) c.closers++;
    set_debits(&d);
    set_credits(&c);
    add_transfer(f);
    return 0;
}

static uint32_t create_transfer(const void *event, uint64_t time) {
    const Transfer *t = event;
    if (t->timestamp != 0) return 3;
    if (t->flags & 0xFF00) return 4;
    if (t->id == 0) return 5;
    if (t->id == MAX_ID) return 6;
    bool resolves = t->flags & (POST | VOID);
    TransferRow p, e;
    bool is_found = resolves && find_transfer(t->pending_id, &p);
    Transfer f = *t;
    if (is_found) fill(&f, &p.is);
    if (find_transfer(t->id, &e)) return exists(&f, &e.is);
    if (has_failed(t->id)) return 68;
    f.timestamp = time;
    return resolves ? resolve(t, &f, is_found ? &p : NULL) : two_party(&f);
}

// Batches

// A growing answer, used again by the next request.
static struct {
    uint8_t *bytes;
    size_t length, capacity;
} answer;

static void put(const void *bytes, size_t length) {
    if (answer.length + length > answer.capacity) {
        answer.capacity = 2 * (answer.length + length);
        answer.bytes = memory(answer.bytes, answer.capacity);
    }
    memcpy(answer.bytes + answer.length, bytes, length);
    answer.length += length;
}

static void put_result(size_t index, uint32_t code) {
    uint32_t pair[2] = {(uint32_t)index, code};
    put(pair, sizeof pair);
}

static bool is_linked(const uint8_t *event) { return event[118] & LINKED; }

// Runs the events of a chain, and says the code of the first that fails, with its place in `at`, or
// 0.
static uint32_t run_chain(const uint8_t *body, size_t first, size_t last, size_t count,
    uint64_t time, bool are_accounts, size_t *at) {
    for (size_t i = first; i <= last; i++) {
        const uint8_t *event = body + 128 * i;
        uint64_t own = time - count + i + 1;
        bool is_open = i + 1 == count && is_linked(event);
        uint32_t code = is_open ? 2
            : are_accounts      ? create_account(event, own)
                                : create_transfer(event, own);
        *at = i;
        if (code != 0) return code;
    }
    return 0;
}

static void run_batch(const uint8_t *body, size_t count, uint64_t time, bool are_accounts) {
    for (size_t first = 0, last; first < count; first = last + 1) {
        for (last = first; last + 1 < count && is_linked(body + 128 * last);) last++;
        size_t at = first;
        if (last > first) run(SAVEPOINT);
        uint32_t code = run_chain(body, first, last, count, time, are_accounts, &at);
        if (code != 0 && last > first) run(ROLL_BACK);
        if (last > first) run(RELEASE);
        if (code == 0) continue;
        if (!are_accounts) note_failed(((const Transfer *)body)[at].id, code);
        for (size_t i = first; i <= last; i++)
            put_result(i, i == at ? code : i + 1 == count && is_linked(body + 128 * i) ? 2 : 1);
    }
}

static void look_up(const uint8_t *body, size_t count, bool are_accounts) {
    for (size_t i = 0; i < count; i++) {
        u128 id = ((const u128 *)body)[i];
        AccountRow a;
        TransferRow t;
        if (are_accounts && find_account(id, &a)) {
            a.is.flags = present_flags(&a);
            put(&a.is, 128);
        }
        if (!are_accounts && find_transfer(id, &t)) put(&t.is, 128);
    }
}

// Sessions

typedef struct {
    uint8_t client[16];
    uint64_t session;
    uint32_t request;
    uint8_t operation, status;
    uint8_t zero[2];
    uint32_t length;
    uint8_t rest[12];
} Header;

_Static_assert(sizeof(Header) == 48, "a header has 48 bytes");

typedef struct {
    uint8_t client[16];
    uint64_t session, commit;
    uint32_t request;
    uint8_t operation;
    uint8_t *body, *reply;
    size_t body_length, reply_length;
} Session;

static Session *sessions;
static size_t sessions_count, sessions_max;
static uint64_t commits, last_time;

static Session *find_session(const uint8_t *client) {
    for (size_t i = 0; i < sessions_count; i++)
        if (memcmp(sessions[i].client, client, 16) == 0) return &sessions[i];
    return NULL;
}

// A place for a new session: the next one, or that of the session with the least commit.
static Session *new_session(void) {
    if (sessions_count < sessions_max) {
        sessions[sessions_count] = (Session){0};
        return &sessions[sessions_count++];
    }
    Session *least = sessions;
    for (size_t i = 1; i < sessions_count; i++)
        if (sessions[i].commit < least->commit) least = &sessions[i];
    return least;
}

enum { NEW = 100 };

// The class of a request: the status of a reply that it gets at once, or NEW.
static int class_of(const Header *h, const Session *s, const uint8_t *body) {
    if (s == NULL) return h->operation == REGISTER ? NEW : 1;
    if (h->operation == REGISTER) return s->request == 0 ? 0 : 4;
    if (h->session < s->session) return 2;
    if (h->session > s->session) return 3;
    if (h->request < s->request) return 4;
    if (h->request == s->request) {
        bool is_same = h->operation == s->operation && h->length == s->body_length &&
            memcmp(body, s->body, h->length) == 0;
        return is_same ? 0 : 5;
    }
    return h->request == s->request + 1 ? NEW : 6;
}

static void put_head(
    const Header *h, uint64_t session, uint8_t status, uint64_t commit, size_t length) {
    Header head = {.session = session,
        .request = h->request,
        .operation = h->operation,
        .status = status,
        .length = (uint32_t)length};
    memcpy(head.client, h->client, 16);
    memcpy(head.rest, &commit, 8);
    put(&head, sizeof head);
}

// Executes a request in a transaction; the answer is in `answer` after the reply's head.
static void execute(uint8_t operation, const uint8_t *body, size_t length, uint64_t time) {
    run(BEGIN);
    expire(time);
    switch (operation) {
    case CREATE_ACCOUNTS:
    case CREATE_TRANSFERS: run_batch(body, length / 128, time, operation == CREATE_ACCOUNTS); break;
    case LOOKUP_ACCOUNTS:
    case LOOKUP_TRANSFERS: look_up(body, length / 16, operation == LOOKUP_ACCOUNTS); break;
    }
    run(COMMIT);
}

// Serves a request, and leaves its reply in `answer`; the body becomes the session's. False if
// there is no time for it.
static bool serve(uint64_t moment, const Header *h, uint8_t *body) {
    Session *s = find_session(h->client);
    int status = class_of(h, s, body);
    answer.length = 0;
    if (status == 0)
        put(s->reply, s->reply_length);
    else if (status != NEW)
        put_head(h, h->session, (uint8_t)status, 0, 0);
    if (status != NEW) {
        free(body);
        return true;
    }
    uint64_t events =
        h->operation == CREATE_ACCOUNTS || h->operation == CREATE_TRANSFERS ? h->length / 128 : 0;
    uint64_t least = last_time + (events ? events : 1);
    uint64_t time = moment > least ? moment : least;
    if (time > MAX_TIME) return false;
    put_head(h, 0, 0, 0, 0);
    execute(h->operation, body, h->length, time);
    commits++;
    last_time = time;
    Header *head = (Header *)answer.bytes;
    head->session = h->operation == REGISTER ? commits : h->session;
    head->length = (uint32_t)(answer.length - sizeof *head);
    memcpy(head->rest, &commits, 8);
    if (s == NULL) s = new_session();
    free(s->body);
    uint8_t *reply = memory(s->reply, answer.length);
    memcpy(reply, answer.bytes, answer.length);
    *s = (Session){
        .session = head->session,
        .commit = commits,
        .request = h->request,
        .operation = h->operation,
        .body = body,
        .reply = reply,
        .body_length = h->length,
        .reply_length = answer.length,
    };
    memcpy(s->client, h->client, 16);
    return true;
}

static void open_database(void) {
    check(sqlite3_open(":memory:", &db) == SQLITE_OK, "open");
    check(sqlite3_exec(db, SCHEMA, NULL, NULL, NULL) == SQLITE_OK, "schema");
    for (int i = 0; i < STATEMENTS; i++)
        check(sqlite3_prepare_v3(
                  db, TEXTS[i], -1, SQLITE_PREPARE_PERSISTENT, &statements[i], NULL) == SQLITE_OK,
            TEXTS[i]);
}

int main(int count, char **words) {
    if (count < 2) {
        fprintf(stderr, "sqlite CLIENTS_MAX [PROFILE] < script > replies\n");
        return 2;
    }
    sessions_max = strtoul(words[1], NULL, 10);
    keeps_failed = count > 2 && strcmp(words[2], "2") == 0;
    sessions = memory(NULL, sessions_max * sizeof *sessions);
    open_database();
    setvbuf(stdin, NULL, _IOFBF, 65536);
    setvbuf(stdout, NULL, _IOFBF, 65536);
    uint64_t moment;
    Header h;
    while (fread(&moment, sizeof moment, 1, stdin) == 1 && fread(&h, sizeof h, 1, stdin) == 1) {
        uint8_t *body = memory(NULL, h.length);
        check(fread(body, 1, h.length, stdin) == h.length, "the script is cut short");
        bool is_served = serve(moment, &h, body);
        if (is_served) fwrite(answer.bytes, 1, answer.length, stdout);
        if (!is_served) {
            fflush(stdout);
            fprintf(stderr, "tbs: TimeExhausted\n");
            return 2;
        }
    }
    return fflush(stdout) == 0 ? 0 : 1;
}
