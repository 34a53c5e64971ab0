/* The ledger server inside a C program: a request's frame and a moment go in, the reply's frame
 * comes out. Frames are those of docs/use/FORMATS.md; docs/use/EMBEDDING.md says what the calls
 * promise and what they trust.
 *
 * First the names and the structs that frames are made of, then the five calls of the library, then
 * functions that write and read the frames of requests, and read those of replies. These are static
 * inline, and need no library. */
#ifndef TB_EMBED_H
#define TB_EMBED_H

#include <stddef.h>
#include <stdint.h>
#include <string.h>

/* Numbers in frames are little-endian, and the structs below are copied from and to them as they
 * are. */
#if !defined(__BYTE_ORDER__) || __BYTE_ORDER__ != __ORDER_LITTLE_ENDIAN__
#error "tb_embed.h is for little-endian processors"
#endif

#ifdef __cplusplus
extern "C" {
#define TB_ASSERT(holds, text) static_assert(holds, text)
#else
#define TB_ASSERT(holds, text) _Static_assert(holds, text)
#endif

/* A handle, which its owner keeps: {0} is a closed one. Its fields are the library's: never write,
 * copy or share them. */
typedef struct tb_server {
    void *at;
    uint8_t is_open;
} tb_server;

/* generated: statuses, by tools/tables.py from tools/ledger.json */
/* What a call of the library answers. */
enum tb_status {
    /* the call did what it is for */
    TB_DONE = 0,
    /* the handle is closed */
    TB_CLOSED = 1,
    /* wrong arguments, or a handle to be opened is open */
    TB_USAGE = 2,
    /* nothing changed */
    TB_NO_MEMORY = 3,
    /* the bytes have a fault, or more bytes follow the frame; nothing changed */
    TB_MALFORMED = 4,
    /* the request is new, and no time up to 2^63 - 1 is left for it; nothing changed */
    TB_TIME_EXHAUSTED = 5,
    /* no record has this id, and the room has 128 bytes */
    TB_ABSENT = 6,
    /* the room is too small. tb_embed_serve has served the request, returns the reply's length, and
       gives the reply if the same request is sent next */
    TB_TOO_SMALL = 7
};
/* end of statuses */

/* generated: limits, by tools/tables.py from tools/ledger.json */
/* Sizes in bytes, and limits. A frame is a header, and items behind it. */
#define TB_HEADER_SIZE 48
#define TB_RECORD_SIZE 128 /* an account, a transfer */
#define TB_ID_SIZE 16
#define TB_RESULT_SIZE 8
#define TB_ITEMS_MAX 8190
#define TB_REQUEST_MAX (TB_HEADER_SIZE + TB_ITEMS_MAX * TB_RECORD_SIZE)
/* The room that every reply has enough of: a header, and as many records. */
#define TB_REPLY_MAX (TB_HEADER_SIZE + TB_ITEMS_MAX * TB_RECORD_SIZE)
#define TB_CLIENTS_MAX 64
#define TB_TIME_MAX UINT64_C(9223372036854775807) /* no entry has a later time, in nanoseconds */
/* end of limits */

/* generated: enums, by tools/tables.py from tools/ledger.json */
/* What a request asks for. */
enum tb_operation {
    TB_OPERATION_REGISTER = 2,
    TB_OPERATION_CREATE_ACCOUNTS = 129,
    TB_OPERATION_CREATE_TRANSFERS = 130,
    TB_OPERATION_LOOKUP_ACCOUNTS = 131,
    TB_OPERATION_LOOKUP_TRANSFERS = 132
};

/* What the server says of a request, in its reply. With any but the first it was not executed now,
 * and there is no body. */
enum tb_reply_status {
    /* it is in the history, and this is its reply */
    TB_REPLY_STATUS_REPLY = 0,
    /* it is of a client without a session: it was never registered, or evicted */
    TB_REPLY_STATUS_NO_SESSION = 1,
    /* it has a session below the client's */
    TB_REPLY_STATUS_SESSION_TOO_LOW = 2,
    /* it has a session above the client's */
    TB_REPLY_STATUS_NEWER_SESSION = 3,
    /* it has a number below the client's last */
    TB_REPLY_STATUS_OLDER = 4,
    /* it has the last number and another content */
    TB_REPLY_STATUS_COLLISION = 5,
    /* it skips a number */
    TB_REPLY_STATUS_NEWER_REQUEST = 6,
    /* it is new and not yet shown (only seats return this) */
    TB_REPLY_STATUS_NOT_YET = 7
};

/* What is wrong with a frame. docs/use/FORMATS.md says where each holds. */
enum tb_fault {
    TB_FAULT_NONE = 0,
    /* the header or the body is cut */
    TB_FAULT_SHORT = 1,
    /* the client is 0 */
    TB_FAULT_CLIENT_ZERO = 2,
    /* no operation has this number */
    TB_FAULT_UNKNOWN_OPERATION = 3,
    /* a zero byte is not 0, or the status of a reply is above 7 */
    TB_FAULT_RESERVED = 4,
    /* the body has no whole items, or has some where there are none */
    TB_FAULT_BAD_LENGTH = 5,
    /* there are more than 8190 items */
    TB_FAULT_TOO_MANY = 6,
    /* a register has a session or a request */
    TB_FAULT_REGISTER_NUMBERS = 7,
    /* another operation has request 0 */
    TB_FAULT_REQUEST_ZERO = 8,
    /* a device failed; bytes alone never give this */
    TB_FAULT_DEVICE = 9,
    /* out of memory; bytes alone never give this */
    TB_FAULT_NO_MEMORY = 10,
    /* session, commit and status do not go together */
    TB_FAULT_REPLY_NUMBERS = 11
};

/* The flags of accounts. Imported ones are answered reserved_flag. */
enum tb_account_flags {
    TB_ACCOUNT_LINKED = 1,
    TB_ACCOUNT_DEBITS_MUST_NOT_EXCEED_CREDITS = 2,
    TB_ACCOUNT_CREDITS_MUST_NOT_EXCEED_DEBITS = 4,
    TB_ACCOUNT_HISTORY = 8,
    TB_ACCOUNT_IMPORTED = 16,
    TB_ACCOUNT_CLOSED = 32
};

/* The flags of transfers. Imported ones are answered reserved_flag. */
enum tb_transfer_flags {
    TB_TRANSFER_LINKED = 1,
    TB_TRANSFER_PENDING = 2,
    TB_TRANSFER_POST_PENDING_TRANSFER = 4,
    TB_TRANSFER_VOID_PENDING_TRANSFER = 8,
    TB_TRANSFER_BALANCING_DEBIT = 16,
    TB_TRANSFER_BALANCING_CREDIT = 32,
    TB_TRANSFER_CLOSING_DEBIT = 64,
    TB_TRANSFER_CLOSING_CREDIT = 128,
    TB_TRANSFER_IMPORTED = 256
};

/* What became of an event of create_accounts. docs/use/RULES.md says where each holds,
 * docs/use/CLIENTS.md what to do. */
enum tb_create_account_result {
    TB_CREATE_ACCOUNT_OK = 0,
    TB_CREATE_ACCOUNT_LINKED_EVENT_FAILED = 1,
    TB_CREATE_ACCOUNT_LINKED_EVENT_CHAIN_OPEN = 2,
    TB_CREATE_ACCOUNT_TIMESTAMP_MUST_BE_ZERO = 3,
    TB_CREATE_ACCOUNT_RESERVED_FIELD = 4,
    TB_CREATE_ACCOUNT_RESERVED_FLAG = 5,
    TB_CREATE_ACCOUNT_ID_MUST_NOT_BE_ZERO = 6,
    TB_CREATE_ACCOUNT_ID_MUST_NOT_BE_INT_MAX = 7,
    TB_CREATE_ACCOUNT_FLAGS_ARE_MUTUALLY_EXCLUSIVE = 8,
    TB_CREATE_ACCOUNT_DEBITS_PENDING_MUST_BE_ZERO = 9,
    TB_CREATE_ACCOUNT_DEBITS_POSTED_MUST_BE_ZERO = 10,
    TB_CREATE_ACCOUNT_CREDITS_PENDING_MUST_BE_ZERO = 11,
    TB_CREATE_ACCOUNT_CREDITS_POSTED_MUST_BE_ZERO = 12,
    TB_CREATE_ACCOUNT_LEDGER_MUST_NOT_BE_ZERO = 13,
    TB_CREATE_ACCOUNT_CODE_MUST_NOT_BE_ZERO = 14,
    TB_CREATE_ACCOUNT_EXISTS_WITH_DIFFERENT_FLAGS = 15,
    TB_CREATE_ACCOUNT_EXISTS_WITH_DIFFERENT_USER_DATA_128 = 16,
    TB_CREATE_ACCOUNT_EXISTS_WITH_DIFFERENT_USER_DATA_64 = 17,
    TB_CREATE_ACCOUNT_EXISTS_WITH_DIFFERENT_USER_DATA_32 = 18,
    TB_CREATE_ACCOUNT_EXISTS_WITH_DIFFERENT_LEDGER = 19,
    TB_CREATE_ACCOUNT_EXISTS_WITH_DIFFERENT_CODE = 20,
    TB_CREATE_ACCOUNT_EXISTS = 21
};

/* What became of an event of create_transfers. */
enum tb_create_transfer_result {
    TB_CREATE_TRANSFER_OK = 0,
    TB_CREATE_TRANSFER_LINKED_EVENT_FAILED = 1,
    TB_CREATE_TRANSFER_LINKED_EVENT_CHAIN_OPEN = 2,
    TB_CREATE_TRANSFER_TIMESTAMP_MUST_BE_ZERO = 3,
    TB_CREATE_TRANSFER_RESERVED_FLAG = 4,
    TB_CREATE_TRANSFER_ID_MUST_NOT_BE_ZERO = 5,
    TB_CREATE_TRANSFER_ID_MUST_NOT_BE_INT_MAX = 6,
    TB_CREATE_TRANSFER_FLAGS_ARE_MUTUALLY_EXCLUSIVE = 7,
    TB_CREATE_TRANSFER_DEBIT_ACCOUNT_ID_MUST_NOT_BE_ZERO = 8,
    TB_CREATE_TRANSFER_DEBIT_ACCOUNT_ID_MUST_NOT_BE_INT_MAX = 9,
    TB_CREATE_TRANSFER_CREDIT_ACCOUNT_ID_MUST_NOT_BE_ZERO = 10,
    TB_CREATE_TRANSFER_CREDIT_ACCOUNT_ID_MUST_NOT_BE_INT_MAX = 11,
    TB_CREATE_TRANSFER_ACCOUNTS_MUST_BE_DIFFERENT = 12,
    TB_CREATE_TRANSFER_PENDING_ID_MUST_BE_ZERO = 13,
    TB_CREATE_TRANSFER_PENDING_ID_MUST_NOT_BE_ZERO = 14,
    TB_CREATE_TRANSFER_PENDING_ID_MUST_NOT_BE_INT_MAX = 15,
    TB_CREATE_TRANSFER_PENDING_ID_MUST_BE_DIFFERENT = 16,
    TB_CREATE_TRANSFER_TIMEOUT_RESERVED_FOR_PENDING_TRANSFER = 17,
    TB_CREATE_TRANSFER_LEDGER_MUST_NOT_BE_ZERO = 19,
    TB_CREATE_TRANSFER_CODE_MUST_NOT_BE_ZERO = 20,
    TB_CREATE_TRANSFER_DEBIT_ACCOUNT_NOT_FOUND = 21,
    TB_CREATE_TRANSFER_CREDIT_ACCOUNT_NOT_FOUND = 22,
    TB_CREATE_TRANSFER_ACCOUNTS_MUST_HAVE_THE_SAME_LEDGER = 23,
    TB_CREATE_TRANSFER_TRANSFER_MUST_HAVE_THE_SAME_LEDGER_AS_ACCOUNTS = 24,
    TB_CREATE_TRANSFER_PENDING_TRANSFER_NOT_FOUND = 25,
    TB_CREATE_TRANSFER_PENDING_TRANSFER_NOT_PENDING = 26,
    TB_CREATE_TRANSFER_PENDING_TRANSFER_HAS_DIFFERENT_DEBIT_ACCOUNT_ID = 27,
    TB_CREATE_TRANSFER_PENDING_TRANSFER_HAS_DIFFERENT_CREDIT_ACCOUNT_ID = 28,
    TB_CREATE_TRANSFER_PENDING_TRANSFER_HAS_DIFFERENT_LEDGER = 29,
    TB_CREATE_TRANSFER_PENDING_TRANSFER_HAS_DIFFERENT_CODE = 30,
    TB_CREATE_TRANSFER_EXCEEDS_PENDING_TRANSFER_AMOUNT = 31,
    TB_CREATE_TRANSFER_PENDING_TRANSFER_HAS_DIFFERENT_AMOUNT = 32,
    TB_CREATE_TRANSFER_PENDING_TRANSFER_ALREADY_POSTED = 33,
    TB_CREATE_TRANSFER_PENDING_TRANSFER_ALREADY_VOIDED = 34,
    TB_CREATE_TRANSFER_PENDING_TRANSFER_EXPIRED = 35,
    TB_CREATE_TRANSFER_EXISTS_WITH_DIFFERENT_FLAGS = 36,
    TB_CREATE_TRANSFER_EXISTS_WITH_DIFFERENT_DEBIT_ACCOUNT_ID = 37,
    TB_CREATE_TRANSFER_EXISTS_WITH_DIFFERENT_CREDIT_ACCOUNT_ID = 38,
    TB_CREATE_TRANSFER_EXISTS_WITH_DIFFERENT_AMOUNT = 39,
    TB_CREATE_TRANSFER_EXISTS_WITH_DIFFERENT_PENDING_ID = 40,
    TB_CREATE_TRANSFER_EXISTS_WITH_DIFFERENT_USER_DATA_128 = 41,
    TB_CREATE_TRANSFER_EXISTS_WITH_DIFFERENT_USER_DATA_64 = 42,
    TB_CREATE_TRANSFER_EXISTS_WITH_DIFFERENT_USER_DATA_32 = 43,
    TB_CREATE_TRANSFER_EXISTS_WITH_DIFFERENT_TIMEOUT = 44,
    TB_CREATE_TRANSFER_EXISTS_WITH_DIFFERENT_CODE = 45,
    TB_CREATE_TRANSFER_EXISTS = 46,
    TB_CREATE_TRANSFER_OVERFLOWS_DEBITS_PENDING = 47,
    TB_CREATE_TRANSFER_OVERFLOWS_CREDITS_PENDING = 48,
    TB_CREATE_TRANSFER_OVERFLOWS_DEBITS_POSTED = 49,
    TB_CREATE_TRANSFER_OVERFLOWS_CREDITS_POSTED = 50,
    TB_CREATE_TRANSFER_OVERFLOWS_DEBITS = 51,
    TB_CREATE_TRANSFER_OVERFLOWS_CREDITS = 52,
    TB_CREATE_TRANSFER_OVERFLOWS_TIMEOUT = 53,
    TB_CREATE_TRANSFER_EXCEEDS_CREDITS = 54,
    TB_CREATE_TRANSFER_EXCEEDS_DEBITS = 55,
    TB_CREATE_TRANSFER_CLOSING_TRANSFER_MUST_BE_PENDING = 64,
    TB_CREATE_TRANSFER_DEBIT_ACCOUNT_ALREADY_CLOSED = 65,
    TB_CREATE_TRANSFER_CREDIT_ACCOUNT_ALREADY_CLOSED = 66,
    TB_CREATE_TRANSFER_EXISTS_WITH_DIFFERENT_LEDGER = 67,
    TB_CREATE_TRANSFER_ID_ALREADY_FAILED = 68
};
/* end of enums */

/* The records, as they stand in frames: little-endian, 128 bits as two halves, the low one first.
 */
typedef struct tb_u128 {
    uint64_t low, high;
} tb_u128;

/* generated: records, by tools/tables.py from tools/ledger.json */
typedef struct tb_account {
    tb_u128 id, debits_pending, debits_posted, credits_pending, credits_posted, user_data_128;
    uint64_t user_data_64;
    uint32_t user_data_32, reserved, ledger;
    uint16_t code, flags;
    uint64_t timestamp;
} tb_account;

typedef struct tb_transfer {
    tb_u128 id, debit_account_id, credit_account_id, amount, pending_id, user_data_128;
    uint64_t user_data_64;
    uint32_t user_data_32, timeout, ledger;
    uint16_t code, flags;
    uint64_t timestamp;
} tb_transfer;
/* end of records */

/* What became of one event of a create: its place in the request, and a result code. Events that
 * were accepted are not told. */
typedef struct tb_event_result {
    uint32_t index, result;
} tb_event_result;

/* generated: headers, by tools/tables.py from tools/ledger.json */
typedef struct tb_request_header {
    tb_u128 client;
    uint64_t session;
    uint32_t request;
    uint8_t operation, zeros[3];
    uint32_t length;
    uint8_t more_zeros[12];
} tb_request_header;

typedef struct tb_reply_header {
    tb_u128 client;
    uint64_t session;
    uint32_t request;
    uint8_t operation, status, zeros[2];
    uint32_t length, commit_low, commit_high, more_zeros;
} tb_reply_header;
/* end of headers */

TB_ASSERT(sizeof(void *) == 8 && sizeof(size_t) == 8, "64 bits");
TB_ASSERT(sizeof(tb_server) == 16 && offsetof(tb_server, is_open) == 8, "the handle");
/* generated: layouts, by tools/tables.py from tools/ledger.json */
TB_ASSERT(sizeof(tb_account) == 128, "tb_account");
TB_ASSERT(offsetof(tb_account, id) == 0, "tb_account");
TB_ASSERT(offsetof(tb_account, debits_pending) == 16, "tb_account");
TB_ASSERT(offsetof(tb_account, debits_posted) == 32, "tb_account");
TB_ASSERT(offsetof(tb_account, credits_pending) == 48, "tb_account");
TB_ASSERT(offsetof(tb_account, credits_posted) == 64, "tb_account");
TB_ASSERT(offsetof(tb_account, user_data_128) == 80, "tb_account");
TB_ASSERT(offsetof(tb_account, user_data_64) == 96, "tb_account");
TB_ASSERT(offsetof(tb_account, user_data_32) == 104, "tb_account");
TB_ASSERT(offsetof(tb_account, reserved) == 108, "tb_account");
TB_ASSERT(offsetof(tb_account, ledger) == 112, "tb_account");
TB_ASSERT(offsetof(tb_account, code) == 116, "tb_account");
TB_ASSERT(offsetof(tb_account, flags) == 118, "tb_account");
TB_ASSERT(offsetof(tb_account, timestamp) == 120, "tb_account");
TB_ASSERT(sizeof(tb_transfer) == 128, "tb_transfer");
TB_ASSERT(offsetof(tb_transfer, id) == 0, "tb_transfer");
TB_ASSERT(offsetof(tb_transfer, debit_account_id) == 16, "tb_transfer");
TB_ASSERT(offsetof(tb_transfer, credit_account_id) == 32, "tb_transfer");
TB_ASSERT(offsetof(tb_transfer, amount) == 48, "tb_transfer");
TB_ASSERT(offsetof(tb_transfer, pending_id) == 64, "tb_transfer");
TB_ASSERT(offsetof(tb_transfer, user_data_128) == 80, "tb_transfer");
TB_ASSERT(offsetof(tb_transfer, user_data_64) == 96, "tb_transfer");
TB_ASSERT(offsetof(tb_transfer, user_data_32) == 104, "tb_transfer");
TB_ASSERT(offsetof(tb_transfer, timeout) == 108, "tb_transfer");
TB_ASSERT(offsetof(tb_transfer, ledger) == 112, "tb_transfer");
TB_ASSERT(offsetof(tb_transfer, code) == 116, "tb_transfer");
TB_ASSERT(offsetof(tb_transfer, flags) == 118, "tb_transfer");
TB_ASSERT(offsetof(tb_transfer, timestamp) == 120, "tb_transfer");
TB_ASSERT(sizeof(tb_event_result) == 8, "tb_event_result");
TB_ASSERT(offsetof(tb_event_result, index) == 0, "tb_event_result");
TB_ASSERT(offsetof(tb_event_result, result) == 4, "tb_event_result");
TB_ASSERT(sizeof(tb_request_header) == 48, "tb_request_header");
TB_ASSERT(offsetof(tb_request_header, client) == 0, "tb_request_header");
TB_ASSERT(offsetof(tb_request_header, session) == 16, "tb_request_header");
TB_ASSERT(offsetof(tb_request_header, request) == 24, "tb_request_header");
TB_ASSERT(offsetof(tb_request_header, operation) == 28, "tb_request_header");
TB_ASSERT(offsetof(tb_request_header, length) == 32, "tb_request_header");
TB_ASSERT(sizeof(tb_reply_header) == 48, "tb_reply_header");
TB_ASSERT(offsetof(tb_reply_header, client) == 0, "tb_reply_header");
TB_ASSERT(offsetof(tb_reply_header, session) == 16, "tb_reply_header");
TB_ASSERT(offsetof(tb_reply_header, request) == 24, "tb_reply_header");
TB_ASSERT(offsetof(tb_reply_header, operation) == 28, "tb_reply_header");
TB_ASSERT(offsetof(tb_reply_header, status) == 29, "tb_reply_header");
TB_ASSERT(offsetof(tb_reply_header, length) == 32, "tb_reply_header");
TB_ASSERT(offsetof(tb_reply_header, commit_low) == 36, "tb_reply_header");
/* end of layouts */

TB_ASSERT(sizeof(tb_u128) == TB_ID_SIZE && offsetof(tb_u128, high) == 8, "128 bits");

/* Opens a closed handle at the empty history. profile is 1 or 2; clients_max is 1 to
 * TB_CLIENTS_MAX. DONE, USAGE, NO_MEMORY. */
uint32_t tb_embed_open(tb_server *server, uint32_t profile, uint32_t clients_max);

/* Serves the frame of one request that comes at a moment, in nanoseconds, and writes the frame of
 * its reply to the beginning of the room. written is the number of bytes at DONE, those needed at
 * TOO_SMALL, and otherwise 0. At TOO_SMALL the whole room is overwritten, with the first bytes of
 * the reply. DONE, CLOSED, NO_MEMORY, MALFORMED, TIME_EXHAUSTED, TOO_SMALL. */
uint32_t tb_embed_serve(tb_server *server, uint64_t moment, const uint8_t *request,
    size_t request_length, uint8_t *reply, size_t reply_room, size_t *written);

/* Writes the 128 bytes of an account as it is after the last request: a tb_account. DONE,
 * CLOSED, ABSENT, TOO_SMALL. */
uint32_t tb_embed_account(
    tb_server *server, uint64_t id_low, uint64_t id_high, uint8_t *account, size_t room);

/* The same of a transfer as it was recorded: a tb_transfer. */
uint32_t tb_embed_transfer(
    tb_server *server, uint64_t id_low, uint64_t id_high, uint8_t *transfer, size_t room);

/* Closes the handle and frees its server. A closed handle stays closed. */
void tb_embed_close(tb_server *server);

/* A client's session, which its owner keeps and stores, with the frame of the request that waits or
 * was left in doubt next to it.
 * {.id = ID} is a client that has not registered; make one once for each id. */
typedef struct tb_caller {
    tb_u128 id;
    uint64_t session; /* 0 before there is one */
    uint32_t last;    /* the number of the last request that was made, 0 before */
    uint32_t phase;   /* tb_caller_phase */
} tb_caller;

TB_ASSERT(sizeof(tb_caller) == 32 && offsetof(tb_caller, phase) == 28, "tb_caller");

enum tb_caller_phase {
    TB_CALLER_UNREGISTERED = 0,
    TB_CALLER_OPEN = 1, /* a request waits for its reply: its frame may be sent, again and again */
    TB_CALLER_IDLE = 2,
    /* the session is over, and the last request was executed once or not at all */
    TB_CALLER_OVER = 3
};

/* What a reply is for the request that waits. */
enum tb_heard {
    TB_HEARD_RETURNED = 0, /* its reply: it was executed, once */
    TB_HEARD_ENDED = 1,    /* the session is over */
    TB_HEARD_REFUSED = 2,  /* it was refused now, which says nothing of an earlier sending */
    TB_HEARD_OTHER = 3     /* for no request that waits */
};

/* What a call over a client's session returns. After any except DONE the client is as it was. */
enum tb_caller_status {
    TB_CALLER_DONE = 0,
    TB_CALLER_NOT_REGISTERED = 1, /* a client registers before any other call */
    TB_CALLER_REGISTERED = 2,     /* a client registers once */
    TB_CALLER_UNANSWERED = 3,     /* the last request has no reply yet */
    TB_CALLER_ENDED = 4,          /* the session is over: a new id has to register */
    TB_CALLER_NO_NUMBER = 5,      /* all numbers are used: a new id has to register */
    TB_CALLER_MALFORMED = 6,      /* the bytes are no frame, or the client's id is 0 */
    TB_CALLER_TOO_SMALL = 7,      /* the room is too small: written bytes are needed */
    TB_CALLER_NO_MEMORY = 8,
    /* a client that has not registered has session 0 and number 0 */
    TB_CALLER_REGISTER_NUMBERS = 9,
    TB_CALLER_OTHER_CLIENT = 10,  /* the frame that is kept is another client's */
    TB_CALLER_OTHER_SESSION = 11, /* it is of another session */
    TB_CALLER_OTHER_NUMBER = 12,  /* its number is not the last one */
    /* no phase has this number, or the frame that is kept is malformed */
    TB_CALLER_NO_CLIENT = 13
};

/* Makes the next request, the register first, and writes its frame, which is kept from then on:
 * store it with the client before it is sent. What is asked for is the body of the frame `request`,
 * whose client, session and number are ignored (but none is 0 if a frame may not have 0).
 * written is the number of bytes at DONE, those needed at TOO_SMALL, and otherwise 0. */
uint32_t tb_caller_call(tb_caller *caller, const uint8_t *request, size_t request_length,
    uint8_t *frame, size_t frame_room, size_t *written);

/* Takes the reply that the bytes begin with, if frame is the one that is kept. heard says what
 * it is for this request, and read how many bytes it has. At any status but DONE heard is
 * TB_HEARD_OTHER, and read is 0. */
uint32_t tb_caller_received(tb_caller *caller, const uint8_t *frame, size_t frame_length,
    const uint8_t *reply, size_t reply_length, uint32_t *heard, size_t *read);

/* Says whether a client and a frame that were stored go together: DONE, NO_MEMORY, or what is wrong
 * with them. */
uint32_t tb_caller_check(const tb_caller *caller, const uint8_t *frame, size_t frame_length);

/* Numbers of 128 bits. */

static inline tb_u128 tb_u128_of(uint64_t low) {
    tb_u128 number;
    number.low = low;
    number.high = 0;
    return number;
}

/* The largest amount, 2^128 - 1: as the amount of a post it means all of the pending amount. */
static inline tb_u128 tb_amount_max(void) {
    tb_u128 number;
    number.low = number.high = UINT64_MAX;
    return number;
}

static inline int tb_u128_equal(tb_u128 a, tb_u128 b) { return a.low == b.low && a.high == b.high; }

#ifdef __SIZEOF_INT128__
__extension__ typedef unsigned __int128 tb_uint128;

static inline tb_u128 tb_u128_from(tb_uint128 number) {
    tb_u128 halves;
    halves.low = (uint64_t)number;
    halves.high = (uint64_t)(number >> 64);
    return halves;
}

static inline tb_uint128 tb_u128_value(tb_u128 halves) {
    return (tb_uint128)halves.high << 64 | halves.low;
}
#endif

/* Requests. Each function writes a frame to the beginning of a room, and returns its length. It
 * returns 0, and leaves the room as it is, if the client is 0, the request's number is 0, there are
 * more than 8190 items, or the room is too small. The items are outside of the room; their pointer
 * may be null if there are none. To send a request again, send the same bytes. */

/* What the five have in common. */
static inline size_t tb_write_frame(uint8_t *frame, size_t room, tb_u128 client, uint64_t session,
    uint32_t request, uint8_t operation, const void *items, size_t item_size, size_t count) {
    tb_request_header header;
    size_t length;
    if (count > TB_ITEMS_MAX || (request == 0) != (operation == TB_OPERATION_REGISTER)) return 0;
    length = item_size * count;
    if (tb_u128_equal(client, tb_u128_of(0)) || room < TB_HEADER_SIZE + length) return 0;
    memset(&header, 0, sizeof header);
    header.client = client;
    header.session = session;
    header.request = request;
    header.operation = operation;
    header.length = (uint32_t)length;
    memcpy(frame, &header, sizeof header);
    if (length != 0) memcpy(frame + TB_HEADER_SIZE, items, length);
    return TB_HEADER_SIZE + length;
}

/* Begins a session of a client: the reply's session is that of its later requests, which are
 * numbered 1, 2, 3 and so on. */
static inline size_t tb_write_register(uint8_t *frame, size_t room, tb_u128 client) {
    return tb_write_frame(frame, room, client, 0, 0, TB_OPERATION_REGISTER, NULL, 0, 0);
}

static inline size_t tb_write_create_accounts(uint8_t *frame, size_t room, tb_u128 client,
    uint64_t session, uint32_t request, const tb_account *accounts, size_t count) {
    return tb_write_frame(frame, room, client, session, request, TB_OPERATION_CREATE_ACCOUNTS,
        accounts, TB_RECORD_SIZE, count);
}

static inline size_t tb_write_create_transfers(uint8_t *frame, size_t room, tb_u128 client,
    uint64_t session, uint32_t request, const tb_transfer *transfers, size_t count) {
    return tb_write_frame(frame, room, client, session, request, TB_OPERATION_CREATE_TRANSFERS,
        transfers, TB_RECORD_SIZE, count);
}

static inline size_t tb_write_lookup_accounts(uint8_t *frame, size_t room, tb_u128 client,
    uint64_t session, uint32_t request, const tb_u128 *ids, size_t count) {
    return tb_write_frame(frame, room, client, session, request, TB_OPERATION_LOOKUP_ACCOUNTS, ids,
        TB_ID_SIZE, count);
}

static inline size_t tb_write_lookup_transfers(uint8_t *frame, size_t room, tb_u128 client,
    uint64_t session, uint32_t request, const tb_u128 *ids, size_t count) {
    return tb_write_frame(frame, room, client, session, request, TB_OPERATION_LOOKUP_TRANSFERS, ids,
        TB_ID_SIZE, count);
}

/* A request that was read. It points into the bytes that it was read from: they are to stay as they
 * are while it is used. */
typedef struct tb_request {
    tb_request_header header;
    const uint8_t *body; /* header.length bytes */
    size_t count;        /* of accounts, transfers or ids */
} tb_request;

static inline int tb_is_operation(uint8_t operation) {
    return operation == TB_OPERATION_REGISTER ||
        (operation >= TB_OPERATION_CREATE_ACCOUNTS && operation <= TB_OPERATION_LOOKUP_TRANSFERS);
}

/* The bytes of an item in a request: a record, or an id. A register has no items. */
static inline size_t tb_request_item_size(uint8_t operation) {
    return operation == TB_OPERATION_CREATE_ACCOUNTS || operation == TB_OPERATION_CREATE_TRANSFERS
        ? TB_RECORD_SIZE
        : TB_ID_SIZE;
}

static inline int tb_are_zeros(const uint8_t *bytes, size_t length) {
    size_t at;
    for (at = 0; at < length; at++)
        if (bytes[at] != 0) return 0;
    return 1;
}

/* What is wrong with the header of a request, by the tests of docs/use/FORMATS.md in their order.
 */
static inline uint32_t tb_request_header_fault(const tb_request_header *header) {
    int is_register = header->operation == TB_OPERATION_REGISTER;
    size_t item_size = tb_request_item_size(header->operation);
    if (tb_u128_equal(header->client, tb_u128_of(0))) return TB_FAULT_CLIENT_ZERO;
    if (!tb_is_operation(header->operation)) return TB_FAULT_UNKNOWN_OPERATION;
    if (!tb_are_zeros(header->zeros, sizeof header->zeros) ||
        !tb_are_zeros(header->more_zeros, sizeof header->more_zeros))
        return TB_FAULT_RESERVED;
    if (is_register && (header->session != 0 || header->request != 0))
        return TB_FAULT_REGISTER_NUMBERS;
    if (!is_register && header->request == 0) return TB_FAULT_REQUEST_ZERO;
    if (is_register ? header->length != 0 : header->length % item_size != 0)
        return TB_FAULT_BAD_LENGTH;
    if (header->length / item_size > TB_ITEMS_MAX) return TB_FAULT_TOO_MANY;
    return TB_FAULT_NONE;
}

/* Reads the request whose frame is at the beginning of the bytes, and returns TB_FAULT_NONE. It has
 * TB_HEADER_SIZE + header.length bytes; more may follow, but tb_embed_serve takes exactly these.
 * Otherwise it returns the fault, and the request is all 0. No byte after the length is read. */
static inline uint32_t tb_read_request(const uint8_t *bytes, size_t length, tb_request *request) {
    tb_request_header header;
    uint32_t fault;
    memset(request, 0, sizeof *request);
    if (length < TB_HEADER_SIZE) return TB_FAULT_SHORT;
    memcpy(&header, bytes, sizeof header);
    fault = tb_request_header_fault(&header);
    if (fault == TB_FAULT_NONE && length - TB_HEADER_SIZE < header.length) fault = TB_FAULT_SHORT;
    if (fault != TB_FAULT_NONE) return fault;
    request->header = header;
    request->body = bytes + TB_HEADER_SIZE;
    request->count = header.length / tb_request_item_size(header.operation);
    return TB_FAULT_NONE;
}

/* What the functions for items have in common: the item at a place from 0 on, if there is one.
 */
static inline int tb_item(
    const uint8_t *body, size_t count, size_t place, void *item, size_t item_size) {
    if (place >= count) return 0;
    memcpy(item, body + place * item_size, item_size);
    return 1;
}

/* The item of a request at a place from 0 on: 1, or 0 if the request has no such item, or items
 * of another kind. */

/* An item of create_accounts. */
static inline int tb_request_account(const tb_request *request, size_t place, tb_account *account) {
    if (request->header.operation != TB_OPERATION_CREATE_ACCOUNTS) return 0;
    return tb_item(request->body, request->count, place, account, TB_RECORD_SIZE);
}

/* An item of create_transfers. */
static inline int tb_request_transfer(
    const tb_request *request, size_t place, tb_transfer *transfer) {
    if (request->header.operation != TB_OPERATION_CREATE_TRANSFERS) return 0;
    return tb_item(request->body, request->count, place, transfer, TB_RECORD_SIZE);
}

/* An item of lookup_accounts or lookup_transfers. */
static inline int tb_request_id(const tb_request *request, size_t place, tb_u128 *id) {
    uint8_t operation = request->header.operation;
    if (operation != TB_OPERATION_LOOKUP_ACCOUNTS && operation != TB_OPERATION_LOOKUP_TRANSFERS)
        return 0;
    return tb_item(request->body, request->count, place, id, TB_ID_SIZE);
}

/* Replies. A tb_reply points into the bytes that it was read from: they are to stay as they are
 * while it is used. */
typedef struct tb_reply {
    tb_reply_header header;
    const uint8_t *body; /* header.length bytes */
    size_t count;        /* of results, accounts or transfers */
} tb_reply;

static inline uint64_t tb_commit(const tb_reply_header *header) {
    return (uint64_t)header->commit_high << 32 | header->commit_low;
}

/* The bytes of an item in the reply to an operation. */
static inline size_t tb_reply_item_size(uint8_t operation) {
    return operation == TB_OPERATION_LOOKUP_ACCOUNTS || operation == TB_OPERATION_LOOKUP_TRANSFERS
        ? TB_RECORD_SIZE
        : TB_RESULT_SIZE;
}

/* What is wrong with the header of a reply, by the tests of docs/use/FORMATS.md in their order. */
static inline uint32_t tb_reply_header_fault(const tb_reply_header *header) {
    int is_register = header->operation == TB_OPERATION_REGISTER,
        is_refusal = header->status != TB_REPLY_STATUS_REPLY;
    size_t item_size = tb_reply_item_size(header->operation);
    uint64_t commit = tb_commit(header);
    if (tb_u128_equal(header->client, tb_u128_of(0))) return TB_FAULT_CLIENT_ZERO;
    if (!tb_is_operation(header->operation)) return TB_FAULT_UNKNOWN_OPERATION;
    if (header->status > TB_REPLY_STATUS_NOT_YET || header->zeros[0] || header->zeros[1] ||
        header->more_zeros)
        return TB_FAULT_RESERVED;
    if (is_register && (header->request != 0 || (is_refusal && header->session != 0)))
        return TB_FAULT_REGISTER_NUMBERS;
    if (!is_register && header->request == 0) return TB_FAULT_REQUEST_ZERO;
    if (is_refusal ? commit != 0
                   : header->session == 0 ||
                (is_register ? header->session != commit : header->session >= commit))
        return TB_FAULT_REPLY_NUMBERS;
    if (is_refusal || is_register ? header->length != 0 : header->length % item_size != 0)
        return TB_FAULT_BAD_LENGTH;
    if (header->length / item_size > TB_ITEMS_MAX) return TB_FAULT_TOO_MANY;
    return TB_FAULT_NONE;
}

/* Reads the reply whose frame is at the beginning of the bytes, and returns TB_FAULT_NONE. It has
 * TB_HEADER_SIZE + header.length bytes; more may follow. Otherwise it returns the fault, and the
 * reply is all 0. No byte after the length is read. */
static inline uint32_t tb_read_reply(const uint8_t *bytes, size_t length, tb_reply *reply) {
    tb_reply_header header;
    uint32_t fault;
    memset(reply, 0, sizeof *reply);
    if (length < TB_HEADER_SIZE) return TB_FAULT_SHORT;
    memcpy(&header, bytes, sizeof header);
    fault = tb_reply_header_fault(&header);
    if (fault == TB_FAULT_NONE && length - TB_HEADER_SIZE < header.length) fault = TB_FAULT_SHORT;
    if (fault != TB_FAULT_NONE) return fault;
    reply->header = header;
    reply->body = bytes + TB_HEADER_SIZE;
    reply->count = header.length / tb_reply_item_size(header.operation);
    return TB_FAULT_NONE;
}

/* The item of a reply at a place from 0 on: 1, or 0 if the reply has no such item, or items of
 * another kind. */

/* An item of the reply to create_accounts or create_transfers. The codes are those of the
 * operation. */
static inline int tb_reply_result(const tb_reply *reply, size_t place, tb_event_result *result) {
    uint8_t operation = reply->header.operation;
    if (operation != TB_OPERATION_CREATE_ACCOUNTS && operation != TB_OPERATION_CREATE_TRANSFERS)
        return 0;
    return tb_item(reply->body, reply->count, place, result, TB_RESULT_SIZE);
}

/* An item of the reply to lookup_accounts. */
static inline int tb_reply_account(const tb_reply *reply, size_t place, tb_account *account) {
    if (reply->header.operation != TB_OPERATION_LOOKUP_ACCOUNTS) return 0;
    return tb_item(reply->body, reply->count, place, account, TB_RECORD_SIZE);
}

/* An item of the reply to lookup_transfers. */
static inline int tb_reply_transfer(const tb_reply *reply, size_t place, tb_transfer *transfer) {
    if (reply->header.operation != TB_OPERATION_LOOKUP_TRANSFERS) return 0;
    return tb_item(reply->body, reply->count, place, transfer, TB_RECORD_SIZE);
}

/* Names, as docs/use/RULES.md and docs/use/FORMATS.md have them; "unknown" of any other number. */
/* generated: names, by tools/tables.py from tools/ledger.json */
static inline const char *tb_status_name(uint32_t status) {
    switch (status) {
    case TB_DONE: return "done";
    case TB_CLOSED: return "closed";
    case TB_USAGE: return "usage";
    case TB_NO_MEMORY: return "no memory";
    case TB_MALFORMED: return "malformed";
    case TB_TIME_EXHAUSTED: return "time exhausted";
    case TB_ABSENT: return "absent";
    case TB_TOO_SMALL: return "too small";
    default: return "unknown";
    }
}

static inline const char *tb_operation_name(uint32_t number) {
    switch (number) {
    case TB_OPERATION_REGISTER: return "register";
    case TB_OPERATION_CREATE_ACCOUNTS: return "create_accounts";
    case TB_OPERATION_CREATE_TRANSFERS: return "create_transfers";
    case TB_OPERATION_LOOKUP_ACCOUNTS: return "lookup_accounts";
    case TB_OPERATION_LOOKUP_TRANSFERS: return "lookup_transfers";
    default: return "unknown";
    }
}

static inline const char *tb_reply_status_name(uint32_t status) {
    switch (status) {
    case TB_REPLY_STATUS_REPLY: return "Reply";
    case TB_REPLY_STATUS_NO_SESSION: return "NoSession";
    case TB_REPLY_STATUS_SESSION_TOO_LOW: return "SessionTooLow";
    case TB_REPLY_STATUS_NEWER_SESSION: return "NewerSession";
    case TB_REPLY_STATUS_OLDER: return "Older";
    case TB_REPLY_STATUS_COLLISION: return "Collision";
    case TB_REPLY_STATUS_NEWER_REQUEST: return "NewerRequest";
    case TB_REPLY_STATUS_NOT_YET: return "NotYet";
    default: return "unknown";
    }
}

static inline const char *tb_fault_name(uint32_t fault) {
    switch (fault) {
    case TB_FAULT_NONE: return "none";
    case TB_FAULT_SHORT: return "Short";
    case TB_FAULT_CLIENT_ZERO: return "ClientZero";
    case TB_FAULT_UNKNOWN_OPERATION: return "UnknownOperation";
    case TB_FAULT_RESERVED: return "Reserved";
    case TB_FAULT_BAD_LENGTH: return "BadLength";
    case TB_FAULT_TOO_MANY: return "TooMany";
    case TB_FAULT_REGISTER_NUMBERS: return "RegisterNumbers";
    case TB_FAULT_REQUEST_ZERO: return "RequestZero";
    case TB_FAULT_DEVICE: return "Device";
    case TB_FAULT_NO_MEMORY: return "NoMemory";
    case TB_FAULT_REPLY_NUMBERS: return "ReplyNumbers";
    default: return "unknown";
    }
}

static inline const char *tb_create_account_result_name(uint32_t number) {
    switch (number) {
    case TB_CREATE_ACCOUNT_OK: return "ok";
    case TB_CREATE_ACCOUNT_LINKED_EVENT_FAILED: return "linked_event_failed";
    case TB_CREATE_ACCOUNT_LINKED_EVENT_CHAIN_OPEN: return "linked_event_chain_open";
    case TB_CREATE_ACCOUNT_TIMESTAMP_MUST_BE_ZERO: return "timestamp_must_be_zero";
    case TB_CREATE_ACCOUNT_RESERVED_FIELD: return "reserved_field";
    case TB_CREATE_ACCOUNT_RESERVED_FLAG: return "reserved_flag";
    case TB_CREATE_ACCOUNT_ID_MUST_NOT_BE_ZERO: return "id_must_not_be_zero";
    case TB_CREATE_ACCOUNT_ID_MUST_NOT_BE_INT_MAX: return "id_must_not_be_int_max";
    case TB_CREATE_ACCOUNT_FLAGS_ARE_MUTUALLY_EXCLUSIVE: return "flags_are_mutually_exclusive";
    case TB_CREATE_ACCOUNT_DEBITS_PENDING_MUST_BE_ZERO: return "debits_pending_must_be_zero";
    case TB_CREATE_ACCOUNT_DEBITS_POSTED_MUST_BE_ZERO: return "debits_posted_must_be_zero";
    case TB_CREATE_ACCOUNT_CREDITS_PENDING_MUST_BE_ZERO: return "credits_pending_must_be_zero";
    case TB_CREATE_ACCOUNT_CREDITS_POSTED_MUST_BE_ZERO: return "credits_posted_must_be_zero";
    case TB_CREATE_ACCOUNT_LEDGER_MUST_NOT_BE_ZERO: return "ledger_must_not_be_zero";
    case TB_CREATE_ACCOUNT_CODE_MUST_NOT_BE_ZERO: return "code_must_not_be_zero";
    case TB_CREATE_ACCOUNT_EXISTS_WITH_DIFFERENT_FLAGS: return "exists_with_different_flags";
    case TB_CREATE_ACCOUNT_EXISTS_WITH_DIFFERENT_USER_DATA_128:
        return "exists_with_different_user_data_128";
    case TB_CREATE_ACCOUNT_EXISTS_WITH_DIFFERENT_USER_DATA_64:
        return "exists_with_different_user_data_64";
    case TB_CREATE_ACCOUNT_EXISTS_WITH_DIFFERENT_USER_DATA_32:
        return "exists_with_different_user_data_32";
    case TB_CREATE_ACCOUNT_EXISTS_WITH_DIFFERENT_LEDGER: return "exists_with_different_ledger";
    case TB_CREATE_ACCOUNT_EXISTS_WITH_DIFFERENT_CODE: return "exists_with_different_code";
    case TB_CREATE_ACCOUNT_EXISTS: return "exists";
    default: return "unknown";
    }
}

static inline const char *tb_create_transfer_result_name(uint32_t number) {
    switch (number) {
    case TB_CREATE_TRANSFER_OK: return "ok";
    case TB_CREATE_TRANSFER_LINKED_EVENT_FAILED: return "linked_event_failed";
    case TB_CREATE_TRANSFER_LINKED_EVENT_CHAIN_OPEN: return "linked_event_chain_open";
    case TB_CREATE_TRANSFER_TIMESTAMP_MUST_BE_ZERO: return "timestamp_must_be_zero";
    case TB_CREATE_TRANSFER_RESERVED_FLAG: return "reserved_flag";
    case TB_CREATE_TRANSFER_ID_MUST_NOT_BE_ZERO: return "id_must_not_be_zero";
    case TB_CREATE_TRANSFER_ID_MUST_NOT_BE_INT_MAX: return "id_must_not_be_int_max";
    case TB_CREATE_TRANSFER_FLAGS_ARE_MUTUALLY_EXCLUSIVE: return "flags_are_mutually_exclusive";
    case TB_CREATE_TRANSFER_DEBIT_ACCOUNT_ID_MUST_NOT_BE_ZERO:
        return "debit_account_id_must_not_be_zero";
    case TB_CREATE_TRANSFER_DEBIT_ACCOUNT_ID_MUST_NOT_BE_INT_MAX:
        return "debit_account_id_must_not_be_int_max";
    case TB_CREATE_TRANSFER_CREDIT_ACCOUNT_ID_MUST_NOT_BE_ZERO:
        return "credit_account_id_must_not_be_zero";
    case TB_CREATE_TRANSFER_CREDIT_ACCOUNT_ID_MUST_NOT_BE_INT_MAX:
        return "credit_account_id_must_not_be_int_max";
    case TB_CREATE_TRANSFER_ACCOUNTS_MUST_BE_DIFFERENT: return "accounts_must_be_different";
    case TB_CREATE_TRANSFER_PENDING_ID_MUST_BE_ZERO: return "pending_id_must_be_zero";
    case TB_CREATE_TRANSFER_PENDING_ID_MUST_NOT_BE_ZERO: return "pending_id_must_not_be_zero";
    case TB_CREATE_TRANSFER_PENDING_ID_MUST_NOT_BE_INT_MAX: return "pending_id_must_not_be_int_max";
    case TB_CREATE_TRANSFER_PENDING_ID_MUST_BE_DIFFERENT: return "pending_id_must_be_different";
    case TB_CREATE_TRANSFER_TIMEOUT_RESERVED_FOR_PENDING_TRANSFER:
        return "timeout_reserved_for_pending_transfer";
    case TB_CREATE_TRANSFER_LEDGER_MUST_NOT_BE_ZERO: return "ledger_must_not_be_zero";
    case TB_CREATE_TRANSFER_CODE_MUST_NOT_BE_ZERO: return "code_must_not_be_zero";
    case TB_CREATE_TRANSFER_DEBIT_ACCOUNT_NOT_FOUND: return "debit_account_not_found";
    case TB_CREATE_TRANSFER_CREDIT_ACCOUNT_NOT_FOUND: return "credit_account_not_found";
    case TB_CREATE_TRANSFER_ACCOUNTS_MUST_HAVE_THE_SAME_LEDGER:
        return "accounts_must_have_the_same_ledger";
    case TB_CREATE_TRANSFER_TRANSFER_MUST_HAVE_THE_SAME_LEDGER_AS_ACCOUNTS:
        return "transfer_must_have_the_same_ledger_as_accounts";
    case TB_CREATE_TRANSFER_PENDING_TRANSFER_NOT_FOUND: return "pending_transfer_not_found";
    case TB_CREATE_TRANSFER_PENDING_TRANSFER_NOT_PENDING: return "pending_transfer_not_pending";
    case TB_CREATE_TRANSFER_PENDING_TRANSFER_HAS_DIFFERENT_DEBIT_ACCOUNT_ID:
        return "pending_transfer_has_different_debit_account_id";
    case TB_CREATE_TRANSFER_PENDING_TRANSFER_HAS_DIFFERENT_CREDIT_ACCOUNT_ID:
        return "pending_transfer_has_different_credit_account_id";
    case TB_CREATE_TRANSFER_PENDING_TRANSFER_HAS_DIFFERENT_LEDGER:
        return "pending_transfer_has_different_ledger";
    case TB_CREATE_TRANSFER_PENDING_TRANSFER_HAS_DIFFERENT_CODE:
        return "pending_transfer_has_different_code";
    case TB_CREATE_TRANSFER_EXCEEDS_PENDING_TRANSFER_AMOUNT:
        return "exceeds_pending_transfer_amount";
    case TB_CREATE_TRANSFER_PENDING_TRANSFER_HAS_DIFFERENT_AMOUNT:
        return "pending_transfer_has_different_amount";
    case TB_CREATE_TRANSFER_PENDING_TRANSFER_ALREADY_POSTED:
        return "pending_transfer_already_posted";
    case TB_CREATE_TRANSFER_PENDING_TRANSFER_ALREADY_VOIDED:
        return "pending_transfer_already_voided";
    case TB_CREATE_TRANSFER_PENDING_TRANSFER_EXPIRED: return "pending_transfer_expired";
    case TB_CREATE_TRANSFER_EXISTS_WITH_DIFFERENT_FLAGS: return "exists_with_different_flags";
    case TB_CREATE_TRANSFER_EXISTS_WITH_DIFFERENT_DEBIT_ACCOUNT_ID:
        return "exists_with_different_debit_account_id";
    case TB_CREATE_TRANSFER_EXISTS_WITH_DIFFERENT_CREDIT_ACCOUNT_ID:
        return "exists_with_different_credit_account_id";
    case TB_CREATE_TRANSFER_EXISTS_WITH_DIFFERENT_AMOUNT: return "exists_with_different_amount";
    case TB_CREATE_TRANSFER_EXISTS_WITH_DIFFERENT_PENDING_ID:
        return "exists_with_different_pending_id";
    case TB_CREATE_TRANSFER_EXISTS_WITH_DIFFERENT_USER_DATA_128:
        return "exists_with_different_user_data_128";
    case TB_CREATE_TRANSFER_EXISTS_WITH_DIFFERENT_USER_DATA_64:
        return "exists_with_different_user_data_64";
    case TB_CREATE_TRANSFER_EXISTS_WITH_DIFFERENT_USER_DATA_32:
        return "exists_with_different_user_data_32";
    case TB_CREATE_TRANSFER_EXISTS_WITH_DIFFERENT_TIMEOUT: return "exists_with_different_timeout";
    case TB_CREATE_TRANSFER_EXISTS_WITH_DIFFERENT_CODE: return "exists_with_different_code";
    case TB_CREATE_TRANSFER_EXISTS: return "exists";
    case TB_CREATE_TRANSFER_OVERFLOWS_DEBITS_PENDING: return "overflows_debits_pending";
    case TB_CREATE_TRANSFER_OVERFLOWS_CREDITS_PENDING: return "overflows_credits_pending";
    case TB_CREATE_TRANSFER_OVERFLOWS_DEBITS_POSTED: return "overflows_debits_posted";
    case TB_CREATE_TRANSFER_OVERFLOWS_CREDITS_POSTED: return "overflows_credits_posted";
    case TB_CREATE_TRANSFER_OVERFLOWS_DEBITS: return "overflows_debits";
    case TB_CREATE_TRANSFER_OVERFLOWS_CREDITS: return "overflows_credits";
    case TB_CREATE_TRANSFER_OVERFLOWS_TIMEOUT: return "overflows_timeout";
    case TB_CREATE_TRANSFER_EXCEEDS_CREDITS: return "exceeds_credits";
    case TB_CREATE_TRANSFER_EXCEEDS_DEBITS: return "exceeds_debits";
    case TB_CREATE_TRANSFER_CLOSING_TRANSFER_MUST_BE_PENDING:
        return "closing_transfer_must_be_pending";
    case TB_CREATE_TRANSFER_DEBIT_ACCOUNT_ALREADY_CLOSED: return "debit_account_already_closed";
    case TB_CREATE_TRANSFER_CREDIT_ACCOUNT_ALREADY_CLOSED: return "credit_account_already_closed";
    case TB_CREATE_TRANSFER_EXISTS_WITH_DIFFERENT_LEDGER: return "exists_with_different_ledger";
    case TB_CREATE_TRANSFER_ID_ALREADY_FAILED: return "id_already_failed";
    default: return "unknown";
    }
}
/* end of names */

#ifdef __cplusplus
}
#endif
#endif
