/* The functions of tb_embed.h that write and read requests, and read replies: frames MODE.
 *
 *     write     prints the frames of five requests, in hexadecimal
 *     refused   what fields may not hold and rooms that are too small, each byte of them; ends in
 *               'ok'
 *     requests  reads requests from standard input, as `read` does replies: the fault, or the
 *               operation, the client, the session, the number and the items of each; what is read
 *               is written again, and has the bytes that were read
 *     read      reads replies from standard input, each after its length (u32), and prints the
 *               fault, the status, the commit and the items of each; the bytes are in memory of
 *               exactly that length: AddressSanitizer reports a read after it
 *
 * tests/embedding/test_embedded.py compares what it prints with frames.rs and with tb_client. It is
 * C11 and C++17. */
#include "../../clients/embed/tb_embed.h"

#include <stdio.h>
#include <stdlib.h>

#define REQUIRE(holds)                                               \
    do {                                                             \
        if (!(holds)) {                                              \
            printf("line %d: %s does not hold\n", __LINE__, #holds); \
            exit(1);                                                 \
        }                                                            \
    } while (0)

static uint8_t *bytes_of(size_t length) {
    uint8_t *bytes = (uint8_t *)malloc(length + (length == 0));
    if (!bytes) exit(2);
    return bytes;
}

static void print_hex(const void *at, size_t length) {
    const uint8_t *bytes = (const uint8_t *)at;
    for (size_t i = 0; i < length; i++) printf("%02x", (unsigned)bytes[i]);
    printf("\n");
}

static tb_u128 wide(uint64_t low, uint64_t high) {
    tb_u128 number;
    number.low = low;
    number.high = high;
    return number;
}

/* An account whose fields are all different, from this number on. */
static tb_account account(uint64_t n) {
    tb_account it;
    it.id = wide(n, 1), it.debits_pending = wide(n + 1, 2), it.debits_posted = wide(n + 2, 3),
    it.credits_pending = wide(n + 3, 4);
    it.credits_posted = wide(n + 4, 5), it.user_data_128 = wide(n + 5, UINT64_MAX),
    it.user_data_64 = n + 6;
    it.user_data_32 = (uint32_t)n + 7, it.reserved = (uint32_t)n + 8, it.ledger = (uint32_t)n + 9,
    it.code = (uint16_t)(n + 10);
    it.flags = TB_ACCOUNT_LINKED | TB_ACCOUNT_HISTORY | TB_ACCOUNT_CLOSED, it.timestamp = n + 11;
    return it;
}

static tb_transfer transfer(uint64_t n) {
    tb_transfer it;
    it.id = wide(n, 1), it.debit_account_id = wide(n + 1, 2), it.credit_account_id = wide(n + 2, 3),
    it.amount = tb_amount_max();
    it.pending_id = wide(n + 4, 5), it.user_data_128 = wide(n + 5, UINT64_MAX),
    it.user_data_64 = n + 6;
    it.user_data_32 = (uint32_t)n + 7, it.timeout = (uint32_t)n + 8, it.ledger = (uint32_t)n + 9,
    it.code = (uint16_t)(n + 10);
    it.flags = TB_TRANSFER_PENDING | TB_TRANSFER_BALANCING_CREDIT | TB_TRANSFER_CLOSING_CREDIT,
    it.timestamp = n + 11;
    return it;
}

/* One call for each operation, so that all are tested alike. `count` is the number of items. */
static size_t write_request(int which, uint8_t *frame, size_t room, tb_u128 client,
    uint32_t request, const void *items, size_t count) {
    uint64_t session = UINT64_C(0x1122334455667788);
    switch (which) {
    case 0: return tb_write_register(frame, room, client);
    case 1:
        return tb_write_create_accounts(
            frame, room, client, session, request, (const tb_account *)items, count);
    case 2:
        return tb_write_create_transfers(
            frame, room, client, session, request, (const tb_transfer *)items, count);
    case 3:
        return tb_write_lookup_accounts(
            frame, room, client, session, request, (const tb_u128 *)items, count);
    default:
        return tb_write_lookup_transfers(
            frame, room, client, session, request, (const tb_u128 *)items, count);
    }
}

static const size_t SIZES[] = {0, TB_RECORD_SIZE, TB_RECORD_SIZE, TB_ID_SIZE, TB_ID_SIZE};

static void write_all(void) {
    tb_account accounts[] = {account(100), account(200)};
    tb_transfer transfers[] = {transfer(300), transfer(400)};
    tb_u128 ids[] = {wide(5, 6), wide(0, 0), wide(UINT64_MAX, UINT64_MAX)};
    const void *items[] = {NULL, accounts, transfers, ids, ids};
    for (int which = 0; which < 5; which++) {
        uint8_t room[512];
        size_t count = which == 0 ? 0 : which < 3 ? 2 : 3;
        size_t length =
            write_request(which, room, sizeof room, wide(7, 9), 0xfffffffe, items[which], count);
        REQUIRE(length == TB_HEADER_SIZE + count * SIZES[which]);
        print_hex(room, length);
    }
}

static int is_untouched(const uint8_t *bytes, size_t length) {
    for (size_t i = 0; i < length; i++)
        if (bytes[i] != 0xa5) return 0;
    return 1;
}

/* Whether a room of exactly this many bytes is refused and left as it is, or written as far as the
 * frame goes. */
static size_t written(
    int which, size_t room, tb_u128 client, uint32_t request, const void *items, size_t count) {
    uint8_t *bytes = bytes_of(room);
    size_t length;
    memset(bytes, 0xa5, room);
    length = write_request(which, bytes, room, client, request, items, count);
    REQUIRE(is_untouched(bytes + length, room - length));
    free(bytes);
    return length;
}

static void refused(void) {
    size_t records = (size_t)(TB_ITEMS_MAX + 1) * TB_RECORD_SIZE;
    uint8_t *items = bytes_of(records);
    tb_u128 client = wide(0, 1); /* only the high half is a client too */
    memset(items, 1, records);
    for (int which = 0; which < 5; which++) {
        size_t most = which == 0 ? 0 : TB_ITEMS_MAX, two = which == 0 ? 0 : 2;
        size_t length = TB_HEADER_SIZE + two * SIZES[which],
               greatest = TB_HEADER_SIZE + most * SIZES[which];
        for (size_t room = 0; room < length; room++)
            REQUIRE(written(which, room, client, 1, items, two) == 0);
        REQUIRE(written(which, length, client, 1, items, two) == length);
        REQUIRE(written(which, length + 9, client, 1, items, two) == length);
        REQUIRE(written(which, TB_HEADER_SIZE, client, 1, NULL, 0) == TB_HEADER_SIZE);
        REQUIRE(written(which, TB_HEADER_SIZE - 1, client, 1, NULL, 0) == 0);
        REQUIRE(written(which, length, wide(0, 0), 1, items, two) == 0);
        REQUIRE(written(which, greatest, client, UINT32_MAX, items, most) == greatest);
        if (which == 0) continue;
        REQUIRE(written(which, length, client, 0, items, two) == 0);
        REQUIRE(written(which, greatest - 1, client, 1, items, most) == 0);
        REQUIRE(written(which, TB_REQUEST_MAX + TB_RECORD_SIZE, client, 1, items,
                    TB_ITEMS_MAX + 1) == 0);
        REQUIRE(written(which, TB_REQUEST_MAX, client, 1, items, SIZE_MAX / SIZES[which] + 1) == 0);
        REQUIRE(written(which, TB_REQUEST_MAX, client, 1, items, SIZE_MAX) == 0);
    }
    free(items);
    REQUIRE(tb_u128_equal(wide(1, 2), wide(1, 2)) && !tb_u128_equal(wide(1, 2), wide(1, 3)) &&
        !tb_u128_equal(wide(1, 2), wide(2, 2)));
    REQUIRE(tb_u128_equal(tb_u128_of(UINT64_MAX), wide(UINT64_MAX, 0)));
#ifdef __SIZEOF_INT128__
    REQUIRE(tb_u128_equal(tb_u128_from(tb_u128_value(wide(3, 4))), wide(3, 4)));
    REQUIRE(tb_u128_value(wide(3, 4)) >> 64 == 4 && tb_u128_value(tb_amount_max()) + 1 == 0);
#endif
    printf("ok\n");
}

/* Prints each item, and requires that no item is reported after the last one or of another kind. */
static void print_items(const tb_reply *reply) {
    tb_event_result result;
    tb_account shown;
    tb_transfer recorded;
    size_t results = 0, accounts = 0, transfers = 0, all = reply->count;
    for (; tb_reply_result(reply, results, &result); results++)
        printf("  result %u %u\n", (unsigned)result.index, (unsigned)result.result);
    for (; tb_reply_account(reply, accounts, &shown); accounts++)
        printf("  account "), print_hex(&shown, sizeof shown);
    for (; tb_reply_transfer(reply, transfers, &recorded); transfers++)
        printf("  transfer "), print_hex(&recorded, sizeof recorded);
    REQUIRE(results + accounts + transfers == all &&
        (results == all || accounts == all || transfers == all));
    REQUIRE(
        !tb_reply_result(reply, SIZE_MAX, &result) && !tb_reply_account(reply, SIZE_MAX, &shown));
    REQUIRE(!tb_reply_transfer(reply, SIZE_MAX, &recorded));
}

/* Prints each item, and puts them where they can be written again; no item is reported after the
 * last one or of another kind. */
static size_t take_items(const tb_request *request, uint8_t *items) {
    tb_account account;
    tb_transfer transfer;
    tb_u128 id;
    size_t accounts = 0, transfers = 0, ids = 0, all = request->count;
    for (; tb_request_account(request, accounts, &account); accounts++) {
        printf("  account "), print_hex(&account, sizeof account);
        memcpy(items + accounts * sizeof account, &account, sizeof account);
    }
    for (; tb_request_transfer(request, transfers, &transfer); transfers++) {
        printf("  transfer "), print_hex(&transfer, sizeof transfer);
        memcpy(items + transfers * sizeof transfer, &transfer, sizeof transfer);
    }
    for (; tb_request_id(request, ids, &id); ids++) {
        printf("  id "), print_hex(&id, sizeof id);
        memcpy(items + ids * sizeof id, &id, sizeof id);
    }
    REQUIRE(
        accounts + transfers + ids == all && (accounts == all || transfers == all || ids == all));
    REQUIRE(!tb_request_account(request, SIZE_MAX, &account) &&
        !tb_request_transfer(request, SIZE_MAX, &transfer));
    REQUIRE(!tb_request_id(request, SIZE_MAX, &id));
    return all;
}

/* Writes a request that was read by the function of its operation. */
static size_t write_again(
    const tb_request_header *header, const void *items, size_t count, uint8_t *frame, size_t room) {
    tb_u128 client = header->client;
    uint64_t session = header->session;
    uint32_t number = header->request;
    switch (header->operation) {
    case TB_OPERATION_REGISTER: return tb_write_register(frame, room, client);
    case TB_OPERATION_CREATE_ACCOUNTS:
        return tb_write_create_accounts(
            frame, room, client, session, number, (const tb_account *)items, count);
    case TB_OPERATION_CREATE_TRANSFERS:
        return tb_write_create_transfers(
            frame, room, client, session, number, (const tb_transfer *)items, count);
    case TB_OPERATION_LOOKUP_ACCOUNTS:
        return tb_write_lookup_accounts(
            frame, room, client, session, number, (const tb_u128 *)items, count);
    default:
        return tb_write_lookup_transfers(
            frame, room, client, session, number, (const tb_u128 *)items, count);
    }
}

static void read_requests(void) {
    uint32_t length, fault;
    while (fread(&length, 1, sizeof length, stdin) == sizeof length) {
        uint8_t *bytes = bytes_of(length), *items = bytes_of(length), *frame = bytes_of(length);
        tb_request request;
        REQUIRE(fread(bytes, 1, length, stdin) == length);
        fault = tb_read_request(bytes, length, &request);
        if (fault == TB_FAULT_NONE) {
            const tb_request_header *header = &request.header;
            size_t count, again = TB_HEADER_SIZE + header->length;
            printf("%s %llu %llu %llu %u\n", tb_operation_name(header->operation),
                (unsigned long long)header->client.high, (unsigned long long)header->client.low,
                (unsigned long long)header->session, (unsigned)header->request);
            count = take_items(&request, items);
            REQUIRE(write_again(header, items, count, frame, length) == again &&
                !memcmp(frame, bytes, again));
        } else {
            tb_account account;
            tb_transfer transfer;
            tb_u128 id;
            printf("%u %s\n", (unsigned)fault, tb_fault_name(fault));
            REQUIRE(request.count == 0 && request.body == NULL && request.header.operation == 0);
            REQUIRE(!tb_request_account(&request, 0, &account) &&
                !tb_request_transfer(&request, 0, &transfer) && !tb_request_id(&request, 0, &id));
        }
        free(bytes), free(items), free(frame);
    }
}

static void read_replies(void) {
    uint32_t length, fault;
    while (fread(&length, 1, sizeof length, stdin) == sizeof length) {
        uint8_t *bytes = bytes_of(length);
        tb_reply reply;
        REQUIRE(fread(bytes, 1, length, stdin) == length);
        fault = tb_read_reply(bytes, length, &reply);
        if (fault == TB_FAULT_NONE)
            printf("%s %s %llu\n", tb_operation_name(reply.header.operation),
                tb_reply_status_name(reply.header.status),
                (unsigned long long)tb_commit(&reply.header));
        else
            printf("%u %s\n", (unsigned)fault, tb_fault_name(fault));
        print_items(&reply);
        free(bytes);
    }
}

int main(int count, char **words) {
    if (count != 2) return 2;
    if (!strcmp(words[1], "write"))
        write_all();
    else if (!strcmp(words[1], "refused"))
        refused();
    else if (!strcmp(words[1], "requests"))
        read_requests();
    else if (!strcmp(words[1], "read"))
        read_replies();
    else
        return 2;
    return 0;
}
