/* The first requests of a client: it registers, creates two accounts, and moves 100 from one to the
 * other. It never sees that reply, and sends the same bytes again: the money moves once. */
#include "../tb_embed.h"

#include <inttypes.h>
#include <stdio.h>
#include <string.h>

enum { CASH = 1, SALES = 2, LEDGER = 700, CODE = 10 };

/* Room for two records, in requests and in replies. */
static uint8_t request[TB_HEADER_SIZE + 2 * TB_RECORD_SIZE],
    room[TB_HEADER_SIZE + 2 * TB_RECORD_SIZE];

static tb_server server;

static tb_account account(uint64_t id, uint16_t flags) {
    tb_account it;
    memset(&it, 0, sizeof it);
    it.id = tb_u128_of(id);
    it.ledger = LEDGER;
    it.code = CODE;
    it.flags = flags;
    return it;
}

static tb_transfer transfer(uint64_t id, uint64_t from, uint64_t to, uint64_t amount) {
    tb_transfer it;
    memset(&it, 0, sizeof it);
    it.id = tb_u128_of(id);
    it.debit_account_id = tb_u128_of(from);
    it.credit_account_id = tb_u128_of(to);
    it.amount = tb_u128_of(amount);
    it.ledger = LEDGER;
    it.code = CODE;
    return it;
}

/* Sends this many bytes of the request, and reads the reply: 1 if the request was executed, now or
 * before. */
static int executed(size_t length, tb_reply *reply) {
    uint64_t moment = 10; /* in nanoseconds: a true program asks its clock */
    size_t written;
    uint32_t status, fault;
    if (length == 0) return fprintf(stderr, "first: no such request has a frame\n"), 0;
    status = tb_embed_serve(&server, moment, request, length, room, sizeof room, &written);
    if (status != TB_DONE) return fprintf(stderr, "first: %s\n", tb_status_name(status)), 0;
    fault = tb_read_reply(room, written, reply);
    if (fault != TB_FAULT_NONE) return fprintf(stderr, "first: %s\n", tb_fault_name(fault)), 0;
    if (reply->header.status != TB_REPLY_STATUS_REPLY)
        return fprintf(stderr, "first: %s\n", tb_reply_status_name(reply->header.status)), 0;
    return 1;
}

/* What a reply to create_transfers says: the transfers that were not accepted. */
static void print_transfers(const char *what, const tb_reply *reply) {
    tb_event_result result;
    printf("%s: entry %" PRIu64 ", %zu failed\n", what, tb_commit(&reply->header), reply->count);
    for (size_t i = 0; tb_reply_result(reply, i, &result); i++)
        printf("  transfer %" PRIu32 " of the request: %s\n", result.index,
            tb_create_transfer_result_name(result.result));
}

static int first_requests(void) {
    tb_u128 client = tb_u128_of(7), ids[] = {tb_u128_of(CASH), tb_u128_of(SALES)};
    tb_account accounts[] = {account(CASH, 0),
        account(SALES, TB_ACCOUNT_DEBITS_MUST_NOT_EXCEED_CREDITS)},
               shown;
    tb_transfer sale = transfer(11, CASH, SALES, 100), refund = transfer(12, SALES, CASH, 250);
    tb_reply reply;
    uint64_t session;
    size_t length;

    if (!executed(tb_write_register(request, sizeof request, client), &reply)) return 0;
    session = reply.header.session;
    printf("register: entry %" PRIu64 ", session %" PRIu64 "\n", tb_commit(&reply.header), session);

    length = tb_write_create_accounts(request, sizeof request, client, session, 1, accounts, 2);
    if (!executed(length, &reply)) return 0;
    printf(
        "create_accounts: entry %" PRIu64 ", %zu failed\n", tb_commit(&reply.header), reply.count);

    length = tb_write_create_transfers(request, sizeof request, client, session, 2, &sale, 1);
    if (!executed(length, &reply)) return 0;
    printf("create_transfers: the reply is lost\n");
    /* the same bytes again: the first reply, and nothing is executed */
    if (!executed(length, &reply)) return 0;
    print_transfers("create_transfers, sent again", &reply);

    length = tb_write_create_transfers(request, sizeof request, client, session, 3, &refund, 1);
    if (!executed(length, &reply)) return 0;
    print_transfers("create_transfers", &reply);

    length = tb_write_lookup_accounts(request, sizeof request, client, session, 4, ids, 2);
    if (!executed(length, &reply)) return 0;
    printf(
        "lookup_accounts: entry %" PRIu64 ", %zu found\n", tb_commit(&reply.header), reply.count);
    for (size_t i = 0; tb_reply_account(&reply, i, &shown); i++)
        printf("  account %" PRIu64 ": debits_posted %" PRIu64 ", credits_posted %" PRIu64 "\n",
            shown.id.low, shown.debits_posted.low, shown.credits_posted.low);
    return 1;
}

int main(void) {
    uint32_t status = tb_embed_open(&server, 1, 2);
    int done;
    if (status != TB_DONE) return fprintf(stderr, "first: %s\n", tb_status_name(status)), 1;
    done = first_requests();
    tb_embed_close(&server);
    return done && fflush(stdout) == 0 ? 0 : 1;
}
