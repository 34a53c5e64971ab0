/* Chains of events that may have been executed before their session ended: a new session refuses
 * them, because their first event exists. */
#include "shared.h"

static bool is_accounts(enum tb_operation operation) {
    return operation == TB_OPERATION_CREATE_ACCOUNTS;
}

/* An event's flags have one place in both records, and `linked` one bit. */
static bool is_linked(const uint8_t *event) {
    tb_transfer it;
    memcpy(&it, event, sizeof it);
    return it.flags & TB_TRANSFER_LINKED;
}

static tb_u128 id_of(const uint8_t *event) {
    tb_u128 id;
    memcpy(&id, event, sizeof id);
    return id;
}

/* The code of an event among results, which are in the order of the events. */
static uint32_t code_of(const tb_answer *answer, size_t event, size_t *at) {
    const tb_event_result *rows = answer->items;
    while (*at < answer->count && rows[*at].index < event) ++*at;
    return *at < answer->count && rows[*at].index == event ? rows[*at].result : 0;
}

static bool is_doubtful(enum tb_operation operation, const tb_answer *answer, tb_chain chain) {
    uint32_t exists = is_accounts(operation) ? (uint32_t)TB_CREATE_ACCOUNT_EXISTS
                                             : (uint32_t)TB_CREATE_TRANSFER_EXISTS;
    size_t at = 0;
    if (code_of(answer, chain.first, &at) != exists) return false;
    for (size_t event = chain.first + 1; event < chain.end; event++)
        if (code_of(answer, event, &at) != TB_CREATE_TRANSFER_LINKED_EVENT_FAILED) return false;
    return true;
}

static void keep(tb_doubtful *it, tb_chain chain) {
    it->chains[it->chain_count++] = chain;
    for (size_t event = chain.first; event < chain.end; event++)
        it->ids[it->id_count++] = id_of(it->events + event * TB_RECORD_SIZE);
}

/* Finds the chains of two events or more that are in doubt. */
static void find(tb_doubtful *it, const tb_answer *answer) {
    size_t first = 0;
    for (size_t event = 0; event < it->count; event++) {
        if (is_linked(it->events + event * TB_RECORD_SIZE)) continue;
        tb_chain chain = {first, event + 1};
        if (event > first && is_doubtful(it->operation, answer, chain)) keep(it, chain);
        first = event + 1;
    }
}

tb_code tb_doubtful_of(enum tb_operation operation, const tb_list *lists, size_t count,
    const tb_answer *answer, tb_doubtful *doubtful, tb_client_error *error) {
    *doubtful = (tb_doubtful){.operation = operation};
    if (!answer->count) return TB_CLIENT_OK;
    for (size_t at = 0; at < count; at++) doubtful->count += lists[at].count;
    uint8_t *to = doubtful->events = malloc(doubtful->count * TB_RECORD_SIZE);
    doubtful->chains = malloc(doubtful->count * sizeof *doubtful->chains);
    doubtful->ids = malloc(doubtful->count * sizeof *doubtful->ids);
    if (!to || !doubtful->chains || !doubtful->ids) return tb_no_memory(error, true);
    for (size_t at = 0; at < count; to += lists[at++].count * TB_RECORD_SIZE)
        memcpy(to, lists[at].items, lists[at].count * TB_RECORD_SIZE);
    find(doubtful, answer);
    return TB_CLIENT_OK;
}

void tb_doubtful_free(tb_doubtful *it) {
    free(it->events);
    free(it->chains);
    free(it->ids);
}

/* Whether an account is what became of the one that was asked for. Its sums have grown since then,
 * and it may have been closed or opened. */
static bool is_account(tb_account asked, const tb_account *found) {
    tb_account now = *found;
    asked.debits_pending = now.debits_pending;
    asked.debits_posted = now.debits_posted;
    asked.credits_pending = now.credits_pending;
    asked.credits_posted = now.credits_posted;
    asked.timestamp = now.timestamp;
    asked.flags |= TB_ACCOUNT_CLOSED;
    now.flags |= TB_ACCOUNT_CLOSED;
    return !memcmp(&asked, &now, sizeof now);
}

static void take_if_zero(void *field, const void *from, size_t size) {
    if (tb_are_zeros(field, size)) memcpy(field, from, size);
}

#define TAKE(field) take_if_zero(&asked.field, &found->field, sizeof asked.field)

/* Whether a transfer is what became of the one that was asked for. A post or void takes from its
 * pending transfer what it leaves out; a balancing one moves what the account had. */
static bool is_transfer(tb_transfer asked, const tb_transfer *found) {
    const uint16_t resolving =
        TB_TRANSFER_POST_PENDING_TRANSFER | TB_TRANSFER_VOID_PENDING_TRANSFER;
    const uint16_t balancing = TB_TRANSFER_BALANCING_DEBIT | TB_TRANSFER_BALANCING_CREDIT;
    asked.timestamp = found->timestamp;
    if (asked.flags & (resolving | balancing)) asked.amount = found->amount;
    if (asked.flags & resolving) {
        TAKE(debit_account_id);
        TAKE(credit_account_id);
        TAKE(pending_id);
        TAKE(user_data_128);
        TAKE(user_data_64);
        TAKE(user_data_32);
        TAKE(timeout);
        TAKE(ledger);
        TAKE(code);
    }
    return !memcmp(&asked, found, sizeof asked);
}

/* Whether an event is among the records that were found, which are in the order of the ids. */
static bool is_there(const tb_doubtful *it, size_t event, const tb_answer *found) {
    const uint8_t *asked = it->events + event * TB_RECORD_SIZE, *records = found->items;
    tb_account account;
    tb_transfer transfer;
    for (size_t at = 0; at < found->count; at++) {
        const uint8_t *record = records + at * TB_RECORD_SIZE;
        if (!tb_u128_equal(id_of(record), id_of(asked))) continue;
        memcpy(&account, asked, sizeof account);
        memcpy(&transfer, asked, sizeof transfer);
        return is_accounts(it->operation) ? is_account(account, (const tb_account *)record)
                                          : is_transfer(transfer, (const tb_transfer *)record);
    }
    return false;
}

static bool is_done(const tb_doubtful *it, tb_chain chain, const tb_answer *found) {
    for (size_t event = chain.first; event < chain.end; event++)
        if (!is_there(it, event, found)) return false;
    return true;
}

void tb_doubtful_settle(const tb_doubtful *it, const tb_answer *found, tb_answer *answer) {
    tb_event_result *rows = answer->items;
    uint32_t exists = is_accounts(it->operation) ? (uint32_t)TB_CREATE_ACCOUNT_EXISTS
                                                 : (uint32_t)TB_CREATE_TRANSFER_EXISTS;
    for (size_t at = 0; at < it->chain_count; at++) {
        tb_chain chain = it->chains[at];
        if (!is_done(it, chain, found)) continue;
        for (size_t row = 0; row < answer->count; row++)
            if (rows[row].index >= chain.first && rows[row].index < chain.end)
                rows[row].result = exists;
    }
}
