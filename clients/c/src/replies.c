/* The bodies of replies: whether they answer a request, and what they say. */
#include "internal.h"

/* Whether a code of an operation has a name. */
static bool is_code(uint8_t operation, uint32_t number) {
    const char *name = operation == TB_OPERATION_CREATE_ACCOUNTS
        ? tb_create_account_result_name(number)
        : tb_create_transfer_result_name(number);
    return strcmp(name, "unknown") != 0;
}

/* Results are of events that failed, in the order of the events, by codes that have a name. */
static const char *results_fault(const tb_request *request, const tb_reply *reply) {
    uint64_t least = 0;
    tb_event_result row;
    for (size_t at = 0; tb_reply_result(reply, at, &row); at++) {
        if (row.index >= request->count) return "a result is of no event of the request";
        if (row.index < least) return "the indexes of results do not rise";
        if (!row.result) return "an event came as ok among those that failed";
        if (!is_code(reply->header.operation, row.result)) return "a result has no name";
        least = (uint64_t)row.index + 1;
    }
    return NULL;
}

/* Records are those that were looked up, in the order of the ids. */
static const char *records_fault(const tb_request *request, const tb_reply *reply) {
    size_t next = 0;
    for (size_t at = 0; at < reply->count; at++) {
        const uint8_t *id = reply->body + at * TB_RECORD_SIZE;
        while (next < request->count && memcmp(request->body + next * TB_ID_SIZE, id, TB_ID_SIZE))
            next++;
        if (next++ == request->count) return "a record came that was not looked up there";
    }
    return NULL;
}

const char *tb_body_fault(const uint8_t *frame, size_t length, const tb_reply *reply) {
    tb_request request;
    if (!reply->count || tb_read_request(frame, length, &request)) return NULL;
    switch (reply->header.operation) {
    case TB_OPERATION_CREATE_ACCOUNTS:
    case TB_OPERATION_CREATE_TRANSFERS: return results_fault(&request, reply);
    default: return records_fault(&request, reply);
    }
}

tb_code tb_answer_of(const tb_reply *reply, tb_answer *answer, tb_client_error *error) {
    const tb_reply_header *header = &reply->header;
    *answer = (tb_answer){.operation = header->operation, .count = reply->count};
    if (header->operation == TB_OPERATION_REGISTER) {
        answer->session = header->session;
        answer->count = 0;
    }
    if (!header->length) return TB_CLIENT_OK;
    answer->items = malloc(header->length);
    if (!answer->items) return tb_no_memory(error, true);
    memcpy(answer->items, reply->body, header->length);
    return TB_CLIENT_OK;
}

void tb_answer_free(tb_answer *answer) {
    free(answer->items);
    answer->items = NULL;
    answer->count = 0;
}
