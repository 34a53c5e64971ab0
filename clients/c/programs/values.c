/* Values of the kit's lines. */
#include "values.h"

#include <limits.h>
#include <stddef.h>

_Thread_local const char *never, *unknown;

/* Fields of records */

typedef struct field {
    const char *name;
    size_t at, size;
} field;

#define FIELD(record, name) \
    { #name, offsetof(record, name), sizeof(((record *)0)->name) }

static const field ACCOUNT[] = {
    FIELD(tb_account, id),
    FIELD(tb_account, debits_pending),
    FIELD(tb_account, debits_posted),
    FIELD(tb_account, credits_pending),
    FIELD(tb_account, credits_posted),
    FIELD(tb_account, user_data_128),
    FIELD(tb_account, user_data_64),
    FIELD(tb_account, user_data_32),
    FIELD(tb_account, reserved),
    FIELD(tb_account, ledger),
    FIELD(tb_account, code),
    FIELD(tb_account, flags),
    FIELD(tb_account, timestamp),
};

static const field TRANSFER[] = {
    FIELD(tb_transfer, id),
    FIELD(tb_transfer, debit_account_id),
    FIELD(tb_transfer, credit_account_id),
    FIELD(tb_transfer, amount),
    FIELD(tb_transfer, pending_id),
    FIELD(tb_transfer, user_data_128),
    FIELD(tb_transfer, user_data_64),
    FIELD(tb_transfer, user_data_32),
    FIELD(tb_transfer, timeout),
    FIELD(tb_transfer, ledger),
    FIELD(tb_transfer, code),
    FIELD(tb_transfer, flags),
    FIELD(tb_transfer, timestamp),
};

#define FIELDS (sizeof ACCOUNT / sizeof *ACCOUNT)

/* Flags by rising bits. */
static const char *const ACCOUNT_FLAGS[16] = {
    "linked",
    "debits_must_not_exceed_credits",
    "credits_must_not_exceed_debits",
    "history",
    "imported",
    "closed",
};
static const char *const TRANSFER_FLAGS[16] = {
    "linked",
    "pending",
    "post_pending_transfer",
    "void_pending_transfer",
    "balancing_debit",
    "balancing_credit",
    "closing_debit",
    "closing_credit",
    "imported",
};

static bool is_flags(const field *it) { return !strcmp(it->name, "flags"); }

/* Reading */

const char *text_of(const json *given) {
    return given && given->kind == JSON_STRING ? given->text : "";
}

tb_u128 integer_of(const json *given, unsigned bits) {
    tb_u128 number = {0, 0};
    if (!given || given->kind != JSON_STRING || !tb_u128_read(given->text, bits, &number))
        never = "it is no unsigned integer of so many bits";
    return number;
}

static double number_of(const json *given) {
    if (given && given->kind == JSON_NUMBER) return strtod(given->text, NULL);
    never = "it is no number";
    return 0;
}

int64_t nanoseconds_of(const json *given) {
    double seconds = number_of(given);
    return seconds > 9e9 ? TB_NO_LIMIT : (int64_t)(seconds * 1e9);
}

int int_of(const json *given) {
    double number = number_of(given);
    if (number >= INT_MIN && number <= INT_MAX && number == (int)number) return (int)number;
    never = "it is no int";
    return 0;
}

enum tb_operation operation_of(const json *given) {
    static const uint8_t all[] = {TB_OPERATION_REGISTER, TB_OPERATION_CREATE_ACCOUNTS,
        TB_OPERATION_CREATE_TRANSFERS, TB_OPERATION_LOOKUP_ACCOUNTS, TB_OPERATION_LOOKUP_TRANSFERS};
    for (size_t at = 0; at < sizeof all; at++)
        if (json_is(given, tb_operation_name(all[at]))) return all[at];
    return (enum tb_operation)integer_of(given, 31).low;
}

static uint16_t bit_of(const json *name, const char *const *flags) {
    for (unsigned bit = 0; bit < 16; bit++)
        if (flags[bit] && json_is(name, flags[bit])) return (uint16_t)(1 << bit);
    unknown = "no such flag";
    return 0;
}

static tb_u128 flags_of(const json *given, const char *const *flags) {
    uint16_t bits = 0;
    if (given->kind != JSON_LIST) return integer_of(given, 16);
    for (size_t at = 0; at < given->count; at++) bits |= bit_of(&given->items[at], flags);
    return tb_u128_of(bits);
}

static void read_record(
    uint8_t *record, const json *given, const field *fields, const char *const *flags) {
    const char *kind = fields == ACCOUNT ? "account" : "transfer";
    const json *named = json_get(given, "kind");
    if (!json_get(given, "id") || (named && !json_is(named, kind))) never = "it is no such record";
    for (size_t at = 0; at < FIELDS && !never; at++) {
        const field *it = &fields[at];
        const json *value = json_get(given, it->name);
        if (!value) continue;
        tb_u128 number =
            is_flags(it) ? flags_of(value, flags) : integer_of(value, (unsigned)it->size * 8);
        memcpy(record + it->at, &number, it->size);
    }
}

static void read_item(uint8_t *row, const json *given, enum tb_operation operation) {
    if (operation == TB_OPERATION_CREATE_ACCOUNTS) {
        read_record(row, given, ACCOUNT, ACCOUNT_FLAGS);
    } else if (operation == TB_OPERATION_CREATE_TRANSFERS) {
        read_record(row, given, TRANSFER, TRANSFER_FLAGS);
    } else {
        tb_u128 id = integer_of(given, 128);
        memcpy(row, &id, sizeof id);
    }
}

static size_t size_of(enum tb_operation operation) {
    return operation > UINT8_MAX ? 1 : tb_request_item_size((uint8_t)operation);
}

/* So many items like the first, with ids that rise by one. */
static void read_rising(items *made, const json *first, enum tb_operation operation) {
    size_t size = size_of(operation);
    uint8_t *rows = made->rows;
    tb_u128 id;
    read_item(rows, first, operation);
    memcpy(&id, rows, sizeof id);
    for (size_t at = 1; at < made->count; at++) {
        memcpy(rows + at * size, rows, size);
        id = tb_u128_from(tb_u128_value(id) + 1);
        memcpy(rows + at * size, &id, sizeof id);
    }
}

items items_of(const json *line, enum tb_operation operation) {
    const json *given = json_get(line, "items"), *count = json_get(given, "count");
    items made = {NULL, 0};
    if (!given || operation == TB_OPERATION_REGISTER) return made;
    if (count && count->kind == JSON_NUMBER)
        made.count = (size_t)int_of(count);
    else if (given->kind == JSON_LIST)
        made.count = given->count;
    else
        never = "it is no array";
    made.rows = calloc(made.count + 1, size_of(operation));
    if (count && made.count)
        read_rising(&made, json_get(given, "first"), operation);
    else
        for (size_t at = 0; at < made.count && !never; at++)
            read_item((uint8_t *)made.rows + at * size_of(operation), &given->items[at], operation);
    return made;
}

/* Writing */

void write_text(FILE *out, const char *text) {
    fputc('"', out);
    for (; *text; text++) {
        if (*text == '"' || *text == '\\') fputc('\\', out);
        fputc(*text < ' ' || *text > '~' ? '?' : *text, out);
    }
    fputc('"', out);
}

void write_number(FILE *out, tb_u128 number) {
    char digits[TB_DIGITS];
    fprintf(out, "\"%s\"", tb_u128_text(number, digits));
}

/* Names of flags, or the number if a bit has none. */
static void write_flags(FILE *out, uint16_t flags, const char *const *names) {
    const char *between = "";
    for (unsigned bit = 0; bit < 16; bit++) {
        if (!(flags >> bit & 1) || names[bit]) continue;
        write_number(out, tb_u128_of(flags));
        return;
    }
    fputc('[', out);
    for (unsigned bit = 0; bit < 16; bit++) {
        if (!(flags >> bit & 1)) continue;
        fprintf(out, "%s\"%s\"", between, names[bit]);
        between = ", ";
    }
    fputc(']', out);
}

static void write_record(
    FILE *out, const uint8_t *record, const field *fields, const char *const *flags) {
    for (size_t at = 0; at < FIELDS; at++) {
        tb_u128 number = {0, 0};
        memcpy(&number, record + fields[at].at, fields[at].size);
        fprintf(out, "%s\"%s\": ", at ? ", " : "{", fields[at].name);
        if (is_flags(&fields[at]))
            write_flags(out, (uint16_t)number.low, flags);
        else
            write_number(out, number);
    }
    fputc('}', out);
}

static void write_records(FILE *out, const uint8_t *rows, size_t count, bool accounts) {
    fputc('[', out);
    for (size_t at = 0; at < count; at++) {
        if (at) fputs(", ", out);
        write_record(out, rows + at * TB_RECORD_SIZE, accounts ? ACCOUNT : TRANSFER,
            accounts ? ACCOUNT_FLAGS : TRANSFER_FLAGS);
    }
    fputc(']', out);
}

void write_results(FILE *out, const tb_answer *answer) {
    const tb_event_result *rows = answer->items;
    fputc('[', out);
    for (size_t at = 0; at < answer->count; at++) {
        const char *name = answer->operation == TB_OPERATION_CREATE_ACCOUNTS
            ? tb_create_account_result_name(rows[at].result)
            : tb_create_transfer_result_name(rows[at].result);
        fprintf(out, "%s{\"index\": %u, \"result\": \"%s\"}", at ? ", " : "",
            (unsigned)rows[at].index, name);
    }
    fputc(']', out);
}

void write_answer(FILE *out, const tb_answer *answer) {
    switch (answer->operation) {
    case TB_OPERATION_CREATE_ACCOUNTS:
    case TB_OPERATION_CREATE_TRANSFERS:
        fputs("{\"results\": ", out);
        write_results(out, answer);
        break;
    case TB_OPERATION_LOOKUP_ACCOUNTS:
    case TB_OPERATION_LOOKUP_TRANSFERS:
        fputs("{\"records\": ", out);
        write_records(
            out, answer->items, answer->count, answer->operation == TB_OPERATION_LOOKUP_ACCOUNTS);
        break;
    default: fputs("{\"session\": ", out); write_number(out, tb_u128_of(answer->session));
    }
    fputc('}', out);
}

static void write_numbers(FILE *out, tb_u128 client, uint64_t session, uint32_t number) {
    fputs("{\"client\": ", out);
    write_number(out, client);
    fprintf(out, ", \"session\": \"%llu\", \"number\": \"%u\"", (unsigned long long)session,
        (unsigned)number);
}

void write_saved(FILE *out, const tb_saved *saved) {
    write_numbers(out, saved->client, saved->session, saved->number);
    fputs(", \"pending\": \"", out);
    for (size_t at = 0; at < saved->length; at++) fprintf(out, "%02x", saved->pending[at]);
    fputs("\"}", out);
}

void write_request(FILE *out, const tb_request *request) {
    const tb_request_header *header = &request->header;
    bool accounts = header->operation == TB_OPERATION_CREATE_ACCOUNTS;
    write_numbers(out, header->client, header->session, header->request);
    fprintf(out, ", \"operation\": \"%s\", \"items\": ", tb_operation_name(header->operation));
    if (accounts || header->operation == TB_OPERATION_CREATE_TRANSFERS) {
        write_records(out, request->body, request->count, accounts);
    } else {
        tb_u128 id;
        fputc('[', out);
        for (size_t at = 0; tb_request_id(request, at, &id); at++) {
            if (at) fputs(", ", out);
            write_number(out, id);
        }
        fputc(']', out);
    }
    fputc('}', out);
}

static const char *name_of(const tb_client_error *error) {
    switch (error->code) {
    case TB_CLIENT_INVALID: return "InvalidValue";
    case TB_CLIENT_IN_DOUBT: return "InDoubt";
    case TB_CLIENT_NOTHING_IN_DOUBT: return "NothingInDoubt";
    case TB_CLIENT_CLOSED: return "Closed";
    case TB_CLIENT_CANNOT_CONNECT: return "CannotConnect";
    case TB_CLIENT_REPLY_LOST: return "ReplyLost";
    case TB_CLIENT_BUSY: return "Busy";
    case TB_CLIENT_BAD_REPLY: return "BadReply";
    case TB_CLIENT_REFUSED: return tb_reply_status_name(error->status);
    case TB_CLIENT_CANCELLED: return "Cancelled";
    case TB_CLIENT_FILE: return "File";
    case TB_CLIENT_EVENTS_FAILED: return "EventsFailed";
    default: return tb_client_strerror(error->code);
    }
}

void write_error(FILE *out, const tb_client_error *error, const tb_answer *answer) {
    fprintf(out, "{\"error\": {\"name\": \"%s\", \"sent\": %s", name_of(error),
        error->sent ? "true" : "false");
    if (error->code == TB_CLIENT_INVALID) {
        fputs(", \"field\": ", out);
        write_text(out, error->field);
    }
    if (error->code == TB_CLIENT_REPLY_LOST || error->code == TB_CLIENT_BUSY) {
        fputs(", \"told\": ", out);
        write_text(out, error->told);
    }
    if (error->code == TB_CLIENT_EVENTS_FAILED && answer) {
        fputs(", \"results\": ", out);
        write_results(out, answer);
    }
    fputs(", \"text\": ", out);
    write_text(out, error->text);
    fputs("}}", out);
}
