/* Errors, and how they are filled. */
#include <errno.h>
#include <stdarg.h>

#include "internal.h"

const char *tb_client_strerror(enum tb_client_code code) {
    switch (code) {
    case TB_CLIENT_OK: return "done";
    case TB_CLIENT_INVALID: return "a value is out of range";
    case TB_CLIENT_IN_DOUBT: return "the last request has no reply yet";
    case TB_CLIENT_NOTHING_IN_DOUBT: return "there is nothing to send again";
    case TB_CLIENT_CLOSED: return "it was closed";
    case TB_CLIENT_CANNOT_CONNECT: return "no address could be connected to";
    case TB_CLIENT_REPLY_LOST: return "no reply came: the request may have been executed";
    case TB_CLIENT_BUSY: return "the server said to come later";
    case TB_CLIENT_BAD_REPLY: return "what came is no reply to this request";
    case TB_CLIENT_REFUSED: return "the request was refused";
    case TB_CLIENT_CANCELLED: return "the caller's limit ended the call";
    case TB_CLIENT_FILE: return "the system refused a file";
    case TB_CLIENT_NO_MEMORY: return "out of memory";
    case TB_CLIENT_EVENTS_FAILED: return "events were not accepted";
    case TB_CLIENT_PROGRAM_ENDED: return "the program that serves the file ended by a fault";
    case TB_CLIENT_LOCKED: return "the file is open elsewhere";
    case TB_CLIENT_CANNOT_START: return "the program that serves the file does not start";
    case TB_CLIENT_CLOCK_JUMPED: return "the ledger's time is ahead of the clock";
    }
    return "unknown";
}

static void fill(
    tb_client_error *error, tb_code code, bool sent, const char *format, va_list values) {
    tb_client_error made = {.code = code, .sent = sent};
    vsnprintf(made.text, sizeof made.text, format, values);
    *error = made;
}

tb_code tb_fail(tb_client_error *error, tb_code code, bool sent, const char *format, ...) {
    if (error) {
        va_list values;
        va_start(values, format);
        fill(error, code, sent, format, values);
        va_end(values);
    }
    return code;
}

tb_code tb_invalid(tb_client_error *error, const char *field, const char *format, ...) {
    if (error) {
        va_list values;
        va_start(values, format);
        fill(error, TB_CLIENT_INVALID, false, format, values);
        va_end(values);
        snprintf(error->field, sizeof error->field, "%s", field);
    }
    return TB_CLIENT_INVALID;
}

tb_code tb_fail_file(tb_client_error *error, const char *path) {
    int number = errno;
    char room[TB_TEXT];
    tb_fail(
        error, TB_CLIENT_FILE, false, "%.120s: %.80s", path, strerror_r(number, room, sizeof room));
    if (error) error->system = number;
    return TB_CLIENT_FILE;
}

tb_code tb_no_memory(tb_client_error *error, bool sent) {
    return tb_fail(error, TB_CLIENT_NO_MEMORY, sent, "out of memory");
}

enum tb_client_code tb_client_require_ok(size_t failed, tb_client_error *error) {
    if (!failed) return TB_CLIENT_OK;
    return tb_fail(error, TB_CLIENT_EVENTS_FAILED, true, "%zu events were not accepted", failed);
}
