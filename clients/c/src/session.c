/* A session: its numbers, which reply is whose, and what is sent again are those of tb_caller. Here
 * are its memory, its turns and its sendings. */
#include <errno.h>
#include <time.h>

#include "internal.h"

#define PAUSE_MAX TB_SECOND /* beyond which a pause is doubled no more */

struct tb_session {
    tb_transport *transport;
    int attempts;
    int64_t pause;

    pthread_mutex_t saving; /* so that no older state is saved over a newer one */
    pthread_mutex_t lock;   /* of what follows */
    pthread_cond_t freed;
    bool is_taken; /* a call sends */
    tb_caller caller;
    uint8_t *frame; /* of the request in doubt, or null. Its bytes never change */
    size_t length;
    uint8_t refusal; /* how it was refused last, or 0 */
};

/* Making sessions */

static tb_code tested(const tb_session_options *options, tb_client_error *error) {
    if (options->client && tb_u128_equal(*options->client, tb_u128_of(0)))
        return tb_invalid(error, "client", "must not be 0");
    if (options->attempts < 1) return tb_invalid(error, "attempts", "must be 1 at least");
    if (options->pause < 0) return tb_invalid(error, "pause", "must be 0 at least");
    return TB_CLIENT_OK;
}

static tb_code made(tb_transport *transport, const tb_session_options *options,
    tb_session **session, tb_client_error *error) {
    tb_code code = tested(options, error);
    *session = NULL;
    if (code) return code;
    tb_session *s = calloc(1, sizeof *s);
    if (!s) return tb_no_memory(error, false);
    tb_heap_is_linked();
    s->transport = transport;
    s->attempts = options->attempts;
    s->pause = options->pause;
    pthread_mutex_init(&s->saving, NULL);
    pthread_mutex_init(&s->lock, NULL);
    tb_condition_init(&s->freed);
    s->caller.id = options->client ? *options->client : tb_id();
    *session = s;
    return TB_CLIENT_OK;
}

static const tb_session_options DEFAULTS = TB_SESSION_OPTIONS;

enum tb_client_code tb_session_new(tb_transport *transport, const tb_session_options *options,
    tb_session **session, tb_client_error *error) {
    return made(transport, options ? options : &DEFAULTS, session, error);
}

void tb_session_free(tb_session *s) {
    if (!s) return;
    free(s->frame);
    pthread_cond_destroy(&s->freed);
    pthread_mutex_destroy(&s->lock);
    pthread_mutex_destroy(&s->saving);
    free(s);
}

/* Takes what was saved: a file has the last number with a reply, tb_caller the last one made. */
static tb_code kept(tb_session *s, const tb_saved *saved, tb_client_error *error) {
    tb_caller caller = {saved->client, saved->session, saved->number, TB_CALLER_IDLE};
    tb_request request;
    if (saved->length) {
        if (tb_read_request(saved->pending, saved->length, &request))
            return tb_invalid(error, "pending", "is no request");
        bool registers = request.header.operation == TB_OPERATION_REGISTER;
        if (registers != !saved->session)
            return tb_invalid(error, "pending", "is not the next request of this session");
        caller.phase = TB_CALLER_OPEN;
        caller.last += !registers;
        if (caller.last < saved->number) return tb_invalid(error, "pending", "has no number");
    } else if (!saved->session && !saved->number) {
        caller.phase = TB_CALLER_UNREGISTERED;
    }
    uint32_t status = tb_caller_check(&caller, saved->pending, saved->length);
    if (status == TB_CALLER_NO_MEMORY) return tb_no_memory(error, false);
    if (status) return tb_invalid(error, "pending", "is not the next request of this session");
    s->caller = caller;
    if (!saved->length) return TB_CLIENT_OK;
    s->frame = malloc(saved->length);
    if (!s->frame) return tb_no_memory(error, false);
    memcpy(s->frame, saved->pending, saved->length);
    s->length = saved->length;
    return TB_CLIENT_OK;
}

enum tb_client_code tb_session_resume(tb_transport *transport, const tb_saved *saved,
    const tb_session_options *options, tb_session **session, tb_client_error *error) {
    tb_session_options with = options ? *options : DEFAULTS;
    *session = NULL;
    if (tb_u128_equal(saved->client, tb_u128_of(0)))
        return tb_invalid(error, "saved.client", "must not be 0");
    if (with.client && !tb_u128_equal(*with.client, saved->client))
        return tb_invalid(error, "client", "must be that of the saved session");
    with.client = &saved->client;
    tb_code code = made(transport, &with, session, error);
    if (!code) code = kept(*session, saved, error);
    if (code) {
        tb_session_free(*session);
        *session = NULL;
    }
    return code;
}

enum tb_client_code tb_session_load(tb_transport *transport, const char *path,
    const tb_session_options *options, tb_session **session, tb_client_error *error) {
    tb_saved saved;
    *session = NULL;
    tb_code code = tb_saved_read(path, &saved, error);
    if (code) return code;
    code = tb_session_resume(transport, &saved, options, session, error);
    tb_saved_free(&saved);
    return code;
}

/* What a session is */

tb_u128 tb_session_client(const tb_session *s) { return s->caller.id; }

tb_transport *tb_session_transport(const tb_session *s) { return s->transport; }

static bool is_register(const tb_session *s) {
    tb_request_header header;
    memcpy(&header, s->frame, sizeof header);
    return header.operation == TB_OPERATION_REGISTER;
}

enum tb_client_code tb_session_saved(tb_session *s, tb_saved *saved, tb_client_error *error) {
    uint8_t *copy = NULL;
    tb_code code = TB_CLIENT_OK;
    pthread_mutex_lock(&s->lock);
    const tb_caller *it = &s->caller;
    *saved = (tb_saved){it->id, it->session, it->last, NULL, 0};
    if (s->frame) {
        saved->number -= !is_register(s);
        copy = malloc(s->length);
        if (copy) {
            memcpy(copy, s->frame, s->length);
            saved->length = s->length;
        } else {
            code = tb_no_memory(error, false);
        }
    }
    pthread_mutex_unlock(&s->lock);
    saved->pending = copy;
    return code;
}

void tb_saved_free(tb_saved *saved) {
    free((void *)saved->pending);
    saved->pending = NULL;
    saved->length = 0;
}

enum tb_client_code tb_session_save(tb_session *s, const char *path, tb_client_error *error) {
    tb_saved saved;
    pthread_mutex_lock(&s->saving);
    tb_code code = tb_session_saved(s, &saved, error);
    if (!code) code = tb_saved_write(path, &saved, error);
    tb_saved_free(&saved);
    pthread_mutex_unlock(&s->saving);
    return code;
}

bool tb_session_is_registered(tb_session *s) {
    pthread_mutex_lock(&s->lock);
    bool it = s->caller.session != 0;
    pthread_mutex_unlock(&s->lock);
    return it;
}

bool tb_session_is_in_doubt(tb_session *s) {
    pthread_mutex_lock(&s->lock);
    bool it = s->frame != NULL;
    pthread_mutex_unlock(&s->lock);
    return it;
}

/* Requests */

static const char *name_of(uint8_t operation) {
    switch (operation) {
    case TB_OPERATION_CREATE_ACCOUNTS: return "accounts";
    case TB_OPERATION_CREATE_TRANSFERS: return "transfers";
    case TB_OPERATION_REGISTER: return "items";
    default: return "ids";
    }
}

/* The frame of what is asked for. Its client, session and number are for tb_caller to say. */
static tb_code frame_of(enum tb_operation operation, const tb_list *lists, size_t count,
    uint8_t **frame, size_t *length, tb_client_error *error) {
    if (operation > UINT8_MAX || !tb_is_operation((uint8_t)operation))
        return tb_invalid(error, "operation", "%d is none", (int)operation);
    uint8_t number = (uint8_t)operation;
    bool registers = operation == TB_OPERATION_REGISTER;
    size_t items = 0, size = tb_request_item_size(number), most = registers ? 0 : TB_ITEMS_MAX;
    for (size_t at = 0; at < count; at++) {
        if (lists[at].count > most - items)
            return tb_invalid(error, name_of(number), "must be at most %zu", most);
        items += lists[at].count;
    }
    tb_request_header header = {.client = tb_u128_of(1),
        .session = !registers,
        .request = !registers,
        .operation = number,
        .length = (uint32_t)(items * size)};
    *length = sizeof header + header.length;
    uint8_t *to = *frame = malloc(*length);
    if (!to) return tb_no_memory(error, false);
    memcpy(to, &header, sizeof header);
    to += sizeof header;
    for (size_t at = 0; at < count; to += lists[at++].count * size)
        if (lists[at].count) memcpy(to, lists[at].items, lists[at].count * size);
    return TB_CLIENT_OK;
}

/* Why no request was made. */
static tb_code not_made(const tb_session *s, uint32_t status, tb_client_error *error) {
    switch (status) {
    case TB_CALLER_NOT_REGISTERED: return tb_invalid(error, "session", "is 0: register first");
    case TB_CALLER_REGISTERED: return tb_invalid(error, "session", "is registered already");
    case TB_CALLER_NO_NUMBER:
        return tb_invalid(error, "number", "is 2^32 - 1, the last one: register a new client");
    case TB_CALLER_UNANSWERED:
    case TB_CALLER_ENDED:
        return tb_fail(error, TB_CLIENT_IN_DOUBT, false, "the last request is in doubt%s%s",
            s->refusal ? ", and was refused: " : ": retry it",
            s->refusal ? tb_reply_status_name(s->refusal) : "");
    case TB_CALLER_NO_MEMORY: return tb_no_memory(error, false);
    default: return tb_invalid(error, "session", "is none (%u)", (unsigned)status);
    }
}

static tb_code prepared(tb_session *s, enum tb_operation operation, const tb_list *lists,
    size_t count, tb_client_error *error) {
    uint8_t *asked = NULL, *frame = NULL;
    size_t length = 0, written;
    tb_code code = frame_of(operation, lists, count, &asked, &length, error);
    if (code) return code;
    frame = malloc(length);
    pthread_mutex_lock(&s->lock);
    uint32_t status = frame ? tb_caller_call(&s->caller, asked, length, frame, length, &written)
                            : TB_CALLER_NO_MEMORY;
    if (status) {
        code = not_made(s, status, error);
        free(frame);
    } else {
        s->frame = frame;
        s->length = written;
        s->refusal = 0;
    }
    pthread_mutex_unlock(&s->lock);
    free(asked);
    return code;
}

enum tb_client_code tb_session_prepare(tb_session *s, enum tb_operation operation,
    const void *items, size_t count, tb_client_error *error) {
    return prepared(s, operation, &(tb_list){items, count}, 1, error);
}

/* Sendings */

/* What a sending's receiver has. */
typedef struct hearing {
    tb_session *session;
    tb_answer *answer;
    tb_client_error *error;
    tb_code code;
} hearing;

/* Whether a reply may be this request's, by its header: the same without its body is asked of a
 * copy of the session. */
static bool begins(void *context, const uint8_t *bytes) {
    hearing *it = context;
    tb_reply_header header;
    memcpy(&header, bytes, sizeof header);
    header.length = 0;
    uint32_t heard;
    size_t read;
    pthread_mutex_lock(&it->session->lock);
    tb_caller copy = it->session->caller;
    pthread_mutex_unlock(&it->session->lock);
    uint32_t status = tb_caller_received(&copy, it->session->frame, it->session->length,
        (const uint8_t *)&header, sizeof header, &heard, &read);
    return status == TB_CALLER_NO_MEMORY || (!status && heard != TB_HEARD_OTHER);
}

/* Reports a refusal. The request stays in doubt, because it may have been executed before. */
static tb_code refused(hearing *it, const tb_reply_header *header) {
    it->session->refusal = header->status;
    tb_fail(it->error, TB_CLIENT_REFUSED, true, "the request was refused: %s",
        tb_reply_status_name(header->status));
    it->error->status = header->status;
    return TB_CLIENT_REFUSED;
}

/* Does what tb_caller says of a reply. Whether it is this request's. The session is locked. */
static bool heard_as(hearing *it, const tb_reply *reply, uint32_t status, uint32_t heard) {
    tb_session *s = it->session;
    if (status == TB_CALLER_NO_MEMORY) {
        it->code = tb_no_memory(it->error, true);
        return true;
    }
    if (status) return false;
    switch (heard) {
    case TB_HEARD_RETURNED:
        free(s->frame);
        s->frame = NULL;
        return true;
    case TB_HEARD_ENDED:
    case TB_HEARD_REFUSED: it->code = refused(it, &reply->header); return true;
    default: return false;
    }
}

/* Takes a whole reply. */
static bool takes(void *context, const uint8_t *bytes, size_t length) {
    hearing *it = context;
    tb_session *s = it->session;
    tb_reply reply;
    uint32_t heard;
    size_t read;
    if (tb_read_reply(bytes, length, &reply)) return false;
    const char *fault = tb_body_fault(s->frame, s->length, &reply);
    if (fault) {
        it->code = tb_fail(it->error, TB_CLIENT_BAD_REPLY, true, "%s", fault);
        return true;
    }
    it->code = tb_answer_of(&reply, it->answer, it->error);
    if (it->code) return true; /* and the request stays in doubt */
    pthread_mutex_lock(&s->lock);
    uint32_t status =
        tb_caller_received(&s->caller, s->frame, s->length, bytes, length, &heard, &read);
    bool is_ours = heard_as(it, &reply, status, heard);
    pthread_mutex_unlock(&s->lock);
    if (it->code || !is_ours) tb_answer_free(it->answer);
    return is_ours;
}

static tb_code exchanged(tb_session *s, int64_t limit, tb_answer *answer, tb_client_error *error) {
    hearing it = {s, answer, error, TB_CLIENT_OK};
    tb_receiver receiver = {begins, takes, &it};
    if (tb_now() >= limit)
        return tb_fail(error, TB_CLIENT_CANCELLED, false, "the call's limit ended it");
    tb_code code =
        tb_transport_exchange(s->transport, s->frame, s->length, limit, &receiver, error);
    return code ? code : it.code;
}

bool tb_is_later(const tb_client_error *error) {
    return error->code == TB_CLIENT_BUSY ||
        (error->code == TB_CLIENT_REFUSED && error->status == TB_REPLY_STATUS_NOT_YET);
}

tb_code tb_not_again(tb_client_error *error, const char *before) {
    tb_client_error why = *error;
    if (why.code == TB_CLIENT_CANCELLED || why.code == TB_CLIENT_PROGRAM_ENDED) {
        error->sent = true;
        return why.code;
    }
    return tb_fail(error, TB_CLIENT_REPLY_LOST, true, "%.100s; it was not sent again: %.90s",
        before, why.text);
}

/* Sleeps, until the limit at most. Whether the limit did not come. */
static bool rested(int64_t pause, int64_t limit) {
    int64_t end = tb_after(tb_now(), pause), until = end < limit ? end : limit;
    struct timespec moment = {until / TB_SECOND, until % TB_SECOND};
    while (clock_nanosleep(CLOCK_MONOTONIC, TIMER_ABSTIME, &moment, NULL) == EINTR)
        ;
    return end <= limit;
}

/* Sends the request in doubt, up to `attempts` times. The caller has the turn. */
static tb_code sent(tb_session *s, int64_t limit, tb_answer *answer, tb_client_error *error) {
    char before[TB_TEXT] = "";
    int64_t pause = s->pause, most = s->pause > PAUSE_MAX ? s->pause : PAUSE_MAX;
    for (int attempt = 1;; attempt++) {
        tb_code code = exchanged(s, limit, answer, error);
        if (!code) return code;
        if (attempt > 1 && !error->sent) return tb_not_again(error, before);
        bool is_later = tb_is_later(error);
        if (attempt == s->attempts || !(is_later || code == TB_CLIENT_REPLY_LOST)) return code;
        snprintf(before, sizeof before, "%.150s", error->text);
        if (!is_later) continue;
        if (!rested(pause, limit))
            return tb_fail(error, TB_CLIENT_CANCELLED, true, "the call's limit ended it");
        pause = tb_doubled(pause, most);
    }
}

/* Waits until no other call sends. */
static tb_code take(tb_session *s, int64_t limit, tb_client_error *error) {
    pthread_mutex_lock(&s->lock);
    while (s->is_taken && tb_wait_until(&s->freed, &s->lock, limit))
        ;
    bool is_free = !s->is_taken;
    if (is_free) s->is_taken = true;
    pthread_mutex_unlock(&s->lock);
    if (is_free) return TB_CLIENT_OK;
    return tb_fail(error, TB_CLIENT_CANCELLED, false, "the call's limit ended it");
}

static void give_back(tb_session *s) {
    pthread_mutex_lock(&s->lock);
    s->is_taken = false;
    pthread_cond_signal(&s->freed);
    pthread_mutex_unlock(&s->lock);
}

/* Whether a request is in doubt. After its end a session goes on as from a file, which has no word
 * for the end: the same bytes may be sent again. */
static bool reopened(tb_session *s) {
    pthread_mutex_lock(&s->lock);
    bool is_in_doubt = s->frame != NULL;
    if (s->caller.phase == TB_CALLER_OVER) s->caller.phase = TB_CALLER_OPEN;
    pthread_mutex_unlock(&s->lock);
    return is_in_doubt;
}

/* The moment at which a call ends. */
static int64_t end_of(int64_t limit) { return tb_after(tb_now(), limit > 0 ? limit : 0); }

enum tb_client_code tb_session_retry(
    tb_session *s, int64_t limit, tb_answer *answer, tb_client_error *error) {
    tb_client_error unread;
    int64_t end = end_of(limit);
    if (!error) error = &unread;
    *answer = (tb_answer){0};
    tb_code code = take(s, end, error);
    if (code) return code;
    code = reopened(s)
        ? sent(s, end, answer, error)
        : tb_fail(error, TB_CLIENT_NOTHING_IN_DOUBT, false, "there is nothing to send again");
    give_back(s);
    return code;
}

/* Takes a request back of which nothing was sent: as if the program had ended before it was made.
 */
static void take_back(tb_session *s, const tb_caller *before) {
    pthread_mutex_lock(&s->lock);
    s->caller = *before;
    free(s->frame);
    s->frame = NULL;
    pthread_mutex_unlock(&s->lock);
}

tb_code tb_session_ask_lists(tb_session *s, enum tb_operation operation, const tb_list *lists,
    size_t count, int64_t limit, tb_answer *answer, tb_client_error *error) {
    tb_client_error unread;
    int64_t end = end_of(limit);
    if (!error) error = &unread;
    *answer = (tb_answer){0};
    tb_code code = take(s, end, error);
    if (code) return code;
    pthread_mutex_lock(&s->lock);
    tb_caller before = s->caller;
    pthread_mutex_unlock(&s->lock);
    code = prepared(s, operation, lists, count, error);
    if (!code) {
        code = sent(s, end, answer, error);
        if (code && !error->sent) take_back(s, &before);
    }
    give_back(s);
    return code;
}

enum tb_client_code tb_session_ask(tb_session *s, enum tb_operation operation, const void *items,
    size_t count, int64_t limit, tb_answer *answer, tb_client_error *error) {
    return tb_session_ask_lists(s, operation, &(tb_list){items, count}, 1, limit, answer, error);
}
