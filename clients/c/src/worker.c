/* A worker of a shared client: one session, one request in flight, until its reply is there. */
#include "shared.h"

#define FIRST_PAUSE (50 * TB_MILLISECOND)
#define PAUSE_MAX TB_SECOND

static int64_t next_pause(tb_patience *patience, const tb_client_error *why) {
    bool is_at_once = !patience->is_begun && !tb_is_later(why);
    patience->is_begun = true;
    if (is_at_once) return 0;
    patience->pause = patience->pause ? tb_doubled(patience->pause, PAUSE_MAX) : FIRST_PAUSE;
    return patience->pause;
}

/* Waits before the next sending. Whether the client goes on. */
static bool rests(tb_worker *worker, tb_patience *patience, const tb_client_error *why) {
    tb_queue_note(worker, why->text);
    return tb_queue_rest(worker->client, next_pause(patience, why));
}

/* Whether a server is not there, and may be later. */
static bool may_come(const tb_client_error *error) {
    return error->code == TB_CLIENT_CANNOT_CONNECT && !error->final;
}

/* Whether the server does not let this client in. */
static bool is_forbidden(const tb_client_error *error) {
    return !strcmp(error->told, "NotAllowed") || !strcmp(error->told, "ClientNotAllowed");
}

static bool is_lost(const tb_client_error *error) {
    return error->code == TB_CLIENT_REPLY_LOST || error->code == TB_CLIENT_BUSY;
}

static bool is_evicted(const tb_client_error *error) {
    return error->code == TB_CLIENT_REFUSED &&
        (error->status == TB_REPLY_STATUS_NO_SESSION ||
            error->status == TB_REPLY_STATUS_SESSION_TOO_LOW);
}

/* Gives the session up: the next request has one of a new id. */
static void leave(tb_worker *worker) {
    tb_session_free(worker->session);
    worker->session = NULL;
}

/* Makes a session that is to be registered. */
static tb_code begun(tb_worker *worker, tb_client_error *error) {
    tb_session_options options = TB_SESSION_OPTIONS;
    options.attempts = 1;
    tb_code code = tb_session_new(worker->transport, &options, &worker->session, error);
    if (!code) code = tb_session_prepare(worker->session, TB_OPERATION_REGISTER, NULL, 0, error);
    return code;
}

/* Has a session that is registered. */
static tb_code registered(tb_worker *worker, tb_client_error *error) {
    tb_patience patience = {0, false};
    tb_code code = worker->session ? TB_CLIENT_OK : begun(worker, error);
    while (!code && !tb_session_is_registered(worker->session)) {
        tb_answer answer;
        if (!tb_session_retry(worker->session, TB_NO_LIMIT, &answer, error)) continue;
        if (is_forbidden(error) || !(is_lost(error) || tb_is_later(error))) return error->code;
        if (!rests(worker, &patience, error))
            return tb_fail(error, TB_CLIENT_CLOSED, false,
                "the client was closed: nothing of this call was sent");
    }
    return code;
}

/* Sends a request once, or again if it is in doubt. */
static tb_code once(
    tb_worker *worker, const tb_batch *batch, tb_answer *answer, tb_client_error *error) {
    tb_code code = registered(worker, error);
    if (code) return code;
    if (tb_session_is_in_doubt(worker->session))
        return tb_session_retry(worker->session, TB_NO_LIMIT, answer, error);
    code = tb_session_ask_lists(
        worker->session, batch->operation, batch->lists, batch->count, TB_NO_LIMIT, answer, error);
    if (code != TB_CLIENT_INVALID || strcmp(error->field, "number")) return code;
    leave(worker); /* all its numbers are used */
    return once(worker, batch, answer, error);
}

/* What a request has come to. */
typedef struct course {
    bool is_doubtful; /* it may have been executed in a session that has ended */
    bool is_gone;     /* a sending in this session may have been executed */
    tb_patience patience;
} course;

/* What follows an error: whether the request is sent again, after the pauses of `patience`. */
static bool goes_on(tb_worker *worker, course *it, tb_client_error *error, tb_patience **patience) {
    bool is_open = it->is_gone || it->is_doubtful;
    *patience = &it->patience;
    if ((!error->sent && !is_open) || is_forbidden(error)) return false;
    if (!error->sent && !may_come(error)) {
        tb_not_again(error, "no reply came");
        return false;
    }
    if (!error->sent) {
        *patience = &worker->absence;
    } else if (is_evicted(error)) {
        it->is_doubtful = is_open;
        it->is_gone = false;
        leave(worker);
    } else if (is_lost(error)) {
        it->is_gone = it->is_gone || error->code != TB_CLIENT_BUSY;
    } else {
        return tb_is_later(error);
    }
    return true;
}

/* Sends a request until its reply is there. Without `sent` in the error it was never executed. */
static tb_code asked(tb_worker *worker, const tb_batch *batch, course *it, tb_answer *answer,
    tb_client_error *error) {
    for (;;) {
        tb_patience *patience;
        if (!once(worker, batch, answer, error)) return TB_CLIENT_OK;
        if (!goes_on(worker, it, error, &patience)) return error->code;
        if (!rests(worker, patience, error)) {
            tb_client_error why = *error;
            return tb_fail(error, TB_CLIENT_REPLY_LOST, true,
                "the client was closed, after: %.180s", why.text);
        }
    }
}

/* Says of each chain that was executed before the session ended that it exists. */
static tb_code settled(
    tb_worker *worker, const tb_batch *batch, tb_answer *answer, tb_client_error *error) {
    bool accounts = batch->operation == TB_OPERATION_CREATE_ACCOUNTS;
    if (!accounts && batch->operation != TB_OPERATION_CREATE_TRANSFERS) return TB_CLIENT_OK;
    tb_doubtful doubtful;
    tb_code code =
        tb_doubtful_of(batch->operation, batch->lists, batch->count, answer, &doubtful, error);
    if (!code && doubtful.id_count) {
        tb_list ids = {doubtful.ids, doubtful.id_count};
        tb_batch lookup = {accounts ? TB_OPERATION_LOOKUP_ACCOUNTS : TB_OPERATION_LOOKUP_TRANSFERS,
            {NULL, NULL}, &ids, 1};
        course it = {.is_doubtful = true};
        tb_answer found = {0};
        code = asked(worker, &lookup, &it, &found, error);
        if (!code) tb_doubtful_settle(&doubtful, &found, answer);
        tb_answer_free(&found);
    }
    tb_doubtful_free(&doubtful);
    return code;
}

/* Gives a session up whose request would be sent in place of the next one. */
static void leave_if_in_doubt(tb_worker *worker) {
    if (worker->session && tb_session_is_registered(worker->session) &&
        tb_session_is_in_doubt(worker->session))
        leave(worker);
}

/* Gives some calls their answers by one request. */
static void serve(tb_worker *worker, tb_batch *batch) {
    tb_client_error error;
    tb_answer answer = {0};
    course it = {.is_gone = false};
    tb_code code = asked(worker, batch, &it, &answer, &error);
    if (!code && it.is_doubtful) code = settled(worker, batch, &answer, &error);
    if (!code) {
        worker->absence = (tb_patience){0, false};
        tb_queue_note(worker, "");
        tb_queue_finish(worker->client, batch->calls, &answer, NULL);
    } else {
        leave_if_in_doubt(worker);
        if (may_come(&error)) {
            tb_queue_give_back(worker->client, batch->calls);
            rests(worker, &worker->absence, &error);
        } else {
            tb_queue_finish(worker->client, batch->calls, NULL, &error);
        }
    }
    tb_answer_free(&answer);
}

/* Serves the next calls that one request can hold. */
static void serve_next(tb_worker *worker) {
    tb_batch batch = {.calls = tb_queue_take(worker->client)};
    if (!batch.calls.first) return; /* another worker took them */
    size_t count = 0;
    for (tb_call *at = batch.calls.first; at; at = at->next) count++;
    batch.lists = malloc(count * sizeof *batch.lists);
    if (!batch.lists) {
        tb_client_error error;
        tb_no_memory(&error, false);
        tb_queue_finish(worker->client, batch.calls, NULL, &error);
        return;
    }
    batch.operation = batch.calls.first->operation;
    for (tb_call *at = batch.calls.first; at; at = at->next)
        batch.lists[batch.count++] = (tb_list){at->items, at->count};
    serve(worker, &batch);
    free(batch.lists);
}

void *tb_worker_run(void *given) {
    tb_worker *worker = given;
    while (tb_queue_wait(worker->client)) {
        tb_client_error error;
        if (!registered(worker, &error)) {
            serve_next(worker);
        } else if (may_come(&error)) {
            rests(worker, &worker->absence, &error);
        } else {
            leave(worker);
            tb_queue_finish(worker->client, tb_queue_take(worker->client), NULL, &error);
        }
    }
    leave(worker);
    tb_transport_close(worker->transport);
    return NULL;
}
