/* A client that threads share: its calls, which workers answer. */
#include <errno.h>
#include <time.h>

#include "shared.h"

#define CLOSE_SECONDS 5 /* that a child may take for its last reply */

/* Making a client */

static char *copy_of(const char *text, bool *is_missing) {
    char *copy = text ? strdup(text) : NULL;
    *is_missing = *is_missing || (text && !copy);
    return copy;
}

static tb_code configured(
    tb_client *c, const char *addresses, const tb_client_options *options, tb_client_error *error) {
    bool is_missing = false;
    if (options->sessions < 1 || options->sessions > SESSIONS_MAX)
        return tb_invalid(error, "sessions", "must be 1 to %d", SESSIONS_MAX);
    c->sessions = (size_t)options->sessions;
    c->addresses = copy_of(addresses, &is_missing);
    c->connect.timeout = options->connect.timeout;
    c->connect.ca = copy_of(options->connect.ca, &is_missing);
    c->connect.certificate = copy_of(options->connect.certificate, &is_missing);
    c->connect.key = copy_of(options->connect.key, &is_missing);
    if (is_missing) return tb_no_memory(error, false);
    c->workers[0].client = c; /* its transport is made here, so that wrong options are seen */
    return tb_transport_new(c->addresses, &c->connect, &c->workers[0].transport, error);
}

static tb_client *fresh(void) {
    tb_client *c = calloc(1, sizeof *c);
    if (!c) return NULL;
    pthread_mutex_init(&c->lock, NULL);
    tb_condition_init(&c->changed);
    tb_condition_init(&c->closed);
    return c;
}

enum tb_client_code tb_client_connect(const char *addresses, const tb_client_options *options,
    tb_client **client, tb_client_error *error) {
    static const tb_client_options defaults = TB_CLIENT_OPTIONS;
    tb_client *c = fresh();
    *client = NULL;
    if (!c) return tb_no_memory(error, false);
    tb_code code = configured(c, addresses, options ? options : &defaults, error);
    if (code)
        tb_client_free(c);
    else
        *client = c;
    return code;
}

void tb_client_free(tb_client *c) {
    if (!c) return;
    tb_client_close(c);
    for (size_t at = 0; at < SESSIONS_MAX; at++) tb_transport_free(c->workers[at].transport);
    free(c->addresses);
    free((void *)c->connect.ca);
    free((void *)c->connect.certificate);
    free((void *)c->connect.key);
    pthread_cond_destroy(&c->closed);
    pthread_cond_destroy(&c->changed);
    pthread_mutex_destroy(&c->lock);
    free(c);
}

/* Starts one more worker if there may be one. The client is locked. */
static tb_code grown(tb_client *c, tb_client_error *error) {
    if (c->idle > c->waits || c->count == c->sessions) return TB_CLIENT_OK;
    tb_worker *worker = &c->workers[c->count];
    worker->client = c;
    if (!worker->transport) {
        tb_code code = tb_transport_new(c->addresses, &c->connect, &worker->transport, error);
        if (code) return c->count ? TB_CLIENT_OK : code;
    }
    if (!pthread_create(&worker->thread, NULL, tb_worker_run, worker)) {
        c->count++;
        return TB_CLIENT_OK;
    }
    return c->count ? TB_CLIENT_OK : tb_no_memory(error, false); /* of a thread */
}

enum tb_client_code tb_client_open(
    const char *path, const tb_open_options *options, tb_client **client, tb_client_error *error) {
    static const tb_open_options defaults = TB_OPEN_OPTIONS;
    tb_client *c = fresh();
    *client = NULL;
    if (!c) return tb_no_memory(error, false);
    c->sessions = 1;
    tb_code code =
        tb_transport_of_file(path, options ? options : &defaults, &c->workers[0].transport, error);
    pthread_mutex_lock(&c->lock);
    if (!code) code = grown(c, error); /* now: the worker ends the child */
    pthread_mutex_unlock(&c->lock);
    if (code)
        tb_client_free(c);
    else
        *client = c;
    return code;
}

/* Waits for a worker's end. A child that does not reply in some seconds is killed. */
static void join(tb_worker *worker) {
    struct timespec end;
    clock_gettime(CLOCK_REALTIME, &end);
    end.tv_sec += CLOSE_SECONDS;
    if (!pthread_timedjoin_np(worker->thread, NULL, &end)) return;
    tb_transport_kill(worker->transport);
    pthread_join(worker->thread, NULL);
}

void tb_client_close(tb_client *c) {
    pthread_mutex_lock(&c->lock);
    bool is_mine = !c->is_joined;
    c->is_ended = c->is_joined = true;
    tb_queue_drop_waiting(c);
    pthread_cond_broadcast(&c->changed);
    pthread_cond_broadcast(&c->closed);
    size_t count = c->count;
    pthread_mutex_unlock(&c->lock);
    for (size_t at = 0; at < count; at++) tb_transport_connect_no_more(c->workers[at].transport);
    for (size_t at = 0; is_mine && at < count; at++) join(&c->workers[at]);
}

/* Calls */

/* The bytes of an operation's item; 0: callers have no such operation. */
static size_t size_of(enum tb_operation operation) {
    switch (operation) {
    case TB_OPERATION_CREATE_ACCOUNTS:
    case TB_OPERATION_CREATE_TRANSFERS: return TB_RECORD_SIZE;
    case TB_OPERATION_LOOKUP_ACCOUNTS:
    case TB_OPERATION_LOOKUP_TRANSFERS: return TB_ID_SIZE;
    default: return 0;
    }
}

static const char *name_of(enum tb_operation operation) {
    if (operation == TB_OPERATION_CREATE_ACCOUNTS) return "accounts";
    return operation == TB_OPERATION_CREATE_TRANSFERS ? "transfers" : "ids";
}

static tb_code made(tb_client *c, enum tb_operation operation, const void *items, size_t count,
    tb_call **call, tb_client_error *error) {
    size_t size = size_of(operation);
    if (!size) return tb_invalid(error, "operation", "%d is none of a caller", (int)operation);
    if (count > TB_ITEMS_MAX)
        return tb_invalid(error, name_of(operation), "must be at most %d", TB_ITEMS_MAX);
    tb_call *it = malloc(sizeof *it + count * size);
    if (!it) return tb_no_memory(error, false);
    *it = (tb_call){.client = c, .operation = operation, .count = count};
    atomic_init(&it->users, 2);
    sem_init(&it->done, 0, 0);
    if (count) memcpy(it->items, items, count * size);
    *call = it;
    return TB_CLIENT_OK;
}

enum tb_client_code tb_client_begin(tb_client *c, enum tb_operation operation, const void *items,
    size_t count, tb_call **call, tb_client_error *error) {
    tb_call *it = NULL;
    *call = NULL;
    tb_code code = made(c, operation, items, count, &it, error);
    if (code) return code;
    pthread_mutex_lock(&c->lock);
    code = c->is_ended ? tb_fail(error, TB_CLIENT_CLOSED, false, "the client was closed")
                       : grown(c, error);
    if (!code) tb_queue_add(c, it);
    pthread_mutex_unlock(&c->lock);
    if (code) {
        tb_call_drop(it);
        tb_call_drop(it);
    } else {
        *call = it;
    }
    return code;
}

void tb_call_leave(tb_call *call) {
    pthread_mutex_lock(&call->client->lock);
    tb_queue_leave(call);
    pthread_mutex_unlock(&call->client->lock);
}

/* Waits until a call is done or was left, until a moment. Whether it is. */
static bool is_done_by(tb_call *call, int64_t deadline) {
    struct timespec end = {deadline / TB_SECOND, deadline % TB_SECOND};
    int fault;
    do
        fault = deadline == TB_NO_LIMIT ? sem_wait(&call->done)
                                        : sem_clockwait(&call->done, CLOCK_MONOTONIC, &end);
    while (fault && errno == EINTR);
    return !fault;
}

enum tb_client_code tb_call_wait(
    tb_call *call, int64_t limit, tb_answer *answer, tb_client_error *error) {
    *answer = (tb_answer){0};
    if (!is_done_by(call, tb_after(tb_now(), limit > 0 ? limit : 0))) {
        tb_call_leave(call);
        is_done_by(call, TB_NO_LIMIT);
    }
    if (call->error.code) {
        if (error) *error = call->error;
        return call->error.code;
    }
    *answer = call->answer;
    call->answer = (tb_answer){0};
    return TB_CLIENT_OK;
}

void tb_call_free(tb_call *call) {
    if (!call) return;
    tb_call_leave(call);
    tb_call_drop(call);
}

/* A call whose items go into a place of the caller's. */
static tb_code ask(tb_client *c, enum tb_operation operation, const void *items, size_t count,
    void *place, size_t size, size_t *length, int64_t limit, tb_client_error *error) {
    tb_call *call;
    tb_answer answer;
    *length = 0;
    if (limit <= 0) return tb_fail(error, TB_CLIENT_CANCELLED, false, "the call's limit ended it");
    tb_code code = tb_client_begin(c, operation, items, count, &call, error);
    if (code) return code;
    code = tb_call_wait(call, limit, &answer, error);
    if (!code && answer.count) memcpy(place, answer.items, answer.count * size);
    *length = answer.count;
    tb_answer_free(&answer);
    tb_call_free(call);
    return code;
}

enum tb_client_code tb_client_create_accounts(tb_client *c, const tb_account *accounts,
    size_t count, tb_event_result *results, size_t *failed, int64_t limit, tb_client_error *error) {
    return ask(c, TB_OPERATION_CREATE_ACCOUNTS, accounts, count, results, sizeof *results, failed,
        limit, error);
}

enum tb_client_code tb_client_create_transfers(tb_client *c, const tb_transfer *transfers,
    size_t count, tb_event_result *results, size_t *failed, int64_t limit, tb_client_error *error) {
    return ask(c, TB_OPERATION_CREATE_TRANSFERS, transfers, count, results, sizeof *results, failed,
        limit, error);
}

enum tb_client_code tb_client_lookup_accounts(tb_client *c, const tb_u128 *ids, size_t count,
    tb_account *accounts, size_t *found, int64_t limit, tb_client_error *error) {
    return ask(c, TB_OPERATION_LOOKUP_ACCOUNTS, ids, count, accounts, sizeof *accounts, found,
        limit, error);
}

enum tb_client_code tb_client_lookup_transfers(tb_client *c, const tb_u128 *ids, size_t count,
    tb_transfer *transfers, size_t *found, int64_t limit, tb_client_error *error) {
    return ask(c, TB_OPERATION_LOOKUP_TRANSFERS, ids, count, transfers, sizeof *transfers, found,
        limit, error);
}
