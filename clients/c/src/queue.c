/* The calls of a shared client that wait, in their order. */
#include "shared.h"

static void append(tb_calls *calls, tb_call *call) {
    call->next = NULL;
    if (calls->last)
        calls->last->next = call;
    else
        calls->first = call;
    calls->last = call;
}

static tb_call *shifted(tb_calls *calls) {
    tb_call *first = calls->first;
    calls->first = first->next;
    if (!calls->first) calls->last = NULL;
    first->next = NULL;
    return first;
}

void tb_call_drop(tb_call *call) {
    if (atomic_fetch_sub(&call->users, 1) > 1) return;
    tb_answer_free(&call->answer);
    sem_destroy(&call->done);
    free(call);
}

void tb_queue_add(tb_client *client, tb_call *call) {
    append(&client->waiting, call);
    client->waits++;
    pthread_cond_signal(&client->changed);
}

bool tb_queue_wait(tb_client *client) {
    pthread_mutex_lock(&client->lock);
    client->idle++;
    while (!client->waiting.first && !client->is_ended)
        pthread_cond_wait(&client->changed, &client->lock);
    client->idle--;
    bool goes_on = !client->is_ended;
    pthread_mutex_unlock(&client->lock);
    return goes_on;
}

static bool creates(enum tb_operation operation) {
    return operation == TB_OPERATION_CREATE_ACCOUNTS || operation == TB_OPERATION_CREATE_TRANSFERS;
}

/* Whether a list ends in a chain that the next event would be joined to. */
static bool is_open(const tb_call *call) {
    tb_transfer last; /* flags have one place in both records, and `linked` one bit */
    if (!creates(call->operation) || !call->count) return false;
    memcpy(&last, call->items + (call->count - 1) * TB_RECORD_SIZE, sizeof last);
    return last.flags & TB_TRANSFER_LINKED;
}

/* Whether a call may follow another in a request that has this many items. */
static bool may_join(const tb_call *last, const tb_call *next, size_t count) {
    return next->operation == last->operation && count + next->count <= TB_ITEMS_MAX &&
        !is_open(last);
}

tb_calls tb_queue_take(tb_client *client) {
    tb_calls batch = {NULL, NULL};
    size_t count = 0;
    pthread_mutex_lock(&client->lock);
    while (client->waiting.first) {
        if (batch.last && !may_join(batch.last, client->waiting.first, count)) break;
        tb_call *next = shifted(&client->waiting);
        client->waits--;
        next->is_sent = true; /* before it is: who leaves from now on is told so */
        count += next->count;
        append(&batch, next);
    }
    pthread_mutex_unlock(&client->lock);
    return batch;
}

/* Ends a call that goes on. The client is locked. */
static void ended(tb_call *call) {
    call->is_done = true;
    sem_post(&call->done);
}

void tb_queue_drop_waiting(tb_client *client) {
    while (client->waiting.first) {
        tb_call *call = shifted(&client->waiting);
        tb_fail(&call->error, TB_CLIENT_CLOSED, false,
            "the client was closed: nothing of this call was sent");
        ended(call);
        tb_call_drop(call);
    }
    client->waits = 0;
}

/* Takes a call out of those that wait. Whether it was there. */
static bool taken_out(tb_client *client, tb_call *call) {
    for (tb_call *at = client->waiting.first, *before = NULL; at; before = at, at = at->next) {
        if (at != call) continue;
        *(before ? &before->next : &client->waiting.first) = at->next;
        if (!at->next) client->waiting.last = before;
        client->waits--;
        return true;
    }
    return false;
}

/* Why a worker has had no reply of late, or "". */
static const char *trouble_of(const tb_client *client) {
    for (size_t at = 0; at < client->count; at++)
        if (*client->workers[at].trouble) return client->workers[at].trouble;
    return "";
}

void tb_queue_leave(tb_call *call) {
    if (call->is_done || call->is_left) return;
    const char *trouble = trouble_of(call->client);
    tb_fail(&call->error, TB_CLIENT_CANCELLED, call->is_sent, "the caller left%s%s",
        *trouble ? ": " : "", trouble);
    call->is_left = true;
    sem_post(&call->done);
    if (taken_out(call->client, call)) tb_call_drop(call);
}

void tb_queue_give_back(tb_client *client, tb_calls calls) {
    tb_calls kept = {NULL, NULL};
    pthread_mutex_lock(&client->lock);
    while (calls.first) {
        tb_call *call = shifted(&calls);
        call->is_sent = false;
        if (call->is_left) {
            tb_call_drop(call);
            continue;
        }
        append(&kept, call);
        client->waits++;
    }
    if (kept.last) {
        kept.last->next = client->waiting.first;
        client->waiting.first = kept.first;
        if (!client->waiting.last) client->waiting.last = kept.last;
    }
    if (client->is_ended) tb_queue_drop_waiting(client);
    pthread_mutex_unlock(&client->lock);
}

/* What is one call's of an answer. */
typedef struct part {
    tb_answer answer;
    tb_client_error error;
} part;

/* Where the parts before it ended. */
typedef struct place {
    size_t event, item;
} place;

static void copy(part *own, const void *items, size_t count, size_t size) {
    if (!count) return;
    own->answer.items = malloc(count * size);
    if (!own->answer.items) {
        tb_no_memory(&own->error, true);
        return;
    }
    memcpy(own->answer.items, items, count * size);
    own->answer.count = count;
}

/* The results of a call's events, by its own indexes. */
static void copy_results(part *own, const tb_call *call, const tb_answer *answer, place *at) {
    const tb_event_result *rows = answer->items;
    size_t begin = at->item, end = at->event + call->count;
    while (at->item < answer->count && rows[at->item].index < end) at->item++;
    copy(own, rows + begin, at->item - begin, sizeof *rows);
    tb_event_result *made = own->answer.items;
    for (size_t row = 0; row < own->answer.count; row++) made[row].index -= (uint32_t)at->event;
}

/* The records of a call's ids. They come in the order of the ids. */
static void copy_records(part *own, const tb_call *call, const tb_answer *answer, place *at) {
    const uint8_t *records = answer->items;
    size_t begin = at->item;
    for (size_t id = 0; id < call->count && at->item < answer->count; id++) {
        const uint8_t *record = records + at->item * TB_RECORD_SIZE;
        if (!memcmp(call->items + id * TB_ID_SIZE, record, TB_ID_SIZE)) at->item++;
    }
    copy(own, records + begin * TB_RECORD_SIZE, at->item - begin, TB_RECORD_SIZE);
}

static part part_of(
    const tb_call *call, const tb_answer *answer, const tb_client_error *error, place *at) {
    part own = {{.operation = (uint8_t)call->operation}, {.code = TB_CLIENT_OK}};
    if (error)
        own.error = *error;
    else if (answer->count && creates(call->operation))
        copy_results(&own, call, answer, at);
    else if (answer->count)
        copy_records(&own, call, answer, at);
    at->event += call->count;
    return own;
}

void tb_queue_finish(
    tb_client *client, tb_calls calls, const tb_answer *answer, const tb_client_error *error) {
    place at = {0, 0};
    while (calls.first) {
        tb_call *call = shifted(&calls);
        part own = part_of(call, answer, error, &at);
        pthread_mutex_lock(&client->lock);
        if (call->is_left) {
            tb_answer_free(&own.answer);
        } else {
            call->answer = own.answer;
            call->error = own.error;
            ended(call);
        }
        pthread_mutex_unlock(&client->lock);
        tb_call_drop(call);
    }
}

void tb_queue_note(tb_worker *worker, const char *trouble) {
    pthread_mutex_lock(&worker->client->lock);
    snprintf(worker->trouble, sizeof worker->trouble, "%s", trouble);
    pthread_mutex_unlock(&worker->client->lock);
}

bool tb_queue_rest(tb_client *client, int64_t pause) {
    int64_t end = tb_after(tb_now(), pause);
    pthread_mutex_lock(&client->lock);
    while (!client->is_ended && tb_wait_until(&client->closed, &client->lock, end))
        ;
    bool goes_on = !client->is_ended;
    pthread_mutex_unlock(&client->lock);
    return goes_on;
}
