/* A client that threads share: calls that wait, and the workers that answer them. */
#ifndef TB_SHARED_H
#define TB_SHARED_H

#include <semaphore.h>
#include <stdatomic.h>

#include "internal.h"

#define SESSIONS_MAX TB_CLIENTS_MAX

/* What one caller asks for, and its answer. The client's lock is needed for what is below it. */
struct tb_call {
    tb_client *client;
    enum tb_operation operation;
    size_t count;
    atomic_int users; /* the caller, and the queue or a worker */
    sem_t done;       /* is up when the answer is there, or the caller has left */

    bool is_sent, is_left, is_done;
    tb_answer answer;
    tb_client_error error; /* its code is TB_CLIENT_OK with an answer */
    tb_call *next;
    uint8_t items[];
};

/* The time before each next sending. A first lost reply is followed at once. */
typedef struct tb_patience {
    int64_t pause;
    bool is_begun;
} tb_patience;

/* Serves calls over a session of its own, which it registers when it needs one. */
typedef struct tb_worker {
    tb_client *client;
    pthread_t thread;
    tb_transport *transport;
    tb_session *session;
    tb_patience absence;   /* with a server that is not there */
    char trouble[TB_TEXT]; /* why no reply came of late. The client's lock is needed */
} tb_worker;

typedef struct tb_calls {
    tb_call *first, *last;
} tb_calls;

struct tb_client {
    char *addresses;
    tb_connect_options connect; /* with copies of its texts */
    size_t sessions;

    pthread_mutex_t lock;   /* of what follows */
    pthread_cond_t changed; /* there is a call, or the client is closed */
    pthread_cond_t closed;  /* the client is closed */
    tb_calls waiting;
    size_t waits; /* calls that wait */
    size_t idle;  /* workers */
    bool is_ended, is_joined;
    size_t count;
    tb_worker workers[SESSIONS_MAX];
};

void *tb_worker_run(void *worker);

/* The lists of calls that go out together. */
typedef struct tb_batch {
    enum tb_operation operation;
    tb_calls calls;
    tb_list *lists;
    size_t count; /* of lists */
} tb_batch;

/* The client is locked for these three. */
void tb_queue_add(tb_client *client, tb_call *call);
/* The caller leaves, if the call is not done. */
void tb_queue_leave(tb_call *call);
/* Ends the calls of which nothing was sent. */
void tb_queue_drop_waiting(tb_client *client);

/* Waits until there is a call. Whether the client goes on. */
bool tb_queue_wait(tb_client *client);
/* Takes the next calls that one request can hold. A list is never cut, and no call is joined to one
 * that ends in an open chain. */
tb_calls tb_queue_take(tb_client *client);
/* Puts calls back of which nothing was sent, first in the queue. */
void tb_queue_give_back(tb_client *client, tb_calls calls);
/* Gives calls the parts of an answer that are theirs, or all of them an error. */
void tb_queue_finish(
    tb_client *client, tb_calls calls, const tb_answer *answer, const tb_client_error *error);
void tb_queue_note(tb_worker *worker, const char *trouble);
/* Waits. Whether the client goes on. */
bool tb_queue_rest(tb_client *client, int64_t pause);
void tb_call_drop(tb_call *call);

/* Chains that may have been executed before */

typedef struct tb_chain {
    size_t first, end;
} tb_chain;

/* Those of a create that was sent again, in a new session. */
typedef struct tb_doubtful {
    enum tb_operation operation;
    uint8_t *events;
    size_t count;
    tb_chain *chains;
    size_t chain_count;
    tb_u128 *ids; /* of their events */
    size_t id_count;
} tb_doubtful;

/* The chains whose first event exists and whose others failed with it. */
tb_code tb_doubtful_of(enum tb_operation operation, const tb_list *lists, size_t count,
    const tb_answer *answer, tb_doubtful *doubtful, tb_client_error *error);
/* Sets the results of those chains whose events are all as they were asked for: each exists. */
void tb_doubtful_settle(const tb_doubtful *doubtful, const tb_answer *found, tb_answer *answer);
void tb_doubtful_free(tb_doubtful *doubtful);

#endif
