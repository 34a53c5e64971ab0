/* What the parts of the client share. */
#ifndef TB_INTERNAL_H
#define TB_INTERNAL_H

#include <pthread.h>
#include <stdio.h>
#include <stdlib.h>

#include "tb_client.h"

typedef enum tb_client_code tb_code;

#define TB_TEXT 160 /* bytes of a cause */

/* Errors */

/* Fills an error, and returns its code. */
__attribute__((format(printf, 4, 5))) tb_code tb_fail(
    tb_client_error *error, tb_code code, bool sent, const char *format, ...);
/* A value that is out of range. */
__attribute__((format(printf, 3, 4))) tb_code tb_invalid(
    tb_client_error *error, const char *field, const char *format, ...);
/* A file that the system refused, by errno. */
tb_code tb_fail_file(tb_client_error *error, const char *path);
tb_code tb_no_memory(tb_client_error *error, bool sent);

/* Time */

int64_t tb_now(void);                            /* of a clock that is never set */
int64_t tb_after(int64_t start, int64_t length); /* TB_NO_LIMIT if it never comes */
/* What a pause becomes the next time. */
int64_t tb_doubled(int64_t pause, int64_t most);
int tb_condition_init(pthread_cond_t *condition);
/* Waits for a condition. Whether the time is not over. */
bool tb_wait_until(pthread_cond_t *condition, pthread_mutex_t *lock, int64_t deadline);

/* Numbers */

#define TB_DIGITS 40 /* of a number of 128 bits, and the end */

/* Writes a number's digits, and returns the text. */
const char *tb_u128_text(tb_u128 number, char *text);
/* Reads digits alone: whether they are a number of at most so many bits. */
bool tb_u128_read(const char *text, unsigned bits, tb_u128 *number);

/* Addresses */

typedef struct tb_address {
    bool is_unix;
    char *host; /* or the path */
    char port[6];
    char *shown;
} tb_address;

tb_code tb_addresses_read(
    const char *text, tb_address **addresses, size_t *count, tb_client_error *error);
void tb_addresses_free(tb_address *addresses, size_t count);

/* Requests and replies */

/* What takes a reply. */
typedef struct tb_receiver {
    /* whether a reply may be this request's: its header, as of a reply without a body */
    bool (*begins)(void *context, const uint8_t *header);
    /* takes a whole reply: whether it was this request's */
    bool (*takes)(void *context, const uint8_t *reply, size_t length);
    void *context;
} tb_receiver;

/* Sends a request and takes its reply. `limit` is the moment at which the call ends. */
tb_code tb_transport_exchange(tb_transport *transport, const uint8_t *frame, size_t length,
    int64_t limit, const tb_receiver *receiver, tb_client_error *error);
/* A transport to a ledger in a file, which is read by then. */
tb_code tb_transport_of_file(const char *path, const tb_open_options *options,
    tb_transport **transport, tb_client_error *error);
/* Kills the child of one to a file. */
void tb_transport_kill(tb_transport *transport);
/* Each later connecting is TB_CLIENT_CLOSED; a request in flight is waited for. */
void tb_transport_connect_no_more(tb_transport *transport);

/* What is wrong with the body of a reply to a request, or null. */
const char *tb_body_fault(const uint8_t *request, size_t length, const tb_reply *reply);
/* What a reply says, copied. */
tb_code tb_answer_of(const tb_reply *reply, tb_answer *answer, tb_client_error *error);

/* Sessions */

/* Several lists that go out as one request. */
typedef struct tb_list {
    const void *items;
    size_t count;
} tb_list;

tb_code tb_session_ask_lists(tb_session *session, enum tb_operation operation, const tb_list *lists,
    size_t count, int64_t limit, tb_answer *answer, tb_client_error *error);
bool tb_session_is_registered(tb_session *session);
bool tb_session_is_in_doubt(tb_session *session);
bool tb_is_later(const tb_client_error *error); /* the server said to come later */
/* The error of a call whose first sending had no reply, and whose next one sent nothing. */
tb_code tb_not_again(tb_client_error *error, const char *before);

/* Does nothing: a linker that meets tb_embed's library later has its memory by then. */
void tb_heap_is_linked(void);

/* Files */

tb_code tb_saved_read(const char *path, tb_saved *saved, tb_client_error *error);
tb_code tb_saved_write(const char *path, const tb_saved *saved, tb_client_error *error);

#endif
