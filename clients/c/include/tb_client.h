/**
 * @file tb_client.h
 * A client of a ledger in C: over a Unix socket, TCP or TLS.
 *
 * tb_client is what most programs want: threads share it, it registers by itself, packs what waits
 * into requests, and sends again until the reply is there. tb_session is one session that outlives
 * the program, in a file. Both are over the proved session of tb_embed.h (`tb_caller`).
 *
 * Records, flags, results and their names are those of tb_embed.h. Times are nanoseconds.
 * Functions may be called by several threads at once, on one object too, except those that free it.
 */
#ifndef TB_CLIENT_H
#define TB_CLIENT_H

#include <stdbool.h>
#include <stddef.h>
#include <stdint.h>

#include "tb_embed.h"

#ifdef __cplusplus
extern "C" {
#endif

#define TB_CLIENT_API __attribute__((visibility("default")))

#define TB_MILLISECOND INT64_C(1000000)
#define TB_SECOND INT64_C(1000000000)
/** A limit that never ends. */
#define TB_NO_LIMIT INT64_MAX

/** What a call returns. */
enum tb_client_code {
    TB_CLIENT_OK = 0,
    /** a value is out of range: `field` names it. Nothing was sent */
    TB_CLIENT_INVALID = 1,
    /** the session's last request has no reply yet. Nothing was sent */
    TB_CLIENT_IN_DOUBT = 2,
    /** there is nothing to send again */
    TB_CLIENT_NOTHING_IN_DOUBT = 3,
    /** it was closed. Nothing was sent */
    TB_CLIENT_CLOSED = 4,
    /** no address could be connected to in time, or TLS was not agreed on. Nothing was sent */
    TB_CLIENT_CANNOT_CONNECT = 5,
    /** no reply came: the request may have been executed */
    TB_CLIENT_REPLY_LOST = 6,
    /** the same, and the server said to come later */
    TB_CLIENT_BUSY = 7,
    /** what came is no reply to this request, which may have been executed */
    TB_CLIENT_BAD_REPLY = 8,
    /** a refusal, whose name `status` has. It says nothing of an earlier sending */
    TB_CLIENT_REFUSED = 9,
    /** the caller's own limit ended the call, or the caller left: `sent` says what may be */
    TB_CLIENT_CANCELLED = 10,
    /** the system refused a file: `system` is its errno */
    TB_CLIENT_FILE = 11,
    /** out of memory: `sent` says whether the request may have been executed */
    TB_CLIENT_NO_MEMORY = 12,
    /** events were not accepted (tb_client_require_ok) */
    TB_CLIENT_EVENTS_FAILED = 13,
    /** tbd, which serves an opened file, ended by a fault: `told` names it, `status` is its exit
     * status, `sent` says whether the request may have been executed. A later call starts it again
     */
    TB_CLIENT_PROGRAM_ENDED = 14,
    /** the file is open elsewhere: by the process `owner`, if the system says so. Nothing was sent
     */
    TB_CLIENT_LOCKED = 15,
    /** tbd is not there, or does not start. Nothing was sent */
    TB_CLIENT_CANNOT_START = 16,
    /** the ledger's last time is far ahead of this computer's clock. Nothing was sent */
    TB_CLIENT_CLOCK_JUMPED = 17
};

/** What was wrong with a call. Each function takes a place for it, which may be null. */
typedef struct tb_client_error {
    enum tb_client_code code;
    bool sent;      /**< the request may have been sent */
    bool final;     /**< of CANNOT_CONNECT: one side does not trust the other, now and later */
    uint8_t status; /**< of REFUSED: tb_reply_status; of PROGRAM_ENDED and LOCKED: tbd's */
    int system;     /**< of FILE: errno */
    int64_t owner;  /**< of LOCKED: a process, or 0 */
    char field[32]; /**< of INVALID: the value's name */
    char told[32];  /**< of REPLY_LOST and BUSY: the name that the server gave, or "" */
    char text[232]; /**< a sentence */
} tb_client_error;

/** The name of a code, in words. */
TB_CLIENT_API const char *tb_client_strerror(enum tb_client_code code);

/** TB_CLIENT_OK if no event failed, otherwise TB_CLIENT_EVENTS_FAILED. */
TB_CLIENT_API enum tb_client_code tb_client_require_ok(size_t failed, tb_client_error *error);

/** A new id: 48 bits of milliseconds since 1970, then 80 random ones. It is above each earlier one
 * of this process. Choose it before the first sending, and keep it: a retry uses the same one. */
TB_CLIENT_API tb_u128 tb_id(void);

/** A maker of ids, {0} at first, for a program with a clock or random bytes of its own. */
typedef struct tb_ids {
    tb_u128 last;
} tb_ids;

/** The next id of a maker at a time in milliseconds. `random` fills 10 bytes, and is called if the
 * time is above that of the last id. Not for several threads at once. */
TB_CLIENT_API tb_u128 tb_ids_next(tb_ids *ids, uint64_t milliseconds,
    void (*random)(void *context, uint8_t *bytes), void *context);

/** How to reach a server. TB_CONNECT_OPTIONS has the defaults. */
typedef struct tb_connect_options {
    int64_t timeout;         /**< that one sending may take */
    const char *ca;          /**< a PEM file: TLS with servers that these authorities certify */
    const char *certificate; /**< the client's own, with its key */
    const char *key;
} tb_connect_options;

#define TB_CONNECT_OPTIONS \
    { 5 * TB_SECOND, NULL, NULL, NULL }

/* A client that threads share */

/** A client that threads share. */
typedef struct tb_client tb_client;

/** Options of a client. TB_CLIENT_OPTIONS has the defaults. */
typedef struct tb_client_options {
    tb_connect_options connect;
    int sessions; /**< requests in flight at once, 1 to 64; with 1 in the order of the calls */
} tb_client_options;

#define TB_CLIENT_OPTIONS \
    { TB_CONNECT_OPTIONS, 1 }

/** Makes a client. An address is a port ("3001"), HOST, HOST:PORT, or the path of a Unix socket,
 * which has a slash; several, with commas between, serve one ledger. It connects when it is first
 * asked. `options` may be null. */
TB_CLIENT_API enum tb_client_code tb_client_connect(const char *addresses,
    const tb_client_options *options, tb_client **client, tb_client_error *error);

/** Options of a ledger in a file. TB_OPEN_OPTIONS has the defaults. */
typedef struct tb_open_options {
    const char *program;      /**< the path of tbd; null: that of the variable TBD, or on PATH */
    int clients_max, profile; /**< the rules by which a file is made, and was */
    bool existing;            /**< make no file: one that is not there is a fault */
    bool drop_torn;           /**< cut off torn bytes at a start without a copy of them */
    int64_t lock_timeout;     /**< for which a file is waited that another process has open */
    int64_t ahead_max;        /**< of the ledger's time before this computer's clock; -1: any */
    int64_t limit;            /**< until the file was read */
    /** gets the lines that say what a start did to the file; null: they go to standard error */
    void (*report)(void *context, const char *line);
    /** gets how many MB of how many were read of a large file, and at the end all; may be null */
    void (*progress)(void *context, unsigned done, unsigned size);
    void *context; /**< of both, which the thread of a call or of the client calls */
} tb_open_options;

#define TB_OPEN_OPTIONS                                                                          \
    {                                                                                            \
        NULL, TB_CLIENTS_MAX, 1, false, false, 5 * TB_SECOND, 60 * TB_SECOND, TB_NO_LIMIT, NULL, \
            NULL, NULL                                                                           \
    }

/** Opens the ledger in a file, which is made if it is not there, once the file was read. tbd serves
 * it as a child of this process. If the child is killed it is started again, and a call that waits
 * gets its first reply; it ends with this process, also if that is killed. Moments are the
 * system's, and never fall. `options` may be null. */
TB_CLIENT_API enum tb_client_code tb_client_open(
    const char *path, const tb_open_options *options, tb_client **client, tb_client_error *error);

/** Creates accounts. `results` has room for `count` rows; `failed` is how many were not created.
 * The call ends within `limit` nanoseconds. */
TB_CLIENT_API enum tb_client_code tb_client_create_accounts(tb_client *client,
    const tb_account *accounts, size_t count, tb_event_result *results, size_t *failed,
    int64_t limit, tb_client_error *error);

/** Makes transfers, as tb_client_create_accounts does. */
TB_CLIENT_API enum tb_client_code tb_client_create_transfers(tb_client *client,
    const tb_transfer *transfers, size_t count, tb_event_result *results, size_t *failed,
    int64_t limit, tb_client_error *error);

/** Looks accounts up: those that exist, in the order of the ids. `accounts` has room for `count`.
 */
TB_CLIENT_API enum tb_client_code tb_client_lookup_accounts(tb_client *client, const tb_u128 *ids,
    size_t count, tb_account *accounts, size_t *found, int64_t limit, tb_client_error *error);

/** Looks transfers up, as tb_client_lookup_accounts does. */
TB_CLIENT_API enum tb_client_code tb_client_lookup_transfers(tb_client *client, const tb_u128 *ids,
    size_t count, tb_transfer *transfers, size_t *found, int64_t limit, tb_client_error *error);

/** What a reply says. */
typedef struct tb_answer {
    uint8_t operation; /**< tb_operation */
    uint64_t session;  /**< of a register: the new session */
    size_t count;      /**< of results, accounts or transfers */
    void *items;       /**< tb_event_result, tb_account or tb_transfer, by the operation */
} tb_answer;

/** Frees an answer's items. */
TB_CLIENT_API void tb_answer_free(tb_answer *answer);

/** A call that goes on while its caller does other work. */
typedef struct tb_call tb_call;

/** Begins a call: of accounts, transfers or ids, which are copied. */
TB_CLIENT_API enum tb_client_code tb_client_begin(tb_client *client, enum tb_operation operation,
    const void *items, size_t count, tb_call **call, tb_client_error *error);

/** Waits until a call has its answer. At the end of the limit the caller leaves. One thread waits,
 * once. */
TB_CLIENT_API enum tb_client_code tb_call_wait(
    tb_call *call, int64_t limit, tb_answer *answer, tb_client_error *error);

/** The caller leaves: who waits gets TB_CLIENT_CANCELLED. A list that was not sent is not. */
TB_CLIENT_API void tb_call_leave(tb_call *call);

/** Frees a call, whose caller leaves if it has not. */
TB_CLIENT_API void tb_call_free(tb_call *call);

/** Closes a client: requests in flight are waited for, as long as one sending may take; calls of
 * which nothing was sent are TB_CLIENT_CLOSED. */
TB_CLIENT_API void tb_client_close(tb_client *client);

/** Closes and frees a client, in which no call is any more. Null is none. */
TB_CLIENT_API void tb_client_free(tb_client *client);

/* A session that is stored */

/** A connection to a server, which sessions share. */
typedef struct tb_transport tb_transport;

/** Makes a transport. It connects when a request is to be sent. */
TB_CLIENT_API enum tb_client_code tb_transport_new(const char *addresses,
    const tb_connect_options *options, tb_transport **transport, tb_client_error *error);

/** Closes a transport: a call that goes on ends, each later one is TB_CLIENT_CLOSED. */
TB_CLIENT_API void tb_transport_close(tb_transport *transport);

/** Closes and frees a transport, whose sessions were freed before. Null is none. */
TB_CLIENT_API void tb_transport_free(tb_transport *transport);

/** A session: one request in flight, and its frame is kept until the reply is there. */
typedef struct tb_session tb_session;

/** Options of a session. TB_SESSION_OPTIONS has the defaults. */
typedef struct tb_session_options {
    const tb_u128 *client; /**< the client's id, which no other client has; null: a new one */
    int attempts;          /**< sendings in one call, if no reply comes */
    int64_t pause;         /**< before the second one if the server said to come later */
} tb_session_options;

#define TB_SESSION_OPTIONS \
    { NULL, 5, 50 * TB_MILLISECOND }

/** What outlives a client, in its file. */
typedef struct tb_saved {
    tb_u128 client;
    uint64_t session;
    uint32_t number; /**< of the last request that has its reply */
    const uint8_t *pending;
    size_t length; /**< of pending, the frame of the request in doubt; 0: there is none */
} tb_saved;

/** Makes a session that is not registered, and sends nothing. */
TB_CLIENT_API enum tb_client_code tb_session_new(tb_transport *transport,
    const tb_session_options *options, tb_session **session, tb_client_error *error);

/** Goes on with what was saved. A request in doubt is first sent again: tb_session_retry. */
TB_CLIENT_API enum tb_client_code tb_session_resume(tb_transport *transport, const tb_saved *saved,
    const tb_session_options *options, tb_session **session, tb_client_error *error);

/** Goes on with what tb_session_save left in a file. */
TB_CLIENT_API enum tb_client_code tb_session_load(tb_transport *transport, const char *path,
    const tb_session_options *options, tb_session **session, tb_client_error *error);

/** Frees a session, in which no call is any more. Its transport stays. Null is none. */
TB_CLIENT_API void tb_session_free(tb_session *session);

/** The client's id. */
TB_CLIENT_API tb_u128 tb_session_client(const tb_session *session);

/** The transport that a session was made with. */
TB_CLIENT_API tb_transport *tb_session_transport(const tb_session *session);

/** Makes the next request, which is in doubt from then on, and sends nothing: save, then retry.
 * `items` are copied. A register has none. */
TB_CLIENT_API enum tb_client_code tb_session_prepare(tb_session *session,
    enum tb_operation operation, const void *items, size_t count, tb_client_error *error);

/** Sends the request in doubt, the same bytes each time, until its reply is there, as often as the
 * session's attempts. Whatever the error, it stays in doubt. */
TB_CLIENT_API enum tb_client_code tb_session_retry(
    tb_session *session, int64_t limit, tb_answer *answer, tb_client_error *error);

/** Prepares and sends in one call. If nothing was sent, it is as if it had not been called. */
TB_CLIENT_API enum tb_client_code tb_session_ask(tb_session *session, enum tb_operation operation,
    const void *items, size_t count, int64_t limit, tb_answer *answer, tb_client_error *error);

/** Copies the session as it is. Free it by tb_saved_free. */
TB_CLIENT_API enum tb_client_code tb_session_saved(
    tb_session *session, tb_saved *saved, tb_client_error *error);

/** Frees what tb_session_saved copied. */
TB_CLIENT_API void tb_saved_free(tb_saved *saved);

/** Puts the session into a file, whole and durably: after a crash the file has it as it is now, or
 * as it was. */
TB_CLIENT_API enum tb_client_code tb_session_save(
    tb_session *session, const char *path, tb_client_error *error);

#ifdef __cplusplus
}
#endif
#endif
