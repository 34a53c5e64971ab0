/* A ledger in a file, which tbd serves as a child of this process over a pair of sockets. */
#ifndef TB_LEDGER_H
#define TB_LEDGER_H

#include "connection.h"

/* They begin with the clock, or with the ledger's last time if that is later. They never fall, and
 * grow by no more than the time that goes by and a thousandth of it, by a clock that nobody sets:
 * a clock that is set far ahead does not take the ledger along. */
typedef struct tb_moments {
    int64_t last, at;
} tb_moments;

int64_t tb_wall_now(void);
void tb_moments_go_on(tb_moments *moments, int64_t last);
int64_t tb_moments_next(tb_moments *moments);

/* The process that has a file locked, or 0 if the system does not say. */
int64_t tb_owner_of(const char *path);

typedef struct tb_ledger tb_ledger;

/* Finds tbd and copies what is given; starts nothing. */
tb_code tb_ledger_new(
    const char *path, const tb_open_options *options, tb_ledger **ledger, tb_client_error *error);
/* Ends the child's input, and waits for its end. */
void tb_ledger_end(tb_ledger *ledger, tb_connection *connection);
/* Frees one without a child. Null is none. */
void tb_ledger_free(tb_ledger *ledger);

/* Has a child that serves over the connection, once, as often as it is killed at its start. */
tb_code tb_ledger_open(
    tb_ledger *ledger, tb_connection *connection, const tb_waits *waits, tb_client_error *error);
/* Has a child that serves over the connection: a new one if there is none. */
tb_code tb_ledger_serve(
    tb_ledger *ledger, tb_connection *connection, const tb_waits *waits, tb_client_error *error);
/* The moment of the next request. */
int64_t tb_ledger_moment(tb_ledger *ledger);
/* Drops a child that broke the connection, and says why it ended. */
tb_code tb_ledger_lost(
    tb_ledger *ledger, tb_connection *connection, bool sent, tb_client_error *error);
/* Kills the child: what waits for it ends. */
void tb_ledger_kill(tb_ledger *ledger);
#endif
