/* A connection to a server, whose calls end at a moment or when they are woken. */
#ifndef TB_CONNECTION_H
#define TB_CONNECTION_H

#include <openssl/ssl.h>

#include "internal.h"

typedef enum tb_io {
    TB_IO_DONE,
    TB_IO_LATE,     /* the moment came */
    TB_IO_WOKEN,    /* the transport was closed */
    TB_IO_BROKEN,   /* the connection broke or ended, or could not be made */
    TB_IO_REFUSED,  /* the server refuses this client by an alert of TLS */
    TB_IO_DISTRUST, /* the server's certificate is not one to be trusted */
} tb_io;

/* Until when something is waited for, and what ends it before: files that can be read then. */
typedef struct tb_waits {
    int64_t deadline;
    int woken[2]; /* -1 for none */
} tb_waits;

typedef struct tb_connection {
    int fd; /* -1: there is none */
    SSL *ssl;
    bool is_used; /* a reply came over it */
} tb_connection;

/* Waits until a file is ready for poll's events; with fd -1 until the time is over. */
tb_io tb_wait_for(const tb_waits *waits, int fd, short events, char *why);
/* Connects to an address. `why` gets the cause of a failure, in TB_TEXT bytes, as below. */
tb_io tb_connection_open(tb_connection *connection, const tb_address *address, SSL_CTX *tls,
    const tb_waits *waits, char *why);
/* Closes it at once. */
void tb_connection_close(tb_connection *connection);
tb_io tb_connection_write(tb_connection *connection, const uint8_t *bytes, size_t length,
    const tb_waits *waits, char *why);
/* Reads so many bytes. `got` is how many came. */
tb_io tb_connection_read(tb_connection *connection, uint8_t *bytes, size_t length, size_t *got,
    const tb_waits *waits, char *why);
/* Whether the server closed it, or said something: it says nothing before it is asked. */
bool tb_connection_is_left(tb_connection *connection);

/* What TLS needs for these options. Null options are no TLS. */
tb_code tb_tls_new(const tb_connect_options *options, SSL_CTX **tls, tb_client_error *error);
/* Agrees on TLS over a connection's file. */
tb_io tb_tls_agree(tb_connection *connection, const tb_address *address, SSL_CTX *tls,
    const tb_waits *waits, char *why);
/* One try to write or to read over TLS: how many bytes went, or 0, and what to wait for. Events of
 * 0 say that it failed. */
int tb_tls_try_write(SSL *ssl, const void *bytes, size_t length, short *events);
int tb_tls_try_read(SSL *ssl, void *bytes, size_t length, short *events);
/* Why a call over TLS failed. */
tb_io tb_tls_fault(SSL *ssl, char *why);

#endif
