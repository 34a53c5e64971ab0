/* A connection over a socket that does not wait. */
#include "connection.h"

#include <errno.h>
#include <fcntl.h>
#include <limits.h>
#include <netdb.h>
#include <netinet/in.h>
#include <netinet/tcp.h>
#include <poll.h>
#include <sys/socket.h>
#include <sys/un.h>
#include <unistd.h>

static tb_io broken(int number, char *why) {
    char room[TB_TEXT];
    snprintf(why, TB_TEXT, "%s", strerror_r(number, room, sizeof room));
    return TB_IO_BROKEN;
}

static tb_io late(char *why) {
    snprintf(why, TB_TEXT, "the time is over");
    return TB_IO_LATE;
}

/* Milliseconds until a moment, rounded up, for poll. */
static int left_until(int64_t deadline, int64_t now) {
    if (deadline == TB_NO_LIMIT) return -1;
    int64_t left = (deadline - now + TB_MILLISECOND - 1) / TB_MILLISECOND;
    return left < INT_MAX ? (int)left : INT_MAX;
}

tb_io tb_wait_for(const tb_waits *waits, int fd, short events, char *why) {
    struct pollfd files[] = {
        {fd, events, 0}, {waits->woken[0], POLLIN, 0}, {waits->woken[1], POLLIN, 0}};
    for (;;) {
        int64_t now = tb_now();
        if (now >= waits->deadline) return late(why);
        int count = poll(files, 3, left_until(waits->deadline, now));
        if (count < 0 && errno != EINTR) return broken(errno, why);
        if (count <= 0) continue;
        if (files[1].revents || files[2].revents) {
            snprintf(why, TB_TEXT, "it was closed meanwhile");
            return TB_IO_WOKEN;
        }
        return TB_IO_DONE;
    }
}

/* Connects a socket. */
static tb_io connected(
    int fd, const struct sockaddr *to, socklen_t length, const tb_waits *waits, char *why) {
    if (connect(fd, to, length) == 0) return TB_IO_DONE;
    if (errno == EAGAIN) return broken(errno, why); /* of a Unix socket: its queue is full */
    if (errno != EINPROGRESS && errno != EINTR) return broken(errno, why);
    tb_io io = tb_wait_for(waits, fd, POLLOUT, why);
    if (io) return io;
    int fault = 0;
    socklen_t size = sizeof fault;
    if (getsockopt(fd, SOL_SOCKET, SO_ERROR, &fault, &size)) fault = errno;
    return fault ? broken(fault, why) : TB_IO_DONE;
}

/* Makes a socket and connects it. */
static tb_io dialled(tb_connection *connection, int family, const struct sockaddr *to,
    socklen_t length, const tb_waits *waits, char *why) {
    connection->fd = socket(family, SOCK_STREAM | SOCK_NONBLOCK | SOCK_CLOEXEC, 0);
    if (connection->fd < 0) return broken(errno, why);
    tb_io io = connected(connection->fd, to, length, waits, why);
    if (io) tb_connection_close(connection);
    return io;
}

static tb_io dial_unix(
    tb_connection *connection, const char *path, const tb_waits *waits, char *why) {
    struct sockaddr_un to = {.sun_family = AF_UNIX};
    size_t length = strlen(path);
    if (length >= sizeof to.sun_path) return broken(ENAMETOOLONG, why);
    memcpy(to.sun_path, path, length);
    return dialled(connection, AF_UNIX, (struct sockaddr *)&to, sizeof to, waits, why);
}

/* Connects to a host, at each of its addresses in turn. */
static tb_io dial_host(
    tb_connection *connection, const tb_address *address, const tb_waits *waits, char *why) {
    struct addrinfo wanted = {.ai_socktype = SOCK_STREAM, .ai_flags = AI_NUMERICSERV}, *found;
    int fault = getaddrinfo(address->host, address->port, &wanted, &found), one = 1;
    if (fault) {
        snprintf(why, TB_TEXT, "%s", gai_strerror(fault));
        return TB_IO_BROKEN;
    }
    tb_io io = TB_IO_BROKEN;
    for (struct addrinfo *at = found; at; at = at->ai_next) {
        io = dialled(connection, at->ai_family, at->ai_addr, at->ai_addrlen, waits, why);
        if (io != TB_IO_BROKEN) break;
    }
    freeaddrinfo(found);
    if (!io) setsockopt(connection->fd, IPPROTO_TCP, TCP_NODELAY, &one, sizeof one);
    return io;
}

tb_io tb_connection_open(tb_connection *connection, const tb_address *address, SSL_CTX *tls,
    const tb_waits *waits, char *why) {
    *connection = (tb_connection){.fd = -1};
    tb_io io = address->is_unix ? dial_unix(connection, address->host, waits, why)
                                : dial_host(connection, address, waits, why);
    if (!io && tls) io = tb_tls_agree(connection, address, tls, waits, why);
    if (io) tb_connection_close(connection);
    return io;
}

void tb_connection_close(tb_connection *connection) {
    SSL_free(connection->ssl);
    if (connection->fd >= 0) close(connection->fd);
    *connection = (tb_connection){.fd = -1};
}

/* Why a try moved nothing: 0 events say that it failed. */
static tb_io waited(
    tb_connection *connection, short events, const tb_waits *waits, int number, char *why) {
    if (events) return tb_wait_for(waits, connection->fd, events, why);
    if (connection->ssl) return tb_tls_fault(connection->ssl, why);
    if (number) return broken(number, why);
    snprintf(why, TB_TEXT, "the server closed the connection");
    return TB_IO_BROKEN;
}

static bool may_come(int number) {
    return number == EAGAIN || number == EWOULDBLOCK || number == EINTR;
}

static ssize_t try_write(
    tb_connection *connection, const uint8_t *bytes, size_t length, short *events) {
    if (connection->ssl) return tb_tls_try_write(connection->ssl, bytes, length, events);
    ssize_t moved = send(connection->fd, bytes, length, MSG_NOSIGNAL);
    *events = moved < 0 && may_come(errno) ? POLLOUT : 0;
    return moved;
}

static ssize_t try_read(tb_connection *connection, uint8_t *bytes, size_t length, short *events) {
    if (connection->ssl) return tb_tls_try_read(connection->ssl, bytes, length, events);
    ssize_t moved = recv(connection->fd, bytes, length, 0);
    *events = moved < 0 && may_come(errno) ? POLLIN : 0;
    return moved;
}

tb_io tb_connection_write(tb_connection *connection, const uint8_t *bytes, size_t length,
    const tb_waits *waits, char *why) {
    for (size_t at = 0; at < length;) {
        short events;
        ssize_t moved = try_write(connection, bytes + at, length - at, &events);
        if (moved > 0) {
            at += (size_t)moved;
            continue;
        }
        tb_io io = waited(connection, events, waits, moved < 0 ? errno : 0, why);
        if (io) return io;
    }
    return TB_IO_DONE;
}

tb_io tb_connection_read(tb_connection *connection, uint8_t *bytes, size_t length, size_t *got,
    const tb_waits *waits, char *why) {
    for (*got = 0; *got < length;) {
        short events;
        ssize_t moved = try_read(connection, bytes + *got, length - *got, &events);
        if (moved > 0) {
            *got += (size_t)moved;
            if (*got < length && tb_now() >= waits->deadline) return late(why);
            continue;
        }
        tb_io io = waited(connection, events, waits, moved < 0 ? errno : 0, why);
        if (io) return io;
    }
    return TB_IO_DONE;
}

bool tb_connection_is_left(tb_connection *connection) {
    uint8_t byte;
    short events;
    ssize_t moved = try_read(connection, &byte, 1, &events);
    return moved > 0 || events != POLLIN;
}
