/* TLS by OpenSSL, over a socket that does not wait. */
#include <arpa/inet.h>
#include <errno.h>
#include <openssl/err.h>
#include <openssl/x509v3.h>
#include <poll.h>
#include <sys/socket.h>

#include "connection.h"

/* The bytes go through send and recv: a write to a connection that was closed must not end the
 * program by SIGPIPE. */

static int file_of(BIO *bio) { return (int)(intptr_t)BIO_get_data(bio); }

static int moved(BIO *bio, ssize_t count, int retry) {
    BIO_clear_retry_flags(bio);
    if (count < 0 && (errno == EAGAIN || errno == EINTR)) BIO_set_flags(bio, retry);
    return (int)count;
}

static int bio_write(BIO *bio, const char *bytes, int length) {
    ssize_t count = send(file_of(bio), bytes, (size_t)length, MSG_NOSIGNAL);
    return moved(bio, count, BIO_FLAGS_WRITE | BIO_FLAGS_SHOULD_RETRY);
}

static int bio_read(BIO *bio, char *bytes, int length) {
    ssize_t count = recv(file_of(bio), bytes, (size_t)length, 0);
    return moved(bio, count, BIO_FLAGS_READ | BIO_FLAGS_SHOULD_RETRY);
}

static long bio_control(BIO *bio, int command, long number, void *pointer) {
    (void)bio, (void)number, (void)pointer;
    return command == BIO_CTRL_FLUSH;
}

static BIO_METHOD *method;

static void make_method(void) {
    method = BIO_meth_new(BIO_get_new_index() | BIO_TYPE_SOURCE_SINK, "tb_client");
    if (!method) return;
    BIO_meth_set_write(method, bio_write);
    BIO_meth_set_read(method, bio_read);
    BIO_meth_set_ctrl(method, bio_control);
}

static BIO *bio_of(int fd) {
    static pthread_once_t once = PTHREAD_ONCE_INIT;
    pthread_once(&once, make_method);
    BIO *bio = method ? BIO_new(method) : NULL;
    if (bio) {
        BIO_set_data(bio, (void *)(intptr_t)fd);
        BIO_set_init(bio, 1);
    }
    return bio;
}

/* The last error of OpenSSL, as text. */
static void said(char *why) {
    unsigned long number = ERR_peek_last_error();
    const char *reason = ERR_reason_error_string(number);
    snprintf(why, TB_TEXT, "TLS: %s", reason ? reason : "the connection ended");
}

static tb_code wrong_file(tb_client_error *error, const char *field, const char *path) {
    char why[TB_TEXT];
    said(why);
    ERR_clear_error();
    return tb_invalid(error, field, "%.80s: %.120s", path, why);
}

static tb_code load(SSL_CTX *made, const tb_connect_options *options, tb_client_error *error) {
    if (!SSL_CTX_load_verify_locations(made, options->ca, NULL))
        return wrong_file(error, "ca", options->ca);
    if (!options->certificate) return TB_CLIENT_OK;
    if (!SSL_CTX_use_certificate_chain_file(made, options->certificate))
        return wrong_file(error, "certificate", options->certificate);
    const char *key = options->key ? options->key : options->certificate;
    if (!SSL_CTX_use_PrivateKey_file(made, key, SSL_FILETYPE_PEM))
        return wrong_file(error, "key", key);
    return TB_CLIENT_OK;
}

tb_code tb_tls_new(const tb_connect_options *options, SSL_CTX **tls, tb_client_error *error) {
    *tls = NULL;
    if (!options->ca) {
        if (!options->certificate && !options->key) return TB_CLIENT_OK;
        return tb_invalid(error, "ca", "a certificate or a key needs ca too");
    }
    SSL_CTX *made = SSL_CTX_new(TLS_client_method());
    if (!made) return tb_no_memory(error, false);
    SSL_CTX_set_min_proto_version(made, TLS1_2_VERSION);
    SSL_CTX_set_verify(made, SSL_VERIFY_PEER, NULL);
    SSL_CTX_set_mode(made, SSL_MODE_ENABLE_PARTIAL_WRITE | SSL_MODE_ACCEPT_MOVING_WRITE_BUFFER);
    tb_code code = load(made, options, error);
    if (code) {
        SSL_CTX_free(made);
        return code;
    }
    *tls = made;
    return TB_CLIENT_OK;
}

/* The host that the certificate has to name. */
static bool expect(SSL *ssl, const char *host) {
    uint8_t number[16];
    if (inet_pton(AF_INET, host, number) == 1 || inet_pton(AF_INET6, host, number) == 1)
        return X509_VERIFY_PARAM_set1_ip_asc(SSL_get0_param(ssl), host);
    return SSL_set_tlsext_host_name(ssl, host) && SSL_set1_host(ssl, host);
}

/* What a call waits for. */
static short events_of(SSL *ssl, int result) {
    switch (SSL_get_error(ssl, result)) {
    case SSL_ERROR_WANT_READ: return POLLIN;
    case SSL_ERROR_WANT_WRITE: return POLLOUT;
    default: return 0;
    }
}

tb_io tb_tls_agree(tb_connection *connection, const tb_address *address, SSL_CTX *tls,
    const tb_waits *waits, char *why) {
    SSL *ssl = connection->ssl = SSL_new(tls);
    BIO *bio = ssl ? bio_of(connection->fd) : NULL;
    if (bio) SSL_set_bio(ssl, bio, bio);
    if (!bio || !expect(ssl, address->host)) {
        snprintf(why, TB_TEXT, "TLS: out of memory");
        return TB_IO_BROKEN;
    }
    for (;;) {
        ERR_clear_error();
        int result = SSL_connect(ssl);
        if (result == 1) return TB_IO_DONE;
        short events = events_of(ssl, result);
        if (!events) return tb_tls_fault(ssl, why);
        tb_io io = tb_wait_for(waits, connection->fd, events, why);
        if (io) return io;
    }
}

int tb_tls_try_write(SSL *ssl, const void *bytes, size_t length, short *events) {
    size_t count = 0;
    ERR_clear_error();
    int result = SSL_write_ex(ssl, bytes, length, &count);
    *events = result ? 0 : events_of(ssl, result);
    return (int)count;
}

int tb_tls_try_read(SSL *ssl, void *bytes, size_t length, short *events) {
    size_t count = 0;
    ERR_clear_error();
    int result = SSL_read_ex(ssl, bytes, length, &count);
    *events = result ? 0 : events_of(ssl, result);
    return (int)count;
}

/* Whether an alert says that the server does not take this client's certificate, or requires one.
 * In TLS 1.3 it comes when the client has agreed, and may have sent a request, which is not read.
 */
static bool is_refusal(int reason) {
    switch (reason) {
    case SSL_R_SSLV3_ALERT_BAD_CERTIFICATE:
    case SSL_R_SSLV3_ALERT_CERTIFICATE_EXPIRED:
    case SSL_R_SSLV3_ALERT_CERTIFICATE_REVOKED:
    case SSL_R_SSLV3_ALERT_CERTIFICATE_UNKNOWN:
    case SSL_R_SSLV3_ALERT_HANDSHAKE_FAILURE: /* in TLS 1.2, if it requires a certificate */
    case SSL_R_SSLV3_ALERT_NO_CERTIFICATE:
    case SSL_R_SSLV3_ALERT_UNSUPPORTED_CERTIFICATE:
    case SSL_R_TLSV13_ALERT_CERTIFICATE_REQUIRED:
    case SSL_R_TLSV1_ALERT_ACCESS_DENIED:
    case SSL_R_TLSV1_ALERT_UNKNOWN_CA: return true;
    default: return false;
    }
}

tb_io tb_tls_fault(SSL *ssl, char *why) {
    unsigned long number = ERR_peek_last_error();
    long verified = SSL_get_verify_result(ssl);
    said(why);
    if (ERR_GET_LIB(number) == ERR_LIB_SSL && is_refusal(ERR_GET_REASON(number)))
        return TB_IO_REFUSED;
    if (verified == X509_V_OK) return TB_IO_BROKEN;
    snprintf(why, TB_TEXT, "TLS: %s", X509_verify_cert_error_string(verified));
    return TB_IO_DISTRUST;
}
