/* Addresses, as their text says them. */
#include "internal.h"

#define DEFAULT_HOST "127.0.0.1"
#define DEFAULT_PORT "3001"

void tb_addresses_free(tb_address *addresses, size_t count) {
    for (size_t at = 0; at < count; at++) {
        free(addresses[at].host);
        free(addresses[at].shown);
    }
    free(addresses);
}

/* Whether a text is a port from 1 to 65535, and nothing else. */
static bool is_port(const char *text) {
    tb_u128 number;
    return strlen(text) <= 5 && tb_u128_read(text, 16, &number) && number.low > 0;
}

/* Splits a host and a port in place. The brackets of [::1] go. */
static bool split(char *text, char **host, const char **port) {
    char *colon = strrchr(text, ':'), *end = text + strlen(text);
    *host = text;
    *port = DEFAULT_PORT;
    if (is_port(text)) {
        *host = end;
        *port = text;
    } else if (colon && end[-1] != ']') {
        *colon = 0;
        *port = colon + 1;
    }
    end = *host + strlen(*host);
    if (**host == '[' && end > *host + 1 && end[-1] == ']') {
        end[-1] = 0;
        ++*host;
        return is_port(*port) && **host && !strpbrk(*host, "[]");
    }
    return is_port(*port) && !strpbrk(*host, "[]:");
}

/* Reads one address. */
static tb_code read_one(char *text, tb_address *address, tb_client_error *error) {
    char *host = text;
    const char *port = "";
    address->shown = strdup(text);
    address->is_unix = strchr(text, '/') != NULL;
    if (!*text || (!address->is_unix && !split(text, &host, &port)))
        return tb_invalid(error, "address",
            "\"%.60s\" is no address: write a port, HOST, HOST:PORT, or a path with a slash",
            address->shown ? address->shown : "");
    snprintf(address->port, sizeof address->port, "%s", port);
    address->host = strdup(*host ? host : DEFAULT_HOST);
    return address->host && address->shown ? TB_CLIENT_OK : tb_no_memory(error, false);
}

/* Cuts the spaces around a text. */
static char *trimmed(char *text) {
    while (*text == ' ') text++;
    char *end = text + strlen(text);
    while (end > text && end[-1] == ' ') *--end = 0;
    return text;
}

tb_code tb_addresses_read(
    const char *text, tb_address **addresses, size_t *count, tb_client_error *error) {
    size_t most = 1;
    for (const char *at = text; *at; at++) most += *at == ',';
    char *copy = strdup(text);
    *addresses = calloc(most, sizeof **addresses);
    *count = 0;
    tb_code code = copy && *addresses ? TB_CLIENT_OK : tb_no_memory(error, false);
    for (char *rest = copy, *one; !code && (one = strsep(&rest, ","));)
        code = read_one(trimmed(one), &(*addresses)[(*count)++], error);
    free(copy);
    if (code) {
        tb_addresses_free(*addresses, *count);
        *addresses = NULL;
        *count = 0;
    }
    return code;
}
