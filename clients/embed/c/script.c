/* Serves a script of pairs, a moment and the frame of a request each, from standard input, and
 * writes the replies to standard output: what `tbs run CLIENTS_MAX [PROFILE]` does, in C. */
#include "../tb_embed.h"

#include <ctype.h>
#include <stdio.h>
#include <stdlib.h>
#include <string.h>

static uint8_t request[TB_REQUEST_MAX], reply[TB_REPLY_MAX];

/* The number of a word, or 0, which no call takes. */
static uint32_t number(const char *word) {
    char *end;
    unsigned long value = strtoul(word, &end, 10);
    return isdigit((unsigned char)*word) && *end == '\0' && value <= UINT32_MAX ? (uint32_t)value
                                                                                : 0;
}

/* Reads a pair: 1, or 0 at the end of the script, or -1 if it is cut or too long, or cannot be
 * read. */
static int read_pair(uint64_t *moment, size_t *length) {
    tb_request_header header;
    size_t n = fread(moment, 1, sizeof *moment, stdin);
    if (n == 0) return ferror(stdin) ? -1 : 0;
    if (n < sizeof *moment || fread(request, 1, TB_HEADER_SIZE, stdin) < TB_HEADER_SIZE) return -1;
    memcpy(&header, request, sizeof header);
    if (header.length > sizeof request - TB_HEADER_SIZE) return -1;
    *length = TB_HEADER_SIZE + header.length;
    return fread(request + TB_HEADER_SIZE, 1, header.length, stdin) < header.length ? -1 : 1;
}

int main(int count, char **words) {
    tb_server server = {0};
    uint64_t moment;
    size_t length, written;
    int more = 0;
    uint32_t clients_max = count > 1 ? number(words[1]) : 2,
             profile = count > 2 ? number(words[2]) : 1;
    uint32_t status = count > 3 ? TB_USAGE : tb_embed_open(&server, profile, clients_max);
    while (status == TB_DONE && (more = read_pair(&moment, &length)) > 0) {
        status = tb_embed_serve(&server, moment, request, length, reply, sizeof reply, &written);
        if (status == TB_DONE) fwrite(reply, 1, written, stdout);
    }
    tb_embed_close(&server);
    if (status != TB_DONE || more < 0) {
        fprintf(stderr, "script: %s\n",
            more >= 0           ? tb_status_name(status)
                : ferror(stdin) ? "cannot read it"
                                : "a cut script");
        return 1;
    }
    if (fflush(stdout) == 0 && !ferror(stdout)) return 0;
    fprintf(stderr, "script: cannot write the replies\n");
    return 1;
}
