/* Serves a script with trouble at each step, and compares its replies with those of a file: careful
 * MODE SCRIPT REPLIES.
 *
 *     memory    the k-th allocation fails, for each k until all succeed; what was refused is sent
 *               again
 *     small     each reply is first asked for in a room that is too small by one byte, which then
 *               has its first bytes
 *     time      no trouble: prints how many requests a second were served, the least of five runs
 *
 * Linked with -Wl,--wrap=malloc,--wrap=realloc. */
#include "../../clients/embed/tb_embed.h"

#include <stdio.h>
#include <stdlib.h>
#include <string.h>
#include <time.h>

void *__real_malloc(size_t size);
void *__real_realloc(void *at, size_t size);

static long allocations, failing, refused;

static int fails(void) { return ++allocations == failing; }

void *__wrap_malloc(size_t size) { return fails() ? NULL : __real_malloc(size); }

void *__wrap_realloc(void *at, size_t size) { return fails() ? NULL : __real_realloc(at, size); }

static uint8_t *script, *replies, room[TB_REPLY_MAX];
static size_t script_length, replies_length;

static uint8_t *file_in(const char *path, size_t *length) {
    FILE *file = fopen(path, "rb");
    uint8_t *bytes;
    if (!file || fseek(file, 0, SEEK_END)) exit(2);
    *length = (size_t)ftell(file);
    rewind(file);
    bytes = __real_malloc(*length + 1);
    if (!bytes || fread(bytes, 1, *length, file) != *length) exit(2);
    fclose(file);
    return bytes;
}

static uint32_t body_length(const uint8_t *frame) {
    uint32_t length;
    memcpy(&length, frame + 32, 4);
    return length;
}

static void fail(const char *what, size_t at) {
    printf("%s at byte %zu of the script, with allocation %ld failing\n", what, at, failing);
    exit(1);
}

/* Serves the whole script; every reply is the file's. */
static void serve_all(int too_small_first) {
    tb_server server = {0};
    size_t at = 0, told = 0, written;
    uint64_t moment;
    uint32_t status = tb_embed_open(&server, 1, 64);
    if (status == TB_NO_MEMORY) refused++, status = tb_embed_open(&server, 1, 64);
    if (status != TB_DONE) fail("not opened", 0);
    while (at < script_length) {
        const uint8_t *frame = script + at + 8;
        size_t length = 48 + body_length(frame), wanted = 48 + body_length(replies + told);
        memcpy(&moment, script + at, 8);
        if (too_small_first) {
            uint8_t behind = room[wanted - 1] = (uint8_t)~replies[told + wanted - 1];
            status = tb_embed_serve(&server, moment, frame, length, room, wanted - 1, &written);
            if (status != TB_TOO_SMALL || written != wanted) fail("a small room was not told", at);
            if (memcmp(room, replies + told, wanted - 1))
                fail("a small room has other bytes than the reply's first", at);
            if (room[wanted - 1] != behind) fail("a byte behind a small room was written", at);
        }
        status = tb_embed_serve(&server, moment, frame, length, room, sizeof room, &written);
        if (status == TB_NO_MEMORY) {
            refused++;
            status = tb_embed_serve(&server, moment, frame, length, room, sizeof room, &written);
        }
        if (status != TB_DONE || written != wanted || memcmp(room, replies + told, wanted))
            fail("another reply", at);
        at += 8 + length, told += wanted;
    }
    if (told != replies_length) fail("another number of replies", at);
    tb_embed_close(&server);
}

static double seconds(void) {
    struct timespec now;
    clock_gettime(CLOCK_MONOTONIC, &now);
    return (double)now.tv_sec + 1e-9 * (double)now.tv_nsec;
}

int main(int count, char **words) {
    if (count != 4) return 2;
    script = file_in(words[2], &script_length);
    replies = file_in(words[3], &replies_length);
    if (!strcmp(words[1], "small")) {
        serve_all(1);
        printf("each reply was had in a second room\n");
    } else if (!strcmp(words[1], "memory")) {
        do {
            failing++, allocations = 0;
            serve_all(0);
        } while (failing <= allocations);
        printf("%ld allocations failed in turn, %ld calls were refused and made again\n",
            failing - 1, refused);
        if (refused == 0) return 1;
    } else {
        double least = 1e9;
        size_t requests = 0, at = 0;
        for (; at < script_length; requests++) at += 56 + body_length(script + at + 8);
        for (int turn = 0; turn < 5; turn++) {
            double start = seconds(), took;
            serve_all(0);
            took = seconds() - start;
            if (took < least) least = took;
        }
        printf("%.2f million requests a second\n", 1e-6 * (double)requests / least);
    }
    return 0;
}
