/* Refuses one call of a program: the N-th growth, read or write that its own code asks for. Loaded
 * before the C library:
 *
 *     cc -shared -fPIC -O2 refuse.c -o refuse.so
 *     LD_PRELOAD=refuse.so REFUSE=growth REFUSE_AT=3 REFUSE_REPORT=report program ...
 *
 * REFUSE is growth (malloc and realloc answer that there is no memory), read or write (EIO), or
 * stall (a write takes no bytes). With REFUSE_ON all later calls of that kind are refused too. A
 * read of standard input moves REFUSE_READ bytes at the most, a write to standard output
 * REFUSE_WRITE bytes. The file REFUSE_REPORT has three numbers of 8 bytes then: the calls of that
 * kind that were asked for, those that were refused, and the blocks taken and not given back; they
 * are kept in the file, however the program ends. What the C library asks for itself, as for a
 * thread, is let through. */
#define _GNU_SOURCE
#include <dlfcn.h>
#include <errno.h>
#include <fcntl.h>
#include <link.h>
#include <stdatomic.h>
#include <stdint.h>
#include <stdlib.h>
#include <string.h>
#include <sys/mman.h>
#include <unistd.h>

enum kind { NONE, GROWTH, READ, WRITE, STALL };

static enum kind refusing;
static int refuses_on;
static long refused_at, most_read, most_written;
static atomic_long unreported[3], *counts = unreported;

#define asked counts[0]
#define refused counts[1]
#define blocks counts[2]

static uintptr_t program_start, program_end;

static void *(*real_malloc)(size_t);
static void *(*real_realloc)(void *, size_t);
static void (*real_free)(void *);
static ssize_t (*real_read)(int, void *, size_t);
static ssize_t (*real_write)(int, const void *, size_t);

/* The first object is the program itself. */
static int find_program(struct dl_phdr_info *object, size_t size, void *unused) {
    (void)size, (void)unused;
    for (int i = 0; i < object->dlpi_phnum; i++) {
        const ElfW(Phdr) *part = &object->dlpi_phdr[i];
        uintptr_t start = object->dlpi_addr + part->p_vaddr;
        if (part->p_type != PT_LOAD) continue;
        if (!program_start || start < program_start) program_start = start;
        if (start + part->p_memsz > program_end) program_end = start + part->p_memsz;
    }
    return 1;
}

static void *symbol(const char *name) {
    void *at = dlsym(RTLD_NEXT, name);
    if (!at) abort();
    return at;
}

static void find_symbols(void) {
    if (real_malloc) return;
    real_realloc = symbol("realloc");
    real_free = symbol("free");
    real_read = symbol("read");
    real_write = symbol("write");
    real_malloc = symbol("malloc");
}

static void keep_counts(const char *path) {
    int file = open(path, O_RDWR | O_CREAT | O_TRUNC, 0600);
    if (file < 0 || ftruncate(file, sizeof unreported)) abort();
    counts = mmap(NULL, sizeof unreported, PROT_READ | PROT_WRITE, MAP_SHARED, file, 0);
    if (counts == MAP_FAILED) abort();
    close(file);
}

__attribute__((constructor)) static void start(void) {
    const char *report = getenv("REFUSE_REPORT");
    const char *kind = getenv("REFUSE"), *at = getenv("REFUSE_AT");
    const char *in = getenv("REFUSE_READ"), *out = getenv("REFUSE_WRITE");
    find_symbols();
    dl_iterate_phdr(find_program, NULL);
    if (report) keep_counts(report);
    refused_at = at ? atol(at) : 0;
    refuses_on = getenv("REFUSE_ON") != NULL;
    most_read = in ? atol(in) : 0;
    most_written = out ? atol(out) : 0;
    if (kind)
        refusing = !strcmp(kind, "growth") ? GROWTH
            : !strcmp(kind, "read")        ? READ
            : !strcmp(kind, "write")       ? WRITE
                                           : STALL;
}

static int is_program(const void *caller) {
    return program_start <= (uintptr_t)caller && (uintptr_t)caller < program_end;
}

/* Says that this call, asked for by the program, is the one that is refused, or a later one. */
static int is_refused(enum kind kind, const void *caller) {
    if (kind != refusing || !is_program(caller)) return 0;
    long number = ++asked;
    if (refuses_on ? number < refused_at : number != refused_at) return 0;
    refused++;
    return 1;
}

void *malloc(size_t size) {
    find_symbols();
    const void *caller = __builtin_return_address(0);
    if (is_refused(GROWTH, caller)) return errno = ENOMEM, NULL;
    void *block = real_malloc(size);
    if (block && is_program(caller)) blocks++;
    return block;
}

void *realloc(void *old, size_t size) {
    find_symbols();
    const void *caller = __builtin_return_address(0);
    if (is_refused(GROWTH, caller)) return errno = ENOMEM, NULL;
    void *block = real_realloc(old, size);
    if (block && !old && is_program(caller)) blocks++;
    return block;
}

void free(void *block) {
    find_symbols();
    if (block && is_program(__builtin_return_address(0))) blocks--;
    real_free(block);
}

static size_t capped(size_t length, long most) {
    return most && length > (size_t)most ? (size_t)most : length;
}

ssize_t read(int file, void *bytes, size_t length) {
    find_symbols();
    if (file != 0) return real_read(file, bytes, length);
    if (is_refused(READ, __builtin_return_address(0))) return errno = EIO, -1;
    return real_read(file, bytes, capped(length, most_read));
}

ssize_t write(int file, const void *bytes, size_t length) {
    find_symbols();
    const void *caller = __builtin_return_address(0);
    if (file != 1) return real_write(file, bytes, length);
    if (is_refused(WRITE, caller)) return errno = EIO, -1;
    if (length && is_refused(STALL, caller)) return 0;
    return real_write(file, bytes, capped(length, most_written));
}
