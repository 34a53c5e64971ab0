/* Stands between a program and the system: writes down what the program does to one file and to its
   output, and lets one call fail, or lie, or leaves syncs out. tests/files loads it by LD_PRELOAD.

   KEEP_FILE  the file. Where it is not set, nothing is done.
   KEEP_LOG   where the calls are written down: a letter, two numbers of 8 bytes, and the bytes of a
              write. W at, length; T length, 0; S 0, 0 after a sync that was done; F inode, 0 after
              that of a folder, C inode, 0 after that of another file; O 0, length before a write to
              standard output.
   KEEP_FAULT one of
              write N E      the Nth write or cut of the file fails with errno E, and does nothing
              torn N K E     the Nth write takes K bytes, and the write behind it fails with E
              short N K      the Nth write takes K bytes, and all else goes on
              die N K        the Nth write takes K bytes, and the process is killed
              sync N E       the Nth sync fails with E, and does nothing
              read N E       the Nth read of the file fails with errno E
              name N E       the Nth link or removal of a name fails with errno E; the process is
                             killed before it where E is 0
              few K          each read of the file gives K bytes at most
              out L          standard output takes L bytes: what does not fit fails with ENOSPC
              full L         no write makes the file longer than L bytes: what does not fit fails
                             with ENOSPC
              early MS       writes that make the file no longer, and syncs after them, answer at
                             once, and are done MS milliseconds after the next write to standard
                             output. So is a latch that is opened; a file whose length is wrong
                             would be noticed
   KEEP_MUTANT  a wrong program, which leaves out some syncs: they answer, and do nothing
              no-sync                each of the file
              no-sync-of-a-batch     that between a batch and its latch
              late-sync-of-a-batch   the same, and two are made after the latch
              no-sync-at-a-start     those before the first write or cut
              no-sync-of-a-copy      that of the copy of torn bytes
*/
#define _GNU_SOURCE
#include <errno.h>
#include <fcntl.h>
#include <signal.h>
#include <stdint.h>
#include <stdio.h>
#include <stdlib.h>
#include <string.h>
#include <sys/stat.h>
#include <sys/syscall.h>
#include <sys/types.h>
#include <sys/uio.h>
#include <time.h>
#include <unistd.h>

static long calls, syncs, reads, names, out, first, second, third;
static char fault[16];
static const char *mutant = "";
static int failing, log_fd = -1, ready;
enum { CREATED = 12 }; /* the bytes of a file without a batch */

/* what the last write did, if there was one: for mutants */
static enum { NOTHING, OTHER, A_BATCH } written;
static int is_late;

/* writes that `early` holds back */
struct held {
    int fd;
    off_t at;
    size_t len;
    char *bytes;
    struct held *next;
};
static struct held *held_first, **held_last = &held_first;

static int is(const char *name) { return strcmp(fault, name) == 0; }

static int is_mutant(const char *name) { return strcmp(mutant, name) == 0; }

static void begin(void) {
    if (ready) return;
    ready = 1;
    const char *text = getenv("KEEP_FAULT"), *log = getenv("KEEP_LOG");
    if (text) sscanf(text, "%15s %ld %ld %ld", fault, &first, &second, &third);
    if (getenv("KEEP_MUTANT")) mutant = getenv("KEEP_MUTANT");
    if (log)
        log_fd =
            syscall(SYS_openat, AT_FDCWD, log, O_WRONLY | O_CREAT | O_APPEND | O_CLOEXEC, 0600);
}

static int is_file(int fd) {
    const char *path = getenv("KEEP_FILE");
    struct stat a, b;
    begin();
    return path && fd > 2 && fstat(fd, &a) == 0 && stat(path, &b) == 0 && a.st_ino == b.st_ino &&
        a.st_dev == b.st_dev;
}

static void note(char letter, uint64_t at, uint64_t len, const void *bytes) {
    char head[17];
    struct iovec parts[2] = {{head, sizeof head}, {(void *)bytes, bytes ? len : 0}};
    begin();
    if (log_fd < 0) return;
    head[0] = letter;
    memcpy(head + 1, &at, 8);
    memcpy(head + 9, &len, 8);
    if (syscall(SYS_writev, log_fd, parts, 2) < 0) abort();
}

static int fail(long why) {
    errno = why;
    return -1;
}

static int is_within(int fd, off_t end) {
    struct stat found;
    return fstat(fd, &found) == 0 && end <= found.st_size;
}

static ssize_t put(int fd, const void *bytes, size_t len, off_t at) {
    note('W', at, len, bytes);
    written = at >= CREATED && !is_within(fd, at + len) ? A_BATCH : OTHER;
    return syscall(SYS_pwrite64, fd, bytes, len, at);
}

static void hold(int fd, const void *bytes, size_t len, off_t at) {
    struct held *it = malloc(sizeof *it);
    if (!it || !(it->bytes = malloc(len + 1))) abort();
    if (len) memcpy(it->bytes, bytes, len);
    it->fd = fd;
    it->len = len;
    it->at = at;
    it->next = 0;
    *held_last = it;
    held_last = &it->next;
}

static void let_go(void) {
    if (!held_first) return;
    struct timespec pause = {first / 1000, first % 1000 * 1000000};
    nanosleep(&pause, 0);
    for (struct held *it = held_first; it; it = it->next) {
        if (put(it->fd, it->bytes, it->len, it->at) < 0) abort();
        syscall(SYS_fdatasync, it->fd);
        note('S', 0, 0, 0);
    }
    held_first = 0;
    held_last = &held_first;
}

static ssize_t write_file(int fd, const void *bytes, size_t len, off_t at) {
    long n = ++calls;
    if (failing) return fail(third);
    if (is("write") && n == first) return fail(second);
    if (is("full") && at + (off_t)len > first) {
        if (at >= first) return fail(ENOSPC);
        return put(fd, bytes, first - at, at);
    }
    if (is("early") && is_within(fd, at + len)) {
        hold(fd, bytes, len, at);
        return len;
    }
    if (n != first || !(is("torn") || is("short") || is("die"))) return put(fd, bytes, len, at);
    if (second < (long)len) len = second;
    if (is("torn")) failing = 1;
    ssize_t done = len ? put(fd, bytes, len, at) : 0;
    if (is("die")) kill(getpid(), SIGKILL);
    if (!len) return is("torn") ? fail(third) : put(fd, bytes, 1, at);
    return done;
}

static ssize_t read_file(int fd, void *into, size_t len, off_t at) {
    if (is("read") && ++reads == first) return fail(second);
    if (is("few") && first < (long)len) len = first;
    return syscall(SYS_pread64, fd, into, len, at);
}

static int cut_file(int fd, off_t len) {
    long n = ++calls;
    if (failing) return fail(third);
    if (is("write") && n == first) return fail(second);
    note('T', len, 0, 0);
    written = OTHER;
    return syscall(SYS_ftruncate, fd, len);
}

/* whether a mutant leaves out this sync */
static int is_left_out(int fd) {
    struct stat found;
    if (!is_file(fd))
        return is_mutant("no-sync-of-a-copy") && fstat(fd, &found) == 0 && S_ISREG(found.st_mode);
    if (is_mutant("no-sync-at-a-start")) return written == NOTHING;
    if (written != A_BATCH) return is_mutant("no-sync");
    written = OTHER;
    is_late = is_mutant("late-sync-of-a-batch");
    return is_late || is_mutant("no-sync-of-a-batch") || is_mutant("no-sync");
}

static int sync_now(int fd, long call) {
    int answer = syscall(call, fd);
    struct stat found;
    if (answer == 0 && is_file(fd))
        note('S', 0, 0, 0);
    else if (answer == 0 && fstat(fd, &found) == 0)
        note(S_ISDIR(found.st_mode) ? 'F' : 'C', found.st_ino, 0, 0);
    return answer;
}

static int sync_file(int fd, long call) {
    begin();
    if (fd <= 2 || !getenv("KEEP_FILE")) return syscall(call, fd);
    long n = ++syncs;
    if (is("sync") && n == first) return fail(second);
    if (is("early") && held_first) return 0;
    if (is_late && is_file(fd)) {
        is_late = 0;
        sync_now(fd, call);
    } else if (is_left_out(fd))
        return 0;
    return sync_now(fd, call);
}

ssize_t pwrite64(int fd, const void *bytes, size_t len, off_t at) {
    return is_file(fd) ? write_file(fd, bytes, len, at) : syscall(SYS_pwrite64, fd, bytes, len, at);
}
ssize_t pwrite(int fd, const void *bytes, size_t len, off_t at) {
    return pwrite64(fd, bytes, len, at);
}
ssize_t pread64(int fd, void *into, size_t len, off_t at) {
    return is_file(fd) ? read_file(fd, into, len, at) : syscall(SYS_pread64, fd, into, len, at);
}
ssize_t pread(int fd, void *into, size_t len, off_t at) { return pread64(fd, into, len, at); }
int ftruncate64(int fd, off_t len) {
    return is_file(fd) ? cut_file(fd, len) : syscall(SYS_ftruncate, fd, len);
}
int ftruncate(int fd, off_t len) { return ftruncate64(fd, len); }
int fsync(int fd) { return sync_file(fd, SYS_fsync); }
int fdatasync(int fd) { return sync_file(fd, SYS_fdatasync); }

/* whether this call on a name fails */
static int name_fails(void) {
    begin();
    if (!is("name") || ++names != first) return 0;
    if (!second) kill(getpid(), SIGKILL);
    errno = second;
    return 1;
}
int link(const char *name, const char *other) {
    return name_fails() ? -1 : syscall(SYS_linkat, AT_FDCWD, name, AT_FDCWD, other, 0);
}
int unlink(const char *name) {
    return name_fails() ? -1 : syscall(SYS_unlinkat, AT_FDCWD, name, 0);
}

static ssize_t write_out(const void *bytes, size_t len) {
    begin();
    if (is("out") && out + (long)len > first) {
        if (out >= first) return fail(ENOSPC);
        len = first - out;
    }
    note('O', 0, len, bytes);
    ssize_t done = syscall(SYS_write, 1, bytes, len);
    if (done > 0) out += done;
    let_go();
    return done;
}

ssize_t write(int fd, const void *bytes, size_t len) {
    if (fd == 1) return write_out(bytes, len);
    if (is_file(fd)) return write_file(fd, bytes, len, lseek(fd, 0, SEEK_CUR));
    return syscall(SYS_write, fd, bytes, len);
}

ssize_t writev(int fd, const struct iovec *parts, int count) {
    ssize_t sum = 0;
    if (fd != 1) return syscall(SYS_writev, fd, parts, count);
    for (int i = 0; i < count; i++) {
        ssize_t done = write(fd, parts[i].iov_base, parts[i].iov_len);
        if (done < 0) return sum ? sum : -1;
        sum += done;
        if ((size_t)done < parts[i].iov_len) break;
    }
    return sum;
}
