/* A session in its file: one object in JSON, which clients in other languages read and write too.
 */
#include <errno.h>
#include <fcntl.h>
#include <libgen.h>
#include <limits.h>
#include <sys/file.h>
#include <sys/stat.h>
#include <unistd.h>

#include "internal.h"
#include "json.h"

#define SAVED_MAX ((size_t)1 << 22) /* bytes of a file: the largest request takes half of it */
#define LINKS_MAX 40

/* Reading */

/* The integer in a field, of this many bits at most. */
static tb_code number_of(
    const json *object, const char *name, unsigned bits, tb_u128 *number, tb_client_error *error) {
    const json *value = json_get(object, name);
    if (!value) return tb_invalid(error, name, "is missing");
    if (value->kind != JSON_NUMBER || !tb_u128_read(value->text, bits, number))
        return tb_invalid(error, name, "must be an integer from 0 to 2^%u - 1", bits);
    return TB_CLIENT_OK;
}

static int digit_of(char digit) {
    if (digit >= '0' && digit <= '9') return digit - '0';
    if (digit >= 'a' && digit <= 'f') return digit - 'a' + 10;
    return digit >= 'A' && digit <= 'F' ? digit - 'A' + 10 : -1;
}

static tb_code bytes_of(const json *object, tb_saved *saved, tb_client_error *error) {
    const json *value = json_get(object, "pending");
    if (!value) return tb_invalid(error, "pending", "is missing");
    if (value->kind != JSON_STRING) return tb_invalid(error, "pending", "must be a string");
    if (value->length % 2) return tb_invalid(error, "pending", "is no hex");
    if (!value->length) return TB_CLIENT_OK;
    uint8_t *bytes = malloc(value->length / 2);
    if (!bytes) return tb_no_memory(error, false);
    saved->pending = bytes;
    saved->length = value->length / 2;
    for (size_t at = 0; at < saved->length; at++) {
        int high = digit_of(value->text[2 * at]), low = digit_of(value->text[2 * at + 1]);
        if (high < 0 || low < 0) return tb_invalid(error, "pending", "is no hex");
        bytes[at] = (uint8_t)(high << 4 | low);
    }
    return TB_CLIENT_OK;
}

static bool is_doubled(const json *object) {
    for (size_t at = 0; at < object->count; at++)
        if (json_get(object, object->names[at].text) != &object->items[at]) return true;
    return false;
}

static tb_code saved_of(const json *object, tb_saved *saved, tb_client_error *error) {
    tb_u128 session = {0}, number = {0};
    if (object->kind != JSON_OBJECT) return tb_invalid(error, "saved", "is no object");
    if (is_doubled(object)) return tb_invalid(error, "saved", "has two fields of one name");
    tb_code code = number_of(object, "client", 128, &saved->client, error);
    if (!code) code = number_of(object, "session", 64, &session, error);
    if (!code) code = number_of(object, "number", 32, &number, error);
    if (!code) code = bytes_of(object, saved, error);
    saved->session = session.low;
    saved->number = (uint32_t)number.low;
    return code;
}

/* Opens a file to be read. A pipe or a device, which may have no end, and a folder are refused. */
static tb_code opened(const char *path, int *fd, tb_client_error *error) {
    struct stat about;
    if (!*path) return tb_invalid(error, "path", "is no path");
    *fd = open(path, O_RDONLY | O_NONBLOCK | O_CLOEXEC);
    if (*fd < 0) return tb_fail_file(error, path);
    if (!fstat(*fd, &about) && S_ISREG(about.st_mode)) return TB_CLIENT_OK;
    close(*fd);
    return tb_invalid(error, "path", "is no file, but a folder, a pipe or a device");
}

static tb_code read_all(const char *path, char *text, size_t *length, tb_client_error *error) {
    int fd = -1;
    tb_code code = opened(path, &fd, error);
    if (code) return code;
    ssize_t count = 1;
    for (*length = 0; *length <= SAVED_MAX && count > 0;) {
        count = read(fd, text + *length, SAVED_MAX + 1 - *length);
        if (count > 0) *length += (size_t)count;
        if (count < 0 && errno == EINTR) count = 1;
    }
    if (count < 0) code = tb_fail_file(error, path);
    close(fd);
    if (!code && *length > SAVED_MAX) return tb_invalid(error, "saved", "is more than a session");
    return code;
}

tb_code tb_saved_read(const char *path, tb_saved *saved, tb_client_error *error) {
    size_t length;
    json object;
    *saved = (tb_saved){0};
    char *text = malloc(SAVED_MAX + 1);
    if (!text) return tb_no_memory(error, false);
    tb_code code = read_all(path, text, &length, error);
    if (!code && !json_read(text, length, &object)) code = tb_invalid(error, "saved", "is no JSON");
    free(text);
    if (code) return code;
    code = saved_of(&object, saved, error);
    json_free(&object);
    if (code) tb_saved_free(saved);
    return code;
}

/* Writing */

static char *text_of(const tb_saved *saved, size_t *length) {
    static const char hex[] = "0123456789abcdef";
    char client[TB_DIGITS];
    char *text = malloc(200 + 2 * saved->length), *to = text;
    if (!text) return NULL;
    to += sprintf(to, "{\"client\": %s, \"session\": %llu, \"number\": %u, \"pending\": \"",
        tb_u128_text(saved->client, client), (unsigned long long)saved->session,
        (unsigned)saved->number);
    for (size_t at = 0; at < saved->length; at++) {
        *to++ = hex[saved->pending[at] >> 4];
        *to++ = hex[saved->pending[at] & 15];
    }
    to += sprintf(to, "\"}");
    *length = (size_t)(to - text);
    return text;
}

/* The path that symbolic links lead to, whether a file is there or not. Null: out of memory. */
static char *linked(const char *path) {
    char *at = strdup(path), to[PATH_MAX];
    for (int left = LINKS_MAX; at && left > 0; left--) {
        ssize_t length = readlink(at, to, sizeof to - 1);
        if (length < 0) break; /* it is no link */
        to[length] = 0;
        char *slash = *to == '/' ? NULL : strrchr(at, '/'), *next = NULL;
        int folder = slash ? (int)(slash + 1 - at) : 0;
        if (asprintf(&next, "%.*s%s", folder, at, to) < 0) next = NULL;
        free(at);
        at = next;
    }
    return at;
}

static bool wrote(int fd, const char *text, size_t length) {
    while (length > 0) {
        ssize_t count = write(fd, text, length);
        if (count < 0 && errno == EINTR) continue;
        if (count < 0) return false;
        text += count;
        length -= (size_t)count;
    }
    return true;
}

static bool synced_folder(const char *path) {
    char *copy = strdup(path);
    int fd = copy ? open(dirname(copy), O_RDONLY | O_DIRECTORY | O_CLOEXEC) : -1;
    bool is_synced = fd >= 0 && !fsync(fd);
    int number = errno;
    if (fd >= 0) close(fd);
    free(copy);
    errno = number;
    return is_synced;
}

/* Opens a file that nobody else writes to until it is closed. */
static int opened_fresh(const char *path) {
    for (;;) {
        struct stat mine, there;
        int fd = open(path, O_WRONLY | O_CREAT | O_NOFOLLOW | O_NONBLOCK | O_CLOEXEC, 0600);
        if (fd < 0) return fd;
        bool is_mine = !fstat(fd, &mine) && S_ISREG(mine.st_mode);
        if (is_mine) flock(fd, LOCK_EX);
        if (is_mine && !lstat(path, &there) && mine.st_ino == there.st_ino &&
            mine.st_dev == there.st_dev)
            return fd;
        close(fd); /* another one was written meanwhile, and has taken the old one's place */
        if (is_mine) continue;
        errno = EINVAL;
        return -1;
    }
}

/* Writes a new file next to the old one, and puts it in its place by a rename. */
static tb_code replaced(
    const char *path, mode_t mode, const char *text, size_t length, tb_client_error *error) {
    char *fresh = NULL;
    if (asprintf(&fresh, "%s.new", path) < 0) return tb_no_memory(error, false);
    int fd = opened_fresh(fresh);
    bool is_put = false;
    if (fd >= 0) {
        (void)fchmod(fd, mode); /* a file system without permissions does without */
        is_put = !ftruncate(fd, 0) && wrote(fd, text, length) && !fsync(fd) && !rename(fresh, path);
    }
    tb_code code = is_put ? TB_CLIENT_OK : tb_fail_file(error, path);
    if (fd >= 0 && !is_put) unlink(fresh);
    if (fd >= 0) close(fd);
    if (is_put && !synced_folder(path)) code = tb_fail_file(error, path);
    free(fresh);
    return code;
}

static tb_code put(const char *path, const char *text, size_t length, tb_client_error *error) {
    struct stat old;
    mode_t mode = 0600;
    if (!stat(path, &old)) {
        if (!S_ISREG(old.st_mode))
            return tb_invalid(error, "path", "is no file, but a folder, a pipe or a device");
        mode = old.st_mode & 0777;
    } else if (errno != ENOENT) {
        return tb_fail_file(error, path);
    }
    return replaced(path, mode, text, length, error);
}

tb_code tb_saved_write(const char *path, const tb_saved *saved, tb_client_error *error) {
    size_t length;
    if (!*path) return tb_invalid(error, "path", "is no path");
    char *text = text_of(saved, &length), *place = linked(path);
    tb_code code = text && place ? put(place, text, length, error) : tb_no_memory(error, false);
    free(text);
    free(place);
    return code;
}
