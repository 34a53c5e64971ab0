/* Who has a file locked, by /proc/locks. */
#include <sys/stat.h>
#include <sys/sysmacros.h>

#include "ledger.h"

/* A line is as 1: FLOCK ADVISORY WRITE 4711 fe:00:10952783 0 EOF. */
int64_t tb_owner_of(const char *path) {
    struct stat file;
    FILE *locks = stat(path, &file) ? NULL : fopen("/proc/locks", "re");
    int64_t owner = 0;
    char line[256];
    while (locks && fgets(line, sizeof line, locks)) {
        long long process;
        unsigned upper, lower;
        unsigned long long inode;
        if (sscanf(line, "%*s FLOCK %*s %*s %lld %x:%x:%llu", &process, &upper, &lower, &inode) !=
                4 ||
            inode != file.st_ino)
            continue;
        bool is_same = upper == major(file.st_dev) && lower == minor(file.st_dev);
        if (!owner || is_same) owner = process; /* some file systems have another device there */
        if (is_same) break;
    }
    if (locks) fclose(locks);
    return owner;
}
