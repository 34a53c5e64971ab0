/* Ids that rise. */
#include <errno.h>
#include <sys/random.h>
#include <time.h>

#include "internal.h"

#define TIME_BITS 16 /* the high half has so many random bits below the time */

tb_u128 tb_ids_next(tb_ids *ids, uint64_t milliseconds,
    void (*random)(void *context, uint8_t *bytes), void *context) {
    uint8_t drawn[10];
    uint16_t upper;
    if (milliseconds <= ids->last.high >> TIME_BITS) {
        ids->last = tb_u128_from(tb_u128_value(ids->last) + 1);
        return ids->last;
    }
    random(context, drawn);
    memcpy(&ids->last.low, drawn, 8);
    memcpy(&upper, drawn + 8, 2);
    ids->last.high = milliseconds << TIME_BITS | upper;
    return ids->last;
}

/* Random bytes of the system. Without any no id is safe. */
static void system_random(void *context, uint8_t *bytes) {
    (void)context;
    while (getrandom(bytes, 10, 0) != 10)
        if (errno != EINTR) abort();
}

tb_u128 tb_id(void) {
    static pthread_mutex_t lock = PTHREAD_MUTEX_INITIALIZER;
    static tb_ids ids;
    struct timespec now;
    pthread_mutex_lock(&lock);
    clock_gettime(CLOCK_REALTIME, &now);
    tb_u128 made =
        tb_ids_next(&ids, (uint64_t)now.tv_sec * 1000 + (uint64_t)(now.tv_nsec / TB_MILLISECOND),
            system_random, NULL);
    pthread_mutex_unlock(&lock);
    return made;
}
