/* Moments of a clock that is never set, and waiting for them. */
#include <time.h>

#include "internal.h"

int64_t tb_now(void) {
    struct timespec now;
    clock_gettime(CLOCK_MONOTONIC, &now);
    return now.tv_sec * TB_SECOND + now.tv_nsec;
}

int64_t tb_after(int64_t start, int64_t length) {
    return length > TB_NO_LIMIT - start ? TB_NO_LIMIT : start + length;
}

int64_t tb_doubled(int64_t pause, int64_t most) { return pause < most / 2 ? 2 * pause : most; }

int tb_condition_init(pthread_cond_t *condition) {
    pthread_condattr_t how;
    int fault = pthread_condattr_init(&how);
    if (fault) return fault;
    pthread_condattr_setclock(&how, CLOCK_MONOTONIC);
    fault = pthread_cond_init(condition, &how);
    pthread_condattr_destroy(&how);
    return fault;
}

bool tb_wait_until(pthread_cond_t *condition, pthread_mutex_t *lock, int64_t deadline) {
    if (deadline == TB_NO_LIMIT) {
        pthread_cond_wait(condition, lock);
        return true;
    }
    struct timespec end = {deadline / TB_SECOND, deadline % TB_SECOND};
    return pthread_cond_timedwait(condition, lock, &end) == 0;
}
