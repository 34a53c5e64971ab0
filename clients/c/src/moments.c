/* Moments of requests to a ledger in a file. */
#include <time.h>

#include "ledger.h"

int64_t tb_wall_now(void) {
    struct timespec now;
    clock_gettime(CLOCK_REALTIME, &now);
    return now.tv_sec * TB_SECOND + now.tv_nsec;
}

void tb_moments_go_on(tb_moments *it, int64_t last) {
    if (last <= it->last) return;
    it->last = last;
    it->at = tb_now();
}

int64_t tb_moments_next(tb_moments *it) {
    int64_t wall = tb_wall_now(), running = tb_now();
    if (wall > it->last) {
        int64_t gone = running - it->at, most = it->last + gone + gone / 1000;
        it->last = wall < most ? wall : most;
        it->at = running;
    }
    return it->last;
}
