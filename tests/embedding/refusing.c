/* Memory for the library from an allocator that refuses one allocation, linked in place of the
 * kit's liblibc_c.a. */
#include <stddef.h>
#include <stdint.h>
#include <stdlib.h>

typedef struct rattle_tried {
    uint8_t ok;
    void *at;
} rattle_tried;

static int until = -1, was_refused;
static long blocks;
static _Alignas(16) uint8_t nothing[16];

/* Refuses the allocation after this many others, or no allocation if the number is below 0. */
void refuse(int count) {
    until = count;
    was_refused = 0;
}

int refused(void) { return was_refused; }

/* The blocks that were not freed. */
long left(void) { return blocks; }

static int is_refused(void) {
    if (until < 0 || until-- > 0) return 0;
    return was_refused = 1;
}

rattle_tried rattle_alloc(size_t size, size_t alignment) {
    rattle_tried tried = {0, nothing};
    (void)alignment;
    void *at = is_refused() ? NULL : malloc(size ? size : 1);
    if (at == NULL) return tried;
    blocks++;
    tried.ok = 1;
    tried.at = at;
    return tried;
}

rattle_tried rattle_realloc(void *at, size_t kept, size_t size, size_t alignment) {
    rattle_tried tried = {0, nothing};
    (void)kept;
    (void)alignment;
    void *moved = is_refused() ? NULL : realloc(at, size ? size : 1);
    if (moved == NULL) return tried;
    tried.ok = 1;
    tried.at = moved;
    return tried;
}

void rattle_dealloc(void *at) {
    blocks--;
    free(at);
}
