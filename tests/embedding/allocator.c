/* Memory for the library from an allocator of the program's own, linked in place of the kit's
 * liblibc_c.a. */
#include <stddef.h>
#include <stdint.h>
#include <string.h>

typedef struct rattle_tried {
    uint8_t ok;
    void *at;
} rattle_tried;

static _Alignas(16) uint8_t heap[1 << 24];
static size_t used;

/* Memory of this many bytes, and with ok 0 no memory. The pointer is never null; the alignment
 * divides 16.
 */
rattle_tried rattle_alloc(size_t size, size_t alignment) {
    size_t taken = size / 16 * 16 + 16;
    rattle_tried tried = {taken <= sizeof heap - used, heap + used};
    (void)alignment;
    if (tried.ok) used += taken;
    return tried;
}

/* A block of this many bytes, whose first kept bytes are those of the one at `at`. */
rattle_tried rattle_realloc(void *at, size_t kept, size_t size, size_t alignment) {
    rattle_tried tried = rattle_alloc(size, alignment);
    if (tried.ok) memcpy(tried.at, at, kept);
    return tried;
}

/* What is freed is not used again. */
void rattle_dealloc(void *at) { (void)at; }
