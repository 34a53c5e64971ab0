/* The memory of tb_embed's library: malloc, realloc and free, which align to 16 bytes. */
#include "internal.h"

void tb_heap_is_linked(void) {}

typedef struct tried {
    uint8_t ok;
    void *at; /* never null */
} tried;

static uint8_t none[16];

static tried tried_of(void *at) { return at ? (tried){1, at} : (tried){0, none}; }

tried rattle_alloc(size_t size, size_t alignment);
tried rattle_realloc(void *at, size_t kept, size_t size, size_t alignment);
void rattle_dealloc(void *at);

tried rattle_alloc(size_t size, size_t alignment) {
    (void)alignment; /* which divides 16 */
    return tried_of(malloc(size ? size : 1));
}

tried rattle_realloc(void *at, size_t kept, size_t size, size_t alignment) {
    (void)kept, (void)alignment;
    return tried_of(realloc(at, size ? size : 1));
}

void rattle_dealloc(void *at) { free(at); }
