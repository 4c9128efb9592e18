/* The memory of libpathserve by malloc, realloc and free. The archive libpathserve.a has such an object already; link this, or
 * three functions of your own, with libpathserve_noheap.a. */
#include <stdint.h>
#include <stdlib.h>

/* `ok` is 1 where there is a block. Where there is none it is 0, and `block` is any pointer but NULL. */
typedef struct { uint8_t ok; void *block; } rattle_block;

static rattle_block found(void *block) {
    static char none;
    return block ? (rattle_block){1, block} : (rattle_block){0, &none};
}

/* `align` is a power of two up to 16, to which malloc aligns. */
rattle_block rattle_alloc(size_t bytes, size_t align) { return found(malloc(bytes ? bytes : align)); }

/* The first `kept` bytes stay. Where there is no block, the old one is as it was. */
rattle_block rattle_realloc(void *block, size_t kept, size_t bytes, size_t align) {
    (void)kept;
    return found(realloc(block, bytes ? bytes : align));
}

void rattle_dealloc(void *block) { free(block); }
