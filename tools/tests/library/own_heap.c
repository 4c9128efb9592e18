/* Tries tools/library/web_heap.c with a memory that grows to a limit: blocks keep what is in them, lie apart, are aligned and are used
 * again, and where there is no room there is none. */
#include <stdint.h>
#include <stdio.h>
#include <string.h>
#define malloc own_malloc
#define realloc own_realloc
#define free own_free
/* a memory begins at 0 there, and at an address here */
#define __builtin_wasm_memory_size(n) ((unsigned long)memory / 65536 + pages)
#define __builtin_wasm_memory_grow(n, more) grow(more)
enum { MOST = 1024, BLOCKS = 512 };
unsigned char __heap_base[MOST * 65536] __attribute__((aligned(65536)));
#define memory __heap_base
static unsigned long pages;

static unsigned long grow(unsigned long more) {
    unsigned long was = pages;
    if (more > MOST - pages) return (unsigned long)-1;
    pages += more;
    return was;
}

#include "../../library/web_heap.c"

static uint64_t state = 88172645463325252u;

static uint64_t next(void) {
    state ^= state << 13;
    state ^= state >> 7;
    state ^= state << 17;
    return state;
}

static struct { unsigned char *at; unsigned long size; unsigned char sign; } blocks[BLOCKS];

static int is_kept(int n, unsigned long size) {
    for (unsigned long k = 0; k < size; k++)
        if (blocks[n].at[k] != blocks[n].sign) return 0;
    return 1;
}

static void put(int n, unsigned char *at, unsigned long size) {
    blocks[n].at = at;
    blocks[n].size = size;
    blocks[n].sign = (unsigned char)next();
    memset(at, blocks[n].sign, size);
}

static int try(int n) {
    unsigned long size = next() % ((unsigned long)1 << next() % 19);
    if (!blocks[n].at) {
        unsigned char *at = own_malloc(size);
        if (!at || ((uintptr_t)at & 15) || at < memory || at + size > memory + pages * 65536) return 1;
        put(n, at, size);
    } else if (next() % 2) {
        unsigned long kept = size < blocks[n].size ? size : blocks[n].size;
        unsigned char *at = own_realloc(blocks[n].at, size);
        if (!at || ((uintptr_t)at & 15)) return 2;
        blocks[n].at = at;
        if (!is_kept(n, kept)) return 3;
        put(n, at, size);
    } else {
        if (!is_kept(n, blocks[n].size)) return 4;
        own_free(blocks[n].at);
        blocks[n].at = NULL;
    }
    return 0;
}

int main(void) {
    for (int round = 0; round < 200000; round++) {
        int status = try((int)(next() % BLOCKS));
        if (status) return status;
    }
    for (int n = 0; n < BLOCKS; n++) own_free(blocks[n].at);
    unsigned long had = pages;
    for (int round = 0; round < 1000; round++) {
        void *at = own_malloc(100000);
        if (!at) return 5;
        own_free(at);
    }
    if (pages != had) return 6;
    if (own_malloc((unsigned long)MOST * 65536) || own_malloc(~0ul) || own_malloc(1ul << 40)) return 7;
    unsigned char *last = own_malloc(1 << 20);
    if (!last) return 8;
    memset(last, 7, 1 << 20);
    if (own_realloc(last, 1ul << 33) || last[(1 << 20) - 1] != 7) return 9; /* it stays as it was */
    printf("%lu pages\n", pages);
    return 0;
}
