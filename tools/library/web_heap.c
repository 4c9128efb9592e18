/* malloc, realloc and free for a WebAssembly module without a C library. A block has one of the sizes 16, 24, 32, 48, 64, 96,
 * .. and 16 bytes before it that say which. A freed block waits in the list of its size; a new one is cut from the memory's
 * end, which grows. */
typedef unsigned long size;
typedef unsigned char byte;

/* Before a block: the place of its size among all, and the next that waits. */
typedef struct block {
    size place;
    struct block *next;
} block;

enum { PAGE = 65536, GROWTH = 16, PLACES = 64 }; /* it grows by at least a MiB, and the greatest size is 48 GiB */

extern byte __heap_base[];

static byte *top, *end;
static block *waiting[PLACES];

static size size_of(size place) { return (place & 1 ? (size)24 : (size)16) << place / 2; }

/* The first place whose size is large enough, or PLACES or more. */
static size place_of(size bytes) {
    size place = 0;
    if (bytes > 32) place = 2 * (59 - (size)__builtin_clzl(bytes - 1));
    while (place < PLACES && size_of(place) < bytes) place++;
    return place;
}

/* Room behind all blocks so far, or none. */
static byte *cut(size bytes) {
    if (!top) {
        top = (byte *)(((size)__heap_base + 15) & ~(size)15);
        end = (byte *)(__builtin_wasm_memory_size(0) * PAGE);
    }
    if ((size)(end - top) < bytes) {
        size pages = (bytes - (size)(end - top) + PAGE - 1) / PAGE;
        if (pages < GROWTH) pages = GROWTH;
        if (__builtin_wasm_memory_grow(0, pages) == (size)-1) return 0;
        end += pages * PAGE;
    }
    byte *at = top;
    top += bytes;
    return at;
}

void *malloc(size bytes) {
    size place = place_of(bytes);
    if (place >= PLACES) return 0;
    block *found = waiting[place];
    if (found) {
        waiting[place] = found->next;
        return found + 1;
    }
    found = (block *)cut(sizeof *found + ((size_of(place) + 15) & ~(size)15));
    if (!found) return 0;
    found->place = place;
    return found + 1;
}

void free(void *at) {
    if (!at) return;
    block *freed = (block *)at - 1;
    freed->next = waiting[freed->place];
    waiting[freed->place] = freed;
}

/* A block stays where it is as long as it is large enough, unless it would be more than four times too large. */
void *realloc(void *at, size bytes) {
    if (!at) return malloc(bytes);
    size has = size_of(((block *)at - 1)->place);
    if (bytes <= has && bytes >= has / 4) return at;
    void *to = malloc(bytes);
    if (!to) return bytes <= has ? at : 0;
    __builtin_memcpy(to, at, bytes < has ? bytes : has);
    free(at);
    return to;
}
