/* How a match by structs grows: with a journal by each turn, and with none not at all. Link it with libpathserve_noheap.a. */
#include <stdio.h>
#include <stdlib.h>
#include <pathserve.h>

enum { SIDE = 64, POSTS = 32, SETTLED = 64, TURNS = 1024, HEAD = 16 };

static size_t live;

/* each block has its size before it */
static void *taken(void *block, size_t bytes) {
    if (!block) return NULL;
    live += bytes;
    *(size_t *)block = bytes;
    return (char *)block + HEAD;
}

static void *head_of(void *block) {
    char *head = (char *)block - HEAD;
    live -= *(size_t *)head;
    return head;
}

#ifdef _WIN32
void *pathserve_malloc(size_t bytes) { return taken(malloc(bytes + HEAD), bytes); }

void *pathserve_realloc(void *block, size_t bytes) {
    return block ? taken(realloc(head_of(block), bytes + HEAD), bytes) : pathserve_malloc(bytes);
}

void pathserve_free(void *block) {
    if (block) free(head_of(block));
}
#else
typedef struct { uint8_t ok; void *block; } rattle_block;

static rattle_block found(void *block) {
    static char none;
    return block ? (rattle_block){1, block} : (rattle_block){0, &none};
}

rattle_block rattle_alloc(size_t bytes, size_t align) {
    (void)align;
    return found(taken(malloc(bytes + HEAD), bytes));
}

rattle_block rattle_realloc(void *block, size_t kept, size_t bytes, size_t align) {
    (void)kept, (void)align;
    return found(taken(realloc(head_of(block), bytes + HEAD), bytes));
}

void rattle_dealloc(void *block) { free(head_of(block)); }
#endif

static void must(int is, const char *why) {
    if (is) return;
    printf("FAILED: %s\n", why);
    exit(1);
}

/* a turn in which a unit walks to and fro, and stands where it stood */
static void play(pathserve_match *match, unsigned turns) {
    for (unsigned turn = 0; turn < turns; turn++) {
        pathserve_post posts[POSTS];
        pathserve_turn told;
        for (int k = 0; k < POSTS; k++)
            posts[k] = pathserve_make_move(0, 1, (k % 2 ? 9 : 8) * PATHSERVE_NAVCELL, 8 * PATHSERVE_NAVCELL);
        must(pathserve_post_all(match, posts, POSTS) == PATHSERVE_DONE, "posts were refused");
        must(pathserve_end_turn(match, &told) == PATHSERVE_DONE, "a turn was refused");
    }
}

/* by how much a match grows in so many turns */
static size_t growth(int keeps) {
    pathserve_match match = {0};
    pathserve_map map = {SIDE, SIDE, 1};
    pathserve_class class = {"a", 1, PATHSERVE_NAVCELL};
    pathserve_post unit = pathserve_make_add_unit(0, 1, 1, 9 * PATHSERVE_NAVCELL, 8 * PATHSERVE_NAVCELL, PATHSERVE_NAVCELL);
    size_t whole = 0, before, grown;
    must(pathserve_open_map(&match, &map, &class, 1, NULL, 0) == PATHSERVE_DONE, "no match was opened");
    must(pathserve_post_all(&match, &unit, 1) == PATHSERVE_DONE, "a unit was refused");
    play(&match, SETTLED);
    before = live;
    if (!keeps) must(pathserve_keep_no_journal(&match) == PATHSERVE_DONE && live < before, "the journal was not given back");
    play(&match, SETTLED);
    before = live;
    play(&match, TURNS);
    grown = live > before ? live - before : 0;
    must(pathserve_journal(&match, NULL, 0, &whole) == (keeps ? PATHSERVE_SMALL : PATHSERVE_NO_JOURNAL), "the journal was told wrongly");
    must((whole > 0) == keeps, "the size of a journal was told wrongly");
    pathserve_close(&match);
    must(live == 0, "memory was not given back");
    return grown;
}

int main(void) {
    size_t kept = growth(1), unkept = growth(0);
    printf("with a journal %zu bytes a post, with none %zu in all\n", kept / (TURNS * POSTS), unkept);
    must(kept > 64u * TURNS * POSTS, "a journal took no memory");
    must(unkept == 0, "a match without a journal grew");
    return 0;
}
