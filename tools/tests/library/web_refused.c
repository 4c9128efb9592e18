/* The memory of a module for a test: each allocation of the library may be refused. web_heap.c stands behind it. */
typedef unsigned long size;
void *malloc(size bytes);
void *realloc(void *at, size bytes);
void free(void *at);

static size calls, refused, live;
static int stays;

/* Refuses the allocation of a number from now on, from 1, and where `for_good` all behind it. 0 refuses none. */
void refuse(size number, int for_good) {
    calls = 0;
    refused = number;
    stays = for_good;
}

/* How many allocations there were since, and how many blocks the library has. */
size count_calls(void) { return calls; }
size count_live(void) { return live; }

static int refuses(void) {
    calls++;
    return refused && (calls == refused || (stays && calls > refused));
}

void *pathserve_malloc(size bytes) {
    void *made = refuses() ? 0 : malloc(bytes);
    live += made != 0;
    return made;
}

void *pathserve_realloc(void *at, size bytes) { return refuses() ? 0 : realloc(at, bytes); }

void pathserve_free(void *at) {
    live--;
    free(at);
}
