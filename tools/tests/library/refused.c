/* Refuses each allocation in turn: refused SCRIPT. A match by text that is fed the script, and one by structs, each with
 * views, must tell the same in the end as where nothing is refused, and a prefix of it where nothing is given any more. All
 * that was taken is given back. Link it with libpathserve_noheap.a. */
#include <stdio.h>
#include <stdlib.h>
#include <string.h>
#include <pathserve.h>

static size_t calls, first_refused, live;
static int refuses_on, was_refused;

static int refuses(void) {
    calls++;
    if (!first_refused || calls < first_refused || (calls > first_refused && !refuses_on)) return 0;
    was_refused = 1;
    return 1;
}

#ifdef _WIN32
/* There the three functions are those of C (pathserve.h, "memory of your own"). */
void *pathserve_malloc(size_t bytes) {
    if (refuses()) return NULL;
    live++;
    return malloc(bytes);
}

void *pathserve_realloc(void *block, size_t bytes) { return refuses() ? NULL : realloc(block, bytes); }

void pathserve_free(void *block) {
    live--;
    free(block);
}
#else
typedef struct { uint8_t ok; void *block; } rattle_block;

static rattle_block found(void *block) {
    static char none;
    return block ? (rattle_block){1, block} : (rattle_block){0, &none};
}

rattle_block rattle_alloc(size_t bytes, size_t align) {
    if (refuses()) return found(NULL);
    live++;
    return found(malloc(bytes ? bytes : align));
}

rattle_block rattle_realloc(void *block, size_t kept, size_t bytes, size_t align) {
    (void)kept;
    return refuses() ? found(NULL) : found(realloc(block, bytes ? bytes : align));
}

void rattle_dealloc(void *block) {
    live--;
    free(block);
}
#endif

static uint8_t script[1 << 20], whole_text[1 << 20], text[1 << 20];
static size_t script_length, whole_length, length;

static void fail(const char *why, size_t at) {
    printf("FAILED at allocation %zu: %s\n", at, why);
    exit(1);
}

static void tell(const void *bytes, size_t count) {
    memcpy(text + length, bytes, count);
    length += count;
}

/* Calls again as long as there was no memory, unless it is refused for good. */
#define AGAIN(status, call)                                          \
    do {                                                             \
        status = (call);                                             \
    } while (status == PATHSERVE_NO_MEMORY && !refuses_on)

static const pathserve_post ask = {.kind = PATHSERVE_PATH, .caller = 1, .class_number = 1, .goal = PATHSERVE_CIRCLE, .x = 688128,
                                   .z = 229376, .goal_x = 98304, .goal_z = 229376, .radius = 65536};

/* A finder answers by the view what pathserve_find has told. */
static pathserve_status find_again(pathserve_view *view, const pathserve_reply *told, const pathserve_cell *cells) {
    pathserve_finder finder = {0};
    pathserve_reply reply, replies[3];
    pathserve_cell waypoints[64], all[192];
    const pathserve_post posts[3] = {ask, ask, ask};
    size_t bytes = sizeof *cells * told->waypoints;
    pathserve_status status;
    AGAIN(status, pathserve_finder_open(&finder));
    for (int round = 0; status == PATHSERVE_DONE && round < 2; round++) {
        AGAIN(status, pathserve_find_with(&finder, view, &ask, &reply, waypoints, 64));
        if (status == PATHSERVE_DONE && (memcmp(&reply, told, sizeof reply) || memcmp(waypoints, cells, bytes)))
            fail("a finder told another path", first_refused);
    }
    if (status == PATHSERVE_DONE) AGAIN(status, pathserve_find_all(&finder, view, posts, 3, replies, 3, all, 192));
    for (size_t k = 0; status == PATHSERVE_DONE && k < 3; k++)
        if (replies[k].post != k || replies[k].first_waypoint != k * told->waypoints || replies[k].cost != told->cost ||
            memcmp(all + replies[k].first_waypoint, cells, bytes))
            fail("a finder told other paths", first_refused);
    pathserve_finder_close(&finder);
    return status;
}

/* A view of a match, another view of the same, and a path that it is asked for. */
static pathserve_status look(pathserve_match *match) {
    pathserve_view view = {0}, other = {0};
    pathserve_reply reply;
    pathserve_cell waypoints[64];
    pathserve_post adds[16];
    uint64_t words[1] = {0}, distances[96] = {0}, standing = 0;
    uint8_t steps[96] = {0};
    size_t kept = 0;
    pathserve_status status;
    AGAIN(status, pathserve_view_of(match, &view));
    if (status == PATHSERVE_DONE) AGAIN(status, pathserve_view_again(&view, &other));
    if (status == PATHSERVE_DONE) AGAIN(status, pathserve_find(&other, &ask, &reply, waypoints, 64));
    if (status == PATHSERVE_DONE) status = find_again(&view, &reply, waypoints);
    if (status == PATHSERVE_DONE) {
        tell(&reply, sizeof reply);
        tell(waypoints, sizeof *waypoints * reply.waypoints);
        if (pathserve_row(&view, 0, 3, words, 1) != 1) fail("a row was not told", first_refused);
        tell(words, sizeof words);
        AGAIN(status, pathserve_smooth(&other, ask.class_number, &reply.start, waypoints, reply.waypoints, &kept));
        if (status == PATHSERVE_DONE) tell(waypoints, sizeof *waypoints * kept);
    }
    if (status == PATHSERVE_DONE) AGAIN(status, pathserve_standing(&view, 0, adds, 16, &standing));
    if (status == PATHSERVE_DONE) tell(adds, sizeof *adds * (standing < 16 ? standing : 16));
    if (status == PATHSERVE_DONE) AGAIN(status, pathserve_field(&other, &ask, &reply, steps, 96, distances, 96));
    if (status == PATHSERVE_DONE) {
        tell(steps, sizeof steps);
        tell(distances, sizeof distances);
    }
    pathserve_view_close(&other);
    pathserve_view_close(&view);
    return status;
}

/* Feeds bytes in small pieces; after there was no memory, what is left of a piece. */
static pathserve_status feed_all(pathserve_match *match, const uint8_t *bytes, size_t count) {
    pathserve_status status = PATHSERVE_DONE;
    size_t at = 0, taken;
    while (status == PATHSERVE_DONE && at < count) {
        size_t piece = count - at < 7 ? count - at : 7;
        status = pathserve_feed(match, bytes + at, piece, &taken);
        if (status != PATHSERVE_NO_MEMORY && taken != piece) fail("a piece was not taken", first_refused);
        at += taken;
        if (status == PATHSERVE_NO_MEMORY && !refuses_on) status = PATHSERVE_DONE;
    }
    return status;
}

static pathserve_status play_text(void) {
    pathserve_match match = {0};
    pathserve_status status;
    AGAIN(status, pathserve_open(&match, PATHSERVE_SMOOTH));
    if (status == PATHSERVE_DONE) status = feed_all(&match, script, script_length);
    if (status == PATHSERVE_DONE) AGAIN(status, pathserve_finish(&match));
    length += pathserve_take(&match, text + length, sizeof text - length);
    if (status == PATHSERVE_DONE) status = look(&match);
    pathserve_close(&match);
    return status;
}

/* A bad line, and its cause, of a match and of a script. */
static pathserve_status play_bad_line(void) {
    static const uint8_t bad[] = "{\"version\":4}\n";
    pathserve_match match = {0};
    pathserve_status status;
    size_t bytes = 0;
    uint64_t line = 0;
    AGAIN(status, pathserve_open(&match, PATHSERVE_REPLAY));
    if (status == PATHSERVE_DONE) status = feed_all(&match, bad, sizeof bad - 1);
    if (status == PATHSERVE_DONE) AGAIN(status, pathserve_finish(&match));
    if (status == PATHSERVE_BAD_LINE) AGAIN(status, pathserve_cause(&match, text + length, sizeof text - length, &bytes));
    if (status == PATHSERVE_DONE) length += bytes;
    if (status == PATHSERVE_DONE)
        AGAIN(status, pathserve_script_cause(bad, sizeof bad - 1, &line, text + length, sizeof text - length, &bytes));
    if (status == PATHSERVE_DONE) length += bytes;
    if (status == PATHSERVE_DONE && line != 1) fail("another bad line", first_refused);
    pathserve_close(&match);
    return status;
}

static const pathserve_map map = {12, 8, 2};
static const pathserve_class classes[2] = {{"infantry", 8, 32768}, {"siege", 5, 98304}};
static const pathserve_rect north = {0, 7, 11, 7, 3, 0};
static uint16_t masks[96];

static pathserve_status play_turn(pathserve_match *match, const pathserve_post *posts, size_t count) {
    pathserve_status status;
    pathserve_turn turn;
    pathserve_reply replies[8];
    pathserve_cell waypoints[64];
    AGAIN(status, pathserve_post_all(match, posts, count));
    if (status == PATHSERVE_DONE) AGAIN(status, pathserve_end_turn(match, &turn));
    if (status != PATHSERVE_DONE) return status;
    tell(&turn, sizeof turn);
    tell(replies, sizeof *replies * pathserve_replies(match, 0, replies, 8));
    tell(waypoints, sizeof *waypoints * pathserve_waypoints(match, 0, waypoints, 64));
    return status;
}

/* A match is opened from its journal and from a snapshot, and its journal begins anew: it stays in step. */
static pathserve_status go_on(pathserve_match *match, const uint8_t *journal, size_t bytes) {
    static uint8_t saved[4096], again[4096];
    pathserve_match from_journal = {0}, from_snapshot = {0};
    pathserve_view view = {0};
    uint64_t bad_line = 0, digest = 0, other = 0, stands = 0;
    size_t size = 0, other_size = 0;
    pathserve_status status;
    AGAIN(status, pathserve_view_of(match, &view));
    if (status == PATHSERVE_DONE) AGAIN(status, pathserve_snapshot(&view, saved, sizeof saved, &size));
    if (status == PATHSERVE_DONE) AGAIN(status, pathserve_view_digest(&view, &stands));
    pathserve_view_close(&view);
    if (status == PATHSERVE_DONE) AGAIN(status, pathserve_open_script(&from_journal, journal, bytes, &bad_line));
    if (status == PATHSERVE_DONE) AGAIN(status, pathserve_open_script(&from_snapshot, saved, size, &bad_line));
    if (status == PATHSERVE_DONE) AGAIN(status, pathserve_turn_digest(match, &digest));
    if (status == PATHSERVE_DONE) AGAIN(status, pathserve_turn_digest(&from_journal, &other));
    if (status == PATHSERVE_DONE && digest != other) fail("a match opened from its journal has another digest", first_refused);
    if (status == PATHSERVE_DONE) AGAIN(status, pathserve_forget(match));
    if (status == PATHSERVE_DONE) AGAIN(status, pathserve_journal(match, again, sizeof again, &other_size));
    if (status == PATHSERVE_DONE && (other_size != size || memcmp(again, saved, size))) fail("another journal", first_refused);
    if (status == PATHSERVE_DONE) tell(saved, size);
    if (status == PATHSERVE_DONE) tell(&stands, sizeof stands);
    if (status == PATHSERVE_DONE) status = play_turn(match, &ask, 1);
    if (status == PATHSERVE_DONE) status = play_turn(&from_snapshot, &ask, 1);
    pathserve_close(&from_snapshot);
    pathserve_close(&from_journal);
    return status;
}

static pathserve_status play_posts(int is_grid) {
    const pathserve_post first[] = {
        {.kind = PATHSERVE_ADD_SQUARE, .id = 1, .mask = 3, .x = 393216, .z = 196608, .ux = 65536, .hw = 32768, .hh = 131072},
        {.kind = PATHSERVE_PATH, .goal = PATHSERVE_OBSTRUCTION, .id = 1, .x = 98304, .z = 98304, .radius = 65536},
        ask,
        {.kind = PATHSERVE_REGION, .caller = 1, .class_number = 1, .x = 425984, .z = 229376},
    };
    const pathserve_post second[] = {{.kind = PATHSERVE_MOVE, .id = 1, .x = 393216, .z = 65536}, {.kind = PATHSERVE_REMOVE, .id = 2}, ask};
    static uint8_t journal[4096];
    pathserve_match match = {0};
    pathserve_status status;
    size_t bytes = 0;
    AGAIN(status, is_grid ? pathserve_open_grid(&match, &map, classes, 2, masks, 96)
                          : pathserve_open_map(&match, &map, classes, 2, &north, 1));
    if (status == PATHSERVE_DONE) status = play_turn(&match, first, 4);
    if (status == PATHSERVE_DONE) status = play_turn(&match, second, 3);
    if (status == PATHSERVE_DONE) status = look(&match);
    if (status == PATHSERVE_DONE) AGAIN(status, pathserve_journal(&match, journal, sizeof journal, &bytes));
    if (status == PATHSERVE_DONE) tell(journal, bytes);
    if (status == PATHSERVE_DONE) status = go_on(&match, journal, bytes);
    pathserve_close(&match);
    return status;
}

static pathserve_status play_structs(void) { return play_posts(0); }

/* The same on a grid that blocks what the rectangle does. */
static pathserve_status play_grid(void) {
    for (size_t i = 0; i < 12; i++) masks[7 * 12 + i] = 3;
    return play_posts(1);
}

static size_t refuse_each(pathserve_status (*play)(void)) {
    first_refused = length = 0;
    if (play() != PATHSERVE_DONE) fail("where nothing is refused", 0);
    memcpy(whole_text, text, whole_length = length);
    for (size_t at = 1;; at++) {
        for (refuses_on = 0; refuses_on < 2; refuses_on++) {
            calls = length = 0;
            first_refused = at;
            was_refused = 0;
            pathserve_status status = play();
            if (!was_refused) return at - 1;
            if (live) fail("not all was given back", at);
            if (status != (refuses_on ? PATHSERVE_NO_MEMORY : PATHSERVE_DONE) && !(refuses_on && status == PATHSERVE_DONE))
                fail("another status", at);
            if (length > whole_length || memcmp(text, whole_text, length)) fail("another text", at);
            if (status == PATHSERVE_DONE && length != whole_length) fail("a text that is not whole", at);
        }
    }
}

int main(int count, char **words) {
    FILE *file = count == 2 ? fopen(words[1], "rb") : NULL;
    if (!file) return 2;
    script_length = fread(script, 1, sizeof script, file);
    fclose(file);
    size_t by_text = refuse_each(play_text);
    printf("%zu allocations by text, %zu by structs", by_text, refuse_each(play_structs));
    printf(", %zu by a grid, %zu of a bad line\n", refuse_each(play_grid), refuse_each(play_bad_line));
    return 0;
}
