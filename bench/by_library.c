/* Plays paths of standard input by the library for bench/by_library.py: by_library HOW COUNT. All input is read first:
 *     SIDE, the number of rectangles that block, these as I0 J0 I1 J1, the numbers of turns and of paths of each, and the
 *     paths as I J I J, from one cell to another.
 * HOW is `turns`, by which the first COUNT turns are played and their replies and waypoints taken, or `find`, `finder` or `all`,
 * by which the paths of the first COUNT turns are asked on a view. It writes a checksum of all costs and waypoints. */
#include <inttypes.h>
#include <stdio.h>
#include <stdlib.h>
#include <string.h>
#include <pathserve.h>

enum { MOST_WAYPOINTS = 1 << 20 };

static uint64_t sum;
static pathserve_cell waypoints[MOST_WAYPOINTS];

static void must(int is_well, const char *what) {
    if (!is_well) fprintf(stderr, "by_library: %s failed\n", what), exit(1);
}

static unsigned number(void) {
    unsigned it;
    must(scanf("%u", &it) == 1, "reading");
    return it;
}

static void add(const pathserve_reply *reply, const pathserve_cell *first) {
    sum = sum * 31 + reply->cost;
    for (uint64_t k = 0; k < reply->waypoints; k++) sum = sum * 31 + (uint64_t)first[k].i * 65536 + first[k].j;
}

static void play(pathserve_match *match, const pathserve_post *posts, size_t many, pathserve_reply *replies) {
    pathserve_turn turn;
    must(pathserve_post_all(match, posts, many) == PATHSERVE_DONE, "posting");
    must(pathserve_end_turn(match, &turn) == PATHSERVE_DONE, "ending a turn");
    pathserve_waypoints(match, 0, waypoints, MOST_WAYPOINTS);
    must(pathserve_replies(match, 0, replies, many) == many, "taking the replies");
    for (size_t k = 0; k < many; k++) add(&replies[k], waypoints + replies[k].first_waypoint);
}

static void find(pathserve_match *match, const char *how, const pathserve_post *posts, size_t many, pathserve_reply *replies) {
    pathserve_view view = PATHSERVE_CLOSED_HANDLE;
    pathserve_finder finder = PATHSERVE_CLOSED_HANDLE;
    must(pathserve_view_of(match, &view) == PATHSERVE_DONE, "a view");
    must(pathserve_finder_open(&finder) == PATHSERVE_DONE, "a finder");
    if (strcmp(how, "all") == 0) {
        must(pathserve_find_all(&finder, &view, posts, many, replies, many, waypoints, MOST_WAYPOINTS) == PATHSERVE_DONE, how);
        for (size_t k = 0; k < many; k++) add(&replies[k], waypoints + replies[k].first_waypoint);
    }
    for (size_t k = 0; k < many && strcmp(how, "all") != 0; k++) {
        must((strcmp(how, "find") == 0 ? pathserve_find(&view, &posts[k], replies, waypoints, MOST_WAYPOINTS)
                                       : pathserve_find_with(&finder, &view, &posts[k], replies, waypoints, MOST_WAYPOINTS))
                 == PATHSERVE_DONE,
             how);
        add(replies, waypoints);
    }
    pathserve_finder_close(&finder);
    pathserve_view_close(&view);
}

int main(int count, char **words) {
    const pathserve_class class = {"c0", 2, 0};
    must(count == 3, "reading the words");
    const unsigned side = number(), rects = number(), taken = (unsigned)atoi(words[2]);
    const pathserve_map map = {side, side, 1};
    pathserve_rect *base = calloc(rects + 1, sizeof *base);
    for (unsigned k = 0; k < rects; k++) {
        unsigned i0 = number(), j0 = number(), i1 = number(), j1 = number();
        base[k] = (pathserve_rect){(uint16_t)i0, (uint16_t)j0, (uint16_t)i1, (uint16_t)j1, 1, 0};
    }
    const unsigned turns = number(), many = number();
    pathserve_post *posts = calloc((size_t)turns * many + 1, sizeof *posts);
    pathserve_reply *replies = calloc((size_t)turns * many + 1, sizeof *replies);
    for (unsigned k = 0; k < turns * many; k++) {
        pathserve_fixed at[4];
        for (int n = 0; n < 4; n++) at[n] = (pathserve_fixed)(number() * PATHSERVE_NAVCELL + PATHSERVE_NAVCELL / 2);
        posts[k] = (pathserve_post){.kind = PATHSERVE_PATH, .x = at[0], .z = at[1], .goal = PATHSERVE_POINT, .goal_x = at[2], .goal_z = at[3]};
    }
    pathserve_match match = PATHSERVE_CLOSED_HANDLE;
    must(pathserve_open_map(&match, &map, &class, 1, base, rects) == PATHSERVE_DONE, "opening");
    for (unsigned turn = 0; turn < taken && strcmp(words[1], "turns") == 0; turn++) {
        play(&match, posts + (size_t)turn * many, many, replies);
    }
    if (strcmp(words[1], "turns") != 0) find(&match, words[1], posts, (size_t)taken * many, replies);
    pathserve_close(&match);
    printf("%" PRIu64 "\n", sum);
    return 0;
}
