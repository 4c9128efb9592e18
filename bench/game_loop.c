/* A game of 20 ticks a second on libpathserve: 300 units on 512 by 512 navcells among buildings that come and go. 200 walk in
 * four groups, each by one flow field; 100 walk alone by smoothed waypoints that a finder found. A turn ends in each tick.
 * bench/game_loop counts what each call of it costs. Each field, line of sight and smoothing is done by own_ways.h too, and must
 * come out alike, but for the smoothing, which keeps more. */
#include "own_ways.h"
#include <pathserve.h>
#include <stdio.h>
#include <stdlib.h>
#include <string.h>

enum { SIDE = 512, GROUPS = 4, A_GROUP = 50, ALONE = 100, BUILDINGS = 300, ORDERS = 2, MOST = 256 };
enum { INFANTRY = 0, SIEGE = 1, SPEED = PATHSERVE_NAVCELL / 4, CLEARANCE = PATHSERVE_NAVCELL * 3 / 4, STATUS_OF_A_BUG = 99 };

typedef struct { pathserve_fixed x, z; } point;

/* Who walks alone: the waypoints that are ahead, of which `next` is the first. */
typedef struct { point at; pathserve_cell ahead[MOST]; size_t next, count; } walker;

typedef struct { point at[A_GROUP], next[A_GROUP]; pathserve_post order; uint8_t steps[SIDE * SIDE]; int is_old; } group;

static pathserve_match match;
static pathserve_view view;
static pathserve_finder finder;
static group groups[GROUPS];
static walker walkers[ALONE];
static uint32_t newest = 0, oldest = 1;
static unsigned long fields = 0, paths = 0, cut = 0, kept_here = 0, kept_by_own = 0;
static pathserve_post *buildings; /* those that were added, by their numbers */

static void must(pathserve_status status) {
    if (status == PATHSERVE_DONE) return;
    fprintf(stderr, "game_loop: status %u\n", status);
    exit((int)status);
}

static void same(int is_same, const char *what) {
    if (is_same) return;
    fprintf(stderr, "game_loop: the game has another %s\n", what);
    exit(STATUS_OF_A_BUG);
}

/* ---- numbers ---- */

static uint32_t drawn(uint32_t below) {
    static uint64_t state = 12345;
    state = state * 6364136223846793005u + 1442695040888963407u;
    return (uint32_t)(state >> 33) % below;
}

static pathserve_fixed middle(uint32_t of) { return (pathserve_fixed)(of * PATHSERVE_NAVCELL + PATHSERVE_NAVCELL / 2); }

static point somewhere(void) {
    point made = {middle(8 + drawn(SIDE - 16)), middle(8 + drawn(SIDE - 16))};
    return made;
}

static pathserve_cell cell_of(point at) {
    pathserve_cell cell = {(uint16_t)(at.x / PATHSERVE_NAVCELL), (uint16_t)(at.z / PATHSERVE_NAVCELL)};
    return cell;
}

static point middle_of(pathserve_cell cell) {
    point made = {middle(cell.i), middle(cell.j)};
    return made;
}

static int64_t root(int64_t square) {
    int64_t low = 0, high = (int64_t)1 << 31;
    while (high - low > 1) {
        int64_t half = (low + high) / 2;
        if (half * half <= square) low = half;
        else high = half;
    }
    return low;
}

static point toward(point from, point to) {
    int64_t east = (int64_t)to.x - from.x, north = (int64_t)to.z - from.z, far = root(east * east + north * north);
    if (far <= SPEED) return to;
    from.x += (pathserve_fixed)(east * SPEED / far);
    from.z += (pathserve_fixed)(north * SPEED / far);
    return from;
}

/* ---- posts ---- */

static pathserve_post added(uint32_t id) {
    point at = somewhere();
    pathserve_post post = {.kind = PATHSERVE_ADD_UNIT, .id = id, .mask = 3, .x = at.x, .z = at.z, .radius = 3 * PATHSERVE_NAVCELL};
    own_paint(&post, CLEARANCE, 1);
    return buildings[id] = post;
}

static pathserve_post removed(uint32_t id) {
    own_paint(&buildings[id], CLEARANCE, -1);
    pathserve_post post = {.kind = PATHSERVE_REMOVE, .id = id};
    return post;
}

static pathserve_post order(point from, point to, uint8_t class_number) {
    pathserve_post post = {.kind = PATHSERVE_PATH, .class_number = class_number, .x = from.x, .z = from.z,
                           .goal = PATHSERVE_POINT, .goal_x = to.x, .goal_z = to.z};
    return post;
}

/* ---- groups ---- */

static void lead(group *its) {
    static uint8_t own[SIDE * SIDE];
    pathserve_reply reply;
    must(pathserve_field(&view, &its->order, &reply, its->steps, SIDE * SIDE, NULL, 0));
    own_field(&its->order, &reply, own);
    /* the library's has no steps in areas from which the group does not come */
    for (int k = 0; k < SIDE * SIDE; k++) same(its->steps[k] == PATHSERVE_NO_STEP || its->steps[k] == own[k], "field");
    its->is_old = 0;
    fields++;
}

static void gather(group *its) {
    point from = somewhere();
    for (int k = 0; k < A_GROUP; k++) {
        point at = {from.x + (k % 7 - 3) * PATHSERVE_NAVCELL, from.z + (k / 7 - 3) * PATHSERVE_NAVCELL};
        its->at[k] = its->next[k] = at;
    }
}

static void send(group *its) {
    its->order = order(its->at[0], somewhere(), INFANTRY);
    its->order.goal = PATHSERVE_CIRCLE;
    its->order.radius = 4 * PATHSERVE_NAVCELL;
    lead(its);
}

static void walk_group(group *its) {
    static const int east[10] = {0, 0, 1, 0, -1, 1, 1, -1, -1, 0}, north[10] = {0, 1, 0, -1, 0, 1, -1, -1, 1, 0};
    for (int k = 0; k < A_GROUP; k++) {
        point *at = &its->at[k], *next = &its->next[k];
        if (at->x == next->x && at->z == next->z) {
            pathserve_cell cell = cell_of(*at);
            uint8_t step = its->steps[(size_t)cell.j * SIDE + cell.i];
            /* a unit under a building goes to the nearest cell that is passable */
            if (step == PATHSERVE_NO_STEP && pathserve_nearest(&view, INFANTRY, at->x, at->z, &cell) != 0) *next = middle_of(cell);
            next->x += east[step] * PATHSERVE_NAVCELL;
            next->z += north[step] * PATHSERVE_NAVCELL;
        }
        *at = toward(*at, *next);
    }
}

/* ---- those who walk alone ---- */

static void find(walker *its, point to) {
    pathserve_post post = order(its->at, to, INFANTRY);
    pathserve_reply reply;
    pathserve_cell own[MOST];
    size_t kept = 0;
    must(pathserve_find_with(&finder, &view, &post, &reply, its->ahead, MOST));
    its->next = its->count = 0;
    paths++;
    if (reply.kind != PATHSERVE_AT_GOAL && reply.kind != PATHSERVE_NEAR_GOAL) return;
    if (reply.waypoints > MOST) exit(STATUS_OF_A_BUG);
    memcpy(own, its->ahead, sizeof own);
    must(pathserve_smooth(&view, INFANTRY, &reply.start, its->ahead, reply.waypoints, &kept));
    its->count = kept;
    kept_here += kept;
    kept_by_own += own_smooth(reply.start, own, reply.waypoints);
}

/* Whether the line to the next waypoint is still clear. */
static int is_clear(const walker *its) {
    pathserve_cell from = cell_of(its->at);
    if (its->next == its->count) return 1;
    uint32_t is = pathserve_clear(&view, INFANTRY, &from, &its->ahead[its->next]);
    same((int)is == own_clear(from, its->ahead[its->next]), "line of sight");
    return is != 0;
}

static void walk_alone(walker *its) {
    point to;
    if (its->next == its->count) {
        find(its, somewhere());
        return;
    }
    to = middle_of(its->ahead[its->next]);
    its->at = toward(its->at, to);
    if (its->at.x == to.x && its->at.z == to.z) its->next++;
}

/* ---- the loop ---- */

static void look_again(void) {
    pathserve_view_close(&view);
    must(pathserve_view_of(&match, &view));
}

/* The map has changed: whose next line is cut asks again, and the fields are made again, one a tick. */
static void changed(void) {
    for (int k = 0; k < ALONE; k++)
        if (!is_clear(&walkers[k])) {
            find(&walkers[k], middle_of(walkers[k].ahead[walkers[k].count - 1]));
            cut++;
        }
    for (int k = 0; k < GROUPS; k++) groups[k].is_old = 1;
}

static void orders(int tick) {
    pathserve_post posts[ORDERS + 2];
    size_t count = 0;
    if (tick % 10 == 0) posts[count++] = added(++newest);
    if (tick % 10 == 5) posts[count++] = removed(oldest++);
    for (int k = 0; k < ORDERS; k++) posts[count++] = order(walkers[drawn(ALONE)].at, somewhere(), SIEGE);
    must(pathserve_post_all(&match, posts, count));
}

static void turn(int tick) {
    static pathserve_reply replies[ORDERS + 2];
    static pathserve_cell waypoints[ORDERS * MOST];
    pathserve_turn ended;
    orders(tick);
    must(pathserve_end_turn(&match, &ended));
    pathserve_replies(&match, 0, replies, ORDERS + 2);
    pathserve_waypoints(&match, 0, waypoints, ORDERS * MOST);
    look_again();
    if (ended.relabelled != 0) changed();
}

static void tick(int number) {
    turn(number);
    if (number % 100 >= 50 && number % 100 < 50 + GROUPS) send(&groups[number % 100 - 50]);
    for (int k = 0; k < GROUPS; k++)
        if (groups[k].is_old) {
            lead(&groups[k]);
            break;
        }
    for (int k = 0; k < GROUPS; k++) walk_group(&groups[k]);
    for (int k = 0; k < ALONE; k++) walk_alone(&walkers[k]);
}

static void begin(void) {
    static pathserve_post posts[BUILDINGS];
    const pathserve_map map = {SIDE, SIDE, 1};
    const pathserve_class classes[2] = {{"infantry", 8, CLEARANCE}, {"siege", 5, PATHSERVE_NAVCELL * 5 / 2}};
    pathserve_turn ended;
    for (int k = 0; k < BUILDINGS; k++) posts[k] = added(++newest);
    must(pathserve_open_map(&match, &map, classes, 2, NULL, 0));
    must(pathserve_post_all(&match, posts, BUILDINGS));
    must(pathserve_end_turn(&match, &ended));
    must(pathserve_view_of(&match, &view));
    must(pathserve_finder_open(&finder));
    for (int k = 0; k < GROUPS; k++) {
        gather(&groups[k]);
        send(&groups[k]);
    }
    for (int k = 0; k < ALONE; k++) walkers[k].at = somewhere();
}

int main(int count, char **words) {
    int ticks = count > 1 ? atoi(words[1]) : 200;
    buildings = calloc((size_t)BUILDINGS + (size_t)ticks + 1, sizeof *buildings);
    begin();
    for (int number = 0; number < ticks; number++) tick(number);
    same(own_is_seen(&view), "map");
    printf("%d ticks, %lu fields, %lu paths alone, of which %lu were cut\n", ticks, fields, paths, cut);
    printf("of their waypoints smoothing keeps %lu, the game's own %lu\n", kept_here, kept_by_own);
    free(buildings);
    pathserve_finder_close(&finder);
    pathserve_view_close(&view);
    pathserve_close(&match);
    return 0;
}
