/* See own_ways.h. */
#include "own_ways.h"
#include <stdlib.h>
#include <string.h>

enum { SIDE = 512, CELLS = SIDE * SIDE, WAYS = 8, BUCKETS = 3, STRAIGHT = 65536, DIAGONAL = 92682 };
enum { FAR = INT32_MAX };

static const int EAST[WAYS] = {0, 1, 0, -1, 1, 1, -1, -1}, NORTH[WAYS] = {1, 0, -1, 0, 1, -1, -1, 1};
static uint8_t blocked[CELLS]; /* by how many buildings */
static int32_t distances[CELLS];
static struct { uint32_t *places; size_t count; } buckets[BUCKETS];

/* ---- the grid ---- */

static int is_free(int i, int j) { return 0 <= i && i < SIDE && 0 <= j && j < SIDE && blocked[j * SIDE + i] == 0; }

static int can_step(int i, int j, int way) {
    int east = EAST[way], north = NORTH[way];
    if (!is_free(i + east, j + north)) return 0;
    return way < 4 || (is_free(i + east, j) && is_free(i, j + north));
}

static int64_t past(int64_t far, int64_t half) {
    far = far < 0 ? -far : far;
    return far > half ? far - half : 0;
}

void own_paint(const pathserve_post *building, int32_t clearance, int more) {
    int reach = (building->radius + clearance) / PATHSERVE_NAVCELL + 1;
    int i0 = building->x / PATHSERVE_NAVCELL, j0 = building->z / PATHSERVE_NAVCELL;
    for (int j = j0 - reach; j <= j0 + reach; j++)
        for (int i = i0 - reach; i <= i0 + reach; i++) {
            if (i < 0 || i >= SIDE || j < 0 || j >= SIDE) continue;
            int64_t a = past(pathserve_make_middle((uint16_t)i) - building->x, building->radius);
            int64_t b = past(pathserve_make_middle((uint16_t)j) - building->z, building->radius);
            if (a * a + b * b <= (int64_t)clearance * clearance) blocked[j * SIDE + i] = (uint8_t)(blocked[j * SIDE + i] + more);
        }
}

int own_is_seen(pathserve_view *view) {
    uint64_t words[SIDE / 64];
    for (uint32_t j = 0; j < SIDE; j++) {
        pathserve_row(view, 0, j, words, SIDE / 64);
        for (int i = 0; i < SIDE; i++)
            if ((int)(words[i / 64] >> i % 64 & 1) != is_free(i, (int)j)) return 0;
    }
    return 1;
}

/* ---- fields ---- */

static void put(uint32_t place, int32_t distance) {
    size_t bucket = (size_t)(distance / STRAIGHT) % BUCKETS;
    if (distance >= distances[place]) return;
    distances[place] = distance;
    buckets[bucket].places[buckets[bucket].count++] = place;
}

static void target(int i, int j) {
    if (is_free(i, j)) put((uint32_t)(j * SIDE + i), 0);
}

static void begin(void) {
    for (int k = 0; k < BUCKETS; k++) {
        if (buckets[k].places == NULL) buckets[k].places = malloc(WAYS * CELLS * sizeof(uint32_t));
        buckets[k].count = 0;
    }
    for (int k = 0; k < CELLS; k++) distances[k] = FAR;
}

/* A bucket is as wide as the shortest step is long, so no cell of it makes another one of it nearer. */
static void spread(void) {
    for (int32_t level = 0, empty = 0; empty < BUCKETS; level++) {
        size_t bucket = (size_t)level % BUCKETS;
        empty = buckets[bucket].count == 0 ? empty + 1 : 0;
        while (buckets[bucket].count > 0) {
            uint32_t place = buckets[bucket].places[--buckets[bucket].count];
            int i = (int)(place % SIDE), j = (int)(place / SIDE);
            if (distances[place] / STRAIGHT != level) continue;
            for (int way = 0; way < WAYS; way++)
                if (can_step(i, j, way))
                    put((uint32_t)((j + NORTH[way]) * SIDE + i + EAST[way]),
                            distances[place] + (way < 4 ? STRAIGHT : DIAGONAL));
        }
    }
}

static void tell_steps(uint8_t *steps) {
    for (int place = 0; place < CELLS; place++) {
        int i = place % SIDE, j = place / SIDE;
        steps[place] = PATHSERVE_NO_STEP;
        if (distances[place] == FAR) continue;
        if (distances[place] == 0) steps[place] = PATHSERVE_STEP_STAYS;
        for (int way = 0; way < WAYS && steps[place] == PATHSERVE_NO_STEP; way++)
            if (can_step(i, j, way) && distances[place + NORTH[way] * SIDE + EAST[way]] ==
                                               distances[place] - (way < 4 ? STRAIGHT : DIAGONAL))
                steps[place] = (uint8_t)(way + 1);
    }
}

void own_field(const pathserve_post *goal, const pathserve_reply *path, uint8_t *steps) {
    int i0 = goal->goal_x / PATHSERVE_NAVCELL, j0 = goal->goal_z / PATHSERVE_NAVCELL, reach = goal->radius / PATHSERVE_NAVCELL + 1;
    begin();
    if (path->kind == PATHSERVE_NEAR_GOAL) target(path->end.i, path->end.j);
    for (int j = j0 - reach; path->kind == PATHSERVE_AT_GOAL && j <= j0 + reach; j++)
        for (int i = i0 - reach; i <= i0 + reach; i++) {
            int64_t a = past((int64_t)i * PATHSERVE_NAVCELL + PATHSERVE_NAVCELL / 2 - goal->goal_x, PATHSERVE_NAVCELL / 2);
            int64_t b = past((int64_t)j * PATHSERVE_NAVCELL + PATHSERVE_NAVCELL / 2 - goal->goal_z, PATHSERVE_NAVCELL / 2);
            if (a * a + b * b <= (int64_t)goal->radius * goal->radius) target(i, j);
        }
    spread();
    tell_steps(steps);
}

/* ---- lines of sight, smoothing ---- */

int own_clear(pathserve_cell from, pathserve_cell to) {
    int i = from.i, j = from.j, east = to.i > i ? 1 : -1, north = to.j > j ? 1 : -1;
    int columns = abs(to.i - i), rows = abs(to.j - j), by_column = 0, by_row = 0;
    if (!is_free(i, j)) return 0;
    while (by_column < columns || by_row < rows) {
        int aside = (1 + 2 * by_column) * rows - (1 + 2 * by_row) * columns;
        if (aside == 0 && !(is_free(i + east, j) && is_free(i, j + north))) return 0;
        if (aside <= 0) i += east, by_column++;
        if (aside >= 0) j += north, by_row++;
        if (!is_free(i, j)) return 0;
    }
    return 1;
}

size_t own_smooth(pathserve_cell from, pathserve_cell *waypoints, size_t count) {
    size_t kept = 0;
    for (size_t at = 0; at < count; at++) {
        while (at + 1 < count && own_clear(from, waypoints[at + 1])) at++;
        from = waypoints[at];
        waypoints[kept++] = from;
    }
    return kept;
}
