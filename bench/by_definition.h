/* What docs/FORMAT.md says of the cells of a class, as short as it can be said, and slow: for bench/random_calls.c. */
#ifndef BY_DEFINITION_H
#define BY_DEFINITION_H

#include <pathserve.h>
#include <stdlib.h>
#include <string.h>

enum { STRAIGHT = 65536, DIAGONAL = 92682, WAYS = 8, AHEAD = 64 };
static const int EAST[WAYS] = {0, 1, 0, -1, 1, 1, -1, -1}, NORTH[WAYS] = {1, 0, -1, 0, 1, -1, -1, 1};

typedef __int128 wide;

/* The passable cells of a class, row by row, the areas that they form, and distances. */
typedef struct cells {
    int width, height;
    uint8_t *free;
    uint32_t *area;
    uint64_t *far;
} cells;

static size_t count_of(const cells *its) { return (size_t)its->width * (size_t)its->height; }

static size_t place_of(const cells *its, int i, int j) { return (size_t)j * (size_t)its->width + (size_t)i; }

static int is_free(const cells *its, int i, int j) {
    return 0 <= i && i < its->width && 0 <= j && j < its->height && its->free[place_of(its, i, j)];
}

/* Whether a step leads from a passable cell in one of the eight ways: no corner is cut. */
static int leads(const cells *its, int i, int j, int way) {
    int east = EAST[way], north = NORTH[way];
    return is_free(its, i + east, j + north) && is_free(its, i + east, j) && is_free(its, i, j + north);
}

static uint64_t cost_of(int way) { return way < 4 ? STRAIGHT : DIAGONAL; }

/* ---- what blocks ---- */

static wide past(int64_t along, pathserve_fixed half) {
    wide far = (along < 0 ? -(wide)along : along) - (wide)half * PATHSERVE_NAVCELL;
    return far > 0 ? far : 0;
}

/* Whether an obstruction lies within the clearance of the middle of a cell. */
static int reaches(const pathserve_post *add, int i, int j, pathserve_fixed clearance) {
    int is_unit = add->kind == PATHSERVE_ADD_UNIT;
    int64_t ux = is_unit ? PATHSERVE_NAVCELL : add->ux, uz = is_unit ? 0 : add->uz;
    int64_t px = pathserve_make_middle((uint16_t)i) - add->x, pz = pathserve_make_middle((uint16_t)j) - add->z;
    wide a = past(px * ux + pz * uz, is_unit ? add->radius : add->hw), b = past(pz * ux - px * uz, is_unit ? add->radius : add->hh);
    wide most = (wide)clearance * PATHSERVE_NAVCELL;
    return a * a + b * b <= most * most;
}

static int is_in(const pathserve_rect *rect, int i, int j) {
    return rect->i0 <= i && i <= rect->i1 && rect->j0 <= j && j <= rect->j1;
}

/* ---- areas, the nearest cell, distances ---- */

static void flood(cells *its, size_t *waiting, size_t first, uint32_t number) {
    size_t count = 0;
    its->area[first] = number;
    waiting[count++] = first;
    while (count > 0) {
        size_t at = waiting[--count];
        int i = (int)(at % (size_t)its->width), j = (int)(at / (size_t)its->width);
        for (int way = 0; way < 4; way++) {
            if (!leads(its, i, j, way)) continue;
            size_t there = place_of(its, i + EAST[way], j + NORTH[way]);
            if (its->area[there] != 0) continue;
            its->area[there] = number;
            waiting[count++] = there;
        }
    }
}

static void find_areas(cells *its) {
    size_t *waiting = malloc(count_of(its) * sizeof *waiting);
    uint32_t number = 0;
    memset(its->area, 0, count_of(its) * sizeof *its->area);
    for (size_t k = 0; k < count_of(its); k++)
        if (its->free[k] && its->area[k] == 0) flood(its, waiting, k, ++number);
    free(waiting);
}

static int nearest(const cells *its, pathserve_fixed x, pathserve_fixed z, pathserve_cell *cell) {
    uint64_t best = UINT64_MAX;
    int is_on = 0 <= x && x < its->width * PATHSERVE_NAVCELL && 0 <= z && z < its->height * PATHSERVE_NAVCELL;
    pathserve_cell own = {(uint16_t)(x / PATHSERVE_NAVCELL), (uint16_t)(z / PATHSERVE_NAVCELL)};
    if (is_on && is_free(its, own.i, own.j)) return *cell = own, 1;
    for (int j = 0; is_on && j < its->height; j++)
        for (int i = 0; i < its->width; i++) {
            int64_t px = pathserve_make_middle((uint16_t)i) - x, pz = pathserve_make_middle((uint16_t)j) - z;
            uint64_t far = (uint64_t)(px * px + pz * pz);
            if (!is_free(its, i, j) || far >= best) continue;
            best = far;
            *cell = (pathserve_cell){(uint16_t)i, (uint16_t)j};
        }
    return best != UINT64_MAX;
}

/* The least cost from each cell to one of those where `steps` has STAYS: rounds over all cells until none gets nearer. */
static void find_distances(cells *its, const uint8_t *steps) {
    for (size_t k = 0; k < count_of(its); k++) its->far[k] = steps[k] == PATHSERVE_STEP_STAYS ? 0 : PATHSERVE_NO_DISTANCE;
    for (int changed = 1, backwards = 0; changed; backwards = !backwards) {
        changed = 0;
        for (size_t n = 0; n < count_of(its); n++) {
            size_t k = backwards ? count_of(its) - 1 - n : n;
            int i = (int)(k % (size_t)its->width), j = (int)(k / (size_t)its->width);
            for (int way = 0; its->free[k] && way < WAYS; way++) {
                if (!leads(its, i, j, way)) continue;
                uint64_t there = its->far[place_of(its, i + EAST[way], j + NORTH[way])];
                if (there == PATHSERVE_NO_DISTANCE || there + cost_of(way) >= its->far[k]) continue;
                its->far[k] = there + cost_of(way);
                changed = 1;
            }
        }
    }
}

/* The first step that leads nearer by what it costs. */
static uint8_t step_of(const cells *its, size_t k) {
    int i = (int)(k % (size_t)its->width), j = (int)(k / (size_t)its->width);
    if (its->far[k] == PATHSERVE_NO_DISTANCE) return PATHSERVE_NO_STEP;
    if (its->far[k] == 0) return PATHSERVE_STEP_STAYS;
    for (int way = 0; way < WAYS; way++)
        if (leads(its, i, j, way) && its->far[place_of(its, i + EAST[way], j + NORTH[way])] + cost_of(way) == its->far[k])
            return (uint8_t)(way + 1);
    return UINT8_MAX;
}

/* ---- lines of sight, walks, smoothing ---- */

static int is_clear(const cells *its, pathserve_cell a, pathserve_cell b) {
    int di = b.i - a.i, dj = b.j - a.j;
    for (int ei = di < 0 ? di : 0; ei <= (di < 0 ? 0 : di); ei++)
        for (int ej = dj < 0 ? dj : 0; ej <= (dj < 0 ? 0 : dj); ej++)
            if (2 * abs(di * ej - dj * ei) <= abs(di) + abs(dj) && !is_free(its, a.i + ei, a.j + ej)) return 0;
    return 1;
}

static int sign(int number) { return (number > 0) - (number < 0); }

/* Whether these are the waypoints of a legal walk from the start: each step is tried. */
static int is_walk(const cells *its, pathserve_cell start, const pathserve_cell *points, size_t count) {
    int i = start.i, j = start.j, before = -1;
    if (!is_free(its, i, j)) return 0;
    for (size_t k = 0; k < count; k++) {
        int di = points[k].i - i, dj = points[k].j - j, way = 0;
        while (way < WAYS && (EAST[way] != sign(di) || NORTH[way] != sign(dj))) way++;
        if (way == WAYS || way == before || (di != 0 && dj != 0 && abs(di) != abs(dj))) return 0;
        for (; i != points[k].i || j != points[k].j; i += EAST[way], j += NORTH[way])
            if (!leads(its, i, j, way)) return 0;
        before = way;
    }
    return 1;
}

/* Keeps, of the waypoints, the fewest that clear lines join from the start, of equally few the later ones. Gives how many. */
static size_t smoothed(const cells *its, pathserve_cell start, pathserve_cell *points, size_t count) {
    size_t *rest = calloc(count + 1, sizeof *rest), *next = calloc(count + 1, sizeof *next), kept = 0;
    for (size_t n = 1; n <= count; n++) {
        size_t at = count - n;
        for (size_t to = at + 1; to <= count && to <= at + AHEAD; to++) {
            if (!is_clear(its, at == 0 ? start : points[at - 1], points[to - 1])) continue;
            if (next[at] != 0 && rest[to] + 1 > rest[at]) continue;
            next[at] = to;
            rest[at] = rest[to] + 1;
        }
    }
    for (size_t at = next[0]; at != 0; at = at == count ? 0 : next[at]) points[kept++] = points[at - 1];
    free(rest);
    free(next);
    return kept;
}

#endif
