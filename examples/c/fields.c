/* Three units of a group walk to one goal by one flow field, and a single one by smoothed waypoints. */
#include <inttypes.h>
#include <stdio.h>
#include <pathserve.h>

#define NAVCELLS(count) ((pathserve_fixed)((count) * PATHSERVE_NAVCELL))

enum { WIDTH = 12, HEIGHT = 8, UNITS = 3 };

/* how far each step leads, by its number */
static const int8_t east[10] = {0, 0, 1, 0, -1, 1, 1, -1, -1, 0}, north[10] = {0, 1, 0, -1, 0, 1, -1, -1, 1, 0};

static uint8_t steps[WIDTH * HEIGHT];
static uint64_t distances[WIDTH * HEIGHT];

static void draw(void) {
    static const char *const signs[10] = {"#", "|", "-", "|", "-", "/", "\\", "/", "\\", "*"};
    for (int j = HEIGHT; j-- > 0;) {
        for (int i = 0; i < WIDTH; i++) fputs(signs[steps[j * WIDTH + i]], stdout);
        putchar('\n');
    }
}

/* The view is needed no more: any thread may read the steps. */
static void walk(pathserve_cell unit) {
    size_t at = (size_t)unit.j * WIDTH + unit.i;
    unsigned count = 0;
    if (steps[at] == PATHSERVE_NO_STEP) {
        printf("unit %u,%u can't get there\n", unit.i, unit.j);
        return;
    }
    printf("unit %u,%u has %.1f navcells to go", unit.i, unit.j, (double)distances[at] / PATHSERVE_NAVCELL);
    for (; steps[at] != PATHSERVE_STEP_STAYS; count++) {
        uint8_t step = steps[at];
        unit.i = (uint16_t)(unit.i + east[step]);
        unit.j = (uint16_t)(unit.j + north[step]);
        at = (size_t)unit.j * WIDTH + unit.i;
    }
    printf(", is there after %u steps, at %u,%u\n", count, unit.i, unit.j);
}

/* The waypoints of a path, smoothed; and whether the goal is in sight from its start. */
static pathserve_status smooth(pathserve_view *view, const pathserve_post *post) {
    pathserve_reply reply;
    pathserve_cell waypoints[32];
    size_t kept = 0;
    pathserve_status status = pathserve_find(view, post, &reply, waypoints, 32);
    if (status == PATHSERVE_DONE && reply.waypoints <= 32)
        status = pathserve_smooth(view, post->class_number, &reply.start, waypoints, reply.waypoints, &kept);
    if (status != PATHSERVE_DONE) return status;
    printf("%" PRIu64 " waypoints, smoothed:", reply.waypoints);
    for (size_t k = 0; k < kept; k++) printf(" %u,%u", waypoints[k].i, waypoints[k].j);
    printf("; its end is %s\n", pathserve_clear(view, post->class_number, &reply.start, &reply.end) ? "in sight" : "not in sight");
    return status;
}

int main(void) {
    const pathserve_map map = {.width = WIDTH, .height = HEIGHT, .callers = 1};
    const pathserve_class infantry = {"infantry", 8, NAVCELLS(0.5)};
    const pathserve_rect base[2] = {{0, 6, 3, 6, 1, 0}, {3, 7, 3, 7, 1, 0}}; /* a closed corner in the northwest */
    const pathserve_post wall = {.kind = PATHSERVE_ADD_SQUARE, .id = 1, .mask = 1, .x = NAVCELLS(6), .z = NAVCELLS(3),
                                 .ux = NAVCELLS(1), .hw = NAVCELLS(0.5), .hh = NAVCELLS(2)};
    const pathserve_post order = {.kind = PATHSERVE_PATH, .x = NAVCELLS(1.5), .z = NAVCELLS(1.5),
                                  .goal = PATHSERVE_POINT, .goal_x = NAVCELLS(10.5), .goal_z = NAVCELLS(3.5)};
    const pathserve_cell units[UNITS] = {{1, 1}, {4, 4}, {1, 7}};
    pathserve_match match = {0};
    pathserve_view view = {0};
    pathserve_turn turn;
    pathserve_reply reply = {0};

    pathserve_status status = pathserve_open_map(&match, &map, &infantry, 1, base, 2);
    if (status == PATHSERVE_DONE) status = pathserve_post_all(&match, &wall, 1);
    if (status == PATHSERVE_DONE) status = pathserve_end_turn(&match, &turn);
    if (status == PATHSERVE_DONE) status = pathserve_view_of(&match, &view);
    if (status == PATHSERVE_DONE)
        status = pathserve_field(&view, &order, &reply, steps, WIDTH * HEIGHT, distances, WIDTH * HEIGHT);
    if (status == PATHSERVE_DONE) status = smooth(&view, &order);
    pathserve_view_close(&view);
    pathserve_close(&match);
    if (status != PATHSERVE_DONE || reply.kind != PATHSERVE_AT_GOAL) return 1;
    draw();
    for (int k = 0; k < UNITS; k++) walk(units[k]);
    return 0;
}
