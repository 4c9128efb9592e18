/* Looks at what stands while a match is played: a small map, and a path that is asked by a struct and answered at once. */
#include <inttypes.h>
#include <stdio.h>
#include <string.h>
#include <pathserve.h>

#define NAVCELLS(count) ((pathserve_fixed)((count) * PATHSERVE_NAVCELL))

enum { WIDTH = 12, HEIGHT = 8, SIEGE = 1 };

static const char turn[] =
    "{\"version\":3,\"size\":[12,8],\"callers\":1,\"classes\":[{\"name\":\"infantry\",\"clearance\":\"0.5\"},"
    "{\"name\":\"siege\",\"clearance\":\"1.5\"}]}\n"
    "{\"caller\":0,\"add\":1,\"square\":[\"6\",\"3\",\"1\",\"0\",\"0.5\",\"2\"],\"mask\":3}\n"
    "{\"end\":1}\n";

static void draw(pathserve_view *view, uint32_t class_number) {
    uint64_t words[WIDTH / 64 + 1];
    for (uint32_t j = HEIGHT; j-- > 0;) {
        pathserve_row(view, class_number, j, words, sizeof words / sizeof *words);
        for (uint32_t i = 0; i < WIDTH; i++) putchar(words[i / 64] >> i % 64 & 1 ? '.' : '#');
        putchar('\n');
    }
}

static pathserve_status find(pathserve_view *view) {
    const pathserve_post west = {.kind = PATHSERVE_PATH, .class_number = SIEGE, .x = NAVCELLS(10.5), .z = NAVCELLS(3.5),
                                 .goal = PATHSERVE_CIRCLE, .goal_x = NAVCELLS(1.5), .goal_z = NAVCELLS(3.5), .radius = NAVCELLS(1)};
    pathserve_reply reply;
    pathserve_cell waypoints[16];
    pathserve_status status = pathserve_find(view, &west, &reply, waypoints, 16);
    if (status != PATHSERVE_DONE) return status;
    printf("%s, cost %" PRIu64 ":", reply.kind == PATHSERVE_AT_GOAL ? "to the goal" : "near it", reply.cost);
    for (uint64_t k = 0; k < reply.waypoints && k < 16; k++) printf(" %u,%u", waypoints[k].i, waypoints[k].j);
    putchar('\n');
    return status;
}

int main(void) {
    pathserve_match match = {0};
    pathserve_view view = {0};
    size_t taken;

    if (pathserve_version() != PATHSERVE_VERSION || pathserve_answers() != PATHSERVE_ANSWERS) return 1;
    pathserve_status status = pathserve_open(&match, PATHSERVE_REPLAY);
    if (status == PATHSERVE_DONE) status = pathserve_feed(&match, (const uint8_t *)turn, strlen(turn), &taken);
    if (status == PATHSERVE_DONE) status = pathserve_view_of(&match, &view);
    if (status == PATHSERVE_DONE) {
        draw(&view, SIEGE);
        status = find(&view);
    }
    pathserve_view_close(&view);
    pathserve_close(&match);
    return (int)status;
}
