/* Plays examples/skirmish.script by structs, without a script, and prints its answers. */
#include <inttypes.h>
#include <stdio.h>
#include <pathserve.h>

#define NAVCELLS(count) ((pathserve_fixed)((count) * PATHSERVE_NAVCELL))

enum { INFANTRY, SIEGE, CLASSES };
enum { MOST_REPLIES = 64, MOST_WAYPOINTS = 1024 }; /* of a turn here */

static void print_refusal(uint8_t why) {
    uint8_t text[PATHSERVE_TEXT];
    size_t length = pathserve_refusal_text(why, text, sizeof text);
    printf("refused %.*s\n", (int)length, (const char *)text);
}

static void print_reply(const pathserve_reply *reply, const pathserve_cell *waypoints) {
    static const char *const edit[] = {"", "added", "removed", "moved"};

    printf("%u %" PRIu32 " ", reply->caller, reply->post);
    switch (reply->kind) {
    case PATHSERVE_REFUSED: print_refusal(reply->why); return;
    case PATHSERVE_NOWHERE: puts("nowhere"); return;
    case PATHSERVE_IN_REGION:
        printf("region %u %u %u %" PRIu32 "\n", reply->chunk.i, reply->chunk.j, reply->region, reply->area);
        return;
    case PATHSERVE_AT_GOAL:
    case PATHSERVE_NEAR_GOAL:
        printf("path %u %u %u %u %s %" PRIu64 " %" PRIu64, reply->start.i, reply->start.j, reply->end.i, reply->end.j,
               reply->kind == PATHSERVE_AT_GOAL ? "goal" : "near", reply->cost, reply->waypoints);
        for (uint64_t k = reply->first_waypoint; k < reply->first_waypoint + reply->waypoints; k++)
            printf(" %u.5,%u.5", waypoints[k].i, waypoints[k].j);
        puts("");
        return;
    default: printf("%s %" PRIu32 "\n", edit[reply->kind], reply->id);
    }
}

static pathserve_status play(pathserve_match *match, const pathserve_post *posts, size_t count) {
    static pathserve_reply replies[MOST_REPLIES];
    static pathserve_cell waypoints[MOST_WAYPOINTS];
    pathserve_turn turn;
    pathserve_status status = pathserve_post_all(match, posts, count);
    if (status == PATHSERVE_DONE) status = pathserve_end_turn(match, &turn);
    if (status != PATHSERVE_DONE) return status;
    printf("turn %" PRIu64 " regions %" PRIu64 " edges %" PRIu64 " areas %" PRIu64 " relabelled %" PRIu32 "\n", turn.turn,
           turn.regions, turn.edges, turn.areas, turn.relabelled);
    pathserve_waypoints(match, 0, waypoints, MOST_WAYPOINTS);
    count = pathserve_replies(match, 0, replies, MOST_REPLIES);
    for (size_t k = 0; k < count; k++) print_reply(&replies[k], waypoints);
    return PATHSERVE_DONE;
}

int main(void) {
    const pathserve_map map = {.width = 12, .height = 8, .callers = 2};
    const pathserve_class classes[CLASSES] = {[INFANTRY] = {"infantry", 8, NAVCELLS(0.5)}, [SIEGE] = {"siege", 5, NAVCELLS(1.5)}};
    const pathserve_rect north = {.i0 = 0, .j0 = 7, .i1 = 11, .j1 = 7, .mask = 1 << INFANTRY | 1 << SIEGE};
    const pathserve_post wall = {.kind = PATHSERVE_ADD_SQUARE, .id = 1, .mask = 1 << INFANTRY | 1 << SIEGE, .x = NAVCELLS(6),
                                 .z = NAVCELLS(3), .ux = NAVCELLS(1), .hw = NAVCELLS(0.5), .hh = NAVCELLS(2)};
    const pathserve_post to_the_wall = {.kind = PATHSERVE_PATH, .class_number = INFANTRY, .x = NAVCELLS(1.5), .z = NAVCELLS(1.5),
                                        .goal = PATHSERVE_OBSTRUCTION, .id = 1, .radius = NAVCELLS(1)};
    const pathserve_post west = {.kind = PATHSERVE_PATH, .caller = 1, .class_number = SIEGE, .x = NAVCELLS(10.5), .z = NAVCELLS(3.5),
                                 .goal = PATHSERVE_CIRCLE, .goal_x = NAVCELLS(1.5), .goal_z = NAVCELLS(3.5), .radius = NAVCELLS(1)};
    const pathserve_post where = {.kind = PATHSERVE_REGION, .caller = 1, .class_number = SIEGE, .x = NAVCELLS(6.5), .z = NAVCELLS(3.5)};
    const pathserve_post aside = {.kind = PATHSERVE_MOVE, .id = 1, .x = NAVCELLS(6), .z = NAVCELLS(1)};
    const pathserve_post away = {.kind = PATHSERVE_REMOVE, .id = 2};
    pathserve_match match = {0};

    if (pathserve_version() != PATHSERVE_VERSION || pathserve_answers() != PATHSERVE_ANSWERS) return 1;
    pathserve_status status = pathserve_open_map(&match, &map, classes, CLASSES, &north, 1);
    if (status == PATHSERVE_DONE) status = play(&match, (pathserve_post[]){wall, to_the_wall, west, where}, 4);
    if (status == PATHSERVE_DONE) status = play(&match, (pathserve_post[]){west, aside, away}, 3);
    pathserve_close(&match);
    if (status != PATHSERVE_DONE) {
        uint8_t text[PATHSERVE_TEXT];
        size_t length = pathserve_status_text(status, text, sizeof text);
        fprintf(stderr, "by_structs: %.*s\n", (int)length, (const char *)text);
    }
    return (int)status;
}
