/* Saves a match, opens it again, and lets a player join late who compares digests:
 *
 *     cc -Iinclude examples/c/saves.c lib/libpathserve.a -o saves && ./saves
 */
#include <pathserve.h>
#include <stdio.h>
#include <stdlib.h>

#define NAVCELLS(count) ((pathserve_fixed)((count) * PATHSERVE_NAVCELL))

static void must(pathserve_status status) {
    if (status == PATHSERVE_DONE) return;
    fprintf(stderr, "status %u\n", status);
    exit(1);
}

/* A script in memory of its own. */
typedef struct script { uint8_t *bytes; size_t length; } script;

/* What stands after the turns that have ended, as a script. */
static script snapshot_of(pathserve_match *match, uint64_t *digest) {
    pathserve_view view = PATHSERVE_CLOSED_HANDLE;
    script its = {NULL, 0};
    must(pathserve_view_of(match, &view));
    pathserve_status status = pathserve_snapshot(&view, NULL, 0, &its.length); /* asks for the size */
    if (status != PATHSERVE_SMALL) must(status);
    its.bytes = malloc(its.length);
    if (!its.bytes) must(PATHSERVE_NO_MEMORY);
    must(pathserve_snapshot(&view, its.bytes, its.length, &its.length));
    must(pathserve_view_digest(&view, digest));
    pathserve_view_close(&view);
    return its;
}

/* One turn of these posts, and its digest. */
static uint64_t play(pathserve_match *match, const pathserve_post *posts, size_t count, pathserve_turn *turn) {
    uint64_t digest;
    must(pathserve_post_all(match, posts, count));
    must(pathserve_end_turn(match, turn));
    must(pathserve_turn_digest(match, &digest));
    return digest;
}

int main(void) {
    const pathserve_map map = {64, 64, 2};
    const pathserve_class infantry = {"infantry", 8, NAVCELLS(0.75)};
    const pathserve_post walls[2] = {
        {.kind = PATHSERVE_ADD_UNIT, .id = 1, .mask = 1, .x = NAVCELLS(32), .z = NAVCELLS(32), .radius = NAVCELLS(4)},
        {.kind = PATHSERVE_ADD_UNIT, .caller = 1, .id = 2, .mask = 1, .x = NAVCELLS(9), .z = NAVCELLS(50), .radius = NAVCELLS(3)}};
    const pathserve_post moves = {.kind = PATHSERVE_MOVE, .id = 1, .x = NAVCELLS(30), .z = NAVCELLS(32)};
    const pathserve_post path = {.kind = PATHSERVE_PATH, .caller = 1, .goal = PATHSERVE_POINT, .x = NAVCELLS(10.5),
                                 .z = NAVCELLS(32.5), .goal_x = NAVCELLS(50.5), .goal_z = NAVCELLS(32.5)};
    pathserve_match match = PATHSERVE_CLOSED_HANDLE, late = PATHSERVE_CLOSED_HANDLE;
    pathserve_turn turn, again;
    uint64_t bad_line, stands, stands_there;

    must(pathserve_open_map(&match, &map, &infantry, 1, NULL, 0));
    play(&match, walls, 2, &turn);
    play(&match, &moves, 1, &turn);

    script saved = snapshot_of(&match, &stands);
    must(pathserve_open_script(&late, saved.bytes, saved.length, &bad_line)); /* one who joins late, or who loads the match */
    free(saved.bytes);
    free(snapshot_of(&late, &stands_there).bytes);
    printf("the same stands: %s\n", stands == stands_there ? "yes" : "no");

    uint64_t here = play(&match, &path, 1, &turn), there = play(&late, &path, 1, &again);
    printf("turn %u here, turn %u there, in step: %s\n", (unsigned)turn.turn, (unsigned)again.turn, here == there ? "yes" : "no");

    must(pathserve_forget(&match)); /* its journal would have grown for ever */
    here = play(&match, &path, 1, &turn);
    there = play(&late, &path, 1, &again);
    printf("turn %u here, turn %u there, in step: %s\n", (unsigned)turn.turn, (unsigned)again.turn, here == there ? "yes" : "no");

    pathserve_close(&late);
    pathserve_close(&match);
    return 0;
}
