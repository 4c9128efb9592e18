/* Compares what the header's makers fill with posts that are filled field by field. Prints the line where they differ. */
#include <stdio.h>
#include <string.h>
#include <pathserve.h>

static int is_same(pathserve_post made, pathserve_post post) {
    return memcmp(&made, &post, sizeof post) == 0;
}

#define SAME(maker, ...) \
    if (!is_same(pathserve_make_##maker, (pathserve_post){__VA_ARGS__})) printf("line %d\n", __LINE__)

int main(void) {
    const pathserve_post empty = PATHSERVE_EMPTY_POST;

    if (!is_same(empty, (pathserve_post){0})) puts("not empty");
    if (pathserve_make_middle(0) != 32768 || pathserve_make_middle(2047) != 2047 * 65536 + 32768) puts("no middle");
    SAME(add_unit(1, 2, 3, 4, 5, 6), .kind = PATHSERVE_ADD_UNIT, .caller = 1, .id = 2, .mask = 3, .x = 4, .z = 5, .radius = 6);
    SAME(add_square(1, 2, 3, 4, 5, 6, 7, 8, 9), .kind = PATHSERVE_ADD_SQUARE, .caller = 1, .id = 2, .mask = 3, .x = 4, .z = 5,
         .ux = 6, .uz = 7, .hw = 8, .hh = 9);
    SAME(remove(1, 2), .kind = PATHSERVE_REMOVE, .caller = 1, .id = 2);
    SAME(move(1, 2, 3, 4), .kind = PATHSERVE_MOVE, .caller = 1, .id = 2, .x = 3, .z = 4);
    SAME(region(1, 2, 3, 4), .kind = PATHSERVE_REGION, .caller = 1, .class_number = 2, .x = 3, .z = 4);
    SAME(path_to_point(1, 2, 3, 4, 5, 6), .kind = PATHSERVE_PATH, .caller = 1, .class_number = 2, .x = 3, .z = 4,
         .goal = PATHSERVE_POINT, .goal_x = 5, .goal_z = 6);
    SAME(path_to_circle(1, 2, 3, 4, 5, 6, 7, 0), .kind = PATHSERVE_PATH, .caller = 1, .class_number = 2, .x = 3, .z = 4,
         .goal = PATHSERVE_CIRCLE, .goal_x = 5, .goal_z = 6, .radius = 7);
    SAME(path_to_circle(1, 2, 3, 4, 5, 6, 7, 1), .kind = PATHSERVE_PATH, .caller = 1, .class_number = 2, .x = 3, .z = 4,
         .goal = PATHSERVE_NOT_CIRCLE, .goal_x = 5, .goal_z = 6, .radius = 7);
    SAME(path_to_square(1, 2, 3, 4, 5, 6, 7, 8, 9, 10, 0), .kind = PATHSERVE_PATH, .caller = 1, .class_number = 2, .x = 3,
         .z = 4, .goal = PATHSERVE_SQUARE, .goal_x = 5, .goal_z = 6, .ux = 7, .uz = 8, .hw = 9, .hh = 10);
    SAME(path_to_square(1, 2, 3, 4, 5, 6, 7, 8, 9, 10, 1), .kind = PATHSERVE_PATH, .caller = 1, .class_number = 2, .x = 3,
         .z = 4, .goal = PATHSERVE_NOT_SQUARE, .goal_x = 5, .goal_z = 6, .ux = 7, .uz = 8, .hw = 9, .hh = 10);
    SAME(path_to_obstruction(1, 2, 3, 4, 5, 6), .kind = PATHSERVE_PATH, .caller = 1, .class_number = 2, .x = 3, .z = 4,
         .goal = PATHSERVE_OBSTRUCTION, .id = 5, .radius = 6);
    return 0;
}
