/* Eight threads look at what stands while the match goes on: each has a view and a finder of its own.
 * Prints nothing where all agree. */
#include <pthread.h>
#include <stdio.h>
#include <string.h>
#include <pathserve.h>

enum { THREADS = 8, ROUNDS = 200 };

static const pathserve_post ask = {.kind = PATHSERVE_PATH, .goal = PATHSERVE_POINT, .x = 98304, .z = 98304, .goal_x = 4161536,
                                   .goal_z = 4161536};

static void *look(void *its) {
    pathserve_view *view = its;
    pathserve_reply reply;
    uintptr_t seen = 0;
    pathserve_finder finder = {0};
    if (pathserve_finder_open(&finder) != PATHSERVE_DONE) return NULL;
    for (int round = 0; round < ROUNDS; round++) {
        pathserve_view other = {0};
        if (pathserve_view_again(view, &other) != PATHSERVE_DONE) return NULL;
        if (pathserve_find(&other, &ask, &reply, NULL, 0) != PATHSERVE_DONE) return NULL;
        seen += reply.cost + pathserve_passable(&other, 0, 20, 20);
        if (pathserve_find_with(&finder, &other, &ask, &reply, NULL, 0) != PATHSERVE_DONE) return NULL;
        seen += reply.cost;
        pathserve_view_close(&other);
    }
    pathserve_view_close(view);
    pathserve_finder_close(&finder);
    return (void *)seen;
}

static pathserve_status feed(pathserve_match *match, const char *line) {
    size_t taken;
    return pathserve_feed(match, (const uint8_t *)line, strlen(line), &taken);
}

int main(void) {
    pathserve_match match = {0};
    pthread_t threads[THREADS];
    pathserve_view views[THREADS] = {{0}};
    void *seen[THREADS];
    char lines[256];

    if (pathserve_open(&match, PATHSERVE_REPLAY) != PATHSERVE_DONE) return 1;
    if (feed(&match, "{\"version\":3,\"size\":[64,64],\"callers\":1,\"classes\":[{\"name\":\"walker\",\"clearance\":\"0.5\"}]}\n"))
        return 1;
    for (int k = 0; k < THREADS; k++) {
        if (pathserve_view_of(&match, &views[k]) != PATHSERVE_DONE) return 1;
        if (pthread_create(&threads[k], NULL, look, &views[k])) return 1;
    }
    for (unsigned k = 1; k <= ROUNDS; k++) {
        snprintf(lines, sizeof lines, "{\"caller\":0,\"add\":%u,\"unit\":[\"20\",\"20\",\"1\"],\"mask\":1}\n{\"end\":%u}\n", k, k);
        if (feed(&match, lines) != PATHSERVE_DONE) return 1;
    }
    for (int k = 0; k < THREADS; k++) pthread_join(threads[k], &seen[k]);
    pathserve_close(&match);
    for (int k = 0; k < THREADS; k++)
        if (!seen[k] || seen[k] != seen[0]) return 1;
    return 0;
}
