/* Questions to the views of bench/random_calls: each answer beside by_definition.h, another call, or the turn's reply. */
#include "by_definition.h"
#include "random_calls.h"

static cells seen; /* the cells of the class that is asked about, by definition */
static uint32_t class;
static pathserve_cell before_cells[MOST_CELLS], after_cells[MOST_CELLS];

/* ---- the cells of a class ---- */

static int blocks(int i, int j) {
    for (size_t k = 0; k < now.base_count; k++)
        if (now.base[k].mask >> class & 1 && is_in(&now.base[k], i, j)) return 1;
    for (size_t k = 0; k < IDS; k++)
        if (now.standing[k].kind != 0 && now.standing[k].mask >> class & 1 && reaches(&now.standing[k], i, j, now.classes[class].clearance))
            return 1;
    return 0;
}

static void see(void) {
    size_t count = (size_t)now.map.width * now.map.height;
    seen = (cells){(int)now.map.width, (int)now.map.height, calloc(count, 1), calloc(count, sizeof *seen.area), calloc(count, sizeof *seen.far)};
    for (size_t k = 0; k < count; k++) seen.free[k] = !blocks((int)(k % now.map.width), (int)(k / now.map.width));
    find_areas(&seen);
}

static void forget_cells(void) { free(seen.free), free(seen.area), free(seen.far); }

static pathserve_cell some_cell(void) {
    pathserve_cell it = {(uint16_t)drawn(now.map.width), (uint16_t)drawn(now.map.height)};
    return it;
}

static int is_on(pathserve_fixed x, pathserve_fixed z) {
    return 0 <= x && x < seen.width * PATHSERVE_NAVCELL && 0 <= z && z < seen.height * PATHSERVE_NAVCELL;
}

static int is_same_area(pathserve_cell a, pathserve_cell b) {
    uint32_t one = seen.area[place_of(&seen, a.i, a.j)];
    return one != 0 && one == seen.area[place_of(&seen, b.i, b.j)];
}

/* ---- cells, rows, areas, the nearest cell ---- */

static void ask_row(uint32_t j) {
    uint64_t words[8];
    size_t whole = (now.map.width + 63) / 64, room = drawn((uint32_t)whole + 2), many = room < whole ? room : whole;
    memset(words, 0xee, sizeof words);
    HOLDS(pathserve_row(&now.view, class, j, words, room) == many);
    for (uint32_t i = 0; i < many * 64; i++) HOLDS((words[i / 64] >> i % 64 & 1) == (uint64_t)is_free(&seen, (int)i, (int)j));
    for (size_t k = many; k < 8; k++) HOLDS(words[k] == 0xeeeeeeeeeeeeeeeeu);
}

static void ask_cells(void) {
    pathserve_cell size = {7, 7};
    HOLDS(pathserve_view_size(&now.view, &size) == 1 && size.i == now.map.width && size.j == now.map.height);
    for (uint32_t j = 0; j < now.map.height; j++) ask_row(j);
    for (int k = 0; k < 30; k++) {
        pathserve_cell a = some_cell(), b = some_cell();
        uint32_t of_a = pathserve_area(&now.view, class, a.i, a.j), of_b = pathserve_area(&now.view, class, b.i, b.j);
        HOLDS(pathserve_passable(&now.view, class, a.i, a.j) == (uint32_t)is_free(&seen, a.i, a.j));
        HOLDS((of_a != 0) == is_free(&seen, a.i, a.j) && (of_a != 0 && of_a == of_b) == is_same_area(a, b));
        HOLDS((pathserve_region(&now.view, class, a.i, a.j) != 0) == is_free(&seen, a.i, a.j));
        HOLDS(pathserve_clear(&now.view, class, &a, &b) == (uint32_t)is_clear(&seen, a, b));
    }
    HOLDS(pathserve_row(&now.view, class, now.map.height + drawn(9), NULL, 0) == 0);
}

static void ask_nearest(pathserve_fixed x, pathserve_fixed z) {
    pathserve_cell cell = {777, 778}, wanted = {777, 778};
    uint32_t is_there = (uint32_t)nearest(&seen, x, z, &wanted);
    HOLDS(pathserve_nearest(&now.view, class, x, z, &cell) == is_there && cell.i == wanted.i && cell.j == wanted.j);
}

/* ---- fields and smoothing ---- */

static void ask_field(const pathserve_post *post, const pathserve_reply *found) {
    size_t count = count_of(&seen), steps_room = drawn(3) ? count : drawn((uint32_t)count), far_room = drawn(3) ? count : 0;
    uint8_t *steps = malloc(count + 1), *whole = malloc(count);
    uint64_t *far = malloc((count + 1) * sizeof *far);
    pathserve_reply reply, again;
    memset(steps, 0xee, count + 1), memset(far, 0xee, (count + 1) * sizeof *far);
    HOLDS(pathserve_field(&now.view, post, &reply, steps, steps_room, far, far_room) == PATHSERVE_DONE);
    HOLDS(memcmp(&reply, found, sizeof reply) == 0);
    int is_path = reply.kind == PATHSERVE_AT_GOAL || reply.kind == PATHSERVE_NEAR_GOAL;
    for (size_t k = is_path ? steps_room : 0; k <= count; k++) HOLDS(steps[k] == 0xee);
    for (size_t k = is_path ? far_room : 0; k <= count; k++) HOLDS(far[k] == 0xeeeeeeeeeeeeeeeeu);
    if (is_path && count <= LARGE) {
        HOLDS(pathserve_field(&now.view, post, &again, whole, count, NULL, 0) == PATHSERVE_DONE);
        find_distances(&seen, whole);
        for (size_t k = 0; k < count; k++) HOLDS(whole[k] == step_of(&seen, k) && (k >= steps_room || steps[k] == whole[k]));
        for (size_t k = 0; k < far_room; k++) HOLDS(far[k] == seen.far[k]);
        HOLDS(seen.far[place_of(&seen, reply.start.i, reply.start.j)] == reply.cost);
        for (size_t k = 0; k < count; k++)
            HOLDS((whole[k] != PATHSERVE_NO_STEP) == (seen.free[k] && seen.area[k] == seen.area[place_of(&seen, reply.end.i, reply.end.j)]));
    }
    free(steps), free(whole), free(far);
}

static void ask_smooth(pathserve_cell start, size_t count) {
    size_t kept = 777, wanted = 0;
    if (drawn(2) && count > 0) {
        size_t at = drawn((uint32_t)count);
        if (drawn(2)) before_cells[at] = some_cell();
        else memmove(before_cells + at, before_cells + at + 1, (--count - at) * sizeof *before_cells);
    }
    if (drawn(8) == 0) start = some_cell();
    int is_good = is_walk(&seen, start, before_cells, count);
    memcpy(after_cells, before_cells, count * sizeof *after_cells);
    HOLDS(pathserve_smooth(&now.view, class, &start, after_cells, count, &kept) == (is_good ? PATHSERVE_DONE : PATHSERVE_BAD_VALUE));
    if (is_good) wanted = smoothed(&seen, start, before_cells, count);
    HOLDS(is_good ? kept == wanted : kept == 777);
    HOLDS(memcmp(before_cells, after_cells, (is_good ? wanted : count) * sizeof *after_cells) == 0);
}

/* ---- finds ---- */

static void ask_within(const pathserve_post *post, const pathserve_reply *found) {
    pathserve_reply reply, too_far = {.kind = PATHSERVE_TOO_FAR, .caller = post->caller};
    uint64_t most = drawn(2) ? found->cost : found->cost + drawn(1 << 20);
    HOLDS(pathserve_find_within(&now.finder, &now.view, post, most, &reply, NULL, 0) == PATHSERVE_DONE);
    HOLDS(memcmp(&reply, found, sizeof reply) == 0);
    if (found->cost == 0) return;
    most = drawn(2) ? found->cost - 1 : drawn((uint32_t)(found->cost < UINT32_MAX ? found->cost : UINT32_MAX));
    HOLDS(pathserve_find_within(&now.finder, &now.view, post, most, &reply, NULL, 0) == PATHSERVE_DONE);
    HOLDS(memcmp(&reply, &too_far, sizeof reply) == 0);
}

static void ask_reachable(const pathserve_post *post, const pathserve_reply *found) {
    pathserve_cell end = {777, 778}, wanted = found->kind == PATHSERVE_NEAR_GOAL ? found->end : end;
    uint32_t kind = pathserve_reachable(&now.view, post, &end);
    HOLDS(kind == (post->kind == PATHSERVE_PATH ? found->kind : 0));
    HOLDS(end.i == wanted.i && end.j == wanted.j);
}

/* Asks a post in each way there is, of the same waypoints, which are legal steps that cost what is said. */
static void ask_find(const pathserve_post *post, pathserve_reply *found) {
    pathserve_reply with;
    size_t room = drawn(4) ? MOST_CELLS : drawn(4);
    HOLDS(pathserve_find(&now.view, post, found, before_cells, MOST_CELLS) == PATHSERVE_DONE);
    memset(after_cells, 0xee, 5 * sizeof *after_cells);
    HOLDS(pathserve_find_with(&now.finder, &now.view, post, &with, after_cells, room) == PATHSERVE_DONE);
    size_t many = found->waypoints < room ? found->waypoints : room;
    HOLDS(memcmp(found, &with, sizeof with) == 0 && memcmp(before_cells, after_cells, many * sizeof *after_cells) == 0);
    if (many < 4) HOLDS(after_cells[many].i == 0xeeee);
    HOLDS(found->caller == post->caller && found->post == 0 && found->first_waypoint == 0);
    ask_within(post, found);
    ask_reachable(post, found);
    if (found->kind != PATHSERVE_AT_GOAL && found->kind != PATHSERVE_NEAR_GOAL) return;
    HOLDS(is_walk(&seen, found->start, before_cells, found->waypoints));
    HOLDS(found->waypoints == 0 || memcmp(&before_cells[found->waypoints - 1], &found->end, sizeof found->end) == 0);
    uint64_t cost = 0;
    for (size_t k = 0; k < found->waypoints; k++) {
        pathserve_cell from = k == 0 ? found->start : before_cells[k - 1], to = before_cells[k];
        uint64_t far = (uint64_t)(from.i != to.i ? abs(from.i - to.i) : abs(from.j - to.j));
        cost += far * (from.i != to.i && from.j != to.j ? DIAGONAL : STRAIGHT);
    }
    HOLDS(cost == found->cost);
}

static void ask_request(const pathserve_post *post) {
    pathserve_reply found;
    class = post->class_number;
    see();
    ask_find(post, &found);
    if (post->kind == PATHSERVE_PATH) {
        if (seen.width * seen.height <= LARGE && found.waypoints < 200) ask_smooth(found.start, found.waypoints);
        if (drawn(3) == 0) ask_field(post, &found);
        if (is_on(post->x, post->z)) ask_nearest(post->x, post->z);
    } else if (found.kind == PATHSERVE_IN_REGION) {
        uint32_t i = (uint32_t)post->x / PATHSERVE_NAVCELL, j = (uint32_t)post->z / PATHSERVE_NAVCELL;
        HOLDS(found.chunk.i == i / 96 && found.chunk.j == j / 96);
        HOLDS(found.region == pathserve_region(&now.view, class, i, j) && found.area == pathserve_area(&now.view, class, i, j));
    }
    forget_cells();
}

/* The requests of the turn in one call: each is answered as in the turn, since that answers on the map that its edits leave. */
static void ask_all(void) {
    pathserve_post posts[MOST_POSTS];
    pathserve_reply replies[MOST_POSTS], wanted[MOST_POSTS];
    size_t count = 0;
    uint64_t first = 0;
    for (size_t k = 0; k < now.last.count; k++) {
        if (post_of(&now.last.replies[k])->kind < PATHSERVE_PATH) continue;
        posts[count] = *post_of(&now.last.replies[k]);
        wanted[count] = now.last.replies[k];
        wanted[count].post = (uint32_t)count;
        if (wanted[count].kind == PATHSERVE_AT_GOAL || wanted[count].kind == PATHSERVE_NEAR_GOAL) wanted[count].first_waypoint = first;
        first += wanted[count++].waypoints;
    }
    size_t some = drawn(4) ? MOST_POSTS : drawn(MOST_POSTS), room = drawn(4) ? MOST_CELLS : drawn(20);
    HOLDS(pathserve_find_all(&now.finder, &now.view, posts, count, replies, some, after_cells, room) == PATHSERVE_DONE);
    HOLDS(memcmp(replies, wanted, (some < count ? some : count) * sizeof *replies) == 0);
    HOLDS(memcmp(after_cells, now.last.cells, (room < first ? room : first) * sizeof *after_cells) == 0);
    if (count == 0) return;
    posts[drawn((uint32_t)count)].kind = drawn(2) ? PATHSERVE_REMOVE : 9;
    HOLDS(pathserve_find_all(&now.finder, &now.view, posts, count, replies, some, after_cells, room) == PATHSERVE_BAD_VALUE);
    HOLDS(memcmp(replies, wanted, (some < count ? some : count) * sizeof *replies) == 0);
}

/* ---- what stands ---- */

static void ask_standing(void) {
    pathserve_post posts[IDS + 1], wanted[IDS], one;
    size_t count = 0;
    uint64_t whole = 0;
    for (size_t k = 0; k < IDS; k++) {
        int stands = now.standing[k].kind != 0;
        HOLDS(pathserve_standing_at(&now.view, id_of_place(k), &one) == (uint32_t)stands);
        if (stands) HOLDS(memcmp(&one, &now.standing[k], sizeof one) == 0);
        if (stands) wanted[count++] = now.standing[k];
    }
    uint64_t first = drawn(IDS + 2);
    size_t room = drawn(IDS + 1), left = first < count ? count - first : 0, many = left < room ? left : room;
    memset(posts, 0xee, sizeof posts);
    HOLDS(pathserve_standing(&now.view, first, posts, room, &whole) == PATHSERVE_DONE && whole == count);
    HOLDS(memcmp(posts, wanted + (left ? first : 0), many * sizeof *posts) == 0 && posts[many].kind == 0xee);
    HOLDS(pathserve_standing_at(&now.view, 424242, &one) == 0);
}

/* The digest is that of the snapshot, and the same for another view, for one of the twin, and unless the terrain is a grid, of
 * which the rectangles are others, for one of a match by text. */
static void ask_digests(void) {
    uint64_t digest = 0, other = 1;
    text saved = {0};
    pathserve_view view = PATHSERVE_CLOSED_HANDLE;
    HOLDS(pathserve_view_digest(&now.view, &digest) == PATHSERVE_DONE);
    get_snapshot(&now.view, &saved);
    HOLDS(digest == digest_of(saved.at, saved.length));
    drop(&saved);
    pathserve_match *from = drawn(2) && now.twin.live != 0 ? &now.twin : now.is_grid ? &now.match : &now.texts[drawn(REPORTS)];
    if (drawn(3) == 0) HOLDS(pathserve_view_again(&now.view, &view) == PATHSERVE_DONE);
    else HOLDS(pathserve_view_of(from, &view) == PATHSERVE_DONE);
    HOLDS(pathserve_view_digest(&view, &other) == PATHSERVE_DONE && digest == other);
    if (drawn(3) == 0) {
        pathserve_view_close(&now.old);
        now.old = view;
        now.old_digest = digest;
    } else {
        pathserve_view_close(&view);
    }
}

/* ---- what is refused ---- */

static void ask_nothing(pathserve_view *none, pathserve_status status, const pathserve_post *post) {
    pathserve_cell cell = {777, 778};
    pathserve_reply reply;
    pathserve_post stands;
    uint64_t number = 777;
    size_t kept = 777;
    memset(&reply, 0xee, sizeof reply);
    HOLDS(!pathserve_passable(none, 0, 0, 0) && !pathserve_area(none, 0, 0, 0) && !pathserve_region(none, 0, 0, 0));
    HOLDS(!pathserve_row(none, 0, 0, NULL, 0) && !pathserve_view_size(none, &cell) && !pathserve_nearest(none, 0, 0, 0, &cell));
    HOLDS(!pathserve_standing_at(none, 0, &stands) && !pathserve_reachable(none, post, &cell) && !pathserve_clear(none, 0, &cell, &cell));
    HOLDS(pathserve_find(none, post, &reply, NULL, 0) == status && pathserve_field(none, post, &reply, NULL, 0, NULL, 0) == status);
    HOLDS(pathserve_find_with(&now.finder, none, post, &reply, NULL, 0) == status);
    HOLDS(pathserve_find_within(&now.finder, none, post, 0, &reply, NULL, 0) == status);
    HOLDS(pathserve_find_all(&now.finder, none, post, 1, &reply, 1, NULL, 0) == status);
    HOLDS(pathserve_smooth(none, 0, &cell, NULL, 0, &kept) == status && pathserve_standing(none, 0, NULL, 0, &number) == status);
    HOLDS(pathserve_snapshot(none, NULL, 0, &kept) == status && pathserve_view_digest(none, &number) == status);
    HOLDS(cell.i == 777 && cell.j == 778 && reply.kind == 0xee && number == 777 && kept == 777);
}

static void ask_badly(void) {
    pathserve_view none = PATHSERVE_CLOSED_HANDLE, of_match = {now.match.live, now.match.at};
    pathserve_match closed = PATHSERVE_CLOSED_HANDLE;
    pathserve_post post = drawn_request(), edit = pathserve_make_remove(0, 0), bad = post;
    pathserve_reply reply;
    pathserve_turn turn;
    pathserve_cell off = {(uint16_t)now.map.width, 0}, on = {0, 0};
    size_t used = 777;
    uint64_t number = 777;
    ask_nothing(&none, PATHSERVE_CLOSED, &post);
    ask_nothing(&of_match, PATHSERVE_OTHER, &post);
    HOLDS(pathserve_end_turn(&closed, &turn) == PATHSERVE_CLOSED && pathserve_end_turn(&now.texts[0], &turn) == PATHSERVE_OTHER);
    HOLDS(pathserve_post_all(&closed, &post, 1) == PATHSERVE_CLOSED && pathserve_post_all(&now.texts[1], &post, 1) == PATHSERVE_OTHER);
    HOLDS(pathserve_feed(&now.match, NULL, 0, &used) == PATHSERVE_OTHER && used == 0 && pathserve_finish(&now.match) == PATHSERVE_OTHER);
    HOLDS(pathserve_limit_line(&now.match, 0) == PATHSERVE_OTHER && pathserve_limit_posts(&now.texts[2], 0) == PATHSERVE_OTHER);
    HOLDS(pathserve_journal(&now.texts[3], NULL, 0, &used) == PATHSERVE_OTHER && used == 0 && pathserve_forget(&now.texts[0]) == PATHSERVE_OTHER);
    HOLDS(pathserve_keep_no_journal(&now.texts[0]) == PATHSERVE_OTHER && pathserve_keep_no_journal(&closed) == PATHSERVE_CLOSED);
    HOLDS(pathserve_turn_digest(&now.texts[0], &number) == PATHSERVE_OTHER && pathserve_turn_digest(&closed, &number) == PATHSERVE_CLOSED);
    HOLDS(pathserve_view_of(&now.match, &now.view) == PATHSERVE_OPEN && pathserve_view_again(&none, &none) == PATHSERVE_CLOSED);
    HOLDS(pathserve_finder_open(&now.finder) == PATHSERVE_OPEN && pathserve_waiting(&now.match) == 0);
    uint32_t unknown = (uint32_t)now.class_count + drawn(1 << 20);
    HOLDS(!pathserve_passable(&now.view, unknown, 0, 0) && !pathserve_nearest(&now.view, unknown, 0, 0, &on));
    HOLDS(!pathserve_passable(&now.view, 0, now.map.width + drawn(1u << 31), 0) && !pathserve_area(&now.view, 0, 0, now.map.height + drawn(1u << 31)));
    HOLDS(!pathserve_clear(&now.view, 0, &on, &off) && !pathserve_nearest(&now.view, 0, -1 - (int)drawn(1 << 30), 0, &on));
    HOLDS(pathserve_find(&now.view, &edit, &reply, NULL, 0) == PATHSERVE_BAD_VALUE && !pathserve_reachable(&now.view, &edit, &on));
    bad.caller = (uint8_t)now.map.callers;
    HOLDS(pathserve_find_with(&now.finder, &now.view, &bad, &reply, NULL, 0) == PATHSERVE_BAD_VALUE);
    HOLDS(pathserve_field(&now.view, &bad, &reply, NULL, 0, NULL, 0) == PATHSERVE_BAD_VALUE);
    HOLDS(number == 777);
}

static void ask_texts(void) {
    uint8_t bytes[PATHSERVE_TEXT + 1], part[PATHSERVE_TEXT + 1];
    uint32_t number = drawn(30);
    size_t whole = pathserve_status_text(number, bytes, PATHSERVE_TEXT), room = drawn(PATHSERVE_TEXT), many = whole < room ? whole : room;
    memset(part, 0xee, sizeof part);
    HOLDS(whole <= PATHSERVE_TEXT && pathserve_status_text(number, part, room) == whole);
    HOLDS(memcmp(bytes, part, many) == 0 && part[many] == 0xee);
    HOLDS(pathserve_fault_text(number, bytes, PATHSERVE_TEXT) <= PATHSERVE_TEXT && pathserve_version_text(bytes, PATHSERVE_TEXT) >= 5);
    HOLDS(pathserve_size_of(PATHSERVE_SIZE_POST) == sizeof(pathserve_post) && pathserve_size_of(11 + number) == 0);
}

/* ---- all of it ---- */

void ask_old_view(void) {
    uint64_t digest = 0;
    if (now.old.live == 0) return;
    HOLDS(pathserve_view_digest(&now.old, &digest) == PATHSERVE_DONE && digest == now.old_digest);
}

void ask_view(void) {
    for (class = 0; class < now.class_count; class ++) {
        see();
        ask_cells();
        for (int k = 0; k < 4; k++) {
            pathserve_post at = drawn_request();
            ask_nearest(at.x, at.z);
        }
        forget_cells();
    }
    for (uint32_t k = drawn(5); k > 0; k--) {
        pathserve_post post = drawn_request();
        ask_request(&post);
    }
    ask_all();
    ask_standing();
    ask_digests();
    ask_old_view();
    if (drawn(3) == 0) ask_badly();
    if (drawn(3) == 0) ask_texts();
}
