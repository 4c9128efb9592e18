/* Plays matches by chance with every call of libpathserve, for bench/random_calls: `random_calls FIRST COUNT` plays those of
 * COUNT numbers. It holds each answer beside another call or by_definition.h, and writes for each match the script of what it
 * posted and the texts that the program must write for that, as sections: a line with a name and a size, and so many bytes.
 * `random_calls text` writes what a match by text answers to the script of standard input. */
#include "random_calls.h"

session now;

/* ---- a map by chance ---- */

static void draw_classes(void) {
    static const char *const names[MOST_CLASSES] = {"a", "walker", "siege-engine", "x_9"};
    now.class_count = 1 + drawn(MOST_CLASSES);
    memset(now.classes, 0, sizeof now.classes);
    for (size_t k = 0; k < now.class_count; k++) {
        now.classes[k].name_length = (uint32_t)strlen(names[k]);
        memcpy(now.classes[k].name, names[k], strlen(names[k]));
        now.classes[k].clearance = drawn(4) == 0 ? 0 : (pathserve_fixed)drawn(PATHSERVE_NAVCELL * 5 / 2);
    }
}

static uint32_t side(void) {
    uint32_t how = drawn(100);
    return how < 75 ? 1 + drawn(24) : how < 97 ? 20 + drawn(50) : 90 + drawn(130);
}

static void draw_map(void) {
    now.map = (pathserve_map){side(), side(), 1 + drawn(4)};
    now.base_count = drawn(3) == 0 ? 0 : drawn(MOST_BASE);
    for (size_t k = 0; k < now.base_count; k++) {
        uint32_t i = drawn(now.map.width), j = drawn(now.map.height);
        uint32_t east = i + drawn(now.map.width - i < 6 ? now.map.width - i : 6), north = j + drawn(now.map.height - j < 6 ? now.map.height - j : 6);
        now.base[k] = (pathserve_rect){(uint16_t)i, (uint16_t)j, (uint16_t)east, (uint16_t)north, (uint16_t)drawn(65536), 0};
    }
    draw_classes();
}

static uint16_t *masks_of_map(void) {
    uint16_t *masks = calloc((size_t)now.map.width * now.map.height, sizeof *masks);
    for (size_t k = 0; k < now.base_count; k++)
        for (uint32_t j = now.base[k].j0; j <= now.base[k].j1; j++)
            for (uint32_t i = now.base[k].i0; i <= now.base[k].i1; i++) masks[j * now.map.width + i] |= now.base[k].mask;
    return masks;
}

static void open_bad_maps(void) {
    pathserve_match none = PATHSERVE_CLOSED_HANDLE;
    pathserve_map map = now.map;
    pathserve_class classes[2] = {now.classes[0], now.classes[0]};
    pathserve_rect aside = {0, 0, (uint16_t)map.width, 0, 1, 0};
    uint16_t mask = 0;
    HOLDS(pathserve_open_map(&none, &map, classes, 2, NULL, 0) == PATHSERVE_BAD_VALUE);
    HOLDS(pathserve_open_map(&none, &map, classes, 0, NULL, 0) == PATHSERVE_BAD_VALUE);
    HOLDS(pathserve_open_map(&none, &map, classes, 1, &aside, 1) == PATHSERVE_BAD_VALUE);
    HOLDS(pathserve_open_grid(&none, &map, classes, 1, &mask, (size_t)map.width * map.height == 1 ? 0 : 1) == PATHSERVE_BAD_VALUE);
    map.width = drawn(2) ? 0 : 2049 + drawn(1 << 30);
    HOLDS(pathserve_open_map(&none, &map, classes, 1, NULL, 0) == PATHSERVE_BAD_VALUE);
    map.width = 1, map.callers = drawn(2) ? 0 : 65 + drawn(1 << 30);
    HOLDS(pathserve_open_map(&none, &map, classes, 1, NULL, 0) == PATHSERVE_BAD_VALUE);
    map.callers = 1, classes[0].clearance = drawn(2) ? -1 : 64 * PATHSERVE_NAVCELL + 1;
    HOLDS(pathserve_open_map(&none, &map, classes, 1, NULL, 0) == PATHSERVE_BAD_VALUE);
    HOLDS(none.live == 0);
    HOLDS(pathserve_open(&none, 4 + drawn(1 << 20)) == PATHSERVE_BAD_VALUE && none.live == 0);
}

/* A match of which no turn has ended has nothing to forget. */
static void forget_nothing(void) {
    text journal = {0};
    get_journal(&now.match, &journal);
    HOLDS(pathserve_forget(&now.match) == PATHSERVE_DONE);
    same_journal(&now.match, &journal);
    drop(&journal);
}

static void open_match(void) {
    uint16_t *masks = masks_of_map();
    size_t count = (size_t)now.map.width * now.map.height;
    now.is_grid = drawn(3) == 0;
    if (now.is_grid) HOLDS(pathserve_open_grid(&now.match, &now.map, now.classes, now.class_count, masks, count) == PATHSERVE_DONE);
    else HOLDS(pathserve_open_map(&now.match, &now.map, now.classes, now.class_count, now.base, now.base_count) == PATHSERVE_DONE);
    free(masks);
    HOLDS(pathserve_open_map(&now.match, &now.map, now.classes, now.class_count, NULL, 0) == PATHSERVE_OPEN);
    for (uint32_t k = 0; k < REPORTS; k++) HOLDS(pathserve_open(&now.texts[k], k) == PATHSERVE_DONE);
    say_map(&now.script);
    if (drawn(4) == 0) HOLDS(pathserve_limit_posts(&now.match, SIZE_MAX) == PATHSERVE_DONE);
    if (drawn(4) == 0) forget_nothing();
}

/* ---- posts ---- */

/* What is wrong with a post: no kind, caller, class or goal of that number, or more in it than the maker of its kind fills. */
static uint32_t fault_of(const pathserve_post *it) {
    int asks = it->kind == PATHSERVE_PATH || it->kind == PATHSERVE_REGION;
    pathserve_post made = remade(it);
    if (it->kind < PATHSERVE_ADD_UNIT || it->kind > PATHSERVE_REGION) return PATHSERVE_WRONG_KIND;
    if (it->caller >= now.map.callers) return PATHSERVE_WRONG_CALLER;
    if (asks && it->class_number >= now.class_count) return PATHSERVE_WRONG_CLASS;
    if (it->kind == PATHSERVE_PATH && (it->goal < PATHSERVE_POINT || it->goal > PATHSERVE_OBSTRUCTION)) return PATHSERVE_WRONG_GOAL;
    return memcmp(&made, it, sizeof made) == 0 ? 0 : PATHSERVE_NOT_ZERO;
}

static void bend(pathserve_post *it) {
    switch (drawn(8)) {
    case 0: it->kind = drawn(2) ? 0 : (uint8_t)(7 + drawn(249)); break;
    case 1: it->caller = (uint8_t)(now.map.callers + drawn(256 - now.map.callers)); break;
    case 2: it->class_number = (uint8_t)drawn(256); break;
    case 3: it->goal = (uint8_t)drawn(256); break;
    case 4: it->zero = 1; break;
    case 5: it->hw = 1 << drawn(31); break;
    case 6: it->mask ^= 1 << drawn(16); break;
    default: it->goal_x ^= 1 << drawn(31);
    }
}

/* Posts so many from a place on, to the match or to another that goes along, and before it some of which one is bad. */
static void post_some(pathserve_match *match, size_t first, size_t count) {
    pathserve_post posts[MOST_POSTS];
    size_t which = 777;
    uint32_t why = 777;
    memcpy(posts, now.posts + first, count * sizeof *posts);
    if (count > 0 && drawn(3) == 0) {
        size_t at = drawn((uint32_t)count);
        bend(&posts[at]);
        uint32_t fault = fault_of(&posts[at]);
        pathserve_status status = fault == 0 ? PATHSERVE_DONE : PATHSERVE_BAD_VALUE;
        HOLDS(pathserve_check(match, posts, count, &which, &why) == status);
        HOLDS(fault == 0 ? which == 777 && why == 777 : which == at && why == fault);
        if (fault != 0) HOLDS(pathserve_post_all(match, posts, count) == PATHSERVE_BAD_VALUE);
    }
    HOLDS(pathserve_check(match, now.posts + first, count, &which, &why) == PATHSERVE_DONE);
    HOLDS(pathserve_post_all(match, now.posts + first, count) == PATHSERVE_DONE);
}

static void post_in_pieces(pathserve_match *match) {
    for (size_t at = 0; at < now.post_count;) {
        size_t some = 1 + drawn((uint32_t)(now.post_count - at)), most = at + drawn((uint32_t)some);
        if (drawn(6) == 0) {
            HOLDS(pathserve_limit_posts(match, most) == PATHSERVE_DONE);
            HOLDS(pathserve_post_all(match, now.posts + at, some) == PATHSERVE_PAST_LIMIT);
            HOLDS(pathserve_limit_posts(match, at + some) == PATHSERVE_DONE);
        }
        post_some(match, at, some);
        HOLDS(pathserve_limit_posts(match, SIZE_MAX) == PATHSERVE_DONE);
        at += some;
    }
}

/* ---- what a turn came to ---- */

/* All replies and waypoints of a match, of which a part is asked for again: that it is the same, and that nothing lies behind it. */
static void take_turn(pathserve_match *match, const pathserve_turn *turn, taken *into) {
    static pathserve_reply replies[MOST_POSTS + 1];
    static pathserve_cell cells[MOST_CELLS + 1];
    memset(&replies[MOST_POSTS], 0xee, sizeof *replies);
    HOLDS(turn->replies == now.post_count && turn->waypoints <= MOST_CELLS);
    HOLDS(pathserve_replies(match, 0, into->replies, MOST_POSTS) == turn->replies);
    HOLDS(pathserve_waypoints(match, 0, into->cells, MOST_CELLS) == turn->waypoints);
    into->count = turn->replies, into->waypoints = turn->waypoints;
    size_t first = drawn((uint32_t)turn->replies + 2), count = drawn(4), many = first < turn->replies ? turn->replies - first : 0;
    many = many < count ? many : count;
    memset(replies, 0xee, sizeof replies);
    HOLDS(pathserve_replies(match, first, replies, count) == many);
    HOLDS(memcmp(replies, into->replies + first, many * sizeof *replies) == 0);
    HOLDS(memcmp(&replies[many], &replies[MOST_POSTS], sizeof *replies) == 0);
    first = drawn((uint32_t)turn->waypoints + 2), count = drawn(9), many = first < turn->waypoints ? turn->waypoints - first : 0;
    many = many < count ? many : count;
    memset(cells, 0xee, (count + 1) * sizeof *cells);
    HOLDS(pathserve_waypoints(match, first, cells, count) == many);
    HOLDS(memcmp(cells, into->cells + first, many * sizeof *cells) == 0);
    HOLDS(cells[many].i == 0xeeee && cells[many].j == 0xeeee);
}

static void stand_after(const taken *its) {
    for (size_t k = 0; k < its->count; k++) {
        const pathserve_post *post = post_of(&its->replies[k]);
        size_t place = place_of_id(post->id);
        pathserve_post *stands = &now.standing[place];
        if (its->replies[k].kind == PATHSERVE_ADDED) {
            *stands = *post;
            stands->caller = 0;
        } else if (its->replies[k].kind == PATHSERVE_REMOVED) {
            stands->kind = 0;
        } else if (its->replies[k].kind == PATHSERVE_MOVED) {
            stands->x = post->x, stands->z = post->z;
        }
    }
}

/* The other match, which was opened from a script, gets the same posts and must answer alike. */
static void play_twin(const pathserve_turn *turn) {
    static taken other;
    pathserve_turn its;
    uint64_t here = 0, there = 1;
    if (now.twin.live == 0) return;
    post_in_pieces(&now.twin);
    HOLDS(pathserve_end_turn(&now.twin, &its) == PATHSERVE_DONE);
    HOLDS(memcmp(&its.regions, &turn->regions, sizeof its - sizeof its.turn) == 0);
    take_turn(&now.twin, &its, &other);
    HOLDS(memcmp(other.replies, now.last.replies, other.count * sizeof *other.replies) == 0);
    HOLDS(memcmp(other.cells, now.last.cells, other.waypoints * sizeof *other.cells) == 0);
    HOLDS(pathserve_turn_digest(&now.match, &here) == PATHSERVE_DONE && pathserve_turn_digest(&now.twin, &there) == PATHSERVE_DONE);
    HOLDS(here == there);
}

/* ---- by text ---- */

/* Feeds what the script has beyond what was fed, in pieces by chance, and takes some of what waits. */
static void feed_rest(pathserve_match *match, size_t fed, text *told) {
    while (fed < now.script.length) {
        size_t left = now.script.length - fed, some = drawn(3) == 0 ? 1 + drawn((uint32_t)(left < 9 ? left : 9)) : 1 + drawn((uint32_t)left), used = 777;
        HOLDS(pathserve_feed(match, now.script.at + fed, some, &used) == PATHSERVE_DONE && used == some);
        fed += some;
        if (drawn(3) == 0) take_some(match, told, drawn(64));
    }
    take_some(match, told, SIZE_MAX);
}

static void limit_a_line(pathserve_match *match) {
    size_t used = 777, most = drawn(5);
    HOLDS(pathserve_limit_line(match, most) == PATHSERVE_DONE);
    HOLDS(pathserve_feed(match, (const uint8_t *)"        ", most + 1, &used) == PATHSERVE_PAST_LIMIT && used == 0);
    HOLDS(pathserve_limit_line(match, SIZE_MAX) == PATHSERVE_DONE);
}

static void play_texts(void) {
    for (size_t k = 0; k < REPORTS; k++) {
        if (drawn(8) == 0) limit_a_line(&now.texts[k]);
        feed_rest(&now.texts[k], now.fed, &now.told[k]);
    }
    now.fed = now.script.length;
}

/* ---- scripts that open a match ---- */

static void open_twin(void) {
    text script = {0};
    uint64_t bad = 777;
    pathserve_match other = PATHSERVE_CLOSED_HANDLE;
    if (drawn(2)) get_snapshot(&now.view, &script);
    else get_journal(&now.match, &script);
    HOLDS(pathserve_open_script(&other, script.at, script.length, &bad) == PATHSERVE_DONE && bad == 777);
    HOLDS(pathserve_open_script(&other, script.at, script.length, &bad) == PATHSERVE_OPEN);
    pathserve_close(&now.twin);
    now.twin = other;
    same_journal(&now.twin, &script);
    drop(&script);
}

/* All but the journal is as before, until the twin forgets and begins one again. */
static void keep_no_journal(void) {
    uint64_t one = 0, other = 1;
    size_t whole = 777;
    HOLDS(pathserve_turn_digest(&now.twin, &one) == PATHSERVE_DONE);
    HOLDS(pathserve_keep_no_journal(&now.twin) == PATHSERVE_DONE);
    HOLDS(pathserve_journal(&now.twin, NULL, 0, &whole) == PATHSERVE_NO_JOURNAL && whole == 777);
    HOLDS(pathserve_turn_digest(&now.twin, &other) == PATHSERVE_DONE && one == other);
}

static void save(void) {
    uint64_t one = 0, other = 1;
    if (drawn(3) == 0) open_twin();
    if (now.twin.live != 0 && drawn(3) == 0) keep_no_journal();
    if (now.twin.live != 0 && drawn(3) == 0) {
        text saved = {0};
        HOLDS(pathserve_turn_digest(&now.twin, &one) == PATHSERVE_DONE);
        HOLDS(pathserve_forget(&now.twin) == PATHSERVE_DONE);
        HOLDS(pathserve_turn_digest(&now.twin, &other) == PATHSERVE_DONE && one == other);
        get_snapshot(&now.view, &saved);
        same_journal(&now.twin, &saved);
        drop(&saved);
    }
}

/* A script that was cut or bent: the library says by text, at once and why what the program says. */
static void play_broken(void) {
    text script = {0}, told = {0}, cause = {0}, again = {0};
    pathserve_match match = PATHSERVE_CLOSED_HANDLE, none = PATHSERVE_CLOSED_HANDLE;
    uint64_t line = 777, bad = 777;
    size_t used = 0;
    append(&script, now.script.at, drawn(2) ? now.script.length : drawn((uint32_t)now.script.length));
    for (uint32_t k = drawn(3); k > 0 && script.length > 0; k--) script.at[drawn((uint32_t)script.length)] = (uint8_t)"\n\"{}[],:0 9.-a\xff"[drawn(15)];
    HOLDS(pathserve_open(&match, PATHSERVE_REPLAY) == PATHSERVE_DONE);
    pathserve_status status = pathserve_feed(&match, script.at, script.length, &used), last = pathserve_finish(&match);
    HOLDS(used == script.length && (status == PATHSERVE_DONE || status == last));
    HOLDS(pathserve_feed(&match, (const uint8_t *)"x", 1, &used) == PATHSERVE_ENDED && pathserve_finish(&match) == PATHSERVE_ENDED);
    take_some(&match, &told, SIZE_MAX);
    get_cause(&match, &cause);
    get_script_cause(&script, &again, &line);
    HOLDS(is_same(&cause, &again) && (line != 0) == (last == PATHSERVE_BAD_LINE));
    pathserve_status opened = pathserve_open_script(&none, script.at, script.length, &bad);
    HOLDS(last == PATHSERVE_DONE ? opened == PATHSERVE_DONE || opened == PATHSERVE_BAD_VALUE : opened == last && bad == line);
    HOLDS((none.live != 0) == (opened == PATHSERVE_DONE));
    section("broken", &script);
    section("broken told", &told);
    section(last == PATHSERVE_DONE ? "broken whole" : "broken bad", &cause);
    pathserve_close(&match);
    pathserve_close(&none);
    drop(&script), drop(&told), drop(&cause), drop(&again);
}

/* ---- a match ---- */

static void play_turn(void) {
    pathserve_turn turn;
    uint64_t digest = 0;
    now.turns++;
    draw_posts();
    post_in_pieces(&now.match);
    say_posts(&now.script);
    HOLDS(pathserve_end_turn(&now.match, &turn) == PATHSERVE_DONE && turn.turn == now.turns);
    take_turn(&now.match, &turn, &now.last);
    play_twin(&turn);
    stand_after(&now.last);
    play_texts();
    pathserve_view_close(&now.view);
    HOLDS(pathserve_view_of(&now.match, &now.view) == PATHSERVE_DONE);
    say_turn(&turn);
    HOLDS(pathserve_turn_digest(&now.match, &digest) == PATHSERVE_DONE && digest == digest_of_last_turn());
    ask_view();
    save();
}

static void end_match(void) {
    static const char *const reports[REPORTS] = {"told replay", "told profile", "told flow", "told smooth"};
    text journal = {0};
    section("script", &now.script);
    section("replay", &now.answers[PATHSERVE_REPLAY]);
    section("flow", &now.answers[PATHSERVE_FLOW]);
    section("smooth", &now.answers[PATHSERVE_SMOOTH]);
    for (size_t k = 0; k < REPORTS; k++) {
        HOLDS(pathserve_finish(&now.texts[k]) == PATHSERVE_DONE && pathserve_waiting(&now.texts[k]) == 0);
        HOLDS(pathserve_finish(&now.texts[k]) == PATHSERVE_ENDED);
        section(reports[k], &now.told[k]);
        pathserve_close(&now.texts[k]);
    }
    get_journal(&now.match, &journal);
    section("journal", &journal);
    drop(&journal);
    play_broken();
    pathserve_close(&now.match);
    pathserve_close(&now.twin);
    ask_old_view();
    pathserve_view_close(&now.view);
    pathserve_view_close(&now.old);
}

static void play(uint64_t number) {
    pathserve_finder finder = now.finder;
    memset(&now, 0, sizeof now);
    now.finder = finder, now.number = number;
    begin_numbers(number);
    draw_map();
    open_bad_maps();
    open_match();
    for (uint32_t turns = 1 + drawn(6); turns > 0; turns--) play_turn();
    end_match();
    forget_session();
}

static int play_text(void) {
    static uint8_t piece[65536];
    size_t used, length;
    pathserve_match match = PATHSERVE_CLOSED_HANDLE;
    pathserve_open(&match, PATHSERVE_REPLAY);
    while ((length = fread(piece, 1, sizeof piece, stdin)) > 0) pathserve_feed(&match, piece, length, &used);
    pathserve_status status = pathserve_finish(&match);
    while ((length = pathserve_take(&match, piece, sizeof piece)) > 0) fwrite(piece, 1, length, stdout);
    pathserve_close(&match);
    return (int)status;
}

int main(int count, char **words) {
    if (count == 2 && strcmp(words[1], "text") == 0) return play_text();
    if (count != 3) return 2;
    HOLDS(pathserve_version() == PATHSERVE_VERSION && pathserve_answers() == PATHSERVE_ANSWERS);
    HOLDS(pathserve_finder_open(&now.finder) == PATHSERVE_DONE);
    uint64_t first = strtoull(words[1], NULL, 10), many = strtoull(words[2], NULL, 10);
    for (uint64_t k = 0; k < many; k++) play(first + k);
    pathserve_finder_close(&now.finder);
    tell_counts();
    return 0;
}
