/* Posts by chance for bench/random_calls, and their texts by docs/FORMAT.md. */
#include "random_calls.h"
#include <inttypes.h>
#include <stdarg.h>

static uint64_t state;
static unsigned long held, failed;

/* ---- numbers, texts, what holds ---- */

void holds(int is_so, const char *file, int line, const char *words) {
    held++;
    if (is_so) return;
    if (failed++ < 5) fprintf(stderr, "match %" PRIu64 ", turn %" PRIu32 ", %s:%d: %s\n", now.number, now.turns, file, line, words);
}

void tell_counts(void) {
    text told = {0};
    for (size_t k = 0; k < sizeof call_names / sizeof *call_names; k++) say(&told, "%s %lu\n", call_names[k], call_counts[k]);
    section("calls", &told);
    told.length = 0;
    say(&told, "%lu %lu\n", held, failed);
    section("held", &told);
    drop(&told);
}

static uint64_t next_number(void) {
    uint64_t mixed = state += 0x9e3779b97f4a7c15u;
    mixed = (mixed ^ mixed >> 30) * 0xbf58476d1ce4e5b9u;
    mixed = (mixed ^ mixed >> 27) * 0x94d049bb133111ebu;
    return mixed ^ mixed >> 31;
}

void begin_numbers(uint64_t number) { state = number * 0x2545f4914f6cdd1du; }

uint32_t drawn(uint32_t below) { return below == 0 ? 0 : (uint32_t)((next_number() >> 32) * below >> 32); }

void append(text *to, const void *bytes, size_t length) {
    if (to->length + length + 1 > to->room) to->at = realloc(to->at, to->room = 2 * (to->length + length + 64));
    if (length > 0) memcpy(to->at + to->length, bytes, length);
    to->length += length;
}

void say(text *to, const char *format, ...) {
    char line[512];
    va_list words;
    va_start(words, format);
    int length = vsnprintf(line, sizeof line, format, words);
    va_end(words);
    append(to, line, (size_t)length);
}

int is_same(const text *one, const text *other) {
    return one->length == other->length && (one->length == 0 || memcmp(one->at, other->at, one->length) == 0);
}

void drop(text *its) {
    free(its->at);
    *its = (text){0};
}

void section(const char *name, const text *its) {
    printf("%s %zu\n", name, its->length);
    fwrite(its->at, 1, its->length, stdout);
}

void forget_session(void) {
    drop(&now.script);
    for (size_t k = 0; k < REPORTS; k++) drop(&now.answers[k]), drop(&now.told[k]);
}

/* ---- texts of the library ---- */

void take_some(pathserve_match *match, text *told, size_t most) {
    size_t waits = pathserve_waiting(match), some = waits < most ? waits : most;
    uint8_t *piece = malloc(some + 1);
    piece[some] = 0xee;
    HOLDS(pathserve_take(match, piece, some) == some && piece[some] == 0xee);
    HOLDS(pathserve_waiting(match) == waits - some);
    append(told, piece, some);
    free(piece);
}

/* A text that a call gives by its size: with no room, with too little, and with enough of it. */
#define GET(call, into)                                                                                                           \
    do {                                                                                                                         \
        size_t whole = 777, again = 777;                                                                                         \
        pathserve_status first = call(NULL, 0, &whole);                                                                          \
        HOLDS(first == (whole == 0 ? PATHSERVE_DONE : PATHSERVE_SMALL));                                                         \
        (into)->at = malloc(whole + 1), (into)->room = whole + 1, (into)->length = whole;                                        \
        memset((into)->at, 0xee, whole + 1);                                                                                     \
        if (whole > 0) HOLDS(call((into)->at, whole - 1, &again) == PATHSERVE_SMALL && again == whole && (into)->at[0] == 0xee); \
        HOLDS(call((into)->at, whole + drawn(2), &again) == PATHSERVE_DONE && again == whole && (into)->at[whole] == 0xee);      \
    } while (0)

#define SNAPSHOT(to, room, size) pathserve_snapshot(view, to, room, size)
#define JOURNAL(to, room, size) pathserve_journal(match, to, room, size)
#define CAUSE(to, room, size) pathserve_cause(match, to, room, size)
#define SCRIPT_CAUSE(to, room, size) pathserve_script_cause(script->at, script->length, line, to, room, size)

void get_snapshot(pathserve_view *view, text *script) { GET(SNAPSHOT, script); }

void get_journal(pathserve_match *match, text *script) { GET(JOURNAL, script); }

void get_cause(pathserve_match *match, text *cause) { GET(CAUSE, cause); }

void get_script_cause(const text *script, text *cause, uint64_t *line) { GET(SCRIPT_CAUSE, cause); }

void same_journal(pathserve_match *match, const text *script) {
    text journal = {0};
    get_journal(match, &journal);
    HOLDS(is_same(&journal, script));
    drop(&journal);
}

/* ---- posts by chance ---- */

size_t place_of_id(uint32_t id) {
    size_t place = 0;
    while (place + 1 < IDS && id_of_place(place) != id) place++;
    return place;
}

uint32_t id_of_place(size_t place) {
    static const uint32_t ids[IDS] = {0, 1, 2, 3, 4, 5, 7, 63, 64, 65, 1000, 65536, 4294967294u, 4294967295u};
    return ids[place];
}

static uint32_t some_id(void) { return id_of_place(drawn(IDS)); }

static pathserve_fixed coordinate(uint32_t side) {
    uint32_t how = drawn(100), raw = side * PATHSERVE_NAVCELL;
    if (how < 60) return (pathserve_fixed)drawn(raw);
    if (how < 80) return pathserve_make_middle((uint16_t)drawn(side));
    if (how < 96) return (pathserve_fixed)(drawn(side) * PATHSERVE_NAVCELL);
    return how == 96 ? -1 : how == 97 ? (pathserve_fixed)raw : how == 98 ? INT32_MIN : INT32_MAX;
}

static pathserve_fixed length(void) {
    uint32_t how = drawn(100);
    if (how < 50) return (pathserve_fixed)drawn(3 * PATHSERVE_NAVCELL);
    if (how < 80) return (pathserve_fixed)(drawn(16) * PATHSERVE_NAVCELL / 2);
    if (how < 96) return (pathserve_fixed)drawn(40 * PATHSERVE_NAVCELL);
    return how == 96 ? -1 : how == 97 ? 256 * PATHSERVE_NAVCELL : how == 98 ? 256 * PATHSERVE_NAVCELL + 1 : INT32_MAX;
}

typedef struct { pathserve_fixed x, z; } way;

static way vector(void) {
    static const way vectors[] = {{65536, 0}, {0, 65536}, {-65536, 0}, {0, -65536}, {46341, 46341}, {39322, 52429}, {-52429, 39322},
                                              {57926, -30650}, {65792, 0}, {65793, 0}, {65536, 65536}, {0, 0}, {INT32_MIN, INT32_MIN}};
    return vectors[drawn(8) == 0 ? 8 + drawn(5) : drawn(8)];
}

static pathserve_post drawn_edit(uint8_t caller) {
    pathserve_fixed x = coordinate(now.map.width), z = coordinate(now.map.height);
    way along = vector();
    uint16_t mask = drawn(3) == 0 ? (uint16_t)drawn(65536) : 65535;
    switch (drawn(6)) {
    case 0: return pathserve_make_remove(caller, some_id());
    case 1: return pathserve_make_move(caller, some_id(), x, z);
    case 2: return pathserve_make_add_square(caller, some_id(), mask, x, z, along.x, along.z, length(), length());
    default: return pathserve_make_add_unit(caller, some_id(), mask, x, z, length());
    }
}

pathserve_post drawn_request(void) {
    uint8_t caller = (uint8_t)drawn(now.map.callers), class = (uint8_t)drawn((uint32_t)now.class_count);
    pathserve_fixed x = coordinate(now.map.width), z = coordinate(now.map.height);
    pathserve_fixed to_x = coordinate(now.map.width), to_z = coordinate(now.map.height);
    way along = vector();
    int outside = (int)drawn(2);
    switch (drawn(7)) {
    case 0: return pathserve_make_region(caller, class, x, z);
    case 1: return pathserve_make_path_to_circle(caller, class, x, z, to_x, to_z, length(), outside);
    case 2: return pathserve_make_path_to_square(caller, class, x, z, to_x, to_z, along.x, along.z, length(), length(), outside);
    case 3: return pathserve_make_path_to_obstruction(caller, class, x, z, some_id(), length());
    default: return pathserve_make_path_to_point(caller, class, x, z, to_x, to_z);
    }
}

void draw_posts(void) {
    now.post_count = drawn(10) == 0 ? 0 : 1 + drawn(MOST_POSTS);
    uint32_t edits = drawn(100);
    for (size_t k = 0; k < now.post_count; k++)
        now.posts[k] = drawn(100) < edits ? drawn_edit((uint8_t)drawn(now.map.callers)) : drawn_request();
}

/* The post that the maker of its kind makes of what it has. */
pathserve_post remade(const pathserve_post *it) {
    pathserve_post none = PATHSERVE_EMPTY_POST;
    switch (it->kind) {
    case PATHSERVE_ADD_UNIT: return pathserve_make_add_unit(it->caller, it->id, it->mask, it->x, it->z, it->radius);
    case PATHSERVE_ADD_SQUARE:
        return pathserve_make_add_square(it->caller, it->id, it->mask, it->x, it->z, it->ux, it->uz, it->hw, it->hh);
    case PATHSERVE_REMOVE: return pathserve_make_remove(it->caller, it->id);
    case PATHSERVE_MOVE: return pathserve_make_move(it->caller, it->id, it->x, it->z);
    case PATHSERVE_REGION: return pathserve_make_region(it->caller, it->class_number, it->x, it->z);
    default: break;
    }
    switch (it->goal) {
    case PATHSERVE_POINT: return pathserve_make_path_to_point(it->caller, it->class_number, it->x, it->z, it->goal_x, it->goal_z);
    case PATHSERVE_CIRCLE:
    case PATHSERVE_NOT_CIRCLE:
        return pathserve_make_path_to_circle(it->caller, it->class_number, it->x, it->z, it->goal_x, it->goal_z, it->radius,
                                             it->goal == PATHSERVE_NOT_CIRCLE);
    case PATHSERVE_SQUARE:
    case PATHSERVE_NOT_SQUARE:
        return pathserve_make_path_to_square(it->caller, it->class_number, it->x, it->z, it->goal_x, it->goal_z, it->ux, it->uz, it->hw,
                                             it->hh, it->goal == PATHSERVE_NOT_SQUARE);
    case PATHSERVE_OBSTRUCTION: return pathserve_make_path_to_obstruction(it->caller, it->class_number, it->x, it->z, it->id, it->radius);
    default: return none;
    }
}

/* The post that a reply of the turn answers: the one of its place among those of its caller. */
const pathserve_post *post_of(const pathserve_reply *reply) {
    uint32_t place = 0;
    for (size_t k = 0; k < now.post_count; k++)
        if (now.posts[k].caller == reply->caller && place++ == reply->post) return &now.posts[k];
    HOLDS(!"a reply has its post");
    return &now.posts[0];
}

/* ---- the script ---- */

/* Numbers as decimals of 16 places, which are exact. */
static void say_decimals(text *to, const pathserve_fixed *raw, size_t count) {
    for (size_t k = 0; k < count; k++) {
        uint64_t size = raw[k] < 0 ? -(int64_t)raw[k] : raw[k];
        say(to, "%s\"%s%" PRIu64 ".%016" PRIu64 "\"", k == 0 ? "[" : ",", raw[k] < 0 ? "-" : "", size >> 16, (size & 65535) * 152587890625u);
    }
    say(to, "]");
}

void say_map(text *to) {
    say(to, "{\"version\":3,\"size\":[%" PRIu32 ",%" PRIu32 "],\"callers\":%" PRIu32 ",\"classes\":[", now.map.width, now.map.height,
        now.map.callers);
    for (size_t k = 0; k < now.class_count; k++) {
        pathserve_fixed raw = now.classes[k].clearance;
        say(to, "%s{\"name\":\"%.*s\",\"clearance\":\"%d.%016" PRIu64 "\"}", k == 0 ? "" : ",", (int)now.classes[k].name_length,
            (const char *)now.classes[k].name, raw >> 16, (raw & 65535) * UINT64_C(152587890625));
    }
    say(to, "]}\n");
    for (size_t k = 0; k < now.base_count; k++) {
        const pathserve_rect *it = &now.base[k];
        say(to, "{\"base\":[[%u,%u,%u,%u,%u]]}\n", it->i0, it->j0, it->i1, it->j1, it->mask);
    }
}

static void say_goal(text *to, const pathserve_post *it) {
    static const char *const kinds[] = {"", "point", "circle", "not-circle", "square", "not-square"};
    pathserve_fixed round[3] = {it->goal_x, it->goal_z, it->radius}, six[6] = {it->goal_x, it->goal_z, it->ux, it->uz, it->hw, it->hh};
    say(to, ",\"goal\":{");
    if (it->goal == PATHSERVE_OBSTRUCTION) {
        text far = {0};
        say_decimals(&far, &it->radius, 1);
        say(to, "\"obstruction\":[%" PRIu32 ",%.*s", it->id, (int)far.length - 1, (const char *)far.at + 1);
        drop(&far);
    } else {
        say(to, "\"%s\":", kinds[it->goal]);
        if (it->goal < PATHSERVE_SQUARE) say_decimals(to, round, it->goal == PATHSERVE_POINT ? 2 : 3);
        else say_decimals(to, six, 6);
    }
    say(to, "}");
}

static void say_post(text *to, const pathserve_post *it) {
    pathserve_fixed unit[3] = {it->x, it->z, it->radius}, square[6] = {it->x, it->z, it->ux, it->uz, it->hw, it->hh};
    const pathserve_class *its = &now.classes[it->class_number];
    say(to, "{\"caller\":%u,", it->caller);
    switch (it->kind) {
    case PATHSERVE_REMOVE: say(to, "\"remove\":%" PRIu32 "}\n", it->id); return;
    case PATHSERVE_MOVE: say(to, "\"move\":%" PRIu32 ",\"to\":", it->id); break;
    case PATHSERVE_ADD_UNIT: say(to, "\"add\":%" PRIu32 ",\"mask\":%u,\"unit\":", it->id, it->mask); break;
    case PATHSERVE_ADD_SQUARE: say(to, "\"add\":%" PRIu32 ",\"mask\":%u,\"square\":", it->id, it->mask); break;
    default:
        say(to, "\"%s\":\"%.*s\",\"%s\":", it->kind == PATHSERVE_PATH ? "path" : "region", (int)its->name_length, (const char *)its->name,
            it->kind == PATHSERVE_PATH ? "from" : "at");
    }
    if (it->kind == PATHSERVE_ADD_SQUARE) say_decimals(to, square, 6);
    else say_decimals(to, unit, it->kind == PATHSERVE_ADD_UNIT ? 3 : 2);
    if (it->kind == PATHSERVE_PATH) say_goal(to, it);
    say(to, "}\n");
}

void say_posts(text *to) {
    for (size_t k = 0; k < now.post_count; k++) say_post(to, &now.posts[k]);
    say(to, "{\"end\":%" PRIu32 "}\n", now.turns);
}

/* ---- the answers ---- */

static int is_path(const pathserve_reply *it) { return it->kind == PATHSERVE_AT_GOAL || it->kind == PATHSERVE_NEAR_GOAL; }

static void say_cells(text *to, const pathserve_cell *cells, size_t count) {
    for (size_t k = 0; k < count; k++) say(to, " %u.5,%u.5", cells[k].i, cells[k].j);
    say(to, "\n");
}

static void say_reply(text *to, const pathserve_reply *it) {
    static const char *const edits[] = {"", "added", "removed", "moved"};
    uint8_t why[PATHSERVE_TEXT];
    say(to, "%u %" PRIu32 " ", it->caller, it->post);
    if (it->kind == PATHSERVE_REFUSED) {
        int size = (int)pathserve_refusal_text(it->why, why, sizeof why);
        say(to, "refused %.*s\n", size, (const char *)why);
    } else if (it->kind == PATHSERVE_NOWHERE) {
        say(to, "nowhere\n");
    } else if (it->kind == PATHSERVE_IN_REGION) {
        say(to, "region %u %u %u %" PRIu32 "\n", it->chunk.i, it->chunk.j, it->region, it->area);
    } else if (is_path(it)) {
        say(to, "path %u %u %u %u %s %" PRIu64 " %" PRIu64, it->start.i, it->start.j, it->end.i, it->end.j,
            it->kind == PATHSERVE_AT_GOAL ? "goal" : "near", it->cost, it->waypoints);
        say_cells(to, now.last.cells + it->first_waypoint, it->waypoints);
    } else {
        say(to, "%s %" PRIu32 "\n", edits[it->kind & 3], it->id);
    }
}

/* What the field of a path has: the step of its start, how many cells have a distance, the farthest, and their sum. */
static void say_flow(text *to, const pathserve_reply *it) {
    static const char *const names[] = {"", "N", "E", "S", "W", "NE", "SE", "SW", "NW", "-"};
    size_t count = (size_t)now.map.width * now.map.height, many = 0;
    uint8_t *steps = calloc(count, 1);
    uint64_t *far = calloc(count, sizeof *far), most = 0, sum = 0;
    pathserve_reply reply;
    HOLDS(pathserve_field(&now.view, post_of(it), &reply, steps, count, far, count) == PATHSERVE_DONE);
    for (size_t k = 0; k < count; k++) {
        if (far[k] == PATHSERVE_NO_DISTANCE) continue;
        most = most > far[k] ? most : far[k], sum += far[k], many++;
    }
    say(to, "%u %" PRIu32 " flow %s %zu %" PRIu64 " %" PRIu64 "\n", it->caller, it->post,
        names[steps[(size_t)it->start.j * now.map.width + it->start.i] % 10], many, most, sum);
    free(steps);
    free(far);
}

static void say_smooth(text *to, const pathserve_reply *it) {
    static pathserve_cell cells[MOST_CELLS];
    size_t kept = 0;
    memcpy(cells, now.last.cells + it->first_waypoint, it->waypoints * sizeof *cells);
    HOLDS(pathserve_smooth(&now.view, post_of(it)->class_number, &it->start, cells, it->waypoints, &kept) == PATHSERVE_DONE);
    say(to, "%u %" PRIu32 " smooth %zu", it->caller, it->post, kept);
    say_cells(to, cells, kept);
}

/* The text of the last turn, as `replay`, `flow` and `smooth` write it. */
void say_turn(const pathserve_turn *turn) {
    now.turn_at = now.answers[PATHSERVE_REPLAY].length;
    for (size_t report = 0; report < REPORTS; report++) {
        text *to = &now.answers[report];
        say(to, "turn %" PRIu64 " regions %" PRIu64 " edges %" PRIu64 " areas %" PRIu64 " relabelled %" PRIu32 "\n", turn->turn,
            turn->regions, turn->edges, turn->areas, turn->relabelled);
        for (size_t k = 0; k < now.last.count; k++) {
            const pathserve_reply *it = &now.last.replies[k];
            say_reply(to, it);
            if (is_path(it) && report == PATHSERVE_FLOW) say_flow(to, it);
            if (is_path(it) && report == PATHSERVE_SMOOTH) say_smooth(to, it);
        }
    }
}

uint64_t digest_of(const uint8_t *bytes, size_t count) {
    unsigned __int128 digest = 0;
    for (size_t k = 0; k < count; k++) digest = (digest * 256 + bytes[k]) % (((unsigned __int128)1 << 64) - 59);
    return (uint64_t)digest;
}

/* The digest of its text behind the turn's number. */
uint64_t digest_of_last_turn(void) {
    const text *its = &now.answers[PATHSERVE_REPLAY];
    const uint8_t *from = its->at + now.turn_at + 5;
    while (*from != ' ') from++;
    return digest_of(from + 1, (size_t)(its->at + its->length - from - 1));
}
