/* pathserve.h: deterministic long-range pathfinding for many players, by turns.
 *
 * A match is a map with passability classes, the current obstructions, and its turns. In a turn callers post edits of the
 * obstructions and requests for paths and regions. When the turn ends, all edits are made, and then all requests are
 * answered on the map that they leave. No answer depends on floats, time, threads or addresses: machines that give a match
 * the same posts get the same answers, byte for byte. docs/FORMAT.md describes each answer.
 *
 *     by text       pathserve_open       feed, finish          waiting, take, cause
 *                   limit_line
 *     by structs    pathserve_open_map   check, post_all, end_turn   replies, waypoints, journal
 *                   pathserve_open_grid  limit_posts, keep_no_journal
 *     to go on      pathserve_open_script, script_cause, snapshot, forget   turn_digest, view_digest
 *     to look       pathserve_view_of    view_size, passable, region, area, row, nearest, reachable, standing_at, standing,
 *                                        find, field, clear, smooth
 *     to find much  pathserve_finder_open   find_with, find_within, find_all
 *
 * WHAT YOU PROMISE, for each call. The library's functions are proved to be safe and to return the statuses and results
 * that this file states. Tested, and not proved, are four things: the statements about memory (NO_MEMORY only after a failed
 * allocation, closing frees, a view copies little, the memory of text that was taken is reused), the offsets of the fields of
 * structs, that a match that has stopped keeps saying so, and how much stack a call needs. Everything rests on the promises
 * below. Nothing checks them: to break one is undefined behaviour.
 *   1. A pointer to a struct is not NULL, is aligned, and points to writable memory, unless it points to `const`. Until the
 *      call returns nothing else writes to that memory, and nothing else reads what the call may write to. No two pointers
 *      of one call overlap, but for two that it only reads.
 *   2. A pointer with a length or a count points to that many items. With 0 it may be NULL.
 *   3. A handle (pathserve_match, pathserve_view, pathserve_finder) is all zero before it is first opened. From then on only
 *      the library writes to it. An open handle may be moved between calls, that is copied, if the old one is never used
 *      again, not even to close it. Two copies must not both be used: once one is closed, the other dangles.
 *   4. Each handle serves one call at a time. It may pass to another thread if a lock, the start or the join of a thread,
 *      or a sequentially consistent atomic orders that. Different threads may use different handles at once.
 *   5. PATHSERVE_STACK bytes of stack are left. No call is made from a signal handler or in the child of a fork.
 *   6. malloc, realloc and free belong to one allocator, or you define the functions at the end of this file. If several
 *      threads use handles, these may be called at the same time, and free what another thread has allocated.
 *
 * OF EACH CALL, unless it says otherwise. Structs and buffers that you pass stay yours: the library copies what it keeps, and
 * has no pointer to them once the call has returned. What a handle holds is the library's, and is freed by closing it. A call
 * with handles is made by any thread that has them (promise 4); one without a handle by any thread at any time.
 *
 * Builds for x86-64 need a processor of x86-64-v2, so one since about 2010.
 *
 * No function throws, jumps, prints, ends the program, starts a thread, or reads a clock, a file or the environment. There
 * is no global state. You free nothing of the library's except by closing a handle.
 */
#ifndef PATHSERVE_H
#define PATHSERVE_H

#include <stddef.h>
#include <stdint.h>

#ifdef __cplusplus
extern "C" {
#endif

/* ---- versions ---- */

#define PATHSERVE_VERSION_MAJOR 0u /* changes: recompile, and perhaps adapt your code */
#define PATHSERVE_VERSION_MINOR 1u /* rises: functions were added. While the major number is 0, as for that */
#define PATHSERVE_VERSION_PATCH 0u /* changes: neither */
#define PATHSERVE_VERSION (PATHSERVE_VERSION_MAJOR << 16 | PATHSERVE_VERSION_MINOR << 8 | PATHSERVE_VERSION_PATCH)

/* The version of the answers. Libraries with the same number give the same posts the same answers. So all players of a match
 * need this number to be equal, whatever the version of the interface is. */
#define PATHSERVE_ANSWERS 2u

#define PATHSERVE_STACK 65536u /* bytes: see promise 5 */

/* PATHSERVE_VERSION and PATHSERVE_ANSWERS of the linked library. Compare them at startup. By any thread at any time. */
uint32_t pathserve_version(void);
uint32_t pathserve_answers(void);

/* The size of a struct in the library, for callers that do not compile this header: `which` is a PATHSERVE_SIZE_ number.
 * 0 for any other number. By any thread at any time. */
size_t pathserve_size_of(uint32_t which);

enum {
    PATHSERVE_SIZE_MATCH = 1, /* 16 */
    PATHSERVE_SIZE_VIEW = 2,  /* 16 */
    PATHSERVE_SIZE_MAP = 3,   /* 12 */
    PATHSERVE_SIZE_CLASS = 4, /* 72 */
    PATHSERVE_SIZE_RECT = 5,  /* 12 */
    PATHSERVE_SIZE_POST = 6,  /* 48 */
    PATHSERVE_SIZE_TURN = 7,  /* 56 */
    PATHSERVE_SIZE_REPLY = 8, /* 56 */
    PATHSERVE_SIZE_CELL = 9,  /* 4 */
    PATHSERVE_SIZE_FINDER = 10 /* 16 */
};

/* ---- statuses: those below 16 are exit statuses of the program `pathserve` (docs/FORMAT.md, "Words and statuses") ---- */

typedef uint32_t pathserve_status;
enum {
    PATHSERVE_DONE = 0,        /* the call did what it was asked to */
    PATHSERVE_BAD_LINE = 3,    /* a line of the script is not valid: the text ends with its number */
    PATHSERVE_NO_MEMORY = 6,   /* an allocation failed. Nothing is lost, and the call can be made again */
    PATHSERVE_TOO_LONG = 7,    /* a line has more than 8,388,608 bytes, or the script more than 4,294,967,296 */
    PATHSERVE_CLOSED = 16,     /* the handle is closed */
    PATHSERVE_OPEN = 17,       /* the handle is open already */
    PATHSERVE_OTHER = 18,      /* a handle of another kind: by text for a call by structs, or the reverse; a match for a view */
    PATHSERVE_ENDED = 19,      /* pathserve_finish has ended the script */
    PATHSERVE_NO_MAP = 20,     /* the script's map line has not been fed yet */
    PATHSERVE_BAD_VALUE = 21,  /* an unknown kind, number or size, or an unused field that is not 0 */
    PATHSERVE_SMALL = 22,      /* the buffer is too small: nothing was written, and the size that is needed was */
    PATHSERVE_PAST_LIMIT = 23, /* more than a limit that was set: nothing was taken */
    PATHSERVE_NO_JOURNAL = 24  /* the match keeps no journal */
};

/* Any status but DONE leaves a handle as it was, except the two of a script (BAD_LINE, TOO_LONG) and where a call says
 * otherwise. */

/* ---- texts: each call writes a text in ASCII, without a 0 behind it, as much of it as fits, and returns how many bytes the whole
 * text has. What lies behind it in the buffer stays. No text has more than PATHSERVE_TEXT bytes. None is refused: an unknown
 * number has a text that says so. By any thread at any time ---- */

#define PATHSERVE_TEXT 96u

size_t pathserve_status_text(pathserve_status status, uint8_t *buffer, size_t length); /* what a status means */
size_t pathserve_refusal_text(uint32_t why, uint8_t *buffer, size_t length); /* pathserve_reply.why, by the word of the answers */
size_t pathserve_fault_text(uint32_t why, uint8_t *buffer, size_t length);   /* what pathserve_check finds wrong with a post */
size_t pathserve_version_text(uint8_t *buffer, size_t length);               /* the version of the library, as "0.1.0" */

/* ---- handles: initialise them to zero, as in `pathserve_match match = PATHSERVE_CLOSED_HANDLE;` ---- */

#define PATHSERVE_CLOSED_HANDLE {0, NULL} /* a closed handle, as `{0}` of C and `{}` of C++ */

typedef struct pathserve_match { uint64_t live; void *at; } pathserve_match;   /* a match */
typedef struct pathserve_view { uint64_t live; void *at; } pathserve_view;     /* a snapshot of the map, to query */
typedef struct pathserve_finder { uint64_t live; void *at; } pathserve_finder; /* the memory of a thread's searches */

/* Closes a match of either kind and frees its memory, by any thread that has it. Its views stay open, and can be closed later.
 * Closing a closed match does nothing. */
void pathserve_close(pathserve_match *match);

/* ======== a match by text: what the program does by `replay`, or by a word that writes more after each path ======== */

enum {
    PATHSERVE_REPLAY = 0,  /* the answers */
    PATHSERVE_PROFILE = 1, /* and for each path how many states its search expands */
    PATHSERVE_FLOW = 2,    /* and for each path four numbers of the flow field to its goal */
    PATHSERVE_SMOOTH = 3   /* and for each path its smoothed waypoints */
};

/* The words of the program for these, each at its number. */
#define PATHSERVE_REPORT_WORDS "replay", "profile", "flow", "smooth"

/* Opens a closed handle: a match whose script has no bytes yet; pathserve_close frees it. `report` is one of the numbers above.
 * DONE, OPEN, NO_MEMORY. BAD_VALUE: another number. */
pathserve_status pathserve_open(pathserve_match *match, uint32_t report);

/* Feeds the next bytes of the script, cut anywhere. The text of each turn whose end line has arrived then waits to be taken.
 * `taken` gets how many of the bytes were consumed.
 *   DONE                  all bytes were consumed. The text since the match was opened is what the program has written once
 *                         it has read the whole lines that were fed.
 *   BAD_LINE, TOO_LONG    the match stops: each later call returns the same, the first pathserve_finish too, and those after
 *                         it ENDED. The text is what the program writes for the script, whatever follows. All bytes were
 *                         consumed.
 *   NO_MEMORY             only the first `taken` bytes were consumed: feed the others again, or stop.
 *   PAST_LIMIT            with them a line would have more bytes than pathserve_limit_line lets: no byte was consumed.
 *   ENDED, CLOSED, OTHER  no byte was consumed. */
pathserve_status pathserve_feed(pathserve_match *match, const uint8_t *bytes, size_t length, size_t *taken);

/* Lets a line of the script have at most so many bytes, without its newline. From then on pathserve_feed refuses with PAST_LIMIT
 * exactly the bytes with which a line would have more, before it looks at them, also where the script has ended or stopped. The
 * bytes of a line that has begun count from the first limit on, so set it where the match is opened. No answer changes. A match
 * has no limit until one is set, but for that of TOO_LONG, and counts no bytes; SIZE_MAX is none. DONE, CLOSED, OTHER. */
pathserve_status pathserve_limit_line(pathserve_match *match, size_t most);

/* Ends the script, as the end of its input does for the program: bytes after the last newline then count as a line, and a
 * turn without its end line is bad. A game that ends its turns by end lines need not call it.
 *   DONE                  the script is complete, and the text is what the program writes for it.
 *   BAD_LINE, TOO_LONG    the text is what the program writes for the script.
 *   NO_MEMORY             the script has ended, and some text is still missing: call again. pathserve_feed takes no more bytes.
 *   ENDED                 it was called before, and no text was missing.
 *   CLOSED, OTHER */
pathserve_status pathserve_finish(pathserve_match *match);

/* Says why the line is bad at which the match has stopped: what the program writes behind `line N is bad: `. `whole` gets the size
 * of that text: 0 as long as no line was bad.
 * DONE: it is at the start of the buffer. SMALL: it does not fit, and nothing was written to the buffer; so a first call with
 * (NULL, 0) asks for the size. NO_MEMORY, CLOSED, OTHER: neither was written. */
pathserve_status pathserve_cause(pathserve_match *match, uint8_t *buffer, size_t length, size_t *whole);

/* How many bytes of text wait. 0 for a match that is closed or by structs. */
size_t pathserve_waiting(pathserve_match *match);

/* Moves waiting text into the buffer, as much as fits; the rest keeps waiting. Returns how many bytes it moved; 0 for a match
 * that is closed or by structs. The memory of text that was taken is reused once none waits, so take all of it now and
 * then. */
size_t pathserve_take(pathserve_match *match, uint8_t *buffer, size_t length);

/* ======== a match by structs ======== */

/* A coordinate or a length: 65,536 is the side of a navcell. Decimals of a script are truncated to such numbers. */
typedef int32_t pathserve_fixed;
#define PATHSERVE_NAVCELL 65536

/* A navcell: its column from the west and its row from the south, both from 0. The point x lies in column x / 65,536. As a
 * waypoint it stands for its middle: (i * 65,536 + 32,768, j * 65,536 + 32,768). */
typedef struct pathserve_cell { uint16_t i, j; } pathserve_cell;

/* A map's size in navcells, 1 to 2048 each way, and how many callers it has, 1 to 64. */
typedef struct pathserve_map { uint32_t width, height, callers; } pathserve_map;

/* A passability class: its name, 1 to 64 ASCII letters, digits, `-` or `_` followed by zeros, and the distance that its units
 * keep from obstructions, 0 to 64 navcells, and not from terrain, which blocks exactly its cells. So {"infantry", 8, 49152} has a
 * name of 8 letters and a clearance of 0.75. */
typedef struct pathserve_class { uint8_t name[64]; uint32_t name_length; pathserve_fixed clearance; } pathserve_class;

/* A rectangle of navcells, both corners included, that is never passable for the classes of the mask: bit k stands for class
 * k. `zero` is 0, as is every field of that name. */
typedef struct pathserve_rect { uint16_t i0, j0, i1, j1, mask, zero; } pathserve_rect;

/* Opens a closed handle: a match on this map, before its first turn. It copies the arrays. BAD_VALUE: a size, a number, a name,
 * a clearance or a rectangle is not as this file says it is. There are 1 to 16 classes with distinct names, numbered
 * by their places from 0; the rectangles lie inside the map. The match keeps its posts for its journal, some 150 bytes each,
 * until it is closed or pathserve_keep_no_journal is called (docs/C.md, "Memory"); a match by text keeps none.
 * DONE, OPEN, BAD_VALUE, NO_MEMORY. */
pathserve_status pathserve_open_map(pathserve_match *match, const pathserve_map *map, const pathserve_class *classes,
                                    size_t class_count, const pathserve_rect *base, size_t base_count);

/* The same with the terrain as a grid in place of rectangles: a mask for each cell, that of cell (i, j) at place j * width + i, so
 * row by row from the south. Bit k of it makes the cell impassable for class k, for good. `count` is width * height. The match
 * answers like one that was opened with rectangles that block the same cells; its map has a rectangle for each run of cells of
 * a row with one mask that is not 0. DONE, OPEN, NO_MEMORY. BAD_VALUE: as above, or another count. */
pathserve_status pathserve_open_grid(pathserve_match *match, const pathserve_map *map, const pathserve_class *classes,
                                     size_t class_count, const uint16_t *masks, size_t count);

enum { /* pathserve_post.kind */
    PATHSERVE_ADD_UNIT = 1,   /* add an obstruction: a square along the axes. id, mask, x, z, radius (its half side) */
    PATHSERVE_ADD_SQUARE = 2, /* add an obstruction: a rectangle along a unit vector. id, mask, x, z, ux, uz, hw, hh */
    PATHSERVE_REMOVE = 3,     /* remove an obstruction. id */
    PATHSERVE_MOVE = 4,       /* move an obstruction. id, x, z (its new middle) */
    PATHSERVE_PATH = 5,       /* ask for a path. class_number, x, z (where the unit is), goal and what that uses */
    PATHSERVE_REGION = 6      /* ask for the region and the area at a point. class_number, x, z */
};
/* A path starts in the cell of its point or, if that is blocked, in the nearest passable cell, which may lie across a wall. So
 * a unit that is an obstruction for its own class blocks its own start (docs/C.md, "How units ask"). */
enum { /* pathserve_post.goal of a path; 0 of other posts */
    PATHSERVE_POINT = 1,      /* goal_x, goal_z */
    PATHSERVE_CIRCLE = 2,     /* goal_x, goal_z, radius */
    PATHSERVE_NOT_CIRCLE = 3, /* the cells outside it. goal_x, goal_z, radius */
    PATHSERVE_SQUARE = 4,     /* a rectangle along a unit vector. goal_x, goal_z, ux, uz, hw, hh */
    PATHSERVE_NOT_SQUARE = 5, /* the cells outside it. goal_x, goal_z, ux, uz, hw, hh */
    PATHSERVE_OBSTRUCTION = 6 /* the cells around an obstruction. id, radius (how far: the class's clearance and half a navcell) */
};

/* A post. Each kind uses `kind`, `caller` and the fields named there; every other field is 0. Limits are in navcells: past
 * them, or with a middle or a point off the map, the post's reply is a refusal. */
typedef struct pathserve_post {
    uint8_t kind;                   /* 1 to 6 */
    uint8_t caller;                 /* from 0, below the map's number of callers */
    uint8_t class_number;           /* from 0, below the map's number of classes */
    uint8_t goal;                   /* 1 to 6 */
    uint16_t mask;                  /* the classes that an obstruction blocks: bit k is for class k; other bits are ignored */
    uint16_t zero;
    uint32_t id;                    /* an obstruction's number, any of 32 bits, shared by all callers */
    pathserve_fixed x, z;           /* a middle or a point: from 0 to below the map's side */
    pathserve_fixed goal_x, goal_z; /* the middle of a goal: the same */
    pathserve_fixed ux, uz;         /* the unit vector that a rectangle lies along: |ux*ux + uz*uz - 2^32| <= 2^25 */
    pathserve_fixed hw, hh;         /* its half sides, along the vector and across it: 0 to 256, of a goal 0 to 4096 */
    pathserve_fixed radius;         /* a half side, 0 to 256; a radius, 0 to 4096; a distance, 0 to 3840 */
} pathserve_post;

/* ---- makers of posts: each fills the fields that its kind uses, and the others with 0. They are part of this header, and not of
 * the library: a game may as well fill posts itself ---- */

#define PATHSERVE_EMPTY_POST {0, 0, 0, 0, 0, 0, 0, 0, 0, 0, 0, 0, 0, 0, 0, 0} /* each of the 16 fields is 0 */

#ifdef __GNUC__
#define PATHSERVE_MAKER static inline __attribute__((unused))
#else
#define PATHSERVE_MAKER static inline
#endif

/* The coordinate of the middle of a column or a row. */
PATHSERVE_MAKER pathserve_fixed pathserve_make_middle(uint16_t place) {
    return (pathserve_fixed)place * PATHSERVE_NAVCELL + PATHSERVE_NAVCELL / 2;
}

/* A post of a kind about a point, for the makers below. */
PATHSERVE_MAKER pathserve_post pathserve_make_post(uint8_t kind, uint8_t caller, pathserve_fixed x, pathserve_fixed z) {
    pathserve_post post = PATHSERVE_EMPTY_POST;
    post.kind = kind;
    post.caller = caller;
    post.x = x;
    post.z = z;
    return post;
}

/* Adds the obstruction `id`: a square along the axes with its middle at (x, z). */
PATHSERVE_MAKER pathserve_post pathserve_make_add_unit(uint8_t caller, uint32_t id, uint16_t mask, pathserve_fixed x,
                                                       pathserve_fixed z, pathserve_fixed half_side) {
    pathserve_post post = pathserve_make_post(PATHSERVE_ADD_UNIT, caller, x, z);
    post.id = id;
    post.mask = mask;
    post.radius = half_side;
    return post;
}

/* Adds the obstruction `id`: a rectangle about (x, z) with the half side `hw` along the unit vector (ux, uz) and `hh` across. */
PATHSERVE_MAKER pathserve_post pathserve_make_add_square(uint8_t caller, uint32_t id, uint16_t mask, pathserve_fixed x,
                                                         pathserve_fixed z, pathserve_fixed ux, pathserve_fixed uz,
                                                         pathserve_fixed hw, pathserve_fixed hh) {
    pathserve_post post = pathserve_make_post(PATHSERVE_ADD_SQUARE, caller, x, z);
    post.id = id;
    post.mask = mask;
    post.ux = ux;
    post.uz = uz;
    post.hw = hw;
    post.hh = hh;
    return post;
}

/* Removes the obstruction `id`. */
PATHSERVE_MAKER pathserve_post pathserve_make_remove(uint8_t caller, uint32_t id) {
    pathserve_post post = pathserve_make_post(PATHSERVE_REMOVE, caller, 0, 0);
    post.id = id;
    return post;
}

/* Moves the obstruction `id`, so that its middle lies at (x, z). */
PATHSERVE_MAKER pathserve_post pathserve_make_move(uint8_t caller, uint32_t id, pathserve_fixed x, pathserve_fixed z) {
    pathserve_post post = pathserve_make_post(PATHSERVE_MOVE, caller, x, z);
    post.id = id;
    return post;
}

/* Asks for the region and the area at (x, z). */
PATHSERVE_MAKER pathserve_post pathserve_make_region(uint8_t caller, uint8_t class_number, pathserve_fixed x, pathserve_fixed z) {
    pathserve_post post = pathserve_make_post(PATHSERVE_REGION, caller, x, z);
    post.class_number = class_number;
    return post;
}

/* Asks for a path from (x, z) to a goal of a kind about a point, for the makers below. */
PATHSERVE_MAKER pathserve_post pathserve_make_path(uint8_t caller, uint8_t class_number, pathserve_fixed x, pathserve_fixed z,
                                                   uint8_t goal, pathserve_fixed goal_x, pathserve_fixed goal_z) {
    pathserve_post post = pathserve_make_post(PATHSERVE_PATH, caller, x, z);
    post.class_number = class_number;
    post.goal = goal;
    post.goal_x = goal_x;
    post.goal_z = goal_z;
    return post;
}

/* Asks for a path from (x, z) to the cell of a point. */
PATHSERVE_MAKER pathserve_post pathserve_make_path_to_point(uint8_t caller, uint8_t class_number, pathserve_fixed x,
                                                            pathserve_fixed z, pathserve_fixed goal_x, pathserve_fixed goal_z) {
    return pathserve_make_path(caller, class_number, x, z, PATHSERVE_POINT, goal_x, goal_z);
}

/* Asks for a path from (x, z) into a circle, or if `outside` is not 0, out of it. */
PATHSERVE_MAKER pathserve_post pathserve_make_path_to_circle(uint8_t caller, uint8_t class_number, pathserve_fixed x,
                                                             pathserve_fixed z, pathserve_fixed goal_x, pathserve_fixed goal_z,
                                                             pathserve_fixed radius, int outside) {
    pathserve_post post = pathserve_make_path(caller, class_number, x, z, PATHSERVE_CIRCLE, goal_x, goal_z);
    if (outside) post.goal = PATHSERVE_NOT_CIRCLE;
    post.radius = radius;
    return post;
}

/* Asks for a path from (x, z) into a rectangle along the unit vector (ux, uz), or if `outside` is not 0, out of it. */
PATHSERVE_MAKER pathserve_post pathserve_make_path_to_square(uint8_t caller, uint8_t class_number, pathserve_fixed x,
                                                             pathserve_fixed z, pathserve_fixed goal_x, pathserve_fixed goal_z,
                                                             pathserve_fixed ux, pathserve_fixed uz, pathserve_fixed hw,
                                                             pathserve_fixed hh, int outside) {
    pathserve_post post = pathserve_make_path(caller, class_number, x, z, PATHSERVE_SQUARE, goal_x, goal_z);
    if (outside) post.goal = PATHSERVE_NOT_SQUARE;
    post.ux = ux;
    post.uz = uz;
    post.hw = hw;
    post.hh = hh;
    return post;
}

/* Asks for a path from (x, z) to the cells around the obstruction `id`, at most `distance` from it. */
PATHSERVE_MAKER pathserve_post pathserve_make_path_to_obstruction(uint8_t caller, uint8_t class_number, pathserve_fixed x,
                                                                  pathserve_fixed z, uint32_t id, pathserve_fixed distance) {
    pathserve_post post = pathserve_make_path(caller, class_number, x, z, PATHSERVE_OBSTRUCTION, 0, 0);
    post.id = id;
    post.radius = distance;
    return post;
}

/* Adds copies of posts to the turn, after those that it has. The edits of a turn are made caller by caller from 0 on, and post
 * by post: never in the order in which two callers posted. DONE: all were taken. BAD_VALUE: an unknown kind, goal, caller
 * or class, or an unused field that is not 0; none was taken, and pathserve_check says which. A value past any other limit
 * is taken, and its reply is a refusal.
 * PAST_LIMIT: with them more posts would wait than pathserve_limit_posts lets; none was taken. NO_MEMORY: none was taken.
 * CLOSED, OTHER. */
pathserve_status pathserve_post_all(pathserve_match *match, const pathserve_post *posts, size_t count);

/* Lets at most so many posts wait for the end of a turn, those of all callers together. From then on pathserve_post_all refuses
 * with PAST_LIMIT exactly the posts with which there would be more, before it looks at them. Posts that wait already stay. No
 * answer changes. A match has no limit until one is set; SIZE_MAX is none. DONE, CLOSED, OTHER. */
pathserve_status pathserve_limit_posts(pathserve_match *match, size_t most);

enum { /* what pathserve_check finds wrong with a post: the first of these, in this order */
    PATHSERVE_WRONG_KIND = 1,   /* an unknown kind of posts */
    PATHSERVE_WRONG_CALLER = 2, /* the map has no such caller */
    PATHSERVE_WRONG_CLASS = 3,  /* a request for a class that the map does not have */
    PATHSERVE_WRONG_GOAL = 4,   /* a path to an unknown kind of goals */
    PATHSERVE_NOT_ZERO = 5      /* an unused field is not 0 */
};

/* Says which of these posts pathserve_post_all would refuse, and why. Nothing is posted, and no memory is needed. DONE: none.
 * BAD_VALUE: `which` gets the place of the first one, from 0, and `why` a number of the five above. CLOSED, OTHER. Only with
 * BAD_VALUE is anything written. */
pathserve_status pathserve_check(pathserve_match *match, const pathserve_post *posts, size_t count, size_t *which,
                                 uint32_t *why);

/* What a turn came to: its number, from 1; how many regions, region edges and areas all classes have after it; how many
 * replies there are, and waypoints in all of them; and for how many pairs of class and chunk a cell changed (relabelled). */
typedef struct pathserve_turn {
    uint64_t turn;
    uint64_t regions, edges, areas;
    uint64_t replies, waypoints;
    uint32_t relabelled, zero;
} pathserve_turn;

/* Ends the turn: makes its edits, answers its requests, and keeps the replies until the next turn ends. The next turn begins
 * without posts. DONE. NO_MEMORY: the turn has not ended and keeps its posts; the replies of the previous turn stay. CLOSED,
 * OTHER. Only with DONE is `turn` written. */
pathserve_status pathserve_end_turn(pathserve_match *match, pathserve_turn *turn);

enum { /* pathserve_reply.kind */
    PATHSERVE_ADDED = 1,     /* id */
    PATHSERVE_REMOVED = 2,   /* id */
    PATHSERVE_MOVED = 3,     /* id */
    PATHSERVE_REFUSED = 4,   /* why. id is 0, for an edit too: `caller` and `post` say which post it was */
    PATHSERVE_NOWHERE = 5,   /* no cell of the map is passable for the class */
    PATHSERVE_AT_GOAL = 6,   /* a path that ends at the goal. start, end, cost, waypoints, first_waypoint */
    PATHSERVE_NEAR_GOAL = 7, /* a path that ends at the reachable cell closest to the goal. The same fields */
    PATHSERVE_IN_REGION = 8, /* chunk, region, area */
    PATHSERVE_TOO_FAR = 9    /* a path costs more than it may: of a find within a greatest cost, and never of a turn */
};
enum { /* pathserve_reply.why of a refusal; 0 in other replies */
    PATHSERVE_BAD_SHAPE = 1,     /* a shape or a goal is past its limits, or the middle of an obstruction is off the map */
    PATHSERVE_DUPLICATE_ID = 2,  /* there is an obstruction with this number already */
    PATHSERVE_STORE_FULL = 3,    /* there are 65,536 obstructions */
    PATHSERVE_UNKNOWN_ID = 4,    /* there is no obstruction with this number */
    PATHSERVE_UNKNOWN_CLASS = 5, /* the map has no class of that name: never for posts by structs, whose classes are numbers */
    PATHSERVE_START_OUTSIDE = 6, /* the start or the point is off the map */
    PATHSERVE_GOAL_OUTSIDE = 7   /* the middle of the goal is off the map */
};

/* The reply to a post. Fields that its kind does not name are 0. */
typedef struct pathserve_reply {
    uint8_t kind;
    uint8_t caller;
    uint8_t why;
    uint8_t zero;
    uint32_t post;             /* the post's number among those of its caller in the turn, from 0 */
    uint32_t id;               /* the obstruction's number */
    pathserve_cell start, end; /* where a path starts and ends */
    pathserve_cell chunk;      /* the column and the row of a chunk of 96 by 96 navcells */
    uint16_t region;           /* the number of a region in its chunk, from 1; 0 for an impassable cell */
    uint16_t zero_too;
    uint32_t area;             /* the number of an area, from 1; 0 for an impassable cell */
    uint64_t waypoints;        /* how many waypoints a path has */
    uint64_t first_waypoint;   /* the place of the first one among the waypoints of the turn, from 0 */
    uint64_t cost;             /* the cost of a path: 65,536 for a straight step, 92,682 for a diagonal one */
} pathserve_reply;

/* Copies replies of the last turn that ended, starting at place `first`: caller by caller, in the order of their posts. Returns
 * how many it copied: as many as there are and fit. 0 for a match that is closed or by text. */
size_t pathserve_replies(pathserve_match *match, uint64_t first, pathserve_reply *replies, size_t count);

/* Copies waypoints of that turn, starting at place `first`: those of each path are together, in the order of the replies. A
 * path leads from its start straight or diagonally to each waypoint in turn; the last one is its end. Returns how many it
 * copied, as above. */
size_t pathserve_waypoints(pathserve_match *match, uint64_t first, pathserve_cell *waypoints, size_t count);

/* Writes the match so far as a script in canonical form, from the posts that it keeps: the turns that have ended, and no
 * other. A match that is fed this script gets the same map and the same turns, as long as it is within the limits of a script
 * (4 GiB: some 40 million posts). `whole` gets its size in bytes. DONE: it is at the start of the buffer. SMALL: it does not
 * fit, and nothing was written to the buffer; so a first call with (NULL, 0) asks for the size. NO_JOURNAL: the match keeps
 * none (pathserve_keep_no_journal). NO_MEMORY, CLOSED, OTHER. With these neither was written. */
pathserve_status pathserve_journal(pathserve_match *match, uint8_t *buffer, size_t length, size_t *whole);

/* ======== views: questions between turns, by any thread ======== */

/* Opens a closed view: a snapshot of the map after the turns of a match, of either kind, that have ended. The match goes on,
 * and the view stays as it is. Once the first turn has ended this takes a few small allocations and copies nothing of the map.
 * The call uses the match; from then on the two serve different threads. pathserve_view_close frees the view.
 * DONE, CLOSED (the match), OPEN (the view), NO_MAP, NO_MEMORY. */
pathserve_status pathserve_view_of(pathserve_match *match, pathserve_view *view);

/* Opens a closed view of the same snapshot, for another thread. The call uses `from`, so the thread that has it makes the call,
 * and hands `view` over. DONE, CLOSED (`from`), OPEN (`view`), NO_MEMORY. */
pathserve_status pathserve_view_again(pathserve_view *from, pathserve_view *view);

/* Closes a view, before or after its match, and frees what it alone held, while other threads use the match and its other views.
 * Closing a closed view does nothing. */
void pathserve_view_close(pathserve_view *view);

/* How many columns and rows the map has, as `i` and `j`. Returns 1 and writes them; or returns 0 and writes nothing, for a closed
 * view. */
uint32_t pathserve_view_size(pathserve_view *view, pathserve_cell *size);

/* For cell (i, j) and a class by its number: whether the cell is passable (1 or 0); the number of its region in its chunk,
 * which is that of column i / 96 and row j / 96; the number of its area. Two cells can be reached from each other exactly if
 * the numbers of their areas are equal and not 0. All three return 0 for an impassable cell, a cell off the map, an unknown
 * class, and a closed view. */
uint32_t pathserve_passable(pathserve_view *view, uint32_t class_number, uint32_t i, uint32_t j);
uint32_t pathserve_region(pathserve_view *view, uint32_t class_number, uint32_t i, uint32_t j);
uint32_t pathserve_area(pathserve_view *view, uint32_t class_number, uint32_t i, uint32_t j);

/* Writes which cells of row j are passable for the class, for an overlay or a minimap: bit i % 64 of word i / 64 is 1 if cell
 * (i, j) is passable, and 0 otherwise, also past the last column. A row has (width + 63) / 64 words. Returns how many words it
 * wrote: as many as the row has and fit; 0 for a row outside the map, an unknown class, and a closed view. */
size_t pathserve_row(pathserve_view *view, uint32_t class_number, uint32_t j, uint64_t *words, size_t count);

/* The cell in which a path of the class from the point (x, z) starts: the one that contains the point, if it is passable, or
 * else the nearest passable one, which may lie across a wall. Returns 1 and writes the cell; or returns 0 and writes nothing:
 * if no cell is passable for the class, and for a point off the map, an unknown class, and a closed view. */
uint32_t pathserve_nearest(pathserve_view *view, uint32_t class_number, pathserve_fixed x, pathserve_fixed z,
                           pathserve_cell *cell);

/* The obstruction with a number, as the post by which caller 0 would add it. Returns 1 and writes the post; or returns 0 and
 * writes nothing: if there is none, and for a closed view. */
uint32_t pathserve_standing_at(pathserve_view *view, uint32_t id, pathserve_post *post);

/* Copies the current obstructions, as the posts by which caller 0 would add them, by rising number, starting at place `first`
 * (from 0): as many as fit. `whole` gets how many there are in all, at most 65,536; so a first call with (NULL, 0) asks for
 * that. A match on the same map goes on alike from one turn of these posts (docs/C.md, "Save, load, join late").
 * DONE. NO_MEMORY, CLOSED, and OTHER for a match. Only with DONE is anything written. */
pathserve_status pathserve_standing(pathserve_view *view, uint64_t first, pathserve_post *posts, size_t count, uint64_t *whole);

/* Answers a post of the kind PATHSERVE_PATH or PATHSERVE_REGION at once, as a turn without edits would. The match does not
 * learn of it. Writes the reply, and as many waypoints of a path as fit: a buffer that is too small is no error. In the reply,
 * `waypoints` is how many there are, `caller` is the post's, and `post` and `first_waypoint` are 0.
 * DONE. BAD_VALUE: another kind, or as for pathserve_post_all. A value past any other limit makes the reply a refusal.
 * NO_MEMORY, CLOSED, and OTHER for a match. Only with DONE is anything written. */
pathserve_status pathserve_find(pathserve_view *view, const pathserve_post *post, pathserve_reply *reply,
                                pathserve_cell *waypoints, size_t count);

/* Says without a search how a path of this post would end: the `kind` of the reply that pathserve_find writes, one of
 * PATHSERVE_REFUSED, _NOWHERE, _AT_GOAL and _NEAR_GOAL. With PATHSERVE_NEAR_GOAL `cell` gets the end of that path: of the cells
 * that can be reached from its start, the one closest to the goal. 0 for a post of another kind or one that pathserve_find
 * would not take, and for a view that is closed. Only with PATHSERVE_NEAR_GOAL is `cell` written. */
uint32_t pathserve_reachable(pathserve_view *view, const pathserve_post *post, pathserve_cell *cell);

/* ---- finders: pathserve_find allocates the memory of its search in each call; a finder keeps it from call to call.
 * pathserve_field and pathserve_smooth, below, allocate in each call ---- */

/* Opens a closed finder. It belongs to no match and no map, and serves any view: keep one in each thread that finds paths. It
 * keeps the memory of its searches, some 16 MB at most, until it is closed. DONE, OPEN, NO_MEMORY. */
pathserve_status pathserve_finder_open(pathserve_finder *finder);

/* Closes a finder, before or after the views that it served, and frees its memory. Closing a closed finder does nothing. */
void pathserve_finder_close(pathserve_finder *finder);

/* Does what pathserve_find does, with the same statuses and the same answers, whatever the finder served before.
 * DONE, BAD_VALUE, NO_MEMORY. CLOSED: the finder or the view is. OTHER: one of them is a handle of another kind. Only with
 * DONE is anything written. */
pathserve_status pathserve_find_with(pathserve_finder *finder, pathserve_view *view, const pathserve_post *post,
                                     pathserve_reply *reply, pathserve_cell *waypoints, size_t count);

/* The same for a path that costs at most `most`, in the units of pathserve_reply.cost. The reply's kind is PATHSERVE_TOO_FAR, and
 * its other fields but `caller` are 0, exactly if the path that pathserve_find answers costs more; and else the reply is the one
 * of pathserve_find. So the answer is the same on every machine. The search goes no further than `most`: a walk that costs c
 * stays within c / 65,536 navcells of its start each way, so the states that it expands lie among at most
 * (2 * c / 65,536 + 1)^2 navcells. Not bounded by it: the scans of runs from these states, and what comes before the search, to
 * find the nearest passable cell and whether the goal can be reached. DONE, BAD_VALUE, NO_MEMORY, CLOSED, OTHER as above. Only
 * with DONE is anything written. */
pathserve_status pathserve_find_within(pathserve_finder *finder, pathserve_view *view, const pathserve_post *post, uint64_t most,
                                       pathserve_reply *reply, pathserve_cell *waypoints, size_t count);

/* What pathserve_find_with does for many posts of the kinds PATHSERVE_PATH and PATHSERVE_REGION, each answered as if alone.
 * Writes a reply to each post, in the order of the posts, and the waypoints of all paths one after another: as many of
 * either as fit, so let `reply_count` be `post_count`. In a reply, `post` is the place of its post, from 0, and
 * `first_waypoint` the place of the path's first waypoint among all. `first_waypoint` plus `waypoints` of the last reply
 * that is a path is how many there are: if that is more than the buffer holds, ask for the paths past it again.
 * DONE. BAD_VALUE: pathserve_find would refuse one of the posts so. NO_MEMORY, CLOSED, OTHER as above. Only with DONE is
 * anything written. */
pathserve_status pathserve_find_all(pathserve_finder *finder, pathserve_view *view, const pathserve_post *posts,
                                    size_t post_count, pathserve_reply *replies, size_t reply_count,
                                    pathserve_cell *waypoints, size_t waypoint_count);

/* ---- flow fields, lines of sight, smoothing ---- */

enum { /* what pathserve_field writes for a cell: where a unit in it goes next */
    PATHSERVE_NO_STEP = 0,    /* impassable, or no legal walk joins the cell and the start of the path */
    PATHSERVE_STEP_N = 1,     /* to (i, j + 1) */
    PATHSERVE_STEP_E = 2,     /* to (i + 1, j) */
    PATHSERVE_STEP_S = 3,     /* to (i, j - 1) */
    PATHSERVE_STEP_W = 4,     /* to (i - 1, j) */
    PATHSERVE_STEP_NE = 5,    /* to (i + 1, j + 1) */
    PATHSERVE_STEP_SE = 6,    /* to (i + 1, j - 1) */
    PATHSERVE_STEP_SW = 7,    /* to (i - 1, j - 1) */
    PATHSERVE_STEP_NW = 8,    /* to (i - 1, j + 1) */
    PATHSERVE_STEP_STAYS = 9  /* nowhere: the field leads to this cell */
};
#define PATHSERVE_NO_DISTANCE 18446744073709551615u /* the distance of a cell with PATHSERVE_NO_STEP: the greatest uint64_t */

/* Makes a flow field, one for a whole group of units with a common goal: the next step from each cell of the map, and its
 * distance. The post is of the kind PATHSERVE_PATH. The field leads to the goal's cells that can be reached from the start of
 * that path; if none can, to the reachable cell closest to the goal, in which the path ends. Cells of other areas have no step.
 * Item j * width + i of a buffer is for cell (i, j): in `steps` PATHSERVE_NO_STEP or a PATHSERVE_STEP_ number, in `distances`
 * the cost of the cheapest legal walk, in the units of pathserve_reply.cost. As many items are written as the map has cells and
 * fit, so (NULL, 0) leaves a buffer out. Each step is legal and leads nearer by what it costs; of several such the one with the
 * least number is taken. The buffers are yours: any number of threads may read them, without the view, and they stay as they
 * are while the match goes on.
 * `reply` is what pathserve_find would write. Unless its kind is PATHSERVE_AT_GOAL or PATHSERVE_NEAR_GOAL there is no field, and
 * the buffers stay as they were.
 * DONE. BAD_VALUE: another kind, or as for pathserve_post_all. NO_MEMORY, CLOSED, and OTHER for a match. Only with DONE is
 * anything written. It visits each cell of the map, and takes 12 to 24 bytes a cell until it returns. */
pathserve_status pathserve_field(pathserve_view *view, const pathserve_post *post, pathserve_reply *reply,
                                 uint8_t *steps, size_t step_count, uint64_t *distances, size_t distance_count);

/* Whether there is a clear line of sight for the class between the middles of two cells: 1 if each cell that the straight line
 * touches is passable, also those that it touches only in a corner, and else 0. 0 for a cell off the map, an unknown class, and
 * a closed view. The width of a unit is in the clearance of its class already. */
uint32_t pathserve_clear(pathserve_view *view, uint32_t class_number, const pathserve_cell *from, const pathserve_cell *to);

/* Smooths a walk of the class from the cell `start` by these waypoints, as pathserve_find or pathserve_waypoints gave them:
 * keeps the fewest waypoints that clear lines of sight join, from the start to the last one. A line skips at most 63 waypoints,
 * and of equally few the later ones are kept. They are moved to the start of the buffer, in order, and `kept` gets how many they
 * are; what lies past them in the buffer stays. No waypoints are smoothed to none.
 * DONE. BAD_VALUE exactly if these are not the waypoints of a legal walk on this view: the start is impassable or off the map, a
 * waypoint is not straight or diagonally ahead of the previous one, or goes on in the same direction, a step between is blocked,
 * or the class is unknown. So a walk that an edit has cut is refused. NO_MEMORY, CLOSED, and OTHER for a match. Only with DONE is
 * anything written. */
pathserve_status pathserve_smooth(pathserve_view *view, uint32_t class_number, const pathserve_cell *start,
                                  pathserve_cell *waypoints, size_t count, size_t *kept);

/* ======== save, load, join late, compare ======== */

/* Opens a closed handle: a match by structs in which a whole script was played, such as one of pathserve_journal or
 * pathserve_snapshot, or a map alone, of version 3. It goes on behind the last turn of the script, whose replies, waypoints and
 * digest it has. Opened from its journal, a match answers further turns as it would have.
 *   DONE                  it is open.
 *   BAD_LINE, TOO_LONG    as of pathserve_feed and pathserve_finish: `bad_line` gets the number of the line, from 1. That is the
 *                         one behind the last if a turn has begun and its end line is missing, so cut such a script there.
 *   BAD_VALUE             the script is whole, and of version 1 or 2: a match by text plays it.
 *   OPEN, NO_MEMORY
 * Only with DONE is the handle written, and only with BAD_LINE and TOO_LONG `bad_line`. */
pathserve_status pathserve_open_script(pathserve_match *match, const uint8_t *script, size_t length, uint64_t *bad_line);

/* Says at which line a script is bad and why, in the words that pathserve_cause has for a match by text. It reads the script, and
 * plays nothing. `bad_line` gets the number of the line, from 1, and `whole` the size of the text: both 0 for a script that stops
 * at no bad line, so also for one that is TOO_LONG. DONE: the text is at the start of the buffer. SMALL: it does not fit, and
 * nothing was written to the buffer; so a first call with (NULL, 0) asks for the size. NO_MEMORY: nothing was written. By any
 * thread at any time. */
pathserve_status pathserve_script_cause(const uint8_t *script, size_t length, uint64_t *bad_line,
                                        uint8_t *buffer, size_t buffer_length, size_t *whole);

/* Writes what a view shows as a script in canonical form: the map, in version 3, and one turn in which caller 0 adds all
 * current obstructions, by rising number. A match that is opened from it, by structs or by text, has the same map and the
 * same obstructions, and answers further turns as the match of the view: their digests are the same, and its turns are
 * numbered from 2 on. A view of its own lets another thread write it while the match goes on. `whole` gets its size in
 * bytes. DONE: it is at the start of the buffer. SMALL: it does not fit, and nothing was written to the buffer; so a first
 * call with (NULL, 0) asks for the size. NO_MEMORY, CLOSED, and OTHER for a match: neither was written. */
pathserve_status pathserve_snapshot(pathserve_view *view, uint8_t *buffer, size_t length, size_t *whole);

/* Lets go of the journal of a match by structs and frees what it held: from then on posts are not kept once their turn has ended,
 * so the match does not grow with its turns, and pathserve_journal answers NO_JOURNAL. All else is as if it kept one: numbers of
 * turns, answers, views, snapshots and digests. pathserve_forget begins a journal again. DONE, CLOSED, OTHER. */
pathserve_status pathserve_keep_no_journal(pathserve_match *match);

/* Begins the journal of a match by structs anew, and frees what it held: in place of the turns that have ended it gets one turn
 * that adds the current obstructions, as the snapshot has. So the next turn is number 2. A match of which no turn has ended stays
 * as it is. All else stays: the obstructions, the posts of the turn, the replies of the last one and their digest.
 * A match without a journal keeps one from then on. DONE. NO_MEMORY: the journal is as it was. CLOSED, OTHER. */
pathserve_status pathserve_forget(pathserve_match *match);

/* The digest of the turn that ended last, in a match by structs: the number by which docs/FORMAT.md, "The digest of a turn",
 * tells texts of turns apart, made of the text that `pathserve replay` writes for the turn. 0 if no turn has ended. Players of
 * a match compare it to find the first turn whose answers differ, and pathserve_view_digest to find the first after which what
 * stands does: an edit that differs may be answered alike. DONE. NO_MEMORY, CLOSED, OTHER. Only with DONE is
 * `digest` written. */
pathserve_status pathserve_turn_digest(pathserve_match *match, uint64_t *digest);

/* The digest of what a view shows: that of all bytes that pathserve_snapshot writes. DONE. NO_MEMORY, CLOSED, and OTHER for a
 * match. Only with DONE is `digest` written. */
pathserve_status pathserve_view_digest(pathserve_view *view, uint64_t *digest);

/* ======== memory of your own ========
 *
 * The library takes its memory by three functions. heap.o of the archive defines them by malloc, realloc and free. A program
 * that links the archive without heap.o defines them itself:
 *
 *     typedef struct { uint8_t ok; void *block; } rattle_block;      ok 0: out of memory, and block is any pointer but NULL
 *     rattle_block rattle_alloc(size_t bytes, size_t align);         align is a power of two up to 16; 0 bytes count as `align`
 *     rattle_block rattle_realloc(void *block, size_t kept, size_t bytes, size_t align);   with ok 0 the old block stays valid
 *     void rattle_dealloc(void *block);
 *
 * On other systems than Linux, where C may return such a struct in another way, it defines these, which mean what they mean in
 * C without the prefix:
 *
 *     void *pathserve_malloc(size_t bytes);
 *     void *pathserve_realloc(void *block, size_t bytes);
 *     void pathserve_free(void *block);
 */

#ifdef __cplusplus
}
#endif

/* ---- sizes, checked when this header is compiled ---- */

#define PATHSERVE_HAS_SIZE(type, bytes) typedef char type##_has_size[sizeof(type) == (bytes) ? 1 : -1]

PATHSERVE_HAS_SIZE(pathserve_match, 16);
PATHSERVE_HAS_SIZE(pathserve_view, 16);
PATHSERVE_HAS_SIZE(pathserve_map, 12);
PATHSERVE_HAS_SIZE(pathserve_class, 72);
PATHSERVE_HAS_SIZE(pathserve_rect, 12);
PATHSERVE_HAS_SIZE(pathserve_post, 48);
PATHSERVE_HAS_SIZE(pathserve_turn, 56);
PATHSERVE_HAS_SIZE(pathserve_reply, 56);
PATHSERVE_HAS_SIZE(pathserve_cell, 4);
PATHSERVE_HAS_SIZE(pathserve_finder, 16);

#endif
