/* What the sources of bench/random_calls share: a match that is played by chance. `counted.h`, which that makes of pathserve.h,
 * counts each call by its name. */
#ifndef RANDOM_CALLS_H
#define RANDOM_CALLS_H

#include "counted.h"
#include <stdio.h>
#include <stdlib.h>
#include <string.h>

enum { MOST_CLASSES = 4, MOST_BASE = 12, MOST_POSTS = 24, MOST_CELLS = 1 << 16, IDS = 14, REPORTS = 4, LARGE = 4096 };

typedef struct text { uint8_t *at; size_t length, room; } text;

/* The replies and the waypoints of a turn. */
typedef struct taken {
    pathserve_reply replies[MOST_POSTS];
    pathserve_cell cells[MOST_CELLS];
    size_t count, waypoints;
} taken;

typedef struct session {
    uint64_t number;
    pathserve_map map;
    pathserve_class classes[MOST_CLASSES];
    pathserve_rect base[MOST_BASE];
    size_t class_count, base_count;
    int is_grid; /* whether the match was opened with its terrain as a grid */
    pathserve_post posts[MOST_POSTS], standing[IDS]; /* of this turn, in the order of posting; by rising number, the kind 0 for none */
    size_t post_count;
    uint32_t turns;
    pathserve_match match, twin, texts[REPORTS];
    pathserve_view view, old;
    uint64_t old_digest;
    pathserve_finder finder;
    taken last;
    text script, answers[REPORTS], told[REPORTS];
    size_t fed, turn_at; /* what of the script was fed; where the text of the last turn begins */
} session;

extern session now;

/* ---- numbers, texts, what holds ---- */

#define HOLDS(it) holds((it) != 0, __FILE__, __LINE__, #it)

void holds(int is_so, const char *file, int line, const char *words);
void tell_counts(void);
void begin_numbers(uint64_t number);
uint32_t drawn(uint32_t below);

void append(text *to, const void *bytes, size_t length);
void say(text *to, const char *format, ...) __attribute__((format(printf, 2, 3)));
int is_same(const text *one, const text *other);
void drop(text *its);
void section(const char *name, const text *its);

void take_some(pathserve_match *match, text *told, size_t most);
void get_snapshot(pathserve_view *view, text *script);
void get_journal(pathserve_match *match, text *script);
void same_journal(pathserve_match *match, const text *script);
void get_cause(pathserve_match *match, text *cause);
void get_script_cause(const text *script, text *cause, uint64_t *line);
void forget_session(void);

/* ---- posts and texts of a turn ---- */

void draw_posts(void);
pathserve_post drawn_request(void);
pathserve_post remade(const pathserve_post *it);
const pathserve_post *post_of(const pathserve_reply *reply);
size_t place_of_id(uint32_t id);
uint32_t id_of_place(size_t place);
void say_map(text *script);
void say_posts(text *script);
void say_turn(const pathserve_turn *turn);
uint64_t digest_of(const uint8_t *bytes, size_t length);
uint64_t digest_of_last_turn(void);

/* ---- questions to views ---- */

void ask_view(void);
void ask_old_view(void);

#endif
