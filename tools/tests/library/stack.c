/* How much stack the library takes: stack TOO_SMALL < SCRIPT. Each call is made in a thread that has PATHSERVE_STACK bytes in
 * all, its own record among them, above a page that nobody may touch. The stack is painted before and looked at behind. It
 * writes the most that a line took, and what the script took, in bytes. */
#define _GNU_SOURCE
#include <pthread.h>
#include <stdio.h>
#include <stdlib.h>
#include <string.h>
#include <sys/mman.h>
#include <pathserve.h>

enum { PAGE = 4096, PAINT = 0xA5, MOST = 1 << 20 };

static const char map_line[] = "{\"version\":3,\"size\":[96,96],\"callers\":2,\"classes\":[{\"name\":\"a\",\"clearance\":\"0.5\"}]}\n";

/* A line: this text so many times, a middle, and another text as many times. */
typedef struct {
    const char *before, *middle, *after;
    unsigned times;
} line;

static const line lines[] = {
    /* good, with what a key has before it stands again as deep as may be */
    {"{\"end\":[[[[[[[\"", "", "\"]]]]]]],\"end\":1}", 1},
    {"{\"end\":[{\"a\":[{\"a\":[{\"a\":[", "1", "]}]}]}],\"end\":1}", 1},
    {"{\"caller\":0,\"caller\":[{\"a\":{\"a\":{\"a\":{\"a\":{\"a\":{\"a\":1.7976931348623157e308", "", "}}}}}}],\"caller\":1,\"remove\":7}", 1},
    {"{\"base\":[[0,0,95,95,1],[1,1,2,2,2]]}", "", "", 1},
    {"{\"caller\":0,\"path\":\"a\",\"from\":[\"0.5\",\"0.5\"],\"goal\":{\"not-square\":[\"40.0000152587890625\",\"40\",\"0.6\",\"0.8\",\"9\",\"9\"]}}", "", "", 1},
    {"{\"caller\":1,\"path\":\"a\",\"from\":[\"0.5\",\"0.5\"],\"goal\":{\"obstruction\":[7,\"1.5\"]}}", "", "", 1},
    {"{\"caller\":0,\"add\":7,\"square\":[\"9.5\",\"9.5\",\"0.6\",\"0.8\",\"2\",\"2\"],\"mask\":1}", "", "", 1},
    /* bad, within the depth of a line, at it and past it */
    {"[", "", "]", 8}, {"[{\"a\":", "1", "}]", 4}, {"{\"a\":", "1", "}", 8}, {"{\"base\":[", "[0,0,1]", "]}", 4},
    {"{\"a\":", "2.2250738585072011e-308", "}", 8}, {"{\"a\":", "\"\\ud83d\\ude00\"", "}", 8}, {"{\"a\":", "\"\\ud800\"", "}", 8},
    {"[", "", "]", 9}, {"{\"a\":", "1", "}", 9}, {"[", "", "]", 127}, {"{\"a\":", "1", "}", 127}, {"[{\"a\":", "1", "}]", 63},
    {"{\"a\":", "", "", 127}, {"[", "", "", 127}, {"{\"a\":", "", "", 8}, {"[", "", "", 8}, {"[", "", "", MOST}, {"{\"a\":", "1", "}", MOST / 8},
    {"{\"end\":1", "7", "0", 400}, {"0.", "3", "1", 800}, {"1e", "3", "0", 800}, {" ", "", "", 9}, {"\xff", "", "", 9},
};

static uint8_t text[MOST * 2], *stack;
static size_t length;

static void append(const char *part, unsigned times) {
    for (size_t size = strlen(part); times > 0; times--, length += size) memcpy(text + length, part, size);
}

/* What a match by text takes from the first byte to the last. */
static void *play(void *nothing) {
    pathserve_match match = {0};
    pathserve_status status = pathserve_open(&match, PATHSERVE_REPLAY);
    for (size_t from = 0, taken = 0; status == PATHSERVE_DONE && from < length; from += taken) {
        status = pathserve_feed(&match, text + from, length - from, &taken);
    }
    if (status == PATHSERVE_DONE) status = pathserve_finish(&match);
    while (pathserve_take(&match, text + sizeof text - PAGE, PAGE) > 0) {}
    pathserve_close(&match);
    return nothing;
}

/* The bytes of stack that a match of the text takes, with those of the thread itself. */
static size_t used(void) {
    pthread_attr_t has;
    pthread_t thread;
    memset(stack, PAINT, PATHSERVE_STACK);
    if (pthread_attr_init(&has) || pthread_attr_setstack(&has, stack, PATHSERVE_STACK)) exit(2);
    if (pthread_create(&thread, &has, play, NULL) || pthread_join(thread, NULL)) exit(2);
    pthread_attr_destroy(&has);
    size_t left = 0;
    while (left < PATHSERVE_STACK && stack[left] == PAINT) left++;
    return PATHSERVE_STACK - left;
}

int main(void) {
    uint8_t *page = mmap(NULL, PAGE + PATHSERVE_STACK, PROT_READ | PROT_WRITE, MAP_PRIVATE | MAP_ANONYMOUS, -1, 0);
    if (page == MAP_FAILED || mprotect(page, PAGE, PROT_NONE)) return 2;
    stack = page + PAGE;
    size_t most = 0;
    for (size_t k = 0; k < sizeof lines / sizeof *lines; k++) {
        for (int first = 0; first < 2; first++) {
            length = 0;
            if (!first) append(map_line, 1);
            append(lines[k].before, lines[k].times);
            append(lines[k].middle, 1);
            append(lines[k].after, lines[k].times);
            append("\n{\"end\":1}\n", 1);
            size_t now = used();
            most = now > most ? now : most;
        }
    }
    length = fread(text, 1, sizeof text - PAGE, stdin);
    printf("lines %zu, script %zu\n", most, used());
    return 0;
}
