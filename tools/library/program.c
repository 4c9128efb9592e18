/* `pathserve replay [--workers N] < SCRIPT > ANSWERS` by the library, and the other words of PATHSERVE_REPORT_WORDS, in one thread,
 * for a platform that the program is not made for. What it writes and its exit statuses are the program's (docs/FORMAT.md, "Words and statuses"), but
 * it tells no cause of a bad line. On Windows it calls msvcrt.dll alone. */
#include <pathserve.h>

#ifdef _WIN32
int _read(int file, void *bytes, unsigned count);
int _write(int file, const void *bytes, unsigned count);
int _setmode(int file, int mode);
int __getmainargs(int *count, char ***words, char ***surroundings, int are_expanded, int *start);
void exit(int status);
enum { BINARY = 0x8000 };

static long got(void *bytes, size_t count) { return _read(0, bytes, (unsigned)count); }
static long put(int file, const void *bytes, size_t count) { return _write(file, bytes, (unsigned)count); }
#else
#include <unistd.h>

static long got(void *bytes, size_t count) { return read(0, bytes, count); }
static long put(int file, const void *bytes, size_t count) { return write(file, bytes, count); }
#endif

enum { ANSWERS = 1, MESSAGES = 2, PIECE = 65536 };
enum { WRONG_WORDS = 2, READING_FAILED = 4, WRITING_FAILED = 5 };

static const char *const WORDS[] = {PATHSERVE_REPORT_WORDS};
enum { REPORTS = sizeof WORDS / sizeof *WORDS };

/* Writes all bytes; 0 where that fails. */
static int written(int file, const void *bytes, size_t count) {
    const char *rest = bytes;
    while (count > 0) {
        long done = put(file, rest, count);
        if (done <= 0) return 0;
        rest += done, count -= (size_t)done;
    }
    return 1;
}

/* Writes the text that waits; 0 where that fails. */
static int answered(pathserve_match *match) {
    static uint8_t text[PIECE];
    size_t count;
    while ((count = pathserve_take(match, text, sizeof text)) > 0) {
        if (!written(ANSWERS, text, count)) return 0;
    }
    return 1;
}

/* Plays the script of standard input, and gives the exit status. */
static int played(uint32_t report) {
    static uint8_t bytes[PIECE];
    pathserve_match match = PATHSERVE_CLOSED_HANDLE;
    pathserve_status status = pathserve_open(&match, report);
    size_t taken;
    long count = 1;
    while (status == PATHSERVE_DONE && count > 0) {
        count = got(bytes, sizeof bytes);
        if (count < 0) return READING_FAILED;
        status = count > 0 ? pathserve_feed(&match, bytes, (size_t)count, &taken) : pathserve_finish(&match);
        if (!answered(&match)) return WRITING_FAILED;
    }
    pathserve_close(&match);
    return (int)status;
}

static int is_same(const char *word, const char *other) {
    while (*word && *word == *other) word++, other++;
    return *word == *other;
}

/* Whether a word is a number of workers, 1 to 64; the answers are the same for all. */
static int is_workers(const char *word) {
    unsigned number = 0;
    if (*word == '0') return 0;
    for (; *word >= '0' && *word <= '9' && number <= 64; word++) number = 10 * number + (unsigned)(*word - '0');
    return !*word && number >= 1 && number <= 64;
}

static void say(const char *text) {
    size_t length = 0;
    while (text[length]) length++;
    written(MESSAGES, text, length);
}

static void say_number(uint32_t number) {
    const char digit[] = {(char)('0' + number % 10), 0};
    if (number > 9) say_number(number / 10);
    say(digit);
}

static int said_usage(void) {
    const uint32_t numbers[] = {PATHSERVE_VERSION_MAJOR, PATHSERVE_VERSION_MINOR, PATHSERVE_VERSION_PATCH, PATHSERVE_ANSWERS};
    const char *const before[] = {"version ", ".", ".", ", answers "};
    for (int k = 0; k < REPORTS; k++) say(k ? "|" : "usage: pathserve "), say(WORDS[k]);
    say(" [--workers N] < SCRIPT > ANSWERS\n");
    for (int k = 0; k < 4; k++) say(before[k]), say_number(numbers[k]);
    say("\n");
    return WRONG_WORDS;
}

static int program(int count, char **words) {
    int are_workers = count == 4 && is_same(words[2], "--workers") && is_workers(words[3]);
    for (uint32_t report = 0; report < REPORTS && (count == 2 || are_workers); report++) {
        if (is_same(words[1], WORDS[report])) return played(report);
    }
    return said_usage();
}

#ifdef _WIN32
void start(void) {
    int count = 0, mode = 0;
    char **words, **surroundings;
    _setmode(0, BINARY), _setmode(ANSWERS, BINARY);
    exit(__getmainargs(&count, &words, &surroundings, 0, &mode) < 0 ? said_usage() : program(count, words));
}
#else
int main(int count, char **words) { return program(count, words); }
#endif
