/* Plays a match by the text of its script: by_text < skirmish.script. It writes what `pathserve replay` writes, turn by turn
 * also over a pipe, and ends with its status; after by_text WORD, what another word of PATHSERVE_REPORT_WORDS writes. */
#include <stdio.h>
#include <string.h>
#include <pathserve.h>
#ifdef _WIN32
#include <fcntl.h>
#include <io.h>
#define read _read
static void as_bytes(void) { _setmode(0, _O_BINARY), _setmode(1, _O_BINARY); }
#else
#include <unistd.h>
static void as_bytes(void) {}
#endif

static void write_answers(pathserve_match *match) {
    uint8_t text[4096];
    size_t count;
    while ((count = pathserve_take(match, text, sizeof text)) > 0) fwrite(text, 1, count, stdout);
    fflush(stdout);
}

static uint32_t report_of(const char *word) {
    static const char *const words[] = {PATHSERVE_REPORT_WORDS};
    for (uint32_t report = 0; report < sizeof words / sizeof *words; report++) {
        if (strcmp(word, words[report]) == 0) return report;
    }
    return PATHSERVE_REPLAY;
}

/* Why the script's bad line is bad, as the program says it. */
static void write_cause(pathserve_match *match) {
    uint8_t text[1024];
    size_t length;
    if (pathserve_cause(match, text, sizeof text, &length) == PATHSERVE_DONE)
        fprintf(stderr, "by_text: %.*s\n", (int)length, (const char *)text);
}

int main(int count, char **words) {
    pathserve_match match = {0};
    uint8_t bytes[4096];
    long length;
    size_t taken;

    as_bytes();
    pathserve_status status = pathserve_open(&match, report_of(count > 1 ? words[1] : "replay"));
    while (status == PATHSERVE_DONE && (length = (long)read(0, bytes, sizeof bytes)) > 0) {
        status = pathserve_feed(&match, bytes, (size_t)length, &taken);
        write_answers(&match);
    }
    if (status == PATHSERVE_DONE) status = pathserve_finish(&match);
    write_answers(&match);
    if (status == PATHSERVE_BAD_LINE) write_cause(&match);
    pathserve_close(&match);
    return (int)status;
}
