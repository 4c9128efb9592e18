/* Answers many scripts in one run: answers < SCRIPTS. Before each script stands a line `report length`, and before each text
 * of answers, on standard output, a line `status length`. */
#include <stdio.h>
#include <stdlib.h>
#include <pathserve.h>
#ifdef _WIN32
#include <fcntl.h>
#include <io.h>
#endif

static void *room(size_t bytes) {
    void *made = malloc(bytes ? bytes : 1);
    if (!made) exit(2);
    return made;
}

static void answer(uint32_t report, const uint8_t *script, size_t length) {
    pathserve_match match = {0};
    size_t taken;
    pathserve_status status = pathserve_open(&match, report);
    if (status == PATHSERVE_DONE) status = pathserve_feed(&match, script, length, &taken);
    if (status == PATHSERVE_DONE) status = pathserve_finish(&match);
    size_t count = pathserve_waiting(&match);
    uint8_t *text = room(count);
    count = pathserve_take(&match, text, count);
    printf("%u %u\n", (unsigned)status, (unsigned)count);
    fwrite(text, 1, count, stdout);
    pathserve_close(&match);
    free(text);
}

int main(void) {
    unsigned report, length;
#ifdef _WIN32
    _setmode(0, _O_BINARY);
    _setmode(1, _O_BINARY);
#endif
    while (scanf("%u %u", &report, &length) == 2 && getchar() == '\n') {
        uint8_t *script = room(length);
        if (fread(script, 1, length, stdin) != length) return 2;
        answer(report, script, length);
        free(script);
    }
    return 0;
}
