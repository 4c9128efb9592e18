/* A game for Windows breaks a promise: its map lies at an address that nobody has. The fault in the library must reach the
 * game's own handler, and the frames from there to `main` must be walked through, as a crash report does. */
#include <stdio.h>
#include <windows.h>
#include <pathserve.h>

static void *frame_of_main;

/* Whether the frames lead from the fault to main. */
static int leads_to_main(CONTEXT *at) {
    for (int frames = 0; frames < 64 && at->Rip; frames++) {
        DWORD64 base;
        void *data;
        DWORD64 frame;
        RUNTIME_FUNCTION *function = RtlLookupFunctionEntry(at->Rip, &base, NULL);
        if (!function) return 0;
        if ((void *)(base + function->BeginAddress) == frame_of_main) return 1;
        RtlVirtualUnwind(UNW_FLAG_NHANDLER, base, at->Rip, function, at, &data, &frame, NULL);
    }
    return 0;
}

static LONG WINAPI seen(EXCEPTION_POINTERS *fault) {
    CONTEXT at = *fault->ContextRecord;
    int is_right = fault->ExceptionRecord->ExceptionCode == EXCEPTION_ACCESS_VIOLATION && leads_to_main(&at);
    puts(is_right ? "seen by the game" : "not walked through");
    fflush(stdout);
    ExitProcess(is_right ? 0 : 1);
}

int main(void) {
    const pathserve_class walker = {"walker", 6, 32768};
    pathserve_match match = {0};
    DWORD64 base;
    RUNTIME_FUNCTION *function = RtlLookupFunctionEntry((DWORD64)(uintptr_t)main, &base, NULL);
    if (!function) return 2;
    frame_of_main = (void *)(base + function->BeginAddress);
    SetUnhandledExceptionFilter(seen);
    pathserve_open_map(&match, (const pathserve_map *)(uintptr_t)64, &walker, 1, NULL, 0);
    return 3;
}
