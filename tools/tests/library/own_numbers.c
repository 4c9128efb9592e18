/* Compares tools/library/numbers.c with what the compiler makes of the same. Made with -DPORTABLE, without instructions of x86-64. */
#include <stdint.h>
#include <stdio.h>
#define __udivti3 own_quotient
#define __ashlti3 own_left
#define __lshrti3 own_right
#define __multi3 own_product
#define __wasm__ 1
#ifdef PORTABLE
#undef __x86_64__
#endif
#include "../../library/numbers.c"

static uint64_t state = 88172645463325252u;

static uint64_t next(void) {
    state ^= state << 13;
    state ^= state >> 7;
    state ^= state << 17;
    return state;
}

/* A number of any length, often with a few ones or a few zeros. */
static whole number(void) {
    whole made = (whole)next() << 64 | next();
    switch (next() % 4) {
    case 0: return made >> next() % 128;
    case 1: return ((whole)1 << next() % 128) - next() % 2;
    case 2: return ~(made >> next() % 128);
    default: return made & ((whole)next() << 64 | next());
    }
}

int main(void) {
    for (int round = 0; round < 2000000; round++) {
        whole a = number(), b = number();
        int places = (int)(next() % 128);
        if (own_product(a, b) != a * b || own_left(a, places) != a << places || own_right(a, places) != a >> places) return 1;
        if (b != 0 && own_quotient(a, b) != a / b) return 2;
    }
    puts("2000000 alike");
    return 0;
}
