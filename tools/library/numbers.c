/* What LLVM calls for numbers of 128 bits where a platform's own library lacks it: division on Windows and for the web, and
 * there products and shifts too. */
typedef unsigned long long half;
typedef unsigned __int128 whole;

static whole joined(half high, half low) { return (whole)high << 64 | low; }

static half high_of(whole number) { return (half)(number >> 64); }

#ifdef __x86_64__
/* (high, low) / divisor, of which the caller knows that it has no more than 64 bits: high < divisor. */
static half divided(half high, half low, half divisor) {
    half rest;
    __asm__("divq %4" : "=a"(low), "=d"(rest) : "a"(low), "d"(high), "r"(divisor) : "cc");
    return low;
}
#else
static half divided(half high, half low, half divisor) {
    half quotient = 0;
    for (int bit = 63; bit >= 0; bit--) {
        half carry = high >> 63;
        high = high << 1 | (low >> bit & 1);
        quotient <<= 1;
        if (carry || high >= divisor) {
            high -= divisor;
            quotient |= 1;
        }
    }
    return quotient;
}
#endif

whole __udivti3(whole number, whole divisor) {
    half high = high_of(number), low = (half)number, by = (half)divisor;
    if (number < divisor) return 0;
    if (high_of(divisor) == 0) {
        if (high == 0) return low / by;
        half first = high / by;
        return joined(first, divided(high % by, low, by));
    }
    /* The quotient has fewer than 64 bits. */
    int places = __builtin_clzll(high_of(divisor)) - __builtin_clzll(high);
    half quotient = 0;
    for (int place = places; place >= 0; place--) {
        whole part = divisor << place;
        quotient <<= 1;
        if (number >= part) {
            number -= part;
            quotient |= 1;
        }
    }
    return quotient;
}

#ifdef __wasm__
/* By halves, since the compiler makes calls of these functions out of the operators on whole numbers. */
union parts {
    whole number;
    struct { half low, high; } of;
};

whole __ashlti3(whole number, int places) {
    union parts from = {.number = number}, to;
    if (places & 64) {
        to.of.low = 0;
        to.of.high = from.of.low << (places & 63);
    } else if (places == 0) {
        return number;
    } else {
        to.of.low = from.of.low << places;
        to.of.high = from.of.high << places | from.of.low >> (64 - places);
    }
    return to.number;
}

whole __lshrti3(whole number, int places) {
    union parts from = {.number = number}, to;
    if (places & 64) {
        to.of.high = 0;
        to.of.low = from.of.high >> (places & 63);
    } else if (places == 0) {
        return number;
    } else {
        to.of.high = from.of.high >> places;
        to.of.low = from.of.low >> places | from.of.high << (64 - places);
    }
    return to.number;
}

/* The low 128 bits of a product, by products of 32 bits each. */
whole __multi3(whole left, whole right) {
    union parts a = {.number = left}, b = {.number = right}, to;
    const half mask = 0xffffffff;
    half low_a = a.of.low & mask, high_a = a.of.low >> 32, low_b = b.of.low & mask, high_b = b.of.low >> 32;
    half low = low_a * low_b, middle = high_a * low_b + (low >> 32), other = low_a * high_b + (middle & mask);
    to.of.low = other << 32 | (low & mask);
    to.of.high = high_a * high_b + (middle >> 32) + (other >> 32) + a.of.low * b.of.high + a.of.high * b.of.low;
    return to.number;
}
#endif
