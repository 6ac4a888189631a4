// What the C programs of these tests share: doubles and their bits, a stop.
#include "elchepur_host.h"
#include <inttypes.h>
#include <stdio.h>
#include <stdlib.h>
#include <string.h>

static inline double double_of(uint64_t bits) {
    double x;
    memcpy(&x, &bits, sizeof x);
    return x;
}

// A NaN is shown by one pattern.
static inline uint64_t bits_of(double x) {
    uint64_t bits;
    memcpy(&bits, &x, sizeof bits);
    return x != x ? UINT64_C(0x7ff8000000000000) : bits;
}

static inline void stop(const char *words, uint64_t number) {
    fflush(stdout);
    fprintf(stderr, "%s: %" PRIu64 "\n", words, number);
    exit(1);
}
