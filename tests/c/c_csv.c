// The table of crates/replay_csv/stdin on standard output, through elchepur_csv_header and elchepur_csv_record. Then
// the same functions on a million drawn patterns of every class, each text read back by C's strtod and held to %a of
// the C library; how that went is told on standard error.
#include "c_host.h"

#define AMOUNTS 3
#define DRAWN 250000

// A line of the table, as a string of C.
static size_t line_of(const uint64_t *words, char *line) {
    uint8_t room[ELCHEPUR_CSV_MOST];
    double amounts[AMOUNTS];
    size_t count = 0;
    for (size_t k = 0; k < AMOUNTS; k++) amounts[k] = double_of(words[k + 1]);
    if (elchepur_csv_record(double_of(words[0]), amounts, AMOUNTS, room, sizeof room, &count))
        stop("a record is refused", words[0]);
    memcpy(line, room, count);
    line[count] = 0;
    return count;
}

static void table(void) {
    uint8_t room[ELCHEPUR_CSV_MOST];
    char line[ELCHEPUR_CSV_MOST + 1];
    uint64_t words[AMOUNTS + 1];
    size_t count = 0;
    if (elchepur_csv_header(AMOUNTS, room, sizeof room, &count)) stop("the header is refused", AMOUNTS);
    fwrite(room, 1, count, stdout);
    while (scanf("%" SCNx64 " %" SCNx64 " %" SCNx64 " %" SCNx64, words, words + 1, words + 2, words + 3) == AMOUNTS + 1)
        fwrite(line, 1, line_of(words, line), stdout);
}

// SplitMix64.
static uint64_t drawn(uint64_t *state) {
    uint64_t z = *state += UINT64_C(0x9E3779B97F4A7C15);
    z = (z ^ (z >> 30)) * UINT64_C(0xBF58476D1CE4E5B9);
    z = (z ^ (z >> 27)) * UINT64_C(0x94D049BB133111EB);
    return z ^ (z >> 31);
}

// Any bits; few bits of a fraction; a subnormal number; an infinity or a NaN.
static uint64_t pattern(uint64_t *state) {
    uint64_t bits = drawn(state), fraction = bits & UINT64_C(0x000fffffffffffff);
    switch (drawn(state) % 8) {
    case 0: return (bits & UINT64_C(0xfff0000000000000)) | (fraction & (UINT64_C(0xf) << 4 * (bits % 13)));
    case 1: return (bits & UINT64_C(0x8000000000000000)) | (fraction >> (bits % 52));
    case 2: return bits | UINT64_C(0x7ff0000000000000);
    case 3: return (bits & UINT64_C(0xfff0000000000000)) | (bits % 2 ? 0 : UINT64_C(0x000fffffffffffff));
    default: return bits;
    }
}

// What %a is to print; of a NaN its sign is not asked.
static void held(const char *text, double x) {
    char printed[64];
    char *end;
    double back = strtod(text, &end);
    if (x != x) {
        if (strcmp(text, "nan")) stop(text, bits_of(x));
        return;
    }
    if (*end || bits_of(back) != bits_of(x)) stop(text, bits_of(x));
    snprintf(printed, sizeof printed, "%a", x);
    if (strcmp(printed, text)) stop(text, bits_of(x));
}

static void drawing(void) {
    uint64_t state = 9, words[AMOUNTS + 1];
    char line[ELCHEPUR_CSV_MOST + 1];
    for (long turn = 0; turn < DRAWN; turn++) {
        size_t field = 0;
        for (size_t k = 0; k <= AMOUNTS; k++) words[k] = pattern(&state);
        size_t count = line_of(words, line);
        if (count < 2 || strcmp(line + count - 2, "\r\n")) stop("a record without CRLF", words[0]);
        line[count - 2] = 0;
        for (char *text = strtok(line, ","); text; text = strtok(NULL, ","), field++)
            held(text, double_of(words[field]));
        if (field != AMOUNTS + 1) stop("a record has another number of fields", words[0]);
    }
}

int main(void) {
    table();
    drawing();
    fprintf(stderr, "the stored table, and %ld drawn numbers that strtod reads back and %%a prints alike\n",
            (long)DRAWN * (AMOUNTS + 1));
    return 0;
}
