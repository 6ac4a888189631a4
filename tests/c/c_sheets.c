// Hands sheets over as they are: prints what elchepur_forecast prints of each sheet on standard input, which has the
// form of crates/replay_sheet/stdin, and sees that no other byte is written. Each is also read into arrays and written
// out of them: the same bytes are to come back, and of what is no sheet the refusal that is printed.
// tests/c/c_program.py builds it and compares what it prints with the stored answers.
#include "c_host.h"

#define MOST_BYTES 10000

static void forecast(const uint8_t *sheet, size_t count) {
    uint8_t printed[ELCHEPUR_PRINTED];
    memset(printed, '#', sizeof printed);
    uint64_t written = elchepur_forecast(sheet, count, printed);
    if (written > ELCHEPUR_PRINTED_MOST) stop("too many bytes are printed", written);
    for (size_t k = written; k < sizeof printed; k++)
        if (printed[k] != '#') stop("a byte is written behind the others", k);
    fwrite(printed, 1, written, stdout);
}

struct arrays {
    uint64_t settings[ELCHEPUR_SHEET_SETTINGS], amounts[ELCHEPUR_SHEET_AMOUNTS], rates[ELCHEPUR_SHEET_RATES];
    size_t counts[ELCHEPUR_SHEET_COUNTS], species[ELCHEPUR_SHEET_SPECIES];
};

static uint64_t written(const struct arrays *a, uint8_t *sheet, size_t room, size_t *length) {
    return elchepur_write_sheet(a->settings, a->counts, a->amounts, a->rates, a->species, sheet, room, length);
}

// A sheet that was read: written into more bytes than it has, into as many, and into one less.
static void written_back(const struct arrays *a, const uint8_t *sheet, size_t count) {
    uint8_t again[ELCHEPUR_SHEET_MOST + 1];
    size_t length = 0;
    memset(again, '#', sizeof again);
    if (written(a, again, sizeof again, &length) || length != count || memcmp(again, sheet, count))
        stop("a sheet is not written back", count);
    for (size_t k = count; k < sizeof again; k++)
        if (again[k] != '#') stop("a byte is written behind the sheet", k);
    memset(again, '#', sizeof again);
    if (written(a, again, count, &length) || memcmp(again, sheet, count)) stop("a sheet that fits is refused", count);
    memset(again, '#', sizeof again);
    length = 7;
    if (written(a, again, count - 1, &length) != ELCHEPUR_REFUSED_BUFFER || length != 7)
        stop("a sheet that is longer than the memory is not refused by 24", count);
    for (size_t k = 0; k < sizeof again; k++)
        if (again[k] != '#') stop("a refused sheet is written", k);
}

// The sheet through arrays and back, held against the first line of what is printed of it.
static void through(const uint8_t *sheet, size_t count, const uint8_t *answer) {
    struct arrays a, before;
    size_t line = 0, told = 0;
    memset(&a, 0x5a, sizeof a);
    before = a;
    uint64_t refused = elchepur_read_sheet(sheet, count, a.settings, a.counts, a.amounts, a.rates, a.species, &line);
    if (refused && memcmp(&a, &before, sizeof a)) stop("a refused sheet is read into memory", refused);
    if (sscanf((const char *)answer, "refused 20 %zu", &told) == 1) {
        if (refused != ELCHEPUR_REFUSED_SHEET_LINE || line != told) stop("a wrong line is told otherwise", line);
    } else if (!strncmp((const char *)answer, "refused 21", 10)) {
        if (refused != ELCHEPUR_REFUSED_SHEET_LONG || line) stop("a long sheet is refused otherwise", refused);
    } else {
        if (refused || line) stop("a sheet is refused", refused);
        written_back(&a, sheet, count);
    }
}

// A record is how many bytes a sheet and its answer have, then both.
int main(void) {
    static uint8_t sheet[MOST_BYTES], answer[MOST_BYTES + 1];
    size_t count, told;
    while (scanf("%4zu %4zu", &count, &told) == 2) {
        if (getchar() != '\n' || fread(sheet, 1, count, stdin) != count
            || fread(answer, 1, told, stdin) != told) stop("a record is broken off", count);
        answer[told] = 0;
        forecast(sheet, count);
        through(sheet, count, answer);
    }
    return 0;
}
