// Each function of include/elchepur.h called with a few values whose answers are known: document 01's
// examples and refusals, and what its sentences say. It sees that the declarations there are those of the
// archive, argument by argument.
#include "c_host.h"

static int seen, wrong;

static void same(const char *words, uint64_t got, uint64_t wanted) {
    seen++;
    if (got == wanted) return;
    wrong++;
    printf("%s is %" PRIx64 " and is to be %" PRIx64 "\n", words, got, wanted);
}

static void doubles(const char *words, const double *got, const double *wanted, size_t count) {
    for (size_t i = 0; i < count; i++) same(words, bits_of(got[i]), bits_of(wanted[i]));
}

static void scalars(void) {
    double nan = double_of(UINT64_C(0x7ff8000000000000)), value = 7.0;
    same("the root of 2 (P1)", bits_of(elchepur_sqrt(2.0)), UINT64_C(0x3ff6a09e667f3bcd));
    same("the root of -0 (P2)", bits_of(elchepur_sqrt(-0.0)), bits_of(-0.0));
    same("the root of 2^-1074 (P3)", bits_of(elchepur_sqrt(double_of(1))), (UINT64_C(1023) - 537) << 52);
    same("the third root of 8 (P4)", bits_of(elchepur_root(3, 8.0)), bits_of(2.0));
    same("the fourth root of 1 (P5)", bits_of(elchepur_root(4, 1.0)), bits_of(1.0));
    same("the root of order 18", bits_of(elchepur_root(18, 1.0)), bits_of(nan));
    same("the third power of -3", bits_of(elchepur_power(3, -3.0)), bits_of(-27.0));
    same("the power 255 of 1", bits_of(elchepur_power(255, 1.0)), bits_of(1.0));
    same("8 to 2/3", bits_of(elchepur_two_thirds(8.0)), bits_of(4.0));
    same("32 to 0.8", bits_of(elchepur_four_fifths(32.0)), bits_of(16.0));
    same("16 to 0.25", bits_of(elchepur_quarter(16.0)), bits_of(2.0));
    same("8 to -1/3", bits_of(elchepur_inverse_root(3, 8.0)), bits_of(0.5));
    same("the size of -2", bits_of(elchepur_abs(-2.0)), bits_of(2.0));
    same("the greater of NaN and 1", bits_of(elchepur_max(nan, 1.0)), bits_of(1.0));
    same("the greater of 1 and 2", bits_of(elchepur_max(1.0, 2.0)), bits_of(2.0));
    same("the lesser of 1 and 2", bits_of(elchepur_min(1.0, 2.0)), bits_of(1.0));
    same("5 held between 1 and 3", bits_of(elchepur_clamp(5.0, 1.0, 3.0)), bits_of(3.0));
    same("0 held between 1 and 3", bits_of(elchepur_clamp(0.0, 1.0, 3.0)), bits_of(1.0));
    same("the sign of -0", bits_of(elchepur_signum(-0.0)), bits_of(-1.0));
    same("a coefficient", elchepur_coefficient(ELCHEPUR_COEFFICIENT_C1, &value), 0);
    same("C1", bits_of(value), bits_of(0.1550510257216822));
    same("a coefficient", elchepur_coefficient(ELCHEPUR_COEFFICIENT_TI22, &value), 0);
    same("TI22", bits_of(value), bits_of(-5.960392048282249E-1));
    same("a coefficient past the table", elchepur_coefficient(ELCHEPUR_COEFFICIENTS, &value), ELCHEPUR_REFUSED_OUTSIDE);
    same("what it left", bits_of(value), bits_of(-5.960392048282249E-1));
}

static void matrices(void) {
    double a[] = {1, 2, 4, 4}, b[] = {3, 8}, ones[] = {1, 1, 1, 1}, zero[] = {0}, re[] = {0}, im[] = {1}, br[] = {1},
        bi[] = {0};
    const double decomposed[] = {4, 4, -0.25, 1}, solved[] = {1, 1}, left[] = {1, 1, -1, 0}, minus[] = {-1},
        none[] = {0};
    size_t ip[] = {9, 9}, one[] = {9}, stray[] = {2, 0}, column = 7;
    same("a decomposition (P6)", elchepur_lu_decomp(2, a, 4, ip, 2, &column), 0);
    doubles("an entry of P6", a, decomposed, 4);
    same("the first pivot of P6", ip[0], 1);
    same("the column, not written", column, 7);
    same("a solution with a stray pivot", elchepur_lin_solve(2, a, 4, b, 2, stray, 2), ELCHEPUR_REFUSED_PIVOT);
    same("a solution (P7)", elchepur_lin_solve(2, a, 4, b, 2, ip, 2), 0);
    doubles("an entry of P7", b, solved, 2);
    same("a singular matrix (P8)", elchepur_lu_decomp(2, ones, 4, ip, 2, &column), ELCHEPUR_REFUSED_SINGULAR);
    same("the column of P8", column, 1);
    doubles("an entry of P8", ones, left, 4);
    same("a complex decomposition", elchepur_lu_decomp_complex(1, re, 1, im, 1, one, 1, &column), 0);
    same("a complex solution (P9)", elchepur_lin_solve_complex(1, re, 1, im, 1, br, 1, bi, 1, one, 1), 0);
    doubles("the real part of P9", br, none, 1);
    doubles("the imaginary part of P9", bi, minus, 1);
    same("n = 1, matrix 0 (P12)", elchepur_lu_decomp(1, zero, 1, one, 1, &column), ELCHEPUR_REFUSED_SINGULAR);
    same("the column of P12", column, 0);
    column = 7;
    same("n = 33", elchepur_lu_decomp(33, a, 4, ip, 2, &column), ELCHEPUR_REFUSED_ORDER);
    same("a short matrix", elchepur_lu_decomp(2, a, 3, ip, 2, &column), ELCHEPUR_REFUSED_LENGTH);
    same("short pivots", elchepur_lu_decomp_complex(1, re, 1, im, 1, one, 0, &column), ELCHEPUR_REFUSED_LENGTH);
    same("the column, not written by refusals", column, 7);
    same("a long right side", elchepur_lin_solve_complex(1, re, 1, im, 1, a, 2, bi, 1, one, 1),
         ELCHEPUR_REFUSED_LENGTH);
}

static void dense(void) {
    const double cont[] = {1, 2, 0, 0}, one = 1.0, forwards[] = {1, 3}, backwards[] = {-1, 1}, wanted[] = {0, 5};
    double yi[] = {7, 5}, ends[] = {7, 7};
    same("an interpolation (P10)", elchepur_interpolate(1.0, yi, 2, cont, 4, 0.0, 2.0), 0);
    doubles("an amount of P10", yi, wanted, 2);
    same("a short target", elchepur_interpolate(1.0, yi, 0, cont, 4, 0.0, 2.0), ELCHEPUR_REFUSED_TARGET);
    elchepur_bounds(one, 2.0, ends);
    doubles("an end of a step", ends, forwards, 2);
    elchepur_bounds(one, -2.0, ends);
    doubles("an end of a step backwards", ends, backwards, 2);
}

static void defaults(void) {
    const uint64_t wanted[ELCHEPUR_NUMBERS] = {100000, 7, 1, 1, 1, 1, 0};
    const double floats_wanted[ELCHEPUR_FLOATS] = {2.3e-16, 0.9, 0.2, 8.0};
    uint64_t numbers[ELCHEPUR_NUMBERS];
    double floats[ELCHEPUR_FLOATS];
    elchepur_default_settings(numbers, floats);
    for (size_t k = 0; k < ELCHEPUR_NUMBERS; k++) same("a default number", numbers[k], wanted[k]);
    doubles("a default float", floats, floats_wanted, ELCHEPUR_FLOATS);
}

// --- Openings ------------------------------------------------------------------------------------

struct opening {
    uint64_t numbers[ELCHEPUR_NUMBERS];
    double floats[ELCHEPUR_FLOATS], x0, xend, rtol, atol;
    size_t n, cont_count;
    uint64_t lists;
};

static struct opening plain(void) {
    struct opening o = {.x0 = 0.0, .xend = 1.0, .rtol = 1e-3, .atol = 1e-6, .n = 2, .cont_count = 8};
    elchepur_default_settings(o.numbers, o.floats);
    o.numbers[ELCHEPUR_NUMBER_MASS] = 0;
    return o;
}

// Opens with the parts of two amounts, each filled with 0.5. What is refused leaves all that it was handed.
static void opens(const char *words, struct opening o, uint64_t number) {
    double memory[ELCHEPUR_DOUBLES(2)], at[ELCHEPUR_AT] = {9, 9};
    size_t pivots[ELCHEPUR_PIVOTS(2)] = {9, 9, 9, 9};
    struct elchepur_state state;
    uint64_t told[ELCHEPUR_TOLD] = {9, 9, 9};
    struct elchepur_memory m = elchepur_host_parts(2, memory, pivots);
    for (size_t k = 0; k < ELCHEPUR_DOUBLES(2); k++) memory[k] = 0.5;
    for (size_t k = 0; k < ELCHEPUR_STATE_WORDS; k++) state.words[k] = 9;
    for (size_t k = 0; k < ELCHEPUR_STATE_DOUBLES; k++) state.doubles[k] = 9.0;
    same(words,
         elchepur_open(o.numbers, o.floats, o.n, o.x0, o.xend, o.lists, o.rtol, o.atol, ELCHEPUR_STATE(state), told,
                       at, m.y, 2, m.f0, 2, m.scal, 2, m.cont, o.cont_count, m.z1, 2, m.z2, 2,
                       m.z3, 2, m.f1, 2, m.f2, 2, m.f3, 2, m.rtol, 2, m.atol, 2, m.mass, 4, m.jac, 4, m.e1, 4, m.e2r,
                           4, m.e2i, 4, m.ip1, 2, m.ip2, 2, m.y_perturbed, 2,
                       m.f_perturbed, 2, m.f_origin, 2),
         number);
    if (number) {
        for (size_t k = 0; k < ELCHEPUR_DOUBLES(2); k++) same("a part of a refused opening", bits_of(memory[k]),
                                                              bits_of(0.5));
        for (size_t k = 0; k < ELCHEPUR_PIVOTS(2); k++) same("a pivot of a refused opening", pivots[k], 9);
        for (size_t k = 0; k < ELCHEPUR_STATE_WORDS; k++) same("a word of a refused opening", state.words[k], 9);
        for (size_t k = 0; k < ELCHEPUR_STATE_DOUBLES; k++) same("a double of a refused opening",
                                                                 bits_of(state.doubles[k]), bits_of(9.0));
        for (size_t k = 0; k < ELCHEPUR_TOLD; k++) same("the request of a refused opening", told[k], 9);
        for (size_t k = 0; k < ELCHEPUR_AT; k++) same("a point of a refused opening", bits_of(at[k]), bits_of(9.0));
    } else {
        same("the first request", told[ELCHEPUR_TOLD_KIND], ELCHEPUR_KIND_DERIVATIVE);
        same("its place", told[ELCHEPUR_TOLD_PLACE], ELCHEPUR_PLACE_Y_TO_F0);
        same("its point", bits_of(at[0]), bits_of(o.x0));
    }
}

static void with_number(const char *words, size_t place, uint64_t setting, uint64_t number) {
    struct opening o = plain();
    o.numbers[place] = setting;
    opens(words, o, number);
}

// A float that need not be there is given.
static void with_float(const char *words, size_t place, double setting, uint64_t number) {
    struct opening o = plain();
    if (place >= ELCHEPUR_FLOAT_MAX_STEP) o.numbers[ELCHEPUR_NUMBER_MAX_STEP_GIVEN + place - ELCHEPUR_FLOAT_MAX_STEP] =
        1;
    o.floats[place] = setting;
    opens(words, o, number);
}

static void openings(void) {
    struct opening o = plain();
    opens("an opening", o, 0);
    o.n = 33;
    opens("33 amounts", o, ELCHEPUR_REFUSED_ORDER);
    o = plain();
    o.cont_count = 7;
    opens("a short part", o, ELCHEPUR_REFUSED_PART);
    o = plain();
    o.xend = 1.0 / elchepur_abs(0.0);
    opens("an end at infinity", o, ELCHEPUR_REFUSED_NOT_FINITE);
    o = plain();
    o.rtol = 0.0;
    opens("an rtol of 0", o, ELCHEPUR_REFUSED_TOLERANCE);
    o.lists = 7;
    opens("an rtol of 0 beside lists", o, 0);
    with_number("no steps", ELCHEPUR_NUMBER_MAX_STEPS, 0, ELCHEPUR_REFUSED_MAX_STEPS);
    with_number("17 rounds", ELCHEPUR_NUMBER_NEWTON_MAXITER, 17, ELCHEPUR_REFUSED_NEWTON_MAXITER);
    with_number("16 rounds", ELCHEPUR_NUMBER_NEWTON_MAXITER, 16, 0);
    with_number("a nind1 of 0", ELCHEPUR_NUMBER_NIND1_GIVEN, 1, ELCHEPUR_REFUSED_PARTITION);
    with_number("a mass of any number but 0", ELCHEPUR_NUMBER_MASS, UINT64_MAX, 0);
    with_float("uround", ELCHEPUR_FLOAT_UROUND, 1.0, ELCHEPUR_REFUSED_UROUND);
    with_float("safety_factor", ELCHEPUR_FLOAT_SAFETY_FACTOR, 1.0, ELCHEPUR_REFUSED_SAFETY_FACTOR);
    with_float("scale_min", ELCHEPUR_FLOAT_SCALE_MIN, 8.0, ELCHEPUR_REFUSED_SCALES);
    with_float("scale_max", ELCHEPUR_FLOAT_SCALE_MAX, 0.1, ELCHEPUR_REFUSED_SCALES);
    with_float("max_step", ELCHEPUR_FLOAT_MAX_STEP, -1.0, ELCHEPUR_REFUSED_STEP_LIMITS);
    with_float("min_step", ELCHEPUR_FLOAT_MIN_STEP, 2.0, ELCHEPUR_REFUSED_STEP_LIMITS);
    with_float("newton_tol", ELCHEPUR_FLOAT_NEWTON_TOL, 0.0, 0);
    with_float("first_step", ELCHEPUR_FLOAT_FIRST_STEP, 0.0, ELCHEPUR_REFUSED_FIRST_STEP);
}

// Document 01's sheet in arrays, each of its entries made wrong in turn; and one that can be written only just.
static void sheets(void) {
    uint64_t settings[6] = {0, 0, 0, UINT64_C(0x7ff0000000000001), 9999999999, 1}, amounts[32] = {1}, rates[64] = {2};
    size_t counts[2] = {1, 64}, species[256] = {0}, length = 7, line = 7;
    uint8_t sheet[ELCHEPUR_SHEET_MOST];
    same("a model", elchepur_write_sheet(settings, counts, amounts, rates, species, sheet, sizeof sheet, &length), 0);
    same("its sheet is read", elchepur_read_sheet(sheet, length, settings, counts, amounts, rates, species, &line), 0);
    same("a NaN's payload", settings[3], UINT64_C(0x7ff0000000000001));
    same("a line that is not told", line, 7);
    struct { size_t *count; size_t wrong; } sizes[] = {{counts, 0}, {counts, 33}, {counts + 1, 65}, {species + 255, 2}};
    for (size_t k = 0; k < 4; k++) {
        size_t kept = *sizes[k].count;
        *sizes[k].count = sizes[k].wrong;
        same("a count or species that is none",
             elchepur_write_sheet(settings, counts, amounts, rates, species, sheet, 0, &length),
             ELCHEPUR_REFUSED_MODEL);
        *sizes[k].count = kept;
    }
    settings[4]++;
    same("eleven digits", elchepur_write_sheet(settings, counts, amounts, rates, species, sheet, 0, &length), 23);
    settings[4]--;
    settings[5] = 2;
    same("a rule that is none", elchepur_write_sheet(settings, counts, amounts, rates, species, sheet, 0, &length), 23);
    settings[5] = 0;
    same("no room", elchepur_write_sheet(settings, counts, amounts, rates, species, sheet, 0, &length), 24);
    const uint8_t *one = (const uint8_t *)"6\n";
    same("a sheet of one line", elchepur_read_sheet(one, 2, settings, counts, amounts, rates, species, &line), 20);
    same("the line after the last", line, 2);
}

// Hands lines over in pieces of a length and sees what is answered; `place` stands in the totals, or is the wrong line.
static void night(const char *words, const char *lines, size_t step, uint64_t number, uint64_t place) {
    uint64_t night[ELCHEPUR_NIGHT], totals[ELCHEPUR_TOTALS], line = 7;
    size_t count = strlen(lines);
    uint8_t printed[ELCHEPUR_TOTALS_PRINTED];
    for (size_t k = 0; k < ELCHEPUR_TOTALS; k++) totals[k] = 9;
    elchepur_totals_start(night);
    for (size_t at = 0; at < count; at += step)
        elchepur_totals_fed(night, (const uint8_t *)lines + at, step < count - at ? step : count - at);
    same(words, elchepur_totals_told(night, totals, &line), number);
    same("its place", number ? line : totals[ELCHEPUR_TOTALS_PLACE], place);
    same("a total of refused lines", !number || totals[0] == 9, 1);
    same("what is printed of it", elchepur_totals_printed(night, printed) > 10, 1);
    same("its first byte", printed[0], number ? 'r' : 'l');
}

// Nights of a few lines, and words that no call made.
static void nights(void) {
    const char *two = "status 0 accepted 1 rejected 2 total 3 ode 4 jac 5 lu 6\n"
                      "status 7 accepted 10000000000 rejected 0 total 0 ode 4 jac 0 lu 0\n";
    uint64_t forged[ELCHEPUR_NIGHT], totals[ELCHEPUR_TOTALS], line = 7;
    for (size_t step = 1; step < 80; step++) night("two lines", two, step, 0, 1);
    night("no lines", "", 1, 0, 0);
    night("a line without its end", "status 0", 3, ELCHEPUR_REFUSED_SHEET_LINE, 1);
    night("an empty line", "\n", 3, ELCHEPUR_REFUSED_SHEET_LINE, 1);
    elchepur_totals_start(forged);
    elchepur_totals_fed(forged, (const uint8_t *)two, strlen(two));
    same("two lines once more", elchepur_totals_told(forged, totals, &line), 0);
    same("a line that is not told", line, 7);
    const uint64_t wanted[ELCHEPUR_TOTALS] = {2, 1, 0, 0, 0, 0, 1, UINT64_C(10000000001), 2, 3, 8, 5, 6, 4, 1};
    for (size_t k = 0; k < ELCHEPUR_TOTALS; k++) same("a total of two lines", totals[k], wanted[k]);
    forged[0] = 65535;
    same("no line too many", elchepur_totals_told(forged, totals, &line), 0);
    elchepur_totals_fed(forged, (const uint8_t *)"s", 1);
    same("a line too many", elchepur_totals_told(forged, totals, &line), ELCHEPUR_REFUSED_MANY_LINES);
    for (size_t k = 0; k < ELCHEPUR_NIGHT; k++) forged[k] = UINT64_MAX - k;
    elchepur_totals_fed(forged, (const uint8_t *)two, strlen(two));
    same("words that no call made", elchepur_totals_told(forged, totals, &line), ELCHEPUR_REFUSED_MANY_LINES);
    forged[15] = forged[20] = 0;
    forged[0] = 3;
    elchepur_totals_fed(forged, (const uint8_t *)two, strlen(two));
    same("a place outside the line", elchepur_totals_told(forged, totals, &line), ELCHEPUR_REFUSED_SHEET_LINE);
    same("the line behind those that are said to be there", line, 4);
    elchepur_totals_start(forged);
    forged[18] = 9;
    elchepur_totals_fed(forged, (const uint8_t *)"status ", 7);
    same("a value stays where no number has begun", forged[18], 9);
    elchepur_totals_fed(forged, (const uint8_t *)"0", 1);
    same("a number takes its place", forged[18], 0);
    forged[15] = forged[20] = 5;
    elchepur_totals_fed(forged, (const uint8_t *)two, strlen(two));
    same("behind a line too many a flag stays, as 1", forged[15], 1);
    same("so does the flag of a wrong line", forged[20], 1);
}

// Two totals joined, each test of 28 failed on either side in turn, and lines up to the last that are taken.
static void depots(void) {
    const uint64_t none[ELCHEPUR_TOTALS] = {0}, one[ELCHEPUR_TOTALS] = {2, 1, 0, 0, 0, 0, 1, 9, 2, 3, 8, 5, 6, 4, 1};
    const uint64_t both[ELCHEPUR_TOTALS] = {4, 2, 0, 0, 0, 0, 2, 18, 4, 6, 17, 10, 12, 5, 3};
    uint64_t other[ELCHEPUR_TOTALS] = {2, 1, 0, 0, 0, 0, 1, 9, 2, 3, 9, 5, 6, 5, 1}, joined[ELCHEPUR_TOTALS];
    same("two totals", elchepur_totals_join(one, other, joined), 0);
    for (size_t k = 0; k < ELCHEPUR_TOTALS; k++) same("a total of both", joined[k], both[k]);
    same("the other way round", elchepur_totals_join(other, one, joined), 0);
    same("the place of the first's", joined[ELCHEPUR_TOTALS_PLACE], 1);
    same("equal ones", elchepur_totals_join(one, one, joined), 0);
    same("the first of equal ones", joined[ELCHEPUR_TOTALS_PLACE], 1);
    same("no lines before", elchepur_totals_join(none, one, joined), 0);
    for (size_t k = 0; k < ELCHEPUR_TOTALS; k++) same("a total behind no lines", joined[k], one[k]);
    same("no lines behind", elchepur_totals_join(one, none, joined), 0);
    for (size_t k = 0; k < ELCHEPUR_TOTALS; k++) same("a total before no lines", joined[k], one[k]);
    struct { size_t place; uint64_t wrong; } tests[] = {
        {ELCHEPUR_TOTALS_LINES, 65536}, {ELCHEPUR_TOTALS_LINES, 3}, {ELCHEPUR_TOTALS_STATUS5, UINT64_MAX},
        {ELCHEPUR_TOTALS_ACCEPTED, UINT64_C(20000000001)}, {ELCHEPUR_TOTALS_REJECTED, UINT64_C(20000000001)},
        {ELCHEPUR_TOTALS_TOTAL, UINT64_C(20000000001)}, {ELCHEPUR_TOTALS_ODE, UINT64_C(20000000001)},
        {ELCHEPUR_TOTALS_JAC, UINT64_C(20000000001)}, {ELCHEPUR_TOTALS_LU, UINT64_MAX},
        {ELCHEPUR_TOTALS_LARGEST, 10}, {ELCHEPUR_TOTALS_PLACE, 3}, {ELCHEPUR_TOTALS_PLACE, 0}};
    for (size_t k = 0; k < sizeof tests / sizeof tests[0]; k++) {
        uint64_t kept = other[tests[k].place];
        other[tests[k].place] = tests[k].wrong;
        joined[0] = 77;
        same("an unfit second", elchepur_totals_join(one, other, joined), ELCHEPUR_REFUSED_TOTALS);
        same("an unfit first", elchepur_totals_join(other, one, joined), ELCHEPUR_REFUSED_TOTALS);
        same("what a refusal leaves", joined[0], 77);
        other[tests[k].place] = kept;
    }
    other[ELCHEPUR_TOTALS_LINES] = 65533;
    other[ELCHEPUR_TOTALS_STATUS0] = 65532;
    same("just as many lines as are taken", elchepur_totals_join(one, other, joined), 0);
    other[ELCHEPUR_TOTALS_LINES]++;
    other[ELCHEPUR_TOTALS_STATUS0]++;
    same("one more", elchepur_totals_join(one, other, joined), ELCHEPUR_REFUSED_MANY_LINES);
}

// One amount that stays at k from k to k + 1: 50 steps, of which two give up their room.
static void shelves(void) {
    double room[192], ends[96], cont[4] = {0}, got[1] = {7};
    const double nan = double_of(UINT64_C(0x7ff8000000000000)), asked[] = {2, 2.5, 49, 50, 1.5, 50.5}, *x = asked;
    const double amounts[] = {2, 2, 49, 49};
    size_t shelf[ELCHEPUR_SHELF] = {7, 7}, unfit[ELCHEPUR_SHELF] = {0, 48};
    elchepur_empty_shelf(shelf);
    same("the steps of an empty shelf", shelf[0], 0);
    same("its place", shelf[1], 0);
    same("an empty shelf asked", elchepur_ask_shelf(shelf, 0.0, got, 1, room, 192, ends, 96), ELCHEPUR_REFUSED_POINT);
    for (size_t k = 0; k < 50; k++) {
        cont[0] = (double)k;
        same("a step", elchepur_put_on_shelf(shelf, cont, 4, cont[0], 1.0, room, 192, ends, 96), 0);
    }
    same("the steps of a full shelf", shelf[0], ELCHEPUR_SHELF_STEPS);
    same("its place", shelf[1], 2);
    for (size_t k = 0; k < 4; k++, x++) {
        same("a past point", elchepur_ask_shelf(shelf, *x, got, 1, room, 192, ends, 96), 0);
        doubles("its amount", got, amounts + k, 1);
    }
    for (size_t k = 0; k < 2; k++, x++)
        same("a point of no step", elchepur_ask_shelf(shelf, *x, got, 1, room, 192, ends, 96), ELCHEPUR_REFUSED_POINT);
    same("a NaN", elchepur_ask_shelf(shelf, nan, got, 1, room, 192, ends, 96), ELCHEPUR_REFUSED_POINT);
    same("what was left", bits_of(got[0]), bits_of(49.0));
    same("no shelf", elchepur_ask_shelf(unfit, 2.0, got, 1, room, 192, ends, 96), ELCHEPUR_REFUSED_UNFIT);
    same("no shelf", elchepur_put_on_shelf(unfit, cont, 4, 0.0, 1.0, room, 192, ends, 96), ELCHEPUR_REFUSED_UNFIT);
    same("a short room", elchepur_ask_shelf(unfit, 2.0, got, 1, room, 191, ends, 96), ELCHEPUR_REFUSED_PART);
    same("three coefficients", elchepur_put_on_shelf(shelf, cont, 3, 0.0, 1.0, room, 144, ends, 96),
         ELCHEPUR_REFUSED_PART);
    same("short ends", elchepur_put_on_shelf(shelf, cont, 4, 0.0, 1.0, room, 192, ends, 95), ELCHEPUR_REFUSED_PART);
}

// --- Points as CSV -------------------------------------------------------------------------------

// A line of so many bytes fits a buffer that has them, its CRLF counted, and leaves what stands behind it.
static void line(const char *words, const char *wanted, double x, const double *amounts, size_t n, int is_header) {
    uint8_t out[64];
    size_t length = strlen(wanted), written = 9;
    memset(out, 7, sizeof out);
    for (size_t room = 0; room < length; room++) {
        same(words, is_header ? elchepur_csv_header(n, out, room, &written)
                              : elchepur_csv_record(x, amounts, n, out, room, &written), ELCHEPUR_REFUSED_BUFFER);
        same("the length of a line that doesn't fit", written, 9);
        for (size_t k = 0; k < sizeof out; k++) same("a byte of a line that doesn't fit", out[k], 7);
    }
    same(words, is_header ? elchepur_csv_header(n, out, length, &written)
                          : elchepur_csv_record(x, amounts, n, out, length, &written), 0);
    same("the length of a line", written, length);
    same("the bytes of a line", (uint64_t)memcmp(out, wanted, length), 0);
    for (size_t k = length; k < sizeof out; k++) same("a byte behind a line", out[k], 7);
}

static void tables(void) {
    double many[33] = {0}, two[] = {-0.0, 3.0}, ends[] = {1.0 / elchepur_abs(0.0), double_of(1)};
    double nan = double_of(UINT64_C(0xfff8000000000001));
    uint8_t out[ELCHEPUR_CSV_MOST];
    size_t written = 9;
    line("a header", "x,y1,y2,y3\r\n", 0.0, NULL, 3, 1);
    line("a record", "0x1.999999999999ap-4,-0x0p+0,0x1.8p+1\r\n", 0.1, two, 2, 0);
    line("a record of ends", "nan,inf,0x0.0000000000001p-1022\r\n", nan, ends, 2, 0);
    same("a header of no amounts", elchepur_csv_header(0, out, 0, &written), ELCHEPUR_REFUSED_ORDER);
    same("a header of 33 amounts", elchepur_csv_header(33, out, 0, &written), ELCHEPUR_REFUSED_ORDER);
    same("a record of no amounts", elchepur_csv_record(1.0, many, 0, out, 0, &written), ELCHEPUR_REFUSED_ORDER);
    same("a record of 33 amounts", elchepur_csv_record(1.0, many, 33, out, 0, &written), ELCHEPUR_REFUSED_ORDER);
    same("the length that a refusal leaves", written, 9);
    same("a header of 32 amounts", elchepur_csv_header(32, out, sizeof out, &written), 0);
    same("its length", written, 122);
    for (size_t k = 0; k < 32; k++) many[k] = double_of(UINT64_C(0x801fffffffffffff));
    same("the longest record", elchepur_csv_record(many[0], many, 32, out, sizeof out, &written), 0);
    same("its length", written, ELCHEPUR_CSV_MOST);
}

int main(void) {
    scalars();
    matrices();
    dense();
    defaults();
    openings();
    sheets();
    nights();
    depots();
    shelves();
    tables();
    printf("%d answers of single calls, %d wrong\n", seen, wrong);
    return wrong != 0;
}
