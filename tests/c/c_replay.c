// Replays the stored runs of the Rust's own `solve` through include/elchepur.h: every reply of the Rust's host goes to
// elchepur_advance, and every request, with all 22 parts, and every result must be the Rust's.
// Beside each right reply it tries what is to be refused, and sees that nothing was written.
#include "c_stored.h"

struct run {
    struct elchepur_memory m;
    struct elchepur_state state;
    uint64_t numbers[ELCHEPUR_NUMBERS], told[ELCHEPUR_TOLD];
    double floats[ELCHEPUR_FLOATS], at[ELCHEPUR_AT];
    double doubles[ELCHEPUR_DOUBLES(ELCHEPUR_MOST)];
    size_t pivots[ELCHEPUR_PIVOTS(ELCHEPUR_MOST)];
};

enum { STAGE_COLUMN = 4, STAGE_ENDED = 12 };

static uint64_t refusals, advances, nan_steps;

// --- What is refused -----------------------------------------------------------------------------

static struct elchepur_memory copied(const struct run *run, struct run *copy) {
    size_t n = run->m.n;
    memcpy(copy->doubles, run->doubles, ELCHEPUR_DOUBLES(n) * sizeof(double));
    memcpy(copy->pivots, run->pivots, ELCHEPUR_PIVOTS(n) * sizeof(size_t));
    return elchepur_host_parts(n, copy->doubles, copy->pivots);
}

// An advance that is to be refused leaves everything as it was.
static void refused(const struct run *run, const struct elchepur_state *state, uint64_t reply, uint64_t number) {
    static struct run copy;
    struct elchepur_memory m = copied(run, &copy);
    copy.state = *state;
    memcpy(copy.told, run->told, sizeof copy.told);
    memcpy(copy.at, run->at, sizeof copy.at);
    same("a refusal", elchepur_advance(ELCHEPUR_STATE(copy.state), reply, 0.5, copy.told, copy.at, ELCHEPUR_PARTS(m)),
         number);
    same("that a refused advance wrote the state", memcmp(&copy.state, state, sizeof copy.state) != 0, 0);
    same("that a refused advance wrote the request", memcmp(copy.told, run->told, sizeof copy.told) != 0, 0);
    same("that a refused advance wrote the points", memcmp(copy.at, run->at, sizeof copy.at) != 0, 0);
    same("that a refused advance wrote a part",
         memcmp(copy.doubles, run->doubles, ELCHEPUR_DOUBLES(m.n) * sizeof(double)) != 0, 0);
    same("that a refused advance wrote a pivot",
         memcmp(copy.pivots, run->pivots, ELCHEPUR_PIVOTS(m.n) * sizeof(size_t)) != 0, 0);
    refusals++;
}

static void no_result(const struct elchepur_state *state, uint64_t number) {
    uint64_t counts[ELCHEPUR_RESULT_NUMBERS] = {9, 9, 9, 9, 9, 9, 9, 9, 9};
    double floats[ELCHEPUR_RESULT_FLOATS] = {9.0, 9.0, 9.0, 9.0};
    same("the refusal of a result", elchepur_result(ELCHEPUR_STATE(*state), counts, floats), number);
    for (size_t k = 0; k < ELCHEPUR_RESULT_NUMBERS; k++) same("a count of a refused result", counts[k], 9);
    for (size_t k = 0; k < ELCHEPUR_RESULT_FLOATS; k++) same("a float of a refused result", bits_of(floats[k]),
                                                             bits_of(9.0));
}

// The places of a state that 13 looks at in a run that has not ended, each with a number that it refuses.
static const struct { size_t place; size_t number; } UNFIT[] = {
    {ELCHEPUR_WORD_ODE, SIZE_MAX}, {ELCHEPUR_WORD_JAC, SIZE_MAX}, {ELCHEPUR_WORD_LU, SIZE_MAX},
    {ELCHEPUR_WORD_ACCEPTED, SIZE_MAX}, {ELCHEPUR_WORD_REJECTED, SIZE_MAX}, {ELCHEPUR_WORD_NEWT_ITER, 17},
    {ELCHEPUR_WORD_N, 0}, {ELCHEPUR_WORD_N, 33}, {ELCHEPUR_WORD_NIND1, SIZE_MAX}, {ELCHEPUR_WORD_NIND2, SIZE_MAX},
    {ELCHEPUR_WORD_NIND3, SIZE_MAX}, {ELCHEPUR_WORD_MAX_STEPS, 0}, {ELCHEPUR_WORD_MAX_STEPS, 1000001},
    {ELCHEPUR_WORD_NEWTON_MAXITER, 0}, {ELCHEPUR_WORD_NEWTON_MAXITER, 17}, {ELCHEPUR_WORD_TOTAL, SIZE_MAX},
    {ELCHEPUR_WORD_SINGULAR_COUNT, 6},
};
enum { UNFITS = sizeof UNFIT / sizeof *UNFIT, LOOKED_AT_BEFORE_THE_END = 2 };

static const struct { size_t place; double number; } UNFIT_DOUBLES[] = {
    {ELCHEPUR_DOUBLE_UROUND, 1.0}, {ELCHEPUR_DOUBLE_SAFETY_FACTOR, 1.0}, {ELCHEPUR_DOUBLE_SCALE_MIN, 0.0},
    {ELCHEPUR_DOUBLE_SCALE_MAX, 0.0}, {ELCHEPUR_DOUBLE_SMALLEST, -1e-300}, {ELCHEPUR_DOUBLE_LARGEST, -1.0},
};
enum { UNFIT_DOUBLES_COUNT = sizeof UNFIT_DOUBLES / sizeof *UNFIT_DOUBLES };

// One number of the state, another with each request, is made one that 13 refuses.
static void unfit(const struct run *run) {
    struct elchepur_state state = run->state;
    int ended = run->told[ELCHEPUR_TOLD_KIND] == ELCHEPUR_KIND_ENDED;
    size_t k = requests % (UNFITS + UNFIT_DOUBLES_COUNT);
    if (ended && k >= UNFITS - LOOKED_AT_BEFORE_THE_END && k < UNFITS) return;
    if (k < UNFITS) state.words[UNFIT[k].place] = UNFIT[k].number;
    else state.doubles[UNFIT_DOUBLES[k - UNFITS].place] = UNFIT_DOUBLES[k - UNFITS].number;
    if (k >= UNFITS) state.words[ELCHEPUR_WORD_STRIDES] = 1;
    refused(run, &state, ELCHEPUR_REPLY_FILLED, ELCHEPUR_REFUSED_UNFIT);
}

// --- Any words are a state -----------------------------------------------------------------------

static const size_t CHOICES[] = {
    ELCHEPUR_WORD_FIRST, ELCHEPUR_WORD_LAST, ELCHEPUR_WORD_REJECT, ELCHEPUR_WORD_CALL_JAC, ELCHEPUR_WORD_CALL_DECOMP,
    ELCHEPUR_WORD_MARKED, ELCHEPUR_WORD_LISTS, ELCHEPUR_WORD_PREDICTIVE, ELCHEPUR_WORD_MASS, ELCHEPUR_WORD_SOURCE,
    ELCHEPUR_WORD_DENSE_OUTPUT, ELCHEPUR_WORD_RULE, ELCHEPUR_WORD_HAS_MAX_STEP, ELCHEPUR_WORD_HAS_MIN_STEP,
    ELCHEPUR_WORD_HAS_NEWTON_TOL, ELCHEPUR_WORD_HAS_FIRST_STEP, ELCHEPUR_WORD_HAS_NIND1, ELCHEPUR_WORD_HAS_NIND2,
    ELCHEPUR_WORD_HAS_NIND3, ELCHEPUR_WORD_MADE_HERE, ELCHEPUR_WORD_STRIDES,
};

// What stands behind a choice of 0 is not looked at.
static const struct { size_t choice, place; } ABSENT[] = {
    {ELCHEPUR_WORD_MARKED, ELCHEPUR_DOUBLE_XOUT}, {ELCHEPUR_WORD_HAS_MAX_STEP, ELCHEPUR_DOUBLE_GIVEN_MAX_STEP},
    {ELCHEPUR_WORD_HAS_MIN_STEP, ELCHEPUR_DOUBLE_GIVEN_MIN_STEP},
    {ELCHEPUR_WORD_HAS_NEWTON_TOL, ELCHEPUR_DOUBLE_GIVEN_NEWTON_TOL},
    {ELCHEPUR_WORD_HAS_FIRST_STEP, ELCHEPUR_DOUBLE_GIVEN_FIRST_STEP},
    {ELCHEPUR_WORD_STRIDES, ELCHEPUR_DOUBLE_SMALLEST}, {ELCHEPUR_WORD_STRIDES, ELCHEPUR_DOUBLE_LARGEST},
};

// The same state in other words: each choice by another number, and rubbish wherever nothing is looked at.
static struct elchepur_state in_other_words(struct elchepur_state state) {
    for (size_t k = 0; k < sizeof ABSENT / sizeof *ABSENT; k++)
        if (!state.words[ABSENT[k].choice]) state.doubles[ABSENT[k].place] = -7.5;
    for (size_t k = ELCHEPUR_WORD_HAS_NIND1; k <= ELCHEPUR_WORD_HAS_NIND3; k += 2)
        if (!state.words[k]) state.words[k + 1] = SIZE_MAX;
    if (state.words[ELCHEPUR_WORD_LISTS])
        state.doubles[ELCHEPUR_DOUBLE_RTOL] = state.doubles[ELCHEPUR_DOUBLE_ATOL] = -7.5;
    for (size_t k = 0; k < sizeof CHOICES / sizeof *CHOICES; k++)
        if (state.words[CHOICES[k]]) state.words[CHOICES[k]] = SIZE_MAX - (requests + k) % 1000;
    if (state.words[ELCHEPUR_WORD_SINGULAR] == ELCHEPUR_SINGULAR_NONE) {
        state.words[ELCHEPUR_WORD_SINGULAR] = 3 + requests % 1000;
        state.words[ELCHEPUR_WORD_COLUMN] = SIZE_MAX;
    }
    size_t stage = state.words[ELCHEPUR_WORD_STAGE];
    if (stage == 0) state.words[ELCHEPUR_WORD_STAGE] = 13 + requests % 1000;
    if (stage != STAGE_COLUMN && stage != STAGE_ENDED) state.words[ELCHEPUR_WORD_PART] = SIZE_MAX;
    return state;
}

// It is advanced to the very state, request and parts to which the right reply led.
static void alike(const struct run *before, const struct run *after, uint64_t reply, double value) {
    static struct run copy;
    struct elchepur_memory m = copied(before, &copy);
    copy.state = in_other_words(before->state);
    same("an advance in other words", elchepur_advance(ELCHEPUR_STATE(copy.state), reply, value, copy.told, copy.at,
                                                       ELCHEPUR_PARTS(m)), 0);
    same("the words that it leaves", memcmp(copy.state.words, after->state.words, sizeof copy.state.words) != 0, 0);
    for (size_t k = 0; k < ELCHEPUR_STATE_DOUBLES; k++)
        same("a double that it leaves", bits_of(copy.state.doubles[k]), bits_of(after->state.doubles[k]));
    same("its request", memcmp(copy.told, after->told, sizeof copy.told) != 0, 0);
    same("its parts", memcmp(copy.doubles, after->doubles, ELCHEPUR_DOUBLES(m.n) * sizeof(double)) != 0, 0);
    same("its pivots", memcmp(copy.pivots, after->pivots, ELCHEPUR_PIVOTS(m.n) * sizeof(size_t)) != 0, 0);
    advances++;
}

// A step that is no number is forged, which nothing refuses: where its attempt is accepted, the strides stay as they
// were, none and some.
static void nan_step(const struct run *before, uint64_t reply, double value) {
    static struct run copy;
    for (size_t some = 0; some < 2; some++) {
        struct elchepur_memory m = copied(before, &copy);
        copy.state = before->state;
        copy.state.doubles[ELCHEPUR_DOUBLE_H] = elchepur_sqrt(-1.0);
        copy.state.words[ELCHEPUR_WORD_STRIDES] = some;
        copy.state.doubles[ELCHEPUR_DOUBLE_SMALLEST] = 0.5;
        copy.state.doubles[ELCHEPUR_DOUBLE_LARGEST] = 2.0;
        same("an advance with a step that is no number", elchepur_advance(ELCHEPUR_STATE(copy.state), reply, value,
                                                                         copy.told, copy.at, ELCHEPUR_PARTS(m)), 0);
        if (copy.state.words[ELCHEPUR_WORD_ACCEPTED] == before->state.words[ELCHEPUR_WORD_ACCEPTED]) return;
        same("whether there are strides", copy.state.words[ELCHEPUR_WORD_STRIDES], some);
        same("the smallest", bits_of(copy.state.doubles[ELCHEPUR_DOUBLE_SMALLEST]), bits_of(some ? 0.5 : 0.0));
        same("the largest", bits_of(copy.state.doubles[ELCHEPUR_DOUBLE_LARGEST]), bits_of(some ? 2.0 : 0.0));
        nan_steps++;
    }
}

static void wrong_replies(const struct run *run) {
    uint64_t kind = run->told[ELCHEPUR_TOLD_KIND];
    int ended = kind == ELCHEPUR_KIND_ENDED, report = kind == ELCHEPUR_KIND_REPORT;
    for (uint64_t reply = 0; reply < 8; reply++) {
        int right = report ? reply >= ELCHEPUR_REPLY_CONTINUE && reply <= ELCHEPUR_REPLY_MARK
            : reply == ELCHEPUR_REPLY_FILLED;
        if (ended) refused(run, &run->state, reply, ELCHEPUR_REFUSED_HAS_ENDED);
        else if (!right) refused(run, &run->state, reply, ELCHEPUR_REFUSED_REPLY);
    }
    if (!ended) no_result(&run->state, ELCHEPUR_REFUSED_NOT_ENDED);
}

// --- A run ---------------------------------------------------------------------------------------

// Reads an opening and opens it. Gives the number of its requests.
static uint64_t opened(struct run *run, size_t n) {
    static struct stored_opening read;
    struct elchepur_problem *problem = &read.problem;
    struct elchepur_memory *m = &run->m;
    read_opening(&read, n);
    memset(run, 0, sizeof *run);
    *m = elchepur_host_parts(n, run->doubles, run->pivots);
    memcpy(run->numbers, problem->numbers, sizeof run->numbers);
    memcpy(run->floats, problem->floats, sizeof run->floats);
    memcpy(m->y, read.y, n * sizeof *m->y);
    if (problem->mass) memcpy(m->mass, read.mass, n * n * sizeof *m->mass);
    if (problem->rtols) memcpy(m->rtol, read.rtol, n * sizeof *m->rtol);
    if (problem->atols) memcpy(m->atol, read.atol, n * sizeof *m->atol);
    same("an opening",
         elchepur_open(run->numbers, run->floats, n, problem->x0, problem->xend, problem->rtols != NULL, problem->rtol,
                       problem->atol, ELCHEPUR_STATE(run->state), run->told, run->at, ELCHEPUR_PARTS(*m)),
         0);
    return read.count;
}

// Reads what was asked, and compares the request that is open with it. Gives the Rust's reply.
static uint64_t met(const struct run *run) {
    uint64_t head = word(), kind = head >> 12;
    same("the kind", run->told[ELCHEPUR_TOLD_KIND], kind);
    same("the place", run->told[ELCHEPUR_TOLD_PLACE], head >> 8 & 15);
    same("the flag", run->told[ELCHEPUR_TOLD_FLAG], head >> 4 & 15);
    same("the hash of all parts", hash_of(&run->m), word());
    if (kind == ELCHEPUR_KIND_ENDED) {
        same("the first point of an end", bits_of(run->at[0]), 0);
        same("the second point of an end", bits_of(run->at[1]), 0);
    } else {
        uint64_t first = word();
        same("the first point", bits_of(run->at[0]), first);
        same("the second point", bits_of(run->at[1]), kind == ELCHEPUR_KIND_REPORT ? word() : first);
    }
    return head & 15;
}

static double *part_to_fill(const struct run *run) {
    const double *from;
    if (run->told[ELCHEPUR_TOLD_KIND] == ELCHEPUR_KIND_JACOBIAN) return run->m.jac;
    return elchepur_host_place(&run->m, run->told[ELCHEPUR_TOLD_PLACE], &from);
}

// Reads the Rust's reply, writes what it wrote, and advances.
static void advanced(struct run *run, uint64_t reply) {
    static struct run before;
    size_t n = run->m.n;
    double value = 0.0;
    if (reply == ELCHEPUR_REPLY_FILLED) words_into(part_to_fill(run),
                                                   run->told[ELCHEPUR_TOLD_KIND] == ELCHEPUR_KIND_JACOBIAN ? n * n : n);
    if (reply == ELCHEPUR_REPLY_MODIFIED || reply == ELCHEPUR_REPLY_MARK) value = double_of(word());
    if (reply == ELCHEPUR_REPLY_MODIFIED) words_into(run->m.y, n);
    before = *run;
    same("an advance",
         elchepur_advance(ELCHEPUR_STATE(run->state), reply, value, run->told, run->at, ELCHEPUR_PARTS(run->m)), 0);
    alike(&before, run, reply, value);
    if (run->state.words[ELCHEPUR_WORD_ACCEPTED] > before.state.words[ELCHEPUR_WORD_ACCEPTED])
        nan_step(&before, reply, value);
}

// A column that no matrix of the run has is no refusal: the result shows it with status 5, and nothing with others.
static void forged_column(struct elchepur_state state) {
    int blames = state.words[ELCHEPUR_WORD_PART] == ELCHEPUR_STATUS_SINGULAR_MATRIX;
    uint64_t counts[ELCHEPUR_RESULT_NUMBERS];
    double floats[ELCHEPUR_RESULT_FLOATS];
    state.words[ELCHEPUR_WORD_SINGULAR] = ELCHEPUR_SINGULAR_COMPLEX;
    state.words[ELCHEPUR_WORD_COLUMN] = SIZE_MAX;
    same("a result with a forged column", elchepur_result(ELCHEPUR_STATE(state), counts, floats), 0);
    same("its matrix", counts[ELCHEPUR_RESULT_SINGULAR], blames ? ELCHEPUR_SINGULAR_COMPLEX : ELCHEPUR_SINGULAR_NONE);
    same("its column", counts[ELCHEPUR_RESULT_COLUMN], blames ? SIZE_MAX : 0);
}

// Whatever the two doubles of the strides are, the result shows them, and +0 where none is said to be there.
static void forged_strides(struct elchepur_state state) {
    uint64_t counts[ELCHEPUR_RESULT_NUMBERS];
    double floats[ELCHEPUR_RESULT_FLOATS];
    state.doubles[ELCHEPUR_DOUBLE_SMALLEST] = elchepur_sqrt(-1.0);
    state.doubles[ELCHEPUR_DOUBLE_LARGEST] = -7.5;
    for (size_t k = 0; k < 3; k++) {
        state.words[ELCHEPUR_WORD_STRIDES] = k * k * k;
        same("a result with forged strides", elchepur_result(ELCHEPUR_STATE(state), counts, floats), 0);
        same("its smallest", floats[ELCHEPUR_RESULT_SMALLEST] != floats[ELCHEPUR_RESULT_SMALLEST], k > 0);
        same("its largest", bits_of(floats[ELCHEPUR_RESULT_LARGEST]), bits_of(k ? -7.5 : 0.0));
    }
}

static void met_end(const struct run *run) {
    static const size_t order[] = {ELCHEPUR_RESULT_ODE, ELCHEPUR_RESULT_JAC, ELCHEPUR_RESULT_LU, ELCHEPUR_RESULT_TOTAL,
        ELCHEPUR_RESULT_ACCEPTED, ELCHEPUR_RESULT_REJECTED, ELCHEPUR_RESULT_SINGULAR, ELCHEPUR_RESULT_COLUMN};
    uint64_t counts[ELCHEPUR_RESULT_NUMBERS];
    double floats[ELCHEPUR_RESULT_FLOATS];
    same("a result", elchepur_result(ELCHEPUR_STATE(run->state), counts, floats), 0);
    same("the status", counts[ELCHEPUR_RESULT_STATUS], run->told[ELCHEPUR_TOLD_FLAG]);
    same("the held step", bits_of(elchepur_held_step(ELCHEPUR_STATE(run->state))), bits_of(floats[ELCHEPUR_RESULT_H]));
    same("h", bits_of(floats[ELCHEPUR_RESULT_H]), word());
    same("x", bits_of(floats[ELCHEPUR_RESULT_X]), word());
    for (size_t k = 0; k < sizeof order / sizeof *order; k++) same("a count", counts[order[k]], word());
    same("the smallest stride", bits_of(floats[ELCHEPUR_RESULT_SMALLEST]), word());
    same("the largest stride", bits_of(floats[ELCHEPUR_RESULT_LARGEST]), word());
    forged_column(run->state);
    forged_strides(run->state);
}

static void replay(struct run *run, uint64_t count) {
    for (uint64_t k = 1; k <= count; k++) {
        uint64_t reply = met(run);
        requests++;
        unfit(run);
        wrong_replies(run);
        same("whether the run has ended", run->told[ELCHEPUR_TOLD_KIND] == ELCHEPUR_KIND_ENDED, k == count);
        if (k == count) met_end(run);
        else advanced(run, reply);
    }
}

int main(void) {
    static struct run run;
    uint64_t n;
    while (scanf("%" SCNx64, &n) == 1) {
        if (n < 1 || n > ELCHEPUR_MOST) stop("a stored run has no order", n);
        runs++;
        replay(&run, opened(&run, n));
    }
    same("that a step was accepted that is no number", nan_steps > 0, 1);
    printf("%" PRIu64 " runs of the Rust with %" PRIu64 " requests agree, %" PRIu64 " advances refused, %" PRIu64
           " made again in other words\n", runs, requests, refusals, advances);
    return 0;
}
