// The stored runs of the Rust's own `solve` (crates/replay_run/stdin, laid out as tests/replays/replay_run.py says),
// read from standard input by the programs that replay them.
#include "c_host.h"

// The bits of a run's choices.
enum {
    MAX_STEP, MIN_STEP, NEWTON_TOL, FIRST_STEP, NIND1, NIND2, NIND3, PREDICTIVE, DENSE_OUTPUT, FULL, HOST, BOOK, LISTS
};

static uint64_t runs, requests;

static void same(const char *words, uint64_t got, uint64_t wanted) {
    if (got == wanted) return;
    fprintf(stderr, "run %" PRIu64 ", request %" PRIu64 " of all: ", runs, requests);
    fprintf(stderr, "%s is %" PRIx64 " and is to be %" PRIx64 "\n", words, got, wanted);
    exit(1);
}

static uint64_t word(void) {
    uint64_t read;
    if (scanf("%" SCNx64, &read) != 1) stop("the stored runs end within a run", runs);
    return read;
}

static void words_into(double *part, size_t count) {
    for (size_t i = 0; i < count; i++) part[i] = double_of(word());
}

// --- An opening ----------------------------------------------------------------------------------

struct stored_opening {
    struct elchepur_problem problem;
    uint64_t choices, count;
    double y[ELCHEPUR_MOST], rtol[ELCHEPUR_MOST], atol[ELCHEPUR_MOST], mass[ELCHEPUR_MOST * ELCHEPUR_MOST];
};

static void set_choices(uint64_t *numbers, uint64_t choices) {
    numbers[ELCHEPUR_NUMBER_PREDICTIVE] = choices >> PREDICTIVE & 1;
    numbers[ELCHEPUR_NUMBER_DENSE_OUTPUT] = choices >> DENSE_OUTPUT & 1;
    numbers[ELCHEPUR_NUMBER_MASS] = choices >> FULL & 1;
    numbers[ELCHEPUR_NUMBER_SOURCE] = !(choices >> HOST & 1);
    numbers[ELCHEPUR_NUMBER_RULE] = choices >> BOOK & 1;
    for (size_t k = MAX_STEP; k <= FIRST_STEP; k++) numbers[ELCHEPUR_NUMBER_MAX_STEP_GIVEN + k] = choices >> k & 1;
    for (size_t k = NIND1; k <= NIND3; k++) numbers[ELCHEPUR_NUMBER_NIND1_GIVEN + 2 * (k - NIND1)] = choices >> k & 1;
}

// Reads an opening of n amounts, and how many requests follow it.
static void read_opening(struct stored_opening *read, size_t n) {
    struct elchepur_problem *problem = &read->problem;
    memset(read, 0, sizeof *read);
    problem->n = n;
    problem->y0 = read->y;
    problem->x0 = double_of(word());
    problem->xend = double_of(word());
    read->choices = word();
    set_choices(problem->numbers, read->choices);
    problem->numbers[ELCHEPUR_NUMBER_MAX_STEPS] = word();
    problem->numbers[ELCHEPUR_NUMBER_NEWTON_MAXITER] = word();
    words_into(problem->floats, ELCHEPUR_FLOATS);
    problem->rtol = double_of(word());
    problem->atol = double_of(word());
    for (size_t k = 0; k < 3; k++) problem->numbers[ELCHEPUR_NUMBER_NIND1 + 2 * k] = word();
    read->count = word();
    words_into(read->y, n);
    if (read->choices >> FULL & 1) words_into(read->mass, n * n);
    if (read->choices >> FULL & 1) problem->mass = read->mass;
    if (!(read->choices >> LISTS & 1)) return;
    words_into(read->rtol, n);
    words_into(read->atol, n);
    problem->rtols = read->rtol;
    problem->atols = read->atol;
}

// --- All parts as one word -----------------------------------------------------------------------

// As tests/replays/runs.rs has it.
static uint64_t with_word(uint64_t hash, uint64_t word) {
    hash += word;
    hash += hash << 25;
    return hash + (hash >> 31);
}

static uint64_t with_part(uint64_t hash, const double *part, size_t count) {
    for (size_t i = 0; i < count; i++) hash = with_word(hash, bits_of(part[i]));
    return hash;
}

static uint64_t hash_of(const struct elchepur_memory *m) {
    size_t n = m->n, nn = n * n;
    const double *before[] = {m->y, m->f0, m->scal, m->cont, m->z1, m->z2, m->z3, m->f1, m->f2, m->f3,
                              m->rtol, m->atol, m->mass, m->jac, m->e1, m->e2r, m->e2i};
    size_t counts[] = {n, n, n, 4 * n, n, n, n, n, n, n, n, n, nn, nn, nn, nn, nn};
    uint64_t hash = 0;
    for (size_t k = 0; k < sizeof counts / sizeof *counts; k++) hash = with_part(hash, before[k], counts[k]);
    for (size_t i = 0; i < 2 * n; i++) hash = with_word(hash, m->ip1[i]);
    hash = with_part(hash, m->y_perturbed, n);
    hash = with_part(hash, m->f_perturbed, n);
    return with_part(hash, m->f_origin, n);
}
