/* Elchepur for hosts: what every program over elchepur.h writes again, for C99 and C++. There is nothing more to link.
 *
 * The host says in callbacks what the derivative is, and if it likes the Jacobian and what to do at a report;
 * elchepur_host_run opens a run, answers each request with them, and gives the end. Nothing in this file is proved;
 * every step is taken by the proved calls of elchepur.h, and a refusal of theirs comes back with its number.
 *
 * An example, whole. Of 10 units that decay at a rate of 2 it prints what is left at x = 0.5, read off the step that
 * goes past it, and at x = 1: `0.5: 3.6788`, `1: 1.3534`.
 *
 *     #include "elchepur_host.h"
 *     #include <stdio.h>
 *
 *     static int decay(void *user, double x, const double *y, double *f) {
 *         (void)x;
 *         f[0] = -*(double *)user * y[0];
 *         return 0;
 *     }
 *
 *     static uint64_t halfway(void *user, struct elchepur_report *at) {
 *         double y[1];
 *         (void)user;
 *         if (elchepur_host_covers(at, 0.5) && elchepur_host_amounts(at, 0.5, y)) printf("0.5: %.4f\n", y[0]);
 *         return ELCHEPUR_REPLY_CONTINUE;
 *     }
 *
 *     int main(void) {
 *         double rate = 2.0, y0[] = {10.0}, doubles[ELCHEPUR_DOUBLES(1)];
 *         size_t pivots[ELCHEPUR_PIVOTS(1)];
 *         struct elchepur_memory memory = elchepur_host_parts(1, doubles, pivots);
 *         struct elchepur_host host = {&rate, decay, NULL, halfway};
 *         struct elchepur_problem problem = elchepur_host_problem(1, 0.0, 1.0, y0, 1e-8, 1e-10);
 *         struct elchepur_outcome outcome;
 *         if (elchepur_host_run(&problem, &host, &memory, &outcome) != ELCHEPUR_HOST_SUCCEEDED) return 1;
 *         printf("1: %.4f\n", outcome.y[0]);
 *         return 0;
 *     }
 */
#ifndef ELCHEPUR_HOST_H
#define ELCHEPUR_HOST_H

#include "elchepur.h"

/* The answer of a run must be looked at: a compiler that can warns where it is not. */
#if defined(__GNUC__)
#define ELCHEPUR_HOST_LOOK __attribute__((warn_unused_result))
#else
#define ELCHEPUR_HOST_LOOK
#endif

/* ---- What a host brings ---- */

/* A point that a run reached: the first, and one for each accepted step. */
struct elchepur_report {
    size_t n;
    double xold, x;      /* the point before and the one reached; at the first report both are the start */
    const double *y;     /* the n amounts at x */
    const double *cont;  /* the coefficients of the step, or null where none are offered */
    double h;            /* the step that they belong to; under the Rust rule it need not be x - xold */
    double value;        /* written for MODIFIED, the new x, and for MARK, the mark; x before */
    double *new_y;       /* written for MODIFIED, the new amounts, and else not looked at; those of y before */
};

/* The callbacks, with a pointer for whatever they need. A derivative or a Jacobian that can't be made answers any
 * number but 0: the run is then given up, and that number handed back. */
struct elchepur_host {
    void *user;
    /* Writes the derivative at x and the n amounts y into the n entries of f. It must be there. */
    int (*derivative)(void *user, double x, const double *y, double *f);
    /* Writes the Jacobian of the derivative there into jac, n rows of n. Null: it is made by differences. */
    int (*jacobian)(void *user, double x, const double *y, double *jac);
    /* Answers ELCHEPUR_REPLY_CONTINUE, _INTERRUPT, _MODIFIED or _MARK; any other number is refused with 15. Null: it
     * always continues. */
    uint64_t (*report)(void *user, struct elchepur_report *at);
};

/* What a run is opened with. elchepur_host_problem fills it in; the settings and the last three are for the host to
 * change after that. */
struct elchepur_problem {
    size_t n;
    double x0, xend;
    const double *y0;
    double rtol, atol;
    uint64_t numbers[ELCHEPUR_NUMBERS];  /* what stands at MASS and SOURCE is not looked at: see mass and jacobian */
    double floats[ELCHEPUR_FLOATS];
    const double *rtols, *atols;  /* lists of n tolerances, or null; beside one list the other scalar stands n times */
    const double *mass;           /* n rows of n, or null for the identity */
};

/* ---- How a run ended: what elchepur_host_run answers, and what it writes ---- */

enum {
    ELCHEPUR_HOST_SUCCEEDED = 0,    /* status 0, and nothing else is */
    ELCHEPUR_HOST_INTERRUPTED = 1,  /* status 1: a report was answered with INTERRUPT */
    ELCHEPUR_HOST_BROKEN_OFF = 2,   /* any other status: the end was not reached */
    ELCHEPUR_HOST_REFUSED = 3,      /* a call refused; there is no result */
    ELCHEPUR_HOST_GIVEN_UP = 4      /* a callback gave up; there is no result */
};

struct elchepur_outcome {
    uint64_t refused;  /* the number of the refusal, else 0 */
    int given_up;      /* what the callback answered that gave up, else 0 */
    uint64_t numbers[ELCHEPUR_RESULT_NUMBERS];  /* those of the result; without one each is the largest number */
    double floats[ELCHEPUR_RESULT_FLOATS];      /* the doubles of the result; without one each is NaN */
    const double *y;        /* the amounts at the end of a run that succeeded; else null */
    const double *reached;  /* those where it ended, at floats[ELCHEPUR_RESULT_X]; null without a result */
};

/* A run between two calls: it holds no address, and may be stored with the parts and taken up later. */
struct elchepur_talk {
    struct elchepur_state state;
    uint64_t told[ELCHEPUR_TOLD];
    double at[ELCHEPUR_AT];
    uint64_t reply;
    double value;
};

/* ---- The 22 parts ---- */

/* The parts of n amounts, cut from ELCHEPUR_DOUBLES(n) doubles and ELCHEPUR_PIVOTS(n) pivots. */
static inline struct elchepur_memory elchepur_host_parts(size_t n, double *doubles, size_t *pivots) {
    struct elchepur_memory m;
    double **vectors[] = {&m.y, &m.f0, &m.scal, &m.z1, &m.z2, &m.z3, &m.f1, &m.f2, &m.f3, &m.rtol, &m.atol,
                          &m.y_perturbed, &m.f_perturbed, &m.f_origin};
    double **matrices[] = {&m.mass, &m.jac, &m.e1, &m.e2r, &m.e2i};
    m.n = n;
    for (size_t k = 0; k < sizeof vectors / sizeof *vectors; k++, doubles += n) *vectors[k] = doubles;
    for (size_t k = 0; k < sizeof matrices / sizeof *matrices; k++, doubles += n * n) *matrices[k] = doubles;
    m.cont = doubles;
    m.ip1 = pivots;
    m.ip2 = pivots + n;
    return m;
}

/* How many bytes all parts of n amounts take. */
#define ELCHEPUR_HOST_BYTES(n) (ELCHEPUR_DOUBLES(n) * sizeof(double) + ELCHEPUR_PIVOTS(n) * sizeof(size_t))

/* The same from one block of ELCHEPUR_HOST_BYTES(n) bytes that malloc gave. */
static inline struct elchepur_memory elchepur_host_cut(size_t n, void *block) {
    double *doubles = (double *)block;
    return elchepur_host_parts(n, doubles, (size_t *)(void *)(doubles + ELCHEPUR_DOUBLES(n)));
}

/* The part that a derivative goes to, and in `from` the one that has its amounts; null where there is no such place. */
static inline double *elchepur_host_place(const struct elchepur_memory *m, uint64_t place, const double **from) {
    *from = m->cont;
    switch (place) {
    case ELCHEPUR_PLACE_CONT_TO_Z1: return m->z1;
    case ELCHEPUR_PLACE_CONT_TO_Z2: return m->z2;
    case ELCHEPUR_PLACE_CONT_TO_Z3: return m->z3;
    case ELCHEPUR_PLACE_CONT_TO_F1: return m->f1;
    case ELCHEPUR_PLACE_Y_TO_F0: *from = m->y; return m->f0;
    case ELCHEPUR_PLACE_Y_TO_F_ORIGIN: *from = m->y; return m->f_origin;
    case ELCHEPUR_PLACE_Y_PERTURBED_TO_F_PERTURBED: *from = m->y_perturbed; return m->f_perturbed;
    default: return NULL;
    }
}

static inline void elchepur_host_copy(double *to, const double *from, size_t count) {
    for (size_t i = 0; i < count; i++) to[i] = from[i];
}

/* ---- Dense output at a report ---- */

/* Whether a report tells the amounts at xi: it is x, or it lies in the step that the coefficients belong to, past xold.
 * Under the Rust rule that step may have been shortened; the points between its end and x are then left out. */
static inline int elchepur_host_covers(const struct elchepur_report *at, double xi) {
    double ends[2];
    elchepur_bounds(at->xold, at->h, ends);
    return xi == at->x || (at->cont && xi != at->xold && ends[0] <= xi && xi <= ends[1]);
}

/* Writes the n amounts at xi into yi and answers 1: those reached if xi is x, else those that the coefficients give.
 * Where none are offered it answers 0, and writes nothing. */
static inline int elchepur_host_amounts(const struct elchepur_report *at, double xi, double *yi) {
    if (xi == at->x) elchepur_host_copy(yi, at->y, at->n);
    return xi == at->x || (at->cont && !elchepur_interpolate(xi, yi, at->n, at->cont, 4 * at->n, at->xold, at->h));
}

/* ---- A run ---- */

/* A problem with the default settings. y0 is not copied. */
static inline struct elchepur_problem elchepur_host_problem(
    size_t n, double x0, double xend, const double *y0, double rtol, double atol) {
    struct elchepur_problem problem;
    problem.n = n;
    problem.x0 = x0;
    problem.xend = xend;
    problem.y0 = y0;
    problem.rtol = rtol;
    problem.atol = atol;
    elchepur_default_settings(problem.numbers, problem.floats);
    problem.rtols = problem.atols = problem.mass = NULL;
    return problem;
}

static inline void elchepur_host_tolerances(double *to, const double *list, double scalar, size_t n) {
    for (size_t i = 0; i < n; i++) to[i] = list ? list[i] : scalar;
}

/* Opens a run. Answers 0, or the number that refuses; parts that were cut for another n are refused with 2. */
ELCHEPUR_HOST_LOOK static inline uint64_t elchepur_host_open(
    const struct elchepur_problem *problem, const struct elchepur_host *host, const struct elchepur_memory *m,
    struct elchepur_talk *talk) {
    size_t n = problem->n;
    uint64_t numbers[ELCHEPUR_NUMBERS], lists = problem->rtols || problem->atols;
    for (size_t k = 0; k < ELCHEPUR_NUMBERS; k++) numbers[k] = problem->numbers[k];
    numbers[ELCHEPUR_NUMBER_MASS] = problem->mass != NULL;
    numbers[ELCHEPUR_NUMBER_SOURCE] = host->jacobian == NULL;
    talk->reply = 0;
    talk->value = 0.0;
    if (n == m->n) {
        elchepur_host_copy(m->y, problem->y0, n);
        if (problem->mass) elchepur_host_copy(m->mass, problem->mass, n * n);
        if (lists) elchepur_host_tolerances(m->rtol, problem->rtols, problem->rtol, n);
        if (lists) elchepur_host_tolerances(m->atol, problem->atols, problem->atol, n);
    }
    return elchepur_open(numbers, problem->floats, n, problem->x0, problem->xend, lists, problem->rtol, problem->atol,
                         ELCHEPUR_STATE(talk->state), talk->told, talk->at, ELCHEPUR_PARTS(*m));
}

/* Asks the host what to do at a report, and notes its reply. */
static inline void elchepur_host_reported(
    const struct elchepur_host *host, const struct elchepur_memory *m, struct elchepur_talk *talk) {
    struct elchepur_report at;
    double new_y[ELCHEPUR_MOST];
    elchepur_host_copy(new_y, m->y, m->n);
    at.n = m->n;
    at.xold = talk->at[0];
    at.x = at.value = talk->at[1];
    at.y = m->y;
    at.new_y = new_y;
    at.cont = talk->told[ELCHEPUR_TOLD_FLAG] ? m->cont : NULL;
    at.h = elchepur_held_step(ELCHEPUR_STATE(talk->state));
    talk->reply = host->report(host->user, &at);
    talk->value = at.value;
    if (talk->reply == ELCHEPUR_REPLY_MODIFIED) elchepur_host_copy(m->y, new_y, m->n);
}

/* Does what the open request asks and notes the reply. Answers 0, or what a callback answered that gave up. A request
 * that this file doesn't know is left without a reply, which the advance refuses. */
ELCHEPUR_HOST_LOOK static inline int elchepur_host_answer(
    const struct elchepur_host *host, const struct elchepur_memory *m, struct elchepur_talk *talk) {
    const double *from;
    double *to = elchepur_host_place(m, talk->told[ELCHEPUR_TOLD_PLACE], &from);
    uint64_t kind = talk->told[ELCHEPUR_TOLD_KIND];
    talk->reply = 0;
    if (m->n > ELCHEPUR_MOST) return 0;
    if (kind == ELCHEPUR_KIND_REPORT) {
        if (host->report) elchepur_host_reported(host, m, talk);
        else talk->reply = ELCHEPUR_REPLY_CONTINUE;
        return 0;
    }
    if (kind == ELCHEPUR_KIND_DERIVATIVE && to) {
        talk->reply = ELCHEPUR_REPLY_FILLED;
        return host->derivative(host->user, talk->at[0], from, to);
    }
    if (kind == ELCHEPUR_KIND_JACOBIAN && host->jacobian) {
        talk->reply = ELCHEPUR_REPLY_FILLED;
        return host->jacobian(host->user, talk->at[0], m->y, m->jac);
    }
    return 0;
}

/* An outcome without a result. */
static inline void elchepur_host_nothing(struct elchepur_outcome *outcome) {
    outcome->refused = 0;
    outcome->given_up = 0;
    outcome->y = outcome->reached = NULL;
    for (size_t k = 0; k < ELCHEPUR_RESULT_NUMBERS; k++) outcome->numbers[k] = ~(uint64_t)0;
    for (size_t k = 0; k < ELCHEPUR_RESULT_FLOATS; k++) outcome->floats[k] = elchepur_sqrt(-1.0);
}

/* The result of a run that has ended. */
ELCHEPUR_HOST_LOOK static inline int elchepur_host_ended(
    const struct elchepur_memory *m, const struct elchepur_talk *talk, struct elchepur_outcome *outcome) {
    outcome->refused = elchepur_result(ELCHEPUR_STATE(talk->state), outcome->numbers, outcome->floats);
    if (outcome->refused) return ELCHEPUR_HOST_REFUSED;
    outcome->reached = m->y;
    if (outcome->numbers[ELCHEPUR_RESULT_STATUS] == ELCHEPUR_STATUS_USER_INTERRUPT) return ELCHEPUR_HOST_INTERRUPTED;
    if (outcome->numbers[ELCHEPUR_RESULT_STATUS] != ELCHEPUR_STATUS_SUCCESS) return ELCHEPUR_HOST_BROKEN_OFF;
    outcome->y = m->y;
    return ELCHEPUR_HOST_SUCCEEDED;
}

/* Takes an open run to its end and answers one of ELCHEPUR_HOST_... */
ELCHEPUR_HOST_LOOK static inline int elchepur_host_go_on(
    const struct elchepur_host *host, const struct elchepur_memory *m, struct elchepur_talk *talk,
    struct elchepur_outcome *outcome) {
    elchepur_host_nothing(outcome);
    while (talk->told[ELCHEPUR_TOLD_KIND] != ELCHEPUR_KIND_ENDED) {
        outcome->given_up = elchepur_host_answer(host, m, talk);
        if (outcome->given_up) return ELCHEPUR_HOST_GIVEN_UP;
        outcome->refused = elchepur_advance(ELCHEPUR_STATE(talk->state), talk->reply, talk->value, talk->told, talk->at,
                                            ELCHEPUR_PARTS(*m));
        if (outcome->refused) return ELCHEPUR_HOST_REFUSED;
    }
    return elchepur_host_ended(m, talk, outcome);
}

/* Opens a run and takes it to its end. Answers one of ELCHEPUR_HOST_..: 0 where it succeeded, and only there. The parts
 * must stay as long as the amounts of the outcome are looked at. */
ELCHEPUR_HOST_LOOK static inline int elchepur_host_run(
    const struct elchepur_problem *problem, const struct elchepur_host *host, const struct elchepur_memory *m,
    struct elchepur_outcome *outcome) {
    struct elchepur_talk talk;
    uint64_t refused = elchepur_host_open(problem, host, m, &talk);
    elchepur_host_nothing(outcome);
    outcome->refused = refused;
    return refused ? ELCHEPUR_HOST_REFUSED : elchepur_host_go_on(host, m, &talk, outcome);
}

#endif
