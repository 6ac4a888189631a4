// A host in C: it solves models of reactions through include/elchepur_host.h, and prints what document 01's program
// `decay` prints.
//
//     c_program differences|host [POINTS]    standard input has sheets that are well formed, one after the other
//
// The Jacobian is made by the solver's differences, or by this host: by differences of its own, with a step of 2^-20
// for every amount. With POINTS it also prints the amounts at so many points between the ends, by dense output, each in
// a line `at`, with NaN where a shortened step leaves a point out. tests/c/c_program.py builds it and compares what it
// prints with the Rust's answers.
#include "c_host.h"

#define MOST_REACTIONS 64

struct model {
    double x0, xend, rtol, atol;
    uint64_t max_steps, rule;
    size_t n;
    double amounts[ELCHEPUR_MOST];
    size_t reactions;
    double rates[MOST_REACTIONS];
    // Two reactants and two products of each; species from 1, 0 is none.
    size_t species[MOST_REACTIONS][4];
    // How many points are wanted between the ends, and how many were had.
    size_t points, had;
};

// --- A sheet -------------------------------------------------------------------------------------

static uint64_t decimal(void) {
    uint64_t number;
    if (scanf("%" SCNu64, &number) != 1) stop("a sheet lacks a number", 0);
    return number;
}

static double hexadecimal(void) {
    uint64_t bits;
    if (scanf("%" SCNx64, &bits) != 1) stop("a sheet lacks a float", 0);
    return double_of(bits);
}

// Whether there was a sheet more. Sheets are well formed, so that their counts are in range.
static int read_model(struct model *model) {
    uint64_t settings;
    if (scanf("%" SCNu64, &settings) != 1) return 0;
    model->x0 = hexadecimal();
    model->xend = hexadecimal();
    model->rtol = hexadecimal();
    model->atol = hexadecimal();
    model->max_steps = decimal();
    model->rule = decimal();
    model->n = decimal();
    if (model->n > ELCHEPUR_MOST) stop("a sheet has too many species", model->n);
    for (size_t i = 0; i < model->n; i++) model->amounts[i] = hexadecimal();
    model->reactions = decimal();
    if (model->reactions > MOST_REACTIONS) stop("a sheet has too many reactions", model->reactions);
    for (size_t r = 0; r < model->reactions; r++) {
        model->rates[r] = hexadecimal();
        for (size_t k = 0; k < 4; k++) model->species[r][k] = decimal();
    }
    return 1;
}

// --- What a host does ----------------------------------------------------------------------------

// Document 01: derivatives start at +0; in order, v is the rate times each reactant present; v is subtracted at each
// reactant, then added at each product.
static int derivative(void *user, double x, const double *y, double *dy) {
    const struct model *model = user;
    (void)x;
    for (size_t i = 0; i < model->n; i++) dy[i] = 0.0;
    for (size_t r = 0; r < model->reactions; r++) {
        const size_t *species = model->species[r];
        double v = model->rates[r];
        for (size_t k = 0; k < 2; k++)
            if (species[k]) v *= y[species[k] - 1];
        for (size_t k = 0; k < 2; k++)
            if (species[k]) dy[species[k] - 1] -= v;
        for (size_t k = 2; k < 4; k++)
            if (species[k]) dy[species[k] - 1] += v;
    }
    return 0;
}

static int jacobian(void *user, double x, const double *y, double *jac) {
    const struct model *model = user;
    size_t n = model->n;
    double here[ELCHEPUR_MOST], there[ELCHEPUR_MOST], moved[ELCHEPUR_MOST];
    derivative(user, x, y, here);
    for (size_t column = 0; column < n; column++) {
        memcpy(moved, y, n * sizeof *y);
        moved[column] += 1.0 / 1048576.0;
        derivative(user, x, moved, there);
        for (size_t row = 0; row < n; row++) jac[row * n + column] = (there[row] - here[row]) * 1048576.0;
    }
    return 0;
}

static void print_amounts(const double *y, size_t n) {
    for (size_t i = 0; i < n; i++) printf(" %016" PRIx64, bits_of(y[i]));
    printf("\n");
}

// The points that the step has passed, in their order.
static uint64_t report(void *user, struct elchepur_report *at) {
    struct model *model = user;
    double step = (model->xend - model->x0) / (double)(model->points + 1), y[ELCHEPUR_MOST];
    for (; model->had < model->points; model->had++) {
        double xi = model->x0 + step * (double)(model->had + 1);
        if (at->x == model->x0 || !(step > 0.0 ? xi <= at->x : xi >= at->x)) break;
        for (size_t i = 0; i < at->n; i++) y[i] = elchepur_sqrt(-1.0);
        if (elchepur_host_covers(at, xi)) elchepur_host_amounts(at, xi, y);
        printf("at %016" PRIx64, bits_of(xi));
        print_amounts(y, at->n);
    }
    return ELCHEPUR_REPLY_CONTINUE;
}

// --- A run ---------------------------------------------------------------------------------------

static void print_result(const struct elchepur_outcome *outcome, size_t n) {
    static const char *const words[] = {"status", "accepted", "rejected", "total", "ode", "jac", "lu"};
    static const size_t places[] = {
        ELCHEPUR_RESULT_STATUS, ELCHEPUR_RESULT_ACCEPTED, ELCHEPUR_RESULT_REJECTED, ELCHEPUR_RESULT_TOTAL,
        ELCHEPUR_RESULT_ODE, ELCHEPUR_RESULT_JAC, ELCHEPUR_RESULT_LU};
    for (size_t k = 0; k < sizeof places / sizeof *places; k++)
        printf("%s%s %" PRIu64, k ? " " : "", words[k], outcome->numbers[places[k]]);
    printf("\nx %016" PRIx64 "\ny", bits_of(outcome->floats[ELCHEPUR_RESULT_X]));
    print_amounts(outcome->reached, n);
    printf("h");
    print_amounts(outcome->floats + ELCHEPUR_RESULT_SMALLEST, 2);
}

static void solve(struct model *model, int makes_jacobian) {
    static double doubles[ELCHEPUR_DOUBLES(ELCHEPUR_MOST)];
    static size_t pivots[ELCHEPUR_PIVOTS(ELCHEPUR_MOST)];
    struct elchepur_memory m = elchepur_host_parts(model->n, doubles, pivots);
    struct elchepur_host host = {model, derivative, makes_jacobian ? jacobian : NULL, model->points ? report : NULL};
    struct elchepur_problem problem =
        elchepur_host_problem(model->n, model->x0, model->xend, model->amounts, model->rtol, model->atol);
    struct elchepur_outcome outcome;
    problem.numbers[ELCHEPUR_NUMBER_MAX_STEPS] = model->max_steps;
    problem.numbers[ELCHEPUR_NUMBER_RULE] = model->rule;
    model->had = 0;
    if (elchepur_host_run(&problem, &host, &m, &outcome) == ELCHEPUR_HOST_REFUSED)
        printf("refused %" PRIu64 "\n", outcome.refused);
    else print_result(&outcome, model->n);
}

int main(int count, char **words) {
    static struct model model;
    if (count != 2 && count != 3) stop("usage: c_program differences|host [POINTS]", 0);
    if (count == 3) model.points = strtoul(words[2], NULL, 10);
    while (read_model(&model)) solve(&model, !strcmp(words[1], "host"));
    return 0;
}
