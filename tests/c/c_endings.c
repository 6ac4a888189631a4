// How a run can end through include/elchepur_host.h: it succeeds, is interrupted, breaks off, is refused with each of
// document 01's numbers that a host can bring about, or is given up by a callback; and what there is to read then.
// Beside that dense output at a report, a block that is cut, and a run that is stored and taken up later.
#include "c_host.h"

static int seen, wrong;

static void same(const char *words, uint64_t got, uint64_t wanted) {
    seen++;
    if (got == wanted) return;
    wrong++;
    printf("%s is %" PRIx64 " and is to be %" PRIx64 "\n", words, got, wanted);
}

// Two amounts that go over into one another, and what the host is to do beside that.
struct watch {
    uint64_t calls, reports, offered, reply;
    double value, xi, at_xi[2];
    uint64_t gives_up_at;
};

static int derivative(void *user, double x, const double *y, double *f) {
    struct watch *watch = user;
    (void)x;
    if (++watch->calls == watch->gives_up_at) return 42;
    f[0] = -3.0 * y[0] + 0.5 * y[1];
    f[1] = 3.0 * y[0] - 0.5 * y[1];
    return 0;
}

static int jacobian(void *user, double x, const double *y, double *jac) {
    const double entries[] = {-3.0, 0.5, 3.0, -0.5};
    (void)user, (void)x, (void)y;
    memcpy(jac, entries, sizeof entries);
    return 0;
}

static int no_jacobian(void *user, double x, const double *y, double *jac) {
    (void)user, (void)x, (void)y, (void)jac;
    return -1;
}

// The amounts at watch->xi must be those that the proved calls give for the step that the report tells of.
static void dense(struct watch *watch, const struct elchepur_report *at) {
    double y[2] = {7, 7}, wanted[2], ends[2];
    if (!at->cont || !elchepur_host_covers(at, watch->xi)) return;
    same("amounts within a step", (uint64_t)elchepur_host_amounts(at, watch->xi, y), 1);
    same("an interpolation", elchepur_interpolate(watch->xi, wanted, 2, at->cont, 8, at->xold, at->h), 0);
    elchepur_bounds(at->xold, at->h, ends);
    same("that the point lies in the held step", ends[0] <= watch->xi && watch->xi <= ends[1], 1);
    for (size_t i = 0; i < 2; i++) same("an amount within a step", bits_of(y[i]), bits_of(wanted[i]));
    memcpy(watch->at_xi, y, sizeof y);
}

static uint64_t report(void *user, struct elchepur_report *at) {
    struct watch *watch = user;
    double y[2] = {7, 7};
    watch->offered += at->cont != NULL;
    same("the amounts at the point itself", (uint64_t)elchepur_host_amounts(at, at->x, y), 1);
    for (size_t i = 0; i < 2; i++) same("an amount at the point itself", bits_of(y[i]), bits_of(at->y[i]));
    if (!at->cont) same("amounts without coefficients", (uint64_t)elchepur_host_amounts(at, at->x + 1.0, y), 0);
    dense(watch, at);
    if (++watch->reports != 3) return ELCHEPUR_REPLY_CONTINUE;
    at->value = watch->value;
    return watch->reply;
}

// Room for one amount more than a run can have.
static double doubles[ELCHEPUR_DOUBLES(ELCHEPUR_MOST + 1)];
static size_t pivots[ELCHEPUR_PIVOTS(ELCHEPUR_MOST + 1)];
static const double y0[ELCHEPUR_MOST + 1] = {1.0, 2.0}, lists[] = {1e-6, 1e-6}, identity[] = {1, 0, 0, 1};
static struct watch watch;
static struct elchepur_outcome outcome;

static struct elchepur_problem plain(void) {
    memset(&watch, 0, sizeof watch);
    watch.reply = ELCHEPUR_REPLY_CONTINUE;
    return elchepur_host_problem(2, 0.0, 1.0, y0, 1e-6, 1e-6);
}

static int ran(const struct elchepur_problem *problem, const struct elchepur_memory *m) {
    struct elchepur_host host = {&watch, derivative, NULL, report};
    return elchepur_host_run(problem, &host, m, &outcome);
}

// There is nothing to read, and what stands there can't pass for a status, a count or a point.
static void nothing(const char *words) {
    same(words, outcome.y || outcome.reached, 0);
    for (size_t k = 0; k < ELCHEPUR_RESULT_NUMBERS; k++) same(words, outcome.numbers[k], UINT64_MAX);
    for (size_t k = 0; k < ELCHEPUR_RESULT_FLOATS; k++) same(words, outcome.floats[k] != outcome.floats[k], 1);
}

static void refuses(const char *words, const struct elchepur_problem *problem, size_t n, uint64_t number) {
    struct elchepur_memory m = elchepur_host_parts(n, doubles, pivots);
    for (size_t k = 0; k < sizeof doubles / sizeof *doubles; k++) doubles[k] = 0.5;
    same(words, (uint64_t)ran(problem, &m), ELCHEPUR_HOST_REFUSED);
    // What is given goes into parts of its own length, and else nowhere.
    for (size_t k = n == problem->n ? ELCHEPUR_DOUBLES(n) : 0; k < sizeof doubles / sizeof *doubles; k++)
        if (doubles[k] != 0.5) same("a double that a refused opening wrote", k, 0);
    same(words, outcome.refused, number);
    same("that a callback of a refused opening was called", watch.calls + watch.reports, 0);
    nothing(words);
}

static void with_number(const char *words, size_t place, uint64_t setting, uint64_t number) {
    struct elchepur_problem problem = plain();
    problem.numbers[place] = setting;
    refuses(words, &problem, 2, number);
}

static void with_float(const char *words, size_t place, double setting, uint64_t number) {
    struct elchepur_problem problem = plain();
    if (place >= ELCHEPUR_FLOAT_MAX_STEP)
        problem.numbers[ELCHEPUR_NUMBER_MAX_STEP_GIVEN + place - ELCHEPUR_FLOAT_MAX_STEP] = 1;
    problem.floats[place] = setting;
    refuses(words, &problem, 2, number);
}

static void refusals(void) {
    struct elchepur_problem problem = plain();
    problem.n = 0;
    refuses("no amounts", &problem, 0, ELCHEPUR_REFUSED_ORDER);
    problem.n = ELCHEPUR_MOST + 1;
    refuses("too many amounts", &problem, 2, ELCHEPUR_REFUSED_ORDER);
    refuses("too many amounts, with room for them", &problem, ELCHEPUR_MOST + 1, ELCHEPUR_REFUSED_ORDER);
    problem = plain();
    refuses("parts of three amounts for two", &problem, 3, ELCHEPUR_REFUSED_PART);
    problem.xend = 1.0 / elchepur_abs(0.0);
    refuses("an end at infinity", &problem, 2, ELCHEPUR_REFUSED_NOT_FINITE);
    problem = plain();
    problem.rtol = 0.0;
    refuses("an rtol of 0", &problem, 2, ELCHEPUR_REFUSED_TOLERANCE);
    problem.atols = lists;
    refuses("an rtol of 0 beside a list of atols", &problem, 2, ELCHEPUR_REFUSED_TOLERANCE);
    with_number("no steps", ELCHEPUR_NUMBER_MAX_STEPS, 0, ELCHEPUR_REFUSED_MAX_STEPS);
    with_number("17 rounds", ELCHEPUR_NUMBER_NEWTON_MAXITER, 17, ELCHEPUR_REFUSED_NEWTON_MAXITER);
    with_number("a nind1 of 0", ELCHEPUR_NUMBER_NIND1_GIVEN, 1, ELCHEPUR_REFUSED_PARTITION);
    with_float("uround", ELCHEPUR_FLOAT_UROUND, 1.0, ELCHEPUR_REFUSED_UROUND);
    with_float("safety_factor", ELCHEPUR_FLOAT_SAFETY_FACTOR, 1.0, ELCHEPUR_REFUSED_SAFETY_FACTOR);
    with_float("scale_min", ELCHEPUR_FLOAT_SCALE_MIN, 8.0, ELCHEPUR_REFUSED_SCALES);
    with_float("max_step", ELCHEPUR_FLOAT_MAX_STEP, -1.0, ELCHEPUR_REFUSED_STEP_LIMITS);
    with_float("first_step", ELCHEPUR_FLOAT_FIRST_STEP, 0.0, ELCHEPUR_REFUSED_FIRST_STEP);
}

static void ended(const char *words, int answer, int wanted, uint64_t status) {
    same(words, (uint64_t)answer, (uint64_t)wanted);
    same(words, outcome.numbers[ELCHEPUR_RESULT_STATUS], status);
    same("that it has amounts", outcome.y != NULL, status == ELCHEPUR_STATUS_SUCCESS);
    same("that it tells where it ended", outcome.reached != NULL, 1);
    same("the refusal of a run that ended", outcome.refused, 0);
}

static void endings(const struct elchepur_memory *m) {
    struct elchepur_problem problem = plain();
    ended("a plain run", ran(&problem, m), ELCHEPUR_HOST_SUCCEEDED, ELCHEPUR_STATUS_SUCCESS);
    same("its point", bits_of(outcome.floats[ELCHEPUR_RESULT_X]), bits_of(1.0));
    same("its reports", watch.reports, outcome.numbers[ELCHEPUR_RESULT_ACCEPTED] + 1);
    problem.numbers[ELCHEPUR_NUMBER_MAX_STEPS] = 3;
    ended("three steps", ran(&problem, m), ELCHEPUR_HOST_BROKEN_OFF, ELCHEPUR_STATUS_NEED_LARGER_NMAX);
    same("that three steps come to the end", outcome.floats[ELCHEPUR_RESULT_X] >= 1.0, 0);
    problem = plain();
    watch.reply = ELCHEPUR_REPLY_INTERRUPT;
    ended("an interrupted run", ran(&problem, m), ELCHEPUR_HOST_INTERRUPTED, ELCHEPUR_STATUS_USER_INTERRUPT);
    same("its reports", watch.reports, 3);
    problem = plain();
    watch.reply = ELCHEPUR_REPLY_FILLED;
    same("a reply that is none to a report", (uint64_t)ran(&problem, m), ELCHEPUR_HOST_REFUSED);
    same("its number", outcome.refused, ELCHEPUR_REFUSED_REPLY);
    nothing("a run refused on its way");
    problem = plain();
    problem.numbers[ELCHEPUR_NUMBER_DENSE_OUTPUT] = 0;
    watch.reply = ELCHEPUR_REPLY_MARK;
    watch.value = 0.5;
    ended("a run with a mark", ran(&problem, m), ELCHEPUR_HOST_SUCCEEDED, ELCHEPUR_STATUS_SUCCESS);
    same("that coefficients come for a mark alone", watch.offered >= 1 && watch.offered + 3 < watch.reports, 1);
}

static void given_up(const struct elchepur_memory *m) {
    struct elchepur_problem problem = plain();
    struct elchepur_host host = {&watch, derivative, no_jacobian, NULL};
    watch.gives_up_at = 9;
    same("a derivative that gives up", (uint64_t)ran(&problem, m), ELCHEPUR_HOST_GIVEN_UP);
    same("what it answered", (uint64_t)outcome.given_up, 42);
    same("its calls", watch.calls, 9);
    nothing("a run given up");
    problem = plain();
    same("a Jacobian that gives up", (uint64_t)elchepur_host_run(&problem, &host, m, &outcome), ELCHEPUR_HOST_GIVEN_UP);
    same("what it answered", outcome.given_up == -1, 1);
    nothing("a run given up at its Jacobian");
}

static void same_run(const char *words, const struct elchepur_outcome *one) {
    for (size_t k = 0; k < ELCHEPUR_RESULT_NUMBERS; k++) same(words, outcome.numbers[k], one->numbers[k]);
    for (size_t k = 0; k < ELCHEPUR_RESULT_FLOATS; k++)
        same(words, bits_of(outcome.floats[k]), bits_of(one->floats[k]));
    for (size_t i = 0; i < 2; i++) same(words, bits_of(outcome.reached[i]), bits_of(one->reached[i]));
}

// Runs that are to be one and the same: an identity as a mass, one list and two, and memory from one block.
static void twice(void) {
    struct elchepur_problem problem = plain();
    struct elchepur_memory m = elchepur_host_parts(2, doubles, pivots), cut;
    void *block = malloc(ELCHEPUR_HOST_BYTES(2));
    struct elchepur_outcome one;
    double left[2];
    if (!block) stop("there is no memory", 0);
    cut = elchepur_host_cut(2, block);
    same("a block's last pivot", (size_t)((char *)(cut.ip2 + 2) - (char *)block), ELCHEPUR_HOST_BYTES(2));
    same("a run", (uint64_t)ran(&problem, &m), 0);
    one = outcome;
    same("a run in a block", (uint64_t)ran(&problem, &cut), 0);
    same_run("a run in a block", &one);
    problem.mass = identity;
    same("a run with a mass", (uint64_t)ran(&problem, &cut), 0);
    for (size_t i = 0; i < 2; i++) same("an amount with a mass", bits_of(outcome.y[i]), bits_of(one.y[i]));
    problem = plain();
    problem.rtols = problem.atols = lists;
    same("a run with lists", (uint64_t)ran(&problem, &m), 0);
    one = outcome;
    memcpy(left, one.reached, sizeof left);
    problem.atols = NULL;
    same("a run with one list", (uint64_t)ran(&problem, &cut), 0);
    same_run("a run with one list", &one);
    for (size_t i = 0; i < 2; i++) same("an amount that another run left alone", bits_of(one.y[i]), bits_of(left[i]));
    free(block);
}

// A run is given up halfway, copied with its parts, and taken up there: the end is that of the run in one go.
static void taken_up(const struct elchepur_memory *m) {
    static double other_doubles[ELCHEPUR_DOUBLES(2)];
    static size_t other_pivots[ELCHEPUR_PIVOTS(2)];
    struct elchepur_problem problem = plain();
    struct elchepur_host host = {&watch, derivative, jacobian, NULL};
    struct elchepur_memory other = elchepur_host_parts(2, other_doubles, other_pivots);
    struct elchepur_talk talk, stored;
    struct elchepur_outcome one;
    double reached[2];
    same("a run in one go", (uint64_t)elchepur_host_run(&problem, &host, m, &one), 0);
    memcpy(reached, one.y, sizeof reached);
    one.reached = reached;
    problem = plain();
    watch.gives_up_at = 20;
    same("an opening", elchepur_host_open(&problem, &host, m, &talk), 0);
    same("a run that is put by", (uint64_t)elchepur_host_go_on(&host, m, &talk, &outcome), ELCHEPUR_HOST_GIVEN_UP);
    stored = talk;
    memcpy(other_doubles, doubles, sizeof other_doubles);
    memcpy(other_pivots, pivots, sizeof other_pivots);
    memset(doubles, 1, sizeof doubles);
    same("a run taken up", (uint64_t)elchepur_host_go_on(&host, &other, &stored, &outcome), 0);
    same_run("a run taken up", &one);
}

// A run goes on in parts of its own length alone: in others it is refused with 13, and nothing is called.
static void other_parts(void) {
    struct elchepur_problem problem = plain();
    struct elchepur_host host = {&watch, derivative, NULL, report};
    struct elchepur_memory m = elchepur_host_parts(2, doubles, pivots);
    struct elchepur_memory more = elchepur_host_parts(ELCHEPUR_MOST + 1, doubles, pivots);
    struct elchepur_talk talk;
    same("an opening", elchepur_host_open(&problem, &host, &m, &talk), 0);
    same("the first reply", (uint64_t)elchepur_host_answer(&host, &m, &talk), 0);
    same("the first advance",
         elchepur_advance(ELCHEPUR_STATE(talk.state), talk.reply, 0.0, talk.told, talk.at, ELCHEPUR_PARTS(m)), 0);
    same("the first report", talk.told[ELCHEPUR_TOLD_KIND], ELCHEPUR_KIND_REPORT);
    same("more amounts", (uint64_t)elchepur_host_go_on(&host, &more, &talk, &outcome), ELCHEPUR_HOST_REFUSED);
    same("their refusal", outcome.refused, ELCHEPUR_REFUSED_UNFIT);
    same("that a report of them was told", watch.reports, 0);
    nothing("more amounts");
}

// A step covers the point that it comes to, and not the one that it leaves, either way.
static void covered(void) {
    struct elchepur_report forwards = {2, 1.0, 2.0, NULL, doubles, 1.0, 2.0, NULL};
    struct elchepur_report backwards = forwards, shortened = forwards, bare = forwards;
    backwards.xold = 2.0;
    backwards.x = 1.0;
    backwards.h = -1.0;
    shortened.h = 0.5;
    bare.cont = NULL;
    for (double x = 0.25; x < 3.0; x += 0.25) {
        same("a point forwards", (uint64_t)elchepur_host_covers(&forwards, x), x > 1.0 && x <= 2.0);
        same("a point backwards", (uint64_t)elchepur_host_covers(&backwards, x), x >= 1.0 && x < 2.0);
        same("a shortened step", (uint64_t)elchepur_host_covers(&shortened, x), (x > 1.0 && x <= 1.5) || x == 2.0);
        same("a step without coefficients", (uint64_t)elchepur_host_covers(&bare, x), x == 2.0);
    }
}

// The solution of the two is known: their sum stays, and y[0] goes to a seventh of it at a rate of 3.5.
static void right(const struct elchepur_memory *m) {
    struct elchepur_problem problem = plain();
    double half = 3.0 / 7.0 + (4.0 / 7.0) * 0.17377394345044514;  // exp(-1.75)
    watch.xi = 0.5;
    ended("a run with dense output", ran(&problem, m), ELCHEPUR_HOST_SUCCEEDED, ELCHEPUR_STATUS_SUCCESS);
    same("that the amount halfway is right", elchepur_abs(watch.at_xi[0] - half) < 1e-5, 1);
    same("that the amount at the end is right", elchepur_abs(outcome.y[0] - 3.0 / 7.0 - 0.0172556476) < 1e-5, 1);
}

int main(void) {
    struct elchepur_memory m = elchepur_host_parts(2, doubles, pivots);
    refusals();
    endings(&m);
    given_up(&m);
    twice();
    taken_up(&m);
    other_parts();
    covered();
    right(&m);
    printf("%d answers of runs through callbacks, %d wrong\n", seen, wrong);
    return wrong != 0;
}
