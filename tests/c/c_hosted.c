// Replays the stored runs of the Rust's own `solve` through include/elchepur_host.h: its callbacks must be called for
// the Rust's requests and in their order, each with the part that was meant, and give what the Rust's host gave; the
// end must be the Rust's. All 22 parts are compared at every call. Each run's steps go on a shelf, which is asked
// before a modified point empties it and at the end.
#include "c_stored.h"
#include "c_shelf.h"

struct replay {
    struct elchepur_memory m;
    struct elchepur_talk talk;
    uint64_t left, reports;
    struct shelf *shelf;
};

// Reads the head of a request, which must be of this kind and come at these points, the parts as the Rust had them.
static uint64_t met(struct replay *replay, uint64_t kind, double first, double second) {
    uint64_t head = word();
    requests++;
    same("that a run ended before", replay->left-- == 0, 0);
    same("the kind", kind, head >> 12);
    same("the hash of all parts", hash_of(&replay->m), word());
    if (kind != ELCHEPUR_KIND_ENDED) same("the point", bits_of(first), word());
    if (kind == ELCHEPUR_KIND_REPORT) same("the second point", bits_of(second), word());
    return head;
}

static int derivative(void *user, double x, const double *y, double *f) {
    struct replay *replay = user;
    const struct elchepur_memory *m = &replay->m;
    const double *from[] = {NULL, m->y, m->cont, m->cont, m->cont, m->cont, m->y, m->y_perturbed};
    double *to[] = {NULL, m->f0, m->z1, m->z2, m->z3, m->f1, m->f_origin, m->f_perturbed};
    uint64_t place = met(replay, ELCHEPUR_KIND_DERIVATIVE, x, x) >> 8 & 15;
    same("that the amounts stand elsewhere", y != from[place], 0);
    same("that another part is to be filled", f != to[place], 0);
    words_into(f, m->n);
    return 0;
}

static int jacobian(void *user, double x, const double *y, double *jac) {
    struct replay *replay = user;
    met(replay, ELCHEPUR_KIND_JACOBIAN, x, x);
    same("that the amounts of a Jacobian stand elsewhere", y != replay->m.y, 0);
    same("that another matrix is to be filled", jac != replay->m.jac, 0);
    words_into(jac, replay->m.n * replay->m.n);
    return 0;
}

// Amounts that are written without MODIFIED must not be taken up, so that some are written always.
static uint64_t report(void *user, struct elchepur_report *at) {
    struct replay *replay = user;
    uint64_t head = met(replay, ELCHEPUR_KIND_REPORT, at->xold, at->x), reply = head & 15;
    same("the held step", bits_of(at->h), bits_of(elchepur_held_step(ELCHEPUR_STATE(replay->talk.state))));
    same("whether coefficients are offered", at->cont == replay->m.cont, head >> 4 & 15);
    same("the amounts of a report", at->n == replay->m.n && at->y == replay->m.y, 1);
    for (size_t i = 0; i < at->n; i++) {
        same("a new amount before it is written", bits_of(at->new_y[i]), bits_of(at->y[i]));
        at->new_y[i] = -7.0;
    }
    if (replay->reports++ > 0) put_on_shelf(replay->shelf, replay->m.cont, at->xold, at->h);
    if (reply == ELCHEPUR_REPLY_MODIFIED) {
        ask_everywhere(replay->shelf);
        empty_shelf(replay->shelf, at->n);
    }
    if (reply == ELCHEPUR_REPLY_MODIFIED || reply == ELCHEPUR_REPLY_MARK) at->value = double_of(word());
    if (reply == ELCHEPUR_REPLY_MODIFIED) words_into(at->new_y, at->n);
    return reply;
}

static int answer_of(uint64_t status) {
    if (status == ELCHEPUR_STATUS_SUCCESS) return ELCHEPUR_HOST_SUCCEEDED;
    return status == ELCHEPUR_STATUS_USER_INTERRUPT ? ELCHEPUR_HOST_INTERRUPTED : ELCHEPUR_HOST_BROKEN_OFF;
}

static void met_end(struct replay *replay, int answer, const struct elchepur_outcome *outcome) {
    static const size_t order[] = {ELCHEPUR_RESULT_ODE, ELCHEPUR_RESULT_JAC, ELCHEPUR_RESULT_LU,
                                   ELCHEPUR_RESULT_TOTAL, ELCHEPUR_RESULT_ACCEPTED, ELCHEPUR_RESULT_REJECTED,
                                   ELCHEPUR_RESULT_SINGULAR, ELCHEPUR_RESULT_COLUMN};
    uint64_t status = met(replay, ELCHEPUR_KIND_ENDED, 0.0, 0.0) >> 4 & 15;
    same("how many requests are left", replay->left, 0);
    same("a refusal", outcome->refused, 0);
    same("the answer", (uint64_t)answer, (uint64_t)answer_of(status));
    same("the status", outcome->numbers[ELCHEPUR_RESULT_STATUS], status);
    same("that there are amounts", outcome->y == replay->m.y, status == ELCHEPUR_STATUS_SUCCESS);
    same("that there are none", outcome->y == NULL, status != ELCHEPUR_STATUS_SUCCESS);
    same("the amounts reached", outcome->reached == replay->m.y, 1);
    same("h", bits_of(outcome->floats[ELCHEPUR_RESULT_H]), word());
    same("x", bits_of(outcome->floats[ELCHEPUR_RESULT_X]), word());
    for (size_t k = 0; k < sizeof order / sizeof *order; k++) same("a count", outcome->numbers[order[k]], word());
    same("the smallest stride", bits_of(outcome->floats[ELCHEPUR_RESULT_SMALLEST]), word());
    same("the largest stride", bits_of(outcome->floats[ELCHEPUR_RESULT_LARGEST]), word());
}

int main(void) {
    static struct stored_opening read;
    static double doubles[ELCHEPUR_DOUBLES(ELCHEPUR_MOST)];
    static size_t pivots[ELCHEPUR_PIVOTS(ELCHEPUR_MOST)];
    static struct shelf shelf;
    uint64_t n;
    while (scanf("%" SCNx64, &n) == 1) {
        struct replay replay = {.m = elchepur_host_parts(n, doubles, pivots), .shelf = &shelf};
        struct elchepur_host host = {&replay, derivative, NULL, report};
        struct elchepur_outcome outcome;
        if (n < 1 || n > ELCHEPUR_MOST) stop("a stored run has no order", n);
        runs++;
        read_opening(&read, n);
        replay.left = read.count;
        if (read.choices >> HOST & 1) host.jacobian = jacobian;
        memset(doubles, 1, sizeof doubles);
        memset(pivots, 1, sizeof pivots);
        empty_shelf(&shelf, n);
        same("an opening", elchepur_host_open(&read.problem, &host, &replay.m, &replay.talk), 0);
        int answer = elchepur_host_go_on(&host, &replay.m, &replay.talk, &outcome);
        met_end(&replay, answer, &outcome);
        ask_everywhere(&shelf);
    }
    printf("%" PRIu64 " runs of the Rust with %" PRIu64 " requests agree through callbacks\n", runs, requests);
    printf("of %" PRIu64 " questions to their shelves %" PRIu64 " are answered, as their steps have it\n", questions,
           answers);
    return 0;
}
