// A shelf beside a run, and all the steps that were put on it since it was empty: what it answers must be what the
// newest of the last 48 gives whose bounds hold the point.
static uint64_t questions, answers;

enum { ALL_STEPS = 2048 };

struct kept {
    double cont[4 * ELCHEPUR_MOST], xold, h;
};

struct shelf {
    size_t n, count, words[ELCHEPUR_SHELF];
    double room[ELCHEPUR_SHELF_STEPS * 4 * ELCHEPUR_MOST], ends[ELCHEPUR_SHELF_ENDS];
    struct kept steps[ALL_STEPS];
};

static void empty_shelf(struct shelf *shelf, size_t n) {
    shelf->n = n;
    shelf->count = 0;
    elchepur_empty_shelf(shelf->words);
}

static void put_on_shelf(struct shelf *shelf, const double *cont, double xold, double h) {
    size_t n = shelf->n;
    if (shelf->count == ALL_STEPS) stop("there are more steps than this test has room for", shelf->count);
    struct kept *step = &shelf->steps[shelf->count++];
    elchepur_host_copy(step->cont, cont, 4 * n);
    step->xold = xold;
    step->h = h;
    same("the answer of a step that is put on a shelf",
         elchepur_put_on_shelf(shelf->words, cont, 4 * n, xold, h, shelf->room, ELCHEPUR_SHELF_STEPS * 4 * n,
                               shelf->ends, ELCHEPUR_SHELF_ENDS), 0);
}

static void ask_shelf(const struct shelf *shelf, double x) {
    double got[ELCHEPUR_MOST] = {0}, wanted[ELCHEPUR_MOST] = {0}, ends[2];
    size_t n = shelf->n, oldest = shelf->count > ELCHEPUR_SHELF_STEPS ? shelf->count - ELCHEPUR_SHELF_STEPS : 0;
    uint64_t number = ELCHEPUR_REFUSED_POINT;
    for (size_t k = shelf->count; k > oldest && number; k--) {
        const struct kept *step = &shelf->steps[k - 1];
        elchepur_bounds(step->xold, step->h, ends);
        if (ends[0] <= x && x <= ends[1])
            number = elchepur_interpolate(x, wanted, n, step->cont, 4 * n, step->xold, step->h);
    }
    same("the answer of a shelf", elchepur_ask_shelf(shelf->words, x, got, n, shelf->room, ELCHEPUR_SHELF_STEPS * 4 * n,
                                                     shelf->ends, ELCHEPUR_SHELF_ENDS), number);
    for (size_t i = 0; i < n; i++) same("an amount of a past point", bits_of(got[i]), bits_of(wanted[i]));
    questions++;
    answers += number == 0;
}

// At both ends and in the middle of every step, those too that have given up their room, and at a NaN.
static void ask_everywhere(const struct shelf *shelf) {
    double ends[2];
    for (size_t k = 0; k < shelf->count; k++) {
        elchepur_bounds(shelf->steps[k].xold, shelf->steps[k].h, ends);
        ask_shelf(shelf, ends[0]);
        ask_shelf(shelf, ends[0] + (ends[1] - ends[0]) / 2);
        ask_shelf(shelf, ends[1]);
    }
    ask_shelf(shelf, double_of(UINT64_C(0x7ff8000000000000)));
}
