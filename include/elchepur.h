/* Elchepur: the stiff solver RADAU (Radau IIA, order 5) and its routines, proved in Rattle, for C99 and C++.
 * Behind every function here stands a contract that settles its answer and every slice for all inputs: of
 * crates/export, of the last ones of crates/export_forecast, export_sheet, export_totals and export_csv.
 *
 * Rules for all functions:
 * - A slice is a pointer and the count of what it points to. A pointer is never null, not even with a count of 0, and
 *   is aligned as its type asks.
 * - Slices, arrays and results of one call must not overlap. Nothing can test that, and no promise holds where they do.
 * - A function that can refuse answers a number: 0 where it did its work, else one of `ELCHEPUR_REFUSED_..`. Where it
 *   refuses it has written nothing, with one exception: ELCHEPUR_REFUSED_SINGULAR leaves matrix and pivots as the Rust
 *   does, and tells the column.
 * - Which of the patterns of NaN a NaN has is not settled. All else is, bit for bit, on every machine.
 * - Nothing is allocated and nothing is kept between calls, so that several threads may call at once, each with memory
 *   of its own.
 */
#ifndef ELCHEPUR_H
#define ELCHEPUR_H

#include <stddef.h>
#include <stdint.h>

#ifdef __cplusplus
extern "C" {
#endif

/* ---- Numbers that refuse: those of documents 01 and 02, and two that they do not use ---- */

enum {
    ELCHEPUR_DONE = 0,
    ELCHEPUR_REFUSED_ORDER = 1,           /* n is not 1 to 32 */
    ELCHEPUR_REFUSED_PART = 2,            /* a lent part has the wrong length */
    ELCHEPUR_REFUSED_NOT_FINITE = 3,      /* an end, amount, mass entry, tolerance or setting is not finite */
    ELCHEPUR_REFUSED_MAX_STEPS = 4,       /* max_steps is not 1 to 1,000,000 */
    ELCHEPUR_REFUSED_UROUND = 5,          /* uround <= 1e-35 or >= 1 */
    ELCHEPUR_REFUSED_SAFETY_FACTOR = 6,   /* safety_factor <= 1e-4 or >= 1 */
    ELCHEPUR_REFUSED_SCALES = 7,          /* scale_min <= 0 or not below scale_max */
    ELCHEPUR_REFUSED_NEWTON_MAXITER = 8,  /* newton_maxiter is not 1 to 16 */
    ELCHEPUR_REFUSED_TOLERANCE = 9,       /* an rtol <= 0 or an atol < 0 */
    ELCHEPUR_REFUSED_PARTITION = 10, /* nind1 is given and the three don't sum to n, or only others are and exceed n */
    ELCHEPUR_REFUSED_FIRST_STEP = 11,     /* first_step is given as 0 */
    ELCHEPUR_REFUSED_STEP_LIMITS = 12,    /* max_step < 0, or min_step above the step ceiling */
    ELCHEPUR_REFUSED_UNFIT = 13,          /* the state is unfit */
    ELCHEPUR_REFUSED_HAS_ENDED = 14,      /* the run has ended */
    ELCHEPUR_REFUSED_REPLY = 15,          /* the reply is not of the kind asked for */
    ELCHEPUR_REFUSED_LENGTH = 16,         /* matrix routine: a length is not n * n or n */
    ELCHEPUR_REFUSED_SINGULAR = 17,       /* the matrix is singular */
    ELCHEPUR_REFUSED_PIVOT = 18,          /* one of the first n - 1 pivots is n or more */
    ELCHEPUR_REFUSED_TARGET = 19,         /* the target is shorter than a quarter of the coefficients */
    ELCHEPUR_REFUSED_SHEET_LINE = 20,     /* the sheet, or a list of status lines, is wrong in a line, which is told */
    ELCHEPUR_REFUSED_SHEET_LONG = 21,     /* the sheet has more than 4,096 bytes */
    ELCHEPUR_REFUSED_MODEL = 23,          /* it is no model of document 01 */
    ELCHEPUR_REFUSED_BUFFER = 24,         /* the sheet or line is longer than the memory */
    ELCHEPUR_REFUSED_POINT = 25,          /* no kept step of the shelf holds the point */
    ELCHEPUR_REFUSED_MANY_LINES = 26,     /* there are more than 65,535 status lines */
    ELCHEPUR_REFUSED_TOTALS = 28,         /* totals are to be joined that no lines can have */
    ELCHEPUR_REFUSED_NOT_ENDED = 29,      /* there is no result yet */
    ELCHEPUR_REFUSED_OUTSIDE = 30         /* the table has no such entry */
};

/* ---- A run ----
 *
 * The host lends 22 parts of memory and opens a run; the answer is the run's first request. It does what the request
 * asks and hands its reply to elchepur_advance, whose answer is the next request, until one says that the run has
 * ended. elchepur_result then has the counts.
 *
 * The state of a run is two arrays, whole numbers and doubles. They hold no address: they may be copied, stored, and
 * taken up later, together with the 22 parts. Whatever numbers stand in them, they are the state of some run; one that
 * is unfit is refused with 13. An advance leaves 0 or 1 for a choice, and 0 for what is absent.
 */

enum {
    ELCHEPUR_MOST = 32,           /* the most amounts of a run, and the largest order of a matrix */
    ELCHEPUR_STATE_WORDS = 42,    /* whole numbers of a state */
    ELCHEPUR_STATE_DOUBLES = 31,  /* doubles of a state */
    ELCHEPUR_NUMBERS = 17,        /* settings that are whole numbers */
    ELCHEPUR_FLOATS = 8,          /* settings that are doubles */
    ELCHEPUR_TOLD = 3,            /* words that tell a request */
    ELCHEPUR_AT = 2,              /* points of a request */
    ELCHEPUR_RESULT_NUMBERS = 9,  /* status, counts and singular matrix of a result */
    ELCHEPUR_RESULT_FLOATS = 4,   /* doubles of a result */
    ELCHEPUR_COEFFICIENTS = 27    /* entries of the table of coefficients */
};

/* Places in `numbers`. A choice is 0 for the one and any other number for the other. */
enum {
    ELCHEPUR_NUMBER_MAX_STEPS = 0,
    ELCHEPUR_NUMBER_NEWTON_MAXITER = 1,
    ELCHEPUR_NUMBER_PREDICTIVE = 2,    /* 0: the step control doesn't look back; else it does */
    ELCHEPUR_NUMBER_DENSE_OUTPUT = 3,  /* 0: coefficients are offered for marks alone; else at every later report */
    ELCHEPUR_NUMBER_MASS = 4,          /* 0: the mass is the identity; else it is Full and stands in the part `mass` */
    ELCHEPUR_NUMBER_SOURCE = 5,        /* 0: the host makes the Jacobian; else it is made by differences */
    ELCHEPUR_NUMBER_RULE = 6,          /* 0: the Rust rule; else the book rule */
    /* 0: absent, and the float or the number of that name is not looked at; else given */
    ELCHEPUR_NUMBER_MAX_STEP_GIVEN = 7,
    ELCHEPUR_NUMBER_MIN_STEP_GIVEN = 8,
    ELCHEPUR_NUMBER_NEWTON_TOL_GIVEN = 9,
    ELCHEPUR_NUMBER_FIRST_STEP_GIVEN = 10,
    ELCHEPUR_NUMBER_NIND1_GIVEN = 11,
    ELCHEPUR_NUMBER_NIND1 = 12,
    ELCHEPUR_NUMBER_NIND2_GIVEN = 13,
    ELCHEPUR_NUMBER_NIND2 = 14,
    ELCHEPUR_NUMBER_NIND3_GIVEN = 15,
    ELCHEPUR_NUMBER_NIND3 = 16
};

/* Places in `floats`. */
enum {
    ELCHEPUR_FLOAT_UROUND = 0,
    ELCHEPUR_FLOAT_SAFETY_FACTOR = 1,
    ELCHEPUR_FLOAT_SCALE_MIN = 2,
    ELCHEPUR_FLOAT_SCALE_MAX = 3,
    ELCHEPUR_FLOAT_MAX_STEP = 4,
    ELCHEPUR_FLOAT_MIN_STEP = 5,
    ELCHEPUR_FLOAT_NEWTON_TOL = 6,
    ELCHEPUR_FLOAT_FIRST_STEP = 7
};

/* Places in `told`. */
enum {
    ELCHEPUR_TOLD_KIND = 0,   /* one of ELCHEPUR_KIND_.. */
    ELCHEPUR_TOLD_PLACE = 1,  /* one of ELCHEPUR_PLACE_.. */
    ELCHEPUR_TOLD_FLAG = 2    /* of a report 1 if coefficients are offered in `cont`, of an end the status; else 0 */
};

/* What is asked, and what `at` then holds. */
enum {
    ELCHEPUR_KIND_DERIVATIVE = 1,  /* the derivative; at: x and x */
    ELCHEPUR_KIND_JACOBIAN = 2,    /* the Jacobian of the derivative at x and y, row by row, into `jac`; at: x and x */
    ELCHEPUR_KIND_REPORT = 3,      /* nothing: a point was reached, and y has its amounts; at: the old x and the new */
    ELCHEPUR_KIND_ENDED = 4        /* nothing more; at: 0 and 0 */
};

/* Of a derivative: the part that holds the amounts, and the part to fill. `cont` stands for its first n entries. */
enum {
    ELCHEPUR_PLACE_NOWHERE = 0,  /* no derivative is asked for */
    ELCHEPUR_PLACE_Y_TO_F0 = 1,
    ELCHEPUR_PLACE_CONT_TO_Z1 = 2,
    ELCHEPUR_PLACE_CONT_TO_Z2 = 3,
    ELCHEPUR_PLACE_CONT_TO_Z3 = 4,
    ELCHEPUR_PLACE_CONT_TO_F1 = 5,
    ELCHEPUR_PLACE_Y_TO_F_ORIGIN = 6,
    ELCHEPUR_PLACE_Y_PERTURBED_TO_F_PERTURBED = 7
};

/* What the host replies. Its `value` is looked at for the last two alone. */
enum {
    ELCHEPUR_REPLY_FILLED = 1,     /* to a derivative or a Jacobian: the part is filled */
    ELCHEPUR_REPLY_CONTINUE = 2,   /* to a report: go on */
    ELCHEPUR_REPLY_INTERRUPT = 3,  /* to a report: end the run */
    ELCHEPUR_REPLY_MODIFIED = 4,   /* to a report: the host wrote new amounts into y, and the value is the new x */
    ELCHEPUR_REPLY_MARK = 5        /* to a report: offer coefficients from the x on that is the value */
};

/* How a run ended. */
enum {
    ELCHEPUR_STATUS_SUCCESS = 0,
    ELCHEPUR_STATUS_USER_INTERRUPT = 1,
    ELCHEPUR_STATUS_NEED_LARGER_NMAX = 2,
    ELCHEPUR_STATUS_STEP_SIZE_TOO_SMALL = 3,
    ELCHEPUR_STATUS_SINGULAR_MATRIX = 5
};

/* Which matrix was singular latest in the whole run: neither ever, or the status is not 5; E1; E2. */
enum {
    ELCHEPUR_SINGULAR_NONE = 0,
    ELCHEPUR_SINGULAR_REAL = 1,
    ELCHEPUR_SINGULAR_COMPLEX = 2
};

/* Places in the `numbers` and the `floats` of a result. */
enum {
    ELCHEPUR_RESULT_STATUS = 0,
    ELCHEPUR_RESULT_ODE = 1,
    ELCHEPUR_RESULT_JAC = 2,
    ELCHEPUR_RESULT_LU = 3,
    ELCHEPUR_RESULT_TOTAL = 4,
    ELCHEPUR_RESULT_ACCEPTED = 5,
    ELCHEPUR_RESULT_REJECTED = 6,
    ELCHEPUR_RESULT_SINGULAR = 7,  /* the matrix that was singular latest, with status 5 alone */
    ELCHEPUR_RESULT_COLUMN = 8,    /* its column without a pivot, from 0 */
    ELCHEPUR_RESULT_H = 0,
    ELCHEPUR_RESULT_X = 1,
    ELCHEPUR_RESULT_SMALLEST = 2,  /* |h| over the accepted attempts, NaN passed over; +0 where there is none */
    ELCHEPUR_RESULT_LARGEST = 3
};

/* Places in the `words` of a state. */
enum {
    ELCHEPUR_WORD_STAGE = 0,  /* which request is open; a number above 12 stands for 0, the first derivative */
    ELCHEPUR_WORD_PART = 1,  /* of a difference Jacobian the column that is open, of an ended run the status */
    ELCHEPUR_WORD_ODE = 2,
    ELCHEPUR_WORD_JAC = 3,
    ELCHEPUR_WORD_LU = 4,
    ELCHEPUR_WORD_TOTAL = 5,
    ELCHEPUR_WORD_ACCEPTED = 6,
    ELCHEPUR_WORD_REJECTED = 7,
    ELCHEPUR_WORD_FIRST = 8,  /* the flags of the step control; 0 is no, any other number yes */
    ELCHEPUR_WORD_LAST = 9,
    ELCHEPUR_WORD_REJECT = 10,
    ELCHEPUR_WORD_CALL_JAC = 11,
    ELCHEPUR_WORD_CALL_DECOMP = 12,
    ELCHEPUR_WORD_SINGULAR_COUNT = 13,
    ELCHEPUR_WORD_NEWT_ITER = 14,
    ELCHEPUR_WORD_MARKED = 15,  /* 0: no mark stands; else XOUT is one */
    ELCHEPUR_WORD_N = 16,  /* from here on the words but the last three stay as the opening left them */
    ELCHEPUR_WORD_NIND1 = 17,
    ELCHEPUR_WORD_NIND2 = 18,
    ELCHEPUR_WORD_NIND3 = 19,
    ELCHEPUR_WORD_LISTS = 20,  /* 0: the tolerances are RTOL and ATOL; else they stand in the parts */
    ELCHEPUR_WORD_MAX_STEPS = 21,
    ELCHEPUR_WORD_NEWTON_MAXITER = 22,
    ELCHEPUR_WORD_PREDICTIVE = 23,
    ELCHEPUR_WORD_MASS = 24,
    ELCHEPUR_WORD_SOURCE = 25,
    ELCHEPUR_WORD_DENSE_OUTPUT = 26,
    ELCHEPUR_WORD_RULE = 27,
    ELCHEPUR_WORD_HAS_MAX_STEP = 28,  /* the settings that were worked up: whether each was given, and as what */
    ELCHEPUR_WORD_HAS_MIN_STEP = 29,
    ELCHEPUR_WORD_HAS_NEWTON_TOL = 30,
    ELCHEPUR_WORD_HAS_FIRST_STEP = 31,
    ELCHEPUR_WORD_HAS_NIND1 = 32,
    ELCHEPUR_WORD_GIVEN_NIND1 = 33,
    ELCHEPUR_WORD_HAS_NIND2 = 34,
    ELCHEPUR_WORD_GIVEN_NIND2 = 35,
    ELCHEPUR_WORD_HAS_NIND3 = 36,
    ELCHEPUR_WORD_GIVEN_NIND3 = 37,
    ELCHEPUR_WORD_MADE_HERE = 38,  /* 0: the Jacobian at hand was made at another point; else at the present one */
    ELCHEPUR_WORD_SINGULAR = 39,  /* the matrix that was singular latest; a number above 2 stands for 0, none */
    ELCHEPUR_WORD_COLUMN = 40,  /* its column without a pivot; not looked at where there was none */
    ELCHEPUR_WORD_STRIDES = 41  /* 0: SMALLEST and LARGEST are not looked at, there was no stride yet */
};

/* Places in the `doubles` of a state. */
enum {
    ELCHEPUR_DOUBLE_X = 0,
    ELCHEPUR_DOUBLE_XOLD = 1,
    ELCHEPUR_DOUBLE_XPH = 2,
    ELCHEPUR_DOUBLE_H = 3,
    ELCHEPUR_DOUBLE_HOLD = 4,
    ELCHEPUR_DOUBLE_HNEW = 5,
    ELCHEPUR_DOUBLE_HHFAC = 6,
    ELCHEPUR_DOUBLE_H_ACC = 7,
    ELCHEPUR_DOUBLE_ERR_ACC = 8,
    ELCHEPUR_DOUBLE_FACCON = 9,
    ELCHEPUR_DOUBLE_THETA = 10,
    ELCHEPUR_DOUBLE_DYNOLD = 11,
    ELCHEPUR_DOUBLE_THQOLD = 12,
    ELCHEPUR_DOUBLE_XOUT = 13,  /* the mark */
    ELCHEPUR_DOUBLE_NEWTON_TOL = 14,  /* from here on the doubles but the last two stay as the opening left them */
    ELCHEPUR_DOUBLE_XEND = 15,
    ELCHEPUR_DOUBLE_POSNEG = 16,
    ELCHEPUR_DOUBLE_HMAX = 17,
    ELCHEPUR_DOUBLE_HMIN = 18,
    ELCHEPUR_DOUBLE_RTOL = 19,
    ELCHEPUR_DOUBLE_ATOL = 20,
    ELCHEPUR_DOUBLE_UROUND = 21,
    ELCHEPUR_DOUBLE_SAFETY_FACTOR = 22,
    ELCHEPUR_DOUBLE_SCALE_MIN = 23,
    ELCHEPUR_DOUBLE_SCALE_MAX = 24,
    ELCHEPUR_DOUBLE_GIVEN_MAX_STEP = 25,  /* the settings that were worked up, as given */
    ELCHEPUR_DOUBLE_GIVEN_MIN_STEP = 26,
    ELCHEPUR_DOUBLE_GIVEN_NEWTON_TOL = 27,
    ELCHEPUR_DOUBLE_GIVEN_FIRST_STEP = 28,
    ELCHEPUR_DOUBLE_SMALLEST = 29,  /* the strides so far; one below 0 is unfit */
    ELCHEPUR_DOUBLE_LARGEST = 30
};

/* Both arrays of a state. This struct is for the host alone; the macro behind it writes them out as the calls take
 * them. */
struct elchepur_state {
    size_t words[ELCHEPUR_STATE_WORDS];
    double doubles[ELCHEPUR_STATE_DOUBLES];
};

#define ELCHEPUR_STATE(s) (s).words, (s).doubles

/* The 22 parts under the Rust's names: `cont` has 4 n entries, the matrices mass, jac, e1, e2r and e2i have n n each,
 * row by row, and every other part has n, in every mode. This struct is for the host alone; the macro behind it writes
 * a host's parts out as the calls take them. */
struct elchepur_memory {
    size_t n;
    double *y, *f0, *scal, *cont;
    double *z1, *z2, *z3, *f1, *f2, *f3;
    double *rtol, *atol, *mass, *jac;
    double *e1, *e2r, *e2i;
    size_t *ip1, *ip2;
    double *y_perturbed, *f_perturbed, *f_origin;
};

#define ELCHEPUR_PARTS(m) \
    (m).y, (m).n, (m).f0, (m).n, (m).scal, (m).n, (m).cont, 4 * (m).n, \
    (m).z1, (m).n, (m).z2, (m).n, (m).z3, (m).n, (m).f1, (m).n, (m).f2, (m).n, (m).f3, (m).n, \
    (m).rtol, (m).n, (m).atol, (m).n, (m).mass, (m).n * (m).n, (m).jac, (m).n * (m).n, \
    (m).e1, (m).n * (m).n, (m).e2r, (m).n * (m).n, (m).e2i, (m).n * (m).n, (m).ip1, (m).n, (m).ip2, (m).n, \
    (m).y_perturbed, (m).n, (m).f_perturbed, (m).n, (m).f_origin, (m).n

/* How many doubles and how many pivots the parts of n amounts take together. */
#define ELCHEPUR_DOUBLES(n) (18 * (n) + 5 * (n) * (n))
#define ELCHEPUR_PIVOTS(n) (2 * (n))

/* Writes the default settings: the Rust's, with a Full mass, a Jacobian by differences and the Rust rule; what is
 * absent is 0. */
void elchepur_default_settings(uint64_t numbers[ELCHEPUR_NUMBERS], double floats[ELCHEPUR_FLOATS]);

/* Opens a run of n amounts from x0 to xend. Given are the amounts y; `mass`, if it is Full; and the tolerances: the
 * two scalars where `lists` is 0, else the parts rtol and atol. Refuses with 1 to 12, in that order. Else it converts
 * given lists of tolerances where they stand, sets every other part to zero, and writes the state and the first
 * request. */
uint64_t elchepur_open(
    const uint64_t numbers[ELCHEPUR_NUMBERS], const double floats[ELCHEPUR_FLOATS],
    size_t n, double x0, double xend, uint64_t lists, double rtol_scalar, double atol_scalar,
    size_t words[ELCHEPUR_STATE_WORDS], double doubles[ELCHEPUR_STATE_DOUBLES],
    uint64_t told[ELCHEPUR_TOLD], double at[ELCHEPUR_AT],
    const double *y, size_t y_count, double *f0, size_t f0_count, double *scal, size_t scal_count,
    double *cont, size_t cont_count,
    double *z1, size_t z1_count, double *z2, size_t z2_count, double *z3, size_t z3_count,
    double *f1, size_t f1_count, double *f2, size_t f2_count, double *f3, size_t f3_count,
    double *rtol, size_t rtol_count, double *atol, size_t atol_count,
    double *mass, size_t mass_count, double *jac, size_t jac_count,
    double *e1, size_t e1_count, double *e2r, size_t e2r_count, double *e2i, size_t e2i_count,
    size_t *ip1, size_t ip1_count, size_t *ip2, size_t ip2_count,
    double *y_perturbed, size_t y_perturbed_count, double *f_perturbed, size_t f_perturbed_count,
    double *f_origin, size_t f_origin_count);

/* Hands a reply to the run and writes its new state and its next request. Between two calls a host may write the part
 * that it was asked to fill, with MODIFIED also y, and nothing else. Refuses with 13, 14, 15, in that order; a reply
 * that is none of ELCHEPUR_REPLY_.. is 15. */
uint64_t elchepur_advance(
    size_t words[ELCHEPUR_STATE_WORDS], double doubles[ELCHEPUR_STATE_DOUBLES],
    uint64_t reply, double value, uint64_t told[ELCHEPUR_TOLD], double at[ELCHEPUR_AT],
    double *y, size_t y_count, const double *f0, size_t f0_count, double *scal, size_t scal_count,
    double *cont, size_t cont_count,
    double *z1, size_t z1_count, double *z2, size_t z2_count, double *z3, size_t z3_count,
    double *f1, size_t f1_count, double *f2, size_t f2_count, double *f3, size_t f3_count,
    const double *rtol, size_t rtol_count, const double *atol, size_t atol_count,
    const double *mass, size_t mass_count, double *jac, size_t jac_count,
    double *e1, size_t e1_count, double *e2r, size_t e2r_count, double *e2i, size_t e2i_count,
    size_t *ip1, size_t ip1_count, size_t *ip2, size_t ip2_count,
    double *y_perturbed, size_t y_perturbed_count, double *f_perturbed, size_t f_perturbed_count,
    double *f_origin, size_t f_origin_count);

/* Writes how a run ended: its status and counts, with status 5 the matrix that was singular latest and its column, its
 * h, the point reached and the smallest and the largest stride. Refuses with 29 before the run has ended. */
uint64_t elchepur_result(
    const size_t words[ELCHEPUR_STATE_WORDS], const double doubles[ELCHEPUR_STATE_DOUBLES],
    uint64_t numbers[ELCHEPUR_RESULT_NUMBERS], double floats[ELCHEPUR_RESULT_FLOATS]);

/* ---- Dense output: the amounts within a step, at a report that offers coefficients in `cont` ---- */

/* The step that the run holds: what the two functions below take as h, with the report's old x as xold. Under the Rust
 * rule it need not be the distance between the report's two points. */
double elchepur_held_step(const size_t words[ELCHEPUR_STATE_WORDS], const double doubles[ELCHEPUR_STATE_DOUBLES]);

/* Writes into yi, from its first entry on, the amounts at xi, from the coefficients cont of the step from xold by h.
 * They are a quarter as many as cont has entries, rounded down; further entries of yi stay. Refuses with 19. */
uint64_t elchepur_interpolate(
    double xi, double *yi, size_t yi_count, const double *cont, size_t cont_count, double xold, double h);

/* Writes the left and the right end of the step from xold by h. */
void elchepur_bounds(double xold, double h, double ends[2]);

/* ---- The matrix routines, of order 1 to 32. A matrix has n n entries, row by row; pivots are n. ---- */

/* Decomposes a in place: the multipliers, negated, below the diagonal, and in ip[k] the row exchanged with row k.
 * Refuses with 1, 16, 17; with 17, and then alone, it writes the column, from 0, that has no pivot. */
uint64_t elchepur_lu_decomp(
    size_t n, double *a, size_t a_count, size_t *ip, size_t ip_count, size_t *column);

/* The same of a complex matrix, real and imaginary parts apart. */
uint64_t elchepur_lu_decomp_complex(
    size_t n, double *ar, size_t ar_count, double *ai, size_t ai_count, size_t *ip, size_t ip_count, size_t *column);

/* Solves for the right side b, of n entries, in place, with a matrix that was decomposed. Refuses with 1, 16, 18. */
uint64_t elchepur_lin_solve(
    size_t n, const double *a, size_t a_count, double *b, size_t b_count, const size_t *ip, size_t ip_count);

/* The same of a complex matrix and right side. */
uint64_t elchepur_lin_solve_complex(
    size_t n, const double *ar, size_t ar_count, const double *ai, size_t ai_count,
    double *br, size_t br_count, double *bi, size_t bi_count, const size_t *ip, size_t ip_count);

/* ---- The scalar routines ---- */

double elchepur_sqrt(double x);                       /* IEEE 754's square root */
double elchepur_root(uint64_t m, double v);           /* the root of order m, 1 to 17, by halving; else NaN */
double elchepur_power(uint8_t n, double x);           /* x to the whole power n: products from 1 */
double elchepur_two_thirds(double v);                 /* the third root squared */
double elchepur_four_fifths(double v);                /* the fifth root's fourth power */
double elchepur_quarter(double v);                    /* the fourth root */
double elchepur_inverse_root(uint64_t m, double v);   /* 1 divided by the root of order m */
double elchepur_abs(double x);
double elchepur_max(double a, double b);              /* a NaN yields the other; of two equal ones the first */
double elchepur_min(double a, double b);              /* likewise */
/* low if x is below it, else high if x is above it, else x */
double elchepur_clamp(double x, double low, double high);
double elchepur_signum(double x);                     /* 1 with the sign of x, a zero's too; NaN of a NaN */

/* Places in the table of coefficients, under the Rust's names. */
enum {
    ELCHEPUR_COEFFICIENT_C1 = 0, ELCHEPUR_COEFFICIENT_C2 = 1, ELCHEPUR_COEFFICIENT_C1M1 = 2,
    ELCHEPUR_COEFFICIENT_C2M1 = 3, ELCHEPUR_COEFFICIENT_C1MC2 = 4, ELCHEPUR_COEFFICIENT_DD1 = 5,
    ELCHEPUR_COEFFICIENT_DD2 = 6, ELCHEPUR_COEFFICIENT_DD3 = 7, ELCHEPUR_COEFFICIENT_U1 = 8,
    ELCHEPUR_COEFFICIENT_ALPH = 9, ELCHEPUR_COEFFICIENT_BETA = 10, ELCHEPUR_COEFFICIENT_T00 = 11,
    ELCHEPUR_COEFFICIENT_T01 = 12, ELCHEPUR_COEFFICIENT_T02 = 13, ELCHEPUR_COEFFICIENT_T10 = 14,
    ELCHEPUR_COEFFICIENT_T11 = 15, ELCHEPUR_COEFFICIENT_T12 = 16, ELCHEPUR_COEFFICIENT_T20 = 17,
    ELCHEPUR_COEFFICIENT_TI00 = 18, ELCHEPUR_COEFFICIENT_TI01 = 19, ELCHEPUR_COEFFICIENT_TI02 = 20,
    ELCHEPUR_COEFFICIENT_TI10 = 21, ELCHEPUR_COEFFICIENT_TI11 = 22, ELCHEPUR_COEFFICIENT_TI12 = 23,
    ELCHEPUR_COEFFICIENT_TI20 = 24, ELCHEPUR_COEFFICIENT_TI21 = 25, ELCHEPUR_COEFFICIENT_TI22 = 26
};

/* Writes entry k of the table. Refuses with 30. */
uint64_t elchepur_coefficient(size_t k, double *value);

/* ---- Sheets: what the program `decay` makes of a model sheet ---- */

enum {
    ELCHEPUR_PRINTED = 1024,      /* bytes of room for what is printed of a sheet */
    ELCHEPUR_PRINTED_MOST = 771   /* no sheet has more printed of it */
};

/* Writes over the first bytes of `printed` what `decay` prints of a sheet, and answers how many bytes these are; no
 * zero byte ends them, and the others stay as they were. A sheet is any bytes at all: what is wrong with them is
 * printed, as in `refused 20 7`. It runs the model to its end, which may take as many steps as the sheet permits, up
 * to 1,000,000. */
uint64_t elchepur_forecast(const uint8_t *sheet, size_t sheet_count, uint8_t printed[ELCHEPUR_PRINTED]);

/* ---- Sheets: read into plain arrays, and written out of them ---- */

enum {
    ELCHEPUR_SHEET_SETTINGS = 6,      /* x0, xend, rtol and atol by their bits, max_steps, the rule's number */
    ELCHEPUR_SHEET_COUNTS = 2,        /* how many species and how many reactions there are */
    ELCHEPUR_SHEET_AMOUNTS = 32,      /* the amounts, by their bits */
    ELCHEPUR_SHEET_RATES = 64,        /* the rates, by their bits */
    ELCHEPUR_SHEET_SPECIES = 256,     /* four to a reaction, two reactants and two products: from 1, 0 is none */
    ELCHEPUR_SHEET_MOST = 4096        /* no sheet has more bytes */
};

/* Reads a sheet, which is any bytes at all, into the arrays; entries behind those that it has stay as they were.
 * Refuses with 21, then 20; with 20 `line` becomes the first wrong line, from 1, and all else stays. */
uint64_t elchepur_read_sheet(
    const uint8_t *sheet, size_t sheet_count, uint64_t settings[ELCHEPUR_SHEET_SETTINGS],
    size_t counts[ELCHEPUR_SHEET_COUNTS], uint64_t amounts[ELCHEPUR_SHEET_AMOUNTS],
    uint64_t rates[ELCHEPUR_SHEET_RATES], size_t species[ELCHEPUR_SHEET_SPECIES], size_t *line);

/* Writes the sheet of the model in the arrays over the first of `sheet_count` bytes and makes `length` how many these
 * are; no zero byte ends them, and the others stay as they were. A sheet that was read is written back byte for byte,
 * a NaN's payload too. Refuses with 23 what no sheet reads to, then with 24 a sheet that is longer than the memory. */
uint64_t elchepur_write_sheet(
    const uint64_t settings[ELCHEPUR_SHEET_SETTINGS], const size_t counts[ELCHEPUR_SHEET_COUNTS],
    const uint64_t amounts[ELCHEPUR_SHEET_AMOUNTS], const uint64_t rates[ELCHEPUR_SHEET_RATES],
    const size_t species[ELCHEPUR_SHEET_SPECIES], uint8_t *sheet, size_t sheet_count, size_t *length);

/* ---- The totals of a night: status lines as `decay` prints them, taken in pieces of any size ---- */

/* A night is held in words: start it, feed it pieces, and have it told. Words that no call made are a night as well, if
 * a senseless one: nothing is refused for them, and nothing goes wrong. */
enum {
    ELCHEPUR_NIGHT = 37,                /* words of a night */
    ELCHEPUR_TOTALS = 15,               /* numbers of its totals, at these places: */
    ELCHEPUR_TOTALS_LINES = 0,          /* how many lines there are */
    ELCHEPUR_TOTALS_STATUS0 = 1,        /* how many of them have each status */
    ELCHEPUR_TOTALS_STATUS1 = 2,
    ELCHEPUR_TOTALS_STATUS2 = 3,
    ELCHEPUR_TOTALS_STATUS3 = 4,
    ELCHEPUR_TOTALS_STATUS5 = 5,
    ELCHEPUR_TOTALS_STATUS7 = 6,
    ELCHEPUR_TOTALS_ACCEPTED = 7,       /* the sums of the six counts */
    ELCHEPUR_TOTALS_REJECTED = 8,
    ELCHEPUR_TOTALS_TOTAL = 9,
    ELCHEPUR_TOTALS_ODE = 10,
    ELCHEPUR_TOTALS_JAC = 11,
    ELCHEPUR_TOTALS_LU = 12,
    ELCHEPUR_TOTALS_LARGEST = 13,       /* the largest ode, and the number of its first line: 0 of no lines */
    ELCHEPUR_TOTALS_PLACE = 14,
    ELCHEPUR_TOTALS_PRINTED = 4096      /* bytes of room for what is printed of a night */
};

/* Begins a night. */
void elchepur_totals_start(uint64_t night[ELCHEPUR_NIGHT]);

/* Takes the next piece, which may end anywhere in a line. */
void elchepur_totals_fed(uint64_t night[ELCHEPUR_NIGHT], const uint8_t *piece, size_t piece_count);

/* Writes the totals of all that was taken, where nothing more comes. Refuses with 20, and `line` becomes the first
 * wrong line, from 1, or with 26; there are no totals then, and what else is lent stays as it was. */
uint64_t elchepur_totals_told(
    const uint64_t night[ELCHEPUR_NIGHT], uint64_t totals[ELCHEPUR_TOTALS], uint64_t *line);

/* Writes over the first bytes of `printed` what the program `totals` prints of it, and answers how many bytes these
 * are; no zero byte ends them, and the others stay as they were. A refusal is printed, as in `refused 20 7`. */
uint64_t elchepur_totals_printed(const uint64_t night[ELCHEPUR_NIGHT], uint8_t printed[ELCHEPUR_TOTALS_PRINTED]);

/* Writes the totals of two depots in one, the second's lines behind the first's: the place of its largest ode moves by
 * the first's lines, and of equal ones the first's stands. Refuses with 28 where a side has more than 65,535 lines,
 * runs per status that don't sum to them, a sum above 10,000,000,000 times them, a largest ode above its ode sum, a
 * place above its lines, or a place of 0 with lines; then with 26. Totals that were told are never refused by 28. */
uint64_t elchepur_totals_join(
    const uint64_t first[ELCHEPUR_TOTALS], const uint64_t second[ELCHEPUR_TOTALS], uint64_t joined[ELCHEPUR_TOTALS]);

/* ---- A shelf of recent steps, in memory beside a run ---- */

enum {
    ELCHEPUR_SHELF = 2,           /* how many steps are kept, and the place of the next */
    ELCHEPUR_SHELF_STEPS = 48,    /* the most that are kept: of n amounts 48 * 4 * n coefficients */
    ELCHEPUR_SHELF_ENDS = 96      /* the old point and the held step of each */
};

/* Opens a shelf, or empties it, as a reply 'modified' asks. */
void elchepur_empty_shelf(size_t shelf[ELCHEPUR_SHELF]);

/* Keeps a step: at each report after the first, with its `cont`, its `xold` and what elchepur_held_step gives. Where 48
 * are kept the oldest gives up its room. Refuses with 2, then 13, and writes nothing then. */
uint64_t elchepur_put_on_shelf(
    size_t shelf[ELCHEPUR_SHELF], const double *cont, size_t cont_count, double xold, double h,
    double *coefficients, size_t coefficients_count, double *ends, size_t ends_count);

/* Writes to the target what elchepur_interpolate gives at x for the newest kept step whose bounds hold x, ends
 * included. Refuses with 2, then 13, then 25 where no kept step holds x, and writes nothing then. */
uint64_t elchepur_ask_shelf(
    const size_t shelf[ELCHEPUR_SHELF], double x, double *target, size_t target_count,
    const double *coefficients, size_t coefficients_count, const double *ends, size_t ends_count);

/* ---- Points as CSV (RFC 4180): a header, then a record a point, CRLF after each, no quotes ---- */

enum {
    ELCHEPUR_CSV_MOST = 826   /* no record has more bytes, and no header */
};

/* Writes the header `x,y1,..,yn` with its CRLF over the first bytes of `out`, and how many bytes these are to
 * `written`; no zero byte ends them, and the others stay as they were. Refuses with 1, then 24. */
uint64_t elchepur_csv_header(size_t n, uint8_t *out, size_t out_count, size_t *written);

/* The same of the record of a point: x and its amounts, whose count is n. A number is in C's hexadecimal form, as %a
 * has it in most libraries: `0x1.8p+1`, with no zeros at the end of the fraction, a subnormal as `0x0.8p-1022`, zero as
 * `0x0p+0` or `-0x0p+0`; and `inf`, `-inf`, `nan` for every NaN. strtod reads each back to its bits, but a NaN's.
 * Refuses with 1, then 24. */
uint64_t elchepur_csv_record(
    double x, const double *amounts, size_t amounts_count, uint8_t *out, size_t out_count, size_t *written);

#ifdef __cplusplus
}
#endif

#endif
