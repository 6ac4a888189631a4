"""The numbers, parts and functions of include/elchepur.h.

Written by tests/python/python_module.py, not by hand."""

DONE = 0
REFUSED_ORDER = 1
REFUSED_PART = 2
REFUSED_NOT_FINITE = 3
REFUSED_MAX_STEPS = 4
REFUSED_UROUND = 5
REFUSED_SAFETY_FACTOR = 6
REFUSED_SCALES = 7
REFUSED_NEWTON_MAXITER = 8
REFUSED_TOLERANCE = 9
REFUSED_PARTITION = 10
REFUSED_FIRST_STEP = 11
REFUSED_STEP_LIMITS = 12
REFUSED_UNFIT = 13
REFUSED_HAS_ENDED = 14
REFUSED_REPLY = 15
REFUSED_LENGTH = 16
REFUSED_SINGULAR = 17
REFUSED_PIVOT = 18
REFUSED_TARGET = 19
REFUSED_SHEET_LINE = 20
REFUSED_SHEET_LONG = 21
REFUSED_MODEL = 23
REFUSED_BUFFER = 24
REFUSED_POINT = 25
REFUSED_MANY_LINES = 26
REFUSED_TOTALS = 28
REFUSED_NOT_ENDED = 29
REFUSED_OUTSIDE = 30
MOST = 32
STATE_WORDS = 42
STATE_DOUBLES = 31
NUMBERS = 17
FLOATS = 8
TOLD = 3
AT = 2
RESULT_NUMBERS = 9
RESULT_FLOATS = 4
COEFFICIENTS = 27
NUMBER_MAX_STEPS = 0
NUMBER_NEWTON_MAXITER = 1
NUMBER_PREDICTIVE = 2
NUMBER_DENSE_OUTPUT = 3
NUMBER_MASS = 4
NUMBER_SOURCE = 5
NUMBER_RULE = 6
NUMBER_MAX_STEP_GIVEN = 7
NUMBER_MIN_STEP_GIVEN = 8
NUMBER_NEWTON_TOL_GIVEN = 9
NUMBER_FIRST_STEP_GIVEN = 10
NUMBER_NIND1_GIVEN = 11
NUMBER_NIND1 = 12
NUMBER_NIND2_GIVEN = 13
NUMBER_NIND2 = 14
NUMBER_NIND3_GIVEN = 15
NUMBER_NIND3 = 16
FLOAT_UROUND = 0
FLOAT_SAFETY_FACTOR = 1
FLOAT_SCALE_MIN = 2
FLOAT_SCALE_MAX = 3
FLOAT_MAX_STEP = 4
FLOAT_MIN_STEP = 5
FLOAT_NEWTON_TOL = 6
FLOAT_FIRST_STEP = 7
TOLD_KIND = 0
TOLD_PLACE = 1
TOLD_FLAG = 2
KIND_DERIVATIVE = 1
KIND_JACOBIAN = 2
KIND_REPORT = 3
KIND_ENDED = 4
PLACE_NOWHERE = 0
PLACE_Y_TO_F0 = 1
PLACE_CONT_TO_Z1 = 2
PLACE_CONT_TO_Z2 = 3
PLACE_CONT_TO_Z3 = 4
PLACE_CONT_TO_F1 = 5
PLACE_Y_TO_F_ORIGIN = 6
PLACE_Y_PERTURBED_TO_F_PERTURBED = 7
REPLY_FILLED = 1
REPLY_CONTINUE = 2
REPLY_INTERRUPT = 3
REPLY_MODIFIED = 4
REPLY_MARK = 5
STATUS_SUCCESS = 0
STATUS_USER_INTERRUPT = 1
STATUS_NEED_LARGER_NMAX = 2
STATUS_STEP_SIZE_TOO_SMALL = 3
STATUS_SINGULAR_MATRIX = 5
SINGULAR_NONE = 0
SINGULAR_REAL = 1
SINGULAR_COMPLEX = 2
RESULT_STATUS = 0
RESULT_ODE = 1
RESULT_JAC = 2
RESULT_LU = 3
RESULT_TOTAL = 4
RESULT_ACCEPTED = 5
RESULT_REJECTED = 6
RESULT_SINGULAR = 7
RESULT_COLUMN = 8
RESULT_H = 0
RESULT_X = 1
RESULT_SMALLEST = 2
RESULT_LARGEST = 3
WORD_STAGE = 0
WORD_PART = 1
WORD_ODE = 2
WORD_JAC = 3
WORD_LU = 4
WORD_TOTAL = 5
WORD_ACCEPTED = 6
WORD_REJECTED = 7
WORD_FIRST = 8
WORD_LAST = 9
WORD_REJECT = 10
WORD_CALL_JAC = 11
WORD_CALL_DECOMP = 12
WORD_SINGULAR_COUNT = 13
WORD_NEWT_ITER = 14
WORD_MARKED = 15
WORD_N = 16
WORD_NIND1 = 17
WORD_NIND2 = 18
WORD_NIND3 = 19
WORD_LISTS = 20
WORD_MAX_STEPS = 21
WORD_NEWTON_MAXITER = 22
WORD_PREDICTIVE = 23
WORD_MASS = 24
WORD_SOURCE = 25
WORD_DENSE_OUTPUT = 26
WORD_RULE = 27
WORD_HAS_MAX_STEP = 28
WORD_HAS_MIN_STEP = 29
WORD_HAS_NEWTON_TOL = 30
WORD_HAS_FIRST_STEP = 31
WORD_HAS_NIND1 = 32
WORD_GIVEN_NIND1 = 33
WORD_HAS_NIND2 = 34
WORD_GIVEN_NIND2 = 35
WORD_HAS_NIND3 = 36
WORD_GIVEN_NIND3 = 37
WORD_MADE_HERE = 38
WORD_SINGULAR = 39
WORD_COLUMN = 40
WORD_STRIDES = 41
DOUBLE_X = 0
DOUBLE_XOLD = 1
DOUBLE_XPH = 2
DOUBLE_H = 3
DOUBLE_HOLD = 4
DOUBLE_HNEW = 5
DOUBLE_HHFAC = 6
DOUBLE_H_ACC = 7
DOUBLE_ERR_ACC = 8
DOUBLE_FACCON = 9
DOUBLE_THETA = 10
DOUBLE_DYNOLD = 11
DOUBLE_THQOLD = 12
DOUBLE_XOUT = 13
DOUBLE_NEWTON_TOL = 14
DOUBLE_XEND = 15
DOUBLE_POSNEG = 16
DOUBLE_HMAX = 17
DOUBLE_HMIN = 18
DOUBLE_RTOL = 19
DOUBLE_ATOL = 20
DOUBLE_UROUND = 21
DOUBLE_SAFETY_FACTOR = 22
DOUBLE_SCALE_MIN = 23
DOUBLE_SCALE_MAX = 24
DOUBLE_GIVEN_MAX_STEP = 25
DOUBLE_GIVEN_MIN_STEP = 26
DOUBLE_GIVEN_NEWTON_TOL = 27
DOUBLE_GIVEN_FIRST_STEP = 28
DOUBLE_SMALLEST = 29
DOUBLE_LARGEST = 30
PRINTED = 1024
PRINTED_MOST = 771
SHEET_SETTINGS = 6
SHEET_COUNTS = 2
SHEET_AMOUNTS = 32
SHEET_RATES = 64
SHEET_SPECIES = 256
SHEET_MOST = 4096
NIGHT = 37
TOTALS = 15
TOTALS_LINES = 0
TOTALS_STATUS0 = 1
TOTALS_STATUS1 = 2
TOTALS_STATUS2 = 3
TOTALS_STATUS3 = 4
TOTALS_STATUS5 = 5
TOTALS_STATUS7 = 6
TOTALS_ACCEPTED = 7
TOTALS_REJECTED = 8
TOTALS_TOTAL = 9
TOTALS_ODE = 10
TOTALS_JAC = 11
TOTALS_LU = 12
TOTALS_LARGEST = 13
TOTALS_PLACE = 14
TOTALS_PRINTED = 4096
SHELF = 2
SHELF_STEPS = 48
SHELF_ENDS = 96
CSV_MOST = 826

# The header's words for each number that refuses.
REFUSALS = {
    1: "n is not 1 to 32",
    2: "a lent part has the wrong length",
    3: "an end, amount, mass entry, tolerance or setting is not finite",
    4: "max_steps is not 1 to 1,000,000",
    5: "uround <= 1e-35 or >= 1",
    6: "safety_factor <= 1e-4 or >= 1",
    7: "scale_min <= 0 or not below scale_max",
    8: "newton_maxiter is not 1 to 16",
    9: "an rtol <= 0 or an atol < 0",
    10: "nind1 is given and the three don't sum to n, or only others are and exceed n",
    11: "first_step is given as 0",
    12: "max_step < 0, or min_step above the step ceiling",
    13: "the state is unfit",
    14: "the run has ended",
    15: "the reply is not of the kind asked for",
    16: "matrix routine: a length is not n * n or n",
    17: "the matrix is singular",
    18: "one of the first n - 1 pivots is n or more",
    19: "the target is shorter than a quarter of the coefficients",
    20: "the sheet, or a list of status lines, is wrong in a line, which is told",
    21: "the sheet has more than 4,096 bytes",
    23: "it is no model of document 01",
    24: "the sheet or line is longer than the memory",
    25: "no kept step of the shelf holds the point",
    26: "there are more than 65,535 status lines",
    28: "totals are to be joined that no lines can have",
    29: "there is no result yet",
    30: "the table has no such entry",
}

# The parts in the order of a call, with their types: how many times n and how many times n n entries.
PARTS = (
    ("y", "double", 1, 0),
    ("f0", "double", 1, 0),
    ("scal", "double", 1, 0),
    ("cont", "double", 4, 0),
    ("z1", "double", 1, 0),
    ("z2", "double", 1, 0),
    ("z3", "double", 1, 0),
    ("f1", "double", 1, 0),
    ("f2", "double", 1, 0),
    ("f3", "double", 1, 0),
    ("rtol", "double", 1, 0),
    ("atol", "double", 1, 0),
    ("mass", "double", 0, 1),
    ("jac", "double", 0, 1),
    ("e1", "double", 0, 1),
    ("e2r", "double", 0, 1),
    ("e2i", "double", 0, 1),
    ("ip1", "size_t", 1, 0),
    ("ip2", "size_t", 1, 0),
    ("y_perturbed", "double", 1, 0),
    ("f_perturbed", "double", 1, 0),
    ("f_origin", "double", 1, 0),
)

# What each function gives and takes; an array and a slice are pointers.
FUNCTIONS = {
    "elchepur_default_settings": (
        "void", "uint64_t *", "double *",
    ),
    "elchepur_open": (
        "uint64_t", "const uint64_t *", "const double *", "size_t", "double", "double", "uint64_t", "double", "double",
        "size_t *", "double *", "uint64_t *", "double *", "const double *", "size_t", "double *", "size_t", "double *",
        "size_t", "double *", "size_t", "double *", "size_t", "double *", "size_t", "double *", "size_t", "double *",
        "size_t", "double *", "size_t", "double *", "size_t", "double *", "size_t", "double *", "size_t", "double *",
        "size_t", "double *", "size_t", "double *", "size_t", "double *", "size_t", "double *", "size_t", "size_t *",
        "size_t", "size_t *", "size_t", "double *", "size_t", "double *", "size_t", "double *", "size_t",
    ),
    "elchepur_advance": (
        "uint64_t", "size_t *", "double *", "uint64_t", "double", "uint64_t *", "double *", "double *", "size_t",
        "const double *", "size_t", "double *", "size_t", "double *", "size_t", "double *", "size_t", "double *",
        "size_t", "double *", "size_t", "double *", "size_t", "double *", "size_t", "double *", "size_t",
        "const double *", "size_t", "const double *", "size_t", "const double *", "size_t", "double *", "size_t",
        "double *", "size_t", "double *", "size_t", "double *", "size_t", "size_t *", "size_t", "size_t *", "size_t",
        "double *", "size_t", "double *", "size_t", "double *", "size_t",
    ),
    "elchepur_result": (
        "uint64_t", "const size_t *", "const double *", "uint64_t *", "double *",
    ),
    "elchepur_held_step": (
        "double", "const size_t *", "const double *",
    ),
    "elchepur_interpolate": (
        "uint64_t", "double", "double *", "size_t", "const double *", "size_t", "double", "double",
    ),
    "elchepur_bounds": (
        "void", "double", "double", "double *",
    ),
    "elchepur_lu_decomp": (
        "uint64_t", "size_t", "double *", "size_t", "size_t *", "size_t", "size_t *",
    ),
    "elchepur_lu_decomp_complex": (
        "uint64_t", "size_t", "double *", "size_t", "double *", "size_t", "size_t *", "size_t", "size_t *",
    ),
    "elchepur_lin_solve": (
        "uint64_t", "size_t", "const double *", "size_t", "double *", "size_t", "const size_t *", "size_t",
    ),
    "elchepur_lin_solve_complex": (
        "uint64_t", "size_t", "const double *", "size_t", "const double *", "size_t", "double *", "size_t", "double *",
        "size_t", "const size_t *", "size_t",
    ),
    "elchepur_sqrt": (
        "double", "double",
    ),
    "elchepur_root": (
        "double", "uint64_t", "double",
    ),
    "elchepur_power": (
        "double", "uint8_t", "double",
    ),
    "elchepur_two_thirds": (
        "double", "double",
    ),
    "elchepur_four_fifths": (
        "double", "double",
    ),
    "elchepur_quarter": (
        "double", "double",
    ),
    "elchepur_inverse_root": (
        "double", "uint64_t", "double",
    ),
    "elchepur_abs": (
        "double", "double",
    ),
    "elchepur_max": (
        "double", "double", "double",
    ),
    "elchepur_min": (
        "double", "double", "double",
    ),
    "elchepur_clamp": (
        "double", "double", "double", "double",
    ),
    "elchepur_signum": (
        "double", "double",
    ),
    "elchepur_coefficient": (
        "uint64_t", "size_t", "double *",
    ),
    "elchepur_forecast": (
        "uint64_t", "const uint8_t *", "size_t", "uint8_t *",
    ),
    "elchepur_read_sheet": (
        "uint64_t", "const uint8_t *", "size_t", "uint64_t *", "size_t *", "uint64_t *", "uint64_t *", "size_t *",
        "size_t *",
    ),
    "elchepur_write_sheet": (
        "uint64_t", "const uint64_t *", "const size_t *", "const uint64_t *", "const uint64_t *", "const size_t *",
        "uint8_t *", "size_t", "size_t *",
    ),
    "elchepur_totals_start": (
        "void", "uint64_t *",
    ),
    "elchepur_totals_fed": (
        "void", "uint64_t *", "const uint8_t *", "size_t",
    ),
    "elchepur_totals_told": (
        "uint64_t", "const uint64_t *", "uint64_t *", "uint64_t *",
    ),
    "elchepur_totals_printed": (
        "uint64_t", "const uint64_t *", "uint8_t *",
    ),
    "elchepur_totals_join": (
        "uint64_t", "const uint64_t *", "const uint64_t *", "uint64_t *",
    ),
    "elchepur_empty_shelf": (
        "void", "size_t *",
    ),
    "elchepur_put_on_shelf": (
        "uint64_t", "size_t *", "const double *", "size_t", "double", "double", "double *", "size_t", "double *",
        "size_t",
    ),
    "elchepur_ask_shelf": (
        "uint64_t", "const size_t *", "double", "double *", "size_t", "const double *", "size_t", "const double *",
        "size_t",
    ),
    "elchepur_csv_header": (
        "uint64_t", "size_t", "uint8_t *", "size_t", "size_t *",
    ),
    "elchepur_csv_record": (
        "uint64_t", "double", "const double *", "size_t", "uint8_t *", "size_t", "size_t *",
    ),
}
