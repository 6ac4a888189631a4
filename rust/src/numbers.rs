//! Numbers of include/elchepur.h, each under its name there without `ELCHEPUR_`. tests/header.rs holds them to it.

pub const MOST: usize = 32;
pub const STATE_WORDS: usize = 42;
pub const STATE_DOUBLES: usize = 31;
pub const NUMBERS: usize = 17;
pub const FLOATS: usize = 8;
pub const TOLD: usize = 3;
pub const AT: usize = 2;
pub const RESULT_NUMBERS: usize = 9;
pub const RESULT_FLOATS: usize = 4;
pub const PRINTED: usize = 1024;
pub const SHEET_SETTINGS: usize = 6;
pub const SHEET_COUNTS: usize = 2;
pub const SHEET_AMOUNTS: usize = 32;
pub const SHEET_RATES: usize = 64;
pub const SHEET_SPECIES: usize = 256;
pub const SHEET_MOST: usize = 4096;
pub const NIGHT: usize = 37;
pub const TOTALS: usize = 15;
pub const TOTALS_PRINTED: usize = 4096;
pub const SHELF: usize = 2;
pub const SHELF_STEPS: usize = 48;
pub const SHELF_ENDS: usize = 96;
pub const CSV_MOST: usize = 826;

pub const NUMBER_MAX_STEPS: usize = 0;
pub const NUMBER_NEWTON_MAXITER: usize = 1;
pub const NUMBER_PREDICTIVE: usize = 2;
pub const NUMBER_DENSE_OUTPUT: usize = 3;
pub const NUMBER_MASS: usize = 4;
pub const NUMBER_SOURCE: usize = 5;
pub const NUMBER_RULE: usize = 6;
pub const NUMBER_MAX_STEP_GIVEN: usize = 7;
pub const NUMBER_MIN_STEP_GIVEN: usize = 8;
pub const NUMBER_NEWTON_TOL_GIVEN: usize = 9;
pub const NUMBER_FIRST_STEP_GIVEN: usize = 10;
pub const NUMBER_NIND1_GIVEN: usize = 11;
pub const NUMBER_NIND1: usize = 12;
pub const NUMBER_NIND2_GIVEN: usize = 13;
pub const NUMBER_NIND2: usize = 14;
pub const NUMBER_NIND3_GIVEN: usize = 15;
pub const NUMBER_NIND3: usize = 16;

pub const FLOAT_UROUND: usize = 0;
pub const FLOAT_SAFETY_FACTOR: usize = 1;
pub const FLOAT_SCALE_MIN: usize = 2;
pub const FLOAT_SCALE_MAX: usize = 3;
pub const FLOAT_MAX_STEP: usize = 4;
pub const FLOAT_MIN_STEP: usize = 5;
pub const FLOAT_NEWTON_TOL: usize = 6;
pub const FLOAT_FIRST_STEP: usize = 7;

pub const TOLD_KIND: usize = 0;
pub const TOLD_PLACE: usize = 1;
pub const TOLD_FLAG: usize = 2;

pub const KIND_DERIVATIVE: u64 = 1;
pub const KIND_JACOBIAN: u64 = 2;
pub const KIND_REPORT: u64 = 3;
pub const KIND_ENDED: u64 = 4;

pub const PLACE_Y_TO_F0: u64 = 1;
pub const PLACE_CONT_TO_Z1: u64 = 2;
pub const PLACE_CONT_TO_Z2: u64 = 3;
pub const PLACE_CONT_TO_Z3: u64 = 4;
pub const PLACE_CONT_TO_F1: u64 = 5;
pub const PLACE_Y_TO_F_ORIGIN: u64 = 6;
pub const PLACE_Y_PERTURBED_TO_F_PERTURBED: u64 = 7;

pub const REPLY_FILLED: u64 = 1;
pub const REPLY_CONTINUE: u64 = 2;
pub const REPLY_INTERRUPT: u64 = 3;
pub const REPLY_MODIFIED: u64 = 4;
pub const REPLY_MARK: u64 = 5;

pub const STATUS_SUCCESS: u64 = 0;
pub const STATUS_USER_INTERRUPT: u64 = 1;
pub const STATUS_NEED_LARGER_NMAX: u64 = 2;
pub const STATUS_STEP_SIZE_TOO_SMALL: u64 = 3;
pub const STATUS_SINGULAR_MATRIX: u64 = 5;

pub const SINGULAR_NONE: u64 = 0;
pub const SINGULAR_REAL: u64 = 1;
pub const SINGULAR_COMPLEX: u64 = 2;

pub const RESULT_STATUS: usize = 0;
pub const RESULT_ODE: usize = 1;
pub const RESULT_JAC: usize = 2;
pub const RESULT_LU: usize = 3;
pub const RESULT_TOTAL: usize = 4;
pub const RESULT_ACCEPTED: usize = 5;
pub const RESULT_REJECTED: usize = 6;
pub const RESULT_SINGULAR: usize = 7;
pub const RESULT_COLUMN: usize = 8;
pub const RESULT_H: usize = 0;
pub const RESULT_X: usize = 1;
pub const RESULT_SMALLEST: usize = 2;
pub const RESULT_LARGEST: usize = 3;

pub const REFUSED_ORDER: u64 = 1;
pub const REFUSED_PART: u64 = 2;
pub const REFUSED_NOT_FINITE: u64 = 3;
pub const REFUSED_MAX_STEPS: u64 = 4;
pub const REFUSED_UROUND: u64 = 5;
pub const REFUSED_SAFETY_FACTOR: u64 = 6;
pub const REFUSED_SCALES: u64 = 7;
pub const REFUSED_NEWTON_MAXITER: u64 = 8;
pub const REFUSED_TOLERANCE: u64 = 9;
pub const REFUSED_PARTITION: u64 = 10;
pub const REFUSED_FIRST_STEP: u64 = 11;
pub const REFUSED_STEP_LIMITS: u64 = 12;
pub const REFUSED_SHEET_LINE: u64 = 20;
pub const REFUSED_SHEET_LONG: u64 = 21;
pub const REFUSED_POINT: u64 = 25;
pub const REFUSED_MANY_LINES: u64 = 26;
pub const REFUSED_TOTALS: u64 = 28;
