// The two arrays of a state: what any numbers in them stand for, which are those that an advance leaves, and which
// states are unfit by document 01's clauses, apart from the proved code.
#ifndef STATE_H
#define STATE_H

#include "lent.h"

// Of each word what it holds: w a number, b a choice, t whether something is given, h a number that is looked at where
// the word before it says so, S the stage, c its column or status, k the kind of a singular matrix, d its column.
const char KINDS[] = "Sc" "wwwwww" "bbbbb" "ww" "t" "wwww" "b" "ww" "bbbbb" "tttt" "ththth" "b" "kd" "t";
static_assert(sizeof KINDS == ELCHEPUR_STATE_WORDS + 1, "every word has its kind");

// Of each double the word that says whether it is looked at, where there is one.
struct Given {
    size_t place, word;
    bool if_set;
};
const Given GIVEN[] = {
    {ELCHEPUR_DOUBLE_XOUT, ELCHEPUR_WORD_MARKED, true},
    {ELCHEPUR_DOUBLE_RTOL, ELCHEPUR_WORD_LISTS, false},
    {ELCHEPUR_DOUBLE_ATOL, ELCHEPUR_WORD_LISTS, false},
    {ELCHEPUR_DOUBLE_GIVEN_MAX_STEP, ELCHEPUR_WORD_HAS_MAX_STEP, true},
    {ELCHEPUR_DOUBLE_GIVEN_MIN_STEP, ELCHEPUR_WORD_HAS_MIN_STEP, true},
    {ELCHEPUR_DOUBLE_GIVEN_NEWTON_TOL, ELCHEPUR_WORD_HAS_NEWTON_TOL, true},
    {ELCHEPUR_DOUBLE_GIVEN_FIRST_STEP, ELCHEPUR_WORD_HAS_FIRST_STEP, true},
    {ELCHEPUR_DOUBLE_SMALLEST, ELCHEPUR_WORD_STRIDES, true},
    {ELCHEPUR_DOUBLE_LARGEST, ELCHEPUR_WORD_STRIDES, true},
};

enum Stage { FIRST_DERIVATIVE = 0, FIRST_REPORT = 1, COLUMN = 4, REPORT = 10, ENDED = 12 };

// A number that is no stage's stands for the first, and one that is no status's for Success.
inline uint64_t stage_of(const Words &w) {
    uint64_t stage = w[ELCHEPUR_WORD_STAGE];
    return stage <= ENDED ? stage : static_cast<uint64_t>(FIRST_DERIVATIVE);
}

inline uint64_t status_of(const Words &w) {
    uint64_t status = w[ELCHEPUR_WORD_PART];
    return status <= 3 || status == 5 ? status : 0;
}

// Likewise a number that is no kind's for none.
inline uint64_t singular_of(const Words &w) {
    uint64_t kind = w[ELCHEPUR_WORD_SINGULAR];
    return kind <= ELCHEPUR_SINGULAR_COMPLEX ? kind : static_cast<uint64_t>(ELCHEPUR_SINGULAR_NONE);
}

inline bool has_ended(const Words &w) { return stage_of(w) == ENDED; }

// Whether the result of an ended run tells of a singular matrix.
inline bool blames(const Words &w) { return status_of(w) == ELCHEPUR_STATUS_SINGULAR_MATRIX; }

// What an advance leaves of a word that it keeps: 0 or 1 for a choice, and 0 for what is not looked at.
inline uint64_t plain_word(const Words &w, size_t k) {
    switch (KINDS[k]) {
    case 'b': case 't': return w[k] != 0;
    case 'h': return w[k - 1] != 0 ? w[k] : 0;
    case 'S': return stage_of(w);
    case 'c': return stage_of(w) == COLUMN ? w[k] : has_ended(w) ? status_of(w) : 0;
    case 'k': return singular_of(w);
    case 'd': return singular_of(w) != ELCHEPUR_SINGULAR_NONE ? w[k] : 0;
    default: return w[k];
    }
}

inline double plain_double(const Words &w, const Words &d, size_t k) {
    for (const Given &given : GIVEN)
        if (given.place == k && (w[given.word] != 0) != given.if_set) return 0.0;
    return d.number(k);
}

// Whether a call can have left these numbers.
inline bool is_plain(const Words &w, const Words &d) {
    for (size_t k = 0; k < ELCHEPUR_STATE_WORDS; k++)
        if (w[k] != plain_word(w, k)) return false;
    for (size_t k = 0; k < ELCHEPUR_STATE_DOUBLES; k++)
        if (!same_number(d.number(k), plain_double(w, d, k))) return false;
    return true;
}

inline bool settings_unfit(const Words &w, const Words &d) {
    double uround = d.number(ELCHEPUR_DOUBLE_UROUND), safety = d.number(ELCHEPUR_DOUBLE_SAFETY_FACTOR);
    double least = d.number(ELCHEPUR_DOUBLE_SCALE_MIN), most = d.number(ELCHEPUR_DOUBLE_SCALE_MAX);
    uint64_t m = w[ELCHEPUR_WORD_MAX_STEPS], k = w[ELCHEPUR_WORD_NEWTON_MAXITER];
    return m < 1 || m > 1000000 || uround <= 1e-35 || uround >= 1.0 || safety <= 1e-4 || safety >= 1.0 || least <= 0.0
        || !(least < most) || k < 1 || k > 16;
}

inline bool counts_unfit(const Words &w) {
    uint64_t m = w[ELCHEPUR_WORD_MAX_STEPS], k = w[ELCHEPUR_WORD_NEWTON_MAXITER];
    return w[ELCHEPUR_WORD_ODE] > 2 + 3 * (k + 1) * m || w[ELCHEPUR_WORD_JAC] > 6 * (m + 1)
        || w[ELCHEPUR_WORD_LU] > 13 * m + 12 || w[ELCHEPUR_WORD_ACCEPTED] > m || w[ELCHEPUR_WORD_REJECTED] > 2 * m;
}

// Document 02, [7]: 'neither is negative'.
inline bool strides_unfit(const Words &w, const Words &d) {
    return plain_double(w, d, ELCHEPUR_DOUBLE_SMALLEST) < 0.0 || plain_double(w, d, ELCHEPUR_DOUBLE_LARGEST) < 0.0;
}

inline bool pivots_unfit(const Words &pivots, size_t n) {
    for (size_t k = 0; k + 1 < n; k++)
        if (pivots[k] >= n) return true;
    return false;
}

// Document 01: 'Unfit means one of'.
inline bool is_unfit(const Lent &lent) {
    const Words w = lent[STATE_WORDS];
    uint64_t n = w[ELCHEPUR_WORD_N];
    if (n < 1 || n > 32 || !lengths_fit(lent, n) || settings_unfit(w, lent[STATE_DOUBLES])) return true;
    unsigned __int128 sum = static_cast<unsigned __int128>(w[ELCHEPUR_WORD_NIND1]) + w[ELCHEPUR_WORD_NIND2]
        + w[ELCHEPUR_WORD_NIND3];
    bool goes_on = !has_ended(w);
    return sum != n || (goes_on && w[ELCHEPUR_WORD_TOTAL] > w[ELCHEPUR_WORD_MAX_STEPS])
        || w[ELCHEPUR_WORD_NEWT_ITER] > w[ELCHEPUR_WORD_NEWTON_MAXITER]
        || (stage_of(w) == COLUMN && w[ELCHEPUR_WORD_PART] > n) || (goes_on && w[ELCHEPUR_WORD_SINGULAR_COUNT] > 5)
        || pivots_unfit(lent[IP1], n) || pivots_unfit(lent[IP2], n) || counts_unfit(w)
        || strides_unfit(w, lent[STATE_DOUBLES]);
}

// Advancing tests 13, 14, 15.
inline uint64_t advance_refusal(const Lent &lent, uint64_t reply) {
    const Words w = lent[STATE_WORDS];
    if (is_unfit(lent)) return 13;
    if (has_ended(w)) return 14;
    bool asks_report = stage_of(w) == FIRST_REPORT || stage_of(w) == REPORT;
    bool answers = asks_report ? reply >= ELCHEPUR_REPLY_CONTINUE && reply <= ELCHEPUR_REPLY_MARK
        : reply == ELCHEPUR_REPLY_FILLED;
    return answers ? 0 : 15;
}

#endif
