// What a run is opened with beside the parts and the settings, and which number of document 01 refuses it: its table
// read row by row, apart from the proved code.
#ifndef OPENING_H
#define OPENING_H

#include "lent.h"

struct Opening {
    size_t n = 1;
    double x0 = 0.0, xend = 1.0, rtol = 1e-3, atol = 1e-6;
    uint64_t lists = 0;
};

class Table {
  public:
    Table(const Opening &opening, const Lent &lent) : o(opening), m(lent) {}

    // The number of the first row that holds, or 0.
    uint64_t refusal() const {
        if (o.n < 1 || o.n > 32) return 1;
        if (!lengths_fit(m, o.n)) return 2;
        if (!given_are_finite()) return 3;
        uint64_t range = ranges();
        if (range != 0) return range;
        if (tolerance_is_wrong()) return 9;
        if (partition_is_wrong()) return 10;
        if (given(ELCHEPUR_NUMBER_FIRST_STEP_GIVEN) && setting(ELCHEPUR_FLOAT_FIRST_STEP) == 0.0) return 11;
        return step_limits_are_wrong() ? 12 : 0;
    }

  private:
    const Opening &o;
    const Lent &m;

    bool given(size_t place) const { return m[NUMBERS][place] != 0; }
    double setting(size_t place) const { return m[FLOATS].number(place); }

    bool part_is_finite(Part part) const {
        for (size_t k = 0; k < m[part].count; k++)
            if (!std::isfinite(m[part].number(k))) return false;
        return true;
    }

    bool settings_are_finite() const {
        const size_t absent[] = {ELCHEPUR_NUMBER_MAX_STEP_GIVEN, ELCHEPUR_NUMBER_MIN_STEP_GIVEN,
            ELCHEPUR_NUMBER_NEWTON_TOL_GIVEN, ELCHEPUR_NUMBER_FIRST_STEP_GIVEN};
        for (size_t k = 0; k < ELCHEPUR_FLOATS; k++)
            if ((k < ELCHEPUR_FLOAT_MAX_STEP || given(absent[k - ELCHEPUR_FLOAT_MAX_STEP]))
                && !std::isfinite(setting(k))) return false;
        return true;
    }

    bool given_are_finite() const {
        if (!std::isfinite(o.x0) || !std::isfinite(o.xend) || !part_is_finite(Y)) return false;
        if (given(ELCHEPUR_NUMBER_MASS) && !part_is_finite(MASS)) return false;
        bool tolerances = o.lists != 0 ? part_is_finite(RTOL) && part_is_finite(ATOL) : std::isfinite(o.rtol)
            && std::isfinite(o.atol);
        return tolerances && settings_are_finite();
    }

    // Rows 4 to 8.
    uint64_t ranges() const {
        uint64_t max_steps = m[NUMBERS][ELCHEPUR_NUMBER_MAX_STEPS], rounds = m[NUMBERS][ELCHEPUR_NUMBER_NEWTON_MAXITER];
        double uround = setting(ELCHEPUR_FLOAT_UROUND), safety = setting(ELCHEPUR_FLOAT_SAFETY_FACTOR);
        double scale_min = setting(ELCHEPUR_FLOAT_SCALE_MIN), scale_max = setting(ELCHEPUR_FLOAT_SCALE_MAX);
        if (max_steps < 1 || max_steps > 1000000) return 4;
        if (uround <= 1e-35 || uround >= 1.0) return 5;
        if (safety <= 1e-4 || safety >= 1.0) return 6;
        if (scale_min <= 0.0 || !(scale_min < scale_max)) return 7;
        return rounds < 1 || rounds > 16 ? 8 : 0;
    }

    bool tolerance_is_wrong() const {
        if (o.lists == 0) return o.rtol <= 0.0 || o.atol < 0.0;
        for (size_t k = 0; k < o.n; k++)
            if (m[RTOL].number(k) <= 0.0 || m[ATOL].number(k) < 0.0) return true;
        return false;
    }

    // Sums exact.
    bool partition_is_wrong() const {
        unsigned __int128 sum = 0;
        const size_t places[] = {ELCHEPUR_NUMBER_NIND1_GIVEN, ELCHEPUR_NUMBER_NIND2_GIVEN, ELCHEPUR_NUMBER_NIND3_GIVEN};
        for (size_t place : places) sum += given(place) ? m[NUMBERS][place + 1] : 0;
        return given(ELCHEPUR_NUMBER_NIND1_GIVEN) ? sum != o.n : sum > o.n;
    }

    bool step_limits_are_wrong() const {
        bool limited = given(ELCHEPUR_NUMBER_MAX_STEP_GIVEN);
        double max_step = setting(ELCHEPUR_FLOAT_MAX_STEP), ceiling = limited ? max_step : std::fabs(o.xend - o.x0);
        return (limited && max_step < 0.0)
            || (given(ELCHEPUR_NUMBER_MIN_STEP_GIVEN) && setting(ELCHEPUR_FLOAT_MIN_STEP) > ceiling);
    }
};

#endif
