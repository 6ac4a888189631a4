// Memory that is lent to a call: words between guards. A guard must be as it was after every call, and while a call
// runs whoever looks at it is stopped, where that code was built with -fsanitize=address.
#ifndef LENT_H
#define LENT_H

#include "elchepur.h"
#include "input.h"
#include <array>
#include <cstdio>
#include <cstdlib>
#include <sanitizer/asan_interface.h>
#include <string>
#include <vector>

[[noreturn]] inline void wrong(const std::string &words) {
    std::fprintf(stderr, "WRONG: %s\n", words.c_str());
    std::abort();
}

inline void insist(bool fact, const char *words) {
    if (!fact) wrong(words);
}

inline void insist_number(const char *call, uint64_t got, uint64_t wanted) {
    if (got != wanted) wrong(std::string(call) + " is answered by " + std::to_string(got) + " and is to be by "
                             + std::to_string(wanted));
}

// Words of 64 bits, which are doubles, pivots or numbers.
struct Words {
    uint64_t *first;
    size_t count;

    double *doubles() const { return reinterpret_cast<double *>(first); }
    size_t *pivots() const { return reinterpret_cast<size_t *>(first); }
    uint64_t &operator[](size_t k) const { return first[k]; }
    double number(size_t k) const { return double_of(first[k]); }
    void set(size_t k, double value) const { first[k] = bits_of(value); }

    bool operator==(const Words &other) const {
        return count == other.count && std::memcmp(first, other.first, count * sizeof *first) == 0; }

    // The same but for which NaN a NaN is.
    bool same_numbers(const Words &other) const {
        for (size_t k = 0; k < count; k++)
            if (!same_number(number(k), other.number(k))) return false;
        return count == other.count;
    }
};

// The 22 parts in the order of the calls, and the arrays beside them.
enum Part {
    Y, F0, SCAL, CONT, Z1, Z2, Z3, F1, F2, F3, RTOL, ATOL, MASS, JAC, E1, E2R, E2I, IP1, IP2, Y_PERTURBED, F_PERTURBED,
        F_ORIGIN, PARTS,
    STATE_WORDS = PARTS, STATE_DOUBLES, TOLD, AT, NUMBERS, FLOATS, ALL
};
const char *const NAMES[ALL] = {"y", "f0", "scal", "cont", "z1", "z2", "z3", "f1", "f2", "f3", "rtol", "atol", "mass",
    "jac", "e1", "e2r", "e2i", "ip1", "ip2",
                                "y_perturbed", "f_perturbed", "f_origin", "the words of the state",
                                    "its doubles", "what is told", "the points", "the numbers", "the floats"};

inline bool is_pivots(size_t part) { return part == IP1 || part == IP2; }

// How many entries a part of n amounts has.
inline size_t length_of(size_t part, size_t n) {
    const size_t arrays[] = {ELCHEPUR_STATE_WORDS, ELCHEPUR_STATE_DOUBLES, ELCHEPUR_TOLD, ELCHEPUR_AT, ELCHEPUR_NUMBERS,
        ELCHEPUR_FLOATS};
    if (part >= PARTS) return arrays[part - PARTS];
    bool is_matrix = part == MASS || part == JAC || part == E1 || part == E2R || part == E2I;
    return is_matrix ? n * n : part == CONT ? 4 * n : n;
}

// All that is lent to a call, in one room: a guard before each part, and one behind the last.
class Lent {
  public:
    // Rubbish in every part.
    Lent(size_t n, Rubbish &rubbish) {
        std::array<size_t, ALL> counts;
        for (size_t part = 0; part < ALL; part++) counts[part] = length_of(part, n);
        lay_out(counts);
        for (size_t part = 0; part < ALL; part++)
            for (size_t k = 0; k < counts[part]; k++) (*this)[part][k] = rubbish.word();
    }

    Words operator[](size_t part) const {
        return {const_cast<uint64_t *>(room.data()) + starts[part], starts[part + 1] - starts[part] - GUARD}; }

    bool operator==(const Lent &other) const { return room == other.room && starts == other.starts; }

    // A part gets more or fewer entries; new ones hold rubbish.
    void resize(size_t part, size_t count, Rubbish &rubbish) {
        Lent before = *this;
        std::array<size_t, ALL> counts;
        for (size_t k = 0; k < ALL; k++) counts[k] = k == part ? count : before[k].count;
        lay_out(counts);
        for (size_t k = 0; k < ALL; k++)
            for (size_t entry = 0; entry < counts[k]; entry++) (*this)[k][entry] = entry < before[k].count
                ? before[k][entry] : rubbish.word();
    }

    // While a call runs.
    void shut() const {
        for (size_t part = 0; part <= ALL; part++) ASAN_POISON_MEMORY_REGION(guard(part), GUARD * sizeof(uint64_t));
    }

    void open() const {
        for (size_t part = 0; part <= ALL; part++) {
            ASAN_UNPOISON_MEMORY_REGION(guard(part), GUARD * sizeof(uint64_t));
            for (size_t k = 0; k < GUARD; k++)
                if (guard(part)[k] != GUARD_WORD) wrong(std::string("written outside of ")
                                                        + NAMES[part < ALL ? part : part - 1]);
        }
    }

  private:
    static constexpr size_t GUARD = 4;
    static constexpr uint64_t GUARD_WORD = 0xdeadbeefcafef00d;
    std::vector<uint64_t> room;
    // Where each part begins, and where one behind the last would.
    std::array<size_t, ALL + 1> starts;

    const uint64_t *guard(size_t part) const { return room.data() + starts[part] - GUARD; }

    void lay_out(const std::array<size_t, ALL> &counts) {
        starts[0] = GUARD;
        for (size_t part = 0; part < ALL; part++) starts[part + 1] = starts[part] + counts[part] + GUARD;
        room.assign(starts[ALL], GUARD_WORD);
    }
};

inline bool lengths_fit(const Lent &lent, size_t n) {
    for (size_t part = 0; part < PARTS; part++)
        if (lent[part].count != length_of(part, n)) return false;
    return true;
}

#define LENT_DOUBLES(m, part) (m)[part].doubles(), (m)[part].count
#define LENT_PIVOTS(m, part) (m)[part].pivots(), (m)[part].count
#define LENT_STATE(m) (m)[STATE_WORDS].pivots(), (m)[STATE_DOUBLES].doubles()
#define LENT_PARTS(m) \
    LENT_DOUBLES(m, Y), LENT_DOUBLES(m, F0), LENT_DOUBLES(m, SCAL), LENT_DOUBLES(m, CONT), \
    LENT_DOUBLES(m, Z1), LENT_DOUBLES(m, Z2), LENT_DOUBLES(m, Z3), LENT_DOUBLES(m, F1), \
    LENT_DOUBLES(m, F2), LENT_DOUBLES(m, F3), LENT_DOUBLES(m, RTOL), LENT_DOUBLES(m, ATOL), \
    LENT_DOUBLES(m, MASS), LENT_DOUBLES(m, JAC), LENT_DOUBLES(m, E1), LENT_DOUBLES(m, E2R), \
    LENT_DOUBLES(m, E2I), LENT_PIVOTS(m, IP1), LENT_PIVOTS(m, IP2), LENT_DOUBLES(m, Y_PERTURBED), \
    LENT_DOUBLES(m, F_PERTURBED), LENT_DOUBLES(m, F_ORIGIN)

#endif
