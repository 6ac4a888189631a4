// What the bytes of an input say. Past their end they are zeros, and zeros mean what is usual.
#ifndef INPUT_H
#define INPUT_H

#include <cmath>
#include <cstddef>
#include <cstdint>
#include <cstring>
#include <limits>

inline double double_of(uint64_t bits) {
    double x;
    std::memcpy(&x, &bits, sizeof x);
    return x;
}

inline uint64_t bits_of(double x) {
    uint64_t bits;
    std::memcpy(&bits, &x, sizeof bits);
    return bits;
}

// One NaN stands for another.
inline bool same_number(double a, double b) { return bits_of(a) == bits_of(b) || (std::isnan(a) && std::isnan(b)); }

// Doubles at which something is tested, and odd ones; the last is a signalling NaN.
const double ODD[] = {
    0.0, -0.0, 1.0, -1.0, 0.5, 2.0, 8.0, 0.2, 1e-35, 1.0000000000000002e-35, 9.999999999999999e-36, 1e-4,
        1.0000000000000002e-4, 0.9999999999999999,
    1.0000000000000002, 2.3e-16, 1e-6, 1e-3, 10.0, -10.0, 5e-324, -5e-324, 2.2250738585072014e-308, 1e-160, 1e150,
        -1e300,
    std::numeric_limits<double>::max(), std::numeric_limits<double>::lowest(), INFINITY, -INFINITY, NAN,
        double_of(0x7ff0000000000001)};
const size_t ODDS = sizeof ODD / sizeof *ODD;

// Whole numbers at which something is tested.
const uint64_t EDGES[] = {0, 1, 2, 3, 5, 6, 7, 12, 13, 16, 17, 31, 32, 33, 64, 1000000, 1000001, 1ull << 32,
    1ull << 63, UINT64_MAX};
const size_t EDGE_COUNT = sizeof EDGES / sizeof *EDGES;

class Input {
  public:
    Input(const uint8_t *bytes, size_t count) : at(bytes), left(count) {}

    bool ended() const { return left == 0; }

    uint8_t byte() {
        if (left == 0) return 0;
        left--;
        return *at++;
    }

    // Below a bound of at most 256.
    size_t below(size_t bound) { return byte() % bound; }

    // True for one byte in four, and not past the end.
    bool seldom() { return byte() % 4 == 3; }

    uint64_t word() {
        uint64_t value = 0;
        for (int k = 0; k < 8; k++) value |= static_cast<uint64_t>(byte()) << 8 * k;
        return value;
    }

    // The usual one, an odd one, a size of the usual one, or any pattern.
    double number(double usual) {
        uint8_t choice = byte();
        if (choice < 96) return usual;
        if (choice < 96 + ODDS) return ODD[choice - 96];
        if (choice < 192) return std::ldexp(usual == 0.0 ? 1.0 : usual, choice - 160);
        if (choice < 224) return -usual;
        return double_of(word());
    }

    // The usual one, its neighbours, a small or an edge one, or any.
    uint64_t whole(uint64_t usual) {
        uint8_t choice = byte();
        if (choice < 128) return usual;
        if (choice < 136) return usual + 1;
        if (choice < 144) return usual - 1;
        if (choice < 184) return choice - 144;
        if (choice < 184 + EDGE_COUNT) return EDGES[choice - 184];
        return choice < 230 ? usual * 2 : word();
    }

  private:
    const uint8_t *at;
    size_t left;
};

// Rubbish that is the same for the same seed (SplitMix64), for memory that nothing is to look at.
class Rubbish {
  public:
    explicit Rubbish(uint64_t seed) : state(seed) {}

    uint64_t word() {
        uint64_t z = state += 0x9e3779b97f4a7c15;
        z = (z ^ z >> 30) * 0xbf58476d1ce4e5b9;
        z = (z ^ z >> 27) * 0x94d049bb133111eb;
        return z ^ z >> 31;
    }

  private:
    uint64_t state;
};

#endif
