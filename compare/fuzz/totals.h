// The totals of a night's status lines, by the words of request [12] and apart from the proved code: the whole text is
// cut into lines, and each is read by itself.
#ifndef TOTALS_H
#define TOTALS_H

#include <array>
#include <cstddef>
#include <cstdint>
#include <string>

const uint64_t MOST_LINES = 65535, MOST_COUNT = 10000000000;
const char *const FIELDS[] = {"status ", " accepted ", " rejected ", " total ", " ode ", " jac ", " lu "};
const size_t STATUSES[] = {0, 1, 2, 3, 5, 7};
enum { FIELD_COUNT = 7, STATUS_COUNT = 6, ODE_FIELD = 4 };

struct Night {
    uint64_t number = 0, line = 0;  // the refusal, and where it is 20 the first wrong line
    uint64_t lines = 0, largest = 0, place = 0;
    std::array<uint64_t, STATUS_COUNT> runs{};
    std::array<uint64_t, FIELD_COUNT> sums{};
};

// A number of digits with no zero in front; false where none stands here or it is above the most.
inline bool read_count(const std::string &text, size_t &at, uint64_t &value) {
    size_t start = at;
    value = 0;
    for (; at < text.size() && text[at] >= '0' && text[at] <= '9' && at - start < 12; at++)
        value = value * 10 + static_cast<uint64_t>(text[at] - '0');
    size_t digits = at - start;
    return digits >= 1 && (digits == 1 || text[start] != '0') && value <= MOST_COUNT;
}

inline bool read_line(const std::string &text, std::array<uint64_t, FIELD_COUNT> &counts) {
    size_t at = 0;
    for (size_t k = 0; k < FIELD_COUNT; k++) {
        std::string field = FIELDS[k];
        if (text.compare(at, field.size(), field) != 0) return false;
        at += field.size();
        if (!read_count(text, at, counts[k])) return false;
    }
    return at == text.size();
}

inline bool add_line(const std::string &text, Night &night) {
    std::array<uint64_t, FIELD_COUNT> counts{};
    if (!read_line(text, counts)) return false;
    size_t known = 0;
    while (known < STATUS_COUNT && STATUSES[known] != counts[0]) known++;
    if (known == STATUS_COUNT) return false;
    night.lines++;
    night.runs[known]++;
    for (size_t k = 1; k < FIELD_COUNT; k++) night.sums[k] += counts[k];
    if (night.place == 0 || counts[ODE_FIELD] > night.largest) {
        night.largest = counts[ODE_FIELD];
        night.place = night.lines;
    }
    return true;
}

inline Night night_of(const std::string &text) {
    Night night;
    for (size_t at = 0; at < text.size();) {
        size_t end = text.find('\n', at);
        if (night.lines == MOST_LINES) night.number = 26;
        else if (end == std::string::npos || !add_line(text.substr(at, end - at), night)) night.number = 20;
        if (night.number != 0) {
            night.line = night.lines + 1;
            return night;
        }
        at = end + 1;
    }
    return night;
}

// Whether totals can be some lines': request [13]'s list of what 28 refuses.
inline bool some_lines(const std::array<uint64_t, 15> &t) {
    uint64_t lines = t[0], runs = 0;
    bool fits = lines <= MOST_LINES;
    for (size_t k = 1; k <= STATUS_COUNT; k++) {
        fits = fits && t[k] <= lines;
        runs += t[k];
    }
    for (size_t k = 7; k <= 12; k++) fits = fits && t[k] <= MOST_COUNT * lines;
    return fits && runs == lines && t[13] <= t[10] && t[14] <= lines && (lines == 0 || t[14] > 0);
}

// Two totals in one, by request [13]; 28, then 26, leave what was lent.
inline uint64_t join_of(const std::array<uint64_t, 15> &first, const std::array<uint64_t, 15> &second,
                        std::array<uint64_t, 15> &joined) {
    if (!some_lines(first) || !some_lines(second)) return 28;
    if (first[0] + second[0] > MOST_LINES) return 26;
    for (size_t k = 0; k < 13; k++) joined[k] = first[k] + second[k];
    bool behind = second[0] > 0 && (first[0] == 0 || second[13] > first[13]);
    joined[13] = behind ? second[13] : first[13];
    joined[14] = behind ? first[0] + second[14] : first[14];
    return 0;
}

inline std::string printed_of(const Night &night) {
    if (night.number != 0)
        return "refused " + std::to_string(night.number)
            + (night.number == 20 ? " " + std::to_string(night.line) : "") + "\n";
    std::string text = "lines " + std::to_string(night.lines) + "\n";
    for (size_t k = 0; k < STATUS_COUNT; k++)
        text += "status " + std::to_string(STATUSES[k]) + " " + std::to_string(night.runs[k]) + "\n";
    for (size_t k = 1; k < FIELD_COUNT; k++) text += (FIELDS[k] + 1) + std::to_string(night.sums[k]) + "\n";
    return text + "largest " + std::to_string(night.largest) + " line " + std::to_string(night.place) + "\n";
}

#endif
