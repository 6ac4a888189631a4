// A sheet read into arrays and written out of them, judged by the grammar of document 01 and apart from the proved
// code: it comes back byte for byte, and with one number changed it is written exactly where a sheet can have that one.
#ifndef ARRAYS_H
#define ARRAYS_H

#include "lent.h"
#include "sheet.h"
#include <functional>

struct Arrays {
    uint64_t settings[ELCHEPUR_SHEET_SETTINGS];
    size_t counts[ELCHEPUR_SHEET_COUNTS];
    uint64_t amounts[ELCHEPUR_SHEET_AMOUNTS], rates[ELCHEPUR_SHEET_RATES];
    size_t species[ELCHEPUR_SHEET_SPECIES];

    uint64_t read(const std::string &sheet, size_t &line) {
        std::vector<uint8_t> bytes(sheet.begin(), sheet.end());
        bytes.reserve(1);
        return elchepur_read_sheet(bytes.data(), bytes.size(), settings, counts, amounts, rates, species, &line);
    }

    // The number, and the bytes as they stand after the call.
    uint64_t write(std::vector<uint8_t> &out, size_t &length) const {
        return elchepur_write_sheet(settings, counts, amounts, rates, species, out.data(), out.size(), &length);
    }

    // Whether some sheet has these numbers; a float may have any bits.
    bool is_model() const {
        bool counted = counts[0] >= 1 && counts[0] <= 32 && counts[1] <= 64;
        bool fits = counted && settings[4] <= 9999999999u && settings[5] <= 1;
        for (size_t k = 0; fits && k < 4 * counts[1]; k++) fits = species[k] <= counts[0];
        return fits;
    }

    // One number that is no float, drawn anew.
    void change(Rubbish &rubbish) {
        uint64_t drawn = EDGES[rubbish.word() % EDGE_COUNT], place = rubbish.word() % 16;
        if (place < 2) settings[4 + place] = drawn;
        else if (place < 4) counts[place - 2] = drawn;
        else species[rubbish.word() % ELCHEPUR_SHEET_SPECIES] = drawn;
    }
};

// Written into just as many bytes as there are, one fewer, and one more, which stays.
static void judge_written(const Arrays &arrays, const std::string &sheet) {
    size_t length = 7;
    std::vector<uint8_t> less(sheet.size() - 1, '#'), more(sheet.size() + 1, '#');
    insist(arrays.write(less, length) == ELCHEPUR_REFUSED_BUFFER && length == 7, "a sheet is longer than its room");
    insist(less == std::vector<uint8_t>(sheet.size() - 1, '#'), "a sheet without room was written");
    insist(arrays.write(more, length) == ELCHEPUR_DONE && length == sheet.size(), "a sheet that was read is refused");
    insist(std::string(more.begin(), more.end()) == sheet + "#", "a sheet comes back as another");
}

static void judge_arrays(const std::string &sheet, const Verdict &verdict) {
    Arrays arrays;
    std::memset(&arrays, 0x5a, sizeof arrays);
    Arrays before = arrays;
    size_t line = 7;
    bool is_sheet = verdict.number != 20 && verdict.number != 21;
    insist(arrays.read(sheet, line) == (is_sheet ? 0 : verdict.number), "a sheet is read as another");
    insist(line == (verdict.number == 20 ? verdict.line : 7), "another line is told");
    if (!is_sheet) {
        insist(std::memcmp(&arrays, &before, sizeof arrays) == 0, "a sheet that was refused was read");
        return;
    }
    judge_written(arrays, sheet);
    Rubbish rubbish(std::hash<std::string>()(sheet));
    arrays.change(rubbish);
    size_t length = 7;
    std::vector<uint8_t> out(ELCHEPUR_SHEET_MOST, '#');
    uint64_t number = arrays.write(out, length);
    insist(number == (arrays.is_model() ? 0 : ELCHEPUR_REFUSED_MODEL), "what is no model's was written, or not");
    if (number != 0) return;
    Arrays again = arrays;
    insist(again.read(std::string(out.begin(), out.begin() + static_cast<std::ptrdiff_t>(length)), line) == 0,
           "what was written is no sheet");
    insist(std::memcmp(&again, &arrays, sizeof arrays) == 0, "what was written is another model's");
}

#endif
