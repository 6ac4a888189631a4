// Sheets, any bytes at all: what elchepur_forecast prints of them must be, byte for byte, what a reader and a host
// apart from the proved code make of them (sheet.h, host.h), and nothing else may be written. Sheets that permit more
// than a few steps are handed over with fewer, so that runs are short and many. Each is also read into arrays and
// written out of them (arrays.h).
#include "arrays.h"
#include "host.h"
#include "sheet.h"
#include <inttypes.h>

static const uint64_t MOST_STEPS = 40;
static const char *const FEW_STEPS = "40";

static struct Tally {
    uint64_t inputs, ran, shortened, refused[22], statuses[6];
} tally;

static void tell() {
    std::fprintf(stderr,
                 "sheets: %" PRIu64 " inputs, of which %" PRIu64 " ran, %" PRIu64
                 " of them with fewer steps than they permit\nrefused by number,",
                 tally.inputs, tally.ran, tally.shortened);
    const char *before = " ";
    for (size_t k = 0; k < 22; k++)
        if (tally.refused[k] != 0) {
            std::fprintf(stderr, "%s%zu: %" PRIu64, before, k, tally.refused[k]);
            before = ", ";
        }
    std::fprintf(stderr, "\nends by status, 0: %" PRIu64 ", 2: %" PRIu64 ", 3: %" PRIu64 ", 5: %" PRIu64 "\n",
                 tally.statuses[0], tally.statuses[2], tally.statuses[3], tally.statuses[5]);
}

// Where a line begins; lines are counted from 0.
static size_t start_of(const std::string &sheet, size_t line) {
    size_t at = 0;
    for (; line > 0 && at != std::string::npos; line--) {
        at = sheet.find('\n', at);
        if (at != std::string::npos) at++;
    }
    return at;
}

static std::string with_line(const std::string &sheet, size_t line, const std::string &text) {
    size_t start = start_of(sheet, line), end = start == std::string::npos ? start : sheet.find('\n', start);
    return end == std::string::npos ? sheet : sheet.substr(0, start) + text + sheet.substr(end);
}

// What document 01 wants printed.
static std::string wanted(const Verdict &verdict) {
    if (verdict.number == 0) return Host(verdict.model).account();
    std::string text = "refused " + std::to_string(verdict.number);
    return text + (verdict.number == 20 ? " " + std::to_string(verdict.line) : "") + "\n";
}

static void judge(const std::string &sheet, const Verdict &verdict) {
    uint8_t printed[ELCHEPUR_PRINTED];
    std::memset(printed, '#', sizeof printed);
    // In memory of just its length, so that reading past its end is seen.
    std::vector<uint8_t> bytes(sheet.begin(), sheet.end());
    bytes.reserve(1);
    uint64_t count = elchepur_forecast(bytes.data(), bytes.size(), printed);
    std::string right = wanted(verdict);
    right.resize(sizeof printed, '#');
    std::string got(reinterpret_cast<char *>(printed), sizeof printed);
    if (got != right) wrong("printed is\n" + got + "\nand is to be\n" + right);
    insist(count == right.find('#'), "the count of printed bytes is another");
    if (verdict.number == 0) tally.statuses[right[7] - '0']++;
}

extern "C" int LLVMFuzzerInitialize(int *, char ***) {
    std::atexit(tell);
    return 0;
}

extern "C" int LLVMFuzzerTestOneInput(const uint8_t *bytes, size_t count) {
    std::string sheet(reinterpret_cast<const char *>(bytes), count);
    Verdict verdict = SheetReader(sheet).read();
    tally.inputs++;
    if (verdict.number == 0 && verdict.model.max_steps > MOST_STEPS) {
        sheet = with_line(sheet, 5, FEW_STEPS);
        verdict = SheetReader(sheet).read();
        tally.shortened++;
    }
    judge(sheet, verdict);
    judge_arrays(sheet, verdict);
    if (verdict.number == 0) tally.ran++;
    else tally.refused[verdict.number]++;
    return 0;
}

// ---- Mutations that keep a sheet's lines, so that many inputs are sheets ----

extern "C" size_t LLVMFuzzerMutate(uint8_t *bytes, size_t count, size_t most);

static std::string drawn_float(Rubbish &rubbish) {
    char text[17];
    uint64_t word = rubbish.word(), choice = word >> 56;
    double x = choice < 64 ? ODD[choice % ODDS] : choice < 192 ? std::ldexp(1.0, static_cast<int>(choice) - 128)
        : double_of(rubbish.word());
    std::snprintf(text, sizeof text, "%016llx", static_cast<unsigned long long>(bits_of(x)));
    return text;
}

static std::string drawn_reaction(Rubbish &rubbish, size_t species) {
    std::string text = drawn_float(rubbish);
    for (size_t k = 0; k < 4; k++) text += " " + std::to_string(rubbish.word() % (species + 1));
    return text;
}

// A line of any kind.
static std::string drawn_line(Rubbish &rubbish) {
    uint64_t word = rubbish.word();
    switch (word % 4) {
    case 0: return drawn_float(rubbish);
    case 1: return std::to_string(word / 4 % 40);
    case 2: return drawn_reaction(rubbish, 3);
    default: return std::to_string(EDGES[word / 4 % EDGE_COUNT]);
    }
}

// A line that may stand at this place of a model's sheet, counts aside.
static std::string fitting_line(const Model &model, size_t line, Rubbish &rubbish) {
    size_t species = model.amounts.size();
    if (line == 5) return std::to_string(1 + rubbish.word() % MOST_STEPS);
    if (line == 6) return std::to_string(rubbish.word() % 2);
    if (line > 8 + species) return drawn_reaction(rubbish, species);
    return drawn_float(rubbish);
}

// A line drawn anew; of a model's sheet, often one that fits there, or a species or a reaction more, with its count.
static std::string mutated(std::string sheet, Rubbish &rubbish) {
    size_t lines = static_cast<size_t>(std::count(sheet.begin(), sheet.end(), '\n')),
        line = lines == 0 ? 0 : rubbish.word() % lines;
    Verdict verdict = SheetReader(sheet).read();
    uint64_t choice = rubbish.word() % 8;
    if (verdict.number == 20 || verdict.number == 21 || choice == 0) return with_line(sheet, line, drawn_line(rubbish));
    const Model &model = verdict.model;
    size_t species = model.amounts.size(), reactions = model.reactions.size();
    if (choice == 1) return with_line(sheet, 8 + species, std::to_string(reactions + 1))
        + drawn_reaction(rubbish, species) + "\n";
    if (choice == 2) return with_line(sheet, 7,
                                      std::to_string(species + 1)).insert(start_of(sheet, 8) + (species == 9),
                                          drawn_float(rubbish) + "\n");
    bool is_count = line == 0 || line == 7 || line == 8 + species;
    return is_count ? sheet : with_line(sheet, line, fitting_line(model, line, rubbish));
}

extern "C" size_t LLVMFuzzerCustomMutator(uint8_t *bytes, size_t count, size_t most, unsigned seed) {
    Rubbish rubbish(seed);
    if (rubbish.word() % 4 == 0) return LLVMFuzzerMutate(bytes, count, most);
    std::string made = mutated(std::string(reinterpret_cast<char *>(bytes), count), rubbish);
    size_t kept = std::min(made.size(), most);
    std::copy(made.begin(), made.begin() + static_cast<std::ptrdiff_t>(kept), bytes);
    return kept;
}
