// Nights of status lines, any bytes at all, handed over in pieces whose sizes the input draws: the totals, the first
// wrong line and what is printed must be what a reader of the whole text makes of it (totals.h), and nothing else may
// be written. Words that no call made are a night as well: they are fed and told, and nothing may trap. The totals of
// two parts of the text are joined, as they are and with numbers drawn anew.
#include "lent.h"
#include "totals.h"
#include <algorithm>
#include <inttypes.h>

static struct Tally {
    uint64_t inputs, told, wrong_lines, too_many, pieces, senseless, joined, unfit;
} tally;

static void tell() {
    std::fprintf(stderr,
                 "nights: %" PRIu64 " inputs in %" PRIu64 " pieces, of which %" PRIu64 " had totals, %" PRIu64
                 " a wrong line and %" PRIu64 " too many; %" PRIu64 " of words that no call made; %" PRIu64
                 " joined, %" PRIu64 " unfit\n",
                 tally.inputs, tally.pieces, tally.told, tally.wrong_lines, tally.too_many, tally.senseless,
                 tally.joined, tally.unfit);
}

// The words of a night, or of its totals, between guards.
template <size_t COUNT> struct Guarded {
    static const uint64_t GUARD = 0x5a5a5a5a5a5a5a5a;
    uint64_t before = GUARD;
    std::array<uint64_t, COUNT> words{};
    uint64_t behind = GUARD;

    explicit Guarded(uint64_t each) { words.fill(each); }
    void look() const { insist(before == GUARD && behind == GUARD, "a guard was written"); }
};

typedef Guarded<ELCHEPUR_NIGHT> HeldNight;
typedef Guarded<ELCHEPUR_TOTALS> HeldTotals;

static void feed(HeldNight &night, const std::string &text, Rubbish &rubbish) {
    for (size_t at = 0; at < text.size();) {
        size_t most = rubbish.word() % 4 == 0 ? text.size() - at : 1 + rubbish.word() % 64;
        size_t count = std::min(most, text.size() - at);
        std::vector<uint8_t> piece(text.begin() + static_cast<std::ptrdiff_t>(at),
                                   text.begin() + static_cast<std::ptrdiff_t>(at + count));
        elchepur_totals_fed(night.words.data(), piece.data(), piece.size());
        night.look();
        tally.pieces++;
        at += count;
    }
}

static std::array<uint64_t, ELCHEPUR_TOTALS> numbers_of(const Night &night) {
    std::array<uint64_t, ELCHEPUR_TOTALS> numbers{};
    numbers[ELCHEPUR_TOTALS_LINES] = night.lines;
    for (size_t k = 0; k < STATUS_COUNT; k++) numbers[ELCHEPUR_TOTALS_STATUS0 + k] = night.runs[k];
    for (size_t k = 1; k < FIELD_COUNT; k++) numbers[ELCHEPUR_TOTALS_ACCEPTED + k - 1] = night.sums[k];
    numbers[ELCHEPUR_TOTALS_LARGEST] = night.largest;
    numbers[ELCHEPUR_TOTALS_PLACE] = night.place;
    return numbers;
}

static void judge_told(const HeldNight &held, const Night &right) {
    const uint64_t unwritten = 7;
    HeldTotals totals(unwritten);
    uint64_t line = unwritten;
    insist_number("the totals", elchepur_totals_told(held.words.data(), totals.words.data(), &line), right.number);
    totals.look();
    insist(line == (right.number == 20 ? right.line : unwritten), "another line is told");
    insist(totals.words == (right.number == 0 ? numbers_of(right) : HeldTotals(unwritten).words),
           "the totals are others");
}

static void judge_printed(const HeldNight &held, const Night &right) {
    std::string wanted = printed_of(right), room(ELCHEPUR_TOTALS_PRINTED, '#');
    std::vector<uint8_t> printed(room.begin(), room.end());
    uint64_t count = elchepur_totals_printed(held.words.data(), printed.data());
    std::string got(printed.begin(), printed.end());
    insist(count == wanted.size(), "the count of printed bytes is another");
    if (got != wanted + room.substr(wanted.size())) wrong("printed is\n" + got + "\nand is to be\n" + wanted);
}

// Words that no call made: any of them are a night, and what is lent has room for whatever is told of it.
static void judge_senseless(const std::string &text, Rubbish &rubbish) {
    HeldNight held(0);
    for (uint64_t &word : held.words)
        word = rubbish.word() % 2 == 0 ? EDGES[rubbish.word() % EDGE_COUNT] : rubbish.word();
    feed(held, text.substr(0, 200), rubbish);
    HeldTotals totals(0);
    uint64_t line = 0, number = elchepur_totals_told(held.words.data(), totals.words.data(), &line);
    insist(number == 0 || number == 20 || number == 26, "a night is refused by another number");
    std::vector<uint8_t> printed(ELCHEPUR_TOTALS_PRINTED, '#');
    uint64_t count = elchepur_totals_printed(held.words.data(), printed.data());
    insist(count <= printed.size(), "more is printed than there is room for");
    held.look();
    totals.look();
    tally.senseless++;
}

// Joined by the call, and by 02's words.
static void judge_join(const HeldTotals &first, const HeldTotals &second) {
    HeldTotals joined(7), right(7);
    uint64_t number = join_of(first.words, second.words, right.words);
    insist_number("a join", elchepur_totals_join(first.words.data(), second.words.data(), joined.words.data()), number);
    first.look();
    second.look();
    joined.look();
    insist(joined.words == right.words, "the joined totals are others");
    tally.joined += number == 0;
    tally.unfit += number == 28;
}

// A number drawn anew: small, an edge, or beside the number that stands there.
static void change(HeldTotals &totals, Rubbish &rubbish) {
    uint64_t &word = totals.words[rubbish.word() % ELCHEPUR_TOTALS], choice = rubbish.word() % 4;
    word = choice == 0 ? EDGES[rubbish.word() % EDGE_COUNT] : choice == 1 ? rubbish.word() % 4 : word + choice * 2 - 5;
}

// The text is cut in two at the end of a line, and the totals of both are those of the whole.
static void judge_cut(const std::string &text, const Night &whole, Rubbish &rubbish) {
    size_t end = text.empty() ? std::string::npos : text.find('\n', rubbish.word() % text.size());
    size_t cut = end == std::string::npos ? 0 : end + 1;
    HeldTotals first(0), second(0), joined(0);
    first.words = numbers_of(night_of(text.substr(0, cut)));
    second.words = numbers_of(night_of(text.substr(cut)));
    if (whole.number == 0) {
        insist(elchepur_totals_join(first.words.data(), second.words.data(), joined.words.data()) == 0,
               "the totals of two parts are refused");
        insist(joined.words == numbers_of(whole), "the totals of two parts are others than those of the whole");
    }
    judge_join(first, second);
    change(rubbish.word() % 2 == 0 ? first : second, rubbish);
    judge_join(first, second);
}

// The first byte draws the pieces, and one in 64 has the lines over and over, beyond the most.
static std::string text_of(const uint8_t *bytes, size_t count) {
    std::string text(reinterpret_cast<const char *>(bytes + 1), count - 1), more = text;
    size_t lines = static_cast<size_t>(std::count(text.begin(), text.end(), '\n'));
    if (bytes[0] % 64 != 63 || lines == 0) return text;
    for (size_t had = lines; had + lines <= MOST_LINES + 1; had += lines) more += text;
    return more;
}

extern "C" int LLVMFuzzerInitialize(int *, char ***) {
    std::atexit(tell);
    return 0;
}

extern "C" int LLVMFuzzerTestOneInput(const uint8_t *bytes, size_t count) {
    if (count == 0) return 0;
    std::string text = text_of(bytes, count);
    Rubbish rubbish(bytes[0] * 1000003 + count);
    Night right = night_of(text);
    HeldNight held(rubbish.word());
    elchepur_totals_start(held.words.data());
    feed(held, text, rubbish);
    judge_told(held, right);
    judge_printed(held, right);
    judge_senseless(text, rubbish);
    judge_cut(text, right, rubbish);
    tally.inputs++;
    tally.told += right.number == 0;
    tally.wrong_lines += right.number == 20;
    tally.too_many += right.number == 26;
    return 0;
}

// ---- Mutations that keep status lines, so that many inputs have totals ----

extern "C" size_t LLVMFuzzerMutate(uint8_t *bytes, size_t count, size_t most);

static std::string drawn_line(Rubbish &rubbish) {
    const uint64_t counts[] = {0, 1, 9, 10, 111, 9999999999, MOST_COUNT, MOST_COUNT + 1};
    std::string text;
    for (size_t k = 0; k < FIELD_COUNT; k++) {
        uint64_t drawn = counts[rubbish.word() % 64 == 0 ? 7 : rubbish.word() % 7];
        uint64_t status = rubbish.word() % 32 == 0 ? rubbish.word() % 10 : STATUSES[rubbish.word() % STATUS_COUNT];
        text += FIELDS[k] + std::to_string(k == 0 ? status : drawn);
    }
    return text + "\n";
}

extern "C" size_t LLVMFuzzerCustomMutator(uint8_t *bytes, size_t count, size_t most, unsigned seed) {
    Rubbish rubbish(seed);
    if (count == 0 || rubbish.word() % 4 == 0) return LLVMFuzzerMutate(bytes, count, most);
    std::string made(reinterpret_cast<char *>(bytes), count);
    size_t line_end = made.find('\n', 1 + rubbish.word() % made.size());
    made.insert(line_end == std::string::npos ? made.size() : line_end + 1, drawn_line(rubbish));
    made[0] = static_cast<char>(rubbish.word());
    size_t kept = std::min(made.size(), most);
    std::copy(made.begin(), made.begin() + static_cast<std::ptrdiff_t>(kept), bytes);
    return kept;
}
