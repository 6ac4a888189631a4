// Openings and advances, whatever they are handed: settings, lengths, states and replies are made of the input's bytes.
// Each call must answer with the number that document 01's tables give (opening.h, state.h); a refusal must leave every
// bit that was lent; an accepted call must ask for what its state says, and write nothing that it was lent to read.
#include "input.h"
#include "lent.h"
#include "opening.h"
#include "state.h"
#include <algorithm>
#include <inttypes.h>

static const size_t MOST_STEPS = 400;

// ---- What was tried, told when the program ends ----

static struct Tally {
    uint64_t inputs, opened[13], advanced[16], repeated, results[30], interpolated[20], stages[13];
} tally;

static void tell_row(const char *words, const uint64_t *counts, size_t length) {
    std::fprintf(stderr, "%s", words);
    const char *before = " ";
    for (size_t k = 0; k < length; k++)
        if (counts[k] != 0) {
            std::fprintf(stderr, "%s%zu: %" PRIu64, before, k, counts[k]);
            before = ", ";
        }
    std::fprintf(stderr, "\n");
}

static void tell() {
    std::fprintf(stderr, "runs: %" PRIu64 " inputs\n", tally.inputs);
    tell_row("openings by number,", tally.opened, 13);
    tell_row("advances by number,", tally.advanced, 16);
    std::fprintf(stderr, "accepted advances made once more: %" PRIu64 "\n", tally.repeated);
    tell_row("accepted advances by the stage reached,", tally.stages, 13);
    tell_row("results by number,", tally.results, 30);
    tell_row("interpolations by number,", tally.interpolated, 20);
}

// ---- What a state asks for ----

struct Request {
    uint64_t kind, place;
};

static Request request_of(const Words &words) {
    const Request f0 = {ELCHEPUR_KIND_DERIVATIVE, ELCHEPUR_PLACE_Y_TO_F0},
        report = {ELCHEPUR_KIND_REPORT, ELCHEPUR_PLACE_NOWHERE};
    const uint64_t column = words[ELCHEPUR_WORD_PART] == 0 ? ELCHEPUR_PLACE_Y_TO_F_ORIGIN
        : ELCHEPUR_PLACE_Y_PERTURBED_TO_F_PERTURBED;
    switch (stage_of(words)) {
    case 1: case 10: return report;
    case 3: return {ELCHEPUR_KIND_JACOBIAN, ELCHEPUR_PLACE_NOWHERE};
    case 4: return {ELCHEPUR_KIND_DERIVATIVE, column};
    case 5: return {ELCHEPUR_KIND_DERIVATIVE, ELCHEPUR_PLACE_CONT_TO_Z1};
    case 6: return {ELCHEPUR_KIND_DERIVATIVE, ELCHEPUR_PLACE_CONT_TO_Z2};
    case 7: return {ELCHEPUR_KIND_DERIVATIVE, ELCHEPUR_PLACE_CONT_TO_Z3};
    case 8: return {ELCHEPUR_KIND_DERIVATIVE, ELCHEPUR_PLACE_CONT_TO_F1};
    case 12: return {ELCHEPUR_KIND_ENDED, ELCHEPUR_PLACE_NOWHERE};
    default: return f0;
    }
}

// ---- One run ----

class Session {
  public:
    explicit Session(Input &input) : input(input), rubbish(input.byte()), n(size_of(input.byte())), lent(n, rubbish) {}

    bool open();
    void step();

  private:
    Input &input;
    Rubbish rubbish;
    size_t n;
    Lent lent;
    Opening opening;
    size_t model = 0;

    static size_t size_of(uint8_t choice) { return 1 + (choice < 200 ? choice % 4 : choice % 32); }

    void draw_settings();
    void draw_given();
    void misfit();
    uint64_t call_open();
    void judge_opened(const Lent &before);

    uint64_t call_advance(uint64_t reply, double value);
    void advance(uint64_t reply, double value);
    void judge_notes(const Words &was);
    void judge_strides(const Lent &before);
    void judge_here(const Words &was, uint64_t reply);
    void judge_advanced(const Lent &before, uint64_t reply);
    void judge_request();
    void repeat(const Lent &before, uint64_t reply, double value);

    double derivative(Words amounts, size_t k, size_t count) const;
    void fill(Part from, Part into, size_t choice);
    void fill_jacobian(size_t choice);
    void write_odd(size_t part);
    void reply_to_report();
    void reply(size_t choice);
    void go_on(size_t count);

    void forge_word();
    void draw_state();
    void ask_result();
    void interpolate();
};

// ---- Opening ----

void Session::draw_settings() {
    Words numbers = lent[NUMBERS], floats = lent[FLOATS];
    elchepur_default_settings(numbers.first, floats.doubles());
    uint8_t choices = input.byte();
    numbers[ELCHEPUR_NUMBER_MASS] = choices & 1;
    numbers[ELCHEPUR_NUMBER_SOURCE] = ~choices >> 1 & 1;
    numbers[ELCHEPUR_NUMBER_RULE] = choices >> 2 & 1;
    opening.lists = choices >> 3 & 1;
    for (size_t changes = input.below(8); changes > 0; changes--) {
        size_t place = input.below(ELCHEPUR_NUMBERS + ELCHEPUR_FLOATS);
        if (place < ELCHEPUR_NUMBERS) numbers[place] = input.whole(numbers[place]);
        else floats.set(place - ELCHEPUR_NUMBERS, input.number(floats.number(place - ELCHEPUR_NUMBERS)));
    }
    opening.x0 = input.number(0.0);
    opening.xend = input.number(1.0);
    opening.rtol = input.number(1e-3);
    opening.atol = input.number(1e-6);
}

// The amounts, a mass that is regular, and lists of tolerances; then a few entries anew.
void Session::draw_given() {
    for (size_t k = 0; k < n; k++) {
        lent[Y].set(k, 1.0 + static_cast<double>(k));
        lent[RTOL].set(k, 1e-3);
        lent[ATOL].set(k, 1e-6);
    }
    for (size_t k = 0; k < n * n; k++) lent[MASS].set(k, k % (n + 1) == 0 ? 1.0 : 0.0);
    const Part given[] = {Y, RTOL, ATOL, MASS};
    for (size_t changes = input.below(8); changes > 0; changes--) write_odd(given[input.below(4)]);
}

// A part becomes too short or too long.
void Session::misfit() {
    size_t part = input.below(PARTS), count = lent[part].count;
    const size_t lengths[] = {count + 1, count - (count > 0), 0, 2 * count, count + 31};
    lent.resize(part, lengths[input.below(5)], rubbish);
}

uint64_t Session::call_open() {
    const Opening &o = opening;
    lent.shut();
    uint64_t number = elchepur_open(
        lent[NUMBERS].first, lent[FLOATS].doubles(), o.n, o.x0, o.xend, o.lists, o.rtol, o.atol, LENT_STATE(lent),
            lent[TOLD].first, lent[AT].doubles(), LENT_PARTS(lent));
    lent.open();
    return number;
}

// Document 01: what was given stays, lists are converted, all else is zero; the first request is the derivative at x0.
void Session::judge_opened(const Lent &before) {
    for (size_t part = 0; part < PARTS; part++) {
        bool is_given = part == Y || (part == MASS && lent[NUMBERS][ELCHEPUR_NUMBER_MASS] != 0);
        bool is_converted = (part == RTOL || part == ATOL) && opening.lists != 0;
        if (is_given) insist(lent[part] == before[part], "an opening wrote what was given");
        for (size_t k = 0; k < lent[part].count && !is_given && !is_converted; k++) insist(lent[part][k] == 0,
            "an opening left a part that is not zero");
    }
    insist(advance_refusal(lent, ELCHEPUR_REPLY_FILLED) == 0, "a new run is unfit");
    insist(lent[AT].number(0) == opening.x0 && lent[AT].number(1) == opening.x0, "the first request is not at x0");
    judge_request();
}

bool Session::open() {
    draw_settings();
    opening.n = input.seldom() ? input.whole(n) : n;
    draw_given();
    if (input.seldom()) misfit();
    model = input.below(6);
    const Lent before = lent;
    uint64_t wanted = Table(opening, lent).refusal(), number = call_open();
    insist_number("an opening", number, wanted);
    tally.opened[number]++;
    if (number == 0) judge_opened(before);
    else insist(lent == before, "a refused opening wrote something");
    return number == 0;
}

// ---- Advancing ----

uint64_t Session::call_advance(uint64_t reply, double value) {
    lent.shut();
    uint64_t number = elchepur_advance(LENT_STATE(lent), reply, value, lent[TOLD].first, lent[AT].doubles(),
                                       LENT_PARTS(lent));
    lent.open();
    return number;
}

// The request is that of the stage, and what is told of it is in its range.
void Session::judge_request() {
    Request asked = request_of(lent[STATE_WORDS]);
    insist(lent[TOLD][ELCHEPUR_TOLD_KIND] == asked.kind && lent[TOLD][ELCHEPUR_TOLD_PLACE] == asked.place,
           "a request that is not its stage's");
    uint64_t flag = lent[TOLD][ELCHEPUR_TOLD_FLAG];
    bool right = asked.kind == ELCHEPUR_KIND_REPORT ? flag <= 1 : asked.kind == ELCHEPUR_KIND_ENDED
        ? flag == lent[STATE_WORDS][ELCHEPUR_WORD_PART] : flag == 0;
    insist(right, "a request with a wrong flag");
}

// The notes stay, or tell of a decomposition that this advance has made.
void Session::judge_notes(const Words &was) {
    Words words = lent[STATE_WORDS];
    uint64_t kind = words[ELCHEPUR_WORD_SINGULAR], column = words[ELCHEPUR_WORD_COLUMN];
    bool stay = kind == singular_of(was) && column == plain_word(was, ELCHEPUR_WORD_COLUMN);
    bool made = kind != ELCHEPUR_SINGULAR_NONE && words[ELCHEPUR_WORD_LU] > was[ELCHEPUR_WORD_LU];
    insist(stay || (made && column < words[ELCHEPUR_WORD_N]), "an advance noted a matrix that it did not decompose");
}

// The strides stay but where an attempt was accepted: its h stands yet.
void Session::judge_strides(const Lent &before) {
    Words words = lent[STATE_WORDS], doubles = lent[STATE_DOUBLES];
    const Words was = before[STATE_WORDS], had = before[STATE_DOUBLES];
    bool given = was[ELCHEPUR_WORD_STRIDES] != 0;
    double smallest = plain_double(was, had, ELCHEPUR_DOUBLE_SMALLEST);
    double largest = plain_double(was, had, ELCHEPUR_DOUBLE_LARGEST);
    double stride = std::fabs(doubles.number(ELCHEPUR_DOUBLE_H));
    if (words[ELCHEPUR_WORD_ACCEPTED] > was[ELCHEPUR_WORD_ACCEPTED] && !std::isnan(stride)) {
        smallest = !given || std::isnan(smallest) || stride < smallest ? stride : smallest;
        largest = !given || std::isnan(largest) || stride > largest ? stride : largest;
        given = true;
    }
    insist(words[ELCHEPUR_WORD_STRIDES] == given && same_number(doubles.number(ELCHEPUR_DOUBLE_SMALLEST), smallest)
           && same_number(doubles.number(ELCHEPUR_DOUBLE_LARGEST), largest), "an advance left other strides");
}

// A Jacobian that is asked is one of this point; an acceptance and 'modified' leave it behind (02, [1]).
void Session::judge_here(const Words &was, uint64_t reply) {
    Words words = lent[STATE_WORDS];
    bool asked = words[ELCHEPUR_WORD_JAC] > was[ELCHEPUR_WORD_JAC];
    bool left = words[ELCHEPUR_WORD_ACCEPTED] > was[ELCHEPUR_WORD_ACCEPTED] || reply == ELCHEPUR_REPLY_MODIFIED;
    uint64_t here = asked ? 1 : left ? 0 : plain_word(was, ELCHEPUR_WORD_MADE_HERE);
    insist(words[ELCHEPUR_WORD_MADE_HERE] == here, "an advance mistook where the Jacobian was made");
}

// What is fixed stays, counts don't fall, and what was lent to be read was only read.
void Session::judge_advanced(const Lent &before, uint64_t reply) {
    Words words = lent[STATE_WORDS], doubles = lent[STATE_DOUBLES];
    const Words was = before[STATE_WORDS], had = before[STATE_DOUBLES];
    insist(is_plain(words, doubles), "an advance left numbers that it does not write");
    for (size_t k = ELCHEPUR_WORD_N; k < ELCHEPUR_WORD_MADE_HERE; k++) insist(words[k] == plain_word(was, k),
        "an advance changed a word that is fixed for the run");
    judge_notes(was);
    judge_strides(before);
    judge_here(was, reply);
    for (size_t k = ELCHEPUR_DOUBLE_NEWTON_TOL; k < ELCHEPUR_DOUBLE_SMALLEST; k++)
        insist(same_number(doubles.number(k), plain_double(was, had, k)),
               "an advance changed a double that is fixed for the run");
    for (size_t k = ELCHEPUR_WORD_ODE; k <= ELCHEPUR_WORD_REJECTED; k++) insist(words[k] >= was[k], "a count fell");
    for (Part part : {F0, RTOL, ATOL, MASS, NUMBERS, FLOATS}) insist(lent[part] == before[part],
                                                                     "an advance wrote a part that it may only read");
    insist(!pivots_unfit(lent[IP1], words[ELCHEPUR_WORD_N]) && !pivots_unfit(lent[IP2], words[ELCHEPUR_WORD_N]),
           "an advance left a stray pivot");
    judge_request();
    tally.stages[stage_of(words)]++;
}

// The same call from the same memory: a word that was read without having been written would show.
void Session::repeat(const Lent &before, uint64_t reply, double value) {
    const Lent after = lent;
    lent = before;
    insist_number("a repeated advance", call_advance(reply, value), 0);
    for (size_t part = 0; part < ALL; part++) insist(lent[part].same_numbers(after[part]),
                                                     "a repeated advance left other memory");
    lent = after;
    tally.repeated++;
}

void Session::advance(uint64_t reply, double value) {
    const Lent before = lent;
    uint64_t wanted = advance_refusal(lent, reply), number = call_advance(reply, value);
    insist_number("an advance", number, wanted);
    tally.advanced[number]++;
    if (number != 0) {
        insist(lent == before, "a refused advance wrote something");
        return;
    }
    judge_advanced(before, reply);
    if (tally.advanced[0] % 8 == 0) repeat(before, reply, value);
}

// ---- The host ----

double Session::derivative(Words amounts, size_t k, size_t count) const {
    double y = amounts.number(k), next = amounts.number((k + 1) % count);
    switch (model) {
    case 0: return -y;
    case 1: return 0.0;
    case 2: return -1000.0 * (y - 1.0);
    case 3: return y * y;
    case 4: return k % 2 == 0 ? next : -100.0 * y;
    default: return -0.04 * y + 1e4 * next * y - 3e7 * y * y;
    }
}

// An entry of a part is written by the input.
void Session::write_odd(size_t part) {
    if (lent[part].count == 0) return;
    size_t entry = input.byte() % lent[part].count;
    lent[part].set(entry, input.number(lent[part].number(entry)));
}

// By the model; by the input; not at all; with rubbish; or by the model but for one entry.
void Session::fill(Part from, Part into, size_t choice) {
    Words target = lent[into];
    size_t count = std::min(target.count, lent[from].count);
    for (size_t k = 0; k < count && choice != 2; k++) {
        double usual = derivative(lent[from], k, count);
        if (choice == 3) target[k] = rubbish.word();
        else target.set(k, choice == 1 ? input.number(usual) : usual);
    }
    if (choice == 4) write_odd(into);
}

void Session::fill_jacobian(size_t choice) {
    Words target = lent[JAC];
    for (size_t k = 0; k < target.count && choice != 2; k++) {
        double usual = k % (lent[Y].count + 1) == 0 ? -1.0 : 0.0;
        if (choice == 3) target[k] = rubbish.word();
        else target.set(k, choice == 1 && k < 16 ? input.number(usual) : usual);
    }
    if (choice == 4) write_odd(JAC);
}

void Session::reply_to_report() {
    uint8_t choice = input.byte();
    double x = lent[STATE_DOUBLES].number(ELCHEPUR_DOUBLE_X);
    if (choice < 128) return advance(ELCHEPUR_REPLY_CONTINUE, input.number(x));
    if (choice < 136) return advance(ELCHEPUR_REPLY_INTERRUPT, x);
    if (choice >= 192) return advance(ELCHEPUR_REPLY_MARK, input.number(x));
    for (size_t changes = input.below(3); changes > 0; changes--) write_odd(Y);
    advance(ELCHEPUR_REPLY_MODIFIED, input.number(x));
}

// Does what is asked for, and replies.
void Session::reply(size_t choice) {
    Request asked = request_of(lent[STATE_WORDS]);
    const Part from[] = {Y, Y, CONT, CONT, CONT, CONT, Y, Y_PERTURBED},
        into[] = {F0, F0, Z1, Z2, Z3, F1, F_ORIGIN, F_PERTURBED};
    if (asked.kind == ELCHEPUR_KIND_REPORT) return choice == 0 ? advance(ELCHEPUR_REPLY_CONTINUE, 0.0)
        : reply_to_report();
    if (asked.kind == ELCHEPUR_KIND_DERIVATIVE) fill(from[asked.place], into[asked.place], choice);
    if (asked.kind == ELCHEPUR_KIND_JACOBIAN) fill_jacobian(choice);
    advance(ELCHEPUR_REPLY_FILLED, 0.0);
}

void Session::go_on(size_t count) {
    for (; count > 0 && !has_ended(lent[STATE_WORDS]); count--) reply(0);
}

// ---- Forged states ----

// Another number, a limit of document 01 or its neighbour, an odd double, or any word.
void Session::forge_word() {
    Words words = lent[STATE_WORDS];
    uint64_t m = words[ELCHEPUR_WORD_MAX_STEPS], k = words[ELCHEPUR_WORD_NEWTON_MAXITER];
    const uint64_t limits[] = {m, 2 + 3 * (k + 1) * m, 6 * (m + 1), 13 * m + 12, 2 * m, k, 5, words[ELCHEPUR_WORD_N]};
    size_t place = input.below(ELCHEPUR_STATE_WORDS + ELCHEPUR_STATE_DOUBLES);
    bool is_word = place < ELCHEPUR_STATE_WORDS;
    Words state = lent[is_word ? STATE_WORDS : STATE_DOUBLES];
    size_t word = is_word ? place : place - ELCHEPUR_STATE_WORDS;
    switch (input.below(5)) {
    case 0: state[word] = input.whole(state[word]); break;
    case 1: state[word] = limits[input.below(8)] + input.below(2); break;
    case 2: state[word] = bits_of(ODD[input.below(ODDS)]); break;
    case 3: state[word] = bits_of(input.number(state.number(word))); break;
    default: state[word] = input.word();
    }
}

// Of each number that moves something of its kind, so that the state is sometimes fit; choices by any number.
void Session::draw_state() {
    Words words = lent[STATE_WORDS], doubles = lent[STATE_DOUBLES];
    for (size_t k = 0; k < ELCHEPUR_STATE_WORDS; k++) {
        if (k >= ELCHEPUR_WORD_N && k < ELCHEPUR_WORD_MADE_HERE) continue;
        uint64_t word = rubbish.word();
        switch (KINDS[k]) {
        case 'w': case 'c': words[k] = word % 6; break;
        case 'S': words[k] = word % 14; break;
        case 'k': words[k] = word % 4; break;
        case 'd': words[k] = word % 40; break;
        default: words[k] = word % 2 * (word / 2);
        }
    }
    for (size_t k = 0; k < ELCHEPUR_STATE_DOUBLES; k++) {
        if (k >= ELCHEPUR_DOUBLE_NEWTON_TOL && k < ELCHEPUR_DOUBLE_SMALLEST) continue;
        uint64_t word = rubbish.word();
        doubles.set(k, word % 3 == 0 ? ODD[word / 3 % (ODDS - 1)]
                    : std::ldexp(1.0, static_cast<int>(word % 41) - 20));
    }
}

// The result and the step of a state: what its numbers say, or nothing.
void Session::ask_result() {
    const uint64_t kept = 77;
    const double kept_float = 0.77;
    uint64_t numbers[ELCHEPUR_RESULT_NUMBERS] = {kept, kept, kept, kept, kept, kept, kept, kept, kept};
    double floats[ELCHEPUR_RESULT_FLOATS] = {kept_float, kept_float, kept_float, kept_float};
    Words words = lent[STATE_WORDS], doubles = lent[STATE_DOUBLES];
    double h = doubles.number(ELCHEPUR_DOUBLE_H), x = doubles.number(ELCHEPUR_DOUBLE_X);
    uint64_t wanted = has_ended(words) ? 0 : 29, number = elchepur_result(LENT_STATE(lent), numbers, floats);
    insist_number("a result", number, wanted);
    tally.results[number]++;
    bool told = number == 0;
    insist(numbers[ELCHEPUR_RESULT_STATUS] == (told ? status_of(words) : kept), "a result has another status");
    for (size_t k = 0; k < 6; k++)
        insist(numbers[ELCHEPUR_RESULT_ODE + k] == (told ? words[ELCHEPUR_WORD_ODE + k] : kept),
               "a result has other counts");
    uint64_t kind = !told ? kept : blames(words) ? singular_of(words) : 0;
    uint64_t column = !told ? kept : blames(words) ? plain_word(words, ELCHEPUR_WORD_COLUMN) : 0;
    insist(numbers[ELCHEPUR_RESULT_SINGULAR] == kind, "a result blames another matrix");
    insist(numbers[ELCHEPUR_RESULT_COLUMN] == column, "a result blames another column");
    insist(same_number(floats[ELCHEPUR_RESULT_H], told ? h : kept_float), "a result has another h");
    insist(same_number(floats[ELCHEPUR_RESULT_X], told ? x : kept_float), "a result has another x");
    for (size_t k = 0; k < 2; k++)
        insist(same_number(floats[ELCHEPUR_RESULT_SMALLEST + k],
                           told ? plain_double(words, doubles, ELCHEPUR_DOUBLE_SMALLEST + k) : kept_float),
               "a result has other strides");
    insist(same_number(elchepur_held_step(LENT_STATE(lent)), h), "the step held is another");
}

// A target of any length: 19 where it is shorter than a quarter of the coefficients, and what lies
// behind that quarter stays.
void Session::interpolate() {
    size_t quarter = lent[CONT].count / 4, count = input.seldom() ? input.byte() : quarter;
    const double kept = 0.77;
    std::vector<double> target(count + 1, kept);
    uint64_t wanted = count < quarter ? 19 : 0;
    double xi = input.number(0.5), xold = input.number(0.0), h = input.number(1.0);
    insist_number("an interpolation", elchepur_interpolate(xi, target.data(), count, lent[CONT].doubles(),
                                                           lent[CONT].count, xold, h), wanted);
    tally.interpolated[wanted]++;
    for (size_t k = wanted == 0 ? quarter : 0; k <= count; k++) insist(target[k] == kept,
                                                                       "an interpolation wrote what it may not");
}

// ---- A step of the input ----

void Session::step() {
    size_t choice = input.below(16);
    switch (choice) {
    case 5: model = input.below(6); return reply(0);
    case 6: case 7: return go_on(1 + input.below(64));
    case 8: {  // a reply of another kind
        bool is_report = request_of(lent[STATE_WORDS]).kind == ELCHEPUR_KIND_REPORT;
        return advance(input.whole(is_report ? ELCHEPUR_REPLY_FILLED : ELCHEPUR_REPLY_CONTINUE), input.number(0.0));
    }
    case 9: case 12: {  // a state or a part that is wrong for this call alone
        const Lent before = lent;
        if (choice == 12) misfit();
        for (size_t words = input.below(4); words > 0 && choice == 9; words--) forge_word();
        reply(1);
        lent = before;
        return;
    }
    case 10: forge_word(); return reply(0);
    case 11: draw_state(); return reply(0);
    case 13: {
        Words pivots = lent[input.seldom() ? IP2 : IP1];
        if (pivots.count > 0) pivots[input.byte() % pivots.count] = input.whole(0);
        return reply(0);
    }
    case 14: {  // a host that writes what it may not
        size_t part = input.below(PARTS);
        if (!is_pivots(part)) write_odd(part);
        return reply(0);
    }
    case 15: ask_result(); return interpolate();
    default: return reply(choice);
    }
}

extern "C" int LLVMFuzzerInitialize(int *, char ***) {
    std::atexit(tell);
    return 0;
}

extern "C" int LLVMFuzzerTestOneInput(const uint8_t *bytes, size_t count) {
    Input input(bytes, count);
    Session session(input);
    tally.inputs++;
    if (!session.open()) return 0;
    for (size_t steps = 0; steps < MOST_STEPS && !input.ended(); steps++) session.step();
    return 0;
}
