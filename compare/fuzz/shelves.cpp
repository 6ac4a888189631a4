// Shelves of recent steps, whatever they are handed: steps, questions, words and lengths are made of the input's bytes.
// Each call must answer with the number of 02's request and leave what its words say, by a list of the steps that were
// put; where the words were forged, by so many places before the shelf's, round 48.
#include "input.h"
#include "lent.h"
#include <algorithm>
#include <inttypes.h>

static const size_t MOST_CALLS = 400;
static const size_t MOST = ELCHEPUR_SHELF_STEPS;

static struct Tally {
    uint64_t inputs, put[14], asked[26], forged, past_most, nans;
} tally;

static void tell_row(const char *words, const uint64_t *counts, size_t length) {
    std::fprintf(stderr, "%s", words);
    const char *before = " ";
    for (size_t k = 0; k < length; k++)
        if (counts[k] != 0) {
            std::fprintf(stderr, "%s%zu: %" PRIu64, before, k, counts[k]);
            before = ", ";
        }
    std::fprintf(stderr, "\n");
}

static void tell() {
    std::fprintf(stderr, "shelves: %" PRIu64 " inputs\n", tally.inputs);
    tell_row("steps by number,", tally.put, 14);
    tell_row("questions by number,", tally.asked, 26);
    std::fprintf(stderr,
                 "questions to forged shelves: %" PRIu64 ", where over 48 steps were put: %" PRIu64
                 ", at a NaN: %" PRIu64 "\n",
                 tally.forged, tally.past_most, tally.nans);
}

// ---- Memory between guards ----

class Guarded {
  public:
    Guarded(size_t count, Rubbish &rubbish) : room(count + 2 * GUARD, GUARD_WORD) {
        for (size_t k = 0; k < count; k++) room[GUARD + k] = rubbish.word();
    }

    Words words() const { return {const_cast<uint64_t *>(room.data()) + GUARD, room.size() - 2 * GUARD}; }

    bool operator==(const Guarded &other) const { return room == other.room; }

    void shut() const {
        ASAN_POISON_MEMORY_REGION(room.data(), GUARD * sizeof(uint64_t));
        ASAN_POISON_MEMORY_REGION(room.data() + room.size() - GUARD, GUARD * sizeof(uint64_t));
    }

    void open() const {
        ASAN_UNPOISON_MEMORY_REGION(room.data(), room.size() * sizeof(uint64_t));
        for (size_t k = 0; k < GUARD; k++)
            insist(room[k] == GUARD_WORD && room[room.size() - 1 - k] == GUARD_WORD, "written outside of a part");
    }

  private:
    static constexpr size_t GUARD = 4;
    static constexpr uint64_t GUARD_WORD = 0xdeadbeefcafef00d;
    std::vector<uint64_t> room;
};

struct Step {
    std::vector<uint64_t> cont;
    double xold, h;

    // dense.rs: `bounds`.
    double left() const { return h >= 0.0 ? xold : xold + h; }
    double right() const { return h >= 0.0 ? xold + h : xold; }
    bool holds(double x) const { return left() <= x && x <= right(); }
};

// ---- A shelf and those that call it ----

class Session {
  public:
    explicit Session(Input &input)
        : input(input), rubbish(input.byte()), n(size_of(input.byte())), shelf(ELCHEPUR_SHELF, rubbish),
          coefficients(MOST * 4 * n, rubbish), ends(ELCHEPUR_SHELF_ENDS, rubbish) {
        empty();
    }

    void call();

  private:
    Input &input;
    Rubbish rubbish;
    size_t n;
    Guarded shelf, coefficients, ends;
    // The steps that were put since the shelf was empty, the newest last, unless its words were forged since.
    std::vector<Step> steps;
    bool known = true;

    static size_t size_of(uint8_t choice) { return choice < 200 ? choice % 4 : choice % 33; }

    void empty();
    void put(Input &bytes);
    void ask();
    void forge();
    Guarded resized(const Guarded &part);
    uint64_t refusal(size_t amounts, bool quarters, const Guarded &room, const Guarded &pairs) const;
    std::vector<Step> kept(size_t amounts, const Guarded &room, const Guarded &pairs) const;
    void judge_kept() const;
    void judge_put(const Guarded &before, const Guarded &before_ends) const;
};

void Session::empty() {
    shelf.shut();
    elchepur_empty_shelf(shelf.words().pivots());
    shelf.open();
    insist(shelf.words()[0] == 0 && shelf.words()[1] == 0, "an emptied shelf is not empty");
    steps.clear();
    known = true;
}

// 02: 'before it stand 2, then 13 for a shelf with over 48 steps or a place above 47'.
uint64_t Session::refusal(size_t amounts, bool quarters, const Guarded &room, const Guarded &pairs) const {
    bool fits = quarters && room.words().count == MOST * 4 * amounts && pairs.words().count == 2 * MOST;
    return !fits ? 2 : shelf.words()[0] > MOST || shelf.words()[1] > MOST - 1 ? 13 : 0;
}

// So many steps as the shelf says before its place, round 48, the newest first.
std::vector<Step> Session::kept(size_t amounts, const Guarded &room, const Guarded &pairs) const {
    std::vector<Step> found;
    for (size_t k = 1; k <= shelf.words()[0]; k++) {
        size_t place = (shelf.words()[1] + MOST - k) % MOST;
        const uint64_t *first = room.words().first + place * 4 * amounts;
        found.push_back({{first, first + 4 * amounts}, pairs.words().number(2 * place),
                         pairs.words().number(2 * place + 1)});
    }
    return found;
}

// They are the last that were put.
void Session::judge_kept() const {
    std::vector<Step> found = kept(n, coefficients, ends);
    insist(found.size() == std::min(steps.size(), MOST), "another number of steps is kept");
    for (size_t k = 0; k < found.size(); k++) {
        const Step &step = found[k], &put = steps[steps.size() - 1 - k];
        insist(step.cont == put.cont && bits_of(step.xold) == bits_of(put.xold) && bits_of(step.h) == bits_of(put.h),
               "a kept step is not the one that was put");
    }
}

// The part as it is, or one entry shorter or longer, or far longer.
Guarded Session::resized(const Guarded &part) {
    size_t count = part.words().count;
    const size_t counts[] = {count, count + 1, count - (count > 0), count + 4, 0};
    Guarded made(counts[input.below(5)], rubbish);
    std::copy_n(part.words().first, std::min(count, made.words().count), made.words().first);
    return made;
}

// Nothing but the place of the newest was written.
void Session::judge_put(const Guarded &before, const Guarded &before_ends) const {
    size_t place = (shelf.words()[1] + MOST - 1) % MOST;
    for (size_t k = 0; k < coefficients.words().count; k++)
        insist(k / (4 * n) == place || coefficients.words()[k] == before.words()[k], "another step's room was written");
    for (size_t k = 0; k < ends.words().count; k++)
        insist(k / 2 == place || ends.words()[k] == before_ends.words()[k], "another step's ends were written");
    if (known) judge_kept();
}

// A step as these bytes have it; where there are none, one that follows the last.
void Session::put(Input &bytes) {
    Guarded cont(4 * n, rubbish);
    bool drawn = bytes.seldom();
    for (size_t k = 0; k < 4 * n; k++) {
        double usual = static_cast<double>(rubbish.word() % 1000) / 8.0;
        cont.words().set(k, drawn ? bytes.number(usual) : usual);
    }
    double xold = bytes.number(steps.empty() ? 0.0 : steps.back().xold + steps.back().h), h = bytes.number(0.5);
    bool odd = bytes.seldom();
    Guarded given = odd ? resized(cont) : cont, room = odd ? resized(coefficients) : coefficients;
    Guarded pairs = odd ? resized(ends) : ends;
    const Guarded before = room, before_ends = pairs, before_shelf = shelf;
    size_t count = given.words().count;
    uint64_t wanted = refusal(count / 4, count % 4 == 0, room, pairs);
    for (const Guarded *part : {&shelf, &given, &room, &pairs}) part->shut();
    uint64_t number = elchepur_put_on_shelf(shelf.words().pivots(), given.words().doubles(), count, xold, h,
                                            room.words().doubles(), room.words().count, pairs.words().doubles(),
                                            pairs.words().count);
    for (const Guarded *part : {&shelf, &given, &room, &pairs}) part->open();
    insist_number("a step", number, wanted);
    tally.put[number]++;
    if (number != 0) {
        insist(room == before && pairs == before_ends && shelf == before_shelf, "a refused step wrote something");
        return;
    }
    if (count != 4 * n) {  // another number of amounts, with its room: the words alone go on
        shelf = before_shelf;
        return;
    }
    insist(shelf.words()[0] == std::min<uint64_t>(before_shelf.words()[0] + 1, MOST)
           && shelf.words()[1] == (before_shelf.words()[1] + 1) % MOST, "the shelf's words are others");
    coefficients = room;
    ends = pairs;
    steps.push_back({{cont.words().first, cont.words().first + 4 * n}, xold, h});
    judge_put(before, before_ends);
}

// At a point of a step, at an end of it, or anywhere.
void Session::ask() {
    double usual = 0.25;
    if (!steps.empty()) {
        const Step &step = steps[steps.size() - 1 - input.byte() % std::min(steps.size(), MOST + 2)];
        usual = step.xold + step.h * (input.below(5) / 4.0);
    }
    double x = input.number(usual);
    Guarded target(n, rubbish);
    bool odd = input.seldom();
    if (odd) target = resized(target);
    Guarded room = odd ? resized(coefficients) : coefficients, pairs = odd ? resized(ends) : ends;
    const Guarded before = room, before_ends = pairs, before_shelf = shelf;
    uint64_t wanted = refusal(target.words().count, true, room, pairs);
    Guarded right = target;
    if (wanted == 0) {
        size_t amounts = target.words().count;
        std::vector<Step> list = kept(amounts, room, pairs);
        auto found = std::find_if(list.begin(), list.end(), [x](const Step &step) { return step.holds(x); });
        wanted = found == list.end() ? 25 : 0;
        if (wanted == 0 && amounts > 0)
            elchepur_interpolate(x, right.words().doubles(), amounts,
                                 reinterpret_cast<const double *>(found->cont.data()), 4 * amounts, found->xold,
                                 found->h);
    }
    for (const Guarded *part : {&shelf, &target, &room, &pairs}) part->shut();
    uint64_t number = elchepur_ask_shelf(shelf.words().pivots(), x, target.words().doubles(), target.words().count,
                                         room.words().doubles(), room.words().count, pairs.words().doubles(),
                                         pairs.words().count);
    for (const Guarded *part : {&shelf, &target, &room, &pairs}) part->open();
    insist_number("a question", number, wanted);
    insist(target.words().same_numbers(right.words()), "a question has another answer");
    insist(room == before && pairs == before_ends && shelf == before_shelf, "a question wrote to the shelf");
    tally.asked[number]++;
    tally.forged += !known;
    tally.past_most += steps.size() > MOST;
    tally.nans += std::isnan(x);
}

// Other words, for good; a place that doesn't go with the number of steps is a shelf's too.
void Session::forge() {
    for (size_t k = 0; k < ELCHEPUR_SHELF; k++)
        if (input.seldom()) shelf.words()[k] = input.seldom() ? 46 + input.below(5) : input.whole(shelf.words()[k]);
    known = false;
}

void Session::call() {
    switch (input.below(16)) {
    case 0: return empty();
    case 1: return forge();
    case 2: {
        Input none(nullptr, 0);
        for (size_t count = input.below(100); count > 0; count--) put(none);
        return;
    }
    case 3: case 4: case 5: case 6: case 7: return put(input);
    default: return ask();
    }
}

extern "C" int LLVMFuzzerInitialize(int *, char ***) {
    std::atexit(tell);
    return 0;
}

extern "C" int LLVMFuzzerTestOneInput(const uint8_t *bytes, size_t count) {
    Input input(bytes, count);
    Session session(input);
    tally.inputs++;
    for (size_t calls = 0; calls < MOST_CALLS && !input.ended(); calls++) session.call();
    return 0;
}
