// A reader of sheets, written from the grammar of document 01 ('Sheet and program') and apart from the proved code: a
// model, or why there is none.
#ifndef SHEET_H
#define SHEET_H

#include "input.h"
#include <array>
#include <string>
#include <vector>

struct Reaction {
    double rate;
    // Two reactants and two products; species from 1, 0 is none.
    std::array<size_t, 4> species;
};

struct Model {
    double x0, xend, rtol, atol;
    uint64_t max_steps, rule;
    std::vector<double> amounts;
    std::vector<Reaction> reactions;
};

// Refused by this number, with the line after 20; or 0, and then there is a model.
struct Verdict {
    uint64_t number;
    size_t line;
    Model model;
};

class SheetReader {
  public:
    explicit SheetReader(const std::string &sheet) : rest(sheet) {}

    Verdict read() {
        if (rest.size() > 4096) return {21, 0, {}};
        Model model;
        if (!settings(model) || !species(model) || !reactions(model)) return {20, line, {}};
        if (!rest.empty()) return {20, line + 1, {}};
        return {opening_refusal(model), 0, model};
    }

  private:
    // What is not read yet, and the number of the line that was read last.
    std::string rest;
    size_t line = 0;

    // The next line without its LF; none where it is missing or broken off.
    bool next(std::string &found) {
        line++;
        size_t end = rest.find('\n');
        if (end == std::string::npos) return false;
        found = rest.substr(0, end);
        rest = rest.substr(end + 1);
        return true;
    }

    static bool is_float(const std::string &text, double &value) {
        if (text.size() != 16 || text.find_first_not_of("0123456789abcdef") != std::string::npos) return false;
        value = double_of(std::stoull(text, nullptr, 16));
        return true;
    }

    static bool is_number(const std::string &text, uint64_t least, uint64_t most, uint64_t &value) {
        if (text.empty() || text.size() > 10 || text.find_first_not_of("0123456789") != std::string::npos) return false;
        if (text.size() > 1 && text[0] == '0') return false;
        value = std::stoull(text);
        return least <= value && value <= most;
    }

    bool next_float(double &value) {
        std::string text;
        return next(text) && is_float(text, value);
    }

    bool next_number(uint64_t least, uint64_t most, uint64_t &value) {
        std::string text;
        return next(text) && is_number(text, least, most, value);
    }

    bool settings(Model &model) {
        uint64_t count;
        return next_number(6, 6, count) && next_float(model.x0) && next_float(model.xend) && next_float(model.rtol)
            && next_float(model.atol) &&
               next_number(0, UINT64_MAX, model.max_steps) && next_number(0, 1, model.rule);
    }

    bool species(Model &model) {
        uint64_t count;
        if (!next_number(1, 32, count)) return false;
        model.amounts.resize(count);
        for (double &amount : model.amounts)
            if (!next_float(amount)) return false;
        return true;
    }

    // A rate and four species with one space between.
    bool is_reaction(const std::string &text, uint64_t species, Reaction &reaction) {
        if (text.size() < 16 || !is_float(text.substr(0, 16), reaction.rate)) return false;
        size_t at = 16;
        for (size_t &place : reaction.species) {
            if (at >= text.size() || text[at] != ' ') return false;
            size_t end = std::min(text.find(' ', at + 1), text.size());
            uint64_t value;
            if (!is_number(text.substr(at + 1, end - at - 1), 0, species, value)) return false;
            place = value;
            at = end;
        }
        return at == text.size();
    }

    bool reactions(Model &model) {
        uint64_t count;
        if (!next_number(0, 64, count)) return false;
        model.reactions.resize(count);
        for (Reaction &reaction : model.reactions) {
            std::string text;
            if (!next(text) || !is_reaction(text, model.amounts.size(), reaction)) return false;
        }
        return true;
    }

    // Of opening's list 3, 4 and 9 alone can come.
    static uint64_t opening_refusal(const Model &model) {
        bool finite = std::isfinite(model.x0) && std::isfinite(model.xend) && std::isfinite(model.rtol)
            && std::isfinite(model.atol);
        for (double amount : model.amounts) finite = finite && std::isfinite(amount);
        if (!finite) return 3;
        if (model.max_steps < 1 || model.max_steps > 1000000) return 4;
        return model.rtol <= 0.0 || model.atol < 0.0 ? 9 : 0;
    }
};

#endif
