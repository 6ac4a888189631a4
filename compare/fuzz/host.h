// A host that runs a model through elchepur_open and elchepur_advance, and what document 01 wants printed of the end.
#ifndef HOST_H
#define HOST_H

#include "elchepur.h"
#include "lent.h"
#include "sheet.h"
#include <algorithm>

class Host {
  public:
    explicit Host(const Model &model) : model(model), rubbish(0), lent(model.amounts.size(), rubbish) {}

    // The three lines that are printed of the run.
    std::string account() {
        open();
        while (lent[TOLD][ELCHEPUR_TOLD_KIND] != ELCHEPUR_KIND_ENDED) {
            uint64_t reply = ELCHEPUR_REPLY_CONTINUE;
            if (lent[TOLD][ELCHEPUR_TOLD_KIND] == ELCHEPUR_KIND_DERIVATIVE) {
                fill();
                reply = ELCHEPUR_REPLY_FILLED;
            }
            uint64_t number = elchepur_advance(LENT_STATE(lent), reply, 0.0, lent[TOLD].first, lent[AT].doubles(),
                                               LENT_PARTS(lent));
            insist_number("an advance of a model", number, 0);
        }
        return printed();
    }

  private:
    const Model &model;
    Rubbish rubbish;
    Lent lent;

    void open() {
        Words numbers = lent[NUMBERS], amounts = lent[Y];
        elchepur_default_settings(numbers.first, lent[FLOATS].doubles());
        numbers[ELCHEPUR_NUMBER_MAX_STEPS] = model.max_steps;
        numbers[ELCHEPUR_NUMBER_RULE] = model.rule;
        numbers[ELCHEPUR_NUMBER_MASS] = 0;
        for (size_t k = 0; k < amounts.count; k++) amounts.set(k, model.amounts[k]);
        uint64_t number = elchepur_open(numbers.first, lent[FLOATS].doubles(), amounts.count, model.x0, model.xend, 0,
                                        model.rtol, model.atol, LENT_STATE(lent),
                                        lent[TOLD].first, lent[AT].doubles(), LENT_PARTS(lent));
        insist_number("an opening of a model", number, 0);
    }

    // 'Derivatives start at +0. In order, v is the rate times each reactant present; v is subtracted at each reactant,
    // then added at each product.'
    void fill() {
        const Part from[] = {Y, Y, CONT, CONT, CONT, CONT, Y, Y_PERTURBED},
            into[] = {F0, F0, Z1, Z2, Z3, F1, F_ORIGIN, F_PERTURBED};
        uint64_t place = lent[TOLD][ELCHEPUR_TOLD_PLACE];
        double *y = lent[from[place]].doubles(), *dy = lent[into[place]].doubles();
        std::fill(dy, dy + model.amounts.size(), 0.0);
        for (const Reaction &reaction : model.reactions) {
            double v = reaction.rate;
            for (size_t k = 0; k < 2; k++)
                if (reaction.species[k] != 0) v *= y[reaction.species[k] - 1];
            for (size_t k = 0; k < 4; k++)
                if (reaction.species[k] != 0) dy[reaction.species[k] - 1] += k < 2 ? -v : v;
        }
    }

    static std::string hexadecimal(double x) {
        char text[17];
        std::snprintf(text, sizeof text, "%016llx",
                      static_cast<unsigned long long>(std::isnan(x) ? 0x7ff8000000000000 : bits_of(x)));
        return text;
    }

    std::string printed() {
        uint64_t counts[ELCHEPUR_RESULT_NUMBERS];
        double floats[ELCHEPUR_RESULT_FLOATS];
        insist_number("the result of a model", elchepur_result(LENT_STATE(lent), counts, floats), 0);
        const char *const names[] = {"status ", " accepted ", " rejected ", " total ", " ode ", " jac ", " lu "};
        const size_t places[] = {ELCHEPUR_RESULT_STATUS, ELCHEPUR_RESULT_ACCEPTED, ELCHEPUR_RESULT_REJECTED,
            ELCHEPUR_RESULT_TOTAL, ELCHEPUR_RESULT_ODE, ELCHEPUR_RESULT_JAC, ELCHEPUR_RESULT_LU};
        std::string text;
        for (size_t k = 0; k < 7; k++) text += names[k] + std::to_string(counts[places[k]]);
        text += "\nx " + hexadecimal(floats[ELCHEPUR_RESULT_X]) + "\ny";
        for (size_t k = 0; k < model.amounts.size(); k++) text += " " + hexadecimal(lent[Y].number(k));
        text += "\nh " + hexadecimal(floats[ELCHEPUR_RESULT_SMALLEST]);
        return text + " " + hexadecimal(floats[ELCHEPUR_RESULT_LARGEST]) + "\n";
    }
};

#endif
