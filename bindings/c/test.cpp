// The library from C++: vectors are lent by their data(), which is null for an empty one.
#include "placing.h"
#include <cstdio>
#include <string>
#include <vector>

static int failures;
#define EXPECT(fact)                                                                               \
    do {                                                                                           \
        if (!(fact)) {                                                                             \
            std::printf("line %d: not so: %s\n", __LINE__, #fact);                                 \
            failures++;                                                                            \
        }                                                                                          \
    } while (0)

typedef std::vector<double> Numbers;
typedef std::vector<uint64_t> Counts;
typedef std::vector<uint8_t> Bytes;

// The point at (u, v) is (u, v, 0).
struct Square {
    Numbers knots{0, 0, 1, 1};
    Numbers net{0, 0, 0, 0, 1, 0, 1, 0, 0, 1, 1, 0};
    Numbers weights{1, 1, 1, 1};
    Numbers window;

    placing_surface lent() const {
        placing_surface s = {};
        s.degree_u = s.degree_v = 1;
        s.controls_u = s.controls_v = 2;
        s.knots_u = s.knots_v = knots.data();
        s.knots_u_count = s.knots_v_count = knots.size();
        s.controls = net.data();
        s.controls_count = net.size();
        s.weights = weights.data();
        s.weights_count = weights.size();
        s.window = window.data();
        s.window_count = window.size();
        return s;
    }
};

static uint64_t row(const Square &square, const Numbers &marks, const Numbers &hint,
                    const Numbers &period, Counts &budget, Counts &index, Numbers &answers,
                    Bytes &ends, double tolerance = 0.5) {
    const placing_surface lent = square.lent();
    return placing_row(PLACING_SURFACE(&lent), marks.data(), marks.size(), hint.data(), hint.size(),
                       tolerance, period.data(), period.size(), PLACING_NONE, budget.data(),
                       budget.size(), index.data(), index.size(), answers.data(), answers.size(),
                       ends.data(), ends.size());
}

static uint64_t quote(const Square &square, uint64_t hinted, Counts &quote) {
    const placing_surface lent = square.lent();
    return placing_quote(PLACING_AXES(&lent), hinted, quote.data(), quote.size());
}

int main() {
    const Numbers none;
    const Numbers marks{0.25, 0.5, 0.75, 0.25, 0.5, 0.75};
    Counts budget{1000}, index{9}, no_counts;
    Numbers answers(5, 7), no_answers;
    Bytes ends(5, 7), no_ends;
    EXPECT(none.data() == nullptr);

    EXPECT(row(Square(), marks, none, none, budget, index, answers, ends) == 0);
    EXPECT(answers == (Numbers{0.25, 0.5, 0.25, 0.5, 7}));
    EXPECT(ends == (Bytes{PLACING_END_UNCHANGED, 1, PLACING_END_UNCHANGED, 1, 7}));
    EXPECT(budget[0] == 816 && index[0] == 0);
    budget[0] = 1000;
    EXPECT(row(Square(), marks, none, none, budget, index, answers, ends, 1) == 0);
    EXPECT(answers == (Numbers{0.25, 0.5, 0.25, 0.5, 7}));
    EXPECT(ends ==
           (Bytes{PLACING_END_UNCHANGED, 1, PLACING_END_UNCHANGED, PLACING_ORIGIN_HINT, 7}));
    EXPECT(budget[0] == 907 && index[0] == 0);

    const Numbers far{5.25, 0.5}, turn{1};
    EXPECT(row(Square(), marks, far, turn, budget, index, answers, ends, 1) == 0);
    EXPECT(answers == (Numbers{5.25, 0.5, 5.25, 0.5, 7}));
    EXPECT(ends[1] == PLACING_ORIGIN_HINT && ends[3] == PLACING_ORIGIN_HINT && ends[4] == 7);
    EXPECT(row(Square(), marks, far, turn, budget, index, answers, ends) == 0);
    EXPECT(answers == (Numbers{5.25, 0.5, 0.25, 0.5, 7}));
    EXPECT(ends[1] == PLACING_ORIGIN_HINT && ends[3] == 1 && ends[4] == 7);

    EXPECT(row(Square(), none, none, none, budget, index, no_answers, no_ends) == 0);
    EXPECT(row(Square(), marks, none, none, budget, index, no_answers, ends) == PLACING_ROW);
    EXPECT(row(Square(), marks, none, none, budget, index, answers, no_ends) == PLACING_ROW);
    EXPECT(row(Square(), none, none, none, no_counts, index, no_answers, no_ends) ==
           PLACING_MISFIT);
    EXPECT(row(Square(), none, none, none, budget, no_counts, no_answers, no_ends) ==
           PLACING_MISFIT);

    Square knotless, netless, weightless;
    knotless.knots = netless.net = weightless.weights = none;
    EXPECT(row(knotless, none, none, none, budget, index, no_answers, no_ends) == PLACING_KNOTS);
    EXPECT(row(netless, none, none, none, budget, index, no_answers, no_ends) == PLACING_CONTROLS);
    EXPECT(row(weightless, none, none, none, budget, index, no_answers, no_ends) ==
           PLACING_CONTROLS);

    // A window is an empty vector, or one of four numbers.
    Square whole, half, turned, three;
    whole.window = {0, 1, 0, 1};
    half.window = {0.25, 0.75, 0, 1};
    turned.window = {0.75, 0.25, 0, 1};
    three.window = {0, 1, 0};
    const Numbers beside{0.9, 0.5, 0.75};
    budget[0] = 1000;
    EXPECT(row(whole, marks, none, none, budget, index, answers, ends) == 0);
    EXPECT(answers == (Numbers{0.25, 0.5, 0.25, 0.5, 7}) && budget[0] == 816);
    EXPECT(row(half, beside, none, none, budget, index, answers, ends) == 0);
    EXPECT(answers == (Numbers{0.75, 0.5, 0.25, 0.5, 7}) && budget[0] == 724);
    EXPECT(row(turned, beside, none, none, budget, index, answers, ends) == PLACING_WINDOW);
    EXPECT(row(three, beside, none, none, budget, index, answers, ends) == PLACING_MISFIT);

    // A quote needs no controls and no weights.
    Square bare;
    bare.net = bare.weights = none;
    Counts quoted(3, 7), short_of_one(1, 7);
    EXPECT(quote(bare, 0, quoted) == 0 && quoted == (Counts{81, 279, 7}));
    EXPECT(quote(half, 1, quoted) == 0 && quoted == (Counts{81, 345, 7}));
    EXPECT(quote(knotless, 0, quoted) == PLACING_KNOTS);
    EXPECT(quote(turned, 0, quoted) == PLACING_WINDOW);
    EXPECT(quote(three, 0, quoted) == PLACING_MISFIT);
    EXPECT(quote(bare, 2, quoted) == PLACING_MISFIT);
    EXPECT(quote(bare, 0, short_of_one) == PLACING_MISFIT && short_of_one[0] == 7);
    EXPECT(quote(bare, 0, no_counts) == PLACING_MISFIT && quoted == (Counts{81, 345, 7}));

    const Bytes file;
    Bytes printout(PLACING_PRINTOUT_ROOM);
    Counts written(1);
    EXPECT(placing_job(file.data(), file.size(), printout.data(), printout.size(), written.data(),
                       written.size()) == 0);
    printout.resize(written[0]);
    EXPECT(std::string(printout.begin(), printout.end()) == "refused 12 at 0\n");
    EXPECT(placing_refusal_text(PLACING_MALFORMED) == std::string("the job file is malformed"));
    EXPECT(placing_end_text(PLACING_END_FURTHER) == std::string("next point further"));

    if (failures == 0)
        std::puts("the library's callers in C++: all as it should be");
    return failures != 0;
}
