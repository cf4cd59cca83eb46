/* Every function of the library from C: answers, refusals, what is left of longer arrays, and no
 * array at all for every one that is lent. */
#include "placing.h"
#include <float.h>
#include <math.h>
#include <stdio.h>
#include <string.h>

static int failures;
#define EXPECT(fact)                                                                               \
    do {                                                                                           \
        if (!(fact)) {                                                                             \
            printf("line %d: not so: %s\n", __LINE__, #fact);                                      \
            failures++;                                                                            \
        }                                                                                          \
    } while (0)
#define SAME(numbers, ...)                                                                         \
    (memcmp(numbers, (const double[]){__VA_ARGS__}, sizeof(const double[]){__VA_ARGS__}) == 0)
#define SAME_BYTES(bytes, ...)                                                                     \
    (memcmp(bytes, (const uint8_t[]){__VA_ARGS__}, sizeof(const uint8_t[]){__VA_ARGS__}) == 0)

static const double knots[] = {0, 0, 1, 1};
static const double net[] = {0, 0, 0, 0, 1, 0, 1, 0, 0, 1, 1, 0};
static const double weights[] = {1, 1, 1, 1};
static const placing_surface square = {
    1, 1, 2, 2, 0, knots, 4, knots, 4, net, 12, weights, 4, PLACING_NONE,
};

static void evaluate(void) {
    double jet[10] = {[9] = 7};
    EXPECT(!placing_evaluate(PLACING_SURFACE(&square), 0.25, 0.5, PLACING_ARRAY(jet)));
    EXPECT(SAME(jet, 0.25, 0.5, 0, 1, 0, 0, 0, 1, 0, 7));
    placing_surface s = square;
    s.flags = PLACING_PERIODIC_U;
    EXPECT(!placing_evaluate(PLACING_SURFACE(&s), 1.25, 0.5, PLACING_ARRAY(jet)));
    EXPECT(placing_evaluate(PLACING_SURFACE(&s), 0.25, 1.5, PLACING_ARRAY(jet)) ==
           PLACING_EVALUATION);
    s.flags = PLACING_PERIODIC_V;
    EXPECT(!placing_evaluate(PLACING_SURFACE(&s), 0.25, 1.5, PLACING_ARRAY(jet)));
    EXPECT(SAME(jet, 0.25, 0.5, 0, 1, 0, 0, 0, 1, 0, 7));
    EXPECT(placing_evaluate(PLACING_SURFACE(&s), 0.25, 1.5, jet, 8) == PLACING_MISFIT);
    s.flags = 4;
    EXPECT(placing_evaluate(PLACING_SURFACE(&s), 0.25, 0.5, PLACING_ARRAY(jet)) == PLACING_MISFIT);
}

/* A quote of the surface, without a hint and with one: the points of its grid, and what lies past
 * both numbers is left. */
static int is_quoted(const placing_surface *s, uint64_t grid) {
    uint64_t quote[3] = {9, 9, 7};
    int so = !placing_quote(PLACING_AXES(s), 0, PLACING_ARRAY(quote));
    so &= quote[0] == grid && quote[1] == grid + 198 && quote[2] == 7;
    so &= !placing_quote(PLACING_AXES(s), 1, quote, 2);
    return so && quote[0] == grid && quote[1] == grid + 264 && quote[2] == 7;
}

static int is_unquoted(const placing_surface *s, uint64_t number) {
    uint64_t quote[2] = {9, 9};
    int so = placing_quote(PLACING_AXES(s), 0, PLACING_ARRAY(quote)) == number;
    so &= placing_quote(PLACING_AXES(s), 1, PLACING_ARRAY(quote)) == number;
    return so && quote[0] == 9 && quote[1] == 9;
}

/* Every function that takes a surface refuses this one with the number, and leaves all that it is
 * lent, but for a row's index. A quote knows nothing of the square's controls and weights. */
static int is_refused(const placing_surface *s, uint64_t number) {
    uint64_t budget[1] = {5}, index[1] = {9}, collapsed[4] = {9};
    double out[20] = {7};
    uint8_t ended[2] = {7, 7};
    const double mark[3] = {0};
    int so = placing_evaluate(PLACING_SURFACE(s), 0, 0, PLACING_ARRAY(out)) == number;
    so &= placing_invert(PLACING_SURFACE(s), 0, 0, 0, PLACING_NONE, 0, PLACING_NONE, PLACING_NONE,
                         PLACING_ARRAY(budget), PLACING_ARRAY(out), PLACING_ARRAY(ended)) == number;
    so &= placing_row(PLACING_SURFACE(s), PLACING_ARRAY(mark), PLACING_NONE, 0, PLACING_NONE,
                      PLACING_NONE, PLACING_ARRAY(budget), PLACING_ARRAY(index), PLACING_ARRAY(out),
                      PLACING_ARRAY(ended)) == number;
    so &= placing_derivative(PLACING_SURFACE(s), 0, 0, 1, 0, 0, PLACING_ARRAY(budget),
                             PLACING_ARRAY(out)) == number;
    so &= placing_nurbs_singular(PLACING_SURFACE(s), 0, PLACING_ARRAY(collapsed),
                                 PLACING_ARRAY(out)) == number;
    so &= index[0] == (number == PLACING_MISFIT ? 9 : 0);
    so &= number == PLACING_CONTROLS || number == PLACING_COORDINATE || number == PLACING_WEIGHTS
              ? is_quoted(s, 81)
              : is_unquoted(s, number);
    return so && budget[0] == 5 && collapsed[0] == 9 && out[0] == 7 && SAME_BYTES(ended, 7, 7);
}

/* Each refusal of a surface, by one fault at a time. */
static void surfaces(void) {
    const double infinite[] = {0, 0, 1.0 / 0.0, 0, 1, 0, 1, 0, 0, 1, 1, 0};
    const double light[] = {1, 1, 1, 0};
    const double disordered[] = {0, 1, 0, 1};
    placing_surface s[7];
    for (int i = 1; i < 7; i++)
        s[i] = square;
    s[PLACING_COUNTS].controls_u = SIZE_MAX;
    s[PLACING_CONTROLS].controls_count = 11;
    s[PLACING_COORDINATE].controls = infinite;
    s[PLACING_WEIGHTS].weights = light;
    s[PLACING_DEGREE].degree_v = 17;
    s[PLACING_KNOTS].knots_v = disordered;
    for (uint64_t i = 1; i < 7; i++)
        EXPECT(is_refused(&s[i], i));
}

/* The square with a window and flags. */
static placing_surface seen(const double window[4], uint64_t flags) {
    placing_surface s = square;
    s.window = window;
    s.window_count = 4;
    s.flags = flags;
    return s;
}
#define WINDOW(...) ((const double[4]){__VA_ARGS__})

/* A mark without a hint: whether it has this pair, for this price and no less, by the first start.
 */
static int is_placed(const placing_surface *s, double x, double y, double u, double v,
                     uint64_t price) {
    uint64_t budget[1] = {price};
    double pair[2];
    uint8_t ended[2];
    int so = !placing_invert(PLACING_SURFACE(s), x, y, 0.75, PLACING_NONE, 0.5, PLACING_NONE,
                             PLACING_NONE, PLACING_ARRAY(budget), PLACING_ARRAY(pair),
                             PLACING_ARRAY(ended));
    so &= SAME(pair, u, v) && SAME_BYTES(ended, PLACING_END_UNCHANGED, 1) && budget[0] == 0;
    budget[0] = price - 1;
    return so && placing_invert(PLACING_SURFACE(s), x, y, 0.75, PLACING_NONE, 0.5, PLACING_NONE,
                                PLACING_NONE, PLACING_ARRAY(budget), PLACING_ARRAY(pair),
                                PLACING_ARRAY(ended)) == PLACING_UNITS;
}

/* Marks stay inside a window. */
static void window(void) {
    const placing_surface half = seen(WINDOW(0.25, 0.75, 0, 1), 0);
    EXPECT(is_placed(&square, 0.9, 0.5, 0.9, 0.5, 93));
    EXPECT(is_placed(&half, 0.9, 0.5, 0.75, 0.5, 92));
    EXPECT(is_placed(&half, 0, 0.5, 0.25, 0.5, 92));
    EXPECT(is_placed(&half, 0.375, 0.5, 0.375, 0.5, 92));
    const placing_surface band = seen(WINDOW(0, 1, 0.5, 0.75), 0);
    EXPECT(is_placed(&band, 0.25, 0, 0.25, 0.5, 92));
    EXPECT(is_placed(&band, 0.25, 9, 0.25, 0.75, 92));

    /* A hint outside it is taken to its edge, and a pair there leads the next mark. */
    const double hint[] = {0.9, 0.5}, marks[] = {0.9, 0.5, 0.75, 0, 0.5, 0.75};
    uint64_t budget[1] = {3}, index[1] = {9};
    double answers[4];
    uint8_t ends[4];
    EXPECT(!placing_row(PLACING_SURFACE(&half), PLACING_ARRAY(marks), PLACING_ARRAY(hint), 1,
                        PLACING_NONE, PLACING_NONE, PLACING_ARRAY(budget), PLACING_ARRAY(index),
                        PLACING_ARRAY(answers), PLACING_ARRAY(ends)));
    EXPECT(SAME(answers, 0.75, 0.5, 0.25, 0.5) && budget[0] == 0 && index[0] == 0);
    EXPECT(SAME_BYTES(ends, PLACING_END_UNCHANGED, PLACING_ORIGIN_HINT, PLACING_END_UNCHANGED,
                      PLACING_ORIGIN_HINT));

    /* The other functions know the whole domain. */
    double out[20];
    uint64_t collapsed[4];
    EXPECT(!placing_evaluate(PLACING_SURFACE(&half), 0.875, 0.5, PLACING_ARRAY(out)));
    EXPECT(SAME(out, 0.875, 0.5, 0, 1, 0, 0, 0, 1, 0));
    budget[0] = 1;
    EXPECT(!placing_derivative(PLACING_SURFACE(&half), 0.875, 0.5, 3, 5, 7, PLACING_ARRAY(budget),
                               PLACING_ARRAY(out)));
    EXPECT(SAME(out, 3, 5));
    EXPECT(!placing_nurbs_singular(PLACING_SURFACE(&half), 0.5, PLACING_ARRAY(collapsed),
                                   PLACING_ARRAY(out)));
    EXPECT(SAME(out, 0, 0.5, 0, 0, 1, 1, 0.5, 1, 0, -1, 0, 0, 0.5, 0, 1, 1, 1, 0.5, 0, -1));

    /* A window on an axis beside a periodic one, which has its whole domain. */
    const placing_surface round_u = seen(WINDOW(0, 1, 0.5, 0.75), PLACING_PERIODIC_U);
    const placing_surface round_v = seen(WINDOW(0.25, 0.75, 0, 1), PLACING_PERIODIC_V);
    EXPECT(is_placed(&round_u, 0.25, 0, 0.25, 0.5, 92));
    EXPECT(is_placed(&round_v, 0.9, 0.5, 0.75, 0.5, 92));
    EXPECT(!placing_evaluate(PLACING_SURFACE(&round_u), 1.25, 0.25, PLACING_ARRAY(out)));
}

/* A window with the bits of the domain answers and costs what none does. */
static void whole(void) {
    const placing_surface surfaces[] = {square, seen(WINDOW(0, 1, 0, 1), 0)};
    const double marks[] = {0.3, 0.6, 0.75, -1, 2, 0.75, 0.1, 0.2, 0.3, 0.7, 0.7, 0};
    const double hint[] = {0.9, 0.1};
    uint64_t budgets[2], index[1];
    double answers[2][8];
    uint8_t ends[2][8];
    for (int i = 0; i < 2; i++) {
        budgets[i] = 1000;
        EXPECT(!placing_row(PLACING_SURFACE(&surfaces[i]), PLACING_ARRAY(marks),
                            PLACING_ARRAY(hint), 0.5, PLACING_NONE, PLACING_NONE, &budgets[i], 1,
                            PLACING_ARRAY(index), PLACING_ARRAY(answers[i]),
                            PLACING_ARRAY(ends[i])));
    }
    EXPECT(!memcmp(answers[0], answers[1], sizeof answers[0]));
    EXPECT(!memcmp(ends[0], ends[1], sizeof ends[0]));
    EXPECT(budgets[0] == budgets[1] && budgets[0] < 1000);
}

/* Each fault of a window by itself, and when it is tested. */
static void windows(void) {
    const double inf = 1.0 / 0.0;
    const double faults[][4] = {
        {NAN, 1, 0, 1},    {0, NAN, 0, 1},   {0, 1, NAN, 1},
        {0, 1, 0, NAN},    {-inf, 1, 0, 1},  {0, inf, 0, 1},
        {0, 1, -inf, 1},   {0, 1, 0, inf},   {0.75, 0.25, 0, 1},
        {0.5, 0.5, 0, 1},  {0, 1, 1, 0},     {0, 1, 0.5, 0.5},
        {-0.5, 0.5, 0, 1}, {0.5, 1.5, 0, 1}, {0, 1 + DBL_EPSILON, 0, 1},
        {0, 1, -1, 0.5},   {0, 1, 0.5, 2},   {2, 3, 0, 1},
    };
    for (size_t i = 0; i < sizeof faults / sizeof *faults; i++) {
        const placing_surface s = seen(faults[i], 0);
        EXPECT(is_refused(&s, PLACING_WINDOW));
    }
    const placing_surface narrow_u[] = {seen(WINDOW(0, 0.5, 0, 1), PLACING_PERIODIC_U),
                                        seen(WINDOW(0.5, 1, 0, 1), PLACING_PERIODIC_U)};
    const placing_surface narrow_v[] = {seen(WINDOW(0, 1, 0, 0.5), PLACING_PERIODIC_V),
                                        seen(WINDOW(0, 1, 0.5, 1), PLACING_PERIODIC_V)};
    for (int i = 0; i < 2; i++) {
        EXPECT(is_refused(&narrow_u[i], PLACING_WINDOW));
        EXPECT(is_refused(&narrow_v[i], PLACING_WINDOW));
    }

    /* After 6 and 11; before 7, 8 and 9. */
    placing_surface s = seen(WINDOW(1, 0, 0, 1), 0);
    const double mark[] = {NAN, 0, 0};
    uint64_t budget[1] = {0}, index[1], collapsed[4];
    double out[20];
    uint8_t ended[2];
    EXPECT(placing_evaluate(PLACING_SURFACE(&s), 9, 9, PLACING_ARRAY(out)) == PLACING_WINDOW);
    EXPECT(placing_invert(PLACING_SURFACE(&s), NAN, 0, 0, PLACING_NONE, -1, PLACING_NONE,
                          PLACING_NONE, PLACING_ARRAY(budget), PLACING_ARRAY(out),
                          PLACING_ARRAY(ended)) == PLACING_WINDOW);
    EXPECT(placing_row(PLACING_SURFACE(&s), PLACING_ARRAY(mark), PLACING_NONE, -1, PLACING_NONE,
                       PLACING_NONE, PLACING_ARRAY(budget), PLACING_ARRAY(index),
                       PLACING_ARRAY(out), PLACING_ARRAY(ended)) == PLACING_WINDOW);
    EXPECT(placing_row(PLACING_SURFACE(&s), mark, 2, PLACING_NONE, -1, PLACING_NONE, PLACING_NONE,
                       PLACING_ARRAY(budget), PLACING_ARRAY(index), PLACING_ARRAY(out),
                       PLACING_ARRAY(ended)) == PLACING_ROW);
    EXPECT(placing_derivative(PLACING_SURFACE(&s), 0, 0, NAN, 0, 0, PLACING_ARRAY(budget),
                              PLACING_ARRAY(out)) == PLACING_WINDOW);
    EXPECT(placing_nurbs_singular(PLACING_SURFACE(&s), -1, PLACING_ARRAY(collapsed),
                                  PLACING_ARRAY(out)) == PLACING_WINDOW);
    const double disordered[] = {0, 1, 0, 1};
    s.knots_v = disordered;
    EXPECT(is_refused(&s, PLACING_KNOTS));

    /* Another count is none of the surface's faults, and comes before them all. */
    const double numbers[] = {0, 1, 0, 1, 0};
    const size_t counts[] = {1, 2, 3, 5};
    for (int i = 0; i < 4; i++) {
        s = square;
        s.window = numbers;
        s.window_count = counts[i];
        EXPECT(is_refused(&s, PLACING_MISFIT));
        s.controls_u = SIZE_MAX;
        EXPECT(is_refused(&s, PLACING_MISFIT));
    }
}

static void invert(void) {
    const double hint[] = {5.25, -2.5, 0}, period[] = {1, 1};
    uint64_t budget[2] = {92, 5};
    double pair[3] = {[2] = 7};
    uint8_t ended[3] = {9, 9, 7};
    EXPECT(!placing_invert(PLACING_SURFACE(&square), 0.25, 0.5, 0.75, PLACING_NONE, 0.5,
                           PLACING_NONE, PLACING_NONE, PLACING_ARRAY(budget), PLACING_ARRAY(pair),
                           PLACING_ARRAY(ended)));
    EXPECT(SAME(pair, 0.25, 0.5, 7) && budget[0] == 0 && budget[1] == 5);
    EXPECT(SAME_BYTES(ended, PLACING_END_UNCHANGED, 1, 7));
    EXPECT(placing_invert(PLACING_SURFACE(&square), 0.25, 0.5, 0.75, PLACING_NONE, 0.5,
                          PLACING_NONE, PLACING_NONE, PLACING_ARRAY(budget), PLACING_ARRAY(pair),
                          PLACING_ARRAY(ended)) == PLACING_UNITS);
    EXPECT(SAME_BYTES(ended, PLACING_END_UNCHANGED, 1, 7));
    budget[0] = 1000;
    EXPECT(!placing_invert(PLACING_SURFACE(&square), 0.25, 0.5, 0.75, hint, 2, 0.75, period, 1,
                           PLACING_NONE, PLACING_ARRAY(budget), PLACING_ARRAY(pair),
                           PLACING_ARRAY(ended)));
    EXPECT(SAME(pair, 5.25, 0.5, 7));
    EXPECT(SAME_BYTES(ended, PLACING_END_UNCHANGED, PLACING_ORIGIN_HINT, 7));
    EXPECT(!placing_invert(PLACING_SURFACE(&square), 0.25, 0.5, 0.75, hint, 2, 0.75, PLACING_NONE,
                           period, 1, PLACING_ARRAY(budget), PLACING_ARRAY(pair),
                           PLACING_ARRAY(ended)));
    EXPECT(SAME(pair, 0.25, -2.5, 7));
    budget[0] = 5;
    ended[0] = ended[1] = 9;
    EXPECT(placing_invert(PLACING_SURFACE(&square), 0, 0, 0, PLACING_NONE, -1, PLACING_NONE,
                          PLACING_NONE, PLACING_ARRAY(budget), PLACING_ARRAY(pair),
                          PLACING_ARRAY(ended)) == PLACING_ARGUMENT);
    EXPECT(placing_invert(PLACING_SURFACE(&square), 0, 0, 0, hint, 1, 0, PLACING_NONE, PLACING_NONE,
                          PLACING_ARRAY(budget), PLACING_ARRAY(pair),
                          PLACING_ARRAY(ended)) == PLACING_MISFIT);
    EXPECT(placing_invert(PLACING_SURFACE(&square), 0, 0, 0, hint, 3, 0, PLACING_NONE, PLACING_NONE,
                          PLACING_ARRAY(budget), PLACING_ARRAY(pair),
                          PLACING_ARRAY(ended)) == PLACING_MISFIT);
    EXPECT(placing_invert(PLACING_SURFACE(&square), 0, 0, 0, PLACING_NONE, 0, period, 2,
                          PLACING_NONE, PLACING_ARRAY(budget), PLACING_ARRAY(pair),
                          PLACING_ARRAY(ended)) == PLACING_MISFIT);
    EXPECT(placing_invert(PLACING_SURFACE(&square), 0, 0, 0, PLACING_NONE, 0, PLACING_NONE, period,
                          2, PLACING_ARRAY(budget), PLACING_ARRAY(pair),
                          PLACING_ARRAY(ended)) == PLACING_MISFIT);
    EXPECT(placing_invert(PLACING_SURFACE(&square), 0, 0, 0, PLACING_NONE, 0, PLACING_NONE,
                          PLACING_NONE, budget, 0, PLACING_ARRAY(pair),
                          PLACING_ARRAY(ended)) == PLACING_MISFIT);
    EXPECT(placing_invert(PLACING_SURFACE(&square), 0, 0, 0, PLACING_NONE, 0, PLACING_NONE,
                          PLACING_NONE, PLACING_ARRAY(budget), pair, 1,
                          PLACING_ARRAY(ended)) == PLACING_MISFIT);
    EXPECT(placing_invert(PLACING_SURFACE(&square), 0, 0, 0, PLACING_NONE, 0, PLACING_NONE,
                          PLACING_NONE, PLACING_ARRAY(budget), PLACING_ARRAY(pair), ended,
                          1) == PLACING_MISFIT);
    EXPECT(SAME(pair, 0.25, -2.5, 7) && budget[0] == 5 && SAME_BYTES(ended, 9, 9, 7));
}

/* A surface that is one point has no direction to go in. */
static void ends(void) {
    const double zeros[12] = {0};
    placing_surface dot = square;
    dot.controls = zeros;
    uint64_t budget[1] = {83};
    double pair[2];
    uint8_t ended[2];
    EXPECT(!placing_invert(PLACING_SURFACE(&dot), 3, 4, 0, PLACING_NONE, 0, PLACING_NONE,
                           PLACING_NONE, PLACING_ARRAY(budget), PLACING_ARRAY(pair),
                           PLACING_ARRAY(ended)));
    EXPECT(SAME(pair, 0.0000005, 0.0000005) && SAME_BYTES(ended, PLACING_END_SINGULAR, 1));
}

/* A row on the square, and each of its marks by a call of its own: with the row's hint the first, a
 * later one with the pair before it for its hint where that one's letter is c for close, and with
 * none where it is l for lost. Whether pairs and ends are the same to the bit, whether each call
 * takes as much as the row does for its mark, and whether that is its price. */
static int is_led(const char *letters, const double *marks, const double *hint, double tolerance,
                  const double *period, const uint64_t *prices) {
    const double *first = hint;
    double pairs[8], answers[8];
    uint8_t ended[8], ends[8];
    uint64_t alone[1] = {1000};
    int so = 1;
    for (size_t i = 0; letters[i]; i++) {
        const double *mark = marks + 3 * i;
        uint64_t before = alone[0], budget[1] = {1000}, index[1] = {9};
        so &= !placing_invert(PLACING_SURFACE(&square), mark[0], mark[1], mark[2], hint,
                              hint ? 2 : 0, tolerance, period, period ? 1 : 0, PLACING_NONE,
                              PLACING_ARRAY(alone), pairs + 2 * i, 2, ended + 2 * i, 2);
        so &= before - alone[0] == prices[i];
        so &= !placing_row(PLACING_SURFACE(&square), marks, 3 * i + 3, first, first ? 2 : 0,
                           tolerance, period, period ? 1 : 0, PLACING_NONE, PLACING_ARRAY(budget),
                           PLACING_ARRAY(index), PLACING_ARRAY(answers), PLACING_ARRAY(ends));
        so &= budget[0] == alone[0] && index[0] == 0;
        so &= !memcmp(answers, pairs, (2 * i + 2) * sizeof *pairs);
        so &= !memcmp(ends, ended, 2 * i + 2);
        hint = letters[i] == 'c' ? pairs + 2 * i : NULL;
    }
    return so;
}
#define PRICES(...) ((const uint64_t[]){__VA_ARGS__})

/* Which marks lead the next: those at most the tolerance away from the square. */
static void lead(void) {
    const double above[] = {0.25, 0.5, 0.75, 0.25, 0.5, 0.75};
    EXPECT(is_led("cc", above, NULL, 1, NULL, PRICES(92, 1)));
    EXPECT(is_led("cc", above, NULL, 0.75, NULL, PRICES(92, 1)));
    EXPECT(is_led("ll", above, NULL, 0.75 - DBL_EPSILON / 2, NULL, PRICES(92, 92)));
    EXPECT(is_led("ll", above, NULL, 0.5, NULL, PRICES(92, 92)));
    /* A lost mark in the middle. */
    const double beside[] = {0.25, 0.5, 0, 0.25, 0.5, 0.75, 0.25, 0.5, 0, 0.25, 0.5, 0};
    EXPECT(is_led("clcc", beside, NULL, 0.5, NULL, PRICES(92, 94, 92, 1)));
    EXPECT(is_led("cccc", beside, NULL, 1, NULL, PRICES(92, 1, 1, 1)));
    /* The row's own hint is the first mark's, and no other's. */
    const double hint[] = {0.25, 0.5};
    EXPECT(is_led("cc", above, hint, 0.75, NULL, PRICES(1, 1)));
    EXPECT(is_led("ll", above, hint, 0.5, NULL, PRICES(94, 92)));
}

/* A close mark hands on the turn that its pair was shifted to, a lost one does not. */
static void shift(void) {
    const double marks[] = {0.25, 0.5, 0.75, 0.25, 0.5, 0.75};
    const double far[] = {5.25, 0.5}, turn[] = {1};
    uint64_t budget[1] = {1000}, index[1];
    double answers[4];
    uint8_t ends[4];
    EXPECT(is_led("cc", marks, far, 0.75, turn, PRICES(2, 2)));
    EXPECT(is_led("ll", marks, far, 0.5, turn, PRICES(96, 92)));
    EXPECT(!placing_row(PLACING_SURFACE(&square), PLACING_ARRAY(marks), PLACING_ARRAY(far), 0.75,
                        PLACING_ARRAY(turn), PLACING_NONE, PLACING_ARRAY(budget),
                        PLACING_ARRAY(index), PLACING_ARRAY(answers), PLACING_ARRAY(ends)));
    EXPECT(SAME(answers, 5.25, 0.5, 5.25, 0.5));
    EXPECT(!placing_row(PLACING_SURFACE(&square), PLACING_ARRAY(marks), PLACING_ARRAY(far), 0.5,
                        PLACING_ARRAY(turn), PLACING_NONE, PLACING_ARRAY(budget),
                        PLACING_ARRAY(index), PLACING_ARRAY(answers), PLACING_ARRAY(ends)));
    EXPECT(SAME(answers, 5.25, 0.5, 0.25, 0.5));
}

/* A shift by more periods than a double can count: the next mark is refused where the first is
 * close, and placed where it is lost. */
static void infinite(void) {
    const double marks[] = {0.25, 0.5, 0.75, 0.25, 0.5, 0.75};
    const double hint[] = {1e300, 0.5}, period[] = {1e-300};
    uint64_t budget[1] = {1000}, index[1];
    double pair[2], answers[4] = {[2] = 7, [3] = 7};
    uint8_t ended[2], ends[4] = {9, 9, 9, 9};
    EXPECT(!placing_invert(PLACING_SURFACE(&square), 0.25, 0.5, 0.75, PLACING_ARRAY(hint), 1,
                           PLACING_ARRAY(period), PLACING_NONE, PLACING_ARRAY(budget),
                           PLACING_ARRAY(pair), PLACING_ARRAY(ended)));
    EXPECT(isinf(pair[0]) && pair[1] == 0.5);
    EXPECT(placing_row(PLACING_SURFACE(&square), PLACING_ARRAY(marks), PLACING_ARRAY(hint), 1,
                       PLACING_ARRAY(period), PLACING_NONE, PLACING_ARRAY(budget),
                       PLACING_ARRAY(index), PLACING_ARRAY(answers),
                       PLACING_ARRAY(ends)) == PLACING_ARGUMENT);
    EXPECT(index[0] == 1 && SAME(answers, pair[0], pair[1], 7, 7));
    EXPECT(SAME_BYTES(ends, PLACING_END_UNCHANGED, PLACING_ORIGIN_HINT, 9, 9));
    EXPECT(!placing_row(PLACING_SURFACE(&square), PLACING_ARRAY(marks), PLACING_ARRAY(hint), 0.5,
                        PLACING_ARRAY(period), PLACING_NONE, PLACING_ARRAY(budget),
                        PLACING_ARRAY(index), PLACING_ARRAY(answers), PLACING_ARRAY(ends)));
    EXPECT(index[0] == 0 && SAME(answers, pair[0], pair[1], 0.25, 0.5));
    EXPECT(SAME_BYTES(ends, PLACING_END_UNCHANGED, PLACING_ORIGIN_HINT, PLACING_END_UNCHANGED, 1));
    EXPECT(is_led("ll", marks, hint, 0.5, period, PRICES(96, 92)));
}

static void row(void) {
    const double marks[] = {0.25, 0.5, 0.75, 0.25, 0.5, 0.75};
    uint64_t budget[1] = {1000}, index[2] = {9, 9};
    double answers[5] = {7, 7, 7, 7, 7};
    uint8_t ends[5] = {9, 9, 9, 9, 7};
    EXPECT(placing_row(PLACING_SURFACE(&square), PLACING_ARRAY(marks), PLACING_NONE, 0.5,
                       PLACING_NONE, PLACING_NONE, PLACING_ARRAY(budget), PLACING_ARRAY(index),
                       PLACING_ARRAY(answers), ends, 3) == PLACING_ROW);
    EXPECT(SAME(answers, 7, 7, 7, 7, 7) && SAME_BYTES(ends, 9, 9, 9, 9, 7));
    EXPECT(budget[0] == 1000 && index[0] == 0);
    EXPECT(!placing_row(PLACING_SURFACE(&square), PLACING_ARRAY(marks), PLACING_NONE, 0.5,
                        PLACING_NONE, PLACING_NONE, PLACING_ARRAY(budget), PLACING_ARRAY(index),
                        PLACING_ARRAY(answers), PLACING_ARRAY(ends)));
    EXPECT(SAME(answers, 0.25, 0.5, 0.25, 0.5, 7));
    EXPECT(SAME_BYTES(ends, PLACING_END_UNCHANGED, 1, PLACING_END_UNCHANGED, 1, 7));
    EXPECT(budget[0] == 816 && index[0] == 0 && index[1] == 9);
    budget[0] = 1000;
    EXPECT(!placing_row(PLACING_SURFACE(&square), PLACING_ARRAY(marks), PLACING_NONE, 1,
                        PLACING_NONE, PLACING_NONE, PLACING_ARRAY(budget), PLACING_ARRAY(index),
                        PLACING_ARRAY(answers), PLACING_ARRAY(ends)));
    EXPECT(SAME(answers, 0.25, 0.5, 0.25, 0.5, 7));
    EXPECT(
        SAME_BYTES(ends, PLACING_END_UNCHANGED, 1, PLACING_END_UNCHANGED, PLACING_ORIGIN_HINT, 7));
    EXPECT(budget[0] == 907 && index[0] == 0);
    budget[0] = 100;
    answers[2] = 7;
    memset(ends, 9, 4);
    EXPECT(placing_row(PLACING_SURFACE(&square), PLACING_ARRAY(marks), PLACING_NONE, 0.5,
                       PLACING_NONE, PLACING_NONE, PLACING_ARRAY(budget), PLACING_ARRAY(index),
                       PLACING_ARRAY(answers), PLACING_ARRAY(ends)) == PLACING_UNITS);
    EXPECT(SAME(answers, 0.25, 0.5, 7, 0.5, 7) && budget[0] == 0 && index[0] == 1);
    EXPECT(SAME_BYTES(ends, PLACING_END_UNCHANGED, 1, 9, 9, 7));
    EXPECT(placing_row(PLACING_SURFACE(&square), marks, 5, PLACING_NONE, 0.5, PLACING_NONE,
                       PLACING_NONE, PLACING_ARRAY(budget), PLACING_ARRAY(index),
                       PLACING_ARRAY(answers), PLACING_ARRAY(ends)) == PLACING_ROW);
    EXPECT(placing_row(PLACING_SURFACE(&square), PLACING_ARRAY(marks), PLACING_NONE, 0.5,
                       PLACING_NONE, PLACING_NONE, PLACING_ARRAY(budget), PLACING_ARRAY(index),
                       answers, 3, PLACING_ARRAY(ends)) == PLACING_ROW);
    EXPECT(index[0] == 0);
    index[0] = 9;
    EXPECT(placing_row(PLACING_SURFACE(&square), PLACING_ARRAY(marks), marks, 1, 0.5, PLACING_NONE,
                       PLACING_NONE, PLACING_ARRAY(budget), PLACING_ARRAY(index),
                       PLACING_ARRAY(answers), PLACING_ARRAY(ends)) == PLACING_MISFIT);
    EXPECT(placing_row(PLACING_SURFACE(&square), PLACING_ARRAY(marks), PLACING_NONE, 0.5,
                       PLACING_NONE, PLACING_NONE, PLACING_ARRAY(budget), index, 0,
                       PLACING_ARRAY(answers), PLACING_ARRAY(ends)) == PLACING_MISFIT);
    EXPECT(placing_row(PLACING_SURFACE(&square), PLACING_ARRAY(marks), PLACING_NONE, 0.5,
                       PLACING_NONE, PLACING_NONE, budget, 0, PLACING_ARRAY(index),
                       PLACING_ARRAY(answers), PLACING_ARRAY(ends)) == PLACING_MISFIT);
    EXPECT(index[0] == 9 && SAME_BYTES(ends, PLACING_END_UNCHANGED, 1, 9, 9, 7));
}

/* The grid has eight values a span and one more, of each axis. */
static void quote(void) {
    EXPECT(is_quoted(&square, 81));
    placing_surface s = square;
    s.controls = s.weights = NULL;
    s.controls_count = s.weights_count = 0;
    s.flags = PLACING_PERIODIC_U + PLACING_PERIODIC_V;
    EXPECT(is_quoted(&s, 81));

    const double spans[] = {0, 0, 1, 2, 3, 3};
    s = square;
    s.controls_u = 4, s.knots_u = spans, s.knots_u_count = 6;
    EXPECT(is_quoted(&s, 25 * 9));
    s.controls_v = 4, s.knots_v = spans, s.knots_v_count = 6;
    EXPECT(is_quoted(&s, 25 * 25));
    /* The ends of a window and the knots between them. */
    s.window_count = 4;
    s.window = WINDOW(0, 3, 1, 2);
    EXPECT(is_quoted(&s, 25 * 9));
    s.window = WINDOW(0.5, 2.5, 1.5, 1.75);
    EXPECT(is_quoted(&s, 25 * 9));
    s.window = WINDOW(0.5, 2, 0, 1.5);
    EXPECT(is_quoted(&s, 17 * 17));

    /* Equal knots are one, and those outside the domain none. */
    const double repeated[] = {0, 0, 0, 1, 1, 2, 2, 2}, open[] = {0, 1, 2, 3, 4, 5};
    s = square;
    s.degree_u = 2, s.controls_u = 5, s.knots_u = repeated, s.knots_u_count = 8;
    EXPECT(is_quoted(&s, 17 * 9));
    s.degree_v = 2, s.controls_v = 3, s.knots_v = open, s.knots_v_count = 6;
    EXPECT(is_quoted(&s, 17 * 9));
}

/* How many values an axis has in the grid, by its distinct knots, of which every n-th is taken. */
static void values(void) {
    const size_t counts[][2] = {
        {2, 9},    {3, 17},   {23, 177}, {24, 185}, {25, 97},  {26, 105}, {47, 185},
        {48, 193}, {49, 129}, {70, 185}, {71, 193}, {72, 193}, {73, 145}, {93, 185},
        {94, 193}, {95, 193}, {96, 193}, {97, 161}, {98, 161},
    };
    double even[100] = {0};
    for (size_t i = 0; i < sizeof counts / sizeof *counts; i++) {
        const size_t distinct = counts[i][0];
        for (size_t j = 0; j < distinct; j++)
            even[j + 1] = even[j + 2] = (double)j;
        placing_surface s = square;
        s.controls_u = distinct, s.knots_u = even, s.knots_u_count = distinct + 2;
        EXPECT(is_quoted(&s, 9 * counts[i][1]));
        s.controls_v = distinct, s.knots_v = even, s.knots_v_count = distinct + 2;
        EXPECT(is_quoted(&s, counts[i][1] * counts[i][1]));
    }
}

/* The checks of a quote, one after another. */
static void unquoted(void) {
    static const double zeros[100031];
    const double turned[] = {1, 0, 0, 1}, disordered[] = {0, 1, 0, 1};
    placing_surface s = seen(turned, 0);
    EXPECT(is_unquoted(&s, PLACING_WINDOW));
    s.knots_v = disordered;
    EXPECT(is_unquoted(&s, PLACING_KNOTS));
    s.degree_v = 0;
    EXPECT(is_unquoted(&s, PLACING_DEGREE));
    s.knots_u = disordered;
    EXPECT(is_unquoted(&s, PLACING_KNOTS));
    s.degree_u = 17;
    EXPECT(is_unquoted(&s, PLACING_DEGREE));
    s.knots_u = zeros, s.knots_u_count = 100030;
    s.controls_u = 50000;
    EXPECT(is_unquoted(&s, PLACING_DEGREE));
    s.controls_u = 50001;
    EXPECT(is_unquoted(&s, PLACING_COUNTS));
    s.controls_u = SIZE_MAX;
    EXPECT(is_unquoted(&s, PLACING_COUNTS));
    s.controls_u = 2, s.knots_u_count = 100031;
    EXPECT(is_unquoted(&s, PLACING_COUNTS));
    s.window_count = 3;
    EXPECT(is_unquoted(&s, PLACING_MISFIT));
    s.window_count = 4, s.flags = 4;
    EXPECT(is_unquoted(&s, PLACING_MISFIT));

    const placing_surface both[] = {square, s};
    const uint64_t hinted[] = {2, 3, UINT64_MAX};
    uint64_t room[2] = {9, 9};
    for (int i = 0; i < 2; i++) {
        for (int j = 0; j < 3; j++)
            EXPECT(placing_quote(PLACING_AXES(&both[i]), hinted[j], PLACING_ARRAY(room)) ==
                   PLACING_MISFIT);
        EXPECT(placing_quote(PLACING_AXES(&both[i]), 0, room, 1) == PLACING_MISFIT);
        EXPECT(placing_quote(PLACING_AXES(&both[i]), 1, NULL, 0) == PLACING_MISFIT);
    }
    EXPECT(room[0] == 9 && room[1] == 9);
}

static void derivative(void) {
    const double zeros[12] = {0};
    placing_surface dot = square;
    dot.controls = zeros;
    uint64_t budget[1] = {2};
    double pair[3] = {[2] = 7};
    EXPECT(!placing_derivative(PLACING_SURFACE(&square), 0.25, 0.5, 3, 5, 7, PLACING_ARRAY(budget),
                               PLACING_ARRAY(pair)));
    EXPECT(SAME(pair, 3, 5, 7) && budget[0] == 1);
    EXPECT(placing_derivative(PLACING_SURFACE(&dot), 0.25, 0.5, 3, 5, 7, PLACING_ARRAY(budget),
                              PLACING_ARRAY(pair)) == PLACING_SINGULAR);
    EXPECT(placing_derivative(PLACING_SURFACE(&dot), 0.25, 0.5, 3, 5, 7, PLACING_ARRAY(budget),
                              PLACING_ARRAY(pair)) == PLACING_UNITS);
    EXPECT(placing_derivative(PLACING_SURFACE(&dot), 0.25, 0.5, 3, 5, 7, PLACING_ARRAY(budget),
                              pair, 1) == PLACING_MISFIT);
    EXPECT(SAME(pair, 3, 5, 7) && budget[0] == 0);
    /* Along u this square is 2 long, and the vector's product with that overflows. */
    const double wide[12] = {[4] = 2, [6] = 2, [9] = 2, [10] = 2};
    placing_surface large = square;
    large.controls = wide;
    budget[0] = 1;
    EXPECT(!placing_derivative(PLACING_SURFACE(&large), 0, 0, DBL_MAX, 0, 0, PLACING_ARRAY(budget),
                               PLACING_ARRAY(pair)));
    EXPECT(isinf(pair[0]) && isnan(pair[1]));
}

static void singular(void) {
    uint64_t collapsed[5] = {[4] = 9};
    double edges[21] = {[20] = 7};
    EXPECT(!placing_nurbs_singular(PLACING_SURFACE(&square), 0.5, PLACING_ARRAY(collapsed),
                                   PLACING_ARRAY(edges)));
    EXPECT(collapsed[0] == 1 && collapsed[1] == 1 && collapsed[2] == 1 && collapsed[3] == 1 &&
           collapsed[4] == 9);
    EXPECT(SAME(edges, 0, 0.5, 0, 0, 1, 1, 0.5, 1, 0, -1, 0, 0, 0.5, 0, 1, 1, 1, 0.5, 0, -1, 7));
    EXPECT(!placing_nurbs_singular(PLACING_SURFACE(&square), 0.25, PLACING_ARRAY(collapsed),
                                   PLACING_ARRAY(edges)));
    EXPECT(!collapsed[0] && !collapsed[1] && !collapsed[2] && !collapsed[3]);
    EXPECT(placing_nurbs_singular(PLACING_SURFACE(&square), -1, PLACING_ARRAY(collapsed),
                                  PLACING_ARRAY(edges)) == PLACING_ARGUMENT);
    EXPECT(placing_nurbs_singular(PLACING_SURFACE(&square), 0.5, collapsed, 3,
                                  PLACING_ARRAY(edges)) == PLACING_MISFIT);
    EXPECT(placing_nurbs_singular(PLACING_SURFACE(&square), 0.5, PLACING_ARRAY(collapsed), edges,
                                  19) == PLACING_MISFIT);
}

static void plane(void) {
    uint64_t budget[1] = {1};
    double pair[3] = {[2] = 7};
    EXPECT(!placing_plane(1, 2, 3, 0, 1, 0, 0, 0, 2, 9, 5, 4, PLACING_ARRAY(budget),
                          PLACING_ARRAY(pair)));
    EXPECT(SAME(pair, 3, 2, 7) && budget[0] == 0);
    EXPECT(placing_plane(1, 2, 3, 0, 1, 0, 0, 0, 2, 9, 5, 4, PLACING_ARRAY(budget),
                         PLACING_ARRAY(pair)) == PLACING_UNITS);
    EXPECT(placing_plane(1, 2, 3, 0, 1.0 / 0.0, 0, 0, 0, 2, 9, 5, 4, PLACING_ARRAY(budget),
                         PLACING_ARRAY(pair)) == PLACING_ARGUMENT);
    EXPECT(placing_plane(1, 2, 3, 0, 1, 0, 0, 0, 2, 9, 5, 4, PLACING_ARRAY(budget), pair, 1) ==
           PLACING_MISFIT);
}

static size_t put(uint8_t *file, size_t at, const void *bytes, size_t count) {
    memcpy(file + at, bytes, count);
    return at + count;
}

static void job(void) {
    static uint8_t file[1000], printout[PLACING_PRINTOUT_ROOM + 1];
    const double tolerance = 0.5, mark[] = {0.25, 0.5, 0.75};
    const uint64_t budget = 1000;
    uint64_t written[2] = {9, 9};
    size_t count = put(file, 0, "SF\1\1\2\0\2\0\0", 9);
    count = put(file, count, knots, sizeof knots);
    count = put(file, count, knots, sizeof knots);
    count = put(file, count, net, sizeof net);
    count = put(file, count, weights, sizeof weights);
    count = put(file, count, "TL", 2);
    count = put(file, count, &tolerance, 8);
    count = put(file, count, &budget, 8);
    for (int i = 0; i < 2; i++) {
        count = put(file, count, "MK", 2);
        count = put(file, count, mark, sizeof mark);
    }
    const char expected[] = "marks 2\n3fd0000000000000 3fe0000000000000 908 0\n"
                            "3fd0000000000000 3fe0000000000000 816 0\n\7";
    memset(printout, 7, sizeof printout);
    EXPECT(placing_job(file, count, printout, PLACING_PRINTOUT_ROOM - 1, PLACING_ARRAY(written)) ==
           PLACING_MISFIT);
    EXPECT(printout[0] == 7 && written[0] == 9);
    EXPECT(!placing_job(file, count, PLACING_ARRAY(printout), PLACING_ARRAY(written)));
    EXPECT(written[0] == sizeof expected - 2 && written[1] == 9);
    EXPECT(!memcmp(printout, expected, sizeof expected - 1));
    EXPECT(!placing_job(file, count - 1, printout, PLACING_PRINTOUT_ROOM, PLACING_ARRAY(written)));
    EXPECT(written[0] == 16 && !memcmp(printout, "refused 12 at 0\n", 16));
}

/* Each array in turn is no array at all: the function answers as for any other count of 0. */
static void nothing(void) {
    const double mark[] = {0.25, 0.5, 0.75};
    uint64_t budget[1] = {1000}, index[1] = {9}, collapsed[4];
    double out[20];
    uint8_t ended[2];
    placing_surface s[4] = {square, square, square, square};
    s[0].knots_u = NULL, s[0].knots_u_count = 0;
    s[1].knots_v = NULL, s[1].knots_v_count = 0;
    s[2].controls = NULL, s[2].controls_count = 0;
    s[3].weights = NULL, s[3].weights_count = 0;
    const uint64_t refused[] = {PLACING_KNOTS, PLACING_KNOTS, PLACING_CONTROLS, PLACING_CONTROLS};
    for (int i = 0; i < 4; i++) {
        EXPECT(placing_evaluate(PLACING_SURFACE(&s[i]), 0, 0, PLACING_ARRAY(out)) == refused[i]);
        EXPECT(placing_invert(PLACING_SURFACE(&s[i]), 0, 0, 0, NULL, 0, 0, NULL, 0, NULL, 0,
                              PLACING_ARRAY(budget), PLACING_ARRAY(out),
                              PLACING_ARRAY(ended)) == refused[i]);
        EXPECT(placing_row(PLACING_SURFACE(&s[i]), NULL, 0, NULL, 0, 0, NULL, 0, NULL, 0,
                           PLACING_ARRAY(budget), PLACING_ARRAY(index), NULL, 0, NULL,
                           0) == refused[i]);
        EXPECT(placing_derivative(PLACING_SURFACE(&s[i]), 0, 0, 0, 0, 0, PLACING_ARRAY(budget),
                                  PLACING_ARRAY(out)) == refused[i]);
        EXPECT(placing_nurbs_singular(PLACING_SURFACE(&s[i]), 0, PLACING_ARRAY(collapsed),
                                      PLACING_ARRAY(out)) == refused[i]);
        EXPECT(refused[i] == PLACING_KNOTS ? is_unquoted(&s[i], PLACING_KNOTS)
                                           : is_quoted(&s[i], 81));
    }
    const placing_surface none = {0};
    EXPECT(placing_evaluate(PLACING_SURFACE(&none), 0, 0, PLACING_ARRAY(out)) == PLACING_WEIGHTS);
    EXPECT(is_unquoted(&none, PLACING_DEGREE));

    EXPECT(placing_evaluate(PLACING_SURFACE(&square), 0, 0, NULL, 0) == PLACING_MISFIT);
    EXPECT(!placing_invert(PLACING_SURFACE(&square), 0.25, 0.5, 0.75, NULL, 0, 0.5, NULL, 0, NULL,
                           0, PLACING_ARRAY(budget), PLACING_ARRAY(out), PLACING_ARRAY(ended)));
    EXPECT(SAME(out, 0.25, 0.5));
    EXPECT(placing_invert(PLACING_SURFACE(&square), 0, 0, 0, NULL, 0, 0, NULL, 0, NULL, 0, NULL, 0,
                          PLACING_ARRAY(out), PLACING_ARRAY(ended)) == PLACING_MISFIT);
    EXPECT(placing_invert(PLACING_SURFACE(&square), 0, 0, 0, NULL, 0, 0, NULL, 0, NULL, 0,
                          PLACING_ARRAY(budget), NULL, 0, PLACING_ARRAY(ended)) == PLACING_MISFIT);
    EXPECT(placing_invert(PLACING_SURFACE(&square), 0, 0, 0, NULL, 0, 0, NULL, 0, NULL, 0,
                          PLACING_ARRAY(budget), PLACING_ARRAY(out), NULL, 0) == PLACING_MISFIT);

    EXPECT(!placing_row(PLACING_SURFACE(&square), NULL, 0, NULL, 0, 0.5, NULL, 0, NULL, 0,
                        PLACING_ARRAY(budget), PLACING_ARRAY(index), NULL, 0, NULL, 0));
    EXPECT(index[0] == 0);
    EXPECT(!placing_row(PLACING_SURFACE(&square), PLACING_ARRAY(mark), NULL, 0, 0.5, NULL, 0, NULL,
                        0, PLACING_ARRAY(budget), PLACING_ARRAY(index), PLACING_ARRAY(out),
                        PLACING_ARRAY(ended)));
    EXPECT(SAME(out, 0.25, 0.5));
    EXPECT(placing_row(PLACING_SURFACE(&square), PLACING_ARRAY(mark), NULL, 0, 0.5, NULL, 0, NULL,
                       0, PLACING_ARRAY(budget), PLACING_ARRAY(index), NULL, 0,
                       PLACING_ARRAY(ended)) == PLACING_ROW);
    EXPECT(placing_row(PLACING_SURFACE(&square), PLACING_ARRAY(mark), NULL, 0, 0.5, NULL, 0, NULL,
                       0, PLACING_ARRAY(budget), PLACING_ARRAY(index), PLACING_ARRAY(out), NULL,
                       0) == PLACING_ROW);
    EXPECT(placing_row(PLACING_SURFACE(&square), NULL, 0, NULL, 0, 0.5, NULL, 0, NULL, 0, NULL, 0,
                       PLACING_ARRAY(index), NULL, 0, NULL, 0) == PLACING_MISFIT);
    EXPECT(placing_row(PLACING_SURFACE(&square), NULL, 0, NULL, 0, 0.5, NULL, 0, NULL, 0,
                       PLACING_ARRAY(budget), NULL, 0, NULL, 0, NULL, 0) == PLACING_MISFIT);

    EXPECT(placing_derivative(PLACING_SURFACE(&square), 0, 0, 1, 0, 0, NULL, 0,
                              PLACING_ARRAY(out)) == PLACING_MISFIT);
    EXPECT(placing_derivative(PLACING_SURFACE(&square), 0, 0, 1, 0, 0, PLACING_ARRAY(budget), NULL,
                              0) == PLACING_MISFIT);
    EXPECT(placing_nurbs_singular(PLACING_SURFACE(&square), 0, NULL, 0, PLACING_ARRAY(out)) ==
           PLACING_MISFIT);
    EXPECT(placing_nurbs_singular(PLACING_SURFACE(&square), 0, PLACING_ARRAY(collapsed), NULL, 0) ==
           PLACING_MISFIT);
    EXPECT(placing_plane(0, 0, 0, 1, 0, 0, 0, 1, 0, 0, 0, 0, NULL, 0, PLACING_ARRAY(out)) ==
           PLACING_MISFIT);
    EXPECT(placing_plane(0, 0, 0, 1, 0, 0, 0, 1, 0, 0, 0, 0, PLACING_ARRAY(budget), NULL, 0) ==
           PLACING_MISFIT);

    static uint8_t printout[PLACING_PRINTOUT_ROOM];
    uint64_t written[1];
    EXPECT(placing_job(NULL, 0, NULL, 0, PLACING_ARRAY(written)) == PLACING_MISFIT);
    EXPECT(placing_job(NULL, 0, PLACING_ARRAY(printout), NULL, 0) == PLACING_MISFIT);
    EXPECT(!placing_job(NULL, 0, PLACING_ARRAY(printout), PLACING_ARRAY(written)));
    EXPECT(written[0] == 16 && !memcmp(printout, "refused 12 at 0\n", 16));
}

static void words(void) {
    EXPECT(!strcmp(placing_refusal_text(PLACING_DEGREE), "a degree is 0 or above 16"));
    EXPECT(!strcmp(placing_refusal_text(PLACING_WINDOW),
                   "the window is not finite, not rising or beyond the domain, or narrower than it "
                   "on a periodic axis"));
    EXPECT(!strcmp(placing_refusal_text(13), "no refusal has this number"));
    EXPECT(!strcmp(placing_end_text(PLACING_END_UNCHANGED), "unchanged"));
    EXPECT(!strcmp(placing_end_text(PLACING_END_ROUNDS), "32 rounds"));
    EXPECT(!strcmp(placing_end_text(5), "no end has this number"));
}

int main(void) {
    evaluate();
    surfaces();
    window();
    whole();
    windows();
    invert();
    ends();
    lead();
    shift();
    infinite();
    row();
    quote();
    values();
    unquoted();
    derivative();
    singular();
    plane();
    job();
    nothing();
    words();
    if (failures == 0)
        puts("the library's callers in C: all as it should be");
    return failures != 0;
}
