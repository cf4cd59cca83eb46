/* Places a mark and then a row of them on a square. `make` builds and runs it. */
#include "placing.h"
#include <inttypes.h>
#include <stdio.h>

int main(void) {
    /* Degrees 1 and 1: the point at (u, v) is (u, v, 0). */
    const double knots[] = {0, 0, 1, 1};
    const double net[] = {0, 0, 0, 0, 1, 0, 1, 0, 0, 1, 1, 0};
    const double weights[] = {1, 1, 1, 1};
    const placing_surface square = {
        .degree_u = 1,
        .degree_v = 1,
        .controls_u = 2,
        .controls_v = 2,
        .knots_u = knots,
        .knots_u_count = 4,
        .knots_v = knots,
        .knots_v_count = 4,
        .controls = net,
        .controls_count = 12,
        .weights = weights,
        .weights_count = 4,
    };
    /* What a mark can cost at most. */
    uint64_t quote[2];
    uint64_t refused = placing_quote(PLACING_AXES(&square), 0, PLACING_ARRAY(quote));
    if (refused) {
        printf("refused: %s\n", placing_refusal_text(refused));
        return 1;
    }
    printf("the grid has %" PRIu64 " points, and %" PRIu64 " units are enough for any mark\n",
           quote[0], quote[1]);

    uint64_t budget[] = {1000};
    double pair[2];
    uint8_t ended[2];
    refused = placing_invert(PLACING_SURFACE(&square), 0.25, 0.5, 0.75, PLACING_NONE, 0.5,
                             PLACING_NONE, PLACING_NONE, PLACING_ARRAY(budget), PLACING_ARRAY(pair),
                             PLACING_ARRAY(ended));
    if (refused) {
        printf("refused: %s\n", placing_refusal_text(refused));
        return 1;
    }
    printf("u %g, v %g, and %" PRIu64 " units are left\n", pair[0], pair[1], budget[0]);
    printf("the run ended: %s, and came from start %d\n", placing_end_text(ended[0]), ended[1]);

    /* From there on: the pair is the hint. */
    const double marks[] = {0.3, 0.5, 0, 0.4, 0.5, 0, 0.5, 0.5, 0, 0.0 / 0.0, 0.5, 0};
    uint64_t index[1];
    double answers[8];
    uint8_t ends[8];
    refused = placing_row(PLACING_SURFACE(&square), PLACING_ARRAY(marks), PLACING_ARRAY(pair), 1e-6,
                          PLACING_NONE, PLACING_NONE, PLACING_ARRAY(budget), PLACING_ARRAY(index),
                          PLACING_ARRAY(answers), PLACING_ARRAY(ends));
    size_t placed = refused ? index[0] : sizeof marks / sizeof *marks / 3;
    for (size_t i = 0; i < placed; i++)
        printf("u %g, v %g, ended: %s%s\n", answers[2 * i], answers[2 * i + 1],
               placing_end_text(ends[2 * i]),
               ends[2 * i + 1] == PLACING_ORIGIN_HINT ? ", from the hint" : "");
    if (refused)
        printf("mark %" PRIu64 " is refused: %s\n", index[0], placing_refusal_text(refused));
    printf("%" PRIu64 " units are left\n", budget[0]);
    if (refused != PLACING_ARGUMENT)
        return 1;

    /* Only where u is at most 0.75: a mark beside that is placed at the window's edge. */
    const double window[] = {0, 0.75, 0, 1};
    placing_surface part = square;
    part.window = window;
    part.window_count = 4;
    refused = placing_invert(PLACING_SURFACE(&part), 0.9, 0.5, 0, PLACING_NONE, 0.5, PLACING_NONE,
                             PLACING_NONE, PLACING_ARRAY(budget), PLACING_ARRAY(pair),
                             PLACING_ARRAY(ended));
    if (!refused)
        printf("in the window: u %g, v %g\n", pair[0], pair[1]);
    return refused != 0;
}
