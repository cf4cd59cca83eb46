/* Marks placed on a NURBS surface.
 *
 * Every function answers 0 or the number of a refusal and writes the rest of its answer to what is
 * lent for it. Each tests every argument, for all input. A pointer goes with a count, of numbers or
 * of bytes: it must be good for so many, and what is written to must overlap nothing else that is
 * lent. Where a count is 0 the pointer is not read and may be anything, NULL too, as the data() of
 * an empty std::vector.
 *
 * What lies past what a function writes keeps its bits. A refusal leaves all as it was, but for the
 * budget, which is what is left of it, and in a row the index and the pairs and ends of the marks
 * before the refused one.
 *
 * Nothing is shared between calls: any number of threads may call at once, on one surface too, each
 * with room of its own for what is written. A call takes at most 128 KiB of stack, and placing_job
 * 256 KiB; nothing is allocated. The library needs memcpy and memset of the C library, and nothing
 * else. */
#ifndef PLACING_H
#define PLACING_H

#include <stddef.h>
#include <stdint.h>

#ifdef __cplusplus
extern "C" {
#endif

enum placing_refusal {
    PLACING_COUNTS = 1,
    PLACING_CONTROLS = 2,
    PLACING_COORDINATE = 3,
    PLACING_WEIGHTS = 4,
    PLACING_DEGREE = 5,
    PLACING_KNOTS = 6,
    PLACING_ARGUMENT = 7,
    PLACING_UNITS = 8,
    PLACING_EVALUATION = 9,
    PLACING_SINGULAR = 10,
    PLACING_ROW = 11,
    PLACING_MALFORMED = 12, /* in a printout only */
    PLACING_WINDOW = 24,    /* after 6, and before 7 */
    PLACING_MISFIT = 99     /* before any other check, with nothing written */
};

/* A refusal in words. */
static inline const char *placing_refusal_text(uint64_t number) {
    switch (number) {
    case PLACING_COUNTS:
        return "there are more than 100,000 controls or 100,034 knots, or a count is out of range";
    case PLACING_CONTROLS:
        return "the counts of controls or weights are not the product of the shape's two counts";
    case PLACING_COORDINATE:
        return "a control's coordinate is not finite";
    case PLACING_WEIGHTS:
        return "there are no weights, or one is not finite, not above 0, or 0 after division by "
               "the largest";
    case PLACING_DEGREE:
        return "a degree is 0 or above 16";
    case PLACING_KNOTS:
        return "the knots of an axis are not right: their count, their order, more than degree + 1 "
               "equal ones, a domain without width, or a number that is not finite";
    case PLACING_ARGUMENT:
        return "the mark, vector, frame, hint, tolerance or a period is not finite, the tolerance "
               "is below 0, or a period is not above 0";
    case PLACING_UNITS:
        return "no unit of the budget was left for an evaluation";
    case PLACING_EVALUATION:
        return "an evaluation refused: the parameter lies outside, a number is not finite, or the "
               "weight sum is not above 0";
    case PLACING_SINGULAR:
        return "the two derivatives of the surface there don't span a plane";
    case PLACING_ROW:
        return "the marks are not in threes, or there are under two numbers a mark for the "
               "answers, or under two bytes a mark for the ends";
    case PLACING_MALFORMED:
        return "the job file is malformed";
    case PLACING_WINDOW:
        return "the window is not finite, not rising or beyond the domain, or narrower than it on "
               "a periodic axis";
    case PLACING_MISFIT:
        return "flags are above 3, a window, hint or period has another count of numbers, hinted "
               "is above 1, or there is less room than the answer needs";
    default:
        return "no refusal has this number";
    }
}

/* How the run that an inversion chose ended. */
enum placing_end {
    PLACING_END_UNCHANGED = 0,  /* the next step leads to the same pair */
    PLACING_END_FURTHER = 1,    /* the next point is further from the mark, and was not taken */
    PLACING_END_SMALL_STEP = 2, /* the last move was at most 1e-15 of the window's wider axis */
    PLACING_END_SINGULAR = 3,   /* nudged once, and again the two directions are too nearly one */
    PLACING_END_ROUNDS = 4      /* 33 evaluations, and no other test ended it */
};

/* An end in words. */
static inline const char *placing_end_text(uint8_t number) {
    switch (number) {
    case PLACING_END_UNCHANGED:
        return "unchanged";
    case PLACING_END_FURTHER:
        return "next point further";
    case PLACING_END_SMALL_STEP:
        return "small step";
    case PLACING_END_SINGULAR:
        return "second singular point";
    case PLACING_END_ROUNDS:
        return "32 rounds";
    default:
        return "no end has this number";
    }
}

/* Where that run came from: the hint, or 1 to 6 for the start's place among the starts of the grid,
 * the nearest to the mark first. */
enum { PLACING_ORIGIN_HINT = 0 };

/* A surface, whose arguments PLACING_SURFACE(&surface) lays out, and PLACING_AXES(&surface) those
 * of placing_quote, which sees no controls and no weights: they may be anything.
 *
 * Its window is none, which is the whole knot domain, or four numbers. placing_invert and
 * placing_row look for a mark's place inside the window only, its ends included, and placing_quote
 * counts the grid of it. A periodic axis keeps its whole domain, and the window's two numbers for
 * it must be the domain's. The other functions test the window, and know the whole domain all the
 * same. */
typedef struct placing_surface {
    size_t degree_u, degree_v;
    size_t controls_u, controls_v;
    uint64_t flags; /* PLACING_PERIODIC_U, PLACING_PERIODIC_V, their sum, or 0 */
    const double *knots_u;
    size_t knots_u_count;
    const double *knots_v;
    size_t knots_v_count;
    const double *controls; /* three coordinates each, u slowest */
    size_t controls_count;  /* of coordinates */
    const double *weights;
    size_t weights_count;
    const double *window; /* the lowest and the highest u, the lowest and the highest v; or none */
    size_t window_count;  /* 4 or 0 */
} placing_surface;

enum { PLACING_PERIODIC_U = 1, PLACING_PERIODIC_V = 2 };

#define PLACING_SURFACE(s)                                                                         \
    (s)->degree_u, (s)->degree_v, (s)->controls_u, (s)->controls_v, (s)->flags, (s)->knots_u,      \
        (s)->knots_u_count, (s)->knots_v, (s)->knots_v_count, (s)->controls, (s)->controls_count,  \
        (s)->weights, (s)->weights_count, (s)->window, (s)->window_count

#define PLACING_AXES(s)                                                                            \
    (s)->degree_u, (s)->degree_v, (s)->controls_u, (s)->controls_v, (s)->flags, (s)->knots_u,      \
        (s)->knots_u_count, (s)->knots_v, (s)->knots_v_count, (s)->window, (s)->window_count

/* An array and its count; and no numbers at all, for a window, a hint or a period that there is
 * not. */
#define PLACING_ARRAY(a) (a), sizeof(a) / sizeof *(a)
#define PLACING_NONE NULL, 0

#define PLACING_SURFACE_ARGUMENTS                                                                  \
    size_t degree_u, size_t degree_v, size_t controls_u, size_t controls_v, uint64_t flags,        \
        const double *knots_u, size_t knots_u_count, const double *knots_v, size_t knots_v_count,  \
        const double *controls, size_t controls_count, const double *weights,                      \
        size_t weights_count, const double *window, size_t window_count

#define PLACING_AXES_ARGUMENTS                                                                     \
    size_t degree_u, size_t degree_v, size_t controls_u, size_t controls_v, uint64_t flags,        \
        const double *knots_u, size_t knots_u_count, const double *knots_v, size_t knots_v_count,  \
        const double *window, size_t window_count

/* Point and first derivatives at (u, v): nine numbers, the point, along u, along v. */
uint64_t placing_evaluate(PLACING_SURFACE_ARGUMENTS, double u, double v, double *jet,
                          size_t jet_count);

/* u and v of the surface point nearest to the mark: two numbers. The hint is none or two numbers,
 * a period none or one: it moves the answer to the hint's turn, out of the window as well, and u
 * or v is then infinite where the hint lies too many periods away. budget[0] is the budget of
 * evaluations, and afterwards what is left. ended has two bytes: how the run that was chosen ended,
 * an enum placing_end, and where it came from, PLACING_ORIGIN_HINT or a start's place. */
uint64_t placing_invert(PLACING_SURFACE_ARGUMENTS, double x, double y, double z, const double *hint,
                        size_t hint_count, double tolerance, const double *period_u,
                        size_t period_u_count, const double *period_v, size_t period_v_count,
                        uint64_t *budget, size_t budget_count, double *pair, size_t pair_count,
                        uint8_t *ended, size_t ended_count);

/* A row of marks, three coordinates each: two numbers a mark to answers, and to ends two bytes a
 * mark, as those of placing_invert. One budget serves all. The hint is the first mark's. A pair is
 * the next mark's hint, as it is written, where its run's end, before any shift by a period, is at
 * most the tolerance from its mark. Any other mark is lost: the next has no hint, and is placed as
 * by placing_invert without one. index[0] is afterwards the index of the mark that was refused, and
 * 0 where none was. Refusals 1 to 6, 11 and 24 are no mark's fault, and neither is a 7 that a row
 * without marks is refused with too: the hint, the tolerance and the periods are tested before the
 * first mark. A pair may be infinite as above, and the next mark is then refused with 7, unless the
 * pair's own mark is lost. */
uint64_t placing_row(PLACING_SURFACE_ARGUMENTS, const double *marks, size_t marks_count,
                     const double *hint, size_t hint_count, double tolerance,
                     const double *period_u, size_t period_u_count, const double *period_v,
                     size_t period_v_count, uint64_t *budget, size_t budget_count, uint64_t *index,
                     size_t index_count, double *answers, size_t answers_count, uint8_t *ends,
                     size_t ends_count);

/* The largest price that an inversion on a surface of such axes can have, before any is made and
 * with nothing evaluated: quote has two numbers, how many points the surface's grid has, and this
 * price, for a search without a hint where hinted is 0, and with one where it is 1. A budget of so
 * many units is never refused with 8. The first mark of a row takes no more than this, and each
 * later one no more than with a hint. Refused are the counts, the degrees and knots of u, those of
 * v, and the window, with 1, 5, 6 and 24; controls and weights are not seen, so that the surface
 * may yet be refused for them, with 2, 3 or 4. */
uint64_t placing_quote(PLACING_AXES_ARGUMENTS, uint64_t hinted, uint64_t *quote,
                       size_t quote_count);

/* How u and v move as the surface point at them moves by the vector (x, y, z): two numbers, for a
 * unit of the budget. They may be infinite or NaN. */
uint64_t placing_derivative(PLACING_SURFACE_ARGUMENTS, double u, double v, double x, double y,
                            double z, uint64_t *budget, size_t budget_count, double *pair,
                            size_t pair_count);

/* The edges along u at the lower and the upper end of v, then those along v at the ends of u:
 * collapsed has four numbers, 1 for an edge along which the surface is one point within the
 * tolerance, else 0. edges has twenty, five an edge, written where it collapses: the other axis's
 * parameter, the point, and 1 at a lower end or -1 at an upper one. */
uint64_t placing_nurbs_singular(PLACING_SURFACE_ARGUMENTS, double tolerance, uint64_t *collapsed,
                                size_t collapsed_count, double *edges, size_t edges_count);

/* The coordinates of the mark (x, y, z) in a plane's frame, its origin and the axes of u and of v
 * as they are: two numbers, for a unit of the budget. They may be infinite or NaN. */
uint64_t placing_plane(double ox, double oy, double oz, double ux, double uy, double uz, double vx,
                       double vy, double vz, double x, double y, double z, uint64_t *budget,
                       size_t budget_count, double *pair, size_t pair_count);

/* The printout of a job file's bytes, as the placing program writes it: to the front of printout,
 * which has room for every printout, and written[0] is how many bytes it has. A malformed file is
 * no refusal of the call, but prints "refused 12 at 0". */
uint64_t placing_job(const uint8_t *file, size_t file_count, uint8_t *printout,
                     size_t printout_count, uint64_t *written, size_t written_count);

#define PLACING_PRINTOUT_ROOM 72704

#ifdef __cplusplus
}
#endif

#endif
