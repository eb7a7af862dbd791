/* Reads a small regular table from C: values, slopes, both in one call, places, marks, a batch that is refused in the middle, and
 * grids of either kind that are turned away. Prints what it finds, and exits with 1 where that is not what docs/SPECIFICATION.md
 * says. */
#include <math.h>
#include <stdio.h>

#include "../include/veltzuma.h"

enum { CUBIC, STRAIGHT, HELD };
enum { NEITHER, BELOW, ABOVE };
enum { UNTOUCHED = 77 };

static int wrong = 0;

static void expect(const char *what, double found, double expected) {
    printf("%-36s %g\n", what, found);
    if (found != expected) {
        printf("  expected %g\n", expected);
        wrong = 1;
    }
}

/* Looks at a mark and wipes it, so that it shows where the next call writes none. */
static void expect_mark(const char *what, uint8_t *mark, uint8_t expected) {
    expect(what, *mark, expected);
    *mark = UNTOUCHED;
}

int main(void) {
    /* First of all: calls of another version may take other arguments, or answer otherwise. */
    if (veltzuma_version() != VELTZUMA_VERSION) {
        printf("the archive is of version %u, the header of %u\n", (unsigned)veltzuma_version(), (unsigned)VELTZUMA_VERSION);
        return 1;
    }

    const size_t counts[1] = {4};
    const double starts[1] = {0.0}, steps[1] = {1.0}, vals[4] = {0.0, 1.0, 8.0, 27.0};
    const double inside[1] = {1.5}, outside[1] = {4.0}, under[1] = {-1.0}, last[1] = {3.0}, infinite[1] = {INFINITY};
    const double missing[1] = {NAN};
    size_t refusal[2] = {9, 9}, origins[1];
    uint8_t classes[1], marks[1] = {UNTOUCHED};
    double value[1] = {0.0}, slope[1] = {0.0};
#define GRID 1, counts, 1, starts, 1, steps, 1, vals, 4

    expect("number at 1.5", veltzuma_regular_interp_one(GRID, CUBIC, inside, 1, refusal, 2, value, 1, marks, 1), 0);
    expect("value at 1.5", value[0], 3.375);
    expect_mark("mark at 1.5", marks, NEITHER);
    expect("number of the slope", veltzuma_regular_interp_one_grad(GRID, CUBIC, inside, 1, refusal, 2, slope, 1, marks, 1), 0);
    expect("slope at 1.5", slope[0], 6.25);
    expect_mark("mark of the slope", marks, NEITHER);

    /* A controller that wants both asks once: the sums that value and slope share are taken once, and it is told how many were
     * taken, on one axis two. */
    size_t sums[1] = {UNTOUCHED};
    value[0] = slope[0] = 0.0;
    expect("number of both",
           veltzuma_regular_interp_one_with_grad(GRID, CUBIC, inside, 1, refusal, 2, value, 1, slope, 1, marks, 1, sums, 1), 0);
    expect("value of both", value[0], 3.375);
    expect("slope of both", slope[0], 6.25);
    expect("sums of both", (double)sums[0], 2);
    expect_mark("mark of both", marks, NEITHER);

    /* A mark is of the query as given: whatever the mode makes of a query past the last node, the mark says that it lay there. */
    veltzuma_regular_interp_one(GRID, STRAIGHT, outside, 1, refusal, 2, value, 1, marks, 1);
    expect("value at 4, straight", value[0], 52.0);
    expect_mark("mark at 4, straight", marks, ABOVE);
    veltzuma_regular_interp_one(GRID, CUBIC, outside, 1, refusal, 2, value, 1, marks, 1);
    expect("value at 4, cubic", value[0], 58.0);
    expect_mark("mark at 4, cubic", marks, ABOVE);
    /* Held, the surface is level past the last node, and has the number that is stored there. */
    expect("number at 4, held", veltzuma_regular_interp_one(GRID, HELD, outside, 1, refusal, 2, value, 1, marks, 1), 0);
    expect("value at 4, held", value[0], 27.0);
    expect_mark("mark at 4, held", marks, ABOVE);
    veltzuma_regular_interp_one_grad(GRID, HELD, outside, 1, refusal, 2, slope, 1, marks, 1);
    expect("slope at 4, held", slope[0], 0.0);
    expect_mark("mark of the slope, held", marks, ABOVE);
    expect("number at -1", veltzuma_regular_interp_one(GRID, CUBIC, under, 1, refusal, 2, value, 1, marks, 1), 0);
    expect_mark("mark at -1", marks, BELOW);

    /* A mark is not a class: the last node has the class of what lies past it, and no mark. */
    expect("number of the place",
           veltzuma_regular_get_loc(GRID, CUBIC, outside, 1, refusal, 2, origins, 1, classes, 1, marks, 1), 0);
    expect("origin at 4", (double)origins[0], 0);
    expect("class at 4", classes[0], 4);
    expect_mark("mark of the place at 4", marks, ABOVE);
    veltzuma_regular_get_loc(GRID, CUBIC, last, 1, refusal, 2, origins, 1, classes, 1, marks, 1);
    expect("class at 3", classes[0], 4);
    expect_mark("mark of the place at 3", marks, NEITHER);

    const double queries[3] = {1.5, INFINITY, 1.5};
    double out[3] = {-1.0, -2.0, -3.0};
    expect("number of a batch", veltzuma_regular_interp(GRID, CUBIC, queries, 3, refusal, 2, out, 3), 8);
    expect("its query", (double)refusal[0], 1);
    expect("its axis", (double)refusal[1], 0);
    expect("entry before it", out[0], 3.375);
    expect("entry of the query", out[1], -2.0);
    expect("entry after it", out[2], -3.0);

    expect("number with a value missing", veltzuma_regular_new(1, counts, 1, starts, 1, steps, 1, vals, 3, refusal, 2), 3);
    expect("number with no counts", veltzuma_regular_new(1, NULL, 0, starts, 1, steps, 1, vals, 4, refusal, 2), 3);
    expect("number in a mode without a name",
           veltzuma_regular_interp_one(GRID, HELD + 1, inside, 1, refusal, 2, value, 1, marks, 1), 3);
    expect("number at infinity", veltzuma_regular_interp_one(GRID, CUBIC, infinite, 1, refusal, 2, value, 1, marks, 1), 8);
    /* A missing reading is refused in every mode: no end is held in its place. */
    expect("number of a missing reading", veltzuma_regular_interp_one(GRID, HELD, missing, 1, refusal, 2, value, 1, marks, 1), 9);
    expect("number with no room for a value",
           veltzuma_regular_interp_one(GRID, CUBIC, inside, 1, refusal, 2, NULL, 0, marks, 1), 7);
    expect("mark after these", marks[0], UNTOUCHED);
    /* A call for both that is refused has taken no sum, and says so; where a slice is too short it writes nothing at all. */
    value[0] = slope[0] = UNTOUCHED;
    sums[0] = UNTOUCHED;
    expect("number of both, no reading",
           veltzuma_regular_interp_one_with_grad(GRID, HELD, missing, 1, refusal, 2, value, 1, slope, 1, marks, 1, sums, 1), 9);
    expect("sums after it", (double)sums[0], 0);
    sums[0] = UNTOUCHED;
    expect("number of both, no room for a slope",
           veltzuma_regular_interp_one_with_grad(GRID, HELD, inside, 1, refusal, 2, value, 1, NULL, 0, marks, 1, sums, 1), 7);
    expect("sums after it", (double)sums[0], UNTOUCHED);
    expect("value after these", value[0], UNTOUCHED);
    expect("slope after these", slope[0], UNTOUCHED);
    expect("number with no room for marks", veltzuma_regular_interp_one(GRID, CUBIC, inside, 1, refusal, 2, value, 1, NULL, 0), 7);

    /* On a rectilinear axis no entry equals the one before it: 10, which comes after 3 and before 7. A refusal of one entry is too
     * short, and nothing is written to it. */
    const double rising[4] = {0.0, 1.0, 2.0, 3.0}, flat[4] = {0.0, 1.0, 1.0, 3.0};
    size_t told[2] = {UNTOUCHED, UNTOUCHED};
    expect("number of an axis that rises", veltzuma_rectilinear_new(1, counts, 1, rising, 4, vals, 4, told, 2), 0);
    expect("the same with too short a refusal", veltzuma_rectilinear_new(1, counts, 1, rising, 4, vals, 4, told, 1), 7);
    told[0] = told[1] = UNTOUCHED;
    expect("number of a flat axis", veltzuma_rectilinear_new(1, counts, 1, flat, 4, vals, 4, told, 2), 10);
    expect("its axis", (double)told[1], 0);
    told[0] = told[1] = UNTOUCHED;
    expect("the same with too short a refusal", veltzuma_rectilinear_new(1, counts, 1, flat, 4, vals, 4, told, 1), 10);
    expect("the refusal after it", (double)told[0], UNTOUCHED);
    expect("number of a flat axis, no counts", veltzuma_rectilinear_new(1, NULL, 0, flat, 4, vals, 4, told, 1), 3);
    expect("number of a flat axis, no room",
           veltzuma_rectilinear_interp_one(1, counts, 1, flat, 4, vals, 4, HELD, missing, 1, told, 2, NULL, 0, NULL, 0), 10);
    return wrong;
}
