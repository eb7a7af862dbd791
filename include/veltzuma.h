/* Veltzuma: value, gradient and place of a query on a cubic surface over a measured grid, for C. This header is of version 4.
 * Compile every program again with it. The declarations before version 2 differ, and a call compiled with them hands over a wild
 * pointer where the marks go. Those of versions 2 and 3 are the same, but their calls had no number 10: they took a rectilinear
 * axis on which an entry after entry 1 equals the one before it. Those of version 2 had no number 9 either: they gave 8 for a NaN
 * on a regular axis, and answered one on a rectilinear axis, with NaN for the value. Declarations by hand in other languages must
 * follow. A program compares veltzuma_version() with VELTZUMA_VERSION before its other calls; an archive before version 2 has no
 * such call, and does not link. The calls interp_one_with_grad came to version 4 without changing another, so that an archive of
 * version 4 may lack them; then a program that calls them does not link.
 *
 * The archives are libcapi.a and, for single precision, libcapi_f32.a, for x86-64: `./veltzuma build` writes them beside the library that it names.
 * Link them as they are; they need no other library.
 *
 * Every call takes any input. A slice is a pointer and a length in entries, and may have any length; a null pointer with length 0
 * is an empty slice, a null pointer with another length is not allowed. The slices of one call must not overlap. Nothing is kept
 * after a call returns, nothing is allocated, and calls may run at the same time on several threads. Pointers are aligned for their
 * type. The floating-point environment is the one that a program starts with: round to nearest, subnormals kept.
 *
 * A call, veltzuma_version aside, returns one of these numbers:
 *
 *   0  done
 *   1  axis count not 1 to 4
 *   2  an axis over 4,096 entries, or a product of the counts over 1,048,576
 *   3  a length does not match: vals is not the product of the counts, axes is not their sum, or counts, starts, steps or x is
 *      shorter than the axis count (1 and 2 look only at the counts that are there); or mode is above 2
 *   4  an axis under 4 entries                                                     axis: the lowest such
 *   5  regular: a step is not above 0; rectilinear: entry 1 is not above entry 0   axis: the lowest such
 *   6  rectilinear: an entry is NaN or below the one before it                     axis: the lowest such
 *   7  more than 1,048,576 queries; queries or out of a wrong length; or refusal, origins, classes, value, gradient, marks or
 *      sums too short
 *   8  regular: a coordinate that is a number has no place, since (coordinate - start) / step is NaN, infinite, at least 2^63 or
 *      below -2^63                                                                 query: the lowest refused; axis: its lowest
 *   9  regular and rectilinear: a coordinate is NaN, a missing reading             query: the lowest refused; axis: its lowest
 *  10  rectilinear: an entry equals the one before it, -0 and +0 being equal       axis: the lowest such
 *
 * 1 to 6 are checked in this order, then 10, then 7, each over all axes before the next: where axis 0 has equal entries and axis 1
 * is in disorder, it is 6 with axis 1. Then each query in turn is looked at, axis by axis, on each axis for 9 and then for 8, and
 * what is found first is told: on two regular axes 0, 1, 2, 3 that are not held, (2^63, NaN) is 8 with axis 0, and (NaN, 2^63) is 9
 * with axis 0. Of x only the first axis_count coordinates are looked at. NaN among the values is not refused.
 *
 * refusal[0] receives the query and refusal[1] the axis; both are 0 where the table names none. On 7 nothing at all is written, and
 * a refusal of fewer than 2 entries is never written to. value, gradient, origins, classes and marks are written on 0 alone: the
 * first entry of value, the first axis_count entries of the others. The first entry of sums is written on every number but 7, and is
 * 0 on a refusal. On 8 and 9 a batch holds the answers of the queries before the refused one; every other entry is as it was, a
 * NaN's payload too. Which payload a NaN has that is an answer is not said.
 *
 * A grid. axis_count is 1 to 4. counts holds the number of entries of each axis.
 *   regular      axis i has the entries starts[i] + steps[i] * k for k from 0 to counts[i] - 1; as rounded, some may be equal
 *   rectilinear  axes holds all entries of axis 0, then of axis 1, and so on. In a grid that is taken each entry is above the one
 *                before it, and no difference of the two rounds to 0
 *   vals         one number for each point, the last axis fastest
 *
 * mode is what is followed past the ends of an axis. No check of a grid depends on it, so new takes none.
 *   0  cubic     the cubic itself
 *   1  straight  a straight line, as with the original's linearize_extrapolation
 *   2  held      level from the end on: a coordinate below the axis's first entry or above its last is replaced by that entry before
 *                anything else is done with it. Number 8 and the place that get_loc tells are then those of the query so used;
 *                the marks stay those of the query as given. A NaN is never replaced: it is a missing reading in every mode
 * A number above 2 names no mode, and nothing is answered in a mode that nobody named: it is refused with 3, looked at together
 * with slices that are too short. This 3 is ours, and not the mismatch of table 2.2 in docs/SPECIFICATION.md.
 *
 * A class is 0 None, 1 InsideLow, 2 OutsideLow, 3 InsideHigh, 4 OutsideHigh.
 *
 * A mark says whether the query lies past an end of an axis: 0 neither, 1 below the first entry, 2 above the last. get_loc,
 * interp_one, interp_one_grad and interp_one_with_grad write one for each axis; the batches have none. It is of the query as given,
 * in every mode. Query and entries are compared as numbers, the entries of a regular axis as rounded: a query at an end has no mark,
 * and an infinity that is answered has one where that end is finite. A NaN is refused, so it has none. A mark is not a class: on the
 * regular axis 0, 1, 2, 3 the query 3 has the class OutsideHigh and the mark 0; at the first entry of a rectilinear axis the class
 * is OutsideLow, the mark 0.
 *
 * The queries of a batch are joined columns: the coordinates of all queries on axis 0, then on axis 1. */
#ifndef VELTZUMA_H
#define VELTZUMA_H

#include <stdbool.h> /* for callers that say false and true for the modes 0 and 1 */
#include <stddef.h>
#include <stdint.h>

#ifdef __cplusplus
extern "C" {
#endif

/* The version that these declarations are of, and the one that the archive is of. */
#define VELTZUMA_VERSION 4
uint32_t veltzuma_version(void);

#define VELTZUMA_REGULAR                                                                                                       \
    size_t axis_count, const size_t *counts, size_t counts_len, const double *starts, size_t starts_len, const double *steps,   \
        size_t steps_len, const double *vals, size_t vals_len

#define VELTZUMA_RECTILINEAR                                                                                                   \
    size_t axis_count, const size_t *counts, size_t counts_len, const double *axes, size_t axes_len, const double *vals,        \
        size_t vals_len

/* Whether the grid is taken. refusal: 2 entries. */
uint8_t veltzuma_regular_new(VELTZUMA_REGULAR, size_t *refusal, size_t refusal_len);
uint8_t veltzuma_rectilinear_new(VELTZUMA_RECTILINEAR, size_t *refusal, size_t refusal_len);

/* The place of a query: the first index of its block of four, and its class, on each axis. x: axis_count coordinates; origins,
 * classes and marks: axis_count entries. */
uint8_t veltzuma_regular_get_loc(VELTZUMA_REGULAR, uint8_t mode, const double *x, size_t x_len, size_t *refusal,
                                 size_t refusal_len, size_t *origins, size_t origins_len, uint8_t *classes, size_t classes_len,
                                 uint8_t *marks, size_t marks_len);
uint8_t veltzuma_rectilinear_get_loc(VELTZUMA_RECTILINEAR, uint8_t mode, const double *x, size_t x_len, size_t *refusal,
                                     size_t refusal_len, size_t *origins, size_t origins_len, uint8_t *classes,
                                     size_t classes_len, uint8_t *marks, size_t marks_len);

/* The value at a query. value: 1 entry; marks: axis_count entries. */
uint8_t veltzuma_regular_interp_one(VELTZUMA_REGULAR, uint8_t mode, const double *x, size_t x_len, size_t *refusal,
                                    size_t refusal_len, double *value, size_t value_len, uint8_t *marks, size_t marks_len);
uint8_t veltzuma_rectilinear_interp_one(VELTZUMA_RECTILINEAR, uint8_t mode, const double *x, size_t x_len, size_t *refusal,
                                        size_t refusal_len, double *value, size_t value_len, uint8_t *marks, size_t marks_len);

/* The gradient at a query. gradient and marks: axis_count entries. */
uint8_t veltzuma_regular_interp_one_grad(VELTZUMA_REGULAR, uint8_t mode, const double *x, size_t x_len, size_t *refusal,
                                         size_t refusal_len, double *gradient, size_t gradient_len, uint8_t *marks,
                                         size_t marks_len);
uint8_t veltzuma_rectilinear_interp_one_grad(VELTZUMA_RECTILINEAR, uint8_t mode, const double *x, size_t x_len, size_t *refusal,
                                             size_t refusal_len, double *gradient, size_t gradient_len, uint8_t *marks,
                                             size_t marks_len);

/* Value and gradient at a query in one call, with the number of four-term sums that it took: 2, 11, 48, 197 on 1 to 4 axes.
 * Value, gradient and marks are those of the two calls above. value and sums: 1 entry; gradient and marks: axis_count entries. */
uint8_t veltzuma_regular_interp_one_with_grad(VELTZUMA_REGULAR, uint8_t mode, const double *x, size_t x_len, size_t *refusal,
                                              size_t refusal_len, double *value, size_t value_len, double *gradient,
                                              size_t gradient_len, uint8_t *marks, size_t marks_len, size_t *sums,
                                              size_t sums_len);
uint8_t veltzuma_rectilinear_interp_one_with_grad(VELTZUMA_RECTILINEAR, uint8_t mode, const double *x, size_t x_len,
                                                  size_t *refusal, size_t refusal_len, double *value, size_t value_len,
                                                  double *gradient, size_t gradient_len, uint8_t *marks, size_t marks_len,
                                                  size_t *sums, size_t sums_len);

/* The values of a batch of out_len queries. queries: axis_count * out_len coordinates. */
uint8_t veltzuma_regular_interp(VELTZUMA_REGULAR, uint8_t mode, const double *queries, size_t queries_len, size_t *refusal,
                                size_t refusal_len, double *out, size_t out_len);
uint8_t veltzuma_rectilinear_interp(VELTZUMA_RECTILINEAR, uint8_t mode, const double *queries, size_t queries_len,
                                    size_t *refusal, size_t refusal_len, double *out, size_t out_len);

/* The gradients of a batch of out_len / axis_count queries, which axis_count must divide: component d of query i is at
 * d * (out_len / axis_count) + i. */
uint8_t veltzuma_regular_interp_grad(VELTZUMA_REGULAR, uint8_t mode, const double *queries, size_t queries_len, size_t *refusal,
                                     size_t refusal_len, double *out, size_t out_len);
uint8_t veltzuma_rectilinear_interp_grad(VELTZUMA_RECTILINEAR, uint8_t mode, const double *queries, size_t queries_len,
                                         size_t *refusal, size_t refusal_len, double *out, size_t out_len);

/* The same calls in single precision, float for double, in libcapi_f32.a. Each operation is rounded in that width. Both
 * archives can be linked into one program. */
#define VELTZUMA_REGULAR_F32                                                                                                   \
    size_t axis_count, const size_t *counts, size_t counts_len, const float *starts, size_t starts_len, const float *steps,    \
        size_t steps_len, const float *vals, size_t vals_len

#define VELTZUMA_RECTILINEAR_F32                                                                                               \
    size_t axis_count, const size_t *counts, size_t counts_len, const float *axes, size_t axes_len, const float *vals,         \
        size_t vals_len

uint32_t veltzuma_version_f32(void);

uint8_t veltzuma_regular_new_f32(VELTZUMA_REGULAR_F32, size_t *refusal, size_t refusal_len);
uint8_t veltzuma_rectilinear_new_f32(VELTZUMA_RECTILINEAR_F32, size_t *refusal, size_t refusal_len);

uint8_t veltzuma_regular_get_loc_f32(VELTZUMA_REGULAR_F32, uint8_t mode, const float *x, size_t x_len, size_t *refusal,
                                     size_t refusal_len, size_t *origins, size_t origins_len, uint8_t *classes,
                                     size_t classes_len, uint8_t *marks, size_t marks_len);
uint8_t veltzuma_rectilinear_get_loc_f32(VELTZUMA_RECTILINEAR_F32, uint8_t mode, const float *x, size_t x_len, size_t *refusal,
                                         size_t refusal_len, size_t *origins, size_t origins_len, uint8_t *classes,
                                         size_t classes_len, uint8_t *marks, size_t marks_len);

uint8_t veltzuma_regular_interp_one_f32(VELTZUMA_REGULAR_F32, uint8_t mode, const float *x, size_t x_len, size_t *refusal,
                                        size_t refusal_len, float *value, size_t value_len, uint8_t *marks, size_t marks_len);
uint8_t veltzuma_rectilinear_interp_one_f32(VELTZUMA_RECTILINEAR_F32, uint8_t mode, const float *x, size_t x_len,
                                            size_t *refusal, size_t refusal_len, float *value, size_t value_len,
                                            uint8_t *marks, size_t marks_len);

uint8_t veltzuma_regular_interp_one_grad_f32(VELTZUMA_REGULAR_F32, uint8_t mode, const float *x, size_t x_len, size_t *refusal,
                                             size_t refusal_len, float *gradient, size_t gradient_len, uint8_t *marks,
                                             size_t marks_len);
uint8_t veltzuma_rectilinear_interp_one_grad_f32(VELTZUMA_RECTILINEAR_F32, uint8_t mode, const float *x, size_t x_len,
                                                 size_t *refusal, size_t refusal_len, float *gradient, size_t gradient_len,
                                                 uint8_t *marks, size_t marks_len);

uint8_t veltzuma_regular_interp_one_with_grad_f32(VELTZUMA_REGULAR_F32, uint8_t mode, const float *x, size_t x_len,
                                                  size_t *refusal, size_t refusal_len, float *value, size_t value_len,
                                                  float *gradient, size_t gradient_len, uint8_t *marks, size_t marks_len,
                                                  size_t *sums, size_t sums_len);
uint8_t veltzuma_rectilinear_interp_one_with_grad_f32(VELTZUMA_RECTILINEAR_F32, uint8_t mode, const float *x, size_t x_len,
                                                      size_t *refusal, size_t refusal_len, float *value, size_t value_len,
                                                      float *gradient, size_t gradient_len, uint8_t *marks, size_t marks_len,
                                                      size_t *sums, size_t sums_len);

uint8_t veltzuma_regular_interp_f32(VELTZUMA_REGULAR_F32, uint8_t mode, const float *queries, size_t queries_len,
                                    size_t *refusal, size_t refusal_len, float *out, size_t out_len);
uint8_t veltzuma_rectilinear_interp_f32(VELTZUMA_RECTILINEAR_F32, uint8_t mode, const float *queries, size_t queries_len,
                                        size_t *refusal, size_t refusal_len, float *out, size_t out_len);

uint8_t veltzuma_regular_interp_grad_f32(VELTZUMA_REGULAR_F32, uint8_t mode, const float *queries, size_t queries_len,
                                         size_t *refusal, size_t refusal_len, float *out, size_t out_len);
uint8_t veltzuma_rectilinear_interp_grad_f32(VELTZUMA_RECTILINEAR_F32, uint8_t mode, const float *queries, size_t queries_len,
                                             size_t *refusal, size_t refusal_len, float *out, size_t out_len);

#ifdef __cplusplus
}
#endif

#endif
