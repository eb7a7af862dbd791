/* Reads one table in both widths from one program: each archive has its own fourteen calls, and its version. 0.1 is no float of either
 * width, so the answers differ, each rounded in its own. Exits with 1 where an answer is not what docs/SPECIFICATION.md says. */
#include <stdio.h>

#include "../include/veltzuma.h"

enum { CUBIC, STRAIGHT };

int main(void) {
    if (veltzuma_version() != VELTZUMA_VERSION || veltzuma_version_f32() != VELTZUMA_VERSION) {
        printf("the archives are of versions %u and %u, the header of %u\n", (unsigned)veltzuma_version(),
               (unsigned)veltzuma_version_f32(), (unsigned)VELTZUMA_VERSION);
        return 1;
    }

    const size_t counts[1] = {4};
    const double starts[1] = {0.0}, steps[1] = {1.0}, vals[4] = {0.0, 1.0, 8.0, 27.0}, x[1] = {1.5}, tenth[1] = {0.1};
    const float starts_f32[1] = {0.0f}, steps_f32[1] = {1.0f}, vals_f32[4] = {0.0f, 1.0f, 8.0f, 27.0f}, x_f32[1] = {1.5f}, tenth_f32[1] = {0.1f};
    size_t refusal[2] = {9, 9};
    uint8_t marks[1] = {9}, marks_f32[1] = {9};
    double value[1] = {0.0};
    float value_f32[1] = {0.0f};
    int wrong = 0;

    wrong |= veltzuma_regular_interp_one(1, counts, 1, starts, 1, steps, 1, vals, 4, CUBIC, x, 1, refusal, 2, value, 1, marks, 1) != 0;
    wrong |= veltzuma_regular_interp_one_f32(1, counts, 1, starts_f32, 1, steps_f32, 1, vals_f32, 4, CUBIC, x_f32, 1, refusal, 2, value_f32, 1, marks_f32, 1) != 0;
    printf("value at 1.5, double and float       %.17g %.9g\n", value[0], (double)value_f32[0]);
    wrong |= value[0] != 3.375 || value_f32[0] != 3.375f || marks[0] != 0 || marks_f32[0] != 0;

    wrong |= veltzuma_regular_interp_one(1, counts, 1, starts, 1, steps, 1, vals, 4, CUBIC, tenth, 1, refusal, 2, value, 1, marks, 1) != 0;
    wrong |= veltzuma_regular_interp_one_f32(1, counts, 1, starts_f32, 1, steps_f32, 1, vals_f32, 4, CUBIC, tenth_f32, 1, refusal, 2, value_f32, 1, marks_f32, 1) != 0;
    printf("value at 0.1, double and float       %.17g %.9g\n", value[0], (double)value_f32[0]);
    wrong |= value[0] == (double)value_f32[0];

    /* Value and slope in one call, which takes two sums on one axis in either width. */
    double slope[1] = {0.0};
    float slope_f32[1] = {0.0f};
    size_t sums[1] = {9}, sums_f32[1] = {9};
    wrong |= veltzuma_regular_interp_one_with_grad(1, counts, 1, starts, 1, steps, 1, vals, 4, CUBIC, x, 1, refusal, 2, value, 1, slope, 1, marks, 1,
                                                   sums, 1) != 0;
    wrong |= veltzuma_regular_interp_one_with_grad_f32(1, counts, 1, starts_f32, 1, steps_f32, 1, vals_f32, 4, CUBIC, x_f32, 1, refusal, 2, value_f32,
                                                       1, slope_f32, 1, marks_f32, 1, sums_f32, 1) != 0;
    printf("slope at 1.5, double and float       %.17g %.9g, by %zu and %zu sums\n", slope[0], (double)slope_f32[0], sums[0], sums_f32[0]);
    wrong |= value[0] != 3.375 || slope[0] != 6.25 || value_f32[0] != 3.375f || slope_f32[0] != 6.25f || sums[0] != 2 || sums_f32[0] != 2;

    /* 2^63 has no place in either width; 2^63 - 2^39 is the float below it. */
    const float far_f32[3] = {1.5f, 9223371487098961920.0f, 9223372036854775808.0f};
    float out_f32[3] = {-1.0f, -2.0f, -3.0f};
    uint8_t number = veltzuma_regular_interp_f32(1, counts, 1, starts_f32, 1, steps_f32, 1, vals_f32, 4, STRAIGHT, far_f32, 3, refusal, 2, out_f32, 3);
    printf("batch of float, number and query     %u %zu\n", number, refusal[0]);
    wrong |= number != 8 || refusal[0] != 2 || refusal[1] != 0 || out_f32[0] != 3.375f || out_f32[1] == -2.0f || out_f32[2] != -3.0f;

    /* 2^24 + 1 is no float: as floats the last two entries of this axis are equal, and it is refused. */
    const double axis[4] = {0.0, 1.0, 16777216.0, 16777217.0};
    float axis_f32[4];
    for (int i = 0; i < 4; i++)
        axis_f32[i] = (float)axis[i];
    number = veltzuma_rectilinear_new(1, counts, 1, axis, 4, vals, 4, refusal, 2);
    uint8_t number_f32 = veltzuma_rectilinear_new_f32(1, counts, 1, axis_f32, 4, vals_f32, 4, refusal, 2);
    printf("axis to 2^24 + 1, double and float   %u %u\n", number, number_f32);
    wrong |= number != 0 || number_f32 != 10 || refusal[0] != 0 || refusal[1] != 0;
    return wrong;
}
