/* The deepest stack of each call for C: the call runs on a stack of its own that was filled with a pattern, and the bytes that
 * no longer hold it are counted, in the mode in which they are most. What an empty function touches there is taken off. Symbols are
 * bound before the start, so that the linker's own work is not counted.
 *   gcc -O2 -Wl,-z,now -o stack stack.c FOLDER/libcapi.a && ./stack        (FOLDER holds libcapi.a) */
#include <stdio.h>
#include <string.h>
#include <ucontext.h>

#include "../include/veltzuma.h"

#define SIZE (1 << 20)
#define QUERIES 4

static unsigned char stack[SIZE];
static ucontext_t back, there;
static const size_t counts[4] = {5, 5, 5, 5};
static const double starts[4], steps[4] = {1.0, 1.0, 1.0, 1.0};
static double axes[20], vals[625], out[4 * QUERIES], queries[4 * QUERIES], value[1], gradient[4];
static size_t refusal[2], origins[4], sums[1];
static uint8_t classes[4], marks[4], mode;

#define REGULAR 4, counts, 4, starts, 4, steps, 4, vals, 625
#define RECTILINEAR 4, counts, 4, axes, 20, vals, 625

static void nothing(void) {}
static void r_new(void) { veltzuma_regular_new(REGULAR, refusal, 2); }
static void r_loc(void) { veltzuma_regular_get_loc(REGULAR, mode, queries, 4, refusal, 2, origins, 4, classes, 4, marks, 4); }
static void r_one(void) { veltzuma_regular_interp_one(REGULAR, mode, queries, 4, refusal, 2, value, 1, marks, 4); }
static void r_grad(void) { veltzuma_regular_interp_one_grad(REGULAR, mode, queries, 4, refusal, 2, gradient, 4, marks, 4); }
static void r_both(void) {
    veltzuma_regular_interp_one_with_grad(REGULAR, mode, queries, 4, refusal, 2, value, 1, gradient, 4, marks, 4, sums, 1);
}
static void r_many(void) { veltzuma_regular_interp(REGULAR, mode, queries, 4 * QUERIES, refusal, 2, out, QUERIES); }
static void r_grads(void) { veltzuma_regular_interp_grad(REGULAR, mode, queries, 4 * QUERIES, refusal, 2, out, 4 * QUERIES); }
static void c_new(void) { veltzuma_rectilinear_new(RECTILINEAR, refusal, 2); }
static void c_loc(void) { veltzuma_rectilinear_get_loc(RECTILINEAR, mode, queries, 4, refusal, 2, origins, 4, classes, 4, marks, 4); }
static void c_one(void) { veltzuma_rectilinear_interp_one(RECTILINEAR, mode, queries, 4, refusal, 2, value, 1, marks, 4); }
static void c_grad(void) { veltzuma_rectilinear_interp_one_grad(RECTILINEAR, mode, queries, 4, refusal, 2, gradient, 4, marks, 4); }
static void c_both(void) {
    veltzuma_rectilinear_interp_one_with_grad(RECTILINEAR, mode, queries, 4, refusal, 2, value, 1, gradient, 4, marks, 4, sums, 1);
}
static void c_many(void) { veltzuma_rectilinear_interp(RECTILINEAR, mode, queries, 4 * QUERIES, refusal, 2, out, QUERIES); }
static void c_grads(void) { veltzuma_rectilinear_interp_grad(RECTILINEAR, mode, queries, 4 * QUERIES, refusal, 2, out, 4 * QUERIES); }

static size_t depth(void (*call)(void)) {
    memset(stack, 0xa5, SIZE);
    getcontext(&there);
    there.uc_stack.ss_sp = stack;
    there.uc_stack.ss_size = SIZE;
    there.uc_link = &back;
    makecontext(&there, call, 0);
    swapcontext(&back, &there);
    size_t untouched = 0;
    while (untouched < SIZE && stack[untouched] == 0xa5) untouched++;
    return SIZE - untouched;
}

int main(void) {
    for (int i = 0; i < 20; i++) axes[i] = i % 5;
    for (int i = 0; i < 625; i++) vals[i] = i;
    for (int i = 0; i < 4 * QUERIES; i++) queries[i] = 0.3 * i - 0.4;
    size_t empty = depth(nothing);
    struct { const char *name; void (*call)(void); } calls[] = {
        {"regular_new", r_new}, {"regular_get_loc", r_loc}, {"regular_interp_one", r_one}, {"regular_interp_one_grad", r_grad},
        {"regular_interp_one_with_grad", r_both}, {"regular_interp", r_many}, {"regular_interp_grad", r_grads},
        {"rectilinear_new", c_new}, {"rectilinear_get_loc", c_loc}, {"rectilinear_interp_one", c_one},
        {"rectilinear_interp_one_grad", c_grad}, {"rectilinear_interp_one_with_grad", c_both}, {"rectilinear_interp", c_many},
        {"rectilinear_interp_grad", c_grads},
    };
    for (size_t i = 0; i < sizeof calls / sizeof *calls; i++) {
        size_t most = 0;
        for (mode = 0; mode <= 2; mode++) {
            size_t bytes = depth(calls[i].call) - empty;
            if (bytes > most) most = bytes;
        }
        printf("%-35s %5zu bytes\n", calls[i].name, most);
    }
    return 0;
}
