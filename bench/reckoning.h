/* Document 01's reckoning on lists, with the tolerances and row sums of 02: the parts of which checks in C are made.
 *
 * Every number here fits 64 bits: |D| <= 2^20 + 2^45, the sum of |D| * w <= 2^60 + 2^35, the sum of |a| along a row <= 2^25,
 * |S * b - A * X| + S * d <= 2^61 + 2^50 + 2^40, and where that is at most 2^25 in every row, |p| and the slack with it <= 2^50. */
#ifndef RECKONING_H
#define RECKONING_H

#include <stdbool.h>
#include <stddef.h>
#include <stdint.h>
#include <string.h>

enum { MOST = 32, PLACES = MOST * MOST };

#define LARGEST_RESIDUAL ((int64_t)1 << 25)

/* A problem whose numbers are in their ranges. */
struct system {
    uint32_t n;
    int64_t S, T;
    const int64_t *A, *b, *d, *X, *G, *w;
};

/* The limits of one column from its magnitudes |p_m|, the margins and the weights. */
typedef void bounds_of_column(uint32_t n, const int64_t *w, const int64_t *p, const int64_t *g, uint64_t *bounds);

static inline int64_t magnitude_of(int64_t x) {
    return x < 0 ? -x : x;
}

static inline bool all_within(const int64_t *numbers, uint32_t count, int64_t lowest, int64_t highest) {
    for (uint32_t i = 0; i < count; i++) {
        if (numbers[i] < lowest || numbers[i] > highest) return false;
    }
    return true;
}

/* 3: "A check on lists tests all ranges itself." */
static inline bool is_in_range(uint32_t n, uint32_t s, uint32_t t, const struct system *y) {
    const int64_t small = (int64_t)1 << 20, whole = (int64_t)1 << 30, large = (int64_t)1 << 36;
    if (n < 1 || n > MOST || s > 20 || t > 20) return false;
    return all_within(y->A, n * n, -small, small) && all_within(y->b, n, -whole, whole) && all_within(y->d, n, 0, small) &&
           all_within(y->X, n, -large, large) && all_within(y->G, n * n, -small, small) && all_within(y->w, n, 1, 1024);
}

/* The sum over n terms of a number of a times one of x, which stand a stride apart. */
static inline int64_t dot(size_t n, const int64_t *a, const int64_t *x, size_t stride) {
    int64_t sum = 0;
    for (size_t j = 0; j < n; j++, x += stride) sum += a[j] * *x;
    return sum;
}

/* out = diagonal * I - left * right, row after row. */
static inline void difference(size_t n, int64_t diagonal, const int64_t *left, const int64_t *right, int64_t *out) {
    for (size_t i = 0; i < n; i++) {
        for (size_t j = 0; j < n; j++) *out++ = (i == j ? diagonal : 0) - dot(n, left + i * n, right + j, n);
    }
}

/* g_m = T * w_m - (sum over j of |D_mj| * w_j), from D = T * I - G * A, row after row. Gives the lowest row with a margin of 0 or less, from 1, or 0. */
static inline uint32_t failing_margin(const struct system *y, const int64_t *D, int64_t *g) {
    uint32_t failing = 0;
    for (uint32_t m = y->n; m-- > 0;) {
        int64_t sum = 0;
        for (uint32_t j = 0; j < y->n; j++) sum += magnitude_of(D[m * y->n + j]) * y->w[j];
        g[m] = y->T * y->w[m] - sum;
        if (g[m] <= 0) failing = m + 1;
    }
    return failing;
}

/* 02, Paper 5: "size of residual plus slack is above 2^25"; Paper 9: "the residual of row m, without slack, may be at most the sum of |a| along that row". */
static inline bool is_above(int64_t magnitude, int64_t slack, int64_t sum) {
    return magnitude + slack > LARGEST_RESIDUAL || magnitude > sum;
}

/* The sums of |a| along the rows. */
static inline void sum_rows(const struct system *y, int64_t *sums) {
    for (uint32_t k = 0; k < y->n; k++) {
        sums[k] = 0;
        for (uint32_t j = 0; j < y->n; j++) sums[k] += magnitude_of(y->A[k * y->n + j]);
    }
}

/* r = S * b - A * X, with the slack S * d. Gives the lowest row whose residual is refused, from 1, or 0. */
static inline uint32_t failing_residual(const struct system *y, const int64_t *sums, int64_t *r) {
    uint32_t failing = 0;
    for (uint32_t k = y->n; k-- > 0;) {
        r[k] = y->S * y->b[k] - dot(y->n, y->A + k * y->n, y->X, 1);
        if (is_above(magnitude_of(r[k]), y->S * y->d[k], sums[k])) failing = k + 1;
    }
    return failing;
}

/* Residual k of column j of the inverse is at j * across + k * down. Gives the lowest column, then its lowest row, whose residual is refused. */
static inline bool failing_inverse(const struct system *y, const int64_t *sums, const int64_t *R, size_t across, size_t down, uint64_t places[2]) {
    for (uint32_t j = 0; j < y->n; j++) {
        for (uint32_t k = 0; k < y->n; k++) {
            if (is_above(magnitude_of(R[j * across + k * down]), 0, sums[k])) {
                places[0] = j + 1;
                places[1] = k + 1;
                return true;
            }
        }
    }
    return false;
}

/* Adds to each magnitude |p_m| of the guess the sum over j of |G_mj| * S * d_j, where some d_j is above 0. */
static inline void add_slacks(const struct system *y, int64_t *p) {
    if (all_within(y->d, y->n, 0, 0)) return;
    for (uint32_t m = 0; m < y->n; m++) {
        for (uint32_t j = 0; j < y->n; j++) p[m] += magnitude_of(y->G[m * y->n + j]) * y->S * y->d[j];
    }
}

/* Each weight's limit by the row with this magnitude and margin. */
static inline void bounds_by_row(uint32_t n, const int64_t *w, int64_t p, int64_t g, uint64_t *bounds) {
    for (uint32_t i = 0; i < n; i++) bounds[i] = (uint64_t)((w[i] * p + g - 1) / g);
}

/* The largest of the limits rounded up is the largest ratio rounded up: that row is found by quotients, then by remainders times the other margin. */
static inline void quick_bounds(uint32_t n, const int64_t *w, const int64_t *p, const int64_t *g, uint64_t *bounds) {
    uint32_t best = 0;
    int64_t whole = p[0] / g[0], rest = p[0] % g[0];
    for (uint32_t m = 1; m < n; m++) {
        const int64_t next_whole = p[m] / g[m], next_rest = p[m] % g[m];
        if (next_whole > whole || (next_whole == whole && next_rest * g[best] > rest * g[m])) {
            best = m;
            whole = next_whole;
            rest = next_rest;
        }
    }
    bounds_by_row(n, w, p[best], g[best], bounds);
}

/* "The limits of one column are worked out whole before any of them is written." */
static inline void write_inverse(const struct system *y, const int64_t *R, const int64_t *g, bounds_of_column *bounds_of, uint64_t *bounds) {
    int64_t P[PLACES], p[MOST];
    uint64_t column[MOST];
    difference(y->n, 0, y->G, R, P);
    for (uint32_t j = 0; j < y->n; j++) {
        for (uint32_t m = 0; m < y->n; m++) p[m] = magnitude_of(P[m * y->n + j]);
        bounds_of(y->n, y->w, p, g, column);
        for (uint32_t i = 0; i < y->n; i++) bounds[i * y->n + j] = column[i];
    }
}

/* The checks differ in their reckoning alone: "Order for a check: 8, .. 3, 5, 6, 7." */
#define CHECK(name, compute)                                                                                                             \
    uint32_t name(uint32_t n, uint32_t s, uint32_t t, const int64_t *matrix, size_t matrix_len, const int64_t *right, size_t right_len,  \
                  const int64_t *tolerance, size_t tolerance_len, const int64_t *guess, size_t guess_len, const int64_t *inverse,        \
                  size_t inverse_len, const int64_t *weights, size_t weights_len, uint64_t *solution_bounds, size_t solution_bounds_len, \
                  uint64_t *inverse_bounds, size_t inverse_bounds_len, uint64_t places[2]) {                                             \
        const struct system y = {n, (int64_t)1 << (s & 31), (int64_t)1 << (t & 31), matrix, right, tolerance, guess, inverse, weights};  \
        places[0] = places[1] = 0;                                                                                                       \
        if (matrix_len < PLACES || inverse_len < PLACES || inverse_bounds_len < PLACES || right_len < MOST || tolerance_len < MOST ||    \
            guess_len < MOST || weights_len < MOST || solution_bounds_len < MOST)                                                        \
            return 8;                                                                                                                    \
        if (!is_in_range(n, s, t, &y)) return 3;                                                                                         \
        return compute(&y, solution_bounds, inverse_bounds, places);                                                                     \
    }

#endif
