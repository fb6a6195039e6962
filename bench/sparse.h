/* The reckoning by the methods of the proved check (crates check_defects, check_symmetry, check_margins, check_bounds, check_ratios), on the parts of reckoning.h. */
#ifndef SPARSE_H
#define SPARSE_H

#include "reckoning.h"

enum { BIASED = MOST * (MOST + 1) };

#define BIAS ((int64_t)1 << 25)
#define SMALL_SUM ((int64_t)1 << 33)

/* n numbers, a stride apart and of at most 2^25 in absolute value, biased above 0, and their sum after them. */
static inline void bias_row(size_t n, const int64_t *x, size_t stride, uint64_t *out) {
    uint64_t sum = 0;
    for (size_t k = 0; k < n; k++) sum += out[k] = (uint64_t)(x[k * stride] + BIAS);
    out[n] = sum;
}

/* n rows; row i begins i steps on. */
static inline void bias_rows(size_t n, const int64_t *x, size_t step, size_t stride, uint64_t *out) {
    for (size_t i = 0; i < n; i++) bias_row(n, x + i * step, stride, out + i * (n + 1));
}

/* The sum of the products of the numbers that two biased rows stand for, by products of unsigned 32-bit numbers. */
static inline int64_t row_dot(size_t n, const uint64_t *a, const uint64_t *b) {
    uint64_t sum = 0;
    for (size_t k = 0; k < n; k++) sum += (a[k] & UINT32_MAX) * (b[k] & UINT32_MAX);
    return (int64_t)(sum + (n << 50)) - (int64_t)((a[n] + b[n]) << 25);
}

/* diagonal * I less the product of x and of the matrix that the biased rows stand for, column after column. A number of x that is not 0 takes a multiple of
 * a whole row, those below 0 in sums of their own; a 0 takes nothing. */
static inline void defects(size_t n, int64_t diagonal, const int64_t *x, size_t step, size_t stride, const uint64_t *rows, int64_t *out) {
    for (size_t m = 0; m < n; m++, x += step) {
        uint64_t sums[2][MOST] = {{0}};
        int64_t total = 0;
        for (size_t k = 0; k < n; k++) {
            const int64_t number = x[k * stride];
            if (number != 0) {
                const uint64_t *row = rows + k * (n + 1), magnitude = (uint64_t)magnitude_of(number);
                uint64_t *to = sums[number < 0];
                for (size_t j = 0; j < n; j++) to[j] += (magnitude & UINT32_MAX) * (row[j] & UINT32_MAX);
            }
            total += number;
        }
        for (size_t j = 0; j < n; j++) out[j * n + m] = (m == j ? diagonal : 0) + total * BIAS + (int64_t)sums[1][j] - (int64_t)sums[0][j];
    }
}

static inline bool is_symmetric(size_t n, const int64_t *x) {
    bool same = true;
    for (size_t i = 0; i < n; i++) {
        for (size_t j = 0; j < i; j++) {
            if (x[i * n + j] != x[j * n + i]) same = false;
        }
    }
    return same;
}

/* The limits of one column from its magnitudes |p_m|, the margins, and each margin divided by the largest weight, its cap.
 *
 * Where every magnitude is at most its cap the limits are all 1, or all 0 where every magnitude is 0. Else the row of the largest ratio is found by products
 * where these fit, and by quotients where not. */
static inline void sparse_bounds(uint32_t n, const int64_t *w, const int64_t *p, const int64_t *g, const int64_t *caps, uint64_t *bounds) {
    bool is_within_caps = true;
    int64_t sum = 0;
    uint32_t best = 0;
    for (uint32_t m = 0; m < n; m++) {
        if (caps[m] < p[m]) is_within_caps = false;
        sum += p[m];
    }
    if (is_within_caps) {
        for (uint32_t i = 0; i < n; i++) bounds[i] = sum != 0;
        return;
    }
    if (sum >= SMALL_SUM) {
        quick_bounds(n, w, p, g, bounds);
        return;
    }
    for (uint32_t m = 1; m < n; m++) {
        if (p[best] * g[m] < p[m] * g[best]) best = m;
    }
    bounds_by_row(n, w, p[best], g[best], bounds);
}

static inline void cap_margins(const struct system *y, const int64_t *g, int64_t *caps) {
    int64_t largest = 0;
    for (uint32_t i = 0; i < y->n; i++) largest = y->w[i] > largest ? y->w[i] : largest;
    for (uint32_t m = 0; m < y->n; m++) caps[m] = g[m] / largest;
}

/* |p_m| for p = G * r, from row m = known on, by the biased rows of G and the biased residuals r. */
static inline void magnitudes_from(size_t known, size_t n, const uint64_t *rows, const uint64_t *residuals, int64_t *p) {
    for (size_t m = known; m < n; m++) p[m] = magnitude_of(row_dot(n, rows + m * (n + 1), residuals));
}

/* From the biased rows of G and the residuals, column after column; where A and G are symmetric the magnitudes of a column before its diagonal are read across the
 * columns before it. */
static inline void write_columns(const struct system *y, const uint64_t *rows, const int64_t *R, bool are_symmetric, const int64_t *g, const int64_t *caps,
                                 uint64_t *bounds) {
    const size_t n = y->n;
    uint64_t residuals[BIASED], column[MOST];
    int64_t P[PLACES];
    bias_rows(n, R, n, 1, residuals);
    for (size_t j = 0; j < n; j++) {
        const size_t known = are_symmetric ? j : 0;
        for (size_t m = 0; m < known; m++) P[j * n + m] = P[m * n + j];
        magnitudes_from(known, n, rows, residuals + j * (n + 1), P + j * n);
        sparse_bounds(y->n, y->w, P + j * n, g, caps, column);
        for (size_t i = 0; i < n; i++) bounds[i * n + j] = column[i];
    }
}

/* Where A and G are symmetric, D row after row is the residuals of the inverse, column after column. */
static inline uint32_t compute_sparsely(const struct system *y, uint64_t *solution_bounds, uint64_t *inverse_bounds, uint64_t places[2]) {
    const size_t n = y->n;
    const bool are_symmetric = is_symmetric(n, y->A) && is_symmetric(n, y->G);
    uint64_t rows[BIASED], columns[BIASED], biased[MOST + 1], column[MOST];
    int64_t R[PLACES], D[PLACES], g[MOST], caps[MOST], r[MOST], p[MOST], sums[MOST];
    sum_rows(y, sums);
    bias_rows(n, y->G, n, 1, rows);
    defects(n, y->T, y->A, n, 1, rows, R);
    if (!are_symmetric) {
        bias_rows(n, y->G, 1, n, columns);
        defects(n, y->T, y->A, 1, n, columns, D);
    }
    if ((places[0] = failing_margin(y, are_symmetric ? R : D, g)) != 0) return 5;
    if ((places[0] = failing_residual(y, sums, r)) != 0) return 6;
    if (failing_inverse(y, sums, R, n, 1, places)) return 7;
    cap_margins(y, g, caps);
    bias_row(n, r, 1, biased);
    magnitudes_from(0, n, rows, biased, p);
    add_slacks(y, p);
    sparse_bounds(y->n, y->w, p, g, caps, column);
    memcpy(solution_bounds, column, n * sizeof *column);
    write_columns(y, rows, R, are_symmetric, g, caps, inverse_bounds);
    return 0;
}

#endif
