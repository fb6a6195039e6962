#include "native.h"

#include "sparse.h"

/* As document 01 states them. */
static void naive_bounds(uint32_t n, const int64_t *w, const int64_t *p, const int64_t *g, uint64_t *bounds) {
    for (uint32_t i = 0; i < n; i++) {
        int64_t largest = 0;
        for (uint32_t m = 0; m < n; m++) {
            const int64_t bound = (w[i] * p[m] + g[m] - 1) / g[m];
            if (bound > largest) largest = bound;
        }
        bounds[i] = (uint64_t)largest;
    }
}

static uint32_t compute_plainly(const struct system *y, bounds_of_column *bounds_of, uint64_t *solution_bounds, uint64_t *inverse_bounds, uint64_t places[2]) {
    int64_t D[PLACES], R[PLACES], g[MOST], r[MOST], p[MOST], sums[MOST];
    uint64_t column[MOST];
    sum_rows(y, sums);
    difference(y->n, y->T, y->G, y->A, D);
    if ((places[0] = failing_margin(y, D, g)) != 0) return 5;
    if ((places[0] = failing_residual(y, sums, r)) != 0) return 6;
    difference(y->n, y->T, y->A, y->G, R);
    if (failing_inverse(y, sums, R, 1, y->n, places)) return 7;
    for (uint32_t m = 0; m < y->n; m++) p[m] = magnitude_of(dot(y->n, y->G + m * y->n, r, 1));
    add_slacks(y, p);
    bounds_of(y->n, y->w, p, g, column);
    memcpy(solution_bounds, column, y->n * sizeof *column);
    write_inverse(y, R, g, bounds_of, inverse_bounds);
    return 0;
}

static uint32_t compute_naively(const struct system *y, uint64_t *solution_bounds, uint64_t *inverse_bounds, uint64_t places[2]) {
    return compute_plainly(y, naive_bounds, solution_bounds, inverse_bounds, places);
}

static uint32_t compute_quickly(const struct system *y, uint64_t *solution_bounds, uint64_t *inverse_bounds, uint64_t places[2]) {
    return compute_plainly(y, quick_bounds, solution_bounds, inverse_bounds, places);
}

CHECK(native_check_naive, compute_naively)
CHECK(native_check_quick, compute_quickly)
CHECK(native_check_sparse, compute_sparsely)
