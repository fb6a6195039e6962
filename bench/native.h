/* The check on lists of document 01, with the tolerances and row sums of 02, in C, written apart from the proved one: to compare answers and speed. */
#ifndef NATIVE_H
#define NATIVE_H

#include "kodarfi.h"

/* The shape of kodarfi_check. */
typedef uint32_t check_on_lists(uint32_t n, uint32_t s, uint32_t t,
                                const int64_t *matrix, size_t matrix_len,
                                const int64_t *right, size_t right_len,
                                const int64_t *tolerance, size_t tolerance_len,
                                const int64_t *guess, size_t guess_len,
                                const int64_t *inverse, size_t inverse_len,
                                const int64_t *weights, size_t weights_len,
                                uint64_t *solution_bounds, size_t solution_bounds_len,
                                uint64_t *inverse_bounds, size_t inverse_bounds_len,
                                uint64_t places[2]);

/* The limits of a column with n * n divisions, as document 01 states them. */
check_on_lists native_check_naive;

/* The same with 2 * n divisions: the row with the largest |p_m| / g_m is found first. */
check_on_lists native_check_quick;

/* The same by the methods of the proved check: numbers of the matrix other than 0 alone, sums of products through biased rows, half of the work where matrix and
 * inverse are symmetric, and no division where the limits of a column are 0 or 1. */
check_on_lists native_check_sparse;

#endif
