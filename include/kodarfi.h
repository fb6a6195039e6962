/* The calls that the library libkodarfi.a gives to C and C++.
 *
 * Each answers every input: numbers, bytes and lengths may be anything. What C's types cannot say is the caller's part: a pointer with a length
 * after it leads to as many numbers or bytes as that length says, and any other to as many as its comment says; nothing that is written
 * (a pointer without const) overlaps anything else of the same call. A pointer may be null where the length after it is 0, as an empty std::vector
 * hands it; no other may. Calls keep no state, take at most KODARFI_STACK_MAX bytes of stack and no other memory, and may run at the same time.
 *
 * Each gives the papers' number of the first refusal, 0 where nothing is refused; kodarfi_loader_new alone, which refuses nothing, gives none. One that
 * has `places` writes them in any case: the row, column, count or line that goes with the refusal, 0 where there is none. Rows, columns and lines count
 * from 1.
 *
 * kodarfi_net.h has the calls on nets and files with lists of full length in one struct, and the numbers in words.
 *
 * What the numbers mean, and their ranges; a number that is used and outside its range is 3:
 *
 *   n                  1 to 32           equations, and marks whose height is sought
 *   s, t               0 to 20           S = 2^s solution steps and T = 2^t inverse steps make one unit
 *   matrix, A          -2^20 to 2^20     the equations A * x = b, in whole units; so is half
 *   right, b           -2^30 to 2^30     their right sides, in whole units
 *   tolerance, d       0 to 2^20         how far each right side may lie from the true one, in whole units
 *   guess, X           -2^36 to 2^36     the proposed heights, in solution steps: X means X/S units
 *   inverse, G         -2^20 to 2^20     the proposed inverse of A, in inverse steps: G means G/T
 *   weights, w         1 to 1,024        one for each row; 1 everywhere where the solver supplies none
 *   coupling, C        -2^20 to 2^20     what a dependent net takes from the main net's heights
 *   allowance          1 to 64           how many lists of weights may be tried
 *   solution_bounds, inverse_bounds      written, 0 to 2^60: limits of X in solution steps and of G in inverse steps; kodarfi_intervals reads them
 *
 * How to choose s and t. Take the largest t at which every number of the inverse, times 2^t, stays within 2^20 in absolute value: the exact solution and
 * inverse rounded to nearest steps, with weights of 1 and no tolerances, are always accepted where the |A_ij| of the whole matrix add up to less than
 * 2 * 2^t, and no limit is above 1 where three times this sum is at most 2 * 2^t. Take the smallest s whose step, 2^-s of a unit, is as fine as the
 * heights are wanted: a guess must stay within 2^36 steps, and a tolerance d takes d * 2^s of the 2^25 that 6 allows. */
#ifndef KODARFI_H
#define KODARFI_H

#include <stddef.h>
#include <stdint.h>

/* The version of this header, and of the library beside it; libkodarfi.so.MAJOR is the shared one's name. */
#define KODARFI_VERSION "3.0.0"
#define KODARFI_VERSION_MAJOR 3
#define KODARFI_VERSION_MINOR 0
#define KODARFI_VERSION_PATCH 0

/* The lengths of lists and buffers: of a matrix, a column, a matrix by its lower half, a listing; the longest file that kodarfi_convert writes; how many
 * field lines a build takes; how many bytes of a file decide its answer, so that no more need be read; a loader, and the longest line that is not 1. */
#define KODARFI_MATRIX_LENGTH 1024
#define KODARFI_COLUMN_LENGTH 32
#define KODARFI_HALF_LENGTH 528
#define KODARFI_LISTING_LENGTH 32768
#define KODARFI_CONVERTED_LENGTH 21300
#define KODARFI_OBSERVATIONS_MAX 256
#define KODARFI_FILE_LENGTH 65536
#define KODARFI_LOADER_LENGTH 9
#define KODARFI_LINE_LENGTH 320

/* The ends of the ranges: the highest number of each kind, and the highest absolute value where numbers may be below 0. */
#define KODARFI_N_MAX 32
#define KODARFI_SCALE_MAX 20
#define KODARFI_MATRIX_MAX 1048576
#define KODARFI_RIGHT_MAX 1073741824
#define KODARFI_TOLERANCE_MAX 1048576
#define KODARFI_GUESS_MAX INT64_C(68719476736)
#define KODARFI_INVERSE_MAX 1048576
#define KODARFI_WEIGHT_MAX 1024
#define KODARFI_ALLOWANCE_MAX 64
#define KODARFI_BOUND_MAX UINT64_C(1152921504606846976)
#define KODARFI_KEY_MAX 65535
#define KODARFI_DIFFERENCE_MAX 65536
#define KODARFI_LINE_WEIGHT_MAX 64

/* The most bytes of stack that a call takes, 112 kilobytes. */
#define KODARFI_STACK_MAX 114688

/* What an answer says: the papers' numbers. docs/refusals.tsv has each in words, with what to do. */
#define KODARFI_ACCEPTED 0
#define KODARFI_TOO_LONG 1          /* a line above 320 bytes */
#define KODARFI_NO_FORM 2           /* a line that is none of the eight forms */
#define KODARFI_OUT_OF_RANGE 3      /* a number outside its range */
#define KODARFI_WRONG_COUNT 4       /* a row or inverse list with other than n numbers */
#define KODARFI_MARGIN 5            /* a margin of 0 or less */
#define KODARFI_RESIDUAL 6          /* a residual of the guess too large */
#define KODARFI_INVERSE_RESIDUAL 7  /* a residual of the inverse too large */
#define KODARFI_TOO_SHORT 8         /* a list too short */
#define KODARFI_TOO_EARLY 11        /* a form before problem or scale */
#define KODARFI_REPEATED 12         /* a form given already */
#define KODARFI_MISSING 13          /* forms are missing at the end */
#define KODARFI_AFTER_END 14        /* a line after the end */
#define KODARFI_NOT_ENDED 15        /* no end */
#define KODARFI_SAME_MARK 16        /* a field line from a mark to the same mark */
#define KODARFI_OTHER_CONTENTS 17   /* a key met before with other contents */
#define KODARFI_NONE_GOOD 18        /* none of the allowed lists of weights is good */
#define KODARFI_NO_GUESS 19         /* a double that gives no guess */
#define KODARFI_DIFFERENT 20        /* two proposals for different equations */
#define KODARFI_TOO_WIDE 21         /* a limit above 2^36 */
#define KODARFI_NOT_CONVERTIBLE 22  /* a tolerance above 0, or a buffer too short */

#ifdef __cplusplus
extern "C" {
#endif

/* The check on lists.
 *
 * n equations (1 to 32); 2^s solution steps and 2^t inverse steps make one unit (0 to 20). A matrix list has at least 1,024 numbers and a column
 * list at least 32; the first n * n are used, row after row, or the first n. The rest is neither read nor written.
 *
 * tolerance (a column list, 0 to 2^20 each) says how far each right side may lie from the true one, in the same whole units; 0 everywhere where the
 * right sides are exact (document 02, Paper 5). Row m then has the slack 2^s * tolerance[m] beside its residual.
 *
 * The answer is 0 where the proposal is accepted: then the first n solution_bounds are the limits of the guess, in solution steps, and the first
 * n * n inverse_bounds those of the inverse, row after row, in inverse steps. The exact solution of every right side, in fractions, that differs from
 * `right` by at most `tolerance` in each place lies within the solution_bounds. Else it is the number of the first refusal in this order, and both
 * lists of limits are as before:
 *
 *   8   a list is too short                                 places: 0, 0
 *   3   n, s, t or a number that is used is outside its range       0, 0
 *   5   a margin is 0 or less                                       row, 0
 *   6   the absolute value of a residual of the guess is above its
 *       row's sum, or together with its slack above 2^25            row, 0
 *   7   that of a residual of the inverse is above its row's sum    column, row
 *
 * The row's sum is that of the absolute values of the matrix's numbers in that row (document 02, Paper 9). A guess within one step of the exact
 * solution everywhere never has a residual above it, nor has an inverse within one step of the exact one.
 */
uint32_t kodarfi_check(uint32_t n, uint32_t s, uint32_t t,
                       const int64_t *matrix, size_t matrix_len,
                       const int64_t *right, size_t right_len,
                       const int64_t *tolerance, size_t tolerance_len,
                       const int64_t *guess, size_t guess_len,
                       const int64_t *inverse, size_t inverse_len,
                       const int64_t *weights, size_t weights_len,
                       uint64_t *solution_bounds, size_t solution_bounds_len,
                       uint64_t *inverse_bounds, size_t inverse_bounds_len,
                       uint64_t places[2]);

/* The check of a symmetric matrix by its lower half (document 02, Paper 10).
 *
 * half has at least 528 numbers, 8 under that. It holds the matrix in rows of 1, 2, .. n numbers: row i and column j, j up to i, both from 1, at place
 * i * (i - 1) / 2 + j, from 1. The first n * (n + 1) / 2 are used, and the rest is not read; where n is outside its range none is. Everything else is as in
 * kodarfi_check, and so are the answer, the places and both lists of limits, for the square matrix that has these numbers on both sides of the diagonal.
 */
uint32_t kodarfi_check_half(uint32_t n, uint32_t s, uint32_t t,
                            const int64_t *half, size_t half_len,
                            const int64_t *right, size_t right_len,
                            const int64_t *tolerance, size_t tolerance_len,
                            const int64_t *guess, size_t guess_len,
                            const int64_t *inverse, size_t inverse_len,
                            const int64_t *weights, size_t weights_len,
                            uint64_t *solution_bounds, size_t solution_bounds_len,
                            uint64_t *inverse_bounds, size_t inverse_bounds_len,
                            uint64_t places[2]);

/* The listing of a file, byte for byte what the program `register` prints for it.
 *
 * listing has 32,768 bytes, which is enough for every file. The first *written of them are the listing, its last line feed included; the others are
 * as before. listing and *written are set whatever the answer is.
 *
 * The answer is 0 where the file is accepted: the listing is then the report. Else the listing is one line, (refused NUMBER (..)), and the answer
 * is its number. places holds what stands in the line's inner brackets:
 *
 *   1 to 4, 11, 12, 14   the file's first line that is refused    places: line, 0
 *   13                   forms are missing at the end                     count, 0
 *   15                   the file stops before an end                     0, 0
 *   5, 6, 7              the check refuses the file's numbers             as in kodarfi_check
 */
uint32_t kodarfi_listing(const uint8_t *file, size_t file_len,
                         uint8_t listing[32768], size_t *written,
                         uint64_t places[2]);

/* The register entry of a guess, in solution steps, and of its limit, for S = 2^s solution steps a unit.
 *
 * The answer is 0 where guess is -2^36 to 2^36 and s at most 20; bound may be any number. Then *value is guess / S rounded to a whole unit, halves away
 * from zero, and *value_bound is (bound + |guess - S * value|) / S rounded up: every height within bound steps of the guess lies within *value_bound
 * units of *value, and no smaller whole number would do. Else it is 3, and both are as before. places: always 0, 0. */
uint32_t kodarfi_entry(int64_t guess, uint64_t bound, uint32_t s,
                       int64_t *value, uint64_t *value_bound,
                       uint64_t places[2]);

/* Weights found by the program (document 02, Paper 7), for a solver that supplies none of use.
 *
 * n and t as in kodarfi_check; matrix and inverse have at least 1,024 numbers, of which the first n * n are used, row after row, and weights at least 32.
 * At most `allowance` lists of weights are tried, 1 to 64: first 1 everywhere, then each from the one before it, up to the first with which every margin is
 * above 0.
 *
 * The answer is 0 where such a list is found: it then stands in the first n weights, each 1 to 1,024, the rest is as before, and *tried is how many lists were
 * tried. A check of the same n, t, matrix and inverse with these weights is never refused with 5. A larger allowance finds the same list. Else the answer is
 * the number of the first refusal in this order, and the weights and *tried are as before:
 *
 *   8    a list is too short
 *   3    n, t, the allowance or a number that is used is outside its range
 *   18   none of the allowed lists is good
 *
 * places: always 0, 0. */
uint32_t kodarfi_find_weights(uint32_t n, uint32_t t,
                              const int64_t *matrix, size_t matrix_len,
                              const int64_t *inverse, size_t inverse_len,
                              uint32_t allowance,
                              int64_t *weights, size_t weights_len,
                              uint32_t *tried,
                              uint64_t places[2]);

/* A field line (document 02, Paper 3): its key (1 to 65,535), the marks that it leads from and to (0 to n; 0 is the fixed mark of height 0), the difference
 * of height in whole units (-65,536 to 65,536) and its weight (1 to 64).
 *
 * For bindings outside C: 32 bytes, aligned to 8; key stands at byte 0, from at 4, to at 8, difference at 16 and weight at 24. Bytes 12 to 15 and 28 to
 * 31 may hold anything. */
struct kodarfi_observation {
    uint32_t key;
    uint32_t from;
    uint32_t to;
    int64_t difference;
    uint32_t weight;
};

/* Equations from the field lines.
 *
 * n new marks (1 to 32) and at most 256 field lines; matrix has at least 1,024 numbers and right at least 32. A key met again with equal contents
 * counts once, wherever it stands.
 *
 * The answer is 0 where the equations are built: then the first n * n of matrix, row after row, and the first n of right hold them, whatever these lists held
 * before, and the rest is as before. A check of them never answers 3 for the matrix or the right side. Else it is the number of the first refusal, and both
 * lists are as before: 8, then 3, then the lines in order, each by 3, 16 and 17, up to the first that is refused:
 *
 *   8    a list is too short
 *   3    n is outside its range, or there are more than 256 lines; or a number of the line is outside its range
 *   16   the line leads from a mark to the same mark
 *   17   the line has the key of an earlier one and other contents: from, to, difference and weight are compared as given
 */
uint32_t kodarfi_build(uint32_t n,
                       const struct kodarfi_observation *observations, size_t observations_len,
                       int64_t *matrix, size_t matrix_len,
                       int64_t *right, size_t right_len);

/* The same, with the matrix by its lower half, as kodarfi_check_half takes it: half has at least 528 numbers, 8 under that, and the first n * (n + 1) / 2 are
 * written. What they stand for is what kodarfi_build writes, and the right sides are the same. */
uint32_t kodarfi_build_half(uint32_t n,
                            const struct kodarfi_observation *observations, size_t observations_len,
                            int64_t *half, size_t half_len,
                            int64_t *right, size_t right_len);

/* Either of the two, and *line is the number of the first field line that is refused, from 1, 0 where none is: so with 0 and 8, and with 3 for n or for more than 256
 * lines. Everything else is as kodarfi_build and kodarfi_build_half have it. */
uint32_t kodarfi_build_line(uint32_t n,
                            const struct kodarfi_observation *observations, size_t observations_len,
                            int64_t *matrix, size_t matrix_len,
                            int64_t *right, size_t right_len,
                            uint64_t *line);
uint32_t kodarfi_build_half_line(uint32_t n,
                                 const struct kodarfi_observation *observations, size_t observations_len,
                                 int64_t *half, size_t half_len,
                                 int64_t *right, size_t right_len,
                                 uint64_t *line);

/* Doubles in (document 02, Paper 11): a solver's heights as guesses, for S = 2^s solution steps a unit.
 *
 * n and s as in kodarfi_check; values and guess have at least 32 numbers each, of which the first n are used. No other number is read or written.
 *
 * The answer is 0 where each of the first n values is finite and gives a guess of -2^36 to 2^36: then the first n guesses are the values times S, each exactly
 * rounded to a nearest whole number, halves away from zero; minus zero gives 0. Else it is the number of the first refusal in this order, and the guess list
 * is as before:
 *
 *   8    a list is too short
 *   3    n or s is outside its range
 *   19   one of the first n values is infinite or no number, or its guess leaves -2^36 to 2^36
 *
 * places: always 0, 0. */
uint32_t kodarfi_guesses(uint32_t n, uint32_t s,
                         const double *values, size_t values_len,
                         int64_t *guess, size_t guess_len,
                         uint64_t places[2]);

/* Doubles out: guesses and their limits as pairs of doubles, in units.
 *
 * n and s as above; each list has at least 32 numbers, of which the first n are used. No other number is read or written.
 *
 * The answer is 0 where the first n guesses are -2^36 to 2^36 and the first n bounds at most 2^60: then low[i] is the largest double not above
 * (guess[i] - bounds[i]) / S and high[i] the smallest not below (guess[i] + bounds[i]) / S, and a zero is plus zero. Where guess and bounds are those of an
 * accepted check of the same n and s, no pair is refused, and the exact height lies between low[i] and high[i], whatever the right side within the tolerances
 * of that check. Else it is the number of the first refusal in this order, and both lists of ends are as before:
 *
 *   8   a list is too short
 *   3   n, s, one of the first n guesses or one of the first n bounds is outside its range
 *
 * places: always 0, 0. */
uint32_t kodarfi_intervals(uint32_t n, uint32_t s,
                           const int64_t *guess, size_t guess_len,
                           const uint64_t *bounds, size_t bounds_len,
                           double *low, size_t low_len,
                           double *high, size_t high_len,
                           uint64_t places[2]);

/* The check of two nets, the second hung from the first (document 02, Paper 8).
 *
 * The main net, whose parameters end in 1, is as in kodarfi_check. The dependent net, whose parameters end in 2, has the equations
 * A2 * u2 = b2 - C * u1 over the main net's heights u1. C, `coupling`, has n2 rows of n1 numbers, row after row without gaps, each -2^20 to 2^20, in a list of
 * at least 1,024; the rest is neither read nor written. Both nets have the same s.
 *
 * The main net is checked first, just as kodarfi_check does, and then the dependent net: its residual is S * b2 - C * X1 - A2 * X2, and its slack is the sum
 * of |C| * E1 along the row, for the limits E1 of the main net that this call finds, and S * tolerance2.
 *
 * The answer is 0 where both are accepted, and *net is 0: then the limits of both stand in the four lists, as in kodarfi_check, and every exact solution of
 * the two nets together, for all right sides in fractions within both tolerances, lies within both lists of solution limits. Else the answer is the number
 * of the first refusal, *net is 1 or 2, the net that it is of, and all four lists of limits are as before:
 *
 *   8, 3, 5, 6, 7 of the main net, as in kodarfi_check: 8 for its own lists and limits alone                  *net is 1
 *   8   a list of the dependent net, its limits or C is too short                                             *net is 2    places: 0, 0
 *   3   n2, s2, t2, a number that is used of its lists or of C is outside its range, or s2 is not s1                               0, 0
 *   5   a margin of the dependent net is 0 or less                                                                                 row, 0
 *   6   a residual of its guess is above 2^25 together with its slack; the row's sum is not asked of it                            row, 0
 *   7   the absolute value of a residual of its inverse is above its row's sum                                                     column, row
 */
uint32_t kodarfi_check_dependent(uint32_t n1, uint32_t s1, uint32_t t1,
                                 const int64_t *matrix1, size_t matrix1_len,
                                 const int64_t *right1, size_t right1_len,
                                 const int64_t *tolerance1, size_t tolerance1_len,
                                 const int64_t *guess1, size_t guess1_len,
                                 const int64_t *inverse1, size_t inverse1_len,
                                 const int64_t *weights1, size_t weights1_len,
                                 uint64_t *solution_bounds1, size_t solution_bounds1_len,
                                 uint64_t *inverse_bounds1, size_t inverse_bounds1_len,
                                 uint32_t n2, uint32_t s2, uint32_t t2,
                                 const int64_t *matrix2, size_t matrix2_len,
                                 const int64_t *coupling, size_t coupling_len,
                                 const int64_t *right2, size_t right2_len,
                                 const int64_t *tolerance2, size_t tolerance2_len,
                                 const int64_t *guess2, size_t guess2_len,
                                 const int64_t *inverse2, size_t inverse2_len,
                                 const int64_t *weights2, size_t weights2_len,
                                 uint64_t *solution_bounds2, size_t solution_bounds2_len,
                                 uint64_t *inverse_bounds2, size_t inverse_bounds2_len,
                                 uint32_t *net,
                                 uint64_t places[2]);

/* Two proposals for the same equations (document 02, Paper 13): what both together say of each height.
 *
 * The numbers and lists of the first proposal, then those of the second, each as in kodarfi_check; low and high have at least 32 numbers. The two may differ in
 * s, t, guess, inverse and weights.
 *
 * The answer is 0 where both are accepted and of the same equations, and no solution limit is above 2^36: then the first n of low and of high are the ends of
 * the heights' common intervals, in steps of 2^s to a unit with s the larger of s1 and s2, and the rest is as before. The lower end is the larger of both
 * proposals' guess - limit, and the upper end the smaller of both guess + limit. The exact height of every right side, in fractions, that differs from the one
 * given by at most the tolerance in each place lies in the interval, and no lower end is above its upper. The two in the other order give the same intervals.
 * Else it is the number of the first refusal in this order, and both lists are as before; *proposal is 1 or 2 where the refusal is of that proposal, and 0
 * where it is of neither:
 *
 *   8                low or high is too short                             *proposal: 0   places: 0, 0
 *   8, 3, 5, 6, 7    the check of the first proposal refuses it                      1   as in kodarfi_check
 *   8, 3, 5, 6, 7    the check of the second does                                    2   as in kodarfi_check
 *   20               n, the first n * n of the matrices, or the first n               0   0, 0
 *                    right sides or tolerances differ
 *   21               a solution limit of either, in its own steps, is above 2^36      0   0, 0
 *
 * *proposal is 0 where nothing is refused. The limits themselves are not handed out. */
uint32_t kodarfi_common(uint32_t n1, uint32_t s1, uint32_t t1,
                        const int64_t *matrix1, size_t matrix1_len,
                        const int64_t *right1, size_t right1_len,
                        const int64_t *tolerance1, size_t tolerance1_len,
                        const int64_t *guess1, size_t guess1_len,
                        const int64_t *inverse1, size_t inverse1_len,
                        const int64_t *weights1, size_t weights1_len,
                        uint32_t n2, uint32_t s2, uint32_t t2,
                        const int64_t *matrix2, size_t matrix2_len,
                        const int64_t *right2, size_t right2_len,
                        const int64_t *tolerance2, size_t tolerance2_len,
                        const int64_t *guess2, size_t guess2_len,
                        const int64_t *inverse2, size_t inverse2_len,
                        const int64_t *weights2, size_t weights2_len,
                        int64_t *low, size_t low_len,
                        int64_t *high, size_t high_len,
                        uint32_t *proposal,
                        uint64_t places[2]);

/* A file written anew for offices on the old edition, which can read only what document 01 describes (document 02, Paper 14).
 *
 * The answer is 0 where every line of the file is accepted, its end among them, all tolerances are 0 and the new file fits: then the first *written bytes of out are
 * the new file (problem, scale, rows, right sides, guesses, inverse rows and all n weights, each kind by rising i, then end, each line with its line feed), and the
 * others are as before. No new file has more than 21,300 bytes. The desk of document 01 accepts every line of it; a file whose check is refused with 5, 6 or 7 is
 * converted too. The new file has the same listing as the file, and is its own new file. Else the answer is the number of the refusal, and out and *written are as
 * before:
 *
 *   1 to 4, 11, 12, 14   of the first line that is refused     places: 0, 0
 *   13                   forms are missing at the end                  how many, 0
 *   15                   the file stops before an end                  0, 0
 *   22                   a tolerance is above 0, or out is shorter
 *                        than the new file                             0, 0
 */
uint32_t kodarfi_convert(const uint8_t *file, size_t file_len,
                         uint8_t *out, size_t out_len,
                         size_t *written,
                         uint64_t places[2]);

/* The same, and *line is the number of the first line of the file that is refused, from 1, 0 where none is: so with 0, 15 and 22. Everything else is as
 * kodarfi_convert has it. */
uint32_t kodarfi_convert_line(const uint8_t *file, size_t file_len,
                              uint8_t *out, size_t out_len,
                              size_t *written,
                              uint64_t places[2],
                              uint64_t *line);

/* How far the limits of a proposal can lie above true errors: the factor.
 *
 * n, t and the lists are as in kodarfi_check, and none is written. Of row m let load be the sum over j of |D_mj| * weights[j], for D = 2^t * I less inverse
 * times matrix, and margin 2^t * weights[m] less the load, which must be above 0.
 *
 * The answer is 0 where every margin is: then *numerator / *denominator is the largest of (2^t * weights[m] + load) / margin over all rows, and the two are
 * those of the lowest row where it is largest, below 2^31 and not reduced. They are a factor of every check of the same n, t, matrix, inverse and weights,
 * whatever its scale, right side, tolerances and guess, and no smaller one is; of every accepted check there is one. Where a check is accepted, there are heights,
 * exact for a right side within the tolerances, and among them one such that each limit is at most the factor times that height's true error, times the
 * ratio of the two weights, rounded up. Else the answer is the number of the first refusal in this order, and *numerator and *denominator are as before:
 *
 *   8   a list is too short                                 places: 0, 0
 *   3   n, t or a number that is used is outside its range          0, 0
 *   5   a margin is 0 or less                                       row, 0
 */
uint32_t kodarfi_quality(uint32_t n, uint32_t t,
                         const int64_t *matrix, size_t matrix_len,
                         const int64_t *inverse, size_t inverse_len,
                         const int64_t *weights, size_t weights_len,
                         uint64_t *numerator, uint64_t *denominator,
                         uint64_t places[2]);

/* The loader (document 01's desk): a file's lines one at a time, as they come.
 *
 * A loader is nine numbers that the caller keeps from call to call, beside the six lists that the lines' numbers go into; they can be copied and sent.
 * kodarfi_loader_new makes them a loader that was given nothing, whatever they were: nine times 0. They are how far the loader has come (0: nothing given,
 * 1: problem, 2: scale, 3: an accepted end), then n, s and t, each 0 until it is given, and then the rows, right sides, guesses, inverse rows and weights that
 * were given, the number i at bit i - 1.
 *
 * Any nine numbers are a loader: a first number above 3 is read as 0, and every other is read as it stands. Only one that these calls have made since
 * kodarfi_loader_new has been given what it says. kodarfi_loader_new refuses nothing, and so it gives no number. */
void kodarfi_loader_new(uint32_t loader[9]);

/* A loader takes one line, without its line feed.
 *
 * matrix and inverse have at least 1,024 numbers and the other lists at least 32; where a program takes a file's lines, the lists are the same from line to line.
 *
 * The answer is 0 where the line is accepted. A problem then puts n into the loader and a scale s and t, with no list touched; any other form but an end puts its
 * numbers at their own places in its list, as kodarfi_check has them, and the loader counts it as given. A right side without tolerance puts 0 into tolerance. An
 * end puts 1 into each of the first n weights that was not given. No other number of the lists is changed. Else the answer is the number of the first refusal
 * in this order, and the loader and all six lists are as before, whatever the loader was; a refused line is as if it had not been handed over:
 *
 *   8    a list is too short                                             places: 0, 0
 *   14   an end was accepted before                                              0, 0
 *   1    the line has more than 320 bytes                                        0, 0
 *   2    it is none of the forms, spelled exactly                                0, 0
 *   11   it comes before problem, or before scale                                0, 0
 *   3    its i is not 1 to n; or the loader's own n is not 1 to 32               0, 0
 *   12   its form was given before: problem, scale, or this kind and i           0, 0
 *   3    another number of it is outside its range                               0, 0
 *   4    a row or an inverse row has other than n numbers                        0, 0
 *   13   it is an end, and forms are missing                                     how many, 0
 */
uint32_t kodarfi_loader_take(uint32_t loader[9],
                             const uint8_t *line, size_t line_len,
                             int64_t *matrix, size_t matrix_len,
                             int64_t *right, size_t right_len,
                             int64_t *tolerance, size_t tolerance_len,
                             int64_t *guess, size_t guess_len,
                             int64_t *inverse, size_t inverse_len,
                             int64_t *weights, size_t weights_len,
                             uint64_t places[2]);

/* The check of what a loader was given, on the lists as they are now.
 *
 * The answer, the places and both lists of limits are those of kodarfi_check with the loader's n, s and t, and with one more refusal, right after 8:
 *
 *   15   no end was accepted     places: 0, 0
 *
 * Where the lines were taken by this loader since kodarfi_loader_new, with these lists and no other hand on either, and the lists of limits are long enough, the
 * answer after an accepted end and its places are those of kodarfi_listing for a file of the accepted lines: 0, 5, 6 or 7. */
uint32_t kodarfi_loader_check(const uint32_t loader[9],
                              const int64_t *matrix, size_t matrix_len,
                              const int64_t *right, size_t right_len,
                              const int64_t *tolerance, size_t tolerance_len,
                              const int64_t *guess, size_t guess_len,
                              const int64_t *inverse, size_t inverse_len,
                              const int64_t *weights, size_t weights_len,
                              uint64_t *solution_bounds, size_t solution_bounds_len,
                              uint64_t *inverse_bounds, size_t inverse_bounds_len,
                              uint64_t places[2]);

#ifdef __cplusplus
}
#endif

#endif
