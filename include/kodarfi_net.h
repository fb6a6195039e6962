/* The calls of kodarfi.h on whole nets, for C and C++.
 *
 * A net is one struct with lists of full length, and so are limits, couplings and ends: no list can be taken for another, none is too short (8 never
 * occurs), and a refusal is one struct. Every call is inline and does no more than to hand the lists on; it takes no other memory. What is promised of
 * kodarfi.h's calls is proved; these lines are not, and are tested against those calls. No pointer is null, but for one with a length of 0 after it.
 *
 * Each call writes *refusal in any case and gives its number, 0 where nothing is refused. What a refused call would have written is as before. */
#ifndef KODARFI_NET_H
#define KODARFI_NET_H

#include "kodarfi.h"
#include "kodarfi_text.h"

#include <inttypes.h>
#include <stdio.h>
#include <string.h>

/* A net and a proposal for it. matrix and inverse hold n rows of n numbers, row after row without gaps: row i and column j, both from 0, at i * n + j. */
struct kodarfi_net {
    uint32_t n, s, t;
    int64_t matrix[KODARFI_MATRIX_LENGTH];
    int64_t right[KODARFI_COLUMN_LENGTH];
    int64_t tolerance[KODARFI_COLUMN_LENGTH];
    int64_t guess[KODARFI_COLUMN_LENGTH];
    int64_t inverse[KODARFI_MATRIX_LENGTH];
    int64_t weights[KODARFI_COLUMN_LENGTH];
};

/* The same with a symmetric matrix by its lower half: row i and column j, both from 0 and j up to i, at i * (i + 1) / 2 + j. */
struct kodarfi_half_net {
    uint32_t n, s, t;
    int64_t half[KODARFI_HALF_LENGTH];
    int64_t right[KODARFI_COLUMN_LENGTH];
    int64_t tolerance[KODARFI_COLUMN_LENGTH];
    int64_t guess[KODARFI_COLUMN_LENGTH];
    int64_t inverse[KODARFI_MATRIX_LENGTH];
    int64_t weights[KODARFI_COLUMN_LENGTH];
};

/* The limits of a net: of the guess in solution steps, and of the inverse, row after row, in inverse steps. */
struct kodarfi_bounds {
    uint64_t solution[KODARFI_COLUMN_LENGTH];
    uint64_t inverse[KODARFI_MATRIX_LENGTH];
};

/* How a dependent net takes over the main net's heights: a row for each of its marks, a number in it for each of the main net's, without gaps. */
struct kodarfi_coupling {
    int64_t numbers[KODARFI_MATRIX_LENGTH];
};

/* The common intervals of two proposals, in steps of 2^s to a unit. */
struct kodarfi_common_intervals {
    uint32_t s;
    int64_t low[KODARFI_COLUMN_LENGTH], high[KODARFI_COLUMN_LENGTH];
};

/* A solver's heights as doubles, in units. */
struct kodarfi_heights {
    double heights[KODARFI_COLUMN_LENGTH];
};

/* Doubles between which the heights lie, in units. */
struct kodarfi_ends {
    double low[KODARFI_COLUMN_LENGTH], high[KODARFI_COLUMN_LENGTH];
};

/* How far limits can lie above true errors: numerator / denominator, at least 1. */
struct kodarfi_factor {
    uint64_t numerator, denominator;
};

/* A listing, and a file for the old edition: the first `length` bytes. */
struct kodarfi_listing_bytes {
    size_t length;
    uint8_t bytes[KODARFI_LISTING_LENGTH];
};

struct kodarfi_converted_bytes {
    size_t length;
    uint8_t bytes[KODARFI_CONVERTED_LENGTH];
};

/* What is refused, and where. */
struct kodarfi_refusal {
    uint32_t number;    /* the papers' number, 0 where nothing is refused */
    uint32_t net;       /* of two nets or two proposals, the one that it is of, 1 or 2; 0 where there is one, or where it is of neither */
    uint64_t line;      /* the line of a file or of a list of field lines, from 1; 0 where none is named */
    uint64_t places[2]; /* a row; column and row; a count; 0 where none is named */
};

/* The lists of one type in their order, each with its length. */
#define KODARFI_COLUMN_(list) (list), KODARFI_COLUMN_LENGTH
#define KODARFI_MATRIX_(list) (list), KODARFI_MATRIX_LENGTH
#define KODARFI_PROPOSAL_(net) \
    KODARFI_COLUMN_((net)->right), KODARFI_COLUMN_((net)->tolerance), KODARFI_COLUMN_((net)->guess), KODARFI_MATRIX_((net)->inverse), KODARFI_COLUMN_((net)->weights)
#define KODARFI_BOUNDS_(bounds) KODARFI_COLUMN_((bounds)->solution), KODARFI_MATRIX_((bounds)->inverse)

/* A net with these sizes, every number 0 but the weights, which are 1. */
static inline void kodarfi_net_clear(struct kodarfi_net *net, uint32_t n, uint32_t s, uint32_t t) {
    memset(net, 0, sizeof *net);
    net->n = n;
    net->s = s;
    net->t = t;
    for (size_t i = 0; i < KODARFI_COLUMN_LENGTH; i++) net->weights[i] = 1;
}

static inline void kodarfi_half_net_clear(struct kodarfi_half_net *net, uint32_t n, uint32_t s, uint32_t t) {
    memset(net, 0, sizeof *net);
    net->n = n;
    net->s = s;
    net->t = t;
    for (size_t i = 0; i < KODARFI_COLUMN_LENGTH; i++) net->weights[i] = 1;
}

/* The net with the whole matrix, for the calls that have no form for the half. Where n is outside its range the matrix is 0, and every call is refused with 3. */
static inline void kodarfi_half_net_fill_out(const struct kodarfi_half_net *half, struct kodarfi_net *net) {
    kodarfi_net_clear(net, half->n, half->s, half->t);
    memcpy(net->right, half->right, sizeof net->right);
    memcpy(net->tolerance, half->tolerance, sizeof net->tolerance);
    memcpy(net->guess, half->guess, sizeof net->guess);
    memcpy(net->inverse, half->inverse, sizeof net->inverse);
    memcpy(net->weights, half->weights, sizeof net->weights);
    if (half->n > KODARFI_N_MAX) return;
    for (size_t i = 0; i < half->n; i++) {
        for (size_t j = 0; j <= i; j++) net->matrix[i * half->n + j] = net->matrix[j * half->n + i] = half->half[i * (i + 1) / 2 + j];
    }
}

/* Fills in a refusal without places, of no net and no line; each call then writes what it names. */
static inline void kodarfi_refusal_clear(struct kodarfi_refusal *refusal) {
    memset(refusal, 0, sizeof *refusal);
}

/* The check of a net: kodarfi_check. */
static inline uint32_t kodarfi_net_check(const struct kodarfi_net *net, struct kodarfi_bounds *bounds, struct kodarfi_refusal *refusal) {
    kodarfi_refusal_clear(refusal);
    return refusal->number = kodarfi_check(net->n, net->s, net->t, KODARFI_MATRIX_(net->matrix), KODARFI_PROPOSAL_(net), KODARFI_BOUNDS_(bounds), refusal->places);
}

/* By halves: kodarfi_check_half. */
static inline uint32_t kodarfi_half_net_check(const struct kodarfi_half_net *net, struct kodarfi_bounds *bounds, struct kodarfi_refusal *refusal) {
    kodarfi_refusal_clear(refusal);
    return refusal->number = kodarfi_check_half(net->n, net->s, net->t, net->half, KODARFI_HALF_LENGTH, KODARFI_PROPOSAL_(net), KODARFI_BOUNDS_(bounds), refusal->places);
}

/* Two nets, the second hung from the first: kodarfi_check_dependent. */
static inline uint32_t kodarfi_net_check_dependent(const struct kodarfi_net *main_net, const struct kodarfi_net *dependent, const struct kodarfi_coupling *coupling,
                                                   struct kodarfi_bounds *main_bounds, struct kodarfi_bounds *dependent_bounds, struct kodarfi_refusal *refusal) {
    kodarfi_refusal_clear(refusal);
    return refusal->number = kodarfi_check_dependent(main_net->n, main_net->s, main_net->t, KODARFI_MATRIX_(main_net->matrix), KODARFI_PROPOSAL_(main_net),
                                                     KODARFI_BOUNDS_(main_bounds), dependent->n, dependent->s, dependent->t, KODARFI_MATRIX_(dependent->matrix),
                                                     KODARFI_MATRIX_(coupling->numbers), KODARFI_PROPOSAL_(dependent), KODARFI_BOUNDS_(dependent_bounds),
                                                     &refusal->net, refusal->places);
}

/* Two proposals for the same equations: kodarfi_common. intervals->s is the larger of both s. */
static inline uint32_t kodarfi_net_common(const struct kodarfi_net *first, const struct kodarfi_net *second, struct kodarfi_common_intervals *intervals,
                                          struct kodarfi_refusal *refusal) {
    kodarfi_refusal_clear(refusal);
    refusal->number = kodarfi_common(first->n, first->s, first->t, KODARFI_MATRIX_(first->matrix), KODARFI_PROPOSAL_(first), second->n, second->s, second->t,
                                     KODARFI_MATRIX_(second->matrix), KODARFI_PROPOSAL_(second), KODARFI_COLUMN_(intervals->low),
                                     KODARFI_COLUMN_(intervals->high), &refusal->net, refusal->places);
    if (refusal->number == KODARFI_ACCEPTED) intervals->s = first->s > second->s ? first->s : second->s;
    return refusal->number;
}

/* Equations from the field lines, for the net's n: kodarfi_build_line. Writes matrix and right; where a line is refused, refusal->line is its number. */
static inline uint32_t kodarfi_net_build(struct kodarfi_net *net, const struct kodarfi_observation *lines, size_t count, struct kodarfi_refusal *refusal) {
    kodarfi_refusal_clear(refusal);
    return refusal->number = kodarfi_build_line(net->n, lines, count, KODARFI_MATRIX_(net->matrix), KODARFI_COLUMN_(net->right), &refusal->line);
}

/* By halves: kodarfi_build_half_line. Writes half and right. */
static inline uint32_t kodarfi_half_net_build(struct kodarfi_half_net *net, const struct kodarfi_observation *lines, size_t count, struct kodarfi_refusal *refusal) {
    kodarfi_refusal_clear(refusal);
    return refusal->number = kodarfi_build_half_line(net->n, lines, count, net->half, KODARFI_HALF_LENGTH, KODARFI_COLUMN_(net->right), &refusal->line);
}

/* Weights for the net's matrix and inverse: kodarfi_find_weights. Writes weights and *tried. */
static inline uint32_t kodarfi_net_find_weights(struct kodarfi_net *net, uint32_t allowance, uint32_t *tried, struct kodarfi_refusal *refusal) {
    kodarfi_refusal_clear(refusal);
    return refusal->number = kodarfi_find_weights(net->n, net->t, KODARFI_MATRIX_(net->matrix), KODARFI_MATRIX_(net->inverse), allowance, KODARFI_COLUMN_(net->weights),
                                                  tried, refusal->places);
}

/* The factor of the limits that the net's matrix, inverse and weights give, whatever the rest: kodarfi_quality. */
static inline uint32_t kodarfi_net_quality(const struct kodarfi_net *net, struct kodarfi_factor *factor, struct kodarfi_refusal *refusal) {
    kodarfi_refusal_clear(refusal);
    return refusal->number = kodarfi_quality(net->n, net->t, KODARFI_MATRIX_(net->matrix), KODARFI_MATRIX_(net->inverse), KODARFI_COLUMN_(net->weights),
                                             &factor->numerator, &factor->denominator, refusal->places);
}

/* A solver's heights as guesses, for the net's n and s: kodarfi_guesses. Writes guess. */
static inline uint32_t kodarfi_net_guesses(struct kodarfi_net *net, const struct kodarfi_heights *heights, struct kodarfi_refusal *refusal) {
    kodarfi_refusal_clear(refusal);
    return refusal->number = kodarfi_guesses(net->n, net->s, KODARFI_COLUMN_(heights->heights), KODARFI_COLUMN_(net->guess), refusal->places);
}

static inline uint32_t kodarfi_half_net_guesses(struct kodarfi_half_net *net, const struct kodarfi_heights *heights, struct kodarfi_refusal *refusal) {
    kodarfi_refusal_clear(refusal);
    return refusal->number = kodarfi_guesses(net->n, net->s, KODARFI_COLUMN_(heights->heights), KODARFI_COLUMN_(net->guess), refusal->places);
}

/* The net's heights as doubles, low and high, by its limits: kodarfi_intervals. */
static inline uint32_t kodarfi_net_intervals(const struct kodarfi_net *net, const struct kodarfi_bounds *bounds, struct kodarfi_ends *ends,
                                             struct kodarfi_refusal *refusal) {
    kodarfi_refusal_clear(refusal);
    return refusal->number = kodarfi_intervals(net->n, net->s, KODARFI_COLUMN_(net->guess), KODARFI_COLUMN_(bounds->solution), KODARFI_COLUMN_(ends->low),
                                               KODARFI_COLUMN_(ends->high), refusal->places);
}

static inline uint32_t kodarfi_half_net_intervals(const struct kodarfi_half_net *net, const struct kodarfi_bounds *bounds, struct kodarfi_ends *ends,
                                                  struct kodarfi_refusal *refusal) {
    kodarfi_refusal_clear(refusal);
    return refusal->number = kodarfi_intervals(net->n, net->s, KODARFI_COLUMN_(net->guess), KODARFI_COLUMN_(bounds->solution), KODARFI_COLUMN_(ends->low),
                                               KODARFI_COLUMN_(ends->high), refusal->places);
}

/* The listing of a file: kodarfi_listing. It is written whatever the answer is; where a line is refused, refusal->line is its number, but for an end that is
 * refused with 13, whose line a listing does not name. */
static inline uint32_t kodarfi_file_listing(const uint8_t *file, size_t file_len, struct kodarfi_listing_bytes *listing, struct kodarfi_refusal *refusal) {
    kodarfi_refusal_clear(refusal);
    refusal->number = kodarfi_listing(file, file_len, listing->bytes, &listing->length, refusal->places);
    switch (refusal->number) {
    case KODARFI_TOO_LONG:
    case KODARFI_NO_FORM:
    case KODARFI_OUT_OF_RANGE:
    case KODARFI_WRONG_COUNT:
    case KODARFI_TOO_EARLY:
    case KODARFI_REPEATED:
    case KODARFI_AFTER_END:
        refusal->line = refusal->places[0];
        refusal->places[0] = 0;
    }
    return refusal->number;
}

/* A file for the old edition: kodarfi_convert_line. Where a line is refused, with 13 too, refusal->line is its number. */
static inline uint32_t kodarfi_file_convert(const uint8_t *file, size_t file_len, struct kodarfi_converted_bytes *converted, struct kodarfi_refusal *refusal) {
    kodarfi_refusal_clear(refusal);
    return refusal->number = kodarfi_convert_line(file, file_len, converted->bytes, KODARFI_CONVERTED_LENGTH, &converted->length, refusal->places, &refusal->line);
}

/* Writes what stands after `so far` bytes of a text, as snprintf does, and gives how many bytes the text then has. */
#define KODARFI_WRITE_(so_far, text, text_len, ...) \
    ((so_far) + (size_t)snprintf((so_far) < (text_len) ? (text) + (so_far) : NULL, (so_far) < (text_len) ? (text_len) - (so_far) : 0, __VA_ARGS__))

/* A refusal in the plain words of docs/refusals.tsv: three lines, what and where, what was expected, what whoever wrote it may do; of 0, what may be concluded.
 *
 * Writes at most text_len bytes, the last of them 0, as snprintf does, and gives how many bytes the whole text has without the 0; 2,048 bytes are enough.
 * Text of the table alone: kodarfi_words_of(number). */
static inline size_t kodarfi_text(const struct kodarfi_refusal *refusal, char *text, size_t text_len) {
    const struct kodarfi_words *const words = kodarfi_words_of(refusal->number);
    const uint64_t *const places = refusal->places;
    size_t length = 0;
    if (refusal->number == KODARFI_ACCEPTED) {
        length = KODARFI_WRITE_(length, text, text_len, "%s\n  concluded: %s\n", words->what, words->expected);
        return KODARFI_WRITE_(length, text, text_len, "  to do: %s\n", words->to_do);
    }
    length = KODARFI_WRITE_(length, text, text_len, "refused with %" PRIu32, refusal->number);
    if (refusal->net) length = KODARFI_WRITE_(length, text, text_len, ", the %s of the two", refusal->net == 1 ? "first" : "second");
    if (refusal->line) length = KODARFI_WRITE_(length, text, text_len, ", line %" PRIu64, refusal->line);
    if (refusal->number == KODARFI_MARGIN || refusal->number == KODARFI_RESIDUAL) length = KODARFI_WRITE_(length, text, text_len, ", row %" PRIu64, places[0]);
    if (refusal->number == KODARFI_INVERSE_RESIDUAL) length = KODARFI_WRITE_(length, text, text_len, ", column %" PRIu64 ", row %" PRIu64, places[0], places[1]);
    if (refusal->number == KODARFI_MISSING) length = KODARFI_WRITE_(length, text, text_len, ", %" PRIu64 " missing", places[0]);
    if (!words) return KODARFI_WRITE_(length, text, text_len, "\n");
    return KODARFI_WRITE_(length, text, text_len, ": %s\n  expected: %s\n  for whoever wrote it: %s\n", words->what, words->expected, words->to_do);
}

#undef KODARFI_COLUMN_
#undef KODARFI_MATRIX_
#undef KODARFI_PROPOSAL_
#undef KODARFI_BOUNDS_
#undef KODARFI_WRITE_

#endif
