#include "nets.h"

#include <inttypes.h>
#include <stdlib.h>
#include <string.h>

/* Places of 0 and limits that are all UNWRITTEN. */
static void clear_outcome(struct outcome *outcome) {
    outcome->number = 0;
    outcome->places[0] = outcome->places[1] = 0;
    for (uint32_t i = 0; i < COLUMN; i++) outcome->solution[i] = UNWRITTEN;
    for (uint32_t i = 0; i < MATRIX; i++) outcome->inverse[i] = UNWRITTEN;
}

static int64_t next_number(FILE *file) {
    int64_t number;
    if (fscanf(file, "%" SCNd64, &number) != 1) {
        fprintf(stderr, "a system stops in its middle\n");
        exit(2);
    }
    return number;
}

/* A list that begins with so many numbers and goes on with UNREAD. */
static void read_numbers(FILE *file, int64_t *numbers, uint32_t count, uint32_t length) {
    for (uint32_t i = 0; i < length; i++) numbers[i] = i < count ? next_number(file) : UNREAD;
}

static void read_bounds(FILE *file, uint64_t *limits, uint32_t count) {
    for (uint32_t i = 0; i < count; i++) limits[i] = (uint64_t)next_number(file);
}

bool read_net(FILE *file, struct net *net, struct outcome *expected) {
    uint32_t count;
    if (fscanf(file, "%" SCNu32, &count) != 1) return false;
    uint32_t *const sizes[] = {&net->n, &net->s, &net->t};
    size_t *const lengths[] = {&net->matrix_len, &net->right_len, &net->tolerance_len, &net->guess_len, &net->inverse_len, &net->weights_len, &net->solution_len, &net->bounds_len};
    for (uint32_t i = 0; i < 3; i++) *sizes[i] = (uint32_t)next_number(file);
    for (uint32_t i = 0; i < 8; i++) *lengths[i] = (size_t)next_number(file);
    read_numbers(file, net->matrix, count * count, MATRIX);
    read_numbers(file, net->right, count, COLUMN);
    read_numbers(file, net->tolerance, count, COLUMN);
    read_numbers(file, net->guess, count, COLUMN);
    read_numbers(file, net->inverse, count * count, MATRIX);
    read_numbers(file, net->weights, count, COLUMN);
    clear_outcome(expected);
    expected->number = (uint32_t)next_number(file);
    expected->places[0] = (uint64_t)next_number(file);
    expected->places[1] = (uint64_t)next_number(file);
    if (expected->number == 0) {
        read_bounds(file, expected->solution, net->n);
        read_bounds(file, expected->inverse, net->n * net->n);
    }
    return true;
}

void run_check(check_on_lists *check, const struct net *net, struct outcome *outcome) {
    clear_outcome(outcome);
    outcome->places[0] = outcome->places[1] = UINT64_MAX;
    outcome->number = check(net->n, net->s, net->t, net->matrix, net->matrix_len, net->right, net->right_len, net->tolerance, net->tolerance_len,
                            net->guess, net->guess_len, net->inverse, net->inverse_len, net->weights, net->weights_len, outcome->solution,
                            net->solution_len, outcome->inverse, net->bounds_len, outcome->places);
}

bool same_outcome(const struct outcome *a, const struct outcome *b) {
    return a->number == b->number && memcmp(a->places, b->places, sizeof a->places) == 0 &&
           memcmp(a->solution, b->solution, sizeof a->solution) == 0 && memcmp(a->inverse, b->inverse, sizeof a->inverse) == 0;
}
