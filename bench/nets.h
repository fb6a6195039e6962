/* Calls of the check on lists as tests/emit.py check writes them. */
#ifndef NETS_H
#define NETS_H

#include "native.h"

#include <stdbool.h>
#include <stdio.h>

enum { MATRIX = 1024, COLUMN = 32 };

/* What a call on lists is handed, the lengths included. */
struct net {
    uint32_t n, s, t;
    int64_t matrix[MATRIX], right[COLUMN], tolerance[COLUMN], guess[COLUMN], inverse[MATRIX], weights[COLUMN];
    size_t matrix_len, right_len, tolerance_len, guess_len, inverse_len, weights_len, solution_len, bounds_len;
};

/* What a call on lists leaves. */
struct outcome {
    uint32_t number;
    uint64_t places[2];
    uint64_t solution[COLUMN], inverse[MATRIX];
};

/* A number in the lists past those in use, and in the lists of limits before a call. */
#define UNREAD INT64_MIN
#define UNWRITTEN UINT64_C(0xdeadbeefdeadbeef)

/* Reads a call and the outcome that stands after it; false at the end of the file. */
bool read_net(FILE *file, struct net *net, struct outcome *expected);

/* The outcome of a check on cleared limits; the places hold other numbers before. */
void run_check(check_on_lists *check, const struct net *net, struct outcome *outcome);

bool same_outcome(const struct outcome *a, const struct outcome *b);

#endif
