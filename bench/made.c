/* Random samples, the same in every run: field lines for builds, and problems for searches. */
#include "calls.h"

#include <string.h>

enum { SIZES = 3, LISTS = EACH, LINES = 256, PROBLEMS = 20, STEPS = 20, NONE_GOOD = 18 };

static struct kodarfi_observation lists[SIZES][LISTS][LINES];
static int64_t matrices[PROBLEMS][MATRIX], inverses[PROBLEMS][MATRIX];

/* 0 to below - 1. */
static uint32_t by_chance(uint32_t below) {
    static uint64_t state = 1;
    state = state * UINT64_C(6364136223846793005) + UINT64_C(1442695040888963407);
    return (uint32_t)(state >> 33) % below;
}

/* Lines between marks 0 to n, with keys of their own. */
static void make_list(struct kodarfi_observation *lines, uint32_t n) {
    for (uint32_t i = 0; i < LINES; i++) {
        const uint32_t from = by_chance(n + 1), to = (from + 1 + by_chance(n)) % (n + 1);
        lines[i] = (struct kodarfi_observation){256 * by_chance(255) + i + 1, from, to, (int64_t)by_chance(131073) - 65536, 1 + by_chance(64)};
    }
}

void make_lists(void) {
    for (uint32_t n = 8; n <= 32; n *= 2) {
        for (uint32_t k = 0; k < LISTS; k++) make_list(lists[n / 16][k], n);
    }
}

uint32_t native_build(uint32_t n, const struct kodarfi_observation *lines, size_t count, int64_t *matrix, size_t matrix_len, int64_t *right, size_t right_len) {
    int64_t sums[COLUMN + 1][COLUMN + 1] = {{0}}, gains[COLUMN + 1] = {0};
    uint8_t seen[65536] = {0};
    if (matrix_len < MATRIX || right_len < COLUMN) return 8;
    for (size_t i = 0; i < count; i++) {
        const struct kodarfi_observation l = lines[i];
        const int64_t weight = l.weight, product = weight * l.difference;
        if (seen[l.key]++) return 17;
        sums[l.from][l.from] += weight;
        sums[l.to][l.to] += weight;
        sums[l.from][l.to] -= weight;
        sums[l.to][l.from] -= weight;
        gains[l.to] += product;
        gains[l.from] -= product;
    }
    for (uint32_t i = 0; i < n; i++) memcpy(matrix + i * n, &sums[i + 1][1], n * sizeof *matrix);
    memcpy(right, gains + 1, n * sizeof *right);
    return 0;
}

static void run_builds(const struct version *version, uint32_t n) {
    static int64_t matrix[MATRIX], right[COLUMN];
    for (uint32_t k = 0; k < LISTS; k++) version->build(n, lists[n / 16][k], 8 * n, matrix, MATRIX, right, COLUMN);
}

/* What a build of a list leaves. */
struct built {
    uint32_t number;
    int64_t matrix[MATRIX], right[COLUMN];
};

static void run_build(build_of *build, uint32_t n, uint32_t k, struct built *out) {
    memset(out, 1, sizeof *out);
    out->number = build(n, lists[n / 16][k], 8 * n, out->matrix, MATRIX, out->right, COLUMN);
}

static bool builds_agree(const struct version *version) {
    static struct built expected, answer;
    bool right = true;
    for (uint32_t n = 8; n <= 32; n *= 2) {
        for (uint32_t k = 0; k < LISTS; k++) {
            run_build(native_build, n, k, &expected);
            run_build(version->build, n, k, &answer);
            right = right && expected.number == 0 && memcmp(&answer, &expected, sizeof answer) == 0;
        }
    }
    return right;
}

struct version builds(const char *name, build_of *build) {
    return (struct version){name, run_builds, builds_agree, .build = build};
}

void make_problems(void) {
    for (uint32_t k = 0; k < PROBLEMS; k++) {
        for (uint32_t i = 0; i < MATRIX; i++) {
            matrices[k][i] = (int64_t)by_chance(2097153) - 1048576;
            inverses[k][i] = (int64_t)by_chance(2097153) - 1048576;
        }
    }
}

static uint32_t run_search(const struct version *version, uint32_t n, uint32_t k, int64_t *weights, uint32_t *tried) {
    uint64_t places[2];
    return version->search(n, STEPS, matrices[k], MATRIX, inverses[k], MATRIX, version->allowance, weights, COLUMN, tried, places);
}

static void run_searches(const struct version *version, uint32_t n) {
    static int64_t weights[COLUMN];
    uint32_t tried;
    for (uint32_t k = 0; k < PROBLEMS; k++) run_search(version, n, k, weights, &tried);
}

/* Of no problem is a list good: the weights and the count stay. */
static bool searches_agree(const struct version *version) {
    bool right = true;
    for (uint32_t n = 8; n <= 32; n *= 2) {
        for (uint32_t k = 0; k < PROBLEMS; k++) {
            int64_t weights[COLUMN] = {7};
            uint32_t tried = 9;
            right = right && run_search(version, n, k, weights, &tried) == NONE_GOOD && weights[0] == 7 && tried == 9;
        }
    }
    return right;
}

struct version searches(const char *name, search_of *search, uint32_t allowance) {
    return (struct version){name, run_searches, searches_agree, .search = search, .allowance = allowance};
}
