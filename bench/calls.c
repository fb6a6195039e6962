#include "calls.h"

#include <stdlib.h>
#include <string.h>

bool read_nets(struct nets *nets, const char *path) {
    FILE *const file = fopen(path, "r");
    if (!file) return false;
    while (nets->count < MOST_NETS && read_net(file, &nets->nets[nets->count], &nets->expected[nets->count])) nets->count++;
    fclose(file);
    return nets->count == MOST_NETS;
}

static void run_checks(const struct version *version, uint32_t n) {
    static struct outcome out;
    for (uint32_t k = 0; k < version->nets->count; k++) {
        const struct net *x = &version->nets->nets[k];
        if (x->n != n) continue;
        version->check(n, x->s, x->t, x->matrix, MATRIX, x->right, COLUMN, x->tolerance, COLUMN, x->guess, COLUMN, x->inverse, MATRIX, x->weights, COLUMN,
                       out.solution, COLUMN, out.inverse, MATRIX, out.places);
    }
}

static bool checks_agree(const struct version *version) {
    static struct outcome out;
    bool right = true;
    for (uint32_t k = 0; k < version->nets->count; k++) {
        run_check(version->check, &version->nets->nets[k], &out);
        right = right && same_outcome(&out, &version->nets->expected[k]);
    }
    return right;
}

struct version checks(const char *name, check_on_lists *check, const struct nets *nets) {
    return (struct version){name, run_checks, checks_agree, .nets = nets, .check = check};
}

/* A file and its listing. */
struct sample {
    unsigned n;
    size_t len;
    uint8_t *bytes;
    struct listed expected;
};

static struct sample samples[MOST_NETS];

bool read_files(const char *path) {
    static uint8_t bytes[LONGEST_FILE];
    uint32_t count = 0;
    FILE *const files = fopen(path, "rb");
    if (!files) return false;
    for (; count < MOST_NETS; count++) {
        struct sample *const x = &samples[count];
        if (!read_listed(files, bytes, &x->len, &x->expected) || sscanf((const char *)bytes, "(problem %u)", &x->n) != 1) break;
        x->bytes = malloc(x->len);
        if (!x->bytes) break;
        memcpy(x->bytes, bytes, x->len);
    }
    fclose(files);
    return count == MOST_NETS;
}

static void run_listings(const struct version *version, uint32_t n) {
    static uint8_t listing[LISTING];
    size_t length;
    uint64_t places[2];
    for (uint32_t k = 0; k < MOST_NETS; k++) {
        if (samples[k].n == n) version->listing(samples[k].bytes, samples[k].len, listing, &length, places);
    }
}

static bool listings_agree(const struct version *version) {
    static struct listed answer;
    bool right = true;
    for (uint32_t k = 0; k < MOST_NETS; k++) {
        run_listing(version->listing, samples[k].bytes, samples[k].len, &answer);
        right = right && same_listed(&answer, &samples[k].expected);
    }
    return right;
}

struct version listings(const char *name, listing_of *listing) {
    return (struct version){name, run_listings, listings_agree, .listing = listing};
}
