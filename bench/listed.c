#include "listed.h"

#include <inttypes.h>
#include <stdlib.h>
#include <string.h>

/* The buffer before a call: no two neighbours are alike. */
static void fill(uint8_t *listing) {
    for (size_t i = 0; i < LISTING; i++) listing[i] = (uint8_t)(i * 151 + 89);
}

bool read_listed(FILE *files, uint8_t *file, size_t *file_len, struct listed *expected) {
    if (fscanf(files, "%zu %" SCNu32 " %" SCNu64 " %" SCNu64 " %zu", file_len, &expected->number, &expected->places[0], &expected->places[1],
               &expected->length) != 5)
        return false;
    fill(expected->listing);
    if (fgetc(files) != '\n' || *file_len > LONGEST_FILE || fread(file, 1, *file_len, files) != *file_len || expected->length > LISTING ||
        fread(expected->listing, 1, expected->length, files) != expected->length) {
        fprintf(stderr, "a file stops in its middle\n");
        exit(2);
    }
    return true;
}

void run_listing(listing_of *listing, const uint8_t *file, size_t file_len, struct listed *outcome) {
    fill(outcome->listing);
    outcome->places[0] = outcome->places[1] = UINT64_MAX;
    outcome->length = SIZE_MAX;
    outcome->number = listing(file, file_len, outcome->listing, &outcome->length, outcome->places);
}

bool same_listed(const struct listed *a, const struct listed *b) {
    return a->number == b->number && a->places[0] == b->places[0] && a->places[1] == b->places[1] && a->length == b->length &&
           memcmp(a->listing, b->listing, LISTING) == 0;
}
