/* Files with their listings, as tests/emit.py listing writes them. */
#ifndef LISTED_H
#define LISTED_H

#include "kodarfi.h"

#include <stdbool.h>
#include <stdio.h>

enum { LISTING = 32768, LONGEST_FILE = 1 << 18 };

/* The shape of kodarfi_listing. */
typedef uint32_t listing_of(const uint8_t *file, size_t file_len, uint8_t listing[LISTING], size_t *length, uint64_t places[2]);

/* What a call for a listing leaves: the whole buffer, the listing first. */
struct listed {
    uint32_t number;
    uint64_t places[2];
    size_t length;
    uint8_t listing[LISTING];
};

/* Reads a file of at most LONGEST_FILE bytes and the outcome that stands after it; false at the end. */
bool read_listed(FILE *files, uint8_t *file, size_t *file_len, struct listed *expected);

/* The outcome of a call; the buffer, the length and the places hold other numbers before. */
void run_listing(listing_of *listing, const uint8_t *file, size_t file_len, struct listed *outcome);

bool same_listed(const struct listed *a, const struct listed *b);

#endif
