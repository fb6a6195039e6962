/* What the shim's mutants are made of; mutants.py writes the shim. */
#ifndef SHIM_H
#define SHIM_H

#include "kodarfi.h"

#include <stdbool.h>
#include <stdlib.h>
#include <string.h>

/* Whether the environment's MUTANT names this one. */
static inline bool is_mutant(const char *name) {
    const char *const named = getenv("MUTANT");
    return named && strcmp(named, name) == 0;
}

/* Exchanges two arguments, of whatever types. */
#define EXCHANGE(a, b)                      \
    do {                                    \
        const __typeof__(a) exchanged = a;  \
        a = (__typeof__(a))b;               \
        b = (__typeof__(b))exchanged;       \
    } while (0)

/* Keeps bytes before a call, and leaves them so after it. */
static unsigned char kept[512];
#define KEEP(place, bytes) memcpy(kept, (place), (bytes))
#define PUT_BACK(place, bytes) memcpy((place), kept, (bytes))

/* The upper half of a place, which a write of 32 bits leaves. */
#define UPPER(place) ((uint32_t *)(place) + 1)

/* Puts the numbers of a list of 64 bits behind each other as numbers of 32 bits. */
static inline void narrow(uint64_t *list, size_t count) {
    for (size_t k = 0; k < count; k++) ((uint32_t *)list)[k] = (uint32_t)list[k];
}

/* A column read as numbers of 32 bits without sign, and as doubles of 32 bits, which lie in the first half of its bytes. */
static inline const int64_t *without_sign(const int64_t *list) {
    static int64_t read[KODARFI_COLUMN_LENGTH];
    for (size_t k = 0; k < KODARFI_COLUMN_LENGTH; k++) read[k] = (uint32_t)list[k];
    return read;
}

static inline const double *widened(const double *list) {
    static double read[KODARFI_COLUMN_LENGTH];
    for (size_t k = 0; k < KODARFI_COLUMN_LENGTH; k++) read[k] = ((const float *)list)[k];
    return read;
}

/* Field lines read as a struct without padding would lie: 24 bytes each. */
static inline const struct kodarfi_observation *packed(const struct kodarfi_observation *lines, size_t count) {
    static struct kodarfi_observation read[1024];
    for (size_t k = 0; k < count && k < 1024; k++) {
        const char *const line = (const char *)lines + 24 * k;
        memcpy(&read[k], line, 12);
        memcpy(&read[k].difference, line + 12, 8);
        memcpy(&read[k].weight, line + 20, 4);
    }
    return read;
}

#endif
