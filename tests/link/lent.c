#include "replay.h"

#include <string.h>

/* A guard is as long as a column, so that a list written one column past its end stays in it. */
enum { MOST_WORDS = 1 << 18, MOST_LISTS = 64, GUARD = 32 };

static uint64_t held[MOST_WORDS], right[MOST_WORDS];

/* Where the lists begin, and where what is lent ends. */
static size_t lists[MOST_LISTS], count, used;

/* Another number at each place, and no byte that a right answer has at its end. */
static uint64_t sentinel(size_t at) {
    return (UINT64_C(0x9e3779b97f4a7c15) * (at + 1)) | UINT64_C(0x8101010181010101);
}

static void guard(size_t words) {
    if (words > MOST_WORDS - used) stop("a call is too large");
    for (const size_t end = used + words; used < end; used++) held[used] = sentinel(used);
}

void keep_lists(size_t kept) {
    if (kept > count) stop("a list is kept that was not lent");
    if (kept < count) used = lists[kept];
    count = kept;
    if (used == 0) guard(GUARD);
}

void *lent(uint64_t place) {
    if (place == UINT64_MAX) return NULL;
    if (place >= count) stop("a list is no list that is lent");
    return &held[lists[place]];
}

void lend_list(void) {
    const size_t width = next_number(), length = next_number(), given = next_number(), filled = next_number();
    const uint64_t fill = next_number();
    if (count == MOST_LISTS || given + filled > length) stop("a list is too long");
    lists[count++] = used;
    guard((width * length + 7) / 8 + GUARD);
    char *const list = lent(count - 1);
    next_numbers(list, width, given);
    for (size_t at = given; at < given + filled; at++) memcpy(list + at * width, &fill, width);
}

static void change_in(uint64_t *words) {
    const size_t place = next_number(), at = next_number(), width = next_number(), numbers = next_number();
    lent(place);
    next_numbers((char *)&words[lists[place]] + at * width, width, numbers);
}

void change(void) {
    change_in(held);
}

void expect(size_t changes) {
    memcpy(right, held, used * sizeof *held);
    for (; changes > 0; changes--) change_in(right);
}

bool is_as_expected(void) {
    const bool is_same = memcmp(held, right, used * sizeof *held) == 0;
    if (!is_same) memcpy(held, right, used * sizeof *held);
    return is_same;
}
