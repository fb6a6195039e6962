/* The replay in C: each call that the emitters wrote is made to the library, and all that it was lent is compared with what the oracle says, each list, each
 * place and each sentinel.
 *
 *   link FILE..          on the files that emitters wrote
 *   link --first FILE..  up to the first test that fails
 *
 * The last line is 'N passed, M failed'. */
#include "replay.h"

#include <stdio.h>
#include <stdlib.h>
#include <string.h>

enum { ANSWERS = 32, ENOUGH = 20 };

static unsigned passed, failed;
static bool stops;

/* Of each call, how often it was made and each answer was right, and the answers that must be met. */
static unsigned made[MOST_CALLS], met[MOST_CALLS][ANSWERS];
static uint64_t wanted[MOST_CALLS];

static int close_count(void) {
    printf("%u passed, %u failed\n", passed, failed);
    return failed != 0;
}

static void test(const char *what, unsigned index, bool holds) {
    if (holds) {
        passed++;
        return;
    }
    failed++;
    if (failed <= 20) printf("FAILED %s %u\n", what, index);
    if (stops) exit(close_count());
}

static void replay_call(void) {
    const size_t call = next_number(), kept = next_number(), lists = next_number(), changes = next_number(), count = next_number();
    const uint32_t number = (uint32_t)next_number();
    const size_t right = next_number();
    uint64_t arguments[MOST_ARGUMENTS] = {0};
    if (call >= MOST_CALLS || count > MOST_ARGUMENTS) stop("no call has so many arguments");
    keep_lists(kept);
    for (size_t k = 0; k < lists; k++) lend_list();
    for (size_t k = 0; k < changes; k++) change();
    next_numbers(arguments, sizeof *arguments, count);
    expect(right);
    const uint32_t said = make_call(call, arguments);
    const bool is_left = is_as_expected();
    test(NAMES[call], made[call]++, said == number && is_left);
    met[call][number % ANSWERS]++;
}

/* That each answer that must be met of a call was right often enough. */
static void test_answers(size_t call) {
    printf("%u calls of %s:", made[call], NAMES[call]);
    for (unsigned number = 0; number < ANSWERS; number++) {
        if (!(wanted[call] >> number & 1)) continue;
        printf(" %u: %u", number, met[call][number]);
        test(NAMES[call], number, met[call][number] >= ENOUGH);
    }
    printf("\n");
}

static void replay(const char *path) {
    open_input(path);
    for (size_t calls = next_number(); calls > 0; calls--) {
        const size_t call = next_number();
        if (call >= MOST_CALLS) stop("there is no such call");
        wanted[call] = next_number();
    }
    keep_lists(0);
    while (!at_end()) replay_call();
    close_input();
}

int main(int argc, char **argv) {
    stops = argc > 1 && strcmp(argv[1], "--first") == 0;
    for (int k = 1 + stops; k < argc; k++) replay(argv[k]);
    for (size_t call = 0; call < MOST_CALLS; call++) {
        if (wanted[call]) test_answers(call);
    }
    return passed + failed > 0 ? close_count() : 2;
}
