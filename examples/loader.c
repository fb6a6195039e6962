/* Lines as they are typed, from C: loader. Takes standard input line by line, names each refused line and goes on; at the end of the input it checks what was
 * collected and prints the solution's limits. Exit status 0 where the check accepts it, 1 where it is refused, 2 where nothing can be read or written. */
#include "kodarfi.h"

#include <inttypes.h>
#include <stdio.h>

/* A line one byte longer than the longest is refused, and so is every longer one: the rest is not kept. */
enum { KEPT = KODARFI_LINE_LENGTH + 1 };

static int64_t matrix[1024], right[32], tolerance[32], guess[32], inverse[1024], weights[32];
static uint64_t solution_bounds[32], inverse_bounds[1024];

/* Reads a line without its line feed; 0 at the end of the input. */
static int read_line(uint8_t line[KEPT], size_t *length) {
    int byte = getchar();
    const int is_there = byte != EOF;
    for (*length = 0; byte != EOF && byte != '\n'; byte = getchar()) {
        if (*length < KEPT) line[(*length)++] = (uint8_t)byte;
    }
    return is_there;
}

static int failed(const char *what) {
    perror(what);
    return 2;
}

int main(void) {
    uint32_t loader[KODARFI_LOADER_LENGTH];
    uint64_t places[2];
    uint8_t line[KEPT];
    size_t length;
    kodarfi_loader_new(loader);
    for (unsigned count = 1; read_line(line, &length); count++) {
        const uint32_t number = kodarfi_loader_take(loader, line, length, matrix, 1024, right, 32, tolerance, 32, guess, 32, inverse, 1024,
                                                    weights, 32, places);
        if (number && (printf("line %u is refused: %" PRIu32 " (%" PRIu64 ")\n", count, number, places[0]) < 0 || fflush(stdout) != 0))
            return failed("standard output");
    }
    if (ferror(stdin)) return failed("standard input");
    const uint32_t number = kodarfi_loader_check(loader, matrix, 1024, right, 32, tolerance, 32, guess, 32, inverse, 1024, weights, 32,
                                                 solution_bounds, 32, inverse_bounds, 1024, places);
    if (number) printf("the check is refused: %" PRIu32 " (%" PRIu64 " %" PRIu64 ")\n", number, places[0], places[1]);
    for (uint32_t i = 0; !number && i < loader[1]; i++)
        printf("(solution %" PRIu32 " (%" PRId64 " %" PRIu64 "))\n", i + 1, guess[i], solution_bounds[i]);
    if (ferror(stdout) || fflush(stdout) != 0) return failed("standard output");
    return number != 0;
}
