#include "replay.h"

#include <fcntl.h>
#include <stdio.h>
#include <stdlib.h>
#include <string.h>
#include <sys/mman.h>
#include <sys/stat.h>
#include <unistd.h>

static char *input, *at, *end;

void stop(const char *what) {
    fprintf(stderr, "the replay stops: %s\n", what);
    exit(2);
}

void open_input(const char *path) {
    struct stat status;
    const int file = open(path, O_RDONLY);
    const size_t length = file >= 0 && fstat(file, &status) == 0 ? (size_t)status.st_size : 0;
    at = input = mmap(NULL, length, PROT_READ, MAP_PRIVATE, file, 0);
    if (input == MAP_FAILED) {
        perror(path);
        exit(2);
    }
    end = input + length;
    close(file);
}

void close_input(void) {
    munmap(input, (size_t)(end - input));
}

bool at_end(void) {
    while (at < end && (*at == ' ' || *at == '\n')) at++;
    return at == end;
}

uint64_t next_number(void) {
    uint64_t number = 0;
    if (at_end()) stop("what an emitter wrote stops in its middle");
    const bool is_negative = *at == '-';
    const char *const digits = at += is_negative;
    for (; at < end && *at >= '0' && *at <= '9'; at++) number = number * 10 + (uint64_t)(*at - '0');
    if (at == digits) stop("a number is missing in what an emitter wrote");
    return is_negative ? -number : number;
}

/* The line feed that ends a line of numbers before bytes, and so many bytes. */
static void next_bytes(void *bytes, size_t count) {
    if (at == end || *at++ != '\n') stop("a line feed is missing in what an emitter wrote");
    if (count > (size_t)(end - at)) stop("bytes are missing in what an emitter wrote");
    memcpy(bytes, at, count);
    at += count;
}

/* The machine's lowest byte comes first, so that the first bytes of a number are the narrower number. */
void next_numbers(void *list, size_t width, size_t count) {
    if (width == 1) {
        next_bytes(list, count);
        return;
    }
    for (char *place = list; count > 0; count--, place += width) {
        const uint64_t number = next_number();
        memcpy(place, &number, width);
    }
}
