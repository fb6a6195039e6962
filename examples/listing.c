/* The listing of a file, from C: listing FILE. Exit status 0 where the file is accepted, 1 where it is refused, 2 where it cannot be read or written. */
#include "kodarfi.h"

#include <stdio.h>

/* The first 65,536 bytes decide every file. */
static uint8_t file[65536], listing[32768];

int main(int argc, char **argv) {
    FILE *const in = argc == 2 ? fopen(argv[1], "rb") : NULL;
    if (!in) return 2;
    const size_t file_len = fread(file, 1, sizeof file, in);
    if (ferror(in)) return 2;
    size_t written;
    uint64_t places[2];
    const uint32_t number = kodarfi_listing(file, file_len, listing, &written, places);
    if (fwrite(listing, 1, written, stdout) != written || fflush(stdout) != 0) return 2;
    return number != 0;
}
