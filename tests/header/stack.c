/* The stack that each call takes, at n = 32, and null pointers in each of its lists. For the stack it runs on a stack of its own that is painted, and the lowest
 * byte that has lost its paint tells how deep it came.
 *
 * The last line is 'N passed, M failed'. */
#define _GNU_SOURCE
#include "kodarfi.h"

#include <stdbool.h>
#include <stdio.h>
#include <string.h>
#include <sys/mman.h>
#include <ucontext.h>

enum { ROOM = 1 << 20, PAINT = 0xa5 };

static unsigned char *room;
static ucontext_t outside, inside;
static unsigned char *begin;
static void (*measured)(void);

/* The frame of this function is the caller's: what lies below it is the call's. */
static void start(void) {
    unsigned char here;
    begin = &here;
    measured();
}

/* How many bytes of stack a call takes. */
static size_t stack_of(void (*call)(void)) {
    memset(room, PAINT, ROOM);
    getcontext(&inside);
    inside.uc_stack.ss_sp = room;
    inside.uc_stack.ss_size = ROOM;
    inside.uc_link = &outside;
    measured = call;
    makecontext(&inside, start, 0);
    swapcontext(&outside, &inside);
    size_t lowest = 0;
    while (lowest < ROOM && room[lowest] == PAINT) lowest++;
    return (size_t)(begin - (room + lowest));
}

static unsigned passed, failed;

static void test(const char *what, bool holds) {
    holds ? passed++ : failed++;
    if (!holds && failed <= 20) printf("FAILED %s\n", what);
}

struct lists {
    uint32_t n, s, t;
    int64_t matrix[1024], right[32], tolerance[32], guess[32], inverse[1024], weights[32];
};

struct text {
    size_t length;
    uint8_t bytes[22000];
};

/* What the calls are handed; read.py writes CALLS and NULLS, every call of the header with these by the names of its parameters, and the nets and files. */
static struct lists net, other;
static int64_t coupling[1024], half[528], numbers[16][1024];
static uint64_t bounds[16][1024], read_bounds[1024], places[2];
static double values[32], doubles[16][32];
static struct kodarfi_observation lines[256];
static uint8_t file[65536], out[65536], line[512];
static size_t file_len, line_len, written;
static uint32_t number, words[16];

/* A loader that was given problem and scale, and one that was given all. */
static inline uint32_t *begun_loader(void) {
    static uint32_t loader[9];
    const uint32_t numbers_of[9] = {2, net.n, net.s, net.t, 0, 0, 0, 0, 0};
    memcpy(loader, numbers_of, sizeof loader);
    return loader;
}

static inline const uint32_t *ended_loader(void) {
    static uint32_t loader[9];
    const uint32_t numbers_of[9] = {3, net.n, net.s, net.t, UINT32_MAX, UINT32_MAX, UINT32_MAX, UINT32_MAX, UINT32_MAX};
    memcpy(loader, numbers_of, sizeof loader);
    return loader;
}

#include "calls.h"

/* The measure itself is tried on two functions that fill their own bytes. */
static void fill_all_but_a_page(void) {
    volatile unsigned char bytes[KODARFI_STACK_MAX - 4096];
    for (size_t k = 0; k < sizeof bytes; k++) bytes[k] = 1;
}

static void fill_all(void) {
    volatile unsigned char bytes[KODARFI_STACK_MAX];
    for (size_t k = 0; k < sizeof bytes; k++) bytes[k] = 1;
}

static void test_measure(void) {
    const size_t less = stack_of(fill_all_but_a_page), more = stack_of(fill_all);
    test("what takes less than the most is detected", less >= KODARFI_STACK_MAX - 4096 && less <= KODARFI_STACK_MAX);
    test("what takes more than the most is detected", more > KODARFI_STACK_MAX && more <= KODARFI_STACK_MAX + 4096);
}

enum { COUNT = sizeof CALLS / sizeof *CALLS };

static size_t most[COUNT];

static void measure(unsigned k) {
    const size_t bytes = stack_of(CALLS[k].run);
    if (bytes > most[k]) most[k] = bytes;
}

/* Measures every call where nothing is refused, so that it goes all the way; a half wants a symmetric inverse, and a conversion no tolerance. */
static void measure_accepted(bool is_symmetric, bool is_exact) {
    for (unsigned k = 0; k < COUNT; k++) {
        measure(k);
        const bool is_refused = (!is_symmetric && strcmp(CALLS[k].name, "kodarfi_check_half") == 0) || (!is_exact && strstr(CALLS[k].name, "convert"));
        test(CALLS[k].name, is_refused || number == 0);
    }
}

static void make_lines(void) {
    for (uint32_t k = 0; k < 256; k++) {
        const struct kodarfi_observation line = {k + 1, k % 32, (k + 1 + k / 32) % 33, 65536, 64};
        lines[k] = line;
    }
}

static void take(const struct text *text, uint8_t *to, size_t *length) {
    memcpy(to, text->bytes, *length = text->length);
}

int main(void) {
    room = mmap(NULL, ROOM, PROT_READ | PROT_WRITE, MAP_PRIVATE | MAP_ANONYMOUS, -1, 0);
    if (room == MAP_FAILED) return 2;
    test_measure();
    make_lines();
    for (unsigned way = 0; way < 8; way++) {
        net = other = NETS[way];
        for (uint32_t i = 0; i < 32; i++) half[i * (i + 1) / 2 + i] = coupling[i * 32 + 31 - i] = 1;
        take(&FILES[way], file, &file_len);
        take(&LINES[way], line, &line_len);
        measure_accepted(!(way & 1), !(way & 4));
    }
    /* refused as late as can be, and the longest file */
    take(&FILES[8], file, &file_len);
    net.inverse[0] = 0;
    values[31] = 1e300;
    lines[255].key = 1;
    for (unsigned k = 0; k < COUNT; k++) measure(k);
    /* a null pointer is harmless where the length after it is 0: each call comes back with what is said of an empty list */
    net = NETS[1];
    for (unsigned k = 0; k < sizeof NULLS / sizeof *NULLS; k++) {
        NULLS[k].run();
        test(NULLS[k].name, number == NULLS[k].number);
    }
    for (unsigned k = 0; k < COUNT; k++) {
        printf("%s takes %zu bytes of stack\n", CALLS[k].name, most[k]);
        test(CALLS[k].name, most[k] > 0 && most[k] <= KODARFI_STACK_MAX);
    }
    printf("%u passed, %u failed\n", passed, failed);
    return failed != 0;
}
