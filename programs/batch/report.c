/* What is printed: a line for each net that is refused or has failed, the closing line, the progress, and the summary. */
#define _GNU_SOURCE
#include "batch.h"

#include <errno.h>
#include <inttypes.h>
#include <signal.h>
#include <stdarg.h>
#include <stdlib.h>
#include <string.h>
#include <sys/stat.h>
#include <time.h>
#include <unistd.h>

static uint64_t accepted, refused, failures, kept, bare, count, there, there_refused;
static struct timespec began, printed;
static bool is_moving, is_unwritten;
static FILE *summary;
static char *summary_name, *summary_part;

/* One write a line, so that the lines of several processes do not mix. */
static void say_line(const char *format, va_list words) {
    char line[8192];
    int start = is_moving ? snprintf(line, sizeof line, "\r\033[K") : 0;
    start += snprintf(line + start, sizeof line - (size_t)start, "batch: ");
    int length = start + vsnprintf(line + start, sizeof line - (size_t)start - 1, format, words);
    if (length > (int)sizeof line - 2) length = (int)sizeof line - 2;
    line[length++] = '\n';
    if (!write_all(2, line, (size_t)length)) return;
}

void say(const char *format, ...) {
    va_list words;
    va_start(words, format);
    say_line(format, words);
    va_end(words);
}

_Noreturn void fail(const char *format, ...) {
    va_list words;
    va_start(words, format);
    say_line(format, words);
    va_end(words);
    close_journal();
    if (summary_part) unlink(summary_part);
    _exit(2);
}

void break_off(void) {
    close_journal();
    if (is_moving) dprintf(2, "\r\033[K");
    if (summary_part) unlink(summary_part);
    say("broken off; what is done stays done, start the batch again to go on");
    signal(signal_met, SIG_DFL);
    raise(signal_met);
    _exit(2);
}

void *must(void *memory) {
    if (!memory) fail("%s", errno ? strerror(errno) : "no memory");
    return memory;
}

const char *shown(const char *name) {
    static char buffers[2][4200];
    static int next;
    char *buffer = buffers[next = !next];
    snprintf(buffer, sizeof buffers[0], "%s", name);
    for (char *at = buffer; *at; at++) {
        if ((unsigned char)*at < 32 || *at == 127) *at = '?';
    }
    return buffer;
}

static double seconds_since(const struct timespec *then) {
    struct timespec now;
    clock_gettime(CLOCK_MONOTONIC, &now);
    return (double)(now.tv_sec - then->tv_sec) + (double)(now.tv_nsec - then->tv_nsec) / 1e9;
}

void start_report(uint64_t names, const char *name) {
    count = names;
    accepted = refused = failures = kept = 0;
    clock_gettime(CLOCK_MONOTONIC, &began);
    printed = began;
    is_moving = isatty(2);
    signal(SIGPIPE, SIG_IGN);
    if (!name) return;
    summary_name = must(strdup(name));
    /* a device or a pipe is written as it is: a file put in its place would take it away from everybody */
    struct stat status;
    const bool is_file = stat(name, &status) < 0 || S_ISREG(status.st_mode);
    if (is_file && asprintf(&summary_part, "%s.part", name) < 0) fail("no memory");
    summary = fopen(is_file ? summary_part : name, "we");
    if (!summary) fail("%s: %s", name, strerror(errno));
    fputs("file\tnumber\tplaces\tlargest limit\n", summary);
}

static void print(const char *format, ...) __attribute__((format(printf, 1, 2)));

/* A reader that goes away is no fault; any other line that cannot be written is. */
static void print(const char *format, ...) {
    va_list words;
    va_start(words, format);
    int length = vprintf(format, words);
    va_end(words);
    if (length < 0 && errno != EPIPE) is_unwritten = true;
}

static void summarize(const char *name, const struct result *r) {
    if (!summary) return;
    escape(name, summary);
    if (r->number == FAILED) fputs("\tfailed\t\t\n", summary);
    else if (r->number) fprintf(summary, "\t%" PRIu32 "\t%" PRIu64 " %" PRIu64 "\t\n", r->number, r->places[0], r->places[1]);
    else fprintf(summary, "\t0\t\t%" PRIu64 "\n", r->largest);
}

void report(const char *name, const struct result *r) {
    kept += r->is_kept;
    bare += r->is_bare;
    if (r->number == FAILED) {
        failures++;
        print("failed %s\n", shown(name));
    } else if (r->number == 0) {
        accepted++;
    } else {
        refused++;
        if (r->number == 7) print("(refused 7 (%" PRIu64 " %" PRIu64 ")) %s\n", r->places[0], r->places[1], shown(name));
        else print("(refused %" PRIu32 " (%" PRIu64 ")) %s\n", r->number, r->places[0], shown(name));
    }
    summarize(name, r);
}

/* On a terminal one line that moves, four times a second; elsewhere a line every ten seconds. */
static void show_progress(uint64_t done, uint64_t refusals) {
    double since = seconds_since(&printed), all = seconds_since(&began);
    if (since < (is_moving ? 0.25 : 10)) return;
    double rate = all > 0 ? (double)done / all : 0;
    char line[200];
    snprintf(line, sizeof line, "%" PRIu64 " of %" PRIu64 ", %.0f a second, %" PRIu64 " refused, %" PRIu64 " failed, %.0f s left", done, count, rate, refusals, failures,
             rate > 0 ? (double)(count - done) / rate : 0);
    clock_gettime(CLOCK_MONOTONIC, &printed);
    if (is_moving) dprintf(2, "\r\033[K%s", line);
    else say("%s", line);
}

void progress(void) { show_progress(accepted + refused + failures, refused); }

void progress_there(const struct result *r) {
    there++;
    there_refused += r->number != 0;
    show_progress(there, there_refused);
}

static void end_summary(void) {
    if (!summary) return;
    bool is_written = fflush(summary) == 0 && !ferror(summary);
    fclose(summary);
    if (!is_written || (summary_part && rename(summary_part, summary_name) < 0)) fail("%s could not be written: %s", summary_name, strerror(errno));
    free(summary_part);
    summary_part = NULL;
}

int end_report(bool all_seen, const char *nets_name) {
    if (is_moving) dprintf(2, "\r\033[K");
    end_summary();
    if (there) say("%" PRIu64 " of these were judged by other machines", there);
    if (kept > there) say("%" PRIu64 " of these were judged before, and have not changed since", kept - there);
    if (!all_seen) print("failed: a folder under %s that cannot be read\n", shown(nets_name));
    print("%" PRIu64 " accepted, %" PRIu64 " refused, %" PRIu64 " failed\n", accepted, refused, failures);
    if (fflush(stdout) && errno != EPIPE) is_unwritten = true;
    if (is_unwritten) fail("standard output could not be written");
    return failures || bare || !all_seen ? 2 : refused ? 1 : 0;
}
