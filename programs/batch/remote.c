/* Other machines, through GNU parallel: each runs this program with --judge-there on nets of 8 megabytes at a time.
 *
 * A net goes out as a line: a token of this batch, the place of its name in `names`, the file's size and time, and its first 65,536 bytes in base64. It comes
 * back between two zero bytes: the same four words, the program's identity, a line feed and the listing. Whatever else a machine says is passed over. What does
 * not come back is judged in a later pass, by other machines or by this one. */
#define _GNU_SOURCE
#include "batch.h"

#include <errno.h>
#include <fcntl.h>
#include <inttypes.h>
#include <stdlib.h>
#include <string.h>
#include <signal.h>
#include <sys/mman.h>
#include <sys/prctl.h>
#include <sys/random.h>
#include <sys/wait.h>
#include <unistd.h>

static const char digits[] = "ABCDEFGHIJKLMNOPQRSTUVWXYZabcdefghijklmnopqrstuvwxyz0123456789+/";

static void write_base64(const uint8_t *bytes, size_t length, FILE *out) {
    for (size_t i = 0; i < length; i += 3) {
        uint32_t three = (uint32_t)bytes[i] << 16 | (i + 1 < length ? (uint32_t)bytes[i + 1] << 8 : 0) | (i + 2 < length ? bytes[i + 2] : 0);
        putc(digits[three >> 18], out);
        putc(digits[three >> 12 & 63], out);
        putc(i + 1 < length ? digits[three >> 6 & 63] : '=', out);
        putc(i + 2 < length ? digits[three & 63] : '=', out);
    }
}

/* Reads base64 up to the end of the line; false where it is none, or too long. */
static bool read_base64(const char *text, uint8_t *bytes, size_t *length) {
    uint32_t bits = 0;
    unsigned count = 0;
    for (*length = 0; *text && *text != '\n' && *text != '='; text++) {
        const char *digit = strchr(digits, *text);
        if (!digit || *length == FILE_BYTES) return false;
        bits = bits << 6 | (uint32_t)(digit - digits);
        count += 6;
        if (count >= 8) bytes[(*length)++] = (uint8_t)(bits >> (count -= 8));
    }
    return true;
}

void judge_there(const char *version) {
    static uint8_t bytes[FILE_BYTES], listing[LISTING_BYTES];
    char *line = NULL;
    size_t room = 0, length, written;
    while (getline(&line, &room, stdin) > 0) {
        int end = 0;
        struct result result;
        sscanf(line, "%*s %*s %*s %*s %*s %n", &end);
        if (end == 0 || !read_base64(line + end, bytes, &length)) continue;
        judge(bytes, length, listing, &written, &result);
        putchar(0);
        printf("%.*s%s\n", end, line, version);
        fwrite(listing, 1, written, stdout);
        putchar(0);
    }
    if (fflush(stdout)) fail("standard output could not be written");
    free(line);
}

/* This machine's part: what is not done, a line each, into the pipe to parallel. */
static void send_nets(const struct folders *folders, const char *token, FILE *out, uint64_t *sent) {
    static uint8_t bytes[FILE_BYTES];
    FILE *names = fdopen(openat(folders->state, "names", O_RDONLY | O_CLOEXEC), "r");
    struct done *done = open_done(folders);
    char *line = NULL;
    size_t room = 0, length;
    for (ssize_t got; names && (got = getline(&line, &room, names)) > 0;) {
        off_t place = ftello(names) - got;
        struct result old, result;
        line[got - 1] = 0;
        bool is_old = is_done(done, line, &old, NULL);
        unescape(line);
        if ((is_old && is_unchanged(folders, line, &old)) || !read_net(folders, line, bytes, &length, &result)) continue;
        fprintf(out, "%s %jd %" PRId64 " %" PRId64 " %" PRId64 " ", token, (intmax_t)place, result.size, result.seconds, result.nanoseconds);
        write_base64(bytes, length, out);
        putc('\n', out);
        if (ferror(out)) break;
        ++*sent;
    }
    _exit(fclose(out) != 0);
}

/* The name at a place of `names`; false where no name begins there. */
static bool name_at(FILE *names, intmax_t place, char **name, size_t *room) {
    if (place < 0 || (place > 0 && (fseeko(names, place - 1, SEEK_SET) < 0 || getc(names) != '\n'))) return false;
    ssize_t got = fseeko(names, place, SEEK_SET) < 0 ? 0 : getline(name, room, names);
    if (got <= 1) return false;
    (*name)[got - 1] = 0;
    unescape(*name);
    return true;
}

/* How many nets came back. */
static uint64_t receive(const struct folders *folders, const char *token, const char *version, FILE *in) {
    uint64_t received = 0;
    FILE *names = fdopen(openat(folders->state, "names", O_RDONLY | O_CLOEXEC), "r");
    char *piece = NULL, *name = NULL;
    size_t room = 0, name_room = 0;
    bool is_reported = false;
    for (ssize_t got; names && (got = getdelim(&piece, &room, 0, in)) > 0;) {
        struct result result = {0};
        intmax_t at;
        int end = 0;
        if (strncmp(piece, token, strlen(token))) continue;
        sscanf(piece, "%*s %jd %" SCNd64 " %" SCNd64 " %" SCNd64 " %n", &at, &result.size, &result.seconds, &result.nanoseconds, &end);
        char *feed = end ? strchr(piece + end, '\n') : NULL;
        if (!feed || piece[got - 1]) continue;
        *feed = 0;
        if (strcmp(piece + end, version)) {
            if (!is_reported) say("a machine has another version of the program; what it sends is passed over");
            is_reported = true;
            continue;
        }
        const uint8_t *listing = (const uint8_t *)feed + 1;
        size_t length = (size_t)(piece + got - 1 - (feed + 1));
        if (!name_at(names, at, &name, &name_room) || !read_listing(listing, length, &result)) continue;
        place(folders, "0", name, listing, length, &result);
        if (result.number == STOPPED) fail("%s: %s; what is done stays done, start the batch again to go on", folders->listings_name, strerror((int)result.largest));
        if (result.number == FAILED) continue;
        note_done(name, &result);
        flush_journal(folders);
        progress_there(&result);
        received++;
    }
    free(piece);
    free(name);
    if (names) fclose(names);
    return received;
}

/* The script's path as one word of a shell. */
static char *quoted(const char *path) {
    char *word = must(malloc(4 * strlen(path) + 3)), *to = word;
    *to++ = '\'';
    for (; *path; path++) to = *path == '\'' ? stpcpy(to, "'\\''") : (*to = *path, to + 1);
    strcpy(to, "'");
    return word;
}

static pid_t start_parallel(const char *machines, const char *jobs, const char *script, int in, int out) {
    const char *words[16] = {"parallel", "--pipe", "--block", "8M"};
    int count = 4;
    if (jobs) words[count++] = "--jobs", words[count++] = jobs;
    words[count++] = "--sshlogin";
    words[count++] = machines;
    words[count++] = quoted(script);
    words[count++] = "--judge-there";
    pid_t child = fork();
    if (child == 0) {
        prctl(PR_SET_PDEATHSIG, SIGTERM);
        setenv("PARALLEL_SSH", "ssh -o BatchMode=yes -o ConnectTimeout=10 -o ServerAliveInterval=5 -o ServerAliveCountMax=3", 0);
        if (dup2(in, 0) < 0 || dup2(out, 1) < 0) _exit(127);
        execvp("parallel", (char *const *)words);
        _exit(127);
    }
    return child;
}

bool run_remote(const struct folders *folders, const char *machines, const char *jobs, const char *script, const char *version) {
    uint64_t random = 0;
    char token[40];
    int to[2], from[2], status;
    uint64_t *sent = mmap(NULL, sizeof *sent, PROT_READ | PROT_WRITE, MAP_SHARED | MAP_ANONYMOUS, -1, 0);
    if (sent == MAP_FAILED) fail("no memory");
    if (getrandom(&random, sizeof random, 0) < 0) random = (uint64_t)getpid();
    snprintf(token, sizeof token, "net-%016" PRIx64, random);
    if (pipe2(to, O_CLOEXEC) < 0 || pipe2(from, O_CLOEXEC) < 0) fail("no pipe to other machines: %s", strerror(errno));
    fflush(NULL);
    pid_t parallel = start_parallel(machines, jobs, script, to[0], from[1]);
    pid_t sender = parallel < 0 ? -1 : fork();
    if (sender == 0) {
        close(from[0]);
        close(from[1]);
        close(to[0]);
        prctl(PR_SET_PDEATHSIG, SIGKILL);
        struct folders quiet = *folders;
        quiet.is_quiet = true;
        send_nets(&quiet, token, fdopen(to[1], "w"), sent);
    }
    if (sender < 0) fail("no process for other machines: %s", strerror(errno));
    close(to[0]);
    close(to[1]);
    close(from[1]);
    FILE *in = must(fdopen(from[0], "r"));
    uint64_t received = receive(folders, token, version, in);
    fclose(in);
    if (signal_met) kill(parallel, SIGTERM), kill(parallel, SIGTERM);
    while (waitpid(sender, NULL, 0) < 0 && errno == EINTR) {}
    while (waitpid(parallel, &status, 0) < 0 && errno == EINTR) {}
    if (WIFEXITED(status) && WEXITSTATUS(status) == 127) fail("the tool 'parallel' (GNU parallel) is missing");
    bool is_all = received >= *sent;
    munmap(sent, sizeof *sent);
    return is_all;
}
