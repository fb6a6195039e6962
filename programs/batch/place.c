/* One net: read and judged, its listing put into place. */
#define _GNU_SOURCE
#include "batch.h"

#include "kodarfi.h"

#include <errno.h>
#include <fcntl.h>
#include <stdlib.h>
#include <string.h>
#include <sys/stat.h>
#include <sys/wait.h>
#include <unistd.h>

bool write_all(int file, const void *bytes, size_t length) {
    for (const char *at = bytes; length > 0;) {
        ssize_t written = write(file, at, length);
        if (written < 0 && errno == EINTR) continue;
        if (written <= 0) return false;
        at += written;
        length -= (size_t)written;
    }
    return true;
}

static bool failed(const struct folders *folders, const char *name, const char *reason, struct result *result) {
    if (!folders->is_quiet) say("%s/%s: %s", folders->nets_name, shown(name), reason);
    result->number = FAILED;
    return false;
}

/* A net is a file, or a link to one; nothing else is opened. Size and time are taken before that: where the file changes meanwhile, the next run sees it. */
bool read_net(const struct folders *folders, const char *name, uint8_t *bytes, size_t *length, struct result *result) {
    struct stat status;
    memset(result, 0, sizeof *result);
    if (fstatat(folders->nets, name, &status, 0) < 0) return failed(folders, name, errno == ENOENT ? "no such file" : strerror(errno), result);
    if (!S_ISREG(status.st_mode)) return failed(folders, name, S_ISDIR(status.st_mode) ? "a folder, not a file" : "not a file", result);
    int file = openat(folders->nets, name, O_RDONLY | O_NONBLOCK | O_NOCTTY | O_CLOEXEC);
    if (file < 0) return failed(folders, name, errno == EACCES ? "no right to read it" : errno == ENOENT ? "no such file" : strerror(errno), result);
    ssize_t got;
    *length = 0;
    do {
        got = read(file, bytes + *length, FILE_BYTES - *length);
        if (got > 0) *length += (size_t)got;
    } while (got < 0 ? errno == EINTR : got > 0 && *length < FILE_BYTES && *length != (size_t)status.st_size);
    int reason = errno;
    close(file);
    if (got < 0) return failed(folders, name, strerror(reason), result);
    result->size = status.st_size;
    result->seconds = status.st_mtim.tv_sec;
    result->nanoseconds = status.st_mtim.tv_nsec;
    return true;
}

/* The largest limit of the entry lines, (entry i (V limit)). */
static uint64_t largest_entry(const uint8_t *listing, size_t length) {
    uint64_t largest = 0;
    for (size_t at = 0, end; at < length; at = end + 1) {
        const uint8_t *feed = memchr(listing + at, '\n', length - at);
        end = feed ? (size_t)(feed - listing) : length;
        if (end - at < 8 || memcmp(listing + at, "(entry ", 7)) continue;
        uint64_t number = 0, unit = 1;
        for (size_t digit = end - 3; listing[digit] >= '0' && listing[digit] <= '9'; digit--, unit *= 10) number += unit * (listing[digit] - '0');
        if (number > largest) largest = number;
    }
    return largest;
}

void judge(const uint8_t *bytes, size_t length, uint8_t *listing, size_t *written, struct result *result) {
    result->number = kodarfi_listing(bytes, length, listing, written, result->places);
    result->largest = result->number ? 0 : largest_entry(listing, *written);
}

/* What a listing from another machine says; false where it is none. */
bool read_listing(const uint8_t *listing, size_t length, struct result *result) {
    static const char first[] = "(bounds ", last[] = "\n(end)\n";
    int end = 0;
    char line[80] = "";
    result->number = 0;
    result->places[0] = result->places[1] = 0;
    if (length > 20 && !memcmp(listing, first, 8) && !memcmp(listing + length - 7, last, 7)) {
        result->largest = largest_entry(listing, length);
        return true;
    }
    if (length >= sizeof line) return false;
    memcpy(line, listing, length);
    result->largest = 0;
    int values = sscanf(line, "(refused %u (%lu %lu", &result->number, &result->places[0], &result->places[1]);
    if (values == 2) sscanf(line, "(refused %*u (%*u))%n", &end);
    if (values == 3) sscanf(line, "(refused %*u (%*u %*u))%n", &end);
    return end > 0 && (size_t)end + 1 == length && line[end] == '\n' && result->number > 0 && result->number < 100;
}

bool is_unchanged(const struct folders *folders, const char *name, const struct result *old) {
    struct stat status;
    if (fstatat(folders->nets, name, &status, 0) < 0 || !S_ISREG(status.st_mode)) return false;
    if (status.st_size != old->size || status.st_mtim.tv_sec != old->seconds || status.st_mtim.tv_nsec != old->nanoseconds) return false;
    return fstatat(folders->listings, name, &status, AT_SYMLINK_NOFOLLOW) == 0 && S_ISREG(status.st_mode);
}

static bool make_folders(int folder, const char *name) {
    char *path = must(strdup(name));
    bool is_made = true;
    for (char *slash = path; is_made && (slash = strchr(slash + 1, '/'));) {
        *slash = 0;
        is_made = mkdirat(folder, path, 0777) == 0 || errno == EEXIST;
        *slash = '/';
    }
    free(path);
    return is_made;
}

/* Renames a file of the state to its place below a folder. */
static bool rename_to(int state, const char *own, int folder, const char *name) {
    if (renameat(state, own, folder, name) == 0) return true;
    return errno == ENOENT && make_folders(folder, name) && renameat(state, own, folder, name) == 0;
}

/* Whether an error is of this one name, and the others can still be written. */
static bool is_of_name(int error) { return error == ENOTDIR || error == EISDIR || error == ENAMETOOLONG || error == ENOTEMPTY || error == EEXIST || error == ELOOP; }

static void stop_or_fail(const struct folders *folders, const char *name, int error, struct result *result) {
    if (is_of_name(error)) {
        say("%s/%s: %s", folders->listings_name, shown(name), strerror(error));
        result->number = FAILED;
    } else {
        result->number = STOPPED;
        result->largest = (uint64_t)error;
    }
}

/* A new file under the worker's own name. One that is there is of a batch that was killed, and a process of it may still be writing to it: it is left to that. */
static int open_own(const struct folders *folders, const char *own) {
    int file = openat(folders->state, own, O_RDWR | O_CREAT | O_EXCL | O_CLOEXEC, 0666);
    if (file >= 0 || errno != EEXIST || unlinkat(folders->state, own, 0) < 0) return file;
    return openat(folders->state, own, O_RDWR | O_CREAT | O_EXCL | O_CLOEXEC, 0666);
}

/* Writes the listing under a name of the worker's own and renames it: there is never a part of one. */
void place(const struct folders *folders, const char *own, const char *name, const uint8_t *listing, size_t length, struct result *result) {
    int file = open_own(folders, own);
    bool is_written = file >= 0 && write_all(file, listing, length);
    int error = errno;
    if (file >= 0 && close(file) < 0 && is_written) is_written = false, error = errno;
    if (is_written && !rename_to(folders->state, own, folders->listings, name)) is_written = false, error = errno;
    if (!is_written) {
        unlinkat(folders->state, own, 0);
        stop_or_fail(folders, name, error, result);
    }
}

/* Runs `register --explain` on a net, its words into a file; whether it refused the net. */
static bool run_explain(const struct folders *folders, const char *name, int words) {
    char *path;
    int status = -1;
    if (asprintf(&path, "%s/%s", folders->nets_name, name) < 0) fail("no memory");
    pid_t child = fork();
    if (child == 0) {
        int nowhere = open("/dev/null", O_RDWR);
        if (dup2(nowhere, 0) < 0 || dup2(nowhere, 1) < 0 || dup2(words, 2) < 0) _exit(2);
        execl(folders->register_path, folders->register_path, "--explain", "--", path, (char *)NULL);
        _exit(2);
    }
    while (child > 0 && waitpid(child, &status, 0) < 0 && errno == EINTR) {}
    free(path);
    return child > 0 && WIFEXITED(status) && WEXITSTATUS(status) == 1;
}

/* Whether a file ends with a line feed, as words do that were written to their end. */
static bool is_ended(int file) {
    char last = 0;
    off_t end = lseek(file, 0, SEEK_END);
    return end > 0 && pread(file, &last, 1, end - 1) == 1 && last == '\n';
}

/* The plain words for a refused net, put into place as a listing is; false where they could not be. */
bool explain(const struct folders *folders, const char *own, const char *name) {
    int words = open_own(folders, own);
    bool is_explained = words >= 0 && run_explain(folders, name, words) && is_ended(words);
    if (words >= 0) close(words);
    if (is_explained && rename_to(folders->state, own, folders->explained, name)) return true;
    say("%s/%s: the plain words could not be written", folders->explained_name, shown(name));
    unlinkat(folders->state, own, 0);
    return false;
}
