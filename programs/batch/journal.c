/* The state of a batch, in the folder LISTINGS.batch beside the listings.
 *
 *   lock      held while a batch runs
 *   about     which folder the nets are in, which version wrote the listings, the number of the last run, and the first run whose lines count, a line each
 *   names     the names of this run's nets, sorted
 *   done      what earlier runs left in `journal`, sorted by name and run
 *   journal   a line for each net that this run has judged: name, run, size, time, number, two places, largest limit and a point, a tab between
 *   0, 1, ..  what a worker is writing, before it is renamed
 *
 * A line is written whole after its listing has its name. One that a kill has torn lacks its point (`sort` gives it a line feed), and is passed over: the net
 * is judged again, with the same listing. */
#define _GNU_SOURCE
#include "batch.h"

#include <dirent.h>
#include <errno.h>
#include <fcntl.h>
#include <inttypes.h>
#include <limits.h>
#include <stdlib.h>
#include <string.h>
#include <sys/file.h>
#include <sys/stat.h>
#include <sys/wait.h>
#include <time.h>
#include <unistd.h>

static FILE *journal;
static unsigned long run, since;

static FILE *open_file(const struct folders *folders, const char *name, int flags, const char *mode) {
    int file = openat(folders->state, name, flags | O_CLOEXEC, 0666);
    return file < 0 ? NULL : fdopen(file, mode);
}

/* Sorts files of the state, those that are there, into another by the tool `sort`, which keeps what does not fit into memory in temporary files. */
void sort_file(const struct folders *folders, const char *const *from, const char *to) {
    pid_t child = fork();
    if (child < 0) fail("no process for sorting: %s", strerror(errno));
    if (child == 0) {
        const char *words[16] = {"sort", "-T", ".", "-o", "sorted", "--"};
        int count = 6;
        if (fchdir(folders->state) < 0) _exit(3);
        for (; *from; from++) {
            if (access(*from, F_OK) == 0) words[count++] = *from;
        }
        if (count == 6) words[count++] = "/dev/null";
        setenv("LC_ALL", "C", 1);
        execvp("sort", (char *const *)words);
        _exit(errno == ENOENT ? 127 : 3);
    }
    int status;
    while (waitpid(child, &status, 0) < 0) {
        if (errno != EINTR) fail("sorting: %s", strerror(errno));
    }
    if (status && signal_met) break_off();
    if (WIFEXITED(status) && WEXITSTATUS(status) == 127) fail("the tool 'sort' is missing");
    if (status) fail("%s: the names could not be sorted", folders->state_name);
    if (renameat(folders->state, "sorted", folders->state, to) < 0) fail("%s: %s", folders->state_name, strerror(errno));
}

/* The lock is waited for a moment: workers of a batch that was killed may be at their last net. */
static void take_lock(const struct folders *folders) {
    int file = openat(folders->state, "lock", O_RDWR | O_CREAT | O_CLOEXEC, 0666);
    if (file < 0) fail("%s: %s", folders->state_name, strerror(errno));
    for (int tries = 0; flock(file, LOCK_EX | LOCK_NB) < 0; tries++) {
        if (errno != EWOULDBLOCK && errno != EINTR) fail("%s: %s", folders->state_name, strerror(errno));
        if (tries == 20) fail("another batch is writing to %s", folders->listings_name);
        nanosleep(&(struct timespec){.tv_nsec = 100000000}, NULL);
    }
}

static bool is_empty(int folder) {
    int file = openat(folder, ".", O_RDONLY | O_DIRECTORY | O_CLOEXEC);
    DIR *entries = file < 0 ? NULL : fdopendir(file);
    if (!entries) fail("the folder for the listings: %s", strerror(errno));
    bool is_any = false;
    for (const struct dirent *entry; !is_any && (entry = readdir(entries));) is_any = strcmp(entry->d_name, ".") && strcmp(entry->d_name, "..");
    closedir(entries);
    return !is_any;
}

/* Lines of `about`; false where there is none. */
static bool read_about(const struct folders *folders, char *nets, char *version) {
    FILE *about = open_file(folders, "about", O_RDONLY, "r");
    if (!about) return false;
    bool is_whole = fgets(nets, PATH_MAX * 4, about) && fgets(version, PATH_MAX, about) && fscanf(about, "%lu\n%lu", &run, &since) == 2;
    fclose(about);
    if (is_whole) nets[strcspn(nets, "\n")] = version[strcspn(version, "\n")] = 0;
    return is_whole;
}

static void write_about(const struct folders *folders, const char *nets, const char *version) {
    FILE *about = open_file(folders, "about.new", O_WRONLY | O_CREAT | O_TRUNC, "w");
    if (!about) fail("%s: %s", folders->state_name, strerror(errno));
    escape(nets, about);
    fprintf(about, "\n%s\n%lu\n%lu\n", version, run, since);
    if (fflush(about) || fclose(about) || renameat(folders->state, "about.new", folders->state, "about") < 0) fail("%s: %s", folders->state_name, strerror(errno));
}

/* Whether a file renamed from the state comes to stand among the listings: both must be on one file system. */
static void try_rename(const struct folders *folders) {
    struct stat listings, state;
    if (fstat(folders->listings, &listings) < 0 || fstat(folders->state, &state) < 0) fail("%s: %s", folders->listings_name, strerror(errno));
    if (listings.st_dev != state.st_dev) fail("%s is a file system by itself; name a folder in it", folders->listings_name);
}

void open_state(struct folders *folders, const char *version, bool is_fresh) {
    static char old_nets[PATH_MAX * 4], old_version[PATH_MAX];
    char *nets = must(realpath(folders->nets_name, NULL));
    bool is_anew = true;
    take_lock(folders);
    try_rename(folders);
    if (is_empty(folders->listings)) {
        unlinkat(folders->state, "done", 0);
        unlinkat(folders->state, "journal", 0);
    } else {
        if (!read_about(folders, old_nets, old_version)) {
            fail("%s is not empty, and no batch wrote it; a batch writes to a new folder, so that every listing in it is of its nets", folders->listings_name);
        }
        unescape(old_nets);
        if (strcmp(old_nets, nets)) fail("%s has the listings of %s; a batch of other nets writes to another folder", folders->listings_name, shown(old_nets));
        is_anew = is_fresh || strcmp(old_version, version);
        if (!is_fresh && is_anew) say("%s was written by another version: every net is judged again", folders->listings_name);
    }
    run++;
    if (is_anew) since = run;
    sort_journal(folders);
    write_about(folders, nets, version);
    free(nets);
}

/* The next line that was not torn. */
static bool read_whole(char **line, size_t *room, FILE *from) {
    ssize_t length;
    while ((length = getline(line, room, from)) > 0 && (length < 3 || strcmp(*line + length - 3, "\t.\n"))) {}
    return length > 0;
}

/* Keeps of `done` the last whole line of each name, so that it does not grow from run to run. */
static void keep_last(const struct folders *folders) {
    FILE *from = open_file(folders, "done", O_RDONLY, "r"), *to = open_file(folders, "sorted", O_WRONLY | O_CREAT | O_TRUNC, "w");
    if (!from || !to) fail("%s: %s", folders->state_name, strerror(errno));
    char *line = NULL, *next = NULL;
    size_t line_room = 0, next_room = 0;
    bool is_line = read_whole(&line, &line_room, from);
    while (is_line) {
        bool is_next = read_whole(&next, &next_room, from);
        size_t name = strcspn(line, "\t");
        if (!is_next || strncmp(line, next, name + 1)) fputs(line, to);
        char *old = line;
        size_t old_room = line_room;
        line = next, line_room = next_room, next = old, next_room = old_room;
        is_line = is_next;
    }
    free(line);
    free(next);
    bool is_read = !ferror(from);
    fclose(from);
    if (fflush(to) || ferror(to) || fclose(to) || !is_read) fail("%s: %s", folders->state_name, strerror(errno));
    if (renameat(folders->state, "sorted", folders->state, "done") < 0) fail("%s: %s", folders->state_name, strerror(errno));
}

void sort_journal(const struct folders *folders) {
    close_journal();
    sort_file(folders, (const char *const[]){"done", "journal", NULL}, "done");
    keep_last(folders);
    journal = open_file(folders, "journal", O_WRONLY | O_CREAT | O_TRUNC | O_APPEND, "a");
    if (!journal) fail("%s: %s", folders->state_name, strerror(errno));
    setvbuf(journal, NULL, _IOFBF, 1 << 16);
}

void close_journal(void) {
    if (journal) fclose(journal);
    journal = NULL;
}

void note_done(const char *name, const struct result *result) {
    escape(name, journal);
    fprintf(journal, "\t%010lu\t%" PRId64 "\t%" PRId64 "\t%" PRId64 "\t%" PRIu32 "\t%" PRIu64 "\t%" PRIu64 "\t%" PRIu64 "\t.\n", run, result->size, result->seconds,
            result->nanoseconds, result->number, result->places[0], result->places[1], result->largest);
}

void flush_journal(const struct folders *folders) {
    if (fflush(journal) || ferror(journal)) fail("%s: %s; what is done stays done, start the batch again to go on", folders->state_name, strerror(errno));
}

struct done {
    FILE *file;
    char *line; /* the line that was read last, cut after its name; NULL at the end */
    size_t room;
    unsigned long run;
    struct result result;
};

/* The next whole line. */
static bool next_line(struct done *done) {
    for (ssize_t length; (length = getline(&done->line, &done->room, done->file)) > 0;) {
        char *tab = strchr(done->line, '\t');
        struct result *r = &done->result;
        memset(r, 0, sizeof *r);
        if (tab && sscanf(tab, "\t%lu\t%" SCNd64 "\t%" SCNd64 "\t%" SCNd64 "\t%" SCNu32 "\t%" SCNu64 "\t%" SCNu64 "\t%" SCNu64, &done->run, &r->size, &r->seconds,
                          &r->nanoseconds, &r->number, &r->places[0], &r->places[1], &r->largest) == 8) {
            *tab = 0;
            return true;
        }
    }
    free(done->line);
    done->line = NULL;
    return false;
}

struct done *open_done(const struct folders *folders) {
    struct done *done = must(calloc(1, sizeof *done));
    done->file = open_file(folders, "done", O_RDONLY, "r");
    if (!done->file) fail("%s: %s", folders->state_name, strerror(errno));
    next_line(done);
    return done;
}

bool is_done(struct done *done, const char *name, struct result *result, void (*gone)(const char *name)) {
    bool is_found = false;
    for (int order; done->line && (order = strcmp(done->line, name)) <= 0; next_line(done)) {
        if (order < 0) {
            unescape(done->line);
            if (gone) gone(done->line);
        } else {
            *result = done->result;
            is_found = done->run >= since;
        }
    }
    return is_found;
}

void rest_gone(struct done *done, void (*gone)(const char *name)) {
    for (; done->line; next_line(done)) {
        unescape(done->line);
        gone(done->line);
    }
}

void close_done(struct done *done) {
    fclose(done->file);
    free(done->line);
    free(done);
}
