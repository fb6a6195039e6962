/* The command line of a batch. The script ./batch builds this program, answers --help and --version, and names itself and ./register in the environment. */
#define _GNU_SOURCE
#include "batch.h"

#include <errno.h>
#include <fcntl.h>
#include <inttypes.h>
#include <sched.h>
#include <signal.h>
#include <stdlib.h>
#include <string.h>
#include <sys/stat.h>
#include <unistd.h>

struct options {
    const char *jobs, *machines, *summary;
    bool is_fresh;
};

static void meet_signal(int number) { signal_met = number; }

/* Standard streams that are closed would give their numbers to other files. */
static void hold_standard_streams(void) {
    for (int file = 0; file < 3; file++) {
        if (fcntl(file, F_GETFD) >= 0) continue;
        bool is_output = file == 1;
        if (open("/dev/null", O_RDWR) != file) _exit(2);
        if (is_output) fail("standard output could not be written");
    }
    setvbuf(stdout, NULL, _IOLBF, 1 << 16);
}

/* What distinguishes one version of the program from another, wherever it stands: a sum over its own bytes. */
static const char *identity(void) {
    static char text[20];
    static unsigned char bytes[1 << 16];
    uint64_t sum = 14695981039346656037u;
    int file = open("/proc/self/exe", O_RDONLY | O_CLOEXEC);
    for (ssize_t got; file >= 0 && (got = read(file, bytes, sizeof bytes)) > 0;) {
        for (ssize_t i = 0; i < got; i++) sum = (sum ^ bytes[i]) * 1099511628211u;
    }
    if (file < 0) fail("the program cannot be read: %s", strerror(errno));
    close(file);
    snprintf(text, sizeof text, "%016" PRIx64, sum);
    return text;
}

static int open_folder(const char *name) {
    int folder = open(name, O_RDONLY | O_DIRECTORY | O_CLOEXEC);
    if (folder < 0) fail("%s: %s", shown(name), errno == ENOENT ? "no such folder" : errno == ENOTDIR ? "not a folder" : strerror(errno));
    return folder;
}

/* Makes a folder with those above it, as far as they are not there. */
static int make_folder(const char *name) {
    char *path = must(strdup(name));
    for (char *slash = path; (slash = strchr(slash + 1, '/'));) {
        *slash = 0;
        mkdir(path, 0777);
        *slash = '/';
    }
    free(path);
    if (mkdir(name, 0777) < 0 && errno != EEXIST) fail("%s: %s", shown(name), strerror(errno));
    return open_folder(name);
}

/* Whether a folder is another, or stands below it. */
static bool is_below(int folder, int other) {
    struct stat at, wanted, before = {0};
    int here = dup(folder);
    bool is_found = false;
    if (fstat(other, &wanted) < 0) fail("%s", strerror(errno));
    while (here >= 0 && !is_found && fstat(here, &at) == 0 && (at.st_ino != before.st_ino || at.st_dev != before.st_dev)) {
        is_found = at.st_ino == wanted.st_ino && at.st_dev == wanted.st_dev;
        before = at;
        int above = openat(here, "..", O_RDONLY | O_DIRECTORY | O_CLOEXEC);
        close(here);
        here = above;
    }
    if (here >= 0) close(here);
    return is_found;
}

/* Nothing but listings and nets stands in their folders: a net may have any name. */
static void keep_outside(const struct folders *folders, int folder, const char *name) {
    if (is_below(folder, folders->listings)) fail("%s is in %s, where a net may have any name; name a place outside it", shown(name), folders->listings_name);
    if (is_below(folder, folders->nets)) fail("%s is in %s, where it would be a net or in the place of one; name a place outside it", shown(name), folders->nets_name);
    if (is_below(folder, folders->state)) fail("%s is in %s, which a batch keeps for itself; name a place outside it", shown(name), folders->state_name);
}

/* The folder itself, or the nearest above it that is there. */
static int nearest(const char *name) {
    char *path = must(strdup(name)), *slash;
    int folder;
    while ((folder = open(path, O_RDONLY | O_DIRECTORY | O_CLOEXEC)) < 0 && (slash = strrchr(path, '/')) && slash != path) *slash = 0;
    if (folder < 0) folder = open_folder(path[0] == '/' ? "/" : ".");
    free(path);
    return folder;
}

/* The words stand under the nets' names: where nets or listings are below, one could come to stand in the place of another file. */
static void keep_apart(const struct folders *folders) {
    if (is_below(folders->nets, folders->explained) || is_below(folders->listings, folders->explained)) {
        fail("%s has the nets or the listings in it; name a folder for the words alone", shown(folders->explained_name));
    }
}

static int folder_of(const char *file) {
    char *path = must(strdup(file)), *slash = strrchr(path, '/');
    if (slash) slash[slash == path] = 0;
    int folder = open_folder(slash ? path : ".");
    free(path);
    return folder;
}

static void open_folders(struct folders *folders, const struct options *options) {
    size_t length = strlen(folders->listings_name);
    folders->nets = open_folder(folders->nets_name);
    folders->listings = make_folder(folders->listings_name);
    while (length > 1 && folders->listings_name[length - 1] == '/') length--;
    if (asprintf(&folders->state_name, "%.*s.batch", (int)length, folders->listings_name) < 0) fail("no memory");
    folders->state = make_folder(folders->state_name);
    folders->explained = -1;
    if (folders->explained_name) {
        int above = nearest(folders->explained_name);
        keep_outside(folders, above, folders->explained_name);
        close(above);
        folders->explained = make_folder(folders->explained_name);
        keep_apart(folders);
    }
    if (options->summary) {
        int folder = folder_of(options->summary);
        keep_outside(folders, folder, options->summary);
        close(folder);
    }
}

static const char *value_of(char **words, int *at, const char *what) {
    const char *word = words[*at], *value = words[*at + 1];
    if (!value || !*value) fail("%s wants %s", word, what);
    *at += 1;
    return value;
}

static void read_words(char **words, struct options *options, struct folders *folders) {
    const char *names[2] = {NULL, NULL};
    int count = 0;
    bool only_names = false;
    for (int at = 1; words[at]; at++) {
        const char *word = words[at];
        if (only_names) count < 2 ? (void)(names[count++] = word) : (void)count++;
        else if (!strcmp(word, "--")) only_names = true;
        else if (!strcmp(word, "--jobs")) options->jobs = value_of(words, &at, "a number");
        else if (!strcmp(word, "--sshlogin")) options->machines = value_of(words, &at, "machines");
        else if (!strcmp(word, "--explain-to")) folders->explained_name = value_of(words, &at, "a folder");
        else if (!strcmp(word, "--summary")) options->summary = value_of(words, &at, "a file");
        else if (!strcmp(word, "--fresh")) options->is_fresh = true;
        else if (word[0] == '-' && word[1]) fail("there is no option %s (batch --help lists all)", shown(word));
        else if (count < 2) names[count++] = word;
        else count++;
    }
    if (count != 2) fail("usage: batch [OPTION..] NETS LISTINGS (batch --help lists all)");
    if (options->jobs && (strspn(options->jobs, "0123456789") != strlen(options->jobs) || atoi(options->jobs) < 1 || strlen(options->jobs) > 4)) fail("--jobs wants a number");
    folders->nets_name = names[0];
    folders->listings_name = names[1];
}

static unsigned processors(void) {
    cpu_set_t set;
    return sched_getaffinity(0, sizeof set, &set) == 0 ? (unsigned)CPU_COUNT(&set) : 1;
}

static uint64_t count_names(const struct folders *folders) {
    static char bytes[1 << 16];
    uint64_t count = 0;
    int file = openat(folders->state, "names", O_RDONLY | O_CLOEXEC);
    for (ssize_t got; file >= 0 && (got = read(file, bytes, sizeof bytes)) > 0;) {
        for (ssize_t i = 0; i < got; i++) count += bytes[i] == '\n';
    }
    if (file >= 0) close(file);
    return count;
}

int main(int count, char **words) {
    struct options options = {0};
    struct folders folders = {0};
    hold_standard_streams();
    const char *version = identity(), *script = getenv("KODARFI_BATCH");
    if (count == 2 && !strcmp(words[1], "--judge-there")) {
        judge_there(version);
        return 0;
    }
    folders.register_path = getenv("KODARFI_REGISTER");
    if (!script || !folders.register_path) fail("start the script 'batch', which starts this program");
    read_words(words, &options, &folders);
    open_folders(&folders, &options);
    signal(SIGPIPE, SIG_IGN);
    for (int k = 0; k < 3; k++) sigaction((int[]){SIGINT, SIGTERM, SIGHUP}[k], &(struct sigaction){.sa_handler = meet_signal}, NULL);
    open_state(&folders, version, options.is_fresh);
    bool all_seen = write_names(&folders);
    uint64_t names = count_names(&folders);
    if (signal_met) break_off();
    if (names == 0) fail("%s: no file in it", folders.nets_name);
    start_report(names, options.summary);
    bool is_all = !options.machines;
    for (int round = 0; !is_all && round < 2 && !signal_met; round++) {
        is_all = run_remote(&folders, options.machines, options.jobs, script, version);
        sort_journal(&folders);
    }
    run_pool(&folders, options.jobs && !options.machines ? (unsigned)atoi(options.jobs) : processors(), report);
    if (signal_met) break_off();
    close_journal();
    return end_report(all_seen, folders.nets_name);
}
