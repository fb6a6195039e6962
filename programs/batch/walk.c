/* The names of all files below NETS, sorted by their bytes. A name in a file of ours stands on a line of its own: control bytes and the backslash are
 * written as a backslash and three digits to the base 8. */
#define _GNU_SOURCE
#include "batch.h"

#include <dirent.h>
#include <errno.h>
#include <fcntl.h>
#include <stdlib.h>
#include <string.h>
#include <sys/stat.h>
#include <unistd.h>

void escape(const char *name, FILE *out) {
    for (const unsigned char *at = (const unsigned char *)name; *at; at++) {
        if (*at < 32 || *at == 127 || *at == '\\') fprintf(out, "\\%03o", *at);
        else putc(*at, out);
    }
}

void unescape(char *name) {
    char *to = name;
    for (char *at = name; *at; to++) {
        if (at[0] == '\\' && at[1] && at[2] && at[3]) {
            *to = (char)(((at[1] - '0') << 6) + ((at[2] - '0') << 3) + (at[3] - '0'));
            at += 4;
        } else {
            *to = *at++;
        }
    }
    *to = 0;
}

struct walk {
    FILE *out;
    struct stat listings, state;
    char *path;
    size_t room;
    bool all_seen;
};

static bool is_same(const struct stat *a, const struct stat *b) { return a->st_dev == b->st_dev && a->st_ino == b->st_ino; }

static void walk_folder(struct walk *walk, int file, size_t length);

static void walk_entry(struct walk *walk, int folder, size_t length, const struct dirent *entry) {
    size_t start = length ? length + 1 : 0, end = start + strlen(entry->d_name);
    if (end + 1 > walk->room) walk->path = must(realloc(walk->path, walk->room = 2 * (end + 1)));
    if (length) walk->path[length] = '/';
    memcpy(walk->path + start, entry->d_name, end - start + 1);
    bool is_folder = entry->d_type == DT_DIR;
    struct stat status;
    if (entry->d_type == DT_UNKNOWN) is_folder = fstatat(folder, entry->d_name, &status, AT_SYMLINK_NOFOLLOW) == 0 && S_ISDIR(status.st_mode);
    if (is_folder) {
        int file = openat(folder, entry->d_name, O_RDONLY | O_DIRECTORY | O_NOFOLLOW | O_CLOEXEC);
        walk_folder(walk, file, end);
    } else {
        escape(walk->path, walk->out);
        putc('\n', walk->out);
    }
    walk->path[length] = 0;
}

/* Takes the folder over, and closes it. The listings and the state may stand below NETS: they are no nets. */
static void walk_folder(struct walk *walk, int file, size_t length) {
    struct stat status;
    DIR *folder = file < 0 || fstat(file, &status) < 0 ? NULL : fdopendir(file);
    if (!folder) {
        say("%s: a folder that cannot be read: %s", shown(length ? walk->path : "."), strerror(errno));
        walk->all_seen = false;
        if (file >= 0) close(file);
        return;
    }
    if (!is_same(&status, &walk->listings) && !is_same(&status, &walk->state)) {
        const struct dirent *entry;
        for (errno = 0; !signal_met && (entry = readdir(folder)); errno = 0) {
            if (strcmp(entry->d_name, ".") && strcmp(entry->d_name, "..")) walk_entry(walk, dirfd(folder), length, entry);
        }
        if (errno) {
            say("%s: a folder that cannot be read: %s", shown(length ? walk->path : "."), strerror(errno));
            walk->all_seen = false;
        }
    }
    closedir(folder);
}

bool write_names(const struct folders *folders) {
    struct walk walk = {.room = 4096, .all_seen = true};
    int file = openat(folders->state, "found", O_WRONLY | O_CREAT | O_TRUNC | O_CLOEXEC, 0666);
    walk.out = file < 0 ? NULL : fdopen(file, "w");
    if (!walk.out) fail("%s: %s", folders->state_name, strerror(errno));
    if (fstat(folders->listings, &walk.listings) < 0 || fstat(folders->state, &walk.state) < 0) fail("%s: %s", folders->listings_name, strerror(errno));
    walk.path = must(calloc(1, walk.room));
    walk_folder(&walk, openat(folders->nets, ".", O_RDONLY | O_DIRECTORY | O_CLOEXEC), 0);
    if (fflush(walk.out) || ferror(walk.out)) fail("%s: %s", folders->state_name, strerror(errno));
    fclose(walk.out);
    free(walk.path);
    sort_file(folders, (const char *const[]){"found", NULL}, "names");
    unlinkat(folders->state, "found", 0);
    return walk.all_seen;
}
