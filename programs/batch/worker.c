/* A process that judges the nets it is sent. */
#define _GNU_SOURCE
#include "batch.h"

#include <errno.h>
#include <fcntl.h>
#include <signal.h>
#include <stdlib.h>
#include <string.h>
#include <sys/prctl.h>
#include <sys/stat.h>
#include <unistd.h>

/* A net that cannot be read has no listing, not an old one either. But one that was there when the names were written, and now is not, keeps it: the next run
 * sees what is there then. Where all nets have gone, the batch stops. */
static void remove_old(const struct folders *folders, const char *name, struct result *result) {
    struct stat status;
    if (fstat(folders->nets, &status) < 0 || status.st_nlink == 0) {
        result->number = STOPPED;
        result->largest = ENOENT;
    } else if (fstatat(folders->nets, name, &status, AT_SYMLINK_NOFOLLOW) == 0 || (errno != ENOENT && errno != ENOTDIR)) {
        unlinkat(folders->listings, name, 0);
    }
}

static void judge_one(const struct folders *folders, const char *own, const char *name, struct result *result) {
    static uint8_t bytes[FILE_BYTES], listing[LISTING_BYTES];
    size_t length, written;
    if (!read_net(folders, name, bytes, &length, result)) {
        remove_old(folders, name, result);
        return;
    }
    judge(bytes, length, listing, &written, result);
    place(folders, own, name, listing, written, result);
}

/* The words are written where the net is refused and they are not there yet; those of a net that is not refused any more are removed. */
static void explain_one(const struct folders *folders, const char *own, const char *name, struct result *result) {
    struct stat status;
    if (folders->explained < 0 || result->number == STOPPED) return;
    if (result->number == 0 || result->number == FAILED) unlinkat(folders->explained, name, 0);
    else if (!result->is_kept || fstatat(folders->explained, name, &status, AT_SYMLINK_NOFOLLOW) < 0 || !S_ISREG(status.st_mode)) result->is_bare = !explain(folders, own, name);
}

/* The next net's head and name; false where there is none. */
static bool read_head(FILE *nets, struct head *head, char **name, size_t *room) {
    if (fread(head, sizeof *head, 1, nets) < 1) return false;
    if (head->length + 1 > *room) *name = must(realloc(*name, *room = head->length + 1));
    (*name)[head->length] = 0;
    return fread(*name, 1, head->length, nets) == head->length;
}

void work(const struct folders *folders, int number, int in, int out) {
    struct order order;
    struct head head;
    char own[16], *name = NULL;
    size_t room = 0;
    snprintf(own, sizeof own, "%d", number);
    signal(SIGINT, SIG_IGN);
    signal(SIGTERM, SIG_IGN);
    signal(SIGHUP, SIG_IGN);
    prctl(PR_SET_PDEATHSIG, SIGKILL);
    FILE *nets = must(fdopen(in, "r"));
    for (bool is_good = true; is_good && fread(&order, sizeof order, 1, nets) == 1;) {
        for (; is_good && order.count > 0 && read_head(nets, &head, &name, &room); order.count--) {
            struct result result = head.old;
            if (head.is_done && is_unchanged(folders, name, &head.old)) result.is_kept = 1;
            else judge_one(folders, own, name, &result);
            explain_one(folders, own, name, &result);
            order.answers->results[order.answers->count] = result;
            order.answers->count++;
            is_good = result.number != STOPPED;
        }
        is_good &= write_all(out, "", 1);
    }
    _exit(0);
}
