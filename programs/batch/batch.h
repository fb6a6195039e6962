/* A batch: every file under one folder judged through the library, a listing for each under another (./batch --help).
 *
 *   walk.c     the names of all files, sorted, into a file
 *   journal.c  the state beside the listings: the lock, which version wrote them, and a line for each net that is done
 *   place.c    one net read and judged, one listing put into its place
 *   worker.c   a process that judges the nets it is sent
 *   pool.c     the workers, and their answers in the order of the names
 *   remote.c   other machines, through GNU parallel
 *   report.c   what is printed: refused and failed nets, progress, the summary
 *   main.c     the command line, and one pass over all names
 *
 * Memory does not grow with the number of files: names and journal are files, sorted by `sort` and read side by side. */
#ifndef BATCH_H
#define BATCH_H

#include <stdbool.h>
#include <stddef.h>
#include <stdint.h>
#include <stdio.h>

/* The first 65,536 bytes decide a file: the theorem first-bytes of the crate `listing`. */
enum { FILE_BYTES = 65536, LISTING_BYTES = 32768 };

/* What is known of a net: the file's size and time when it was judged, and what came out. */
struct result {
    int64_t size, seconds, nanoseconds;
    uint64_t places[2];
    uint64_t largest;  /* the largest limit of an entry, where the net is accepted */
    uint32_t number;   /* the papers' number of the refusal, 0 where the net is accepted, FAILED where nothing could be judged */
    uint16_t is_kept;  /* 1 where this was found in the journal and still holds */
    uint16_t is_bare;  /* 1 where plain words were asked for and could not be written */
};
#define FAILED UINT32_MAX
/* No more can be written: the batch stops. `largest` is then the error's number. */
#define STOPPED (UINT32_MAX - 1)

/* The folders of a batch. */
struct folders {
    const char *nets_name, *listings_name, *explained_name; /* as the caller gave them; explained_name is NULL where none was given */
    char *state_name;                                       /* LISTINGS.batch */
    int nets, listings, state, explained;
    bool is_quiet; /* nothing is said of a net that fails: another process says it */
    const char *register_path; /* the script that explains a refusal */
};

_Noreturn void fail(const char *format, ...) __attribute__((format(printf, 1, 2)));
void say(const char *format, ...) __attribute__((format(printf, 1, 2)));
void *must(void *memory);
/* Ends as the signal that was met asks for; what is done stays done. */
_Noreturn void break_off(void);
/* A name without control bytes, for people; the buffer is the function's own. */
const char *shown(const char *name);

/* walk.c: writes the names of all files below NETS into `names`, sorted; false where a folder could not be read. */
bool write_names(const struct folders *folders);
void escape(const char *name, FILE *out);
void unescape(char *name);

/* journal.c */
void open_state(struct folders *folders, const char *version, bool is_fresh);
void close_journal(void);
void sort_journal(const struct folders *folders);
void sort_file(const struct folders *folders, const char *const *from, const char *to);
void note_done(const char *name, const struct result *result);
void flush_journal(const struct folders *folders);
/* What the journal says of the nets, read in the order of the names. */
struct done;
struct done *open_done(const struct folders *folders);
/* Whether the net is done; calls `gone` for each net of the journal that stands before it, and so is no longer there. */
bool is_done(struct done *done, const char *name, struct result *result, void (*gone)(const char *name));
void rest_gone(struct done *done, void (*gone)(const char *name));
void close_done(struct done *done);

/* place.c */
bool read_net(const struct folders *folders, const char *name, uint8_t *bytes, size_t *length, struct result *result);
void judge(const uint8_t *bytes, size_t length, uint8_t *listing, size_t *written, struct result *result);
bool read_listing(const uint8_t *listing, size_t length, struct result *result);
void place(const struct folders *folders, const char *own, const char *name, const uint8_t *listing, size_t length, struct result *result);
bool explain(const struct folders *folders, const char *own, const char *name);
bool is_unchanged(const struct folders *folders, const char *name, const struct result *old);
bool write_all(int file, const void *bytes, size_t length);

/* worker.c: takes orders from `in`, and sends a byte to `out` for each that is done. An order is followed by a head and a name for each of its nets. */
enum { CHUNK = 32 };
/* Results of one order, in memory that the worker shares with the process that reads them. The first `count` are there. */
struct answers {
    struct result results[CHUNK];
    _Atomic unsigned count;
};
struct order { struct answers *answers; unsigned count; };
struct head { struct result old; uint32_t is_done, length; };
void work(const struct folders *folders, int number, int in, int out);

/* pool.c: judges all names on this machine; `finished` gets each net's result in the order of the names. */
void run_pool(const struct folders *folders, unsigned workers, void (*finished)(const char *name, const struct result *result));
extern volatile int signal_met;

/* remote.c: sends what is not done to other machines, and puts into place what comes back; whether all did. */
bool run_remote(const struct folders *folders, const char *machines, const char *jobs, const char *script, const char *version);
void judge_there(const char *version);

/* report.c */
void start_report(uint64_t count, const char *summary);
void report(const char *name, const struct result *result);
void progress(void);
/* A net that another machine has judged: for the progress alone. */
void progress_there(const struct result *result);
int end_report(bool all_seen, const char *nets_name);

#endif
