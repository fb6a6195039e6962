/* The workers, one for each processor, and their answers in the order of the names.
 *
 * Nets are sent in chunks, at most two to a worker at a time, and a chunk's answers are handed on when those of all chunks before it have been. They stand in
 * memory that the worker shares with this process, and a byte says that a chunk is done: so a worker never waits for this process, and this process may wait for
 * a worker to take what it is sent.
 * Where a worker dies, the nets that it has not answered go to a new one; the net at which two workers died has failed. */
#define _GNU_SOURCE
#include "batch.h"

#include <errno.h>
#include <fcntl.h>
#include <poll.h>
#include <signal.h>
#include <stdlib.h>
#include <string.h>
#include <sys/mman.h>
#include <sys/stat.h>
#include <sys/wait.h>
#include <unistd.h>

enum { EACH = 2, MOST_WORKERS = 256 };

volatile int signal_met;

struct chunk {
    char *names[CHUNK];
    struct head heads[CHUNK];
    struct answers *answers;
    unsigned count, answered, deaths, died_at; /* how many workers died at net number died_at, one after another */
};

struct worker {
    pid_t process;
    int in, out;
    unsigned long chunks[EACH]; /* the numbers of the chunks it has, the first first */
    unsigned count;
};

struct pool {
    const struct folders *folders;
    struct worker workers[MOST_WORKERS];
    unsigned worker_count;
    struct chunk *ring;
    struct answers *answers; /* one for each chunk of the ring */
    unsigned long first, end, room; /* chunks first .. end - 1 are under way */
    FILE *names;
    char *line;
    size_t line_room;
    struct done *done;
    bool is_read;
};

static const struct folders *of_gone;

/* A net that is no longer there has no listing, and no words; one in a folder that cannot be read is there. */
static void remove_gone(const char *name) {
    struct stat status;
    if (fstatat(of_gone->nets, name, &status, AT_SYMLINK_NOFOLLOW) == 0 || (errno != ENOENT && errno != ENOTDIR)) return;
    if (of_gone->explained >= 0) unlinkat(of_gone->explained, name, 0);
    if (unlinkat(of_gone->listings, name, 0) == 0) say("%s/%s: no longer there; its listing is removed", of_gone->nets_name, shown(name));
}

static struct chunk *chunk_at(struct pool *pool, unsigned long number) { return &pool->ring[number % pool->room]; }

static void start_worker(struct pool *pool, unsigned k) {
    struct worker *worker = &pool->workers[k];
    int to[2], from[2];
    if (pipe2(to, O_CLOEXEC) < 0 || pipe2(from, O_CLOEXEC) < 0) fail("no pipe for a worker: %s", strerror(errno));
    fflush(NULL);
    worker->process = fork();
    if (worker->process < 0) fail("no process for a worker: %s", strerror(errno));
    if (worker->process == 0) {
        for (unsigned other = 0; other < pool->worker_count; other++) {
            if (other != k && pool->workers[other].process > 0) close(pool->workers[other].in), close(pool->workers[other].out);
        }
        close(to[1]);
        close(from[0]);
        work(pool->folders, (int)k, to[0], from[1]);
    }
    close(to[0]);
    close(from[1]);
    worker->in = to[1];
    worker->out = from[0];
}

/* Sends a chunk's nets, those that are not answered, in one piece; a worker that is gone is noticed where its bytes end. */
static void send_chunk(struct worker *worker, const struct chunk *chunk) {
    const struct order order = {chunk->answers, chunk->count - chunk->answered};
    size_t length = sizeof order;
    for (unsigned i = chunk->answered; i < chunk->count; i++) length += sizeof chunk->heads[i] + chunk->heads[i].length;
    char *message = must(malloc(length)), *end = mempcpy(message, &order, sizeof order);
    for (unsigned i = chunk->answered; i < chunk->count; i++) {
        end = mempcpy(end, &chunk->heads[i], sizeof chunk->heads[i]);
        end = mempcpy(end, chunk->names[i], chunk->heads[i].length);
    }
    (void)write_all(worker->in, message, length);
    free(message);
}

/* Fills a chunk with the next names; false where there is none left. */
static bool fill(struct pool *pool, struct chunk *chunk) {
    chunk->count = chunk->answered = chunk->deaths = 0;
    chunk->answers = &pool->answers[chunk - pool->ring];
    chunk->answers->count = 0;
    while (chunk->count < CHUNK && !pool->is_read) {
        ssize_t length = getline(&pool->line, &pool->line_room, pool->names);
        if (length <= 0) {
            pool->is_read = true;
            break;
        }
        pool->line[length - 1] = 0;
        unsigned i = chunk->count++;
        memset(&chunk->heads[i], 0, sizeof chunk->heads[i]);
        chunk->heads[i].is_done = is_done(pool->done, pool->line, &chunk->heads[i].old, remove_gone);
        chunk->names[i] = must(strdup(pool->line));
        unescape(chunk->names[i]);
        chunk->heads[i].length = (uint32_t)strlen(chunk->names[i]);
    }
    return chunk->count > 0;
}

static struct worker *freest(struct pool *pool) {
    struct worker *best = &pool->workers[0];
    for (unsigned k = 1; k < pool->worker_count; k++) {
        if (pool->workers[k].count < best->count) best = &pool->workers[k];
    }
    return best->count < EACH ? best : NULL;
}

static void dispatch(struct pool *pool) {
    struct worker *worker;
    while (!signal_met && pool->end - pool->first < pool->room && (worker = freest(pool)) && fill(pool, chunk_at(pool, pool->end))) {
        worker->chunks[worker->count++] = pool->end;
        send_chunk(worker, chunk_at(pool, pool->end));
        pool->end++;
    }
}

static void stop(const struct pool *pool, uint64_t error) {
    flush_journal(pool->folders);
    if (fcntl(pool->folders->nets, F_GETFD) >= 0) {
        struct stat status;
        if (fstat(pool->folders->nets, &status) == 0 && status.st_nlink == 0) fail("%s has gone; what is done stays done", pool->folders->nets_name);
    }
    fail("%s: %s; what is done stays done, start the batch again to go on", pool->folders->listings_name, strerror((int)error));
}

static void hand_on(struct pool *pool, void (*finished)(const char *, const struct result *)) {
    for (; pool->first < pool->end; pool->first++) {
        struct chunk *chunk = chunk_at(pool, pool->first);
        if (chunk->answered < chunk->count) return;
        for (unsigned i = 0; i < chunk->count; i++) {
            finished(chunk->names[i], &chunk->answers->results[i]);
            free(chunk->names[i]);
        }
    }
}

/* Takes the answers to a worker's first chunk, as far as they are there. */
static void take_answers(struct pool *pool, struct worker *worker) {
    struct chunk *chunk = chunk_at(pool, worker->chunks[0]);
    for (; chunk->answered < chunk->answers->count; chunk->answered++) {
        const struct result *result = &chunk->answers->results[chunk->answered];
        if (result->number == STOPPED) stop(pool, result->largest);
        if (!result->is_kept && result->number != FAILED) note_done(chunk->names[chunk->answered], result);
    }
    if (chunk->answered == chunk->count) {
        flush_journal(pool->folders);
        memmove(worker->chunks, worker->chunks + 1, sizeof worker->chunks - sizeof worker->chunks[0]);
        worker->count--;
    }
}

/* A worker is gone: a new one takes its nets, but for one at which a worker died before. */
static void replace(struct pool *pool, unsigned k) {
    struct worker *worker = &pool->workers[k];
    int status = 0;
    close(worker->in);
    close(worker->out);
    while (waitpid(worker->process, &status, 0) < 0 && errno == EINTR) {}
    worker->process = 0;
    if (worker->count) take_answers(pool, worker);
    struct chunk *chunk = worker->count ? chunk_at(pool, worker->chunks[0]) : NULL;
    if (chunk && chunk->died_at != chunk->answered) chunk->deaths = 0, chunk->died_at = chunk->answered;
    if (chunk && ++chunk->deaths > 1) {
        say("%s/%s: a worker ended by signal %d while judging it", pool->folders->nets_name, shown(chunk->names[chunk->answered]), WIFSIGNALED(status) ? WTERMSIG(status) : 0);
        chunk->deaths = 0;
        chunk->answers->results[chunk->answers->count++] = (struct result){.number = FAILED};
        take_answers(pool, worker);
    }
    start_worker(pool, k);
    for (unsigned c = 0; c < worker->count; c++) send_chunk(worker, chunk_at(pool, worker->chunks[c]));
}

static void read_answers(struct pool *pool, unsigned k) {
    char bytes[EACH];
    ssize_t got = read(pool->workers[k].out, bytes, sizeof bytes);
    if (got < 0 && errno == EINTR) return;
    if (got <= 0) replace(pool, k);
    for (ssize_t i = 0; i < got; i++) take_answers(pool, &pool->workers[k]);
}

static void end_workers(struct pool *pool) {
    for (unsigned k = 0; k < pool->worker_count; k++) close(pool->workers[k].in);
    for (unsigned k = 0; k < pool->worker_count; k++) {
        while (waitpid(pool->workers[k].process, NULL, 0) < 0 && errno == EINTR) {}
        close(pool->workers[k].out);
        char own[16];
        snprintf(own, sizeof own, "%u", k);
        unlinkat(pool->folders->state, own, 0);
    }
}

void run_pool(const struct folders *folders, unsigned workers, void (*finished)(const char *name, const struct result *result)) {
    static struct pool pool;
    int names = openat(folders->state, "names", O_RDONLY | O_CLOEXEC);
    pool = (struct pool){.folders = folders, .worker_count = workers < MOST_WORKERS ? workers : MOST_WORKERS, .done = open_done(folders)};
    pool.names = names < 0 ? NULL : fdopen(names, "r");
    if (!pool.names) fail("%s: %s", folders->state_name, strerror(errno));
    pool.room = 2 * EACH * pool.worker_count;
    pool.ring = must(calloc(pool.room, sizeof *pool.ring));
    pool.answers = mmap(NULL, pool.room * sizeof *pool.answers, PROT_READ | PROT_WRITE, MAP_SHARED | MAP_ANONYMOUS, -1, 0);
    if (pool.answers == MAP_FAILED) fail("no memory");
    of_gone = folders;
    for (unsigned k = 0; k < pool.worker_count; k++) start_worker(&pool, k);
    for (dispatch(&pool); pool.first < pool.end; dispatch(&pool)) {
        struct pollfd waits[MOST_WORKERS];
        for (unsigned k = 0; k < pool.worker_count; k++) waits[k] = (struct pollfd){.fd = pool.workers[k].out, .events = POLLIN};
        int ready = poll(waits, pool.worker_count, 1000);
        for (unsigned k = 0; ready > 0 && k < pool.worker_count; k++) {
            if (waits[k].revents) read_answers(&pool, k);
        }
        hand_on(&pool, finished);
        progress();
    }
    if (!signal_met) rest_gone(pool.done, remove_gone);
    end_workers(&pool);
    close_done(pool.done);
    fclose(pool.names);
    free(pool.ring);
    munmap(pool.answers, pool.room * sizeof *pool.answers);
    free(pool.line);
}
