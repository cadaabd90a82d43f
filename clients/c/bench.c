/* Measures transactions by the calls of lcrvm.h, each beside the same changes by hand on two files, in alternating
   rounds.

   usage: bench [--short] [FOLDER]     (FOLDER: where the files stand, by itself where it runs)

   The store has 64 pages of 256 bytes and a log of 4,096 words; a change is 5 bytes at a random place, from a fixed
   seed. By hand a commit keeps the old bytes, sets the new ones in memory and makes a record of 64 bytes; a flush is
   four calls on a file of records: the records but for their first byte, a sync, that byte, a sync. An emptied log is
   one write of all pages and a sync, and one byte of the log and a sync. Both change the same bytes in the same
   order, and at the end they are compared. Before an opening with commits in the log a child commits, and ends
   without a close. With glibc the allocations of a lazy commit are counted. Threads commit side by side, each on a
   segment of its own, in a store of their own. They live on over all rounds, and a run lasts half a second: between
   truncations alone, and with them. It takes some 20 seconds in memory, and some minutes on a disk.

   cc -std=c11 -O2 -pthread -I../../include bench.c embedded.c ../../crates/lc_c/out/liblc_c.a KIT/c/liblibc_c.a \
       -o bench */
#define _DEFAULT_SOURCE

#include "lcrvm.h"

#include <fcntl.h>
#include <inttypes.h>
#include <pthread.h>
#include <sched.h>
#include <stdatomic.h>
#include <stdio.h>
#include <stdlib.h>
#include <string.h>
#include <sys/stat.h>
#include <sys/wait.h>
#include <time.h>
#include <unistd.h>

/* A size, by its numbers. */
#define SIZED(of_nodes, of_threads, of_segments, of_pages, of_words)                                                   \
    {.size = sizeof(struct lcrvm_geometry), .nodes = of_nodes, .threads = of_threads, .segments = of_segments,         \
     .pages = of_pages, .words = of_words}

enum {
    PAGES = 64,
    SEGMENT_BYTES = PAGES * 256,
    CHANGE_BYTES = 5,
    RECORD_BYTES = 64,
    LOG_WORDS = 4096,
    LOG_BYTES = LOG_WORDS * 8,
    GROUP = 8,
    MOST_CHANGES = 1200,
    MOST_ROUNDS = 9,
    MOST_WORKERS = 4,
    LOG_CHANGES = 480,   /* of all threads together; the log has room for as many records */
    LONG_BATCH = 48000,  /* of all threads together */
    THREAD_ROUNDS = 5,
    PATH_BYTES = 512,
    MARK = 0xa5
};

struct change {
    uint32_t offset;
    unsigned char bytes[CHANGE_BYTES];
};

/* What is done by hand: files of records and of pages, the bytes in memory, and the records that are in no file
   yet. */
struct hand {
    int log, pages;
    char log_path[PATH_BYTES], pages_path[PATH_BYTES];
    size_t pending, tail;
    unsigned seen;
    unsigned char memory[SEGMENT_BYTES], records[LOG_BYTES + 8];
};

struct bench {
    char folder[PATH_BYTES];
    struct lcrvm_options options;
    struct lcrvm_store *store;
    struct hand hand;
    uint64_t seed;
    struct change changes[MOST_CHANGES];
};

/* One kind of work: so many changes a round, of which so many are one unit. */
struct work {
    const char *name, *unit;
    int changes, short_changes, changes_of_unit;
    void (*prepare)(struct bench *bench, int count);
    void (*by_store)(struct bench *bench, int count);
    void (*by_hand)(struct bench *bench, int count);
};

/* How often memory was asked for, where that is known. */
static long asked;

#ifdef __GLIBC__
void *__libc_malloc(size_t size);
void *__libc_realloc(void *block, size_t size);

void *malloc(size_t size)
{
    asked++;
    return __libc_malloc(size);
}

void *realloc(void *block, size_t size)
{
    asked++;
    return __libc_realloc(block, size);
}
#endif

static void stop(const char *what)
{
    perror(what);
    exit(1);
}

static void need(struct bench *bench, enum lcrvm_status status)
{
    if (status == LCRVM_OK)
        return;
    fprintf(stderr, "bench: %s %s\n", lcrvm_status_text(status),
            bench->store != NULL ? lcrvm_fault_of(bench->store)->text : "");
    exit(1);
}

static double now(void)
{
    struct timespec at;
    clock_gettime(CLOCK_MONOTONIC, &at);
    return (double)at.tv_sec * 1e6 + (double)at.tv_nsec / 1e3;
}

/* Marsaglia's xorshift. */
static uint64_t random_number(struct bench *bench)
{
    bench->seed ^= bench->seed << 13;
    bench->seed ^= bench->seed >> 7;
    bench->seed ^= bench->seed << 17;
    return bench->seed;
}

static void choose_changes(struct bench *bench, int count)
{
    for (int i = 0; i < count; i++) {
        bench->changes[i].offset = (uint32_t)(random_number(bench) % (SEGMENT_BYTES - CHANGE_BYTES + 1));
        uint64_t bytes = random_number(bench);
        memcpy(bench->changes[i].bytes, &bytes, CHANGE_BYTES);
    }
}

/* ---- by the store */

static void open_store(struct bench *bench)
{
    struct lcrvm_fault fault = {.size = sizeof fault};
    if (lcrvm_open(bench->folder, &bench->options, &bench->store, &fault) != LCRVM_OK) {
        fprintf(stderr, "bench: %s %s\n", lcrvm_status_text(fault.status), fault.text);
        exit(1);
    }
}

static void close_store(struct bench *bench)
{
    enum lcrvm_status status = lcrvm_close(bench->store, NULL);
    bench->store = NULL;
    need(bench, status);
}

static uint32_t store_change(struct bench *bench, const struct change *change)
{
    const uint32_t segment = 1;
    uint32_t thread;
    need(bench, lcrvm_begin(bench->store, 0, &thread, &segment, 1, NULL, 0, 0));
    need(bench, lcrvm_put(bench->store, 0, thread, segment, change->offset, change->bytes, CHANGE_BYTES));
    return thread;
}

/* Commits the changes, and flushes after each group of so many; of none, never. */
static void store_commits(struct bench *bench, int count, int group)
{
    for (int i = 0; i < count; i++) {
        uint32_t thread = store_change(bench, &bench->changes[i]);
        need(bench, lcrvm_commit(bench->store, 0, &thread, group > 0 && (i + 1) % group == 0, NULL));
    }
}

static void store_lazy(struct bench *bench, int count)
{
    store_commits(bench, count, 0);
}

static void store_aborts(struct bench *bench, int count)
{
    for (int i = 0; i < count; i++) {
        uint32_t thread = store_change(bench, &bench->changes[i]);
        need(bench, lcrvm_abort(bench->store, 0, &thread));
    }
}

static void store_durable(struct bench *bench, int count)
{
    store_commits(bench, count, 1);
}

static void store_groups(struct bench *bench, int count)
{
    store_commits(bench, count, GROUP);
}

static void store_reopen(struct bench *bench, int count)
{
    (void)count;
    open_store(bench);
}

/* ---- by hand */

static void hand_open(struct hand *hand)
{
    hand->log = open(hand->log_path, O_RDWR | O_CREAT, 0666);
    hand->pages = open(hand->pages_path, O_RDWR | O_CREAT, 0666);
    if (hand->log < 0 || hand->pages < 0)
        stop("open");
}

static void hand_close(struct hand *hand)
{
    close(hand->log);
    close(hand->pages);
}

static void hand_write(int file, const void *bytes, size_t length, size_t at)
{
    if (pwrite(file, bytes, length, (off_t)at) != (ssize_t)length)
        stop("pwrite");
}

static void hand_sync(int file)
{
    if (fdatasync(file) != 0)
        stop("fdatasync");
}

/* Keeps the old bytes, sets the new ones, and gives the old ones back where it is an abort. */
static void hand_set(struct hand *hand, const struct change *change, bool aborts)
{
    unsigned char old[CHANGE_BYTES];
    unsigned char *place = hand->memory + change->offset;
    memcpy(old, place, CHANGE_BYTES);
    memcpy(place, change->bytes, CHANGE_BYTES);
    /* So that a compiler does not leave out what is taken back. */
    hand->seen += *(volatile unsigned char *)place;
    if (aborts)
        memcpy(place, old, CHANGE_BYTES);
}

static void hand_append(struct hand *hand, const struct change *change)
{
    unsigned char *record = hand->records + hand->tail + hand->pending;
    memset(record, 0, RECORD_BYTES);
    record[0] = MARK;
    memcpy(record + 32, &change->offset, sizeof change->offset);
    memcpy(record + 48, change->bytes, CHANGE_BYTES);
    hand->pending += RECORD_BYTES;
}

static void hand_flush(struct hand *hand)
{
    if (hand->pending == 0)
        return;
    const unsigned char *group = hand->records + hand->tail;
    memset(hand->records + hand->tail + hand->pending, 0, 8);
    hand_write(hand->log, group + 1, hand->pending + 7, hand->tail + 1);
    hand_sync(hand->log);
    hand_write(hand->log, group, 1, hand->tail);
    hand_sync(hand->log);
    hand->tail += hand->pending;
    hand->pending = 0;
}

static void hand_empty(struct hand *hand)
{
    const unsigned char closed = 0;
    hand_flush(hand);
    hand_write(hand->pages, hand->memory, SEGMENT_BYTES, 0);
    hand_sync(hand->pages);
    hand_write(hand->log, &closed, 1, 0);
    hand_sync(hand->log);
    hand->tail = 0;
}

static void hand_commits(struct bench *bench, int count, int group)
{
    struct hand *hand = &bench->hand;
    for (int i = 0; i < count; i++) {
        hand_set(hand, &bench->changes[i], false);
        if (hand->tail + hand->pending + RECORD_BYTES > LOG_BYTES)
            hand_empty(hand);
        hand_append(hand, &bench->changes[i]);
        if (group > 0 && (i + 1) % group == 0)
            hand_flush(hand);
    }
}

static void hand_lazy(struct bench *bench, int count)
{
    hand_commits(bench, count, 0);
}

static void hand_aborts(struct bench *bench, int count)
{
    for (int i = 0; i < count; i++)
        hand_set(&bench->hand, &bench->changes[i], true);
}

static void hand_durable(struct bench *bench, int count)
{
    hand_commits(bench, count, 1);
}

static void hand_groups(struct bench *bench, int count)
{
    hand_commits(bench, count, GROUP);
}

/* Reads the pages and the records, and does these; how many there were. */
static size_t hand_read(struct bench *bench)
{
    struct hand *hand = &bench->hand;
    hand_open(hand);
    ssize_t read_pages = pread(hand->pages, hand->memory, SEGMENT_BYTES, 0);
    ssize_t length = pread(hand->log, hand->records, LOG_BYTES + 8, 0);
    if (read_pages != SEGMENT_BYTES || length < 0)
        stop("pread");
    hand->tail = hand->pending = 0;
    for (; hand->tail + RECORD_BYTES <= (size_t)length && hand->records[hand->tail] == MARK;
         hand->tail += RECORD_BYTES) {
        uint32_t offset;
        memcpy(&offset, hand->records + hand->tail + 32, sizeof offset);
        memcpy(hand->memory + offset, hand->records + hand->tail + 48, CHANGE_BYTES);
    }
    return hand->tail / RECORD_BYTES;
}

/* Where there were records, it writes the pages and empties the log. */
static void hand_reopen(struct bench *bench, int count)
{
    (void)count;
    if (hand_read(bench) > 0)
        hand_empty(&bench->hand);
}

/* ---- before a round */

static void empty_both(struct bench *bench, int count)
{
    (void)count;
    need(bench, lcrvm_truncate(bench->store, 0, NULL));
    hand_empty(&bench->hand);
}

static void close_both(struct bench *bench, int count)
{
    empty_both(bench, count);
    close_store(bench);
    hand_close(&bench->hand);
}

/* A child commits, and ends as if it were killed. */
static void leave_commits(struct bench *bench, int count)
{
    int status = 1;
    empty_both(bench, count);
    close_store(bench);
    fflush(stdout);
    pid_t child = fork();
    if (child == 0) {
        open_store(bench);
        store_commits(bench, count, 0);
        need(bench, lcrvm_flush(bench->store, 0, NULL));
        _exit(0);
    }
    if (child < 0 || waitpid(child, &status, 0) != child || status != 0)
        stop("child");
    hand_commits(bench, count, 0);
    hand_flush(&bench->hand);
    hand_close(&bench->hand);
}

/* ---- the table */

static const struct work works[] = {
    {"lazy commits", "commit", 400, 40, 1, empty_both, store_lazy, hand_lazy},
    {"aborts", "abort", 400, 40, 1, empty_both, store_aborts, hand_aborts},
    {"durable commits", "commit", 32, 4, 1, empty_both, store_durable, hand_durable},
    {"durable commits, 8 to a flush", "8 commits", 256, 16, GROUP, empty_both, store_groups, hand_groups},
    {"opening after a clean close", "opening", 1, 1, 1, close_both, store_reopen, hand_reopen},
    {"opening with 400 commits in the log", "opening", 400, 400, 400, leave_commits, store_reopen, hand_reopen},
    {"sustained, 8 to a flush, with truncations", "commit", 1200, 600, 1, empty_both, store_groups, hand_groups},
};

static int compare(const void *left, const void *right)
{
    double one = *(const double *)left, two = *(const double *)right;
    return (one > two) - (one < two);
}

static double timed(void (*does)(struct bench *, int), struct bench *bench, int count)
{
    double start = now();
    does(bench, count);
    return now() - start;
}

/* Measures in turn, by the store first and by hand first, and prints the medians and the least of both. */
static void measure(struct bench *bench, const struct work *work, int rounds, bool is_short)
{
    double by_store[MOST_ROUNDS], by_hand[MOST_ROUNDS];
    int count = is_short ? work->short_changes : work->changes;
    double units = (double)count / work->changes_of_unit;
    for (int round = 0; round < rounds; round++) {
        choose_changes(bench, count);
        work->prepare(bench, count);
        if (round % 2 == 1)
            by_hand[round] = timed(work->by_hand, bench, count);
        by_store[round] = timed(work->by_store, bench, count);
        if (round % 2 == 0)
            by_hand[round] = timed(work->by_hand, bench, count);
    }
    qsort(by_store, (size_t)rounds, sizeof by_store[0], compare);
    qsort(by_hand, (size_t)rounds, sizeof by_hand[0], compare);
    double middle = by_store[rounds / 2] / units, plain = by_hand[rounds / 2] / units;
    printf("%-42s %-10s %11.1f %11.1f %11.3f %11.3f %8.2f\n", work->name, work->unit, middle, by_store[0] / units,
           plain, by_hand[0] / units, middle / plain);
    fflush(stdout);
}

/* How often lazy commits ask for memory, once the store has had as many. */
static void measure_allocations(struct bench *bench, int count)
{
    empty_both(bench, count);
    choose_changes(bench, count);
    long before = asked;
    store_commits(bench, count, 0);
    if (asked > 0)
        printf("\n%d lazy commits ask for memory %ld times\n", count, asked - before);
    hand_commits(bench, count, 0);
}

/* ---- threads that commit side by side, and live on over all rounds */

struct crew {
    struct bench *bench;
    int threads, count;     /* the commits of each in a batch */
    atomic_uint batch;      /* the last that was called */
    pthread_barrier_t made; /* where all have made it */
    atomic_bool is_over;
};

struct worker {
    struct crew *crew;
    uint32_t segment;
    double began, ended;
    pthread_t thread;
};

static void commit_beside_others(struct bench *bench, uint32_t segment, const struct change *change)
{
    uint32_t thread;
    need(bench, lcrvm_begin(bench->store, 0, &thread, &segment, 1, NULL, 0, 0));
    need(bench, lcrvm_put(bench->store, 0, thread, segment, change->offset, change->bytes, CHANGE_BYTES));
    need(bench, lcrvm_commit(bench->store, 0, &thread, false, NULL));
}

/* Makes each batch that is called, until it is over. */
static void *make_batches(void *given)
{
    struct worker *worker = given;
    struct crew *crew = worker->crew;
    for (unsigned batch = 1;; batch++) {
        while (atomic_load(&crew->batch) != batch)
            sched_yield();
        if (atomic_load(&crew->is_over))
            return NULL;
        worker->began = now();
        for (int i = 0; i < crew->count; i++)
            commit_beside_others(crew->bench, worker->segment, &crew->bench->changes[i % MOST_CHANGES]);
        worker->ended = now();
        pthread_barrier_wait(&crew->made);
    }
}

/* The time of a batch: from the first thread that began to the last that ended. */
static double timed_batch(struct crew *crew, const struct worker *workers)
{
    double began, ended;
    atomic_fetch_add(&crew->batch, 1);
    pthread_barrier_wait(&crew->made);
    began = workers[0].began;
    ended = workers[0].ended;
    for (int i = 1; i < crew->threads; i++) {
        began = workers[i].began < began ? workers[i].began : began;
        ended = workers[i].ended > ended ? workers[i].ended : ended;
    }
    return ended - began;
}

/* The time of a commit in a run of so long, by batches of so many commits of all together. Between truncations, each
   batch fits into the log, which is emptied after it, while no time is taken. */
static double timed_run(struct crew *crew, const struct worker *workers, bool between_truncations, double run)
{
    double took = 0, commits = 0;
    crew->count = (between_truncations ? LOG_CHANGES : LONG_BATCH) / crew->threads;
    choose_changes(crew->bench, MOST_CHANGES);
    while (took < run) {
        took += timed_batch(crew, workers);
        commits += (double)crew->count * crew->threads;
        if (between_truncations)
            need(crew->bench, lcrvm_truncate(crew->bench->store, 0, NULL));
    }
    return took / commits;
}

static void print_runs(struct crew *crew, const struct worker *workers, bool between_truncations, int rounds,
                       double run)
{
    double took[MOST_ROUNDS];
    for (int round = 0; round < rounds; round++)
        took[round] = timed_run(crew, workers, between_truncations, run);
    qsort(took, (size_t)rounds, sizeof took[0], compare);
    printf("lazy commits, %d side by side, %s: one each %.3f, least %.3f\n", crew->threads,
           between_truncations ? "between truncations" : "with their truncations", took[rounds / 2], took[0]);
    fflush(stdout);
}

static void measure_crew(struct bench *bench, int threads, int rounds, double run)
{
    struct worker workers[MOST_WORKERS];
    struct crew crew = {.bench = bench, .threads = threads};
    pthread_barrier_init(&crew.made, NULL, (unsigned)threads + 1);
    for (int i = 0; i < threads; i++) {
        workers[i] = (struct worker){.crew = &crew, .segment = (uint32_t)i + 1};
        if (pthread_create(&workers[i].thread, NULL, make_batches, &workers[i]) != 0)
            stop("pthread_create");
    }
    print_runs(&crew, workers, true, rounds, run);
    print_runs(&crew, workers, false, rounds, run);
    atomic_store(&crew.is_over, true);
    atomic_fetch_add(&crew.batch, 1);
    for (int i = 0; i < threads; i++)
        pthread_join(workers[i].thread, NULL);
    pthread_barrier_destroy(&crew.made);
}

static void measure_threads(const char *room, int rounds, double run)
{
    static const struct lcrvm_geometry geometry = SIZED(1, MOST_WORKERS, MOST_WORKERS, PAGES, LOG_WORDS);
    static struct bench bench;
    char path[PATH_BYTES + 8];
    snprintf(bench.folder, sizeof bench.folder, "%s/threads", room);
    bench.options = (struct lcrvm_options){.size = sizeof(struct lcrvm_options), .geometry = &geometry};
    bench.seed = UINT64_C(0x9e3779b97f4a7c15);
    need(&bench, lcrvm_create(bench.folder, &bench.options, NULL));
    open_store(&bench);
    printf("\n");
    for (int threads = 1; threads <= MOST_WORKERS; threads *= 2)
        measure_crew(&bench, threads, rounds, run);
    close_store(&bench);
    static const char *const names[] = {"lcrvm.store", "lcrvm.clean", "log0", "seg1", "seg2", "seg3", "seg4"};
    for (size_t i = 0; i < sizeof names / sizeof names[0]; i++) {
        snprintf(path, sizeof path, "%s/%s", bench.folder, names[i]);
        unlink(path);
    }
    rmdir(bench.folder);
}

/* Whether the store has the bytes that were made by hand. */
static bool agree(struct bench *bench)
{
    static unsigned char bytes[SEGMENT_BYTES];
    const uint32_t segment = 1;
    need(bench, lcrvm_begin_transaction(bench->store, 0, 0, NULL, 0, &segment, 1));
    need(bench, lcrvm_read(bench->store, 0, 0, segment, 0, bytes, SEGMENT_BYTES));
    need(bench, lcrvm_abort_transaction(bench->store, 0, 0));
    return memcmp(bytes, bench->hand.memory, SEGMENT_BYTES) == 0;
}

static void remove_files(const struct bench *bench, const char *room)
{
    char path[PATH_BYTES + 8];
    const char *const names[] = {"lcrvm.store", "lcrvm.clean", "log0", "seg1"};
    for (size_t i = 0; i < sizeof names / sizeof names[0]; i++) {
        snprintf(path, sizeof path, "%s/%s", bench->folder, names[i]);
        unlink(path);
    }
    rmdir(bench->folder);
    unlink(bench->hand.log_path);
    unlink(bench->hand.pages_path);
    rmdir(room);
}

int main(int count, char *words[])
{
    static const struct lcrvm_geometry geometry = SIZED(1, 1, 1, PAGES, LOG_WORDS);
    static struct bench bench;
    char room[PATH_BYTES / 2];
    bool is_short = count > 1 && strcmp(words[1], "--short") == 0;
    int first = is_short ? 2 : 1, rounds = is_short ? 3 : MOST_ROUNDS;
    if (count > first + 1) {
        fprintf(stderr, "usage: bench [--short] [FOLDER]\n");
        return 2;
    }
    snprintf(room, sizeof room, "%.200s/bench.XXXXXX", count > first ? words[first] : ".");
    if (mkdtemp(room) == NULL)
        stop(room);
    snprintf(bench.folder, sizeof bench.folder, "%s/store", room);
    snprintf(bench.hand.log_path, sizeof bench.hand.log_path, "%s/log", room);
    snprintf(bench.hand.pages_path, sizeof bench.hand.pages_path, "%s/pages", room);
    bench.options = (struct lcrvm_options){.size = sizeof(struct lcrvm_options), .geometry = &geometry};
    bench.seed = UINT64_C(0x9e3779b97f4a7c15);
    need(&bench, lcrvm_create(bench.folder, &bench.options, NULL));
    open_store(&bench);
    hand_open(&bench.hand);

    printf("microseconds for one; %d rounds, seed %" PRIx64 "\n\n", rounds, bench.seed);
    printf("%-42s %-10s %11s %11s %11s %11s %8s\n", "", "one", "median", "least", "by hand", "least", "ratio");
    for (size_t i = 0; i < sizeof works / sizeof works[0]; i++)
        measure(&bench, &works[i], rounds, is_short);
    measure_allocations(&bench, works[0].changes);
    measure_threads(room, is_short ? rounds : THREAD_ROUNDS, is_short ? 1e4 : 5e5);
    bool same = agree(&bench);
    printf("%s\n", same ? "both have the same bytes" : "failed: the bytes differ");
    close_store(&bench);
    hand_close(&bench.hand);
    remove_files(&bench, room);
    return same ? 0 : 1;
}
