/* A program whose threads share a store (clients/c/embedded.c), for tests/threads.sh.

   usage: threads_test MODE FOLDER [N]     (stores are made below the folder; of lives, runs and shows it is the store)

          commits     16 threads make N durable commits each, on a log of 256 words and on a large one
          syncs       16 threads make 480 durable commits where a sync takes 2 ms: at most 250 syncs
          crowd       24 threads, of which 16 can have a transaction, on a log of 64 words: with short waits, aborts,
                      records that are too long, and waits for themselves
          shares      8 threads call 3 transactions without any order among them
          waits       who waits for whom, in what order, and who would wait for itself
          ends        closes beside others, and faults of other threads
          faults      a sync fails while 16 threads commit
          forks       children beside a thread that waits, threads that commit and stores that are opened
          lives       forks a child that lives as long as its input, prints its number, and commits until it is killed
          runs        four threads commit on a log of 128 words and print each number that is stable, until killed
          shows       prints the four numbers that the store has, where its sums are right
          copies      makes N copies beside four threads that commit, and recovers each
          cuts        cuts the power N times beside eight threads that commit, and recovers what a device has then: of
                      what was written since the last sync of its file any bytes
          figures     how long a commit of 16 threads takes at most, beside the median

   Each commit of a thread moves an amount between two accounts, of one segment or of two, and adds one to the thread's
   own number. So the sum of all accounts is 0, and the numbers are those of the commits. */
#define _GNU_SOURCE
#include "lcrvm.h"

#include <dirent.h>
#include <errno.h>
#include <fcntl.h>
#include <inttypes.h>
#include <pthread.h>
#include <stdatomic.h>
#include <stdio.h>
#include <stdlib.h>
#include <string.h>
#include <sys/stat.h>
#include <sys/syscall.h>
#include <sys/wait.h>
#include <time.h>
#include <unistd.h>

/* A size, by its numbers. */
#define SIZED(of_nodes, of_threads, of_segments, of_pages, of_words)                                                   \
    {.size = sizeof(struct lcrvm_geometry), .nodes = of_nodes, .threads = of_threads, .segments = of_segments,         \
     .pages = of_pages, .words = of_words}

enum {
    THREADS = 16,
    SEGMENTS = 4,
    NUMBERS_AT = 0, /* the numbers of the threads, of 8 bytes each, in segment 1 */
    ACCOUNTS_AT = 256,
    ACCOUNTS = 24, /* of a segment */
    PATH_BYTES = 512,
    MOST_SYNCS = 250,
    DURABLE_COMMITS = 480,
    A_MINUTE = 60000
};

static const struct lcrvm_geometry tight = SIZED(1, 16, SEGMENTS, 2, 256), wide = SIZED(1, 16, SEGMENTS, 2, 4096);
static const struct lcrvm_geometry tighter = SIZED(1, 16, SEGMENTS, 2, 128);
static atomic_int wrong;

#define ANSWERS(call, wanted) answers((call), (wanted), #call, __LINE__)
#define CHECK(fact) check((fact), #fact, __LINE__)

static bool answers(enum lcrvm_status status, enum lcrvm_status wanted, const char *text, int line)
{
    if (status == wanted)
        return true;
    fprintf(stderr, "line %d: %s: %s, and not %s: %s\n", line, text, lcrvm_status_text(status),
            lcrvm_status_text(wanted), lcrvm_fault_of(NULL)->text);
    atomic_fetch_add(&wrong, 1);
    return false;
}

static bool check(bool fact, const char *text, int line)
{
    if (!fact) {
        fprintf(stderr, "line %d: not so: %s\n", line, text);
        atomic_fetch_add(&wrong, 1);
    }
    return fact;
}

static void equals(int64_t found, int64_t wanted, const char *what)
{
    if (found == wanted)
        return;
    fprintf(stderr, "%s: %" PRId64 ", and not %" PRId64 "\n", what, found, wanted);
    atomic_fetch_add(&wrong, 1);
}

static double now(void)
{
    struct timespec at;

    clock_gettime(CLOCK_MONOTONIC, &at);
    return (double)at.tv_sec * 1e6 + (double)at.tv_nsec / 1e3;
}

/* ---- syncs, in place of the C library's: they are counted, may take long, and one may fail */

static atomic_long syncs, failing, longest_sync;
static long sync_nanoseconds;

static int timed_sync(int file)
{
    double start = now();
    int status = (int)syscall(SYS_fdatasync, file);
    long took = (long)(now() - start);

    if (took > atomic_load(&longest_sync))
        atomic_store(&longest_sync, took);
    return status;
}

/* What a device has of a store's files, where they are watched: what is stable, and what was written since. */

enum { FILES = 5, MOST_FILE = 4097 * 8, MOST_WRITES = 4096 };

struct written {
    size_t at, len;
    unsigned char *bytes;
};

struct watched {
    const char *name;
    ino_t inode;
    size_t len, count;
    unsigned char stable[MOST_FILE];
    struct written since[MOST_WRITES];
};

static struct watched watched[FILES] = {
    {.name = "log0"}, {.name = "seg1"}, {.name = "seg2"}, {.name = "seg3"}, {.name = "seg4"}};
static pthread_mutex_t device = PTHREAD_MUTEX_INITIALIZER;
static atomic_bool watches;

static struct watched *watched_file(int file)
{
    struct stat at;

    if (!atomic_load(&watches) || fstat(file, &at) != 0)
        return NULL;
    for (int i = 0; i < FILES; i++)
        if (watched[i].inode == at.st_ino)
            return &watched[i];
    return NULL;
}

static void note_write(struct watched *watch, const void *bytes, size_t len, size_t at)
{
    struct written write = {at, len, malloc(len)};

    if (write.bytes == NULL)
        abort();
    memcpy(write.bytes, bytes, len);
    pthread_mutex_lock(&device);
    if (watch->count == MOST_WRITES)
        abort();
    watch->since[watch->count++] = write;
    pthread_mutex_unlock(&device);
}

static size_t writes_of(const struct watched *watch)
{
    size_t count;

    pthread_mutex_lock(&device);
    count = watch->count;
    pthread_mutex_unlock(&device);
    return count;
}

/* A sync of the file has ended: what was written before it began is stable. */
static void note_sync(struct watched *watch, size_t count)
{
    pthread_mutex_lock(&device);
    for (size_t i = 0; i < count; i++) {
        memcpy(watch->stable + watch->since[i].at, watch->since[i].bytes, watch->since[i].len);
        free(watch->since[i].bytes);
    }
    memmove(watch->since, watch->since + count, (watch->count - count) * sizeof watch->since[0]);
    watch->count -= count;
    pthread_mutex_unlock(&device);
}

ssize_t pwrite(int file, const void *bytes, size_t len, off_t at)
{
    struct watched *watch = watched_file(file);

    if (watch != NULL)
        note_write(watch, bytes, len, (size_t)at);
    return syscall(SYS_pwrite64, file, bytes, len, at);
}

int fdatasync(int file)
{
    const struct timespec time = {0, sync_nanoseconds};
    struct watched *watch = watched_file(file);
    size_t writes = watch != NULL ? writes_of(watch) : 0;
    int status;

    if (atomic_fetch_add(&syncs, 1) + 1 == atomic_load(&failing)) {
        errno = EIO;
        return -1;
    }
    if (sync_nanoseconds > 0)
        nanosleep(&time, NULL);
    status = timed_sync(file);
    if (status == 0 && watch != NULL)
        note_sync(watch, writes);
    return status;
}

/* ---- stores and their accounts */

static const char *path_below(const char *folder, const char *name, char path[PATH_BYTES])
{
    snprintf(path, PATH_BYTES, "%.400s/%.100s", folder, name);
    return path;
}

static struct lcrvm_store *opened(const char *path)
{
    struct lcrvm_store *store;
    struct lcrvm_fault fault = {.size = sizeof fault};

    if (lcrvm_open(path, NULL, &store, &fault) != LCRVM_OK) {
        fprintf(stderr, "%s is not opened: %s %s\n", path, lcrvm_status_text(fault.status), fault.text);
        exit(1);
    }
    return store;
}

static struct lcrvm_store *made(const char *path, const struct lcrvm_geometry *geometry)
{
    const struct lcrvm_options options = {.size = sizeof options, .geometry = geometry};
    struct lcrvm_fault fault = {.size = sizeof fault};

    if (lcrvm_create(path, &options, &fault) != LCRVM_OK) {
        fprintf(stderr, "%s is not made: %s %s\n", path, lcrvm_status_text(fault.status), fault.text);
        exit(1);
    }
    return opened(path);
}

static struct lcrvm_store *made_below(const char *folder, const char *name, const struct lcrvm_geometry *geometry)
{
    char path[PATH_BYTES];

    return made(path_below(folder, name, path), geometry);
}

/* It opens nothing: a child would have it too. */
static void remove_store(const char *path)
{
    static const char *const names[] = {"lcrvm.store", "log0", "seg1", "seg2", "seg3", "seg4"};
    char name[PATH_BYTES * 2];

    for (size_t i = 0; i < sizeof names / sizeof names[0]; i++) {
        snprintf(name, sizeof name, "%s/%s", path, names[i]);
        CHECK(unlink(name) == 0);
    }
    snprintf(name, sizeof name, "%s/lcrvm.clean", path);
    unlink(name);
    CHECK(rmdir(path) == 0);
}

/* Adds to eight bytes. */
static enum lcrvm_status add(struct lcrvm_store *store, uint32_t thread, uint32_t segment, uint32_t offset,
                             int64_t more)
{
    int64_t value = 0;
    enum lcrvm_status status = lcrvm_read(store, 0, thread, segment, offset, &value, sizeof value);

    value += more;
    return status == LCRVM_OK ? lcrvm_put(store, 0, thread, segment, offset, &value, sizeof value) : status;
}

/* One transaction of a thread of the program: it reads, moves an amount, and adds one to its number, which is
   handed out. */
static enum lcrvm_status move(struct lcrvm_store *store, uint32_t self, uint64_t *seed, bool durable, int64_t *number)
{
    uint32_t from, to, segments[3] = {1}, thread;
    size_t count = 1;
    int64_t amount;
    enum lcrvm_status status;

    *seed = *seed * UINT64_C(6364136223846793005) + UINT64_C(1442695040888963407);
    from = (uint32_t)(*seed >> 33) % SEGMENTS + 1;
    to = (uint32_t)(*seed >> 40) % SEGMENTS + 1;
    amount = (int64_t)(*seed >> 50);
    if (from > 1)
        segments[count++] = from;
    if (to > 1 && to != from)
        segments[count++] = to;
    status = lcrvm_begin(store, 0, &thread, segments, count, NULL, 0, A_MINUTE);
    if (status != LCRVM_OK)
        return status;
    status = add(store, thread, from, ACCOUNTS_AT + 8 * ((uint32_t)(*seed >> 20) % ACCOUNTS), -amount);
    if (status == LCRVM_OK)
        status = add(store, thread, to, ACCOUNTS_AT + 8 * ((uint32_t)(*seed >> 25) % ACCOUNTS), amount);
    if (status == LCRVM_OK)
        status = add(store, thread, 1, NUMBERS_AT + 8 * self, 1);
    if (status == LCRVM_OK)
        status = lcrvm_read(store, 0, thread, 1, NUMBERS_AT + 8 * self, number, sizeof *number);
    if (status == LCRVM_OK && (*seed >> 12) % 16 == 0 && !durable) {
        --*number;
        return lcrvm_abort(store, 0, &thread);
    }
    return status == LCRVM_OK ? lcrvm_commit(store, 0, &thread, durable, NULL) : status;
}

/* Reads the numbers of the threads, and answers the sum of all accounts. */
static int64_t sum_of(struct lcrvm_store *store, int64_t numbers[THREADS])
{
    static const uint32_t all[] = {1, 2, 3, 4};
    int64_t accounts[ACCOUNTS], sum = 0;
    uint32_t thread;

    if (!ANSWERS(lcrvm_begin(store, 0, &thread, NULL, 0, all, SEGMENTS, A_MINUTE), LCRVM_OK))
        return 1;
    ANSWERS(lcrvm_read(store, 0, thread, 1, NUMBERS_AT, numbers, 8 * THREADS), LCRVM_OK);
    for (uint32_t segment = 1; segment <= SEGMENTS; segment++) {
        ANSWERS(lcrvm_read(store, 0, thread, segment, ACCOUNTS_AT, accounts, sizeof accounts), LCRVM_OK);
        for (int account = 0; account < ACCOUNTS; account++)
            sum += accounts[account];
    }
    ANSWERS(lcrvm_commit(store, 0, &thread, true, NULL), LCRVM_OK);
    return sum;
}

/* ---- threads that commit */

struct worker {
    struct lcrvm_store *store;
    uint32_t self;
    int count;
    bool durable, prints;
    atomic_bool *stop;
    atomic_int_fast64_t acked; /* the last number that was stable */
    enum lcrvm_status status;
    double *times; /* of each commit, in microseconds, where they are wanted, */
    double *turns; /* and how many commits of others ended meanwhile */
    pthread_t thread;
};

static atomic_long ended;

static void *work(void *argument)
{
    struct worker *worker = argument;
    uint64_t seed = worker->self * 7919 + 17;

    for (int i = 0; i < worker->count && (worker->stop == NULL || !atomic_load(worker->stop)); i++) {
        bool durable = worker->durable || i % 3 == 0;
        double start = worker->times != NULL ? now() : 0;
        long before = atomic_load(&ended);
        int64_t number = 0;

        worker->status = move(worker->store, worker->self, &seed, durable, &number);
        if (worker->status != LCRVM_OK)
            return NULL;
        if (worker->times != NULL) {
            worker->times[i] = now() - start;
            worker->turns[i] = (double)(atomic_fetch_add(&ended, 1) - before);
        }
        if (durable)
            atomic_store(&worker->acked, number);
        if (worker->prints) {
            char line[64];
            int length = snprintf(line, sizeof line, "%u %" PRId64 "\n", (unsigned)worker->self, number);

            (void)!write(STDOUT_FILENO, line, (size_t)length);
        }
    }
    return NULL;
}

static void start(struct worker *workers, uint32_t count, struct lcrvm_store *store, int commits, bool durable,
                  atomic_bool *stop)
{
    for (uint32_t self = 0; self < count; self++) {
        workers[self].store = store;
        workers[self].self = self;
        workers[self].count = commits;
        workers[self].durable = durable;
        workers[self].stop = stop;
        if (pthread_create(&workers[self].thread, NULL, work, &workers[self]) != 0) {
            perror("pthread_create");
            exit(1);
        }
    }
}

static void join(struct worker *workers, uint32_t count)
{
    for (uint32_t self = 0; self < count; self++)
        pthread_join(workers[self].thread, NULL);
}

/* Every thread has made its commits. */
static void check_all(struct lcrvm_store *store, const struct worker *workers, uint32_t count, int64_t commits)
{
    int64_t numbers[THREADS];

    equals(sum_of(store, numbers), 0, "the sum");
    for (uint32_t self = 0; self < count; self++) {
        equals(workers[self].status, LCRVM_OK, "the last answer of a thread");
        equals(numbers[self], commits, "the number of a thread");
    }
}

static void commits_on(const char *folder, const char *name, const struct lcrvm_geometry *geometry, int commits)
{
    static struct worker none[THREADS];
    struct worker workers[THREADS];
    struct lcrvm_store *store = made_below(folder, name, geometry);
    char path[PATH_BYTES];

    memcpy(workers, none, sizeof workers);
    start(workers, THREADS, store, commits, true, NULL);
    join(workers, THREADS);
    check_all(store, workers, THREADS, commits);
    ANSWERS(lcrvm_close(store, NULL), LCRVM_OK);
    store = opened(path_below(folder, name, path));
    check_all(store, workers, THREADS, commits);
    ANSWERS(lcrvm_close(store, NULL), LCRVM_OK);
}

static int commits(const char *folder, int count)
{
    commits_on(folder, "tight", &tight, count);
    commits_on(folder, "wide", &wide, count);
    return wrong != 0;
}

/* Threads that commit at once share a flush: one whose commit is stable behind another's makes none. */
static int syncs_shared(const char *folder, int count)
{
    static struct worker workers[THREADS];
    struct lcrvm_store *store = made_below(folder, "syncs", NULL);
    long before = atomic_load(&syncs), after;

    (void)count;
    sync_nanoseconds = 2000000;
    start(workers, THREADS, store, DURABLE_COMMITS / THREADS, true, NULL);
    join(workers, THREADS);
    after = atomic_load(&syncs);
    sync_nanoseconds = 0;
    printf("%d durable commits of %d threads: %ld syncs\n", DURABLE_COMMITS, THREADS, after - before);
    CHECK(after - before <= MOST_SYNCS);
    check_all(store, workers, THREADS, DURABLE_COMMITS / THREADS);
    ANSWERS(lcrvm_close(store, NULL), LCRVM_OK);
    return wrong != 0;
}

/* ---- a crowd */

enum { CROWD = 24, CROWD_TURNS = 150 };

/* A record that is longer than the log is refused, with the transaction open as before; and who wants more than it has
   is told so at once. */
static void ask_too_much(struct lcrvm_store *store, uint32_t thread, uint32_t segment, int64_t number)
{
    uint32_t further;
    int64_t found = 0;

    ANSWERS(lcrvm_begin(store, 0, &further, &segment, 1, NULL, 0, UINT32_MAX), LCRVM_BUSY);
    ANSWERS(lcrvm_set_range(store, 0, thread, segment, 0, 512), LCRVM_OK);
    ANSWERS(lcrvm_commit(store, 0, &thread, true, NULL), LCRVM_FULL);
    ANSWERS(lcrvm_read(store, 0, thread, segment, ACCOUNTS_AT, &found, sizeof found), LCRVM_OK);
    equals(found, number, "what a transaction wrote whose end was refused");
    ANSWERS(lcrvm_abort(store, 0, &thread), LCRVM_OK);
}

static void *press(void *argument)
{
    struct worker *worker = argument;
    uint64_t seed = worker->self * 104729 + 3;

    for (int turn = 0; turn < CROWD_TURNS; turn++) {
        uint32_t waits[] = {0, 1, A_MINUTE, A_MINUTE}, segment, thread, kind;
        int64_t number = 0;
        enum lcrvm_status status;

        seed = seed * UINT64_C(6364136223846793005) + UINT64_C(1442695040888963407);
        segment = (uint32_t)(seed >> 33) % SEGMENTS + 1;
        kind = (uint32_t)(seed >> 45) % 16;
        status = lcrvm_begin(worker->store, 0, &thread, &segment, 1, NULL, 0, waits[(seed >> 55) % 4]);
        if (status == LCRVM_BUSY)
            continue;
        ANSWERS(status, LCRVM_OK);
        ANSWERS(add(worker->store, thread, segment, ACCOUNTS_AT, 1), LCRVM_OK);
        ANSWERS(lcrvm_read(worker->store, 0, thread, segment, ACCOUNTS_AT, &number, sizeof number), LCRVM_OK);
        if (kind == 0)
            ask_too_much(worker->store, thread, segment, number);
        else if (kind == 1)
            ANSWERS(lcrvm_abort(worker->store, 0, &thread), LCRVM_OK);
        else if (ANSWERS(lcrvm_commit(worker->store, 0, &thread, kind < 6, NULL), LCRVM_OK))
            worker->count++;
    }
    return NULL;
}

/* The first accounts have as many as there were commits. */
static int crowd(const char *folder, int count)
{
    static const struct lcrvm_geometry least = SIZED(1, 16, SEGMENTS, 2, 64);
    static struct worker workers[CROWD];
    struct lcrvm_store *store = made_below(folder, "crowd", &least);
    int64_t numbers[THREADS], sum = 0;

    (void)count;
    alarm(200);
    for (uint32_t self = 0; self < CROWD; self++) {
        workers[self] = (struct worker){.store = store, .self = self};
        CHECK(pthread_create(&workers[self].thread, NULL, press, &workers[self]) == 0);
    }
    join(workers, CROWD);
    for (int self = 0; self < CROWD; self++)
        sum += workers[self].count;
    equals(sum_of(store, numbers), sum, "the commits of a crowd");
    CHECK(sum > 0);
    ANSWERS(lcrvm_close(store, NULL), LCRVM_OK);
    return wrong != 0;
}

/* ---- threads that share transactions, though each is to be used by one thread at a time */

enum { SHARERS = 8, SHARED = 3, SHARED_TURNS = 20000, CELL = 8, CELLS = 512 / CELL };

/* Whether the bytes of a cell are equal, as each put leaves them. */
static bool is_whole(const unsigned char *cell)
{
    for (int at = 1; at < CELL; at++)
        if (cell[at] != cell[0])
            return false;
    return true;
}

static void *share(void *argument)
{
    struct worker *worker = argument;
    uint64_t seed = worker->self * 7919 + 5;

    for (int turn = 0; turn < SHARED_TURNS; turn++) {
        unsigned char cell[CELL];
        uint32_t thread, segment, offset;
        enum lcrvm_status status;

        seed = seed * UINT64_C(6364136223846793005) + UINT64_C(1442695040888963407);
        thread = (uint32_t)(seed >> 33) % SHARED;
        segment = thread + 1;
        offset = (uint32_t)(seed >> 40) % CELLS * CELL;
        memset(cell, (int)(seed >> 56), CELL);
        switch ((seed >> 50) % 16) {
        case 0:
        case 1:
            status = lcrvm_begin_transaction(worker->store, 0, thread, &segment, 1, NULL, 0);
            break;
        case 2:
            status = lcrvm_end_transaction(worker->store, 0, thread, (seed >> 55) % 8 == 0, NULL);
            worker->count += status == LCRVM_OK;
            break;
        case 3:
            status = lcrvm_abort_transaction(worker->store, 0, thread);
            break;
        case 4:
        case 5:
        case 6:
        case 7:
            status = lcrvm_read(worker->store, 0, thread, segment, offset, cell, CELL);
            CHECK(is_whole(cell));
            break;
        default:
            status = lcrvm_put(worker->store, 0, thread, segment, offset, cell, CELL);
            break;
        }
        if (status != LCRVM_OK)
            ANSWERS(status, LCRVM_OUT_OF_TURN);
    }
    return NULL;
}

/* Takes what a segment holds, and looks that each cell is whole. */
static void take_cells(struct lcrvm_store *store, uint32_t segment, unsigned char bytes[CELLS * CELL])
{
    uint32_t thread;

    ANSWERS(lcrvm_begin(store, 0, &thread, NULL, 0, &segment, 1, 0), LCRVM_OK);
    ANSWERS(lcrvm_read(store, 0, thread, segment, 0, bytes, CELLS * CELL), LCRVM_OK);
    ANSWERS(lcrvm_abort(store, 0, &thread), LCRVM_OK);
    for (int cell = 0; cell < CELLS; cell++)
        CHECK(is_whole(bytes + cell * CELL));
}

/* Each call finds a transaction as another one left it, and the store holds what its commits put. */
static int shares(const char *folder, int count)
{
    static struct worker workers[SHARERS];
    static unsigned char before[SHARED][CELLS * CELL], then[CELLS * CELL];
    struct lcrvm_store *store = made_below(folder, "shares", &tight);
    char path[PATH_BYTES];
    int64_t commits_made = 0;

    (void)count;
    alarm(200);
    for (uint32_t self = 0; self < SHARERS; self++) {
        workers[self] = (struct worker){.store = store, .self = self};
        CHECK(pthread_create(&workers[self].thread, NULL, share, &workers[self]) == 0);
    }
    join(workers, SHARERS);
    for (int self = 0; self < SHARERS; self++)
        commits_made += workers[self].count;
    CHECK(commits_made > 0);
    for (uint32_t thread = 0; thread < SHARED; thread++) {
        enum lcrvm_status status = lcrvm_abort_transaction(store, 0, thread);

        CHECK(status == LCRVM_OK || status == LCRVM_OUT_OF_TURN);
        take_cells(store, thread + 1, before[thread]);
    }
    ANSWERS(lcrvm_close(store, NULL), LCRVM_OK);
    store = opened(path_below(folder, "shares", path));
    for (uint32_t thread = 0; thread < SHARED; thread++) {
        take_cells(store, thread + 1, then);
        CHECK(memcmp(before[thread], then, sizeof then) == 0);
    }
    ANSWERS(lcrvm_close(store, NULL), LCRVM_OK);
    return wrong != 0;
}

static int by_size(const void *left, const void *right)
{
    double one = *(const double *)left, other = *(const double *)right;

    return (one > other) - (one < other);
}

/* The one in the middle and the greatest. */
static void print_numbers(const char *what, double *numbers, size_t count)
{
    qsort(numbers, count, sizeof *numbers, by_size);
    printf("  %s: %.0f in the middle, %.0f at most, %.1f times\n", what, numbers[count / 2], numbers[count - 1],
           numbers[count - 1] / numbers[count / 2]);
}

static void print_times(const char *folder, const char *name, const struct lcrvm_geometry *geometry, int commits)
{
    static struct worker none[THREADS];
    struct worker workers[THREADS];
    struct lcrvm_store *store = made_below(folder, name, geometry);
    size_t count = (size_t)commits * THREADS;
    double *times = calloc(count, sizeof *times), *turns = calloc(count, sizeof *turns), start_at;

    if (times == NULL || turns == NULL)
        exit(1);
    memcpy(workers, none, sizeof workers);
    for (uint32_t self = 0; self < THREADS; self++) {
        workers[self].times = times + (size_t)self * (size_t)commits;
        workers[self].turns = turns + (size_t)self * (size_t)commits;
    }
    atomic_store(&longest_sync, 0);
    start_at = now();
    start(workers, THREADS, store, commits, true, NULL);
    join(workers, THREADS);
    printf("%u words: %zu durable commits of %d threads in %.0f ms; a sync takes %ld us at most; for one\n",
           (unsigned)geometry->words, count, THREADS, (now() - start_at) / 1e3, atomic_load(&longest_sync));
    print_numbers("microseconds", times, count);
    print_numbers("commits of others that end meanwhile", turns, count);
    free(times);
    free(turns);
    check_all(store, workers, THREADS, commits);
    ANSWERS(lcrvm_close(store, NULL), LCRVM_OK);
}

static int figures(const char *folder, int count)
{
    print_times(folder, "tight", &tight, count);
    print_times(folder, "wide", &wide, count);
    /* What a device adds of its own is left out where each sync takes as long. */
    sync_nanoseconds = 1000000;
    printf("where a sync takes 1 ms longer:\n");
    print_times(folder, "slow", &tight, count / 4);
    sync_nanoseconds = 0;
    return wrong != 0;
}

/* ---- who waits for whom */

/* A thread that begins a transaction by itself, and ends it when it is told to. */
struct beginner {
    struct lcrvm_store *store;
    uint32_t writing, reading; /* a segment each; 0 for none */
    uint32_t also;             /* a segment that it begins to write in a second transaction; 0 for none */
    uint32_t then;             /* and in one more, once it may end; 0 for none */
    uint32_t milliseconds;
    atomic_int id;
    atomic_bool begun, over, may_end;
    enum lcrvm_status status, second;
    pthread_t thread;
};

static void nap(void)
{
    const struct timespec time = {0, 2000000};

    nanosleep(&time, NULL);
}

static void *begin_alone(void *argument)
{
    struct beginner *self = argument;
    uint32_t thread, second, further;

    atomic_store(&self->id, (int)syscall(SYS_gettid));
    self->status = lcrvm_begin(self->store, 0, &thread, &self->writing, self->writing != 0, &self->reading,
                               self->reading != 0, self->milliseconds);
    if (self->status == LCRVM_OK && self->also != 0)
        ANSWERS(lcrvm_begin(self->store, 0, &second, &self->also, 1, NULL, 0, 0), LCRVM_OK);
    atomic_store(&self->begun, true);
    while (self->status == LCRVM_OK && !atomic_load(&self->may_end))
        nap();
    if (self->status == LCRVM_OK && self->then != 0) {
        self->second = lcrvm_begin(self->store, 0, &further, &self->then, 1, NULL, 0, self->milliseconds);
        if (self->second == LCRVM_OK)
            ANSWERS(lcrvm_abort(self->store, 0, &further), LCRVM_OK);
    }
    if (self->status == LCRVM_OK && self->also != 0)
        ANSWERS(lcrvm_abort(self->store, 0, &second), LCRVM_OK);
    if (self->status == LCRVM_OK)
        ANSWERS(lcrvm_commit(self->store, 0, &thread, true, NULL), LCRVM_OK);
    atomic_store(&self->over, true);
    return NULL;
}

static void start_beginner(struct beginner *self)
{
    if (pthread_create(&self->thread, NULL, begin_alone, self) != 0)
        exit(1);
}

/* Whether the system has put a thread to sleep. */
static bool sleeps(int id)
{
    char path[64], text[256] = "";
    const char *end;
    FILE *file;

    snprintf(path, sizeof path, "/proc/self/task/%d/stat", id);
    file = fopen(path, "r");
    if (file == NULL)
        return false;
    (void)!fgets(text, sizeof text, file);
    fclose(file);
    end = strrchr(text, ')');
    return end != NULL && end[1] == ' ' && end[2] == 'S';
}

/* Until the thread waits in its call. */
static void until_it_waits(struct beginner *self)
{
    for (int seen = 0; seen < 5; nap())
        seen = atomic_load(&self->id) != 0 && sleeps(atomic_load(&self->id)) ? seen + 1 : 0;
    CHECK(!atomic_load(&self->begun));
}

static void until(atomic_bool *so)
{
    while (!atomic_load(so))
        nap();
}

static enum lcrvm_status begin(struct lcrvm_store *store, uint32_t *thread, uint32_t writing, uint32_t reading,
                               uint32_t milliseconds)
{
    return lcrvm_begin(store, 0, thread, &writing, writing != 0, &reading, reading != 0, milliseconds);
}

/* Who has waited gets the segment, and not who comes when it is free. */
static void test_turns(struct lcrvm_store *store)
{
    struct beginner first = {.store = store, .writing = 1, .milliseconds = UINT32_MAX, .may_end = true};
    uint32_t thread, other;
    double start_at = now();

    ANSWERS(begin(store, &thread, 1, 0, 0), LCRVM_OK);
    start_beginner(&first);
    until_it_waits(&first);
    ANSWERS(lcrvm_commit(store, 0, &thread, false, NULL), LCRVM_OK);
    ANSWERS(begin(store, &thread, 1, 0, UINT32_MAX), LCRVM_OK);
    CHECK(atomic_load(&first.begun));
    pthread_join(first.thread, NULL);
    equals(first.status, LCRVM_OK, "who waited");
    ANSWERS(lcrvm_abort(store, 0, &thread), LCRVM_OK);
    /* Of a transaction that has no owner the time is waited. */
    ANSWERS(lcrvm_begin_transaction(store, 0, 5, (const uint32_t[]){1}, 1, NULL, 0), LCRVM_OK);
    start_at = now();
    ANSWERS(begin(store, &other, 0, 1, 50), LCRVM_BUSY);
    CHECK(now() - start_at >= 50000);
    ANSWERS(lcrvm_abort_transaction(store, 0, 5), LCRVM_OK);
}

/* Readers that come later do not go in front of a writer; but one that has a transaction does, for whom the writer
   waits. */
static void test_readers(struct lcrvm_store *store)
{
    struct beginner writer = {.store = store, .writing = 1, .milliseconds = UINT32_MAX};
    struct beginner reader = {.store = store, .reading = 1, .milliseconds = 0};
    struct beginner other = {.store = store, .reading = 2, .milliseconds = 0, .may_end = true};
    uint32_t thread, second;

    ANSWERS(begin(store, &thread, 0, 1, 0), LCRVM_OK);
    start_beginner(&writer);
    until_it_waits(&writer);
    start_beginner(&reader);
    pthread_join(reader.thread, NULL);
    equals(reader.status, LCRVM_BUSY, "a reader behind a writer");
    start_beginner(&other);
    pthread_join(other.thread, NULL);
    equals(other.status, LCRVM_OK, "a reader of another segment");
    ANSWERS(begin(store, &second, 0, 1, UINT32_MAX), LCRVM_OK);
    ANSWERS(lcrvm_commit(store, 0, &second, false, NULL), LCRVM_OK);
    ANSWERS(lcrvm_commit(store, 0, &thread, false, NULL), LCRVM_OK);
    until(&writer.begun);
    ANSWERS(begin(store, &thread, 0, 1, 0), LCRVM_BUSY);
    atomic_store(&writer.may_end, true);
    pthread_join(writer.thread, NULL);
    equals(writer.status, LCRVM_OK, "the writer");
}

/* Where each of two has what the other wants, one is told so at once. */
static void test_circles(struct lcrvm_store *store)
{
    struct beginner other = {.store = store, .writing = 2, .then = 1, .milliseconds = UINT32_MAX};
    uint32_t thread, second;
    enum lcrvm_status status;

    ANSWERS(begin(store, &thread, 1, 0, 0), LCRVM_OK);
    ANSWERS(begin(store, &second, 1, 0, UINT32_MAX), LCRVM_BUSY);
    start_beginner(&other);
    until(&other.begun);
    atomic_store(&other.may_end, true);
    status = begin(store, &second, 2, 0, UINT32_MAX);
    if (status == LCRVM_OK)
        ANSWERS(lcrvm_commit(store, 0, &second, false, NULL), LCRVM_OK);
    ANSWERS(lcrvm_commit(store, 0, &thread, false, NULL), LCRVM_OK);
    pthread_join(other.thread, NULL);
    CHECK((status == LCRVM_BUSY) != (other.second == LCRVM_BUSY));
    CHECK((status == LCRVM_OK) != (other.second == LCRVM_OK));
}

/* Who would wait for itself is told so long before its time is over. */
static void test_told_at_once(struct lcrvm_store *store, uint32_t segment)
{
    const double start_at = now();
    uint32_t thread;

    ANSWERS(begin(store, &thread, segment, 0, 5000), LCRVM_BUSY);
    CHECK(now() - start_at < 2e6);
}

/* Another thread has two transactions, on segments 4 and 3, and waits for 2, which this one has. Who then wants one of
   its segments is told so at once, whichever it is. */
static void test_two_transactions(struct lcrvm_store *store)
{
    struct beginner other = {.store = store, .writing = 4, .also = 3, .then = 2, .milliseconds = UINT32_MAX};
    uint32_t thread;

    ANSWERS(begin(store, &thread, 2, 0, 0), LCRVM_OK);
    start_beginner(&other);
    until(&other.begun);
    atomic_store(&other.may_end, true);
    for (int seen = 0; seen < 5; nap())
        seen = sleeps(atomic_load(&other.id)) ? seen + 1 : 0;
    test_told_at_once(store, 4);
    test_told_at_once(store, 3);
    ANSWERS(lcrvm_commit(store, 0, &thread, false, NULL), LCRVM_OK);
    pthread_join(other.thread, NULL);
    equals(other.second, LCRVM_OK, "who waited with two transactions");
}

/* All threads of the node are taken: who waits for one gets it, and who has them all is told so at once. */
static void test_threads_taken(struct lcrvm_store *store)
{
    struct beginner waits = {.store = store, .reading = 4, .milliseconds = UINT32_MAX, .may_end = true};
    uint32_t threads[THREADS], further;

    for (int i = 0; i < THREADS; i++)
        ANSWERS(begin(store, &threads[i], 0, 1, 0), LCRVM_OK);
    ANSWERS(begin(store, &further, 0, 1, UINT32_MAX), LCRVM_BUSY);
    start_beginner(&waits);
    until_it_waits(&waits);
    ANSWERS(lcrvm_abort(store, 0, &threads[3]), LCRVM_OK);
    pthread_join(waits.thread, NULL);
    equals(waits.status, LCRVM_OK, "who waited for a thread");
    for (int i = 0; i < THREADS; i++)
        if (i != 3)
            ANSWERS(lcrvm_commit(store, 0, &threads[i], false, NULL), LCRVM_OK);
}

/* A waiter whose time is over lets those behind it go. */
static void test_time_over(struct lcrvm_store *store)
{
    struct beginner writer = {.store = store, .writing = 1, .milliseconds = 150};
    struct beginner reader = {.store = store, .reading = 1, .milliseconds = UINT32_MAX, .may_end = true};
    uint32_t thread;

    ANSWERS(begin(store, &thread, 0, 1, 0), LCRVM_OK);
    start_beginner(&writer);
    start_beginner(&reader);
    pthread_join(writer.thread, NULL);
    equals(writer.status, LCRVM_BUSY, "the writer");
    pthread_join(reader.thread, NULL);
    equals(reader.status, LCRVM_OK, "the reader behind it");
    ANSWERS(lcrvm_commit(store, 0, &thread, false, NULL), LCRVM_OK);
}

/* A thread that asks for segments of which it never gets all, without waiting, until it is told to stop. */
struct asker {
    struct lcrvm_store *store;
    const uint32_t *segments;
    size_t count;
    enum lcrvm_status wanted; /* or Busy */
    atomic_bool stops;
    pthread_t thread;
};

static void *ask_in_vain(void *argument)
{
    struct asker *asker = argument;

    while (!atomic_load(&asker->stops)) {
        uint32_t thread;
        enum lcrvm_status status = lcrvm_begin(asker->store, 0, &thread, asker->segments, asker->count, NULL, 0, 0);

        CHECK(status == LCRVM_BUSY || status == asker->wanted);
    }
    return NULL;
}

/* Who asks for segments and is refused has none of them for a moment: nobody else is refused, or waits, for it. */
static void test_refused_has_nothing(struct lcrvm_store *store)
{
    static const uint32_t two[] = {1, 2}, three[] = {1, 2, 3};
    struct asker busy = {.store = store, .segments = two, .count = 2, .wanted = LCRVM_BUSY};
    struct asker lacking = {.store = store, .segments = three, .count = 3, .wanted = LCRVM_NOT_HERE};
    uint32_t holder, thread;

    ANSWERS(begin(store, &holder, 2, 0, 0), LCRVM_OK);
    CHECK(pthread_create(&busy.thread, NULL, ask_in_vain, &busy) == 0);
    for (int turn = 0; turn < 20000; turn++)
        if (ANSWERS(begin(store, &thread, 1, 0, 0), LCRVM_OK))
            ANSWERS(lcrvm_abort(store, 0, &thread), LCRVM_OK);
    atomic_store(&busy.stops, true);
    pthread_join(busy.thread, NULL);
    ANSWERS(lcrvm_abort(store, 0, &holder), LCRVM_OK);
    ANSWERS(lcrvm_leave(store, 0, 3), LCRVM_OK);
    CHECK(pthread_create(&lacking.thread, NULL, ask_in_vain, &lacking) == 0);
    for (int turn = 0; turn < 20000; turn++)
        if (ANSWERS(begin(store, &thread, 1, 0, UINT32_MAX), LCRVM_OK))
            ANSWERS(lcrvm_abort(store, 0, &thread), LCRVM_OK);
    atomic_store(&lacking.stops, true);
    pthread_join(lacking.thread, NULL);
    ANSWERS(lcrvm_arrive(store, 0, 3), LCRVM_OK);
}

static int waits(const char *folder, int count)
{
    struct lcrvm_store *store = made_below(folder, "waits", &wide);

    (void)count;
    alarm(120);
    test_turns(store);
    test_readers(store);
    test_circles(store);
    test_two_transactions(store);
    test_threads_taken(store);
    test_time_over(store);
    test_refused_has_nothing(store);
    ANSWERS(lcrvm_close(store, NULL), LCRVM_OK);
    return wrong != 0;
}

/* ---- the end of a store beside others */

static void *end_of_another(void *argument)
{
    uint32_t *thread = argument;

    CHECK(lcrvm_fault_of(NULL)->status == LCRVM_OK);
    ANSWERS(lcrvm_commit(NULL, 0, thread, true, NULL), LCRVM_MISUSE);
    return NULL;
}

static int ends(const char *folder, int count)
{
    struct lcrvm_store *store = made_below(folder, "ends", &wide), *other;
    struct beginner holder = {.store = store, .writing = 1, .milliseconds = 0};
    struct beginner waiter = {.store = store, .writing = 2, .milliseconds = UINT32_MAX, .may_end = true};
    struct lcrvm_fault fault = {.size = sizeof fault};
    uint32_t thread;
    pthread_t asked;
    char path[PATH_BYTES];

    (void)count;
    alarm(120);
    ANSWERS(lcrvm_open(path_below(folder, "ends", path), NULL, &other, NULL), LCRVM_STORE_IN_USE);
    /* The fault of a thread is its own. */
    CHECK(pthread_create(&asked, NULL, end_of_another, &thread) == 0);
    pthread_join(asked, NULL);
    CHECK(lcrvm_fault_of(store)->status == LCRVM_STORE_IN_USE);
    /* Another thread is within: it waits for a segment that nobody in particular has. */
    ANSWERS(lcrvm_begin_transaction(store, 0, 9, (const uint32_t[]){2}, 1, NULL, 0), LCRVM_OK);
    start_beginner(&waiter);
    until_it_waits(&waiter);
    ANSWERS(lcrvm_close(store, &fault), LCRVM_BUSY);
    equals(fault.status, LCRVM_BUSY, "the fault of a close");
    ANSWERS(lcrvm_abort_transaction(store, 0, 9), LCRVM_OK);
    pthread_join(waiter.thread, NULL);
    equals(waiter.status, LCRVM_OK, "who waited");
    /* Another thread has a transaction, which this one may end. */
    start_beginner(&holder);
    until(&holder.begun);
    ANSWERS(lcrvm_close(store, NULL), LCRVM_BUSY);
    ANSWERS(begin(store, &thread, 1, 0, 0), LCRVM_BUSY);
    atomic_store(&holder.may_end, true);
    pthread_join(holder.thread, NULL);
    ANSWERS(begin(store, &thread, 1, 0, 0), LCRVM_OK);
    ANSWERS(lcrvm_put(store, 0, thread, 1, 0, "open", 4), LCRVM_OK);
    ANSWERS(lcrvm_close(store, &fault), LCRVM_OK);
    store = opened(path);
    ANSWERS(lcrvm_close(store, NULL), LCRVM_OK);
    return wrong != 0;
}

/* A sync fails while sixteen threads commit, lazily or not: each of them is told, also who waits for a segment or for the sync. */
static int faults(const char *folder, int count)
{
    for (int turn = 1; turn <= count; turn++) {
        static struct worker none[THREADS];
        struct worker workers[THREADS];
        struct lcrvm_store *store;
        struct lcrvm_fault fault = {.size = sizeof fault};
        int64_t numbers[THREADS];
        char name[32], path[PATH_BYTES];
        bool is_durable = turn % 3 != 0;

        snprintf(name, sizeof name, "fault%d", turn);
        path_below(folder, name, path);
        store = made(path, turn % 2 == 0 ? &tight : &wide);
        memcpy(workers, none, sizeof workers);
        atomic_store(&syncs, 0);
        atomic_store(&failing, 3 + 7 * turn);
        alarm(120);
        start(workers, THREADS, store, 1000000, is_durable, NULL);
        join(workers, THREADS);
        alarm(0);
        atomic_store(&failing, 0);
        for (int self = 0; self < THREADS; self++)
            equals(workers[self].status, LCRVM_DEVICE_FAULT, "a thread beside a sync that failed");
        ANSWERS(lcrvm_close(store, &fault), LCRVM_DEVICE_FAULT);
        CHECK(strstr(fault.text, strerror(EIO)) != NULL);
        store = opened(path);
        equals(sum_of(store, numbers), 0, "the sum");
        for (int self = 0; self < THREADS; self++)
            CHECK(!is_durable || (numbers[self] >= atomic_load(&workers[self].acked) &&
                                  numbers[self] <= atomic_load(&workers[self].acked) + 1));
        ANSWERS(lcrvm_close(store, NULL), LCRVM_OK);
    }
    return wrong != 0;
}

/* ---- children */

/* How many descriptors a process has of what stands below a folder. */
static int descriptors_below(const char *folder)
{
    DIR *all = opendir("/proc/self/fd");
    char whole[4096], name[300], target[4096];
    int count = 0;

    if (all == NULL || realpath(folder, whole) == NULL)
        return -1;
    for (const struct dirent *entry; (entry = readdir(all)) != NULL;) {
        ssize_t len;

        snprintf(name, sizeof name, "/proc/self/fd/%s", entry->d_name);
        len = readlink(name, target, sizeof target - 1);
        if (len <= 0)
            continue;
        target[len] = '\0';
        count += strncmp(target, whole, strlen(whole)) == 0;
    }
    closedir(all);
    return count;
}

/* In a child each call answers at once. */
static void call_in_child(struct lcrvm_store *store, const char *folder)
{
    const uint32_t first[] = {1};
    struct lcrvm_fault fault = {.size = sizeof fault};
    struct lcrvm_delivered delivered;
    char byte[1];
    uint32_t thread = 0;

    equals(descriptors_below(folder), 0, "descriptors of a child");
    ANSWERS(lcrvm_begin(store, 0, &thread, first, 1, NULL, 0, UINT32_MAX), LCRVM_FORKED);
    ANSWERS(lcrvm_begin_transaction(store, 0, 0, first, 1, NULL, 0), LCRVM_FORKED);
    ANSWERS(lcrvm_set_range(store, 0, 0, 1, 0, 1), LCRVM_FORKED);
    ANSWERS(lcrvm_put(store, 0, 0, 1, 0, "x", 1), LCRVM_FORKED);
    ANSWERS(lcrvm_write(store, 0, 0, 1, 0, "x", 1), LCRVM_FORKED);
    ANSWERS(lcrvm_read(store, 0, 0, 1, 0, byte, 1), LCRVM_FORKED);
    thread = 0;
    ANSWERS(lcrvm_commit(store, 0, &thread, true, NULL), LCRVM_FORKED);
    ANSWERS(lcrvm_abort(store, 0, &thread), LCRVM_FORKED);
    ANSWERS(lcrvm_end_transaction(store, 0, 0, true, NULL), LCRVM_FORKED);
    ANSWERS(lcrvm_abort_transaction(store, 0, 0), LCRVM_FORKED);
    ANSWERS(lcrvm_flush(store, 0, NULL), LCRVM_FORKED);
    ANSWERS(lcrvm_truncate(store, 0, NULL), LCRVM_FORKED);
    ANSWERS(lcrvm_trim(store, 0, NULL), LCRVM_FORKED);
    ANSWERS(lcrvm_leave(store, 0, 1), LCRVM_FORKED);
    ANSWERS(lcrvm_arrive(store, 0, 1), LCRVM_FORKED);
    ANSWERS(lcrvm_deliver(store, 0, 1, 1, 0, &delivered), LCRVM_FORKED);
    ANSWERS(lcrvm_copy(store, folder, NULL), LCRVM_FORKED);
    CHECK(lcrvm_geometry_of(store)->segments == SEGMENTS);
    CHECK(lcrvm_fault_of(store)->status == LCRVM_FORKED);
    ANSWERS(lcrvm_close(store, &fault), LCRVM_FORKED);
    equals(fault.status, LCRVM_FORKED, "the fault of a child's close");
}

/* A child may have a store of its own, and not that of its parent. */
static void open_in_child(const char *path, const char *other)
{
    struct lcrvm_store *store;
    struct lcrvm_fault fault = {.size = sizeof fault};

    ANSWERS(lcrvm_open(path, NULL, &store, &fault), LCRVM_STORE_IN_USE);
    ANSWERS(lcrvm_open(other, NULL, &store, &fault), LCRVM_OK);
    if (store != NULL)
        ANSWERS(lcrvm_close(store, NULL), LCRVM_OK);
}

static void wait_for(pid_t child)
{
    int status = -1;

    CHECK(child > 0 && waitpid(child, &status, 0) == child);
    equals(status, 0, "the status of a child");
}

static void *open_and_close(void *argument)
{
    const char *path = argument;

    char copy[PATH_BYTES];

    snprintf(copy, sizeof copy, "%.400s.copy", path);
    for (int i = 0; i < 60; i++) {
        struct lcrvm_store *store = opened(path);

        ANSWERS(lcrvm_copy(store, copy, NULL), LCRVM_OK);
        remove_store(copy);
        ANSWERS(lcrvm_close(store, NULL), LCRVM_OK);
    }
    return NULL;
}

/* Children of a process whose threads are in each place of a call: they commit, wait, open and close. */
static void fork_beside(struct lcrvm_store *store, const char *folder, const char *path, const char *other, bool opens)
{
    for (int i = 0; i < 40; i++) {
        pid_t child = fork();

        if (child == 0) {
            alarm(60);
            if (opens && i % 10 == 0)
                open_in_child(path, other);
            call_in_child(store, folder);
            _exit(wrong != 0);
        }
        wait_for(child);
    }
}

static int forks(const char *folder, int count)
{
    static struct worker workers[THREADS];
    char path[PATH_BYTES], other[PATH_BYTES], third[PATH_BYTES];
    struct lcrvm_store *store = made(path_below(folder, "forks", path), &tight);
    struct beginner waiter = {.store = store, .writing = 2, .milliseconds = UINT32_MAX, .may_end = true};
    atomic_bool stop = false;
    pthread_t opens;

    (void)count;
    alarm(300);
    ANSWERS(lcrvm_close(made(path_below(folder, "other", other), &tight), NULL), LCRVM_OK);
    ANSWERS(lcrvm_close(made(path_below(folder, "third", third), &tight), NULL), LCRVM_OK);
    ANSWERS(lcrvm_begin_transaction(store, 0, 9, (const uint32_t[]){2}, 1, NULL, 0), LCRVM_OK);
    start_beginner(&waiter);
    until_it_waits(&waiter);
    fork_beside(store, folder, path, other, true);
    ANSWERS(lcrvm_abort_transaction(store, 0, 9), LCRVM_OK);
    pthread_join(waiter.thread, NULL);
    sync_nanoseconds = 500000;
    start(workers, THREADS, store, 1000000, true, &stop);
    CHECK(pthread_create(&opens, NULL, open_and_close, third) == 0);
    fork_beside(store, folder, path, other, true);
    pthread_join(opens, NULL);
    atomic_store(&stop, true);
    join(workers, THREADS);
    sync_nanoseconds = 0;
    for (int self = 0; self < THREADS; self++)
        equals(workers[self].status, LCRVM_OK, "a thread beside forks");
    ANSWERS(lcrvm_close(store, NULL), LCRVM_OK);
    ANSWERS(lcrvm_close(opened(path), NULL), LCRVM_OK);
    return wrong != 0;
}

static int lives(const char *folder, int count)
{
    static struct worker workers[4];
    struct lcrvm_store *store = made(folder, &tight);
    char byte;
    pid_t child;

    (void)count;
    start(workers, 4, store, 1000000, true, NULL);
    nap();
    child = fork();
    if (child == 0) {
        /* It lives until its input ends, and keeps nothing. */
        (void)!read(STDIN_FILENO, &byte, 1);
        _exit(0);
    }
    printf("%d\n", (int)child);
    fflush(stdout);
    join(workers, 4);
    return 1;
}

/* ---- kills */

enum { RUNNERS = 4 };

static int runs(const char *folder, int count)
{
    static struct worker workers[RUNNERS];
    struct lcrvm_store *store = access(folder, F_OK) == 0 ? opened(folder) : made(folder, &tighter);

    (void)count;
    for (int self = 0; self < RUNNERS; self++)
        workers[self].prints = true;
    start(workers, RUNNERS, store, 1000000000, true, NULL);
    join(workers, RUNNERS);
    fprintf(stderr, "ended: %s %s\n", lcrvm_status_text(workers[0].status), lcrvm_fault_of(NULL)->text);
    return 1;
}

static int shows(const char *folder, int count)
{
    struct lcrvm_store *store = opened(folder);
    int64_t numbers[THREADS];

    (void)count;
    equals(sum_of(store, numbers), 0, "the sum");
    for (int self = 0; self < RUNNERS; self++)
        printf("%d %" PRId64 "\n", self, numbers[self]);
    ANSWERS(lcrvm_close(store, NULL), LCRVM_OK);
    return wrong != 0;
}

/* ---- copies */

static int copies(const char *folder, int count)
{
    static struct worker workers[RUNNERS];
    struct lcrvm_store *store = made_below(folder, "copied", &tight), *copy;
    char path[PATH_BYTES];
    atomic_bool stop = false;
    int64_t acked[RUNNERS], numbers[THREADS], moved = 0, last = -1;

    path_below(folder, "copy", path);
    start(workers, RUNNERS, store, 1000000000, false, &stop);
    for (int i = 0; i < count && wrong == 0; i++) {
        for (int self = 0; self < RUNNERS; self++)
            acked[self] = atomic_load(&workers[self].acked);
        if (!ANSWERS(lcrvm_copy(store, path, NULL), LCRVM_OK))
            break;
        copy = opened(path);
        equals(sum_of(copy, numbers), 0, "the sum of a copy");
        for (int self = 0; self < RUNNERS; self++)
            CHECK(numbers[self] >= acked[self]);
        ANSWERS(lcrvm_close(copy, NULL), LCRVM_OK);
        moved += numbers[0] != last;
        last = numbers[0];
        remove_store(path);
    }
    atomic_store(&stop, true);
    join(workers, RUNNERS);
    for (int self = 0; self < RUNNERS; self++)
        equals(workers[self].status, LCRVM_OK, "a thread beside copies");
    equals(sum_of(store, numbers), 0, "the sum");
    ANSWERS(lcrvm_close(store, NULL), LCRVM_OK);
    printf("%d copies, of which %" PRId64 " differ from the one before; %" PRId64 " commits of one thread\n", count,
           moved, last);
    return wrong != 0;
}

/* ---- cuts of the power */

enum { CUT_WORKERS = 8 };

static uint64_t random_number(uint64_t *seed)
{
    *seed = *seed * UINT64_C(6364136223846793005) + UINT64_C(1442695040888963407);
    return *seed >> 32;
}

/* From here on the files of a store are watched, all of which is stable. */
static void watch_files(const char *path)
{
    char name[PATH_BYTES];
    struct stat at;

    for (int i = 0; i < FILES; i++) {
        int file = open(path_below(path, watched[i].name, name), O_RDONLY);

        CHECK(file >= 0 && fstat(file, &at) == 0 && at.st_size <= MOST_FILE);
        watched[i].inode = at.st_ino;
        watched[i].len = (size_t)at.st_size;
        CHECK(read(file, watched[i].stable, MOST_FILE) == at.st_size);
        close(file);
    }
    atomic_store(&watches, true);
}

/* What one file has where the power goes: of each write that is not stable all bytes, none, or any. */
static void cut_file(const struct watched *watch, unsigned char *bytes, uint64_t *seed)
{
    memcpy(bytes, watch->stable, watch->len);
    for (size_t i = 0; i < watch->count; i++) {
        const struct written *write = &watch->since[i];
        uint64_t kind = random_number(seed) % 3;

        for (size_t byte = 0; byte < write->len && kind != 0; byte++)
            if (kind == 1 || random_number(seed) % 2 == 0)
                bytes[write->at + byte] = write->bytes[byte];
    }
}

/* Gives another store's files what these have where the power goes now; how many writes were not stable. */
static size_t cut_power(const char *path, uint64_t *seed)
{
    static unsigned char bytes[FILES][MOST_FILE];
    char name[PATH_BYTES];
    size_t writes = 0;

    pthread_mutex_lock(&device);
    for (int i = 0; i < FILES; i++) {
        cut_file(&watched[i], bytes[i], seed);
        writes += watched[i].count;
    }
    pthread_mutex_unlock(&device);
    for (int i = 0; i < FILES; i++) {
        int file = open(path_below(path, watched[i].name, name), O_WRONLY);

        CHECK(file >= 0 && write(file, bytes[i], watched[i].len) == (ssize_t)watched[i].len);
        close(file);
    }
    return writes;
}

static int cuts(const char *folder, int count)
{
    static struct worker workers[CUT_WORKERS];
    struct lcrvm_store *store = made_below(folder, "cut", &tight), *after;
    char path[PATH_BYTES], after_path[PATH_BYTES];
    atomic_bool stop = false;
    int64_t acked[CUT_WORKERS], numbers[THREADS];
    uint64_t seed = 1;
    size_t writes = 0;

    ANSWERS(lcrvm_close(made(path_below(folder, "after", after_path), &tight), NULL), LCRVM_OK);
    watch_files(path_below(folder, "cut", path));
    sync_nanoseconds = 200000;
    start(workers, CUT_WORKERS, store, 1000000000, false, &stop);
    for (int i = 0; i < count && wrong == 0; i++) {
        const struct timespec time = {0, 500000 + (long)(random_number(&seed) % 2000000)};

        nanosleep(&time, NULL);
        for (int self = 0; self < CUT_WORKERS; self++)
            acked[self] = atomic_load(&workers[self].acked);
        writes += cut_power(after_path, &seed);
        after = opened(after_path);
        equals(sum_of(after, numbers), 0, "the sum after a cut");
        for (int self = 0; self < CUT_WORKERS; self++)
            if (!CHECK(numbers[self] >= acked[self]))
                equals(numbers[self], acked[self], "the number of a thread after a cut");
        ANSWERS(lcrvm_close(after, NULL), LCRVM_OK);
    }
    atomic_store(&stop, true);
    join(workers, CUT_WORKERS);
    sync_nanoseconds = 0;
    ANSWERS(lcrvm_close(store, NULL), LCRVM_OK);
    printf("%d cuts of the power, at one of them %.1f writes that were not stable; %" PRId64 " commits of one thread\n",
           count, (double)writes / count, (int64_t)atomic_load(&workers[0].acked));
    CHECK(writes > 0);
    return wrong != 0;
}

static const struct {
    const char *name;
    int (*run)(const char *folder, int count);
    int count;
} modes[] = {
    {"commits", commits, 400}, {"syncs", syncs_shared, 0}, {"waits", waits, 0}, {"ends", ends, 0},
    {"faults", faults, 12},    {"forks", forks, 0},        {"lives", lives, 0}, {"runs", runs, 0},
    {"shows", shows, 0},       {"copies", copies, 100},    {"figures", figures, 400},
    {"cuts", cuts, 200},
    {"crowd", crowd, 0},       {"shares", shares, 0},
};

int main(int count, char **arguments)
{
    for (size_t i = 0; (count == 3 || count == 4) && i < sizeof modes / sizeof modes[0]; i++)
        if (strcmp(arguments[1], modes[i].name) == 0)
            return modes[i].run(arguments[2], count == 4 ? atoi(arguments[3]) : modes[i].count);
    fprintf(stderr, "usage: threads_test commits|syncs|crowd|shares|waits|ends|faults|forks|lives|runs|shows|copies|cuts|"
                    "figures FOLDER [N]\n");
    return 2;
}
