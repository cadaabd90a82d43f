/* A program with a store in its own process (clients/c/embedded.c), for tests/embedded.sh.

   usage: embedded_test MODE FOLDER [N]

          commits     makes commits and prints the number of each once it is stable, until it is killed
          calls       tries each call on new stores in folders below this one; its last line is `N wrong`
          shows       prints the number that the store has
          faults      makes twenty commits, of whose writes and syncs of files the Nth fails, and no file can be opened
                      then: status 3 where it came to it, and each later call was refused too; 0 where there are fewer
          creates     makes a store, of whose writes and syncs the Nth fails: status 3 where that was answered, 4 where
                      it is made all the same, 0 where there are fewer
          copies      the same of the copy of a store
          renews      opens a store that has the mark of a fault, of whose writes and syncs the Nth fails: status 3
                      where that was answered, 0 where there are fewer
          leaves      makes twelve commits, and changes of every page, and ends without a close
          recovers    opens a store that was left so, of whose writes and syncs the Nth fails: status 3 where that was
                      answered, 0 where there are fewer
          memory      makes a store, works on it and prints what came of it; what finds no memory is done once more.
                      All memory has to be given back
          makes       makes a store with a commit, for `copies` and `renews`
          closed      makes a store, and commits to it between prints; a standard descriptor that is closed has to stay
                      so

   A commit writes its number, from 1 on, into eight bytes of segment 1 and into the same place of segment 2, which the
   next numbers pass by turns; every sixteenth empties the log. */
#define _GNU_SOURCE
#include "lcrvm.h"

#include <dirent.h>
#include <errno.h>
#include <fcntl.h>
#include <inttypes.h>
#include <signal.h>
#include <stdio.h>
#include <stdlib.h>
#include <string.h>
#include <sys/file.h>
#include <sys/resource.h>
#include <sys/stat.h>
#include <sys/syscall.h>
#include <sys/wait.h>
#include <time.h>
#include <unistd.h>

/* A size, by its numbers. */
#define SIZED(of_nodes, of_threads, of_segments, of_pages, of_words)                                                   \
    {.size = sizeof(struct lcrvm_geometry), .nodes = of_nodes, .threads = of_threads, .segments = of_segments,         \
     .pages = of_pages, .words = of_words}

enum {
    PLACES = 32,
    NUMBER_BYTES = 8,
    TRUNCATED_EVERY = 16,
    FEW_COMMITS = 20,
    HAS_FAILED = 3,
    IS_MADE = 4,
    PATH_BYTES = 512,
    BESIDE_BYTES = 256,
    MOST_BYTES = 8192
};

static int wrong;

/* The writes and syncs of files, in place of the C library's. Of a write that fails half the bytes are written. In
   front of one of them the process ends. */
static long made, failing, ending;
static int failure = EIO;

static bool fails_now(void)
{
    if (++made == ending)
        _exit(0);
    return made == failing;
}

static int folder_syncs, writes;

static int sync_by(long call, int file)
{
    struct stat at;

    folder_syncs += fstat(file, &at) == 0 && S_ISDIR(at.st_mode);
    if (fails_now()) {
        errno = failure;
        return -1;
    }
    return (int)syscall(call, file);
}

int fdatasync(int file)
{
    return sync_by(SYS_fdatasync, file);
}

int fsync(int file)
{
    return sync_by(SYS_fsync, file);
}

/* What else a test refuses, in place of the C library's: marks, and the removal of files, by these errors; and the
   next locks, which are interrupted. */
static int marks_error, removals_error, interrupted_locks;

int mknodat(int folder, const char *name, mode_t mode, dev_t device)
{
    if (marks_error != 0) {
        errno = marks_error;
        return -1;
    }
    return (int)syscall(SYS_mknodat, folder, name, mode, device);
}

int unlinkat(int folder, const char *name, int flags)
{
    if (removals_error != 0) {
        errno = removals_error;
        return -1;
    }
    return (int)syscall(SYS_unlinkat, folder, name, flags);
}

int flock(int file, int operation)
{
    if (operation != LOCK_UN && interrupted_locks > 0) {
        interrupted_locks--;
        errno = EINTR;
        return -1;
    }
    return (int)syscall(SYS_flock, file, operation);
}

ssize_t pwrite(int file, const void *bytes, size_t len, off_t at)
{
    writes++;
    if (fails_now()) {
        if (len > 1)
            (void)!syscall(SYS_pwrite64, file, bytes, len / 2, at);
        errno = failure;
        return -1;
    }
    return syscall(SYS_pwrite64, file, bytes, len, at);
}

#define ANSWERS(call, wanted) answers((call), (wanted), #call, __LINE__)
#define CHECK(fact) check((fact), #fact, __LINE__)

static void answers(enum lcrvm_status status, enum lcrvm_status wanted, const char *text, int line)
{
    if (status == wanted)
        return;
    fprintf(stderr, "line %d: %s: %s, and not %s\n", line, text, lcrvm_status_text(status), lcrvm_status_text(wanted));
    wrong++;
}

static void check(bool fact, const char *text, int line)
{
    if (fact)
        return;
    fprintf(stderr, "line %d: not so: %s\n", line, text);
    wrong++;
}

/* How many descriptors are open. */
static int descriptors(void)
{
    DIR *folder = opendir("/proc/self/fd");
    int count = 0;

    if (folder == NULL)
        return -1;
    while (readdir(folder) != NULL)
        count++;
    closedir(folder);
    return count;
}

static struct lcrvm_store *opened(const char *folder)
{
    struct lcrvm_store *store;
    struct lcrvm_fault fault = {.size = sizeof fault};
    enum lcrvm_status status = lcrvm_open(folder, NULL, &store, &fault);

    if (status != LCRVM_OK)
        fprintf(stderr, "not opened: %s %s\n", lcrvm_status_text(status), fault.text);
    return store;
}

/* The greatest number at any place of both segments, where they agree; 0 where there is none, and -1 where they
   differ. */
static int64_t number_in(struct lcrvm_store *store)
{
    static const uint32_t both[] = {1, 2};
    uint64_t one[PLACES], other[PLACES], greatest = 0;

    if (lcrvm_begin_transaction(store, 0, 0, NULL, 0, both, 2) != LCRVM_OK)
        return -1;
    if (lcrvm_read(store, 0, 0, 1, 0, one, sizeof one) != LCRVM_OK)
        return -1;
    if (lcrvm_read(store, 0, 0, 2, 0, other, sizeof other) != LCRVM_OK)
        return -1;
    if (lcrvm_abort_transaction(store, 0, 0) != LCRVM_OK)
        return -1;
    if (memcmp(one, other, sizeof one) != 0)
        return -1;
    for (int place = 0; place < PLACES; place++)
        if (one[place] > greatest)
            greatest = one[place];
    return (int64_t)greatest;
}

/* Makes commits up to this number, and prints that of each once it is stable. */
static enum lcrvm_status commits_in(struct lcrvm_store *store, uint64_t most)
{
    static const uint32_t both[] = {1, 2};
    int64_t last = number_in(store);

    if (last < 0)
        return lcrvm_fault_of(store)->status;
    for (uint64_t number = (uint64_t)last + 1; number <= most; number++) {
        uint32_t offset = (uint32_t)(number % PLACES) * NUMBER_BYTES;
        enum lcrvm_status status = lcrvm_begin_transaction(store, 0, 0, both, 2, NULL, 0);

        for (uint32_t segment = 1; segment <= 2 && status == LCRVM_OK; segment++) {
            status = lcrvm_set_range(store, 0, 0, segment, offset, NUMBER_BYTES);
            if (status == LCRVM_OK)
                status = lcrvm_write(store, 0, 0, segment, offset, &number, NUMBER_BYTES);
        }
        if (status == LCRVM_OK)
            status = lcrvm_end_transaction(store, 0, 0, true, NULL);
        if (status != LCRVM_OK)
            return status;
        printf("%" PRIu64 "\n", number);
        fflush(stdout);
        if (number % TRUNCATED_EVERY == 0) {
            status = lcrvm_truncate(store, 0, NULL);
            if (status != LCRVM_OK)
                return status;
        }
    }
    return LCRVM_OK;
}

static int commits(const char *folder)
{
    struct lcrvm_store *store = opened(folder);

    if (store == NULL)
        return 1;
    commits_in(store, UINT64_MAX);
    fprintf(stderr, "ended: %s %s\n", lcrvm_status_text(lcrvm_fault_of(store)->status), lcrvm_fault_of(store)->text);
    lcrvm_close(store, NULL);
    return 1;
}

/* Of a file its name stands in front. */
static bool is_failure(const struct lcrvm_fault *fault)
{
    const char *name_end = strstr(fault->text, ": ");

    return fault->status == LCRVM_DEVICE_FAULT &&
           strcmp(name_end != NULL ? name_end + 2 : fault->text, strerror(EIO)) == 0;
}

/* A file of the store has failed: all is refused, also with arguments that are wrong, and no call is made of a
   file. */
static void given_up(struct lcrvm_store *store)
{
    static const uint32_t first[] = {1};
    char bytes[1];
    uint32_t thread = 0;
    struct lcrvm_fault fault = {.size = sizeof fault};

    ANSWERS(lcrvm_begin_transaction(store, 0, 0, first, 1, NULL, 0), LCRVM_DEVICE_FAULT);
    ANSWERS(lcrvm_set_range(store, 9, 9, 9, 9, 9), LCRVM_DEVICE_FAULT);
    ANSWERS(lcrvm_write(store, 0, 0, 1, 0, "x", 1), LCRVM_DEVICE_FAULT);
    ANSWERS(lcrvm_write(store, 0, 0, 1, 0, NULL, 0), LCRVM_DEVICE_FAULT);
    ANSWERS(lcrvm_read(store, 0, 0, 1, 0, bytes, 1), LCRVM_DEVICE_FAULT);
    ANSWERS(lcrvm_end_transaction(store, 0, 0, false, NULL), LCRVM_DEVICE_FAULT);
    ANSWERS(lcrvm_end_transaction(store, 0, 0, true, NULL), LCRVM_DEVICE_FAULT);
    ANSWERS(lcrvm_abort_transaction(store, 0, 0), LCRVM_DEVICE_FAULT);
    ANSWERS(lcrvm_flush(store, 0, NULL), LCRVM_DEVICE_FAULT);
    ANSWERS(lcrvm_truncate(store, 0, NULL), LCRVM_DEVICE_FAULT);
    ANSWERS(lcrvm_leave(store, 0, 1), LCRVM_DEVICE_FAULT);
    ANSWERS(lcrvm_arrive(store, 0, 1), LCRVM_DEVICE_FAULT);
    ANSWERS(lcrvm_deliver(store, 0, 1, 1, 0, NULL), LCRVM_DEVICE_FAULT);
    ANSWERS(lcrvm_trim(store, 0, NULL), LCRVM_DEVICE_FAULT);
    ANSWERS(lcrvm_begin(store, 0, &thread, first, 1, NULL, 0, 1000), LCRVM_DEVICE_FAULT);
    CHECK(thread == LCRVM_NO_TRANSACTION);
    thread = 0;
    ANSWERS(lcrvm_commit(store, 0, &thread, true, NULL), LCRVM_DEVICE_FAULT);
    CHECK(thread == LCRVM_NO_TRANSACTION);
    thread = 0;
    ANSWERS(lcrvm_abort(store, 0, &thread), LCRVM_DEVICE_FAULT);
    CHECK(thread == LCRVM_NO_TRANSACTION);
    ANSWERS(lcrvm_put(store, 0, 0, 1, 0, "x", 1), LCRVM_DEVICE_FAULT);
    ANSWERS(lcrvm_copy(store, "/nowhere/at/all", NULL), LCRVM_DEVICE_FAULT);
    CHECK(is_failure(lcrvm_fault_of(store)));
    ANSWERS(lcrvm_close(store, &fault), LCRVM_DEVICE_FAULT);
    CHECK(is_failure(&fault));
    CHECK(made == failing);
}

static const char *below(const char *folder, const char *name);

/* Lets no descriptor more be opened, or lets them again. */
static void let_descriptors(bool more)
{
    struct rlimit limit;

    CHECK(getrlimit(RLIMIT_NOFILE, &limit) == 0);
    limit.rlim_cur = more ? limit.rlim_max : 0;
    CHECK(setrlimit(RLIMIT_NOFILE, &limit) == 0);
}

static int faults(const char *folder, const char *number)
{
    struct lcrvm_store *store;
    struct lcrvm_fault fault = {.size = sizeof fault};
    enum lcrvm_status status;
    int before = descriptors();

    failing = strtol(number, NULL, 10);
    status = lcrvm_open(folder, NULL, &store, &fault);
    let_descriptors(false);
    if (store != NULL)
        status = commits_in(store, FEW_COMMITS);
    if (status == LCRVM_OK) {
        status = lcrvm_close(store, &fault);
        store = NULL;
        CHECK(fault.status == status);
    }
    let_descriptors(true);
    CHECK(descriptors() == before + (store != NULL ? 4 : 0));
    if (status == LCRVM_OK && made < failing)
        return wrong != 0;
    ANSWERS(status, LCRVM_DEVICE_FAULT);
    if (store != NULL)
        given_up(store);
    else
        CHECK(is_failure(&fault) && made == failing);
    CHECK(descriptors() == before);
    CHECK(access(below(folder, "fault"), F_OK) == 0);
    return wrong == 0 ? HAS_FAILED : 1;
}

/* A child ends by itself, with this status. */
static void exits(pid_t child, int wanted)
{
    int status = -1;

    CHECK(child > 0 && waitpid(child, &status, 0) == child);
    CHECK(WIFEXITED(status) && WEXITSTATUS(status) == wanted);
    if (!WIFEXITED(status) || WEXITSTATUS(status) != wanted)
        fprintf(stderr, "a child: status %x, and not %d\n", (unsigned)status, wanted);
}

/* How many names a folder has, but for the record of a close. */
static int standing(const char *path)
{
    DIR *folder = opendir(path);
    int count = 0;

    if (folder == NULL)
        return -1;
    for (const struct dirent *entry; (entry = readdir(folder)) != NULL;)
        count += entry->d_name[0] != '.' && strcmp(entry->d_name, "lcrvm.clean") != 0;
    closedir(folder);
    return count;
}

static int creates(const char *folder, const char *number)
{
    static const struct lcrvm_geometry geometry = SIZED(2, 1, 2, 1, 64);
    const struct lcrvm_options options = {.size = sizeof options, .geometry = &geometry};
    struct lcrvm_fault fault = {.size = sizeof fault};
    enum lcrvm_status status;
    int before = descriptors();
    bool was_there = standing(folder) == 0;

    failing = strtol(number, NULL, 10);
    status = lcrvm_create(folder, &options, &fault);
    CHECK(fault.status == status);
    CHECK(descriptors() == before);
    if (made < failing) {
        /* A write and a sync of each of five files, and the syncs of two folders. */
        CHECK(made == 5 * 2 + 2);
        return status == LCRVM_OK && wrong == 0 ? 0 : 1;
    }
    /* That the folder which it stands in is not synced is no fault, where this one was there. */
    if (status == LCRVM_OK)
        return was_there && standing(folder) == 5 && wrong == 0 ? IS_MADE : 1;
    CHECK(is_failure(&fault));
    CHECK(standing(folder) == (was_there ? 0 : -1));
    failing = 0;
    ANSWERS(lcrvm_create(folder, &options, NULL), LCRVM_OK);
    return wrong == 0 ? HAS_FAILED : 1;
}

static int shows(const char *folder)
{
    struct lcrvm_store *store = opened(folder);

    if (store == NULL)
        return 1;
    printf("%" PRId64 "\n", number_in(store));
    lcrvm_close(store, NULL);
    return 0;
}

/* What the tests of the calls have. */

static const struct lcrvm_geometry one = SIZED(1, 2, 2, 4, 64);
static const struct lcrvm_geometry two_nodes = SIZED(2, 1, 3, 1, 64);

/* The path of a name below a folder. */
static const char *below(const char *folder, const char *name)
{
    static char path[PATH_BYTES];

    snprintf(path, sizeof path, "%s/%s", folder, name);
    return path;
}

/* The path of a folder that stands beside this one. */
static void beside(const char *folder, const char *end, char path[BESIDE_BYTES])
{
    snprintf(path, BESIDE_BYTES, "%.200s.%s", folder, end);
}

static struct lcrvm_store *opened_as(const char *folder, const struct lcrvm_geometry *geometry)
{
    const struct lcrvm_options options = {
        .size = sizeof options, .geometry = geometry, .threads = geometry != NULL ? 99 : 0,
    };
    struct lcrvm_store *store;
    struct lcrvm_fault fault = {.size = sizeof fault};

    ANSWERS(lcrvm_open(folder, &options, &store, &fault), LCRVM_OK);
    if (store == NULL) {
        fprintf(stderr, "not opened: %s\n", fault.text);
        exit(1);
    }
    CHECK(fault.status == LCRVM_OK && fault.text[0] == '\0');
    return store;
}

/* A new store. */
static struct lcrvm_store *made_as(const char *folder, const struct lcrvm_geometry *geometry)
{
    const struct lcrvm_options options = {.size = sizeof options, .geometry = geometry};

    ANSWERS(lcrvm_create(folder, &options, NULL), LCRVM_OK);
    return opened_as(folder, geometry);
}

static void close_well(struct lcrvm_store *store)
{
    struct lcrvm_fault fault = {.size = sizeof fault};

    ANSWERS(lcrvm_close(store, &fault), LCRVM_OK);
    CHECK(fault.status == LCRVM_OK);
}

static enum lcrvm_status begin(struct lcrvm_store *store, uint32_t node, uint32_t thread, uint32_t segment)
{
    return lcrvm_begin_transaction(store, node, thread, &segment, 1, NULL, 0);
}

/* Writes these bytes, of a range of their own, in the transaction of thread 0. */
static enum lcrvm_status put(struct lcrvm_store *store, uint32_t node, uint32_t segment, uint32_t offset,
                             const char *text)
{
    uint32_t length = (uint32_t)strlen(text);
    enum lcrvm_status status = lcrvm_set_range(store, node, 0, segment, offset, length);

    return status == LCRVM_OK ? lcrvm_write(store, node, 0, segment, offset, text, length) : status;
}

/* A commit of eight words: with at most eight bytes. */
static enum lcrvm_status commit(struct lcrvm_store *store, uint32_t node, uint32_t segment, uint32_t offset,
                                const char *text)
{
    enum lcrvm_status status = begin(store, node, 0, segment);

    if (status == LCRVM_OK)
        status = put(store, node, segment, offset, text);
    return status == LCRVM_OK ? lcrvm_end_transaction(store, node, 0, false, NULL) : status;
}

/* Eight commits fill a log of 64 words. */
static void fill(struct lcrvm_store *store)
{
    for (uint32_t number = 0; number < 8; number++)
        ANSWERS(commit(store, 0, 1, 8 * number, "filled"), LCRVM_OK);
}

/* Whether an open transaction of thread 0 reads just this. */
static bool reads(struct lcrvm_store *store, uint32_t node, uint32_t segment, uint32_t offset, const char *text)
{
    char bytes[64];
    uint32_t length = (uint32_t)strlen(text);

    return lcrvm_read(store, node, 0, segment, offset, bytes, length) == LCRVM_OK && memcmp(bytes, text, length) == 0;
}

/* Whether a new transaction does. */
static bool holds(struct lcrvm_store *store, uint32_t node, uint32_t segment, uint32_t offset, const char *text)
{
    bool has = lcrvm_begin_transaction(store, node, 0, NULL, 0, &segment, 1) == LCRVM_OK &&
               reads(store, node, segment, offset, text);

    return lcrvm_abort_transaction(store, node, 0) == LCRVM_OK && has;
}

static bool is_full(const struct lcrvm_store *store, uint64_t tail, uint64_t need)
{
    const struct lcrvm_fault *fault = lcrvm_fault_of(store);

    return fault->status == LCRVM_FULL && fault->tail == tail && fault->need == need;
}

static size_t read_bytes(const char *path, char bytes[MOST_BYTES])
{
    FILE *file = fopen(path, "r");
    size_t len;

    if (file == NULL)
        return 0;
    len = fread(bytes, 1, MOST_BYTES, file);
    fclose(file);
    return len;
}

/* The tests of the calls, each in a folder of its own that is not there yet. */

/* Each call, with what it refuses. The tokens of segments 1 and 3 stand at node 1. */
static void test_calls(const char *folder)
{
    static const uint32_t first[] = {1}, third[] = {3};
    struct lcrvm_store *store = made_as(folder, &two_nodes), *other;
    struct lcrvm_record commit;
    struct lcrvm_delivered delivered;
    struct lcrvm_fault fault = {.size = sizeof fault};
    uint64_t records = 0, count = 0;
    char bytes[5] = "";

    CHECK(lcrvm_geometry_of(store)->nodes == 2);
    ANSWERS(lcrvm_open(folder, NULL, &other, &fault), LCRVM_STORE_IN_USE);
    CHECK(other == NULL && fault.text[0] != '\0');
    ANSWERS(lcrvm_begin_transaction(store, 2, 0, NULL, 0, NULL, 0), LCRVM_UNKNOWN);
    ANSWERS(lcrvm_begin_transaction(store, 65536, 0, NULL, 0, NULL, 0), LCRVM_UNKNOWN);
    ANSWERS(lcrvm_set_range(store, 1, 0, 1, 0, 5), LCRVM_OUT_OF_TURN);
    ANSWERS(lcrvm_begin_transaction(store, 0, 0, first, 1, NULL, 0), LCRVM_NOT_HERE);
    CHECK(lcrvm_fault_of(store)->segment == 1);
    ANSWERS(lcrvm_begin_transaction(store, 1, 0, first, 1, third, 1), LCRVM_OK);
    ANSWERS(lcrvm_set_range(store, 1, 0, 3, 0, 5), LCRVM_READ_ONLY);
    ANSWERS(lcrvm_set_range(store, 1, 0, 1, 3, 0), LCRVM_EMPTY_RANGE);
    ANSWERS(lcrvm_set_range(store, 1, 0, 1, 3, 5), LCRVM_OK);
    ANSWERS(lcrvm_write(store, 1, 0, 1, 2, "hello", 5), LCRVM_NO_RANGE);
    ANSWERS(lcrvm_write(store, 1, 0, 1, 3, "hello", 5), LCRVM_OK);
    ANSWERS(lcrvm_write(store, 1, 0, 1, 3, NULL, 0), LCRVM_OK);
    ANSWERS(lcrvm_read(store, 1, 0, 1, 3, bytes, 5), LCRVM_OK);
    CHECK(memcmp(bytes, "hello", 5) == 0);
    ANSWERS(lcrvm_read(store, 1, 0, 1, 256, bytes, 5), LCRVM_OUT_OF_SEGMENT);
    ANSWERS(lcrvm_end_transaction(store, 1, 0, false, &commit), LCRVM_OK);
    CHECK(commit.place == 0 && commit.words == 8);
    ANSWERS(lcrvm_leave(store, 1, 1), LCRVM_UNFLUSHED);
    /* The log is flushed also where there is nothing to end. */
    ANSWERS(lcrvm_end_transaction(store, 1, 0, true, NULL), LCRVM_OUT_OF_TURN);
    ANSWERS(lcrvm_leave(store, 1, 1), LCRVM_OK);
    ANSWERS(lcrvm_flush(store, 1, &records), LCRVM_OK);
    CHECK(records == 1);
    ANSWERS(lcrvm_arrive(store, 0, 1), LCRVM_BEHIND);
    CHECK(lcrvm_fault_of(store)->sequence == 1);
    ANSWERS(lcrvm_deliver(store, 1, 1, 1, 0, &delivered), LCRVM_OK);
    CHECK(delivered.delivery == LCRVM_APPLIED && delivered.applied == 1);
    ANSWERS(lcrvm_arrive(store, 0, 1), LCRVM_OK);
    ANSWERS(lcrvm_trim(store, 1, &count), LCRVM_OK);
    CHECK(count == 1);
    CHECK(holds(store, 0, 1, 3, "hello"));
    ANSWERS(lcrvm_abort_transaction(store, 0, 0), LCRVM_OUT_OF_TURN);
    ANSWERS(lcrvm_truncate(store, 0, NULL), LCRVM_OK);
    close_well(store);
}

static void test_status_text(const char *folder)
{
    (void)folder;
    CHECK(strcmp(lcrvm_status_text(LCRVM_OK), "ok") == 0);
    CHECK(strcmp(lcrvm_status_text(LCRVM_FULL), "Full") == 0);
    CHECK(strcmp(lcrvm_status_text(LCRVM_READ_ONLY), "ReadOnly") == 0);
    CHECK(strcmp(lcrvm_status_text(LCRVM_DEVICE_FAULT), "device fault") == 0);
    CHECK(strcmp(lcrvm_status_text(LCRVM_STORE_IN_USE), "store in use") == 0);
    CHECK(strcmp(lcrvm_status_text(LCRVM_EXISTS), "Exists") == 0);
    CHECK(strcmp(lcrvm_status_text(LCRVM_MISUSE), "misuse") == 0);
    CHECK(strcmp(lcrvm_status_text(LCRVM_FORKED), "forked") == 0);
    CHECK(strcmp(lcrvm_status_text((enum lcrvm_status)70), "no status") == 0);
    CHECK(LCRVM_READ_ONLY == 28 && LCRVM_NO_MEMORY == 64 && LCRVM_STORE_IN_USE == 65 && LCRVM_NO_STORE == 66);
    CHECK(LCRVM_EXISTS == 67 && LCRVM_MISUSE == 68 && LCRVM_FORKED == 69);
}

/* A file has this length and holds zeros alone. */
static bool is_zeros(const char *path, size_t len)
{
    static const char zeros[MOST_BYTES];
    char bytes[MOST_BYTES];

    return read_bytes(path, bytes) == len && memcmp(bytes, zeros, len) == 0;
}

static bool has_length(const char *path, off_t len)
{
    struct stat at;

    return stat(path, &at) == 0 && at.st_size == len;
}

/* Whether a fault has the system's number, and as its text a path with this end and the system's words. */
static bool is_of(const struct lcrvm_fault *fault, const char *end, int error)
{
    char wanted[PATH_BYTES];
    const size_t length = (size_t)snprintf(wanted, sizeof wanted, "%s: %s", end, strerror(error));
    const size_t said = strlen(fault->text);

    return fault->error == error && said >= length && strcmp(fault->text + said - length, wanted) == 0;
}

static void test_creation(const char *folder)
{
    const struct lcrvm_options options = {.size = sizeof options, .geometry = &one};
    struct lcrvm_fault fault = {.size = sizeof fault};
    struct lcrvm_store *store;
    int before = descriptors();

    ANSWERS(lcrvm_create(below(folder, "further"), &options, &fault), LCRVM_DEVICE_FAULT);
    CHECK(is_of(&fault, "/creation/further", ENOENT) && standing(folder) == -1);
    ANSWERS(lcrvm_create(folder, &options, &fault), LCRVM_OK);
    CHECK(fault.status == LCRVM_OK && fault.text[0] == '\0');
    CHECK(is_zeros(below(folder, "log0"), 65 * 8));
    CHECK(is_zeros(below(folder, "seg1"), 4 * 544) && is_zeros(below(folder, "seg2"), 4 * 544));
    CHECK(access(below(folder, "log1"), F_OK) != 0 && access(below(folder, "seg3"), F_OK) != 0);
    ANSWERS(lcrvm_create(folder, &options, &fault), LCRVM_EXISTS);
    ANSWERS(lcrvm_create(below(folder, "log0"), &options, &fault), LCRVM_DEVICE_FAULT);
    CHECK(is_of(&fault, "/creation/log0", ENOTDIR));
    ANSWERS(lcrvm_create("", &options, &fault), LCRVM_DEVICE_FAULT);
    CHECK(strcmp(fault.text, "the path is empty") == 0 && fault.error == ENOENT);
    CHECK(symlink("nowhere", below(folder, "link")) == 0);
    ANSWERS(lcrvm_create(below(folder, "link"), &options, NULL), LCRVM_DEVICE_FAULT);
    CHECK(unlink(below(folder, "link")) == 0 && standing(folder) == 4);
    store = opened_as(folder, NULL);
    CHECK(lcrvm_geometry_of(store)->pages == 4 && lcrvm_geometry_of(store)->threads == 16);
    close_well(store);
    CHECK(descriptors() == before);
}

/* Nothing is made where one name is taken, be it by a link to nothing, or where the folder is locked. */
static void test_creation_is_refused(const char *folder)
{
    const struct lcrvm_options options = {.size = sizeof options, .geometry = &one};
    struct lcrvm_fault fault = {.size = sizeof fault};
    int before, locked;

    CHECK(mkdir(folder, 0777) == 0);
    before = descriptors();
    CHECK(symlink("nowhere", below(folder, "seg2")) == 0);
    ANSWERS(lcrvm_create(folder, &options, &fault), LCRVM_EXISTS);
    CHECK(access(below(folder, "log0"), F_OK) != 0);
    CHECK(unlink(below(folder, "seg2")) == 0);
    locked = open(folder, O_RDONLY);
    CHECK(flock(locked, LOCK_SH) == 0);
    ANSWERS(lcrvm_create(folder, &options, &fault), LCRVM_STORE_IN_USE);
    CHECK(fault.text[0] != '\0' && access(below(folder, "log0"), F_OK) != 0);
    close(locked);
    /* With no options it has one node, four segments of 64 pages, and 4,096 words. */
    ANSWERS(lcrvm_create(folder, NULL, NULL), LCRVM_OK);
    CHECK(has_length(below(folder, "log0"), 4097 * 8) && has_length(below(folder, "seg4"), 64 * 544));
    CHECK(standing(folder) == 1 + 1 + 4);
    CHECK(descriptors() == before);
}

/* A size that no store has is refused before the folder is looked at. */
static void test_sizes(const char *folder)
{
    static const struct lcrvm_geometry sizes[] = {
        SIZED(0, 1, 1, 1, 64), SIZED(9, 1, 1, 1, 64),     SIZED(65537, 1, 1, 1, 64), SIZED(1, 0, 1, 1, 64),
        SIZED(1, 17, 1, 1, 64), SIZED(1, 65537, 1, 1, 64), SIZED(1, 1, 0, 1, 64),     SIZED(1, 1, 17, 1, 64),
        SIZED(1, 1, 1, 0, 64), SIZED(1, 1, 1, 1025, 64),  SIZED(1, 1, 1, 1, 63),     SIZED(1, 1, 1, 1, 4097),
    };
    const struct lcrvm_options threads = {.size = sizeof threads, .threads = 17};
    const struct lcrvm_options as_one = {.size = sizeof as_one, .geometry = &one};
    struct lcrvm_store *store;
    struct lcrvm_fault fault = {.size = sizeof fault};

    for (size_t i = 0; i < sizeof sizes / sizeof sizes[0]; i++) {
        const struct lcrvm_options options = {.size = sizeof options, .geometry = &sizes[i]};

        ANSWERS(lcrvm_create(folder, &options, &fault), LCRVM_UNKNOWN);
        CHECK(fault.status == LCRVM_UNKNOWN);
        ANSWERS(lcrvm_open(folder, &options, &store, &fault), LCRVM_UNKNOWN);
        CHECK(store == NULL && fault.status == LCRVM_UNKNOWN);
    }
    ANSWERS(lcrvm_open(folder, &threads, &store, &fault), LCRVM_UNKNOWN);
    CHECK(strcmp(fault.text, "threads 17: a store has 1 to 16") == 0);
    ANSWERS(lcrvm_open(folder, NULL, &store, &fault), LCRVM_NO_STORE);
    CHECK(is_of(&fault, "/sizes", ENOENT));
    ANSWERS(lcrvm_open(folder, &as_one, &store, &fault), LCRVM_NO_STORE);
    CHECK(is_of(&fault, "/sizes", ENOENT));
    CHECK(mkdir(folder, 0777) == 0);
    ANSWERS(lcrvm_open(folder, &as_one, &store, &fault), LCRVM_NO_STORE);
    CHECK(strcmp(fault.text, "log0 is missing") == 0);
}

/* A structure whose size is none, or that has set what this version does not know, is refused before anything is done;
   what was built for a later version, or for none of its new fields, is taken. */
static void test_structures(const char *folder)
{
    struct {
        struct lcrvm_options known;
        uint64_t later;
    } longer = {{.size = sizeof longer, .geometry = &one}, 0};
    struct {
        struct lcrvm_fault known;
        uint64_t later;
    } told = {{.size = sizeof told}, 7};
    struct lcrvm_geometry none = one;
    struct lcrvm_options options = {.geometry = &one};
    struct lcrvm_fault fault = {.size = sizeof fault}, small = {.size = sizeof small - 1, .status = LCRVM_FULL};
    struct lcrvm_store *store;

    CHECK(strcmp(lcrvm_version(), LCRVM_VERSION) == 0);
    ANSWERS(lcrvm_create(folder, &options, &fault), LCRVM_MISUSE);
    CHECK(strncmp(fault.text, "options: ", 9) == 0 && standing(folder) == -1);
    longer.later = 1;
    ANSWERS(lcrvm_create(folder, &longer.known, &fault), LCRVM_MISUSE);
    options.size = sizeof options;
    options.geometry = &none;
    none.size = sizeof none - 1;
    ANSWERS(lcrvm_create(folder, &options, &fault), LCRVM_MISUSE);
    CHECK(strncmp(fault.text, "geometry: ", 10) == 0);
    ANSWERS(lcrvm_create(folder, NULL, &small), LCRVM_MISUSE);
    CHECK(small.status == LCRVM_FULL && standing(folder) == -1);
    longer.later = 0;
    ANSWERS(lcrvm_create(folder, &longer.known, &told.known), LCRVM_OK);
    CHECK(told.known.size == sizeof told && told.later == 7);
    ANSWERS(lcrvm_open(folder, &longer.known, &store, &told.known), LCRVM_OK);
    CHECK(lcrvm_geometry_of(store)->size == sizeof(struct lcrvm_geometry));
    ANSWERS(lcrvm_close(store, &small), LCRVM_MISUSE);
    CHECK(lcrvm_fault_of(store)->size == sizeof(struct lcrvm_fault));
    ANSWERS(lcrvm_close(store, &told.known), LCRVM_OK);
}

/* A refusal for a number names it, with its range. */
static void test_numbers_outside(const char *folder)
{
    static const uint32_t segments[] = {1, 1, 3}, first[] = {1, 1};
    struct lcrvm_store *store = made_as(folder, &one);
    uint32_t transaction;

    ANSWERS(lcrvm_begin(store, 0, &transaction, segments, 3, NULL, 0, 0), LCRVM_UNKNOWN);
    CHECK(strcmp(lcrvm_fault_of(store)->text, "segment 3: the store has 1 to 2") == 0);
    ANSWERS(lcrvm_begin(store, 0, &transaction, first, 1, segments, 3, 0), LCRVM_UNKNOWN);
    CHECK(strcmp(lcrvm_fault_of(store)->text, "segment 3: the store has 1 to 2") == 0);
    ANSWERS(lcrvm_begin(store, 5, &transaction, first, 1, NULL, 0, 0), LCRVM_UNKNOWN);
    CHECK(strcmp(lcrvm_fault_of(store)->text, "node 5: the store has 0 to 0") == 0);
    ANSWERS(lcrvm_put(store, 0, 9, 1, 0, "x", 1), LCRVM_UNKNOWN);
    CHECK(strcmp(lcrvm_fault_of(store)->text, "transaction 9: the store has 0 to 1") == 0);
    ANSWERS(lcrvm_leave(store, 0, 0), LCRVM_UNKNOWN);
    CHECK(strcmp(lcrvm_fault_of(store)->text, "segment 0: the store has 1 to 2") == 0);
    /* A segment that is named twice is one segment. */
    ANSWERS(lcrvm_begin(store, 0, &transaction, first, 2, first, 2, 0), LCRVM_OK);
    ANSWERS(lcrvm_put(store, 0, transaction, 1, 0, "x", 1), LCRVM_OK);
    ANSWERS(lcrvm_commit(store, 0, &transaction, false, NULL), LCRVM_OK);
    /* An abort of no transaction does nothing, of whatever store. */
    CHECK(transaction == LCRVM_NO_TRANSACTION);
    ANSWERS(lcrvm_abort(store, 0, &transaction), LCRVM_OK);
    ANSWERS(lcrvm_abort(store, 0, NULL), LCRVM_OK);
    ANSWERS(lcrvm_abort(NULL, 0, &transaction), LCRVM_OK);
    close_well(store);
}

static int64_t milliseconds_now(void)
{
    struct timespec at;

    clock_gettime(CLOCK_MONOTONIC, &at);
    return (int64_t)at.tv_sec * 1000 + at.tv_nsec / 1000000;
}

/* An opening waits for a store that another process has open, as long as it is told to. */
static void test_opening_waits(const char *folder)
{
    struct lcrvm_options options = {.size = sizeof options, .milliseconds = 50};
    struct lcrvm_fault fault = {.size = sizeof fault};
    struct lcrvm_store *store;
    int64_t begun;
    int ends[2], other_ends[2];
    char byte = 0, wanted[64];
    pid_t child;

    close_well(made_as(folder, &one));
    CHECK(pipe(ends) == 0 && pipe(other_ends) == 0);
    child = fork();
    if (child == 0) {
        store = opened(folder);
        CHECK(write(ends[1], "x", 1) == 1 && read(other_ends[0], &byte, 1) == 1);
        usleep(200000);
        _exit(lcrvm_close(store, NULL) != LCRVM_OK);
    }
    CHECK(read(ends[0], &byte, 1) == 1);
    begun = milliseconds_now();
    ANSWERS(lcrvm_open(folder, &options, &store, &fault), LCRVM_STORE_IN_USE);
    CHECK(milliseconds_now() - begun >= 50);
    snprintf(wanted, sizeof wanted, "store in use by process %ld", (long)child);
    CHECK(access("/proc/locks", R_OK) != 0 || strcmp(fault.text, wanted) == 0);
    options.milliseconds = 60000;
    begun = milliseconds_now();
    CHECK(write(other_ends[1], "x", 1) == 1);
    ANSWERS(lcrvm_open(folder, &options, &store, &fault), LCRVM_OK);
    CHECK(milliseconds_now() - begun >= 150 && milliseconds_now() - begun < 30000);
    close_well(store);
    exits(child, 0);
    for (int end = 0; end < 2; end++) {
        close(ends[end]);
        close(other_ends[end]);
    }
}

/* A file could not be opened, since nothing stands under its name. */
static bool is_missing(const struct lcrvm_fault *fault, const char *name)
{
    char wanted[PATH_BYTES];

    snprintf(wanted, sizeof wanted, "%s: %s", name, strerror(ENOENT));
    return fault->status == LCRVM_DEVICE_FAULT && strcmp(fault->text, wanted) == 0;
}

/* What is opened has to have the size that is asked for, and as found its files have to fit together. */
static void test_openings(const char *folder)
{
    const struct lcrvm_geometry fewer = SIZED(1, 2, 1, 4, 64), longer = SIZED(1, 2, 2, 4, 65);
    const struct lcrvm_options as_one = {.size = sizeof as_one, .geometry = &one};
    const struct lcrvm_options as_fewer = {.size = sizeof as_fewer, .geometry = &fewer};
    const struct lcrvm_options as_longer = {.size = sizeof as_longer, .geometry = &longer};
    struct lcrvm_store *store = made_as(folder, &one);
    struct lcrvm_fault fault = {.size = sizeof fault};

    close_well(store);
    /* The folder states no size. */
    CHECK(unlink(below(folder, "lcrvm.store")) == 0);
    /* What stands above the geometry has to be a file, too. */
    CHECK(mkdir(below(folder, "seg3"), 0777) == 0);
    ANSWERS(lcrvm_open(folder, &as_one, &store, &fault), LCRVM_DEVICE_FAULT);
    CHECK(strcmp(fault.text, "seg3: not a regular file") == 0 && rmdir(below(folder, "seg3")) == 0);
    CHECK(symlink("nowhere", below(folder, "seg3")) == 0);
    ANSWERS(lcrvm_open(folder, NULL, &store, &fault), LCRVM_DEVICE_FAULT);
    CHECK(is_missing(&fault, "seg3") && unlink(below(folder, "seg3")) == 0);
    ANSWERS(lcrvm_open(folder, &as_fewer, &store, &fault), LCRVM_BAD_GEOMETRY);
    CHECK(fault.area == 2);
    ANSWERS(lcrvm_open(folder, &as_longer, &store, &fault), LCRVM_BAD_GEOMETRY);
    CHECK(fault.area == 0);
    CHECK(truncate(below(folder, "seg2"), 544) == 0);
    ANSWERS(lcrvm_open(folder, NULL, &store, &fault), LCRVM_NO_STORE);
    CHECK(strcmp(fault.text, "seg2 has another length than the first") == 0);
    CHECK(truncate(below(folder, "seg1"), 543) == 0 && truncate(below(folder, "seg2"), 543) == 0);
    ANSWERS(lcrvm_open(folder, NULL, &store, &fault), LCRVM_NO_STORE);
    CHECK(strcmp(fault.text, "seg1 has a length of no store") == 0);
    CHECK(unlink(below(folder, "seg1")) == 0);
    ANSWERS(lcrvm_open(folder, NULL, &store, &fault), LCRVM_NO_STORE);
    CHECK(store == NULL && strcmp(fault.text, "seg1 is missing") == 0);
}

/* A file with this text, or with nothing. */
static void write_text(const char *path, const char *bytes, size_t len)
{
    FILE *file = fopen(path, "w");

    CHECK(file != NULL && fwrite(bytes, 1, len, file) == len && fclose(file) == 0);
}

/* An opening by this size, or as found, is answered so. */
static void opens_not(const char *folder, const struct lcrvm_geometry *geometry, enum lcrvm_status status,
                      uint64_t area, const char *text)
{
    const struct lcrvm_options options = {.size = sizeof options, .geometry = geometry};
    struct lcrvm_store *store;
    struct lcrvm_fault fault = {.size = sizeof fault};

    ANSWERS(lcrvm_open(folder, &options, &store, &fault), status);
    CHECK(store == NULL && fault.area == area && strcmp(fault.text, text) == 0);
    if (store != NULL || fault.area != area || strcmp(fault.text, text) != 0)
        fprintf(stderr, "area %d, '%s', and not %d, '%s'\n", (int)fault.area, fault.text, (int)area, text);
    if (store != NULL)
        lcrvm_close(store, NULL);
}

/* A store that this process has open is told with the process, where the system lists its locks. */
static void is_in_use(const char *folder, const struct lcrvm_geometry *geometry, const char *file)
{
    char text[64];

    snprintf(text, sizeof text, access("/proc/locks", R_OK) == 0 ? "%sstore in use by process %ld" : "%sstore in use",
             file, (long)getpid());
    opens_not(folder, geometry, LCRVM_STORE_IN_USE, 0, text);
}

/* The size stands in a file of its own. Where a file of the store is missing it is not opened, neither by that
   size, as found or not, nor by that of the files which are left. */
static void test_missing_files(const char *folder)
{
    static const struct lcrvm_geometry size = SIZED(2, 1, 2, 1, 64), one_log = SIZED(1, 1, 2, 1, 64);
    static const struct lcrvm_geometry one_segment = SIZED(2, 1, 1, 1, 64);
    static const char *const names[] = {"log0", "log1", "seg1", "seg2"};
    char text[MOST_BYTES], aside[BESIDE_BYTES];
    struct lcrvm_store *store = made_as(folder, &size);

    ANSWERS(commit(store, 1, 1, 0, "kept"), LCRVM_OK);
    ANSWERS(lcrvm_flush(store, 1, NULL), LCRVM_OK);
    close_well(store);
    CHECK(read_bytes(below(folder, "lcrvm.store"), text) == 45);
    CHECK(memcmp(text, "format 1\nnodes 2\nsegments 2\npages 1\nwords 64\n", 45) == 0);
    beside(folder, "aside", aside);
    for (int i = 0; i < 4; i++) {
        char wanted[64];

        snprintf(wanted, sizeof wanted, "%s: %s", names[i], strerror(ENOENT));
        CHECK(rename(below(folder, names[i]), aside) == 0);
        opens_not(folder, NULL, LCRVM_DEVICE_FAULT, 0, wanted);
        opens_not(folder, &size, LCRVM_DEVICE_FAULT, 0, wanted);
        if (i == 1)
            opens_not(folder, &one_log, LCRVM_BAD_GEOMETRY, 1, "log1 is missing");
        if (i == 3)
            opens_not(folder, &one_segment, LCRVM_BAD_GEOMETRY, 3, "seg2 is missing");
        CHECK(rename(aside, below(folder, names[i])) == 0);
    }
    store = opened_as(folder, NULL);
    CHECK(holds(store, 1, 1, 0, "kept"));
    close_well(store);
    /* A folder that states no size is as its files say. */
    CHECK(unlink(below(folder, "lcrvm.store")) == 0);
    store = opened_as(folder, NULL);
    CHECK(lcrvm_geometry_of(store)->nodes == 2 && holds(store, 1, 1, 0, "kept"));
    close_well(store);
    store = opened_as(folder, &size);
    close_well(store);
}

/* All files are there as the caller says, and the size that is stated is another. As found they are not as it
   says. */
static void test_another_size(const char *folder)
{
    static const struct lcrvm_geometry size = SIZED(2, 3, 2, 2, 64), alike = SIZED(1, 1, 2, 1, 67);
    static const struct {
        const char *text, *said;
        int by_size, as_found; /* the area; below 0 a file is missing */
        const char *missing;
    } sizes[] = {
        {"format 1\nnodes 1\nsegments 2\npages 2\nwords 64\n", "nodes 1 segments 2 pages 2 words 64", 1, 3, NULL},
        {"format 1\nnodes 3\nsegments 2\npages 2\nwords 64\n", "log2 is missing", 2, -1, "log2"},
        {"format 1\nnodes 2\nsegments 1\npages 2\nwords 64\n", "nodes 2 segments 1 pages 2 words 64", 3, 3, NULL},
        {"format 1\nnodes 2\nsegments 16\npages 2\nwords 64\n", "seg3 is missing", 4, -1, "seg3"},
        {"format 1\nnodes 2\nsegments 2\npages 1\nwords 64\n", "nodes 2 segments 2 pages 1 words 64", 2, 2, NULL},
        {"format 1\nnodes 2\nsegments 2\npages 1024\nwords 64\n", "nodes 2 segments 2 pages 1024 words 64", 2, 2, NULL},
        {"format 1\nnodes 2\nsegments 2\npages 2\nwords 4096\n", "nodes 2 segments 2 pages 2 words 4096", 0, 0, NULL},
    };

    static const char swapped[] = "format 1\nnodes 2\nsegments 1\npages 1\nwords 67\n";
    char other[BESIDE_BYTES];

    close_well(made_as(folder, &size));
    for (size_t i = 0; i < sizeof sizes / sizeof sizes[0]; i++) {
        char wanted[128];

        write_text(below(folder, "lcrvm.store"), sizes[i].text, strlen(sizes[i].text));
        snprintf(wanted, sizeof wanted, "%s%s", sizes[i].missing != NULL ? "" : "lcrvm.store: ", sizes[i].said);
        opens_not(folder, &size, LCRVM_BAD_GEOMETRY, (uint64_t)sizes[i].by_size, wanted);
        snprintf(wanted, sizeof wanted, "%s: %s", sizes[i].missing != NULL ? sizes[i].missing : "", strerror(ENOENT));
        if (sizes[i].missing != NULL)
            opens_not(folder, NULL, LCRVM_DEVICE_FAULT, 0, wanted);
        else
            opens_not(folder, NULL, LCRVM_BAD_GEOMETRY, (uint64_t)sizes[i].as_found, "");
    }
    /* A log is as long as a segment, so that the files differ by their names alone. */
    beside(folder, "alike", other);
    close_well(made_as(other, &alike));
    write_text(below(other, "lcrvm.store"), swapped, strlen(swapped));
    opens_not(other, &alike, LCRVM_BAD_GEOMETRY, 1, "log1 is missing");
}

/* The file of the size has to be a regular one, with the text of a size and nothing else. */
static void test_texts_of_no_size(const char *folder)
{
#define TEXT(bytes) {bytes, sizeof bytes - 1}
    static const struct {
        const char *bytes;
        size_t len;
    } texts[] = {
        TEXT(""),
        TEXT("\n"),
        TEXT("format 1\nnodes 1\nsegments 2\npages 4\nwords 64"),
        TEXT("format 1\nnodes 1\nsegments 2\npages 4\nwords 64\n\n"),
        TEXT("format 1\nnodes 1\nsegments 2\npages 4\nwords 64\n\0"),
        TEXT("format 1\nnodes 1\nsegments 2\npages 4\nwords 64\nformat 1\nnodes 1\nsegments 2\npages 4\nwords 64\n"),
        TEXT("format 1\r\nnodes 1\r\nsegments 2\r\npages 4\r\nwords 64\r\n"),
        TEXT(" format 1\nnodes 1\nsegments 2\npages 4\nwords 64\n"),
        TEXT("format 1\nnodes  1\nsegments 2\npages 4\nwords 64\n"),
        TEXT("format 1\nnodes\t1\nsegments 2\npages 4\nwords 64\n"),
        TEXT("format 1\nnodes 1\nsegments 2\npages 4\nwords 64 "),
        TEXT("format 2\nnodes 1\nsegments 2\npages 4\nwords 64\n"),
        TEXT("format 1\nnodes 01\nsegments 2\npages 4\nwords 64\n"),
        TEXT("format 1\nnodes +1\nsegments 2\npages 4\nwords 64\n"),
        TEXT("format 1\nnodes -1\nsegments 2\npages 4\nwords 64\n"),
        TEXT("format 1\nnodes 0\nsegments 2\npages 4\nwords 64\n"),
        TEXT("format 1\nnodes 9\nsegments 2\npages 4\nwords 64\n"),
        TEXT("format 1\nnodes 1\nsegments 17\npages 4\nwords 64\n"),
        TEXT("format 1\nnodes 1\nsegments 2\npages 1025\nwords 64\n"),
        TEXT("format 1\nnodes 1\nsegments 2\npages 4\nwords 63\n"),
        TEXT("format 1\nnodes 1\nsegments 2\npages 4\nwords 4097\n"),
        TEXT("format 1\nnodes 4294967297\nsegments 2\npages 4\nwords 64\n"),
        TEXT("format 1\nsegments 2\nnodes 1\npages 4\nwords 64\n"),
        TEXT("format 1\nnodes 1\nthreads 2\nsegments 2\npages 4\nwords 64\n"),
    };
#undef TEXT
    static const char no_size[] = "lcrvm.store: not the size of a store", no_file[] = "lcrvm.store: not a regular file";
    char path[PATH_BYTES], missing[64];
    int before;

    close_well(made_as(folder, &one));
    before = descriptors();
    snprintf(path, sizeof path, "%s/lcrvm.store", folder);
    for (size_t i = 0; i < sizeof texts / sizeof texts[0]; i++) {
        write_text(path, texts[i].bytes, texts[i].len);
        opens_not(folder, NULL, LCRVM_DEVICE_FAULT, 0, no_size);
        opens_not(folder, &one, LCRVM_DEVICE_FAULT, 0, no_size);
    }
    CHECK(unlink(path) == 0 && mkfifo(path, 0666) == 0);
    alarm(60);
    opens_not(folder, NULL, LCRVM_DEVICE_FAULT, 0, no_file);
    opens_not(folder, &one, LCRVM_DEVICE_FAULT, 0, no_file);
    alarm(0);
    CHECK(unlink(path) == 0 && mkdir(path, 0777) == 0);
    opens_not(folder, NULL, LCRVM_DEVICE_FAULT, 0, no_file);
    CHECK(rmdir(path) == 0 && symlink("nowhere", path) == 0);
    snprintf(missing, sizeof missing, "lcrvm.store: %s", strerror(ENOENT));
    opens_not(folder, NULL, LCRVM_DEVICE_FAULT, 0, missing);
    opens_not(folder, &one, LCRVM_DEVICE_FAULT, 0, missing);
    CHECK(unlink(path) == 0);
    CHECK(descriptors() == before);
}

/* A file, a folder or a link to nothing under this name lets no store be made. */
static void creates_not_beside(const char *folder, const char *name)
{
    const struct lcrvm_options options = {.size = sizeof options, .geometry = &one};
    struct lcrvm_fault fault = {.size = sizeof fault};

    for (int kind = 0; kind < 3; kind++) {
        if (kind == 0)
            write_text(below(folder, name), "", 0);
        else
            CHECK((kind == 1 ? mkdir(below(folder, name), 0777) : symlink("nowhere", below(folder, name))) == 0);
        ANSWERS(lcrvm_create(folder, &options, &fault), LCRVM_EXISTS);
        CHECK(strcmp(fault.text, name) == 0 && standing(folder) == 1);
        CHECK(remove(below(folder, name)) == 0);
    }
}

/* All names that a store may have are looked at, whatever its size, before one is made. */
static void test_creation_beside_others(const char *folder)
{
    char name[16];

    CHECK(mkdir(folder, 0777) == 0);
    creates_not_beside(folder, "lcrvm.store");
    creates_not_beside(folder, "fault");
    for (int number = 0; number < 8; number++) {
        snprintf(name, sizeof name, "log%d", number);
        creates_not_beside(folder, name);
        strcat(name, ".new");
        creates_not_beside(folder, name);
    }
    for (int number = 1; number <= 16; number++) {
        snprintf(name, sizeof name, "seg%d", number);
        creates_not_beside(folder, name);
        strcat(name, ".new");
        creates_not_beside(folder, name);
    }
    write_text(below(folder, "log8"), "", 0);
    write_text(below(folder, "seg0"), "", 0);
    ANSWERS(lcrvm_create(folder, NULL, NULL), LCRVM_OK);
    CHECK(standing(folder) == 2 + 6);
}

/* What a creation that fails has made is taken away, and what it cannot take away is said, as far as there is
   room. */
static void test_creation_that_fails(const char *folder)
{
    static const struct lcrvm_geometry most = SIZED(8, 1, 16, 1, 64);
    const struct lcrvm_options options = {.size = sizeof options, .geometry = &one};
    const struct lcrvm_options most_options = {.size = sizeof most_options, .geometry = &most};
    struct lcrvm_fault fault = {.size = sizeof fault};
    char wanted[256];

    CHECK(mkdir(folder, 0777) == 0);
    removals_error = EROFS;
    failing = made + 2 * 2 + 1;
    ANSWERS(lcrvm_create(folder, &options, &fault), LCRVM_DEVICE_FAULT);
    snprintf(wanted, sizeof wanted, "seg1: %s\nseg1: left in place\nlog0: left in place\nlcrvm.store: left in place",
             strerror(EIO));
    CHECK(strcmp(fault.text, wanted) == 0 && standing(folder) == 3);
    removals_error = 0;
    ANSWERS(lcrvm_create(folder, &options, NULL), LCRVM_EXISTS);
    CHECK(remove(below(folder, "seg1")) == 0 && remove(below(folder, "log0")) == 0);
    CHECK(remove(below(folder, "lcrvm.store")) == 0);
    /* With another line the text would be full. */
    removals_error = failure = EROFS;
    failing = made + 2 * 25;
    ANSWERS(lcrvm_create(folder, &most_options, &fault), LCRVM_DEVICE_FAULT);
    snprintf(wanted, sizeof wanted, "seg16: %s\nseg16: left in place\nseg15: left in place\n", strerror(EROFS));
    CHECK(strncmp(fault.text, wanted, strlen(wanted)) == 0 && strlen(fault.text) < sizeof fault.text);
    CHECK(strcmp(fault.text + strlen(fault.text) - strlen("seg7: left in place\n.."), "seg7: left in place\n..") == 0);
    CHECK(standing(folder) == 25);
    removals_error = 0;
    failure = EIO;
    failing = 0;
}

/* A creation that was cut leaves no store, up to its last write. */
static void test_creation_that_is_cut(const char *folder)
{
    static const struct lcrvm_geometry size = SIZED(2, 1, 2, 1, 64);
    const struct lcrvm_options options = {.size = sizeof options, .geometry = &size};
    char path[BESIDE_BYTES], number[16];

    for (int call = 1; call <= 10; call++) {
        struct lcrvm_store *store;
        pid_t child;

        snprintf(number, sizeof number, "%d", call);
        beside(folder, number, path);
        CHECK(mkdir(path, 0777) == 0);
        child = fork();
        if (child == 0) {
            ending = made + call;
            lcrvm_create(path, &options, NULL);
            _exit(1);
        }
        CHECK(waitpid(child, NULL, 0) == child && standing(path) == (call + 1) / 2);
        CHECK((lcrvm_open(path, NULL, &store, NULL) == LCRVM_OK) == (call == 10));
        if (store != NULL)
            lcrvm_close(store, NULL);
        CHECK((lcrvm_open(path, &options, &store, NULL) == LCRVM_OK) == (call == 10));
        if (store != NULL)
            lcrvm_close(store, NULL);
        ANSWERS(lcrvm_create(path, &options, NULL), LCRVM_EXISTS);
    }
}

/* Gives the files of a store names in another folder too. */
static void link_files(const char *from, const char *to, const char *const names[])
{
    char path[PATH_BYTES];

    for (; *names != NULL; names++) {
        snprintf(path, sizeof path, "%s/%s", to, *names);
        CHECK(link(below(from, *names), path) == 0);
    }
}

/* A file is of one store that is open, by whatever folder it has its name. */
static void test_files_of_two_folders(const char *folder)
{
    static const char *const all[] = {"lcrvm.store", "log0", "seg1", "seg2", NULL}, *const last[] = {"seg2", NULL};
    static const struct lcrvm_geometry two_logs = SIZED(2, 1, 1, 1, 64);
    struct lcrvm_store *store = made_as(folder, &one);
    char linked[BESIDE_BYTES], partly[BESIDE_BYTES], twice[BESIDE_BYTES], path[PATH_BYTES];

    beside(folder, "linked", linked);
    CHECK(mkdir(linked, 0777) == 0);
    link_files(folder, linked, all);
    beside(folder, "partly", partly);
    close_well(made_as(partly, &one));
    CHECK(unlink(below(partly, "seg2")) == 0);
    link_files(folder, partly, last);
    is_in_use(linked, NULL, "log0: ");
    is_in_use(linked, &one, "log0: ");
    is_in_use(partly, NULL, "seg2: ");
    ANSWERS(commit(store, 0, 1, 0, "kept"), LCRVM_OK);
    ANSWERS(lcrvm_flush(store, 0, NULL), LCRVM_OK);
    close_well(store);
    store = opened_as(linked, NULL);
    CHECK(holds(store, 0, 1, 0, "kept"));
    is_in_use(folder, NULL, "log0: ");
    close_well(store);
    /* Nor is it two areas of one store. */
    beside(folder, "twice", twice);
    close_well(made_as(twice, &two_logs));
    snprintf(path, sizeof path, "%s/log1", twice);
    CHECK(unlink(path) == 0 && link(below(twice, "log0"), path) == 0);
    is_in_use(twice, NULL, "log1: ");
}

/* A lock that is interrupted is taken all the same. */
static void test_interrupted_locks(const char *folder)
{
    const struct lcrvm_options options = {.size = sizeof options, .geometry = &one};
    struct lcrvm_store *store;

    CHECK(mkdir(folder, 0777) == 0);
    interrupted_locks = 2;
    ANSWERS(lcrvm_create(folder, &options, NULL), LCRVM_OK);
    CHECK(interrupted_locks == 0);
    interrupted_locks = 2;
    store = opened_as(folder, NULL);
    CHECK(interrupted_locks == 0);
    is_in_use(folder, NULL, "");
    close_well(store);
}

/* After no clean close an opening syncs the size and the folder before it writes; where one fails nothing is
   written, and a mark is left. */
static void test_opening_syncs_the_folder(const char *folder)
{
    enum { SIZE_AND_FOLDER = 2 };
    struct lcrvm_store *store = made_as(folder, &one);
    char log[MOST_BYTES], now[MOST_BYTES];
    size_t len;

    ANSWERS(commit(store, 0, 1, 0, "kept"), LCRVM_OK);
    ANSWERS(lcrvm_flush(store, 0, NULL), LCRVM_OK);
    close_well(store);
    CHECK(unlink(below(folder, "lcrvm.clean")) == 0);
    len = read_bytes(below(folder, "log0"), log);
    for (int sync = 1; sync <= SIZE_AND_FOLDER; sync++) {
        folder_syncs = 0;
        failing = made + sync;
        opens_not(folder, NULL, LCRVM_DEVICE_FAULT, 0,
                  sync == 1 ? "lcrvm.store: Input/output error" : "folder: Input/output error");
        CHECK(folder_syncs == sync - 1 && made == failing);
        CHECK(read_bytes(below(folder, "log0"), now) == len && memcmp(log, now, len) == 0);
        CHECK(unlink(below(folder, "fault")) == 0);
    }
    folder_syncs = 0;
    store = opened_as(folder, NULL);
    CHECK(folder_syncs == 1 && holds(store, 0, 1, 0, "kept"));
    close_well(store);
    failing = 0;
}

/* The log fails, and no mark can be made: that is said, unless one stands. */
static void test_marks_that_are_not_made(const char *folder)
{
    static const char asked[] = "unmount the file system before the store is opened again";
    struct lcrvm_store *store = made_as(folder, &one);
    struct lcrvm_fault fault = {.size = sizeof fault};
    char wanted[256];

    ANSWERS(commit(store, 0, 1, 0, "lost"), LCRVM_OK);
    marks_error = EROFS;
    failing = made + 1;
    ANSWERS(lcrvm_flush(store, 0, NULL), LCRVM_DEVICE_FAULT);
    snprintf(wanted, sizeof wanted, "log0: %s\nfault: not made: %s", strerror(EIO), asked);
    CHECK(strcmp(lcrvm_fault_of(store)->text, wanted) == 0);
    ANSWERS(lcrvm_begin_transaction(store, 0, 0, NULL, 0, NULL, 0), LCRVM_DEVICE_FAULT);
    ANSWERS(lcrvm_close(store, &fault), LCRVM_DEVICE_FAULT);
    CHECK(strcmp(fault.text, wanted) == 0 && access(below(folder, "fault"), F_OK) != 0);
    marks_error = 0;
    store = opened_as(folder, NULL);
    ANSWERS(commit(store, 0, 1, 0, "lost"), LCRVM_OK);
    CHECK(mkdir(below(folder, "fault"), 0777) == 0);
    failing = made + 1;
    ANSWERS(lcrvm_flush(store, 0, NULL), LCRVM_DEVICE_FAULT);
    ANSWERS(lcrvm_close(store, &fault), LCRVM_DEVICE_FAULT);
    snprintf(wanted, sizeof wanted, "log0: %s", strerror(EIO));
    CHECK(strcmp(fault.text, wanted) == 0);
    failing = 0;
}

/* Commits with a record and resets are counted from the opening on. */
static void test_counts(const char *folder)
{
    struct lcrvm_store *store = made_as(folder, &one);
    uint64_t records = 7, rounds = 7;

    ANSWERS(lcrvm_flush(store, 0, &records), LCRVM_OK);
    ANSWERS(lcrvm_truncate(store, 0, &rounds), LCRVM_OK);
    CHECK(records == 0 && rounds == 0);
    ANSWERS(commit(store, 0, 1, 0, "one"), LCRVM_OK);
    ANSWERS(commit(store, 0, 2, 0, "two"), LCRVM_OK);
    ANSWERS(begin(store, 0, 0, 1), LCRVM_OK);
    ANSWERS(lcrvm_end_transaction(store, 0, 0, true, NULL), LCRVM_OK);
    ANSWERS(lcrvm_flush(store, 0, &records), LCRVM_OK);
    CHECK(records == 2);
    ANSWERS(lcrvm_truncate(store, 0, &rounds), LCRVM_OK);
    CHECK(rounds == 1);
    ANSWERS(lcrvm_truncate(store, 0, &rounds), LCRVM_OK);
    CHECK(rounds == 1);
    ANSWERS(commit(store, 0, 1, 0, "three"), LCRVM_OK);
    ANSWERS(lcrvm_truncate(store, 0, &rounds), LCRVM_OK);
    ANSWERS(lcrvm_flush(store, 0, &records), LCRVM_OK);
    CHECK(rounds == 2 && records == 3);
    ANSWERS(lcrvm_truncate(store, 1, &rounds), LCRVM_UNKNOWN);
    CHECK(rounds == 2);
    close_well(store);
    store = opened_as(folder, &one);
    ANSWERS(lcrvm_flush(store, 0, &records), LCRVM_OK);
    ANSWERS(lcrvm_truncate(store, 0, &rounds), LCRVM_OK);
    CHECK(records == 0 && rounds == 0);
    close_well(store);
}

/* A transaction whose log is full is made again, with all its ranges, and what they hold where nothing was
   written. */
static void test_full_is_made_again(const char *folder)
{
    static const uint32_t both[] = {2, 1};
    struct lcrvm_store *store = made_as(folder, &one);
    struct lcrvm_record commit;
    uint64_t records = 0, rounds = 0;

    ANSWERS(lcrvm_leave(store, 0, 3), LCRVM_UNKNOWN);
    fill(store);
    ANSWERS(lcrvm_begin_transaction(store, 0, 0, both, 2, NULL, 0), LCRVM_OK);
    ANSWERS(put(store, 0, 1, 0, "none"), LCRVM_OK);
    ANSWERS(put(store, 0, 1, 0, "nine"), LCRVM_OK);
    ANSWERS(put(store, 0, 2, 300, "other"), LCRVM_OK);
    ANSWERS(lcrvm_set_range(store, 0, 0, 1, 8, 3), LCRVM_OK);
    /* 3 words, 2 for each lock, 2 for each range, and one for the bytes of each. */
    ANSWERS(lcrvm_end_transaction(store, 0, 0, true, &commit), LCRVM_OK);
    CHECK(commit.place == 0 && commit.words == 3 + 4 + 9);
    CHECK(lcrvm_fault_of(store)->status == LCRVM_UNKNOWN);
    ANSWERS(lcrvm_flush(store, 0, &records), LCRVM_OK);
    CHECK(records == 9);
    ANSWERS(lcrvm_truncate(store, 0, &rounds), LCRVM_OK);
    CHECK(rounds == 2);
    close_well(store);
    store = opened_as(folder, &one);
    CHECK(holds(store, 0, 1, 0, "nineed") && holds(store, 0, 1, 8, "filled") && holds(store, 0, 2, 300, "other"));
    close_well(store);
}

/* The transaction that was not made again is open with its locks, ranges and bytes. */
static void stays_open(struct lcrvm_store *store, uint32_t node, uint32_t segment, uint64_t need, uint64_t tail)
{
    CHECK(is_full(store, tail, need));
    CHECK(reads(store, node, segment, 0, "first") && reads(store, node, segment, 40, "second"));
    ANSWERS(lcrvm_write(store, node, 0, segment, 40, "seconds", 7), LCRVM_NO_RANGE);
    ANSWERS(lcrvm_begin_transaction(store, node, 0, NULL, 0, NULL, 0), LCRVM_OUT_OF_TURN);
}

/* 3 words, 2 of a lock, and of each of two ranges 2 and one of bytes. */
enum { TWO_RANGES = 3 + 2 + 6 };

static void put_two(struct lcrvm_store *store, uint32_t node, uint32_t segment)
{
    ANSWERS(put(store, node, segment, 0, "first"), LCRVM_OK);
    ANSWERS(put(store, node, segment, 40, "second"), LCRVM_OK);
}

/* The log is emptied beside another transaction, which keeps its locks, its ranges and what it wrote, on a page that
   is to be written and elsewhere. */
static void test_full_where_another_has_ranges(const char *folder)
{
    static const uint32_t second[] = {2};
    struct lcrvm_store *store = made_as(folder, &one);
    struct lcrvm_record placed;
    char bytes[8];
    uint64_t rounds = 7;

    ANSWERS(commit(store, 0, 2, 901, "filled"), LCRVM_OK);
    for (uint32_t number = 1; number < 8; number++)
        ANSWERS(commit(store, 0, 1, 8 * number, "filled"), LCRVM_OK);
    ANSWERS(lcrvm_begin_transaction(store, 0, 1, second, 1, NULL, 0), LCRVM_OK);
    ANSWERS(lcrvm_set_range(store, 0, 1, 2, 900, 8), LCRVM_OK);
    ANSWERS(lcrvm_write(store, 0, 1, 2, 902, "open", 4), LCRVM_OK);
    ANSWERS(lcrvm_set_range(store, 0, 1, 2, 100, 1), LCRVM_OK);
    ANSWERS(begin(store, 0, 0, 1), LCRVM_OK);
    put_two(store, 0, 1);
    ANSWERS(lcrvm_end_transaction(store, 0, 0, false, &placed), LCRVM_OK);
    CHECK(placed.place == 0 && placed.words == TWO_RANGES);
    CHECK(holds(store, 0, 1, 0, "first") && holds(store, 0, 1, 40, "second"));
    ANSWERS(begin(store, 0, 0, 2), LCRVM_BUSY);
    ANSWERS(lcrvm_begin_transaction(store, 0, 1, NULL, 0, NULL, 0), LCRVM_OUT_OF_TURN);
    ANSWERS(lcrvm_write(store, 0, 1, 2, 908, "x", 1), LCRVM_NO_RANGE);
    ANSWERS(lcrvm_read(store, 0, 1, 2, 900, bytes, 8), LCRVM_OK);
    CHECK(memcmp(bytes, "\0fopend\0", 8) == 0);
    ANSWERS(lcrvm_write(store, 0, 1, 2, 100, "y", 1), LCRVM_OK);
    ANSWERS(lcrvm_end_transaction(store, 0, 1, true, NULL), LCRVM_OK);
    CHECK(holds(store, 0, 2, 901, "fopend") && holds(store, 0, 2, 100, "y"));
    /* What is aborted is as it was before. */
    for (uint32_t number = 0; number < 5; number++)
        ANSWERS(commit(store, 0, 1, 8 * number, "filled"), LCRVM_OK);
    ANSWERS(lcrvm_begin_transaction(store, 0, 1, second, 1, NULL, 0), LCRVM_OK);
    ANSWERS(lcrvm_set_range(store, 0, 1, 2, 901, 2), LCRVM_OK);
    ANSWERS(lcrvm_write(store, 0, 1, 2, 901, "no", 2), LCRVM_OK);
    ANSWERS(commit(store, 0, 1, 0, "filled"), LCRVM_OK);
    ANSWERS(lcrvm_abort_transaction(store, 0, 1), LCRVM_OK);
    CHECK(holds(store, 0, 2, 901, "fopend"));
    ANSWERS(lcrvm_truncate(store, 0, &rounds), LCRVM_OK);
    CHECK(rounds == 3);
    close_well(store);
    store = opened_as(folder, &one);
    CHECK(holds(store, 0, 2, 901, "fopend") && holds(store, 0, 2, 100, "y") && holds(store, 0, 1, 0, "filled"));
    close_well(store);
}

/* Records on segment 1 stand in the log of node 1, and its token is at node 0. What is only read stays locked too. */
static void test_full_where_the_truncation_is_refused(const char *folder)
{
    static const struct lcrvm_geometry size = SIZED(2, 2, 5, 1, 64);
    static const uint32_t third[] = {3}, fifth[] = {5};
    struct lcrvm_store *store = made_as(folder, &size);
    uint64_t rounds = 7;

    for (uint32_t number = 0; number < 7; number++)
        ANSWERS(commit(store, 1, 1, number, "x"), LCRVM_OK);
    ANSWERS(lcrvm_flush(store, 1, NULL), LCRVM_OK);
    ANSWERS(lcrvm_leave(store, 1, 1), LCRVM_OK);
    for (uint64_t record = 1; record <= 7; record++)
        ANSWERS(lcrvm_deliver(store, 1, record, 1, 0, NULL), LCRVM_OK);
    ANSWERS(lcrvm_arrive(store, 0, 1), LCRVM_OK);
    ANSWERS(lcrvm_begin_transaction(store, 1, 0, third, 1, fifth, 1), LCRVM_OK);
    put_two(store, 1, 3);
    ANSWERS(lcrvm_end_transaction(store, 1, 0, false, NULL), LCRVM_FULL);
    stays_open(store, 1, 3, TWO_RANGES, 56);
    CHECK(reads(store, 1, 5, 0, ""));
    ANSWERS(lcrvm_set_range(store, 1, 0, 5, 0, 1), LCRVM_READ_ONLY);
    ANSWERS(lcrvm_begin_transaction(store, 1, 1, fifth, 1, NULL, 0), LCRVM_BUSY);
    ANSWERS(lcrvm_end_transaction(store, 1, 0, true, NULL), LCRVM_FULL);
    stays_open(store, 1, 3, TWO_RANGES, 56);
    ANSWERS(lcrvm_leave(store, 0, 1), LCRVM_OK);
    ANSWERS(lcrvm_arrive(store, 1, 1), LCRVM_OK);
    ANSWERS(lcrvm_end_transaction(store, 1, 0, true, NULL), LCRVM_OK);
    ANSWERS(lcrvm_truncate(store, 1, &rounds), LCRVM_OK);
    CHECK(rounds == 2);
    CHECK(holds(store, 1, 3, 0, "first") && holds(store, 1, 3, 40, "second"));
    close_well(store);
}

static void test_full_where_it_does_not_help(const char *folder)
{
    struct lcrvm_store *store = made_as(folder, &one);
    uint64_t rounds = 7;

    ANSWERS(commit(store, 0, 2, 0, "x"), LCRVM_OK);
    ANSWERS(begin(store, 0, 0, 1), LCRVM_OK);
    put_two(store, 0, 1);
    ANSWERS(lcrvm_set_range(store, 0, 0, 1, 256, 512), LCRVM_OK);
    ANSWERS(lcrvm_end_transaction(store, 0, 0, false, NULL), LCRVM_FULL);
    stays_open(store, 0, 1, TWO_RANGES + 2 + 64, 8);
    ANSWERS(lcrvm_abort_transaction(store, 0, 0), LCRVM_OK);
    ANSWERS(lcrvm_truncate(store, 0, &rounds), LCRVM_OK);
    CHECK(rounds == 1);
    close_well(store);
}

/* What the files of two segments held, and whether they do so now. */
struct held {
    char bytes[2][MOST_BYTES];
    size_t lens[2];
};

static void hold(const char *folder, struct held *held)
{
    held->lens[0] = read_bytes(below(folder, "seg1"), held->bytes[0]);
    held->lens[1] = read_bytes(below(folder, "seg2"), held->bytes[1]);
}

static bool is_held(const char *folder, const struct held *held)
{
    static struct held now;

    hold(folder, &now);
    return memcmp(held->bytes[0], now.bytes[0], held->lens[0]) == 0 &&
           memcmp(held->bytes[1], now.bytes[1], held->lens[1]) == 0;
}

/* Whether a file holds these bytes somewhere. */
static bool has_bytes(const char *folder, const char *name, const char *bytes)
{
    static char text[MOST_BYTES];
    size_t len = read_bytes(below(folder, name), text);

    for (size_t at = 0; at + strlen(bytes) <= len; at++)
        if (memcmp(text + at, bytes, strlen(bytes)) == 0)
            return true;
    return false;
}

/* A truncation writes the pages on which an open transaction has ranges, with what is committed there. What that one
   wrote is in no file until it is committed. */
static void test_truncates_beside_ranges(const char *folder)
{
    static const uint32_t second[] = {2};
    static struct held held;
    struct lcrvm_store *store = made_as(folder, &one);
    char bytes[8];
    uint64_t rounds = 7;

    ANSWERS(commit(store, 0, 1, 508, "bytes"), LCRVM_OK);
    ANSWERS(commit(store, 0, 2, 600, "second"), LCRVM_OK);
    ANSWERS(lcrvm_begin_transaction(store, 0, 1, second, 1, NULL, 0), LCRVM_OK);
    ANSWERS(lcrvm_set_range(store, 0, 1, 2, 600, 100), LCRVM_OK);
    ANSWERS(lcrvm_write(store, 0, 1, 2, 602, "unsaid", 6), LCRVM_OK);
    hold(folder, &held);
    ANSWERS(lcrvm_truncate(store, 0, &rounds), LCRVM_OK);
    CHECK(rounds == 1 && !is_held(folder, &held));
    CHECK(has_bytes(folder, "seg2", "second"));
    CHECK(!has_bytes(folder, "seg2", "unsaid") && !has_bytes(folder, "log0", "unsaid"));
    /* The pages are clean now, and are not written again. */
    hold(folder, &held);
    ANSWERS(lcrvm_truncate(store, 0, &rounds), LCRVM_OK);
    CHECK(rounds == 1 && is_held(folder, &held));
    ANSWERS(lcrvm_read(store, 0, 1, 2, 600, bytes, 8), LCRVM_OK);
    CHECK(memcmp(bytes, "seunsaid", 8) == 0);
    ANSWERS(lcrvm_abort_transaction(store, 0, 1), LCRVM_OK);
    CHECK(holds(store, 0, 2, 600, "second"));
    ANSWERS(lcrvm_begin_transaction(store, 0, 1, second, 1, NULL, 0), LCRVM_OK);
    ANSWERS(lcrvm_put(store, 0, 1, 2, 600, "said", 4), LCRVM_OK);
    ANSWERS(lcrvm_truncate(store, 0, &rounds), LCRVM_OK);
    ANSWERS(lcrvm_end_transaction(store, 0, 1, true, NULL), LCRVM_OK);
    close_well(store);
    store = opened_as(folder, &one);
    CHECK(holds(store, 0, 1, 508, "bytes") && holds(store, 0, 2, 600, "saidnd"));
    close_well(store);
}

/* Bytes that are read and changed in place are those that are committed, or are as before after an abort. */
static void test_in_place(const char *folder)
{
    static const uint32_t first = 1, second = 2;
    struct lcrvm_store *store = made_as(folder, &one);
    const void *seen = folder, *again;
    void *changed = store;
    size_t length = 7;

    ANSWERS(commit(store, 0, 1, 10, "before"), LCRVM_OK);
    ANSWERS(lcrvm_bytes(store, 0, 0, 1, &seen, &length), LCRVM_OUT_OF_TURN);
    CHECK(seen == NULL);
    ANSWERS(lcrvm_change(store, 0, 0, 1, 0, 4, &changed), LCRVM_OUT_OF_TURN);
    CHECK(changed == NULL);
    ANSWERS(lcrvm_bytes(store, 0, 0, 1, NULL, NULL), LCRVM_MISUSE);
    ANSWERS(lcrvm_change(store, 0, 0, 1, 0, 4, NULL), LCRVM_MISUSE);
    ANSWERS(lcrvm_begin_transaction(store, 0, 0, &first, 1, &second, 1), LCRVM_OK);
    ANSWERS(lcrvm_bytes(store, 0, 0, 3, &seen, &length), LCRVM_UNKNOWN);
    ANSWERS(lcrvm_bytes(store, 0, 0, 0, &seen, &length), LCRVM_UNKNOWN);
    ANSWERS(lcrvm_bytes(store, 0, 0, 1, &seen, &length), LCRVM_OK);
    CHECK(length == (size_t)one.pages * 256 && memcmp((const char *)seen + 10, "before", 6) == 0);
    ANSWERS(lcrvm_bytes(store, 0, 0, 2, &again, NULL), LCRVM_OK);
    CHECK(again != seen);
    ANSWERS(lcrvm_change(store, 0, 0, 2, 0, 4, &changed), LCRVM_READ_ONLY);
    ANSWERS(lcrvm_change(store, 0, 0, 1, 0, 0, &changed), LCRVM_EMPTY_RANGE);
    ANSWERS(lcrvm_change(store, 0, 0, 1, (uint32_t)length - 1, 2, &changed), LCRVM_OUT_OF_SEGMENT);
    CHECK(changed == NULL);
    ANSWERS(lcrvm_change(store, 0, 0, 1, 10, 6, &changed), LCRVM_OK);
    CHECK(changed == (const char *)seen + 10);
    memcpy(changed, "behind", 6);
    CHECK(reads(store, 0, 1, 10, "behind"));
    ANSWERS(lcrvm_abort_transaction(store, 0, 0), LCRVM_OK);
    CHECK(holds(store, 0, 1, 10, "before"));
    ANSWERS(begin(store, 0, 0, 1), LCRVM_OK);
    ANSWERS(lcrvm_change(store, 0, 0, 1, 12, 2, &changed), LCRVM_OK);
    memcpy(changed, "FO", 2);
    ANSWERS(lcrvm_end_transaction(store, 0, 0, true, NULL), LCRVM_OK);
    CHECK(holds(store, 0, 1, 10, "beFOre"));
    close_well(store);
    store = opened_as(folder, &one);
    CHECK(holds(store, 0, 1, 10, "beFOre"));
    close_well(store);
}

/* A page that is to be written goes with its segment's token, and is written where that is. */
static void test_pages_go_with_tokens(const char *folder)
{
    struct lcrvm_store *store = made_as(folder, &two_nodes);
    char before[MOST_BYTES], now[MOST_BYTES];
    uint64_t rounds = 7;

    ANSWERS(commit(store, 1, 1, 0, "one"), LCRVM_OK);
    ANSWERS(lcrvm_flush(store, 1, NULL), LCRVM_OK);
    ANSWERS(lcrvm_leave(store, 1, 1), LCRVM_OK);
    read_bytes(below(folder, "seg1"), before);
    ANSWERS(lcrvm_truncate(store, 0, &rounds), LCRVM_OK);
    ANSWERS(lcrvm_truncate(store, 1, NULL), LCRVM_UNCLEAN);
    CHECK(read_bytes(below(folder, "seg1"), now) == 544 && memcmp(before, now, 544) == 0);
    ANSWERS(lcrvm_deliver(store, 1, 1, 1, 0, NULL), LCRVM_OK);
    ANSWERS(lcrvm_arrive(store, 0, 1), LCRVM_OK);
    ANSWERS(lcrvm_truncate(store, 0, &rounds), LCRVM_OK);
    CHECK(rounds == 0);
    CHECK(read_bytes(below(folder, "seg1"), now) == 544 && memcmp(before, now, 544) != 0);
    ANSWERS(lcrvm_leave(store, 0, 1), LCRVM_OK);
    ANSWERS(lcrvm_arrive(store, 1, 1), LCRVM_OK);
    ANSWERS(lcrvm_truncate(store, 1, &rounds), LCRVM_OK);
    CHECK(rounds == 1);
    close_well(store);
    store = opened_as(folder, &two_nodes);
    CHECK(holds(store, 1, 1, 0, "one"));
    close_well(store);
}

/* The pages of a segment are written side by side: of each file three syncs, however many they are. */
static void test_syncs_of_a_truncation(const char *folder)
{
    struct lcrvm_store *store = made_as(folder, &one);
    long before;

    for (uint32_t page = 0; page < 4; page++)
        ANSWERS(commit(store, 0, 1, 256 * page, "page"), LCRVM_OK);
    ANSWERS(commit(store, 0, 2, 0, "page"), LCRVM_OK);
    ANSWERS(lcrvm_flush(store, 0, NULL), LCRVM_OK);
    before = made;
    ANSWERS(lcrvm_truncate(store, 0, NULL), LCRVM_OK);
    /* A gate that stands closed is closed by a write of no bytes: of each page two writes, of the segment two
       syncs; and the log. */
    CHECK(made - before == (4 * 2 + 2) + (1 * 2 + 2) + 2);
    for (uint32_t page = 0; page < 4; page++)
        ANSWERS(commit(store, 0, 1, 256 * page, "page"), LCRVM_OK);
    ANSWERS(lcrvm_truncate(store, 0, NULL), LCRVM_OK);
    for (uint32_t page = 0; page < 4; page++)
        ANSWERS(commit(store, 0, 1, 256 * page, "page"), LCRVM_OK);
    ANSWERS(lcrvm_flush(store, 0, NULL), LCRVM_OK);
    before = made;
    ANSWERS(lcrvm_truncate(store, 0, NULL), LCRVM_OK);
    CHECK(made - before == (4 * 3 + 3) + 2);
    close_well(store);
}

/* A truncation trims, so that the heap does not grow. */
static void test_trimmed(const char *folder)
{
    static const struct lcrvm_geometry size = SIZED(1, 1, 1, 1, 4096);
    struct lcrvm_store *store = made_as(folder, &size);
    const void *end = NULL;
    uint64_t count = 7;

    for (uint32_t round = 0; round < 40; round++) {
        /* What grows to the double is as large as it has to be by then. */
        if (round == 20)
            end = sbrk(0);
        for (uint32_t number = 0; number < 600; number++)
            ANSWERS(commit(store, 0, 1, number % 250, "x"), LCRVM_OK);
    }
    CHECK(sbrk(0) == end);
    ANSWERS(lcrvm_truncate(store, 0, NULL), LCRVM_OK);
    ANSWERS(lcrvm_trim(store, 0, &count), LCRVM_OK);
    CHECK(count == 0);
    close_well(store);
}

/* So does that of one node of two, of what both have applied. */
static void test_trimmed_of_two(const char *folder)
{
    static const struct lcrvm_geometry size = SIZED(2, 1, 1, 1, 512);
    struct lcrvm_store *store = made_as(folder, &size);
    uint64_t count = 7;

    /* The token of segment 1 is at node 1. The other has not applied the first record when the log is emptied. */
    ANSWERS(commit(store, 1, 1, 3, "x"), LCRVM_OK);
    ANSWERS(lcrvm_truncate(store, 1, NULL), LCRVM_OK);
    ANSWERS(lcrvm_deliver(store, 1, 1, 1, 0, NULL), LCRVM_OK);
    ANSWERS(commit(store, 1, 1, 4, "y"), LCRVM_OK);
    ANSWERS(lcrvm_flush(store, 1, NULL), LCRVM_OK);
    ANSWERS(lcrvm_deliver(store, 1, 2, 1, 0, NULL), LCRVM_OK);
    ANSWERS(lcrvm_truncate(store, 1, NULL), LCRVM_OK);
    ANSWERS(lcrvm_trim(store, 1, &count), LCRVM_OK);
    CHECK(count == 0);
    /* What only one has applied stays. */
    ANSWERS(commit(store, 1, 1, 5, "z"), LCRVM_OK);
    ANSWERS(lcrvm_truncate(store, 1, NULL), LCRVM_OK);
    ANSWERS(lcrvm_deliver(store, 1, 3, 1, 0, NULL), LCRVM_OK);
    ANSWERS(lcrvm_trim(store, 1, &count), LCRVM_OK);
    CHECK(count == 1);
    close_well(store);
}

/* The greatest size: a record as long as a log can be, up to the last byte of the last segment. */
static void test_greatest(const char *folder)
{
    static const struct lcrvm_geometry greatest = SIZED(8, 16, 16, 1024, 4096);
    /* Past 16 KiB a range has 3 words. */
    static char bytes[8 * (4096 - 3 - 2 - 3)], found[sizeof bytes];
    const uint32_t at = 1024 * 256 - sizeof bytes, last = 16;
    struct lcrvm_store *store = made_as(folder, &greatest);
    struct lcrvm_record commit;
    uint64_t records = 0, rounds = 0;

    memset(bytes, 'x', sizeof bytes);
    ANSWERS(begin(store, 0, 15, last), LCRVM_OK);
    ANSWERS(lcrvm_set_range(store, 0, 15, last, at, sizeof bytes + 1), LCRVM_OUT_OF_SEGMENT);
    ANSWERS(lcrvm_set_range(store, 0, 15, last, at, sizeof bytes), LCRVM_OK);
    ANSWERS(lcrvm_write(store, 0, 15, last, at, bytes, sizeof bytes), LCRVM_OK);
    ANSWERS(lcrvm_end_transaction(store, 0, 15, false, &commit), LCRVM_OK);
    CHECK(commit.place == 0 && commit.words == 4096);
    ANSWERS(lcrvm_flush(store, 0, &records), LCRVM_OK);
    ANSWERS(lcrvm_truncate(store, 0, &rounds), LCRVM_OK);
    CHECK(records == 1 && rounds == 1);
    close_well(store);
    store = opened_as(folder, &greatest);
    ANSWERS(lcrvm_begin_transaction(store, 0, 15, NULL, 0, &last, 1), LCRVM_OK);
    ANSWERS(lcrvm_read(store, 0, 15, last, at, found, sizeof found), LCRVM_OK);
    CHECK(memcmp(bytes, found, sizeof bytes) == 0);
    close_well(store);
}

/* NULL is answered, and not followed. */
static void test_misuse(const char *folder)
{
    static const uint32_t first[] = {1};
    struct lcrvm_store *store = made_as(folder, &one), *other = store;
    struct lcrvm_fault fault = {.size = sizeof fault};
    char bytes[1];
    uint32_t thread = 5;

    ANSWERS(lcrvm_create(NULL, NULL, &fault), LCRVM_MISUSE);
    CHECK(fault.status == LCRVM_MISUSE && lcrvm_fault_of(NULL)->status == LCRVM_MISUSE);
    ANSWERS(lcrvm_open(NULL, NULL, &other, &fault), LCRVM_MISUSE);
    CHECK(fault.status == LCRVM_MISUSE && other == NULL);
    ANSWERS(lcrvm_open(folder, NULL, NULL, NULL), LCRVM_MISUSE);
    ANSWERS(lcrvm_close(NULL, &fault), LCRVM_OK);
    CHECK(fault.status == LCRVM_OK && lcrvm_geometry_of(NULL) == NULL);
    for (int turn = 0; turn < 2; turn++) {
        struct lcrvm_store *none = turn == 0 ? NULL : store;

        ANSWERS(lcrvm_begin(none, 0, NULL, first, 1, NULL, 0, 0), LCRVM_MISUSE);
        ANSWERS(lcrvm_begin(none, 0, &thread, NULL, 1, NULL, 0, 0), LCRVM_MISUSE);
        ANSWERS(lcrvm_begin(none, 0, &thread, NULL, 0, NULL, 1, 0), LCRVM_MISUSE);
        ANSWERS(lcrvm_begin_transaction(none, 0, 0, NULL, 1, NULL, 0), LCRVM_MISUSE);
        ANSWERS(lcrvm_begin_transaction(none, 0, 0, NULL, 0, NULL, 1), LCRVM_MISUSE);
        ANSWERS(lcrvm_commit(none, 0, NULL, true, NULL), LCRVM_MISUSE);
        ANSWERS(lcrvm_put(none, 0, 0, 1, 0, NULL, 1), LCRVM_MISUSE);
        ANSWERS(lcrvm_write(none, 0, 0, 1, 0, NULL, 1), LCRVM_MISUSE);
        ANSWERS(lcrvm_read(none, 0, 0, 1, 0, NULL, 1), LCRVM_MISUSE);
        ANSWERS(lcrvm_copy(none, NULL, NULL), LCRVM_MISUSE);
    }
    ANSWERS(lcrvm_begin(NULL, 0, &thread, first, 1, NULL, 0, 0), LCRVM_MISUSE);
    ANSWERS(lcrvm_begin_transaction(NULL, 0, 0, first, 1, NULL, 0), LCRVM_MISUSE);
    ANSWERS(lcrvm_set_range(NULL, 0, 0, 1, 0, 1), LCRVM_MISUSE);
    ANSWERS(lcrvm_put(NULL, 0, 0, 1, 0, "x", 1), LCRVM_MISUSE);
    ANSWERS(lcrvm_write(NULL, 0, 0, 1, 0, "x", 1), LCRVM_MISUSE);
    ANSWERS(lcrvm_read(NULL, 0, 0, 1, 0, bytes, 1), LCRVM_MISUSE);
    ANSWERS(lcrvm_commit(NULL, 0, &thread, true, NULL), LCRVM_MISUSE);
    thread = 0;
    ANSWERS(lcrvm_abort(NULL, 0, &thread), LCRVM_MISUSE);
    ANSWERS(lcrvm_end_transaction(NULL, 0, 0, true, NULL), LCRVM_MISUSE);
    ANSWERS(lcrvm_abort_transaction(NULL, 0, 0), LCRVM_MISUSE);
    ANSWERS(lcrvm_flush(NULL, 0, NULL), LCRVM_MISUSE);
    ANSWERS(lcrvm_truncate(NULL, 0, NULL), LCRVM_MISUSE);
    ANSWERS(lcrvm_trim(NULL, 0, NULL), LCRVM_MISUSE);
    ANSWERS(lcrvm_leave(NULL, 0, 1), LCRVM_MISUSE);
    ANSWERS(lcrvm_arrive(NULL, 0, 1), LCRVM_MISUSE);
    ANSWERS(lcrvm_deliver(NULL, 0, 1, 1, 0, NULL), LCRVM_MISUSE);
    ANSWERS(lcrvm_copy(NULL, folder, NULL), LCRVM_MISUSE);
    /* The store goes on, and of nothing the pointer may be NULL. */
    ANSWERS(lcrvm_begin(store, 0, &thread, NULL, 0, first, 1, 0), LCRVM_OK);
    ANSWERS(lcrvm_read(store, 0, thread, 1, 0, NULL, 0), LCRVM_OK);
    ANSWERS(lcrvm_put(store, 0, thread, 1, 0, NULL, 0), LCRVM_OK);
    ANSWERS(lcrvm_commit(store, 0, &thread, true, NULL), LCRVM_OK);
    close_well(store);
}

/* The transactions of a program's threads: which threads they have, and what becomes of them. */
static void test_threads_of_transactions(const char *folder)
{
    static const uint32_t first[] = {1}, second[] = {2}, ninth[] = {9};
    struct lcrvm_store *store = made_as(folder, &one);
    struct lcrvm_record placed = {7, 7};
    uint32_t one_thread = 7, other = 7, third = 7;

    ANSWERS(lcrvm_begin(store, 1, &one_thread, first, 1, NULL, 0, 0), LCRVM_UNKNOWN);
    CHECK(one_thread == LCRVM_NO_TRANSACTION);
    ANSWERS(lcrvm_begin(store, 0, &one_thread, ninth, 1, NULL, 0, 10000), LCRVM_UNKNOWN);
    ANSWERS(lcrvm_begin(store, 0, &one_thread, first, 1, NULL, 0, 0), LCRVM_OK);
    ANSWERS(lcrvm_begin(store, 0, &other, second, 1, NULL, 0, 0), LCRVM_OK);
    CHECK(one_thread == 0 && other == 1);
    /* Both threads of the node are taken, by this thread itself. */
    alarm(60);
    ANSWERS(lcrvm_begin(store, 0, &third, NULL, 0, NULL, 0, UINT32_MAX), LCRVM_BUSY);
    CHECK(third == LCRVM_NO_TRANSACTION && lcrvm_fault_of(store)->segment == 0);
    ANSWERS(lcrvm_put(store, 0, one_thread, 1, 0, "one", 3), LCRVM_OK);
    ANSWERS(lcrvm_put(store, 0, one_thread, 2, 0, "one", 3), LCRVM_NOT_LOCKED);
    ANSWERS(lcrvm_put(store, 0, one_thread, 1, 1022, "one", 3), LCRVM_OUT_OF_SEGMENT);
    ANSWERS(lcrvm_put(store, 0, one_thread, 1, UINT32_MAX, "one", 3), LCRVM_OUT_OF_SEGMENT);
    ANSWERS(lcrvm_set_range(store, 0, one_thread, 1, 1, UINT32_MAX), LCRVM_OUT_OF_SEGMENT);
    ANSWERS(lcrvm_put(store, 0, one_thread, UINT32_MAX, 0, "one", 3), LCRVM_UNKNOWN);
    ANSWERS(lcrvm_put(store, UINT32_MAX, one_thread, 1, 0, "one", 3), LCRVM_UNKNOWN);
    ANSWERS(lcrvm_put(store, 0, UINT32_MAX, 1, 0, "one", 3), LCRVM_UNKNOWN);
    ANSWERS(lcrvm_put(store, 0, other, 2, 0, "two", 3), LCRVM_OK);
    ANSWERS(lcrvm_abort(store, 0, &other), LCRVM_OK);
    CHECK(other == LCRVM_NO_TRANSACTION);
    ANSWERS(lcrvm_begin(store, 0, &other, NULL, 0, first, 1, UINT32_MAX), LCRVM_BUSY);
    CHECK(lcrvm_fault_of(store)->segment == 1);
    alarm(0);
    ANSWERS(lcrvm_commit(store, 0, &other, true, NULL), LCRVM_UNKNOWN);
    other = 1;
    ANSWERS(lcrvm_commit(store, 0, &other, true, NULL), LCRVM_OUT_OF_TURN);
    CHECK(other == 1);
    ANSWERS(lcrvm_commit(store, 0, &one_thread, true, &placed), LCRVM_OK);
    CHECK(one_thread == LCRVM_NO_TRANSACTION && placed.place == 0 && placed.words == 8);
    CHECK(holds(store, 0, 1, 0, "one") && holds(store, 0, 2, 0, "\0\0"));
    /* What is begun by the caller's own number nobody has: it is waited for. */
    ANSWERS(begin(store, 0, 0, 1), LCRVM_OK);
    ANSWERS(lcrvm_begin(store, 0, &third, first, 1, NULL, 0, 20), LCRVM_BUSY);
    CHECK(lcrvm_fault_of(store)->segment == 1);
    ANSWERS(lcrvm_abort_transaction(store, 0, 0), LCRVM_OK);
    close_well(store);
}

/* What is too long stays open, by either way of ending it; a record that is longer than the log is full at once. */
static void test_commits_that_are_refused(const char *folder)
{
    static const struct lcrvm_geometry size = SIZED(1, 2, 1, 1024, 4096);
    static char bytes[40000];
    const uint32_t first[] = {1};
    struct lcrvm_store *store = made_as(folder, &size);
    uint32_t thread = 7;

    ANSWERS(lcrvm_begin(store, 0, &thread, first, 1, NULL, 0, 0), LCRVM_OK);
    memset(bytes, 'x', sizeof bytes);
    ANSWERS(lcrvm_put(store, 0, thread, 1, 0, bytes, sizeof bytes), LCRVM_OK);
    ANSWERS(lcrvm_commit(store, 0, &thread, true, NULL), LCRVM_TOO_LONG);
    CHECK(thread == 0 && lcrvm_fault_of(store)->words == 3 + 2 + 3 + 5000);
    ANSWERS(lcrvm_end_transaction(store, 0, thread, true, NULL), LCRVM_TOO_LONG);
    ANSWERS(lcrvm_read(store, 0, thread, 1, 39999, bytes, 1), LCRVM_OK);
    CHECK(bytes[0] == 'x');
    ANSWERS(lcrvm_abort(store, 0, &thread), LCRVM_OK);
    close_well(store);
}

/* A reading transaction that ends with a flush makes stable what it has seen; without one nothing is called. */
static void test_what_readers_see(const char *folder)
{
    const uint32_t first[] = {1};
    struct lcrvm_store *store = made_as(folder, &one);
    uint32_t thread;
    char bytes[4];
    long before;

    ANSWERS(commit(store, 0, 1, 0, "lazy"), LCRVM_OK);
    before = made;
    ANSWERS(lcrvm_begin(store, 0, &thread, NULL, 0, first, 1, 0), LCRVM_OK);
    ANSWERS(lcrvm_read(store, 0, thread, 1, 0, bytes, 4), LCRVM_OK);
    CHECK(memcmp(bytes, "lazy", 4) == 0);
    ANSWERS(lcrvm_commit(store, 0, &thread, false, NULL), LCRVM_OK);
    CHECK(made == before);
    ANSWERS(lcrvm_begin(store, 0, &thread, NULL, 0, first, 1, 0), LCRVM_OK);
    ANSWERS(lcrvm_commit(store, 0, &thread, true, NULL), LCRVM_OK);
    CHECK(made == before + 4);
    /* All is stable, so nothing is to be done. */
    ANSWERS(lcrvm_begin(store, 0, &thread, NULL, 0, first, 1, 0), LCRVM_OK);
    ANSWERS(lcrvm_commit(store, 0, &thread, true, NULL), LCRVM_OK);
    ANSWERS(lcrvm_flush(store, 0, NULL), LCRVM_OK);
    CHECK(made == before + 4);
    close_well(store);
}

/* A close makes what is lazy stable, aborts what is open, and empties the log: the next opening writes and syncs
   nothing; without the record of the close it syncs each file once, and the folder. */
static void test_clean_close(const char *folder)
{
    static const char *const names[] = {"lcrvm.store", "log0", "seg1", "seg2"};
    static char before[4][MOST_BYTES], now[MOST_BYTES];
    const uint32_t second[] = {2};
    struct lcrvm_store *store = made_as(folder, &one);
    uint32_t thread;
    size_t lens[4];
    long calls;

    ANSWERS(commit(store, 0, 1, 0, "lazy"), LCRVM_OK);
    ANSWERS(lcrvm_begin(store, 0, &thread, second, 1, NULL, 0, 0), LCRVM_OK);
    ANSWERS(lcrvm_put(store, 0, thread, 2, 0, "open", 4), LCRVM_OK);
    ANSWERS(begin(store, 0, 1, 1), LCRVM_OK);
    ANSWERS(lcrvm_set_range(store, 0, 1, 1, 0, 4), LCRVM_OK);
    close_well(store);
    for (int i = 0; i < 4; i++)
        lens[i] = read_bytes(below(folder, names[i]), before[i]);
    for (int has_record = 1; has_record >= 0; has_record--) {
        const long wanted = has_record ? 0 : 1 + 3 + 1;

        calls = made;
        folder_syncs = writes = 0;
        store = opened_as(folder, NULL);
        CHECK(writes == 0 && made - calls == wanted && folder_syncs == !has_record);
        if (writes != 0 || made - calls != wanted)
            fprintf(stderr, "an opening: %d writes, and %ld calls\n", writes, made - calls);
        CHECK(holds(store, 0, 1, 0, "lazy") && holds(store, 0, 2, 0, "\0\0\0"));
        calls = made;
        close_well(store);
        CHECK(made == calls && unlink(below(folder, "lcrvm.clean")) == 0);
    }
    for (int i = 0; i < 4; i++)
        CHECK(read_bytes(below(folder, names[i]), now) == lens[i] && memcmp(before[i], now, lens[i]) == 0);
}

/* The logs of all nodes are emptied, also where a token has gone from one to another. */
static void test_clean_close_of_two(const char *folder)
{
    struct lcrvm_store *store = made_as(folder, &two_nodes);

    ANSWERS(commit(store, 0, 2, 0, "two"), LCRVM_OK);
    ANSWERS(commit(store, 1, 1, 0, "one"), LCRVM_OK);
    ANSWERS(lcrvm_flush(store, 1, NULL), LCRVM_OK);
    ANSWERS(lcrvm_leave(store, 1, 1), LCRVM_OK);
    ANSWERS(lcrvm_deliver(store, 1, 1, 1, 0, NULL), LCRVM_OK);
    ANSWERS(lcrvm_arrive(store, 0, 1), LCRVM_OK);
    ANSWERS(commit(store, 0, 1, 100, "again"), LCRVM_OK);
    close_well(store);
    writes = 0;
    store = opened_as(folder, NULL);
    CHECK(holds(store, 1, 1, 0, "one") && holds(store, 1, 1, 100, "again") && holds(store, 0, 2, 0, "two"));
    close_well(store);
}

/* Copies. */

/* A copy may have more segments, pages and words, and no other number of nodes. */
static void copies_larger(struct lcrvm_store *store, const char *folder)
{
    static const struct lcrvm_geometry larger = SIZED(1, 5, 3, 6, 128);
    static const struct lcrvm_geometry wrong[] = {
        SIZED(2, 2, 2, 4, 64), SIZED(1, 0, 2, 4, 64),  SIZED(1, 17, 2, 4, 64),   SIZED(1, 2, 1, 4, 64),
        SIZED(1, 2, 2, 3, 64), SIZED(1, 2, 17, 4, 64), SIZED(1, 2, 2, 1025, 64), SIZED(1, 2, 2, 4, 63),
        SIZED(1, 2, 2, 4, 4097),
    };
    struct lcrvm_geometry none = larger;
    struct lcrvm_store *copy;
    char path[BESIDE_BYTES];

    beside(folder, "larger", path);
    for (size_t i = 0; i < sizeof wrong / sizeof wrong[0]; i++) {
        ANSWERS(lcrvm_copy(store, path, &wrong[i]), LCRVM_UNKNOWN);
        CHECK(strstr(lcrvm_fault_of(store)->text, ": a copy has ") != NULL);
    }
    none.size = 4;
    ANSWERS(lcrvm_copy(store, path, &none), LCRVM_MISUSE);
    ANSWERS(lcrvm_copy(store, path, &larger), LCRVM_OK);
    copy = opened_as(path, NULL);
    CHECK(lcrvm_geometry_of(copy)->segments == 3 && lcrvm_geometry_of(copy)->pages == 6);
    CHECK(lcrvm_geometry_of(copy)->words == 128);
    CHECK(holds(copy, 0, 1, 0, "lazy") && holds(copy, 0, 3, 1535, "\0"));
    ANSWERS(commit(copy, 0, 3, 1530, "more"), LCRVM_OK);
    ANSWERS(commit(copy, 0, 1, 1100, "behind"), LCRVM_OK);
    close_well(copy);
    copy = opened_as(path, NULL);
    CHECK(holds(copy, 0, 3, 1530, "more") && holds(copy, 0, 1, 1100, "behind") && holds(copy, 0, 1, 0, "lazy"));
    close_well(copy);
}

/* A copy is a store of its own, with what was committed and nothing of what is open, which goes on. */
static void test_copy(const char *folder)
{
    struct lcrvm_store *store = made_as(folder, &one), *copy;
    const uint32_t second[] = {2};
    char path[BESIDE_BYTES];
    uint32_t thread;
    int before = descriptors();

    beside(folder, "copy", path);
    ANSWERS(commit(store, 0, 1, 0, "lazy"), LCRVM_OK);
    ANSWERS(lcrvm_begin(store, 0, &thread, second, 1, NULL, 0, 0), LCRVM_OK);
    ANSWERS(lcrvm_put(store, 0, thread, 2, 0, "open", 4), LCRVM_OK);
    ANSWERS(lcrvm_copy(store, path, NULL), LCRVM_OK);
    CHECK(standing(path) == 4 && descriptors() == before);
    copy = opened_as(path, NULL);
    CHECK(holds(copy, 0, 1, 0, "lazy") && holds(copy, 0, 2, 0, "\0\0"));
    ANSWERS(commit(copy, 0, 1, 0, "other"), LCRVM_OK);
    ANSWERS(lcrvm_copy(store, path, NULL), LCRVM_EXISTS);
    CHECK(strcmp(lcrvm_fault_of(store)->text, "lcrvm.store") == 0);
    ANSWERS(lcrvm_copy(store, folder, NULL), LCRVM_EXISTS);
    close_well(copy);
    ANSWERS(lcrvm_copy(store, "", NULL), LCRVM_DEVICE_FAULT);
    CHECK(strcmp(lcrvm_fault_of(store)->text, "the path is empty") == 0);
    ANSWERS(lcrvm_copy(store, below(folder, "none/below"), NULL), LCRVM_DEVICE_FAULT);
    ANSWERS(lcrvm_copy(store, below(folder, "log0"), NULL), LCRVM_DEVICE_FAULT);
    CHECK(is_of(lcrvm_fault_of(store), "/log0", ENOTDIR));
    copies_larger(store, folder);
    /* The store goes on. */
    ANSWERS(lcrvm_commit(store, 0, &thread, true, NULL), LCRVM_OK);
    CHECK(holds(store, 0, 2, 0, "open") && holds(store, 0, 1, 0, "lazy"));
    close_well(store);
    CHECK(standing(folder) == 4);
}

/* A copy that is cut is no store, until its last file is stable. */
static void test_copy_that_is_cut(const char *folder)
{
    enum { LAST = 4 * 2 + 1 };
    struct lcrvm_store *store = made_as(folder, &one);
    char path[BESIDE_BYTES], number[16];

    ANSWERS(commit(store, 0, 1, 0, "kept"), LCRVM_OK);
    close_well(store);
    for (int call = 1; call <= LAST; call++) {
        pid_t child;

        snprintf(number, sizeof number, "%d", call);
        beside(folder, number, path);
        child = fork();
        if (child == 0) {
            store = opened(folder);
            ending = made + call;
            lcrvm_copy(store, path, NULL);
            _exit(1);
        }
        exits(child, 0);
        CHECK((lcrvm_open(path, NULL, &store, NULL) == LCRVM_OK) == (call == LAST));
        if (store == NULL)
            continue;
        CHECK(holds(store, 0, 1, 0, "kept"));
        close_well(store);
    }
}

/* Copies of folders that are marked. */

static void mark_fault(const char *folder)
{
    int file = open(below(folder, "fault"), O_WRONLY | O_CREAT, 0666);

    CHECK(file >= 0 && close(file) == 0);
}

/* Behind a mark each file is copied, with its owner and mode, and the copy put in its place: by a link, where it
   leads to. */
static void test_renewed(const char *folder)
{
    struct lcrvm_store *store = made_as(folder, &one);
    char away[BESIDE_BYTES], path[PATH_BYTES];
    struct stat before, after, link_at;
    int count = descriptors();

    ANSWERS(commit(store, 0, 1, 0, "kept"), LCRVM_OK);
    close_well(store);
    count -= 4;
    beside(folder, "away", away);
    CHECK(mkdir(away, 0777) == 0);
    snprintf(path, sizeof path, "%s/another", away);
    CHECK(rename(below(folder, "seg2"), path) == 0);
    snprintf(path, sizeof path, "../%s/another", strrchr(away, '/') + 1);
    CHECK(symlink(path, below(folder, "seg2")) == 0);
    CHECK(geteuid() != 0 || chown(below(folder, "log0"), 4242, 4243) == 0);
    CHECK(chmod(below(folder, "log0"), 0640) == 0);
    write_text(below(folder, "log0.new"), "left of a stop", 14);
    mark_fault(folder);
    CHECK(stat(below(folder, "log0"), &before) == 0);
    CHECK(stat(below(folder, "seg2"), &link_at) == 0);
    store = opened_as(folder, NULL);
    CHECK(holds(store, 0, 1, 0, "kept"));
    is_in_use(folder, NULL, "");
    ANSWERS(commit(store, 0, 2, 0, "more"), LCRVM_OK);
    close_well(store);
    CHECK(stat(below(folder, "log0"), &after) == 0);
    CHECK(after.st_ino != before.st_ino && (after.st_mode & 07777) == 0640 && after.st_size == before.st_size);
    CHECK(after.st_uid == before.st_uid && after.st_gid == before.st_gid);
    CHECK(lstat(below(folder, "seg2"), &after) == 0 && S_ISLNK(after.st_mode));
    CHECK(stat(below(folder, "seg2"), &after) == 0 && after.st_ino != link_at.st_ino);
    CHECK(standing(folder) == 4 && standing(away) == 1);
    CHECK(access(below(folder, "fault"), F_OK) != 0 && descriptors() == count);
    store = opened_as(folder, NULL);
    CHECK(holds(store, 0, 1, 0, "kept") && holds(store, 0, 2, 0, "more"));
    close_well(store);
}

/* What is no regular file under the name of a copy, or of the mark, is neither followed nor removed. */
static void test_renewed_beside_others(const char *folder)
{
    static const char *const names[] = {"log0.new", "seg1.new", "seg2.new", "fault"};
    char target[BESIDE_BYTES], wanted[64];
    struct lcrvm_store *store = made_as(folder, &one);
    struct stat before, after;

    ANSWERS(commit(store, 0, 1, 0, "kept"), LCRVM_OK);
    close_well(store);
    beside(folder, "target", target);
    write_text(target, "another's", 9);
    for (int i = 0; i < 4; i++) {
        unlink(below(folder, "fault"));
        for (int kind = 0; kind < 3; kind++) {
            char path[PATH_BYTES];

            snprintf(path, sizeof path, "%s/%s", folder, names[i]);
            if (i < 3)
                mark_fault(folder);
            CHECK(stat(target, &before) == 0);
            if (kind == 0)
                CHECK(symlink(target, path) == 0);
            else
                CHECK((kind == 1 ? mkdir(path, 0777) : mkfifo(path, 0666)) == 0);
            snprintf(wanted, sizeof wanted, "%s: not a regular file", names[i]);
            alarm(60);
            opens_not(folder, NULL, LCRVM_DEVICE_FAULT, 0, wanted);
            alarm(0);
            CHECK(access(below(folder, "fault"), F_OK) == 0 || kind == 0);
            CHECK(lstat(path, &after) == 0 && remove(path) == 0);
            CHECK(stat(target, &after) == 0 && after.st_ino == before.st_ino && after.st_size == 9);
        }
    }
    unlink(below(folder, "fault"));
    store = opened_as(folder, NULL);
    CHECK(holds(store, 0, 1, 0, "kept") && standing(folder) == 4);
    close_well(store);
}

/* Of files that are not those of the size nothing is copied, and the mark stays. */
static void test_not_renewed(const char *folder)
{
    struct lcrvm_store *store = made_as(folder, &one);
    const struct lcrvm_geometry longer = SIZED(1, 2, 2, 4, 65);
    struct stat before, after;

    close_well(store);
    mark_fault(folder);
    CHECK(stat(below(folder, "log0"), &before) == 0);
    opens_not(folder, &longer, LCRVM_BAD_GEOMETRY, 0, "");
    write_text(below(folder, "seg3"), "", 0);
    opens_not(folder, NULL, LCRVM_BAD_GEOMETRY, 3, "");
    CHECK(unlink(below(folder, "seg3")) == 0 && truncate(below(folder, "seg2"), 544) == 0);
    opens_not(folder, NULL, LCRVM_BAD_GEOMETRY, 2, "");
    CHECK(stat(below(folder, "log0"), &after) == 0 && after.st_ino == before.st_ino);
    CHECK(access(below(folder, "fault"), F_OK) == 0 && standing(folder) == 5);
}

/* Leaves so many descriptors. */
static void leave_descriptors(int count)
{
    struct rlimit limit;
    int next = open("/dev/null", O_RDONLY);

    CHECK(next >= 0 && close(next) == 0 && getrlimit(RLIMIT_NOFILE, &limit) == 0);
    limit.rlim_cur = (rlim_t)(next + count);
    CHECK(setrlimit(RLIMIT_NOFILE, &limit) == 0);
}

/* With too few descriptors nothing is made, opened or copied, and nothing is left of it. */
static void test_few_descriptors(const char *folder)
{
    const struct lcrvm_options options = {.size = sizeof options, .geometry = &one};
    struct lcrvm_store *store = NULL;
    struct lcrvm_fault fault = {.size = sizeof fault};
    enum lcrvm_status status = LCRVM_DEVICE_FAULT;
    char copy[BESIDE_BYTES];
    int before = descriptors(), count = 0;

    for (count = 0; status != LCRVM_OK && count < 20; count++) {
        leave_descriptors(count);
        status = lcrvm_create(folder, &options, &fault);
        let_descriptors(true);
        CHECK(status == LCRVM_OK || (status == LCRVM_DEVICE_FAULT && standing(folder) == -1));
    }
    CHECK(status == LCRVM_OK && count > 2);
    mark_fault(folder);
    status = LCRVM_DEVICE_FAULT;
    for (count = 0; status != LCRVM_OK && count < 20; count++) {
        leave_descriptors(count);
        status = lcrvm_open(folder, NULL, &store, &fault);
        let_descriptors(true);
        CHECK(status == LCRVM_OK || (status == LCRVM_DEVICE_FAULT && standing(folder) == 5));
    }
    CHECK(status == LCRVM_OK && standing(folder) == 4 && count > 4);
    if (store == NULL)
        return;
    beside(folder, "copy", copy);
    status = LCRVM_DEVICE_FAULT;
    for (count = 0; status != LCRVM_OK && count < 20; count++) {
        leave_descriptors(count);
        status = lcrvm_copy(store, copy, NULL);
        let_descriptors(true);
        CHECK(status == LCRVM_OK || (status == LCRVM_DEVICE_FAULT && standing(copy) == -1));
    }
    CHECK(status == LCRVM_OK && count > 2);
    close_well(store);
    CHECK(descriptors() == before);
}

/* A child of a fork neither gives the locks back nor keeps them, also where it has come to no exec yet. */
static void test_children(const char *folder)
{
    static const char *const last[] = {"seg2", NULL};
    struct lcrvm_store *store = made_as(folder, &one);
    char partly[BESIDE_BYTES];
    int ends[2];
    char byte;
    pid_t child;

    beside(folder, "partly", partly);
    close_well(made_as(partly, &one));
    CHECK(unlink(below(partly, "seg2")) == 0);
    link_files(folder, partly, last);
    child = fork();
    if (child == 0)
        _exit(lcrvm_close(store, NULL) != LCRVM_FORKED);
    exits(child, 0);
    is_in_use(folder, NULL, "");
    is_in_use(partly, NULL, "seg2: ");
    /* A child as of vfork, which no handler is told of, has all descriptors. */
    CHECK(pipe(ends) == 0);
    child = (pid_t)syscall(SYS_clone, SIGCHLD, 0, 0, 0, 0);
    if (child == 0) {
        close(ends[1]);
        _exit((int)read(ends[0], &byte, 1));
    }
    close_well(store);
    close_well(opened_as(folder, &one));
    close_well(opened_as(partly, &one));
    close(ends[0]);
    close(ends[1]);
    exits(child, 0);
}

static const struct {
    const char *name;
    void (*run)(const char *folder);
} tests[] = {
    {"calls", test_calls},
    {"texts", test_status_text},
    {"creation", test_creation},
    {"refused_creation", test_creation_is_refused},
    {"sizes", test_sizes},
    {"structures", test_structures},
    {"numbers_outside", test_numbers_outside},
    {"opening_waits", test_opening_waits},
    {"openings", test_openings},
    {"missing_files", test_missing_files},
    {"another_size", test_another_size},
    {"texts_of_no_size", test_texts_of_no_size},
    {"creation_beside_others", test_creation_beside_others},
    {"creation_that_fails", test_creation_that_fails},
    {"creation_that_is_cut", test_creation_that_is_cut},
    {"files_of_two_folders", test_files_of_two_folders},
    {"interrupted_locks", test_interrupted_locks},
    {"opening_syncs_the_folder", test_opening_syncs_the_folder},
    {"marks_that_are_not_made", test_marks_that_are_not_made},
    {"counts", test_counts},
    {"full", test_full_is_made_again},
    {"full_with_another", test_full_where_another_has_ranges},
    {"full_and_refused", test_full_where_the_truncation_is_refused},
    {"full_and_long", test_full_where_it_does_not_help},
    {"truncates_beside_ranges", test_truncates_beside_ranges},
    {"in_place", test_in_place},
    {"tokens", test_pages_go_with_tokens},
    {"syncs", test_syncs_of_a_truncation},
    {"trimmed", test_trimmed},
    {"trimmed_of_two", test_trimmed_of_two},
    {"greatest", test_greatest},
    {"misuse", test_misuse},
    {"threads_of_transactions", test_threads_of_transactions},
    {"refused_commits", test_commits_that_are_refused},
    {"readers", test_what_readers_see},
    {"clean_close", test_clean_close},
    {"clean_close_of_two", test_clean_close_of_two},
    {"copy", test_copy},
    {"copy_that_is_cut", test_copy_that_is_cut},
    {"renewed", test_renewed},
    {"renewed_beside_others", test_renewed_beside_others},
    {"not_renewed", test_not_renewed},
    {"few_descriptors", test_few_descriptors},
    {"children", test_children},
};

static int calls(const char *folder)
{
    for (size_t i = 0; i < sizeof tests / sizeof tests[0]; i++) {
        char path[PATH_BYTES];
        int before = wrong;

        snprintf(path, sizeof path, "%s/%s", folder, tests[i].name);
        tests[i].run(path);
        if (wrong > before)
            fprintf(stderr, "failed: %s\n", tests[i].name);
    }
    printf("%d wrong\n", wrong);
    return wrong != 0;
}

/* The standard descriptors that are closed, a bit each. */
static int closed_streams(void)
{
    int set = 0;

    for (int stream = 0; stream < 3; stream++)
        if (fcntl(stream, F_GETFD) < 0)
            set |= 1 << stream;
    return set;
}

/* Prints to each standard stream, whether it is open or closed. */
static void print_to_all(void)
{
    for (int stream = 0; stream < 3; stream++)
        (void)!write(stream, "printed\n", 8);
}

static int closed(const char *folder)
{
    const struct lcrvm_options options = {.size = sizeof options, .geometry = &one};
    const int before = closed_streams();
    struct lcrvm_store *store;
    char copy[BESIDE_BYTES];

    ANSWERS(lcrvm_create(folder, &options, NULL), LCRVM_OK);
    print_to_all();
    store = opened_as(folder, &one);
    CHECK(closed_streams() == before);
    for (uint32_t number = 0; number < 4; number++) {
        ANSWERS(commit(store, 0, 1, 8 * number, "before"), LCRVM_OK);
        print_to_all();
    }
    ANSWERS(lcrvm_truncate(store, 0, NULL), LCRVM_OK);
    ANSWERS(commit(store, 0, 1, 0, "behind"), LCRVM_OK);
    ANSWERS(lcrvm_flush(store, 0, NULL), LCRVM_OK);
    print_to_all();
    beside(folder, "copy", copy);
    ANSWERS(lcrvm_copy(store, copy, NULL), LCRVM_OK);
    print_to_all();
    close_well(store);
    mark_fault(folder);
    store = opened_as(folder, &one);
    print_to_all();
    CHECK(closed_streams() == before);
    CHECK(holds(store, 0, 1, 0, "behind") && holds(store, 0, 1, 24, "before"));
    close_well(store);
    CHECK(closed_streams() == before);
    store = opened_as(copy, &one);
    CHECK(holds(store, 0, 1, 0, "behind") && holds(store, 0, 1, 24, "before"));
    close_well(store);
    return wrong != 0;
}

/* Want of memory. What is answered NO_MEMORY has changed nothing, and is done once more. */

#define DONE(call)                                                                                                     \
    do {                                                                                                               \
        enum lcrvm_status first = (call);                                                                              \
                                                                                                                       \
        ANSWERS(first == LCRVM_NO_MEMORY ? (call) : first, LCRVM_OK);                                                  \
    } while (0)

enum { MANY_RANGES = 20 };

/* How many blocks of memory are taken and not given back, where they are counted. */
long blocks_taken(void) __attribute__((weak));

static long taken(void)
{
    return blocks_taken != NULL ? blocks_taken() : 0;
}

/* A commit of many ranges, whose end may find the log full, and no memory to empty it: it is open as before. */
static void commit_all(struct lcrvm_store *store, uint32_t number)
{
    char text[8];

    snprintf(text, sizeof text, "c%u", (unsigned)number);
    DONE(begin(store, 1, 0, 1));
    for (uint32_t range = 0; range < MANY_RANGES; range++)
        DONE(put(store, 1, 1, 40 * range + number, text));
    DONE(lcrvm_end_transaction(store, 1, 0, false, NULL));
}

/* A transaction that stays open has what it wrote, in the way of the pages that are written meanwhile. */
static void begin_beside(struct lcrvm_store *store)
{
    const uint32_t third[] = {3};

    DONE(begin(store, 1, 0, 3));
    DONE(put(store, 1, 3, 1000, "z"));
    DONE(lcrvm_end_transaction(store, 1, 0, false, NULL));
    DONE(lcrvm_begin_transaction(store, 1, 1, third, 1, NULL, 0));
    for (uint32_t range = 0; range < MANY_RANGES; range++) {
        DONE(lcrvm_set_range(store, 1, 1, 3, 50 * range, 20));
        DONE(lcrvm_write(store, 1, 1, 3, 50 * range + 5, "beside", 6));
    }
}

static void look_beside(struct lcrvm_store *store)
{
    char bytes[20];

    for (uint32_t range = 0; range < MANY_RANGES; range++) {
        DONE(lcrvm_read(store, 1, 1, 3, 50 * range, bytes, sizeof bytes));
        CHECK(memcmp(bytes, "\0\0\0\0\0beside\0\0\0\0\0\0\0\0\0", sizeof bytes) == 0);
    }
}

static void work_on(struct lcrvm_store *store, const char *path)
{
    struct lcrvm_delivered held, applied;
    uint64_t records = 0, rounds = 0;
    char bytes[1024];

    begin_beside(store);
    for (uint32_t number = 0; number < 12; number++)
        commit_all(store, number);
    DONE(lcrvm_flush(store, 1, &records));
    DONE(lcrvm_copy(store, path, NULL));
    DONE(lcrvm_deliver(store, 1, 3, 1, 0, &held));
    DONE(lcrvm_deliver(store, 1, 2, 1, 0, &applied));
    CHECK(held.delivery == LCRVM_HELD_BACK && applied.delivery == LCRVM_APPLIED && applied.applied == 2);
    look_beside(store);
    DONE(lcrvm_end_transaction(store, 1, 1, true, NULL));
    DONE(lcrvm_truncate(store, 1, &rounds));
    DONE(begin(store, 1, 0, 1));
    DONE(lcrvm_read(store, 1, 0, 1, 0, bytes, sizeof bytes));
    printf("%" PRIu64 " records, %" PRIu64 " rounds\n", records, rounds);
    for (size_t i = 0; i < sizeof bytes; i++)
        putchar(bytes[i] != '\0' ? bytes[i] : '.');
    DONE(lcrvm_begin_transaction(store, 1, 1, NULL, 0, (const uint32_t[]){3}, 1));
    look_beside(store);
}

static int memory(const char *folder)
{
    static const struct lcrvm_geometry size = SIZED(2, 2, 3, 4, 256);
    static char buffer[BUFSIZ];
    const struct lcrvm_options options = {.size = sizeof options, .geometry = &size};
    char path[BESIDE_BYTES], copy[PATH_BYTES];
    struct lcrvm_store *store;
    long before;

    setvbuf(stdout, buffer, _IOFBF, sizeof buffer);
    before = taken();
    snprintf(path, sizeof path, "%.200s/store", folder);
    snprintf(copy, sizeof copy, "%.200s/copy", folder);
    DONE(lcrvm_create(path, &options, NULL));
    DONE(lcrvm_open(path, &options, &store, NULL));
    if (store == NULL)
        return 1;
    work_on(store, copy);
    close_well(store);
    CHECK(taken() == before);
    mark_fault(path);
    DONE(lcrvm_open(path, NULL, &store, NULL));
    /* One is left as it is with a transaction in each state. */
    begin_beside(store);
    close_well(store);
    DONE(lcrvm_open(copy, NULL, &store, NULL));
    close_well(store);
    CHECK(taken() == before);
    if (taken() != before)
        fprintf(stderr, "%ld blocks are not given back\n", taken() - before);
    printf("\n%d wrong\n", wrong);
    return wrong != 0;
}

/* Each write and sync of a copy fails in turn: nothing is left of it, and the store goes on, unless its own flush
   has failed. */
static int copies(const char *folder, const char *number)
{
    struct lcrvm_store *store = opened(folder);
    char path[BESIDE_BYTES];
    enum lcrvm_status status;
    long before;

    if (store == NULL)
        return 1;
    beside(folder, "copy", path);
    ANSWERS(commit(store, 0, 1, 0, "lazy"), LCRVM_OK);
    before = made;
    failing = made + strtol(number, NULL, 10);
    status = lcrvm_copy(store, path, NULL);
    if (made < failing) {
        /* A flush, a write and a sync of each of four files, and the syncs of two folders. */
        CHECK(made - before == 4 + 4 * 2 + 2);
        failing = 0;
        ANSWERS(status, LCRVM_OK);
        close_well(store);
        close_well(opened(path));
        return wrong != 0;
    }
    ANSWERS(status, LCRVM_DEVICE_FAULT);
    CHECK(is_failure(lcrvm_fault_of(store)));
    CHECK(standing(path) == -1);
    ANSWERS(lcrvm_close(store, NULL), made - before <= 4 ? LCRVM_DEVICE_FAULT : LCRVM_OK);
    return wrong == 0 ? HAS_FAILED : 1;
}

/* Of an opening that copies the files, each write and sync fails in turn: the mark stays, and the next one does
   all. */
static int renews(const char *folder, const char *number)
{
    struct lcrvm_store *store;
    struct lcrvm_fault fault = {.size = sizeof fault};
    enum lcrvm_status status;
    int before = descriptors();

    mark_fault(folder);
    failing = strtol(number, NULL, 10);
    status = lcrvm_open(folder, NULL, &store, &fault);
    if (made < failing) {
        /* A write and a sync of each of three copies, a sync of the folder; of the opening two, and three of areas. */
        CHECK(made == 3 * 2 + 1 + 2 + 3);
        ANSWERS(status, LCRVM_OK);
        CHECK(holds(store, 0, 1, 0, "kept") && access(below(folder, "fault"), F_OK) != 0 && standing(folder) == 4);
        failing = 0;
        close_well(store);
        return wrong != 0;
    }
    ANSWERS(status, LCRVM_DEVICE_FAULT);
    CHECK(is_failure(&fault) && access(below(folder, "fault"), F_OK) == 0 && standing(folder) == 5);
    CHECK(descriptors() == before);
    return wrong == 0 ? HAS_FAILED : 1;
}

/* A store for `copies` and `renews`. */
static int makes(const char *folder)
{
    struct lcrvm_store *store = made_as(folder, &one);

    ANSWERS(commit(store, 0, 1, 0, "kept"), LCRVM_OK);
    close_well(store);
    return wrong != 0;
}

enum { LEFT_COMMITS = 12, LEFT_PAGES = 8, PAGE_BYTES = 256 };

/* The first page of both segments has the number, and each other one a byte of its own. */
static int leaves(const char *folder)
{
    static const uint32_t both[] = {1, 2};
    struct lcrvm_store *store = opened(folder);

    if (store == NULL || commits_in(store, LEFT_COMMITS) != LCRVM_OK)
        return 1;
    ANSWERS(lcrvm_begin_transaction(store, 0, 0, both, 2, NULL, 0), LCRVM_OK);
    for (uint32_t page = 1; page < LEFT_PAGES; page++)
        for (uint32_t segment = 1; segment <= 2; segment++) {
            const unsigned char byte = (unsigned char)(page + LEFT_PAGES * segment);

            ANSWERS(lcrvm_put(store, 0, 0, segment, page * PAGE_BYTES + page, &byte, 1), LCRVM_OK);
        }
    ANSWERS(lcrvm_end_transaction(store, 0, 0, true, NULL), LCRVM_OK);
    _exit(wrong != 0);
}

static bool has_all_pages(struct lcrvm_store *store)
{
    static const uint32_t both[] = {1, 2};
    bool has = lcrvm_begin_transaction(store, 0, 0, NULL, 0, both, 2) == LCRVM_OK;

    for (uint32_t page = 1; page < LEFT_PAGES; page++)
        for (uint32_t segment = 1; segment <= 2; segment++) {
            unsigned char byte = 0;

            has = has && lcrvm_read(store, 0, 0, segment, page * PAGE_BYTES + page, &byte, 1) == LCRVM_OK &&
                  byte == page + LEFT_PAGES * segment;
        }
    return lcrvm_abort_transaction(store, 0, 0) == LCRVM_OK && has;
}

static int recovers(const char *folder, const char *number)
{
    struct lcrvm_store *store;
    struct lcrvm_fault fault = {.size = sizeof fault};
    enum lcrvm_status status;
    int before = descriptors();

    failing = strtol(number, NULL, 10);
    status = lcrvm_open(folder, NULL, &store, &fault);
    if (made < failing) {
        /* The size and the folder are synced, and three areas. Each of sixteen pages has two writes, its bytes and
           its gate, and the pages of a segment share a sync for each. The log's gate is closed, and synced. */
        CHECK(made == 2 + 3 + 2 * (LEFT_PAGES * 2 + 2) + 2);
        ANSWERS(status, LCRVM_OK);
        CHECK(number_in(store) == LEFT_COMMITS && has_all_pages(store));
        failing = 0;
        close_well(store);
        return wrong != 0;
    }
    ANSWERS(status, LCRVM_DEVICE_FAULT);
    CHECK(is_failure(&fault) && store == NULL && made == failing);
    CHECK(access(below(folder, "fault"), F_OK) == 0 && descriptors() == before);
    failing = 0;
    store = opened(folder);
    CHECK(store != NULL && number_in(store) == LEFT_COMMITS && has_all_pages(store));
    close_well(store);
    return wrong == 0 ? HAS_FAILED : 1;
}

static const struct {
    const char *name;
    int (*run)(const char *folder);
} modes[] = {
    {"commits", commits}, {"calls", calls}, {"shows", shows},   {"memory", memory},
    {"closed", closed},   {"makes", makes}, {"leaves", leaves},
};

static const struct {
    const char *name;
    int (*run)(const char *folder, const char *number);
} numbered[] = {
    {"faults", faults}, {"creates", creates}, {"copies", copies}, {"renews", renews}, {"recovers", recovers},
};

int main(int count, char **arguments)
{
    for (size_t i = 0; count == 3 && i < sizeof modes / sizeof modes[0]; i++)
        if (strcmp(arguments[1], modes[i].name) == 0)
            return modes[i].run(arguments[2]);
    for (size_t i = 0; count == 4 && i < sizeof numbered / sizeof numbered[0]; i++)
        if (strcmp(arguments[1], numbered[i].name) == 0)
            return numbered[i].run(arguments[2], arguments[3]);
    fprintf(stderr, "usage: embedded_test commits|calls|shows|memory|closed|makes|leaves FOLDER,\n"
                    "       embedded_test faults|creates|copies|renews|recovers FOLDER N\n");
    return 2;
}
