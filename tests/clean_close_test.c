/* A program with a store in its own process, for tests/clean_close.sh: what an opening syncs and writes.

   usage: clean_close_test FOLDER STEP..

          create         makes a store of two segments; `greatest` the greatest one
          open           opens the store, and prints `N syncs M writes`, which are those of the opening
          commit, lazy   the number in the first eight bytes of segment 1 is one more, durably or not
          shows N        it is N
          close          closes the store
          fails, loses   a sync fails amid a commit; the store that it has ended is closed
          wait N         N milliseconds go by
          kill           the process is killed
          child          a child of a fork closes the store of its parent
          limit N        no file may be longer than N bytes
          spent          no descriptor is left
          refuses WHAT   of writes half is done; truncations are refused; times of files cannot be set
          scribble NAME  writes the first byte of a file of the folder anew
          away, back     renames a file of the folder, and gives it its name again
          times N        opens the store, commits and closes it N times, and prints how long it took

   A step that does not go as it should ends the program with status 1, and says which. */
#define _GNU_SOURCE
#include "lcrvm.h"

#include <errno.h>
#include <fcntl.h>
#include <signal.h>
#include <stdio.h>
#include <stdlib.h>
#include <string.h>
#include <sys/resource.h>
#include <sys/stat.h>
#include <sys/syscall.h>
#include <sys/wait.h>
#include <time.h>
#include <unistd.h>

/* A size, by its numbers. */
#define SIZED(of_nodes, of_threads, of_segments, of_pages, of_words)                                                   \
    {.size = sizeof(struct lcrvm_geometry), .nodes = of_nodes, .threads = of_threads, .segments = of_segments,         \
     .pages = of_pages, .words = of_words}

enum { PATH_BYTES = 512, MOST_TIMES = 10000, WAIT_MILLISECONDS = 1000 };

/* ---- the calls of files, in place of the C library's */

static int syncs, writes;
static bool failing, full, stuck, timeless;

static int sync_by(long call, int file)
{
    syncs++;
    if (!failing)
        return (int)syscall(call, file);
    errno = EIO;
    return -1;
}

int fdatasync(int file)
{
    return sync_by(SYS_fdatasync, file);
}

int fsync(int file)
{
    return sync_by(SYS_fsync, file);
}

ssize_t pwrite(int file, const void *bytes, size_t len, off_t at)
{
    writes++;
    return syscall(SYS_pwrite64, file, bytes, len, at);
}

/* A disk that is full takes half of it. */
ssize_t write(int file, const void *bytes, size_t len)
{
    writes++;
    return syscall(SYS_write, file, bytes, full ? len / 2 : len);
}

static int refused(int error)
{
    errno = error;
    return -1;
}

int ftruncate(int file, off_t len)
{
    return stuck ? refused(EACCES) : (int)syscall(SYS_ftruncate, file, len);
}

int futimens(int file, const struct timespec times[2])
{
    return timeless ? refused(EPERM) : (int)syscall(SYS_utimensat, file, NULL, times, 0);
}

int utimensat(int folder, const char *name, const struct timespec times[2], int flags)
{
    return timeless ? refused(EPERM) : (int)syscall(SYS_utimensat, folder, name, times, flags);
}

/* ---- steps */

static const char *folder;
static struct lcrvm_store *store;

static void wants(bool fact, const char *step)
{
    if (fact)
        return;
    printf("%s: not as it should be: %s %s\n", step, lcrvm_status_text(lcrvm_fault_of(NULL)->status),
           lcrvm_fault_of(NULL)->text);
    exit(1);
}

static const char *below(const char *name, char path[PATH_BYTES])
{
    snprintf(path, PATH_BYTES, "%s/%s", folder, name);
    return path;
}

static void create(const struct lcrvm_geometry *geometry, const char *step)
{
    const struct lcrvm_options options = {.size = sizeof options, .geometry = geometry};

    wants(lcrvm_create(folder, &options, NULL) == LCRVM_OK, step);
}

/* The node at which the token of segment 1 is. */
static uint32_t first_node(void)
{
    return 1 % lcrvm_geometry_of(store)->nodes;
}

static enum lcrvm_status begin(uint32_t *thread)
{
    const uint32_t first[] = {1};

    return lcrvm_begin(store, first_node(), thread, first, 1, NULL, 0, WAIT_MILLISECONDS);
}

static uint64_t number_in(void)
{
    const uint32_t node = first_node();
    uint64_t number = 0;
    uint32_t thread;

    wants(begin(&thread) == LCRVM_OK && lcrvm_read(store, node, thread, 1, 0, &number, sizeof number) == LCRVM_OK &&
              lcrvm_abort(store, node, &thread) == LCRVM_OK,
          "a read");
    return number;
}

static enum lcrvm_status commit(bool flush)
{
    const uint64_t next = number_in() + 1;
    const uint32_t node = first_node();
    uint32_t thread;

    wants(begin(&thread) == LCRVM_OK && lcrvm_put(store, node, thread, 1, 0, &next, sizeof next) == LCRVM_OK, "a put");
    return lcrvm_commit(store, node, &thread, flush, NULL);
}

static void open_store(const char *step)
{
    syncs = writes = 0;
    wants(lcrvm_open(folder, NULL, &store, NULL) == LCRVM_OK, step);
}

static void close_store(enum lcrvm_status wanted, const char *step)
{
    wants(lcrvm_close(store, NULL) == wanted, step);
    store = NULL;
}

static void close_in_child(const char *word)
{
    int status = -1;
    pid_t child = fork();

    if (child == 0)
        _exit(lcrvm_close(store, NULL) == LCRVM_FORKED ? 0 : 1);
    (void)word;
    wants(child > 0 && waitpid(child, &status, 0) == child && status == 0, "child");
}

static void set_limit(int resource, rlim_t most, const char *step)
{
    struct rlimit limit;

    wants(getrlimit(resource, &limit) == 0, step);
    limit.rlim_cur = most;
    wants(setrlimit(resource, &limit) == 0, step);
}

static void scribble(const char *name)
{
    char path[PATH_BYTES], byte;
    int file = open(below(name, path), O_RDWR | O_CLOEXEC);

    wants(file >= 0 && pread(file, &byte, 1, 0) == 1 && pwrite(file, &byte, 1, 0) == 1 && close(file) == 0, name);
}

static double now(void)
{
    struct timespec at;

    clock_gettime(CLOCK_MONOTONIC, &at);
    return 1e6 * (double)at.tv_sec + 1e-3 * (double)at.tv_nsec;
}

static int is_longer(const void *one, const void *other)
{
    const double first = *(const double *)one, second = *(const double *)other;

    return (first > second) - (first < second);
}

static void commit_durably(const char *word)
{
    (void)word;
    wants(commit(true) == LCRVM_OK, "commit");
}

static void print_times(const char *what, double *times, size_t count)
{
    qsort(times, count, sizeof *times, is_longer);
    printf("%zu %s: median %.0f us, worst %.0f us\n", count, what, times[count / 2], times[count - 1]);
}

static void take_times(const char *word)
{
    static double openings[MOST_TIMES], closes[MOST_TIMES];
    const long count = strtol(word, NULL, 10);

    wants(count > 0 && count <= MOST_TIMES, "times");
    for (long i = 0; i < count; i++) {
        double begun = now();

        open_store("times");
        openings[i] = now() - begun;
        commit_durably(word);
        begun = now();
        close_store(LCRVM_OK, "times");
        closes[i] = now() - begun;
    }
    print_times("openings", openings, (size_t)count);
    print_times("closes", closes, (size_t)count);
}

static void create_small(const char *word)
{
    static const struct lcrvm_geometry small = SIZED(1, 2, 2, 4, 64);

    (void)word;
    create(&small, "create");
}

static void create_greatest(const char *word)
{
    static const struct lcrvm_geometry greatest = SIZED(8, 16, 16, 1024, 4096);

    (void)word;
    create(&greatest, "greatest");
}

static void open_and_tell(const char *word)
{
    (void)word;
    open_store("open");
    printf("%d syncs %d writes\n", syncs, writes);
    fflush(stdout);
}

static void commit_lazily(const char *word)
{
    (void)word;
    wants(commit(false) == LCRVM_OK, "lazy");
}

static void show(const char *word)
{
    wants(number_in() == strtoull(word, NULL, 10), "shows");
}

static void close_well(const char *word)
{
    (void)word;
    close_store(LCRVM_OK, "close");
}

static void fail_sync(const char *word)
{
    (void)word;
    failing = true;
    wants(commit(true) == LCRVM_DEVICE_FAULT, "fails");
    failing = false;
}

static void close_failed(const char *word)
{
    (void)word;
    close_store(LCRVM_DEVICE_FAULT, "loses");
}

static void wait_for(const char *word)
{
    const struct timespec time = {0, 1000000 * strtol(word, NULL, 10)};

    wants(nanosleep(&time, NULL) == 0, "wait");
}

static void end_by_signal(const char *word)
{
    (void)word;
    raise(SIGKILL);
}

static void limit_files(const char *word)
{
    set_limit(RLIMIT_FSIZE, strtoul(word, NULL, 10), "limit");
}

static void spend_descriptors(const char *word)
{
    (void)word;
    set_limit(RLIMIT_NOFILE, 3, "spent");
}

static void refuse(const char *word)
{
    full = strcmp(word, "writes") == 0;
    stuck = strcmp(word, "truncations") == 0;
    timeless = strcmp(word, "times") == 0;
    wants(full || stuck || timeless, word);
}

static void move_away(const char *word)
{
    char path[PATH_BYTES], moved[PATH_BYTES];

    wants(rename(below(word, path), below("moved", moved)) == 0, word);
}

static void move_back(const char *word)
{
    char path[PATH_BYTES], moved[PATH_BYTES];

    wants(rename(below("moved", moved), below(word, path)) == 0, word);
}

static const struct step {
    const char *name;
    void (*make)(const char *word);
    bool has_word;
} steps[] = {
    {"create", create_small, false},
    {"greatest", create_greatest, false},
    {"open", open_and_tell, false},
    {"commit", commit_durably, false},
    {"lazy", commit_lazily, false},
    {"shows", show, true},
    {"close", close_well, false},
    {"fails", fail_sync, false},
    {"loses", close_failed, false},
    {"wait", wait_for, true},
    {"kill", end_by_signal, false},
    {"child", close_in_child, false},
    {"limit", limit_files, true},
    {"spent", spend_descriptors, false},
    {"refuses", refuse, true},
    {"scribble", scribble, true},
    {"away", move_away, true},
    {"back", move_back, true},
    {"times", take_times, true},
};

static const struct step *step_of(const char *name)
{
    for (size_t i = 0; i < sizeof steps / sizeof steps[0]; i++)
        if (strcmp(steps[i].name, name) == 0)
            return &steps[i];
    return NULL;
}

int main(int count, char **words)
{
    if (count < 3)
        return 2;
    folder = words[1];
    for (int at = 2; at < count; at++) {
        const struct step *step = step_of(words[at]);

        if (step == NULL || at + step->has_word >= count)
            return 2;
        at += step->has_word;
        step->make(words[at]);
    }
    return 0;
}
