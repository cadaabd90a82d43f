/* Measures the same transactions by lcrvm.h, SQLite and LMDB, in alternating rounds, so that anyone can put them side by
   side. A store is left out where its header was not there when this was compiled, or -DWITHOUT_SQLITE or
   -DWITHOUT_LMDB was said.

   usage: peers [--short] [FOLDER]     (FOLDER: where the files stand, by itself where it runs)

   Each has 64 pages of 256 bytes; a change is 5 bytes at a random place, from a fixed seed, in a transaction of its own.
   lcrvm has a log of 4,096 words. SQLite has a row a page, in WAL, with `synchronous` off but for a commit that is
   durable, by prepared statements but for that pragma. LMDB has a value a page, with a writable map and without syncs but those
   that are asked for. A flush makes all commits before it durable. Before an opening with commits in the log a child
   commits, makes that durable, and ends without a close; an opening reads all pages. At the end all have to have the
   same bytes. Of 50,000 lazy commits each round makes the first 1,200 changes again. It takes a minute.

   cc -std=c11 -O2 -pthread -I../../include peers.c embedded.c ../../crates/lc_c/out/liblc_c.a KIT/c/liblibc_c.a \
       -lsqlite3 -llmdb -o peers            (without those that are not there) */
#define _DEFAULT_SOURCE

#include "lcrvm.h"

#include <inttypes.h>
#include <stdio.h>
#include <stdlib.h>
#include <string.h>
#include <sys/stat.h>
#include <sys/wait.h>
#include <time.h>
#include <unistd.h>

#if __has_include(<sqlite3.h>) && !defined WITHOUT_SQLITE
#define HAS_SQLITE 1
#include <sqlite3.h>
#else
#define HAS_SQLITE 0
#endif

#if __has_include(<lmdb.h>) && !defined WITHOUT_LMDB
#define HAS_LMDB 1
#include <lmdb.h>
#else
#define HAS_LMDB 0
#endif

enum {
    PAGES = 64,
    PAGE_BYTES = 256,
    SEGMENT_BYTES = PAGES * PAGE_BYTES,
    CHANGE_BYTES = 5,
    LOG_WORDS = 4096,
    GROUP = 8,
    MOST_CHANGES = 1200,
    MOST_ROUNDS = 9,
    PATH_BYTES = 512
};

struct change {
    uint32_t offset;
    unsigned char bytes[CHANGE_BYTES];
};

/* What is measured of a store. An opening reads all pages, into `bytes`. A commit is durable where it says so. */
struct store {
    const char *name;
    void (*make)(const char *folder);
    void (*open)(const char *folder, unsigned char *bytes);
    void (*close)(void);
    void (*commit)(const struct change *change, bool durable);
    void (*abort)(const struct change *change);
    void (*empty)(void);
};

static void stop(const char *name, const char *what)
{
    fprintf(stderr, "peers: %s: %s\n", name, what);
    exit(1);
}

#if HAS_SQLITE || HAS_LMDB
/* A part of a change, which lies on one page. */
struct piece {
    uint32_t page, offset, length;
    const unsigned char *bytes;
};

/* The part of a change from a byte of it on. */
static struct piece piece_of(const struct change *change, uint32_t from)
{
    const uint32_t at = change->offset + from, room = PAGE_BYTES - at % PAGE_BYTES, left = CHANGE_BYTES - from;

    return (struct piece){at / PAGE_BYTES, at % PAGE_BYTES, left < room ? left : room, change->bytes + from};
}
#endif

/* ---- lcrvm */

static struct lcrvm_store *own;

static const struct lcrvm_geometry own_size = {
    .size = sizeof own_size, .nodes = 1, .threads = 1, .segments = 1, .pages = PAGES, .words = LOG_WORDS,
};
static const struct lcrvm_options own_options = {.size = sizeof own_options, .geometry = &own_size};

static void own_need(enum lcrvm_status status)
{
    if (status != LCRVM_OK)
        stop("lcrvm", lcrvm_status_text(status));
}

static void own_make(const char *folder)
{
    own_need(lcrvm_create(folder, &own_options, NULL));
}

static void own_open(const char *folder, unsigned char *bytes)
{
    const uint32_t segment = 1;
    uint32_t thread;

    own_need(lcrvm_open(folder, &own_options, &own, NULL));
    own_need(lcrvm_begin(own, 0, &thread, NULL, 0, &segment, 1, 0));
    own_need(lcrvm_read(own, 0, thread, segment, 0, bytes, SEGMENT_BYTES));
    own_need(lcrvm_abort(own, 0, &thread));
}

static void own_close(void)
{
    own_need(lcrvm_close(own, NULL));
    own = NULL;
}

static uint32_t own_change(const struct change *change)
{
    const uint32_t segment = 1;
    uint32_t thread;

    own_need(lcrvm_begin(own, 0, &thread, &segment, 1, NULL, 0, 0));
    own_need(lcrvm_put(own, 0, thread, segment, change->offset, change->bytes, CHANGE_BYTES));
    return thread;
}

static void own_commit(const struct change *change, bool durable)
{
    uint32_t thread = own_change(change);

    own_need(lcrvm_commit(own, 0, &thread, durable, NULL));
}

static void own_abort(const struct change *change)
{
    uint32_t thread = own_change(change);

    own_need(lcrvm_abort(own, 0, &thread));
}

static void own_empty(void)
{
    own_need(lcrvm_truncate(own, 0, NULL));
}

/* ---- SQLite */

#if HAS_SQLITE
static sqlite3 *lite;
static sqlite3_stmt *lite_begin, *lite_commit, *lite_rollback, *lite_read, *lite_write;

static void lite_need(int status)
{
    if (status != SQLITE_OK)
        stop("SQLite", lite != NULL ? sqlite3_errmsg(lite) : sqlite3_errstr(status));
}

static void lite_path(const char *folder, char *path)
{
    snprintf(path, PATH_BYTES, "%s.lite", folder);
}

/* Takes a step that has to be the last, or one row. */
static void lite_step(sqlite3_stmt *statement, int wanted)
{
    if (sqlite3_step(statement) != wanted)
        stop("SQLite", sqlite3_errmsg(lite));
}

static void lite_run(sqlite3_stmt *statement)
{
    lite_step(statement, SQLITE_DONE);
    lite_need(sqlite3_reset(statement));
}

/* Sets `synchronous`, which SQLite does when that pragma is prepared, so no such statement is kept. */
static void lite_synchronize(bool durable)
{
    lite_need(sqlite3_exec(lite, durable ? "PRAGMA synchronous = FULL" : "PRAGMA synchronous = OFF", NULL, NULL, NULL));
}

static void lite_prepare(const char *text, sqlite3_stmt **statement)
{
    lite_need(sqlite3_prepare_v2(lite, text, -1, statement, NULL));
}

static void lite_make(const char *folder)
{
    char path[PATH_BYTES];

    lite_path(folder, path);
    lite_need(sqlite3_open(path, &lite));
    lite_need(sqlite3_exec(lite,
                           "PRAGMA journal_mode = WAL; CREATE TABLE page (number INTEGER PRIMARY KEY, bytes BLOB);"
                           "WITH RECURSIVE n(i) AS (SELECT 0 UNION ALL SELECT i + 1 FROM n WHERE i < 63)"
                           "INSERT INTO page SELECT i, zeroblob(256) FROM n;",
                           NULL, NULL, NULL));
    lite_need(sqlite3_close(lite));
    lite = NULL;
}

static void lite_open(const char *folder, unsigned char *bytes)
{
    char path[PATH_BYTES];
    sqlite3_stmt *pages;

    lite_path(folder, path);
    lite_need(sqlite3_open(path, &lite));
    lite_prepare("BEGIN IMMEDIATE", &lite_begin);
    lite_prepare("COMMIT", &lite_commit);
    lite_prepare("ROLLBACK", &lite_rollback);
    lite_prepare("SELECT bytes FROM page WHERE number = ?1", &lite_read);
    lite_prepare("UPDATE page SET bytes = ?2 WHERE number = ?1", &lite_write);
    lite_synchronize(false);
    lite_prepare("SELECT number, bytes FROM page", &pages);
    while (sqlite3_step(pages) == SQLITE_ROW)
        memcpy(bytes + PAGE_BYTES * sqlite3_column_int(pages, 0), sqlite3_column_blob(pages, 1), PAGE_BYTES);
    lite_need(sqlite3_finalize(pages));
}

static void lite_close(void)
{
    sqlite3_stmt *const all[] = {lite_begin, lite_commit, lite_rollback, lite_read, lite_write};

    for (size_t i = 0; i < sizeof all / sizeof all[0]; i++)
        lite_need(sqlite3_finalize(all[i]));
    lite_need(sqlite3_close(lite));
    lite = NULL;
}

/* Reads the page, and writes it with the bytes of the piece. */
static void lite_set(const struct piece *piece)
{
    unsigned char bytes[PAGE_BYTES];

    lite_need(sqlite3_bind_int(lite_read, 1, (int)piece->page));
    lite_step(lite_read, SQLITE_ROW);
    memcpy(bytes, sqlite3_column_blob(lite_read, 0), PAGE_BYTES);
    lite_need(sqlite3_reset(lite_read));
    memcpy(bytes + piece->offset, piece->bytes, piece->length);
    lite_need(sqlite3_bind_int(lite_write, 1, (int)piece->page));
    lite_need(sqlite3_bind_blob(lite_write, 2, bytes, PAGE_BYTES, SQLITE_STATIC));
    lite_run(lite_write);
}

static void lite_change(const struct change *change)
{
    lite_run(lite_begin);
    for (uint32_t from = 0; from < CHANGE_BYTES;) {
        const struct piece piece = piece_of(change, from);

        lite_set(&piece);
        from += piece.length;
    }
}

static void lite_commits(const struct change *change, bool durable)
{
    if (durable)
        lite_synchronize(true);
    lite_change(change);
    lite_run(lite_commit);
    if (durable)
        lite_synchronize(false);
}

static void lite_aborts(const struct change *change)
{
    lite_change(change);
    lite_run(lite_rollback);
}

static void lite_empty(void)
{
    lite_need(sqlite3_wal_checkpoint_v2(lite, NULL, SQLITE_CHECKPOINT_TRUNCATE, NULL, NULL));
}
#endif

/* ---- LMDB */

#if HAS_LMDB
static MDB_env *map;
static MDB_dbi map_pages;

static void map_need(int status)
{
    if (status != MDB_SUCCESS)
        stop("LMDB", mdb_strerror(status));
}

static void map_begin(const char *folder)
{
    char path[PATH_BYTES];

    snprintf(path, sizeof path, "%s.map", folder);
    map_need(mdb_env_create(&map));
    map_need(mdb_env_set_mapsize(map, (size_t)16 << 20));
    map_need(mdb_env_open(map, path, MDB_NOSUBDIR | MDB_WRITEMAP | MDB_NOSYNC, 0666));
}

static void map_put(MDB_txn *change, uint32_t page, const void *bytes)
{
    MDB_val key = {sizeof page, &page}, value = {PAGE_BYTES, (void *)bytes};

    map_need(mdb_put(change, map_pages, &key, &value, 0));
}

static void map_close(void)
{
    map_need(mdb_env_sync(map, 1));
    mdb_env_close(map);
    map = NULL;
}

static void map_make(const char *folder)
{
    static const unsigned char zeros[PAGE_BYTES];
    MDB_txn *first;

    map_begin(folder);
    map_need(mdb_txn_begin(map, NULL, 0, &first));
    map_need(mdb_dbi_open(first, NULL, MDB_INTEGERKEY, &map_pages));
    for (uint32_t page = 0; page < PAGES; page++)
        map_put(first, page, zeros);
    map_need(mdb_txn_commit(first));
    map_close();
}

static void map_open(const char *folder, unsigned char *bytes)
{
    MDB_txn *reading;

    map_begin(folder);
    map_need(mdb_txn_begin(map, NULL, MDB_RDONLY, &reading));
    map_need(mdb_dbi_open(reading, NULL, MDB_INTEGERKEY, &map_pages));
    for (uint32_t page = 0; page < PAGES; page++) {
        MDB_val key = {sizeof page, &page}, value;

        map_need(mdb_get(reading, map_pages, &key, &value));
        memcpy(bytes + PAGE_BYTES * page, value.mv_data, PAGE_BYTES);
    }
    map_need(mdb_txn_commit(reading));
}

static MDB_txn *map_change(const struct change *change)
{
    MDB_txn *writing;

    map_need(mdb_txn_begin(map, NULL, 0, &writing));
    for (uint32_t from = 0; from < CHANGE_BYTES;) {
        const struct piece piece = piece_of(change, from);
        uint32_t page = piece.page;
        unsigned char bytes[PAGE_BYTES];
        MDB_val key = {sizeof page, &page}, value;

        map_need(mdb_get(writing, map_pages, &key, &value));
        memcpy(bytes, value.mv_data, PAGE_BYTES);
        memcpy(bytes + piece.offset, piece.bytes, piece.length);
        map_put(writing, page, bytes);
        from += piece.length;
    }
    return writing;
}

static void map_commit(const struct change *change, bool durable)
{
    map_need(mdb_txn_commit(map_change(change)));
    if (durable)
        map_need(mdb_env_sync(map, 1));
}

static void map_abort(const struct change *change)
{
    mdb_txn_abort(map_change(change));
}

static void map_empty(void)
{
    map_need(mdb_env_sync(map, 1));
}
#endif

static const struct store stores[] = {
    {"lcrvm", own_make, own_open, own_close, own_commit, own_abort, own_empty},
#if HAS_SQLITE
    {"SQLite", lite_make, lite_open, lite_close, lite_commits, lite_aborts, lite_empty},
#endif
#if HAS_LMDB
    {"LMDB", map_make, map_open, map_close, map_commit, map_abort, map_empty},
#endif
};

enum { STORES = sizeof stores / sizeof stores[0] };

/* ---- the work */

static char room[PATH_BYTES / 4], folder[PATH_BYTES / 2];
static struct change changes[MOST_CHANGES];
static unsigned char read_back[STORES][SEGMENT_BYTES];

/* Commits the changes, and makes them durable after each group of so many; of none, never. */
static void commits(const struct store *store, int count, int group)
{
    for (int i = 0; i < count; i++)
        store->commit(&changes[i % MOST_CHANGES], group > 0 && (i + 1) % group == 0);
}

static void lazy(const struct store *store, int count)
{
    commits(store, count, 0);
}

static void aborts(const struct store *store, int count)
{
    for (int i = 0; i < count; i++)
        store->abort(&changes[i]);
}

static void durable(const struct store *store, int count)
{
    commits(store, count, 1);
}

static void groups(const struct store *store, int count)
{
    commits(store, count, GROUP);
}

static void reopen(const struct store *store, int count)
{
    (void)count;
    store->open(folder, read_back[store - stores]);
}

static void emptied(const struct store *store, int count)
{
    (void)count;
    store->empty();
}

static void closed(const struct store *store, int count)
{
    (void)count;
    store->empty();
    store->close();
}

/* A child commits, and ends as if it were killed. */
static void left(const struct store *store, int count)
{
    int status = 1;

    closed(store, count);
    fflush(stdout);
    const pid_t child = fork();
    if (child == 0) {
        store->open(folder, read_back[store - stores]);
        commits(store, count, count);
        _exit(0);
    }
    if (child < 0 || waitpid(child, &status, 0) != child || status != 0)
        stop(store->name, "the child did not commit");
}

/* One kind of work: so many changes a round, of which so many are one unit. */
static const struct work {
    const char *name, *unit;
    int changes, short_changes, changes_of_unit;
    void (*prepare)(const struct store *store, int count);
    void (*does)(const struct store *store, int count);
} works[] = {
    {"lazy commits, between truncations", "commit", 400, 40, 1, emptied, lazy},
    {"lazy commits, with their truncations", "commit", 50000, 2000, 1, emptied, lazy},
    {"aborts", "abort", 400, 40, 1, emptied, aborts},
    {"durable commits", "commit", 32, 4, 1, emptied, durable},
    {"durable commits, 8 to a flush", "8 commits", 256, 16, GROUP, emptied, groups},
    {"opening after a clean close", "opening", 1, 1, 1, closed, reopen},
    {"opening with 400 commits in the log", "opening", 400, 400, 400, left, reopen},
    {"sustained, 8 to a flush", "commit", 1200, 600, 1, emptied, groups},
};

static double now(void)
{
    struct timespec at;

    clock_gettime(CLOCK_MONOTONIC, &at);
    return (double)at.tv_sec * 1e6 + (double)at.tv_nsec / 1e3;
}

/* Marsaglia's xorshift. */
static uint64_t random_number(void)
{
    static uint64_t seed = UINT64_C(0x9e3779b97f4a7c15);

    seed ^= seed << 13;
    seed ^= seed >> 7;
    seed ^= seed << 17;
    return seed;
}

static void choose_changes(int count)
{
    for (int i = 0; i < count && i < MOST_CHANGES; i++) {
        const uint64_t bytes = random_number();

        changes[i].offset = (uint32_t)(random_number() % (SEGMENT_BYTES - CHANGE_BYTES + 1));
        memcpy(changes[i].bytes, &bytes, CHANGE_BYTES);
    }
}

static int compare(const void *one, const void *other)
{
    const double left_time = *(const double *)one, right_time = *(const double *)other;

    return (left_time > right_time) - (left_time < right_time);
}

/* Each store does the same changes in each round, and each begins in its turn. */
static void measure(const struct work *work, int rounds, bool is_short)
{
    double times[STORES][MOST_ROUNDS];
    const int count = is_short ? work->short_changes : work->changes;

    for (int round = 0; round < rounds; round++) {
        choose_changes(count);
        for (int turn = 0; turn < STORES; turn++) {
            const int at = (round + turn) % STORES;
            double start;

            work->prepare(&stores[at], count);
            start = now();
            work->does(&stores[at], count);
            times[at][round] = now() - start;
        }
    }
    printf("%-36s %-10s", work->name, work->unit);
    for (int at = 0; at < STORES; at++) {
        qsort(times[at], (size_t)rounds, sizeof times[at][0], compare);
        printf(" %11.2f", times[at][rounds / 2] * work->changes_of_unit / count);
    }
    printf("\n");
    fflush(stdout);
}

/* Whether all have the same bytes, which each reads anew. */
static bool agree(void)
{
    bool same = true;

    for (int at = 0; at < STORES; at++) {
        stores[at].close();
        stores[at].open(folder, read_back[at]);
        same = same && memcmp(read_back[at], read_back[0], SEGMENT_BYTES) == 0;
        stores[at].close();
    }
    return same;
}

static void remove_files(void)
{
    static const char *const names[] = {"/lcrvm.store", "/lcrvm.clean", "/log0",     "/seg1", ".lite",
                                        ".lite-wal",    ".lite-shm",    ".map",      ".map-lock"};
    char path[PATH_BYTES];

    for (size_t i = 0; i < sizeof names / sizeof names[0]; i++) {
        snprintf(path, sizeof path, "%s%s", folder, names[i]);
        unlink(path);
    }
    rmdir(folder);
    rmdir(room);
}

int main(int count, char *words[])
{
    const bool is_short = count > 1 && strcmp(words[1], "--short") == 0;
    const int first = is_short ? 2 : 1, rounds = is_short ? 3 : MOST_ROUNDS;
    bool same;

    if (count > first + 1) {
        fprintf(stderr, "usage: peers [--short] [FOLDER]\n");
        return 2;
    }
    snprintf(room, sizeof room, "%.100s/peers.XXXXXX", count > first ? words[first] : ".");
    if (mkdtemp(room) == NULL)
        stop(room, "no folder could be made");
    snprintf(folder, sizeof folder, "%s/store", room);
    for (int at = 0; at < STORES; at++) {
        stores[at].make(folder);
        stores[at].open(folder, read_back[at]);
    }
    printf("microseconds for one, medians of %d rounds\n\n%-36s %-10s", rounds, "", "one");
    for (int at = 0; at < STORES; at++)
        printf(" %11s", stores[at].name);
    printf("\n");
    for (size_t i = 0; i < sizeof works / sizeof works[0]; i++)
        measure(&works[i], rounds, is_short);
    same = agree();
    printf("%s\n", same ? "all have the same bytes" : "failed: the bytes differ");
    remove_files();
    return same ? 0 : 1;
}
