/* The library: recoverable virtual memory in a program's own process, by the calls of lcrvm.h. The store is a proved
   static library, liblc_c.a, and its files are read and written here.

   Each event of the store makes at most one call on one of its areas in memory: a write, or a sync. The same call is
   made on the area's file, by pwrite or fdatasync, before the event is answered; but a sync makes none where all that
   was written to the file is stable. The calls of a recovery are made in another order, by recovery.h. Where a call
   fails the store is given up: this call and each later one answer LCRVM_DEVICE_FAULT, a file `fault` is left in the
   folder, and a recovery has what was acknowledged.

   The size of a store stands in a file of its own, which is made before the others. So a store whose creation was
   cut, or that has lost a file, is not opened.

   cc -std=c11 -Wall -Wextra -O2 -pthread -c clients/c/embedded.c */

/* flock is no POSIX function. */
#define _DEFAULT_SOURCE

#include "../../include/lcrvm.h"
#include "clean_close.h"
#include "descriptors.h"
#include "logs.h"
#include "new_files.h"
#include "recovery.h"
#include "renewed_files.h"
#include "session.h"
#include "statuses.h"
#include "store.h"
#include "store_files.h"
#include "structures.h"
#include "transactions.h"
#include "waiting.h"
#include "working.h"

#include <errno.h>
#include <fcntl.h>
#include <pthread.h>
#include <stdlib.h>
#include <string.h>
#include <sys/stat.h>
#include <sys/types.h>
#include <unistd.h>

/* ---- new stores */

enum lcrvm_status lcrvm_create(const char *folder, const struct lcrvm_options *options, struct lcrvm_fault *fault)
{
    struct lcrvm_options wanted;
    struct lcrvm_geometry geometry;
    enum lcrvm_status status;

    if (!has_room(fault))
        return no_room();
    if (folder == NULL)
        return told_to(failed(LCRVM_MISUSE, "folder: NULL"), fault);
    status = take_options(options, &wanted, &geometry);
    if (status == LCRVM_OK)
        status = look_at_numbers(&wanted);
    if (status == LCRVM_OK)
        status = make_store(folder, size_of(&wanted), NULL, &fault_here);
    return told_to(status, fault);
}

/* ---- opening */

/* Opens the file of an area, and locks it. */
static enum lcrvm_status open_file(struct lcrvm_store *store, uint32_t place, const char *name)
{
    int file = open_regular(&store->kept, (int)place, name, O_RDWR, &fault_here);

    return file < 0 ? fault_here.status : lock_file(file, name, &fault_here);
}

/* Looks at the names of a kind above those of the geometry: EXISTS where one is taken, and its file is opened. */
static enum lcrvm_status look_beyond(struct lcrvm_store *store, const char *kind, uint32_t first, uint32_t last)
{
    char name[NAME_BYTES];
    enum lcrvm_status status = LCRVM_OK;

    for (uint32_t number = first; number <= last && status == LCRVM_OK; number++) {
        write_name(kind, number, name);
        status = look_at(store->kept.of[FOLDER], name, &fault_here);
    }
    if (status == LCRVM_EXISTS && open_file(store, store->areas, name) != LCRVM_OK)
        return fault_here.status;
    return status;
}

/* Adds the area of a file, with what it holds. */
static enum lcrvm_status add_area(struct lcrvm_store *store, const uint8_t *bytes, size_t len)
{
    enum lcrvm_status status = (enum lcrvm_status)lcrvm_session_area(&store->session, bytes, len);

    return status == LCRVM_OK ? LCRVM_OK : failed(status, "");
}

/* A file above those of the geometry is an area too many, which the start refuses. */
static enum lcrvm_status add_beyond(struct lcrvm_store *store)
{
    static const uint8_t none = 0;
    const struct lcrvm_geometry *geometry = &store->geometry;
    enum lcrvm_status status = look_beyond(store, log_kind, geometry->nodes, MOST_NODES - 1);

    if (status == LCRVM_OK)
        status = look_beyond(store, segment_kind, geometry->segments + 1, MOST_SEGMENTS);
    return status == LCRVM_EXISTS ? add_area(store, &none, 0) : status;
}

/* As many bytes as the longest area has. */
static size_t room_of(const struct lcrvm_geometry *geometry)
{
    size_t log_len = len_of(geometry, 0), segment_len = len_of(geometry, geometry->nodes);

    return log_len > segment_len ? log_len : segment_len;
}

/* Reads a file, and adds its area; of one that is too long one byte too much, which the start refuses. */
static enum lcrvm_status read_file(struct lcrvm_store *store, uint32_t place, const char *name)
{
    struct stat at;
    uint8_t *bytes;
    size_t len = len_of(&store->geometry, place);
    enum lcrvm_status status;

    if (fstat(store->kept.of[place], &at) != 0)
        return file_failed(&fault_here, name);
    len = at.st_size > (off_t)len ? len + 1 : (size_t)at.st_size;
    bytes = malloc(len + 1);
    if (bytes == NULL)
        return failed(LCRVM_NO_MEMORY, "");
    if (read_whole(store->kept.of[place], bytes, len, 0))
        status = add_area(store, bytes, len);
    else
        status = file_failed(&fault_here, name);
    free(bytes);
    return status;
}

/* Opens the file of an area, and adds what it holds. */
static enum lcrvm_status add_file(struct lcrvm_store *store, uint32_t place)
{
    char name[NAME_BYTES];
    enum lcrvm_status status;

    name_of(&store->geometry, place, name);
    status = open_file(store, place, name);
    return status == LCRVM_OK ? read_file(store, place, name) : status;
}

static enum lcrvm_status add_files(struct lcrvm_store *store)
{
    enum lcrvm_status status = LCRVM_OK;

    for (uint32_t place = 0; place < store->areas && status == LCRVM_OK; place++)
        status = add_file(store, place);
    return status == LCRVM_OK ? add_beyond(store) : status;
}

/* Begins a session for a store of this size, adds its files, and makes them a store, where they have the lengths
   of its size and that is the one which is stated. */
static enum lcrvm_status load(struct lcrvm_store *store)
{
    const struct lcrvm_geometry *geometry = &store->geometry;
    struct answer answer = {0};
    enum lcrvm_status status = (enum lcrvm_status)lcrvm_session_new(
        bounded(geometry->nodes), bounded(geometry->threads), geometry->segments, geometry->pages, geometry->words,
        &store->session);

    if (status != LCRVM_OK)
        return failed(status, "");
    status = add_files(store);
    if (status != LCRVM_OK)
        return status;
    lcrvm_session_start(&store->session, &answer);
    status = refused(&answer);
    if (status == LCRVM_OK && store->stated.nodes > 0)
        status = compare_to_stated(store->kept.of[FOLDER], geometry, &store->stated, &fault_here);
    return status;
}

static void unload(struct lcrvm_store *store)
{
    lcrvm_session_free(store->session);
    store->session = (struct handle){0};
    for (uint32_t place = 0; place < store->areas; place++)
        unlock_kept(&store->kept, (int)place);
}

/* Where a fault has left its mark each file is copied, and only what is on the device is read. Of areas that are
   not those of the geometry nothing is copied. */
static enum lcrvm_status load_renewed(struct lcrvm_store *store)
{
    enum lcrvm_status marked = look_at(store->kept.of[FOLDER], mark, &fault_here), status;

    if (marked != LCRVM_OK && marked != LCRVM_EXISTS)
        return marked;
    status = load(store);
    if (status != LCRVM_OK || marked == LCRVM_OK)
        return status;
    status = renew_files(&store->kept, &store->geometry, &fault_here);
    unload(store);
    return status == LCRVM_OK ? load(store) : status;
}

/* Makes the file that states the size stable. */
static enum lcrvm_status sync_size(struct lcrvm_store *store)
{
    enum lcrvm_status status = LCRVM_OK;
    int file;

    if (store->stated.nodes == 0)
        return LCRVM_OK;
    file = open_regular(&store->kept, ONE_FILE, size_name, O_RDONLY, &fault_here);
    if (file < 0)
        return fault_here.status;
    if (!make_stable(file, fsync)) {
        status = file_failed(&fault_here, size_name);
        leave_mark(store->kept.of[FOLDER], &fault_here);
    }
    close_kept(&store->kept, ONE_FILE);
    return status;
}

/* Makes the size and the names of the files stable: those of a store whose creation was cut, or of a copy, need
   not be. */
static enum lcrvm_status sync_folder(struct lcrvm_store *store)
{
    enum lcrvm_status status = sync_size(store);

    if (status == LCRVM_OK && !make_stable(store->kept.of[FOLDER], fsync)) {
        status = file_failed(&fault_here, folder_name);
        leave_mark(store->kept.of[FOLDER], &fault_here);
    }
    return status;
}

/* The size is that of the caller, or else that which is stated, or else that of the files. */
static enum lcrvm_status take_size(struct lcrvm_store *store, const struct lcrvm_options *options)
{
    enum lcrvm_status status;

    store->stated.threads = options->geometry != NULL ? options->geometry->threads : threads_of(options);
    status = read_stated(&store->kept, &store->stated, &fault_here);
    if (status != LCRVM_OK)
        return status;
    store->geometry = options->geometry != NULL ? *options->geometry : store->stated;
    store->geometry.size = sizeof store->geometry;
    if (store->stated.nodes == 0 && options->geometry != NULL)
        status = look_for_store(store->kept.of[FOLDER], &fault_here);
    else if (store->geometry.nodes == 0)
        status = find_size(store->kept.of[FOLDER], &store->geometry, &fault_here);
    store->areas = areas_of(&store->geometry);
    return status;
}

/* Fills a store whose folder and session are none yet. */
static enum lcrvm_status open_in(struct lcrvm_store *store, const char *path, const struct lcrvm_options *options)
{
    int folder = open_folder(&store->kept, FOLDER, AT_FDCWD, path);
    enum lcrvm_status status;

    if (folder < 0)
        return folder_failed(&fault_here, errno == ENOENT ? LCRVM_NO_STORE : LCRVM_DEVICE_FAULT, path);
    status = lock_folder(folder, path, options->milliseconds, &fault_here);
    if (status == LCRVM_OK)
        status = take_size(store, options);
    if (status != LCRVM_OK)
        return status;
    store->bytes = malloc(room_of(&store->geometry));
    if (store->bytes == NULL)
        return failed(LCRVM_NO_MEMORY, "");
    status = load_renewed(store);
    if (status == LCRVM_OK && !take_record(store))
        status = sync_folder(store);
    if (status == LCRVM_OK)
        status = recover(store);
    return status == LCRVM_OK ? make_images(store) : status;
}

static struct lcrvm_store *new_store(void)
{
    struct lcrvm_store *store = follows_forks ? aligned_alloc(CACHE_LINE, sizeof *store) : NULL;

    if (store == NULL)
        return NULL;
    memset(store, 0, sizeof *store);
    store->forks = forks;
    pthread_mutex_init(&store->events, NULL);
    for (uint32_t node = 0; node < MOST_NODES; node++)
        for (uint32_t thread = 0; thread < MOST_THREADS; thread++)
            pthread_mutex_init(&store->begun[node][thread].guard, NULL);
    keep_descriptors(&store->kept);
    return store;
}

/* Frees what a store has in memory. */
static void free_memory(struct lcrvm_store *store)
{
    lcrvm_session_free(store->session);
    free_images(store);
    free(store->bytes);
    free(store);
}

static void free_store(struct lcrvm_store *store)
{
    release_descriptors(&store->kept);
    pthread_mutex_destroy(&store->events);
    for (uint32_t node = 0; node < MOST_NODES; node++)
        for (uint32_t thread = 0; thread < MOST_THREADS; thread++)
            pthread_mutex_destroy(&store->begun[node][thread].guard);
    free_memory(store);
}

enum lcrvm_status lcrvm_open(const char *folder, const struct lcrvm_options *options, struct lcrvm_store **store,
                             struct lcrvm_fault *fault)
{
    struct lcrvm_options wanted;
    struct lcrvm_geometry geometry;
    struct lcrvm_store *opened;
    enum lcrvm_status status;

    if (store != NULL)
        *store = NULL;
    if (!has_room(fault))
        return no_room();
    if (store == NULL || folder == NULL)
        return told_to(failed(LCRVM_MISUSE, store == NULL ? "store: NULL" : "folder: NULL"), fault);
    status = take_options(options, &wanted, &geometry);
    if (status == LCRVM_OK)
        status = look_at_numbers(&wanted);
    if (status != LCRVM_OK)
        return told_to(status, fault);
    opened = new_store();
    if (opened == NULL)
        return told_to(failed(LCRVM_NO_MEMORY, ""), fault);
    status = open_in(opened, folder, &wanted);
    if (status != LCRVM_OK) {
        free_store(opened);
        return told_to(status, fault);
    }
    *store = opened;
    return told_to(LCRVM_OK, fault);
}

/* ---- the way into a store and out of it */

/* Whether this process may call the store at all. No lock is taken of a store of the parent. */
static enum lcrvm_status look_at_store(const struct lcrvm_store *store)
{
    if (store == NULL)
        return failed(LCRVM_MISUSE, "");
    return store->forks == forks ? LCRVM_OK : failed(LCRVM_FORKED, "");
}

/* Whether a call may begin: it has the lock then, and gives it back by `done`. Else it answers `not_entered`. */
static bool enter(struct lcrvm_store *store)
{
    enum lcrvm_status status = look_at_store(store);

    if (status != LCRVM_OK) {
        told(status);
        return false;
    }
    atomic_fetch_add(&store->within, 1);
    lock_events(store);
    if (!store->over)
        return true;
    told(is_over(store));
    atomic_fetch_sub(&store->within, 1);
    pthread_mutex_unlock(&store->events);
    return false;
}

static enum lcrvm_status not_entered(void)
{
    return fault_told.status;
}

/* What a call answers that has entered. */
static enum lcrvm_status done(struct lcrvm_store *store, enum lcrvm_status status)
{
    if (store->over)
        serve_waiters(store);
    atomic_fetch_sub(&store->within, 1);
    pthread_mutex_unlock(&store->events);
    return told(status);
}

/* ---- the number that is outside of a store, where a call was refused for one */

static enum lcrvm_status is_outside(const char *name, uint32_t number, uint32_t low, uint32_t high)
{
    char text[64];

    snprintf(text, sizeof text, "%s %u: the store has %u to %u", name, (unsigned)number, (unsigned)low, (unsigned)high);
    return failed(LCRVM_UNKNOWN, text);
}

/* Names the number to which a call was answered LCRVM_UNKNOWN, and hands every other status on. */
static enum lcrvm_status named(const struct lcrvm_store *store, enum lcrvm_status status, uint32_t node,
                               uint32_t transaction, uint32_t segment)
{
    const struct lcrvm_geometry *size = &store->geometry;

    if (status != LCRVM_UNKNOWN)
        return status;
    if (node >= size->nodes)
        return is_outside("node", node, 0, size->nodes - 1);
    if (transaction >= size->threads)
        return is_outside("transaction", transaction, 0, size->threads - 1);
    if (!is_within(segment, 1, size->segments))
        return is_outside("segment", segment, 1, size->segments);
    return status;
}

/* The first number of the list that is no segment of the store, or 1. */
static uint32_t first_outside(const struct lcrvm_store *store, const uint32_t *segments, size_t count)
{
    for (size_t i = 0; i < count; i++)
        if (!is_within(segments[i], 1, store->geometry.segments))
            return segments[i];
    return 1;
}

/* Names the number of a wish in the same way. */
static enum lcrvm_status named_of(const struct lcrvm_store *store, enum lcrvm_status status, const struct wish *wish,
                                  uint32_t transaction)
{
    uint32_t segment = first_outside(store, wish->segments, wish->count);

    if (segment == 1)
        segment = first_outside(store, wish->reading, wish->reading_count);
    return named(store, status, wish->node, transaction, segment);
}

/* ---- the way into an open transaction and out of it */

/* Whether a call of an open transaction may begin: *begun has its guard then, and is given back by `worked`. It is NULL
   where the thread has none: then the call has entered the store, to be refused there, and goes out by `done`. Else it
   answers `not_entered`. */
static bool enter_work(struct lcrvm_store *store, uint32_t node, uint32_t transaction, struct begun **begun)
{
    enum lcrvm_status status = look_at_store(store);

    *begun = NULL;
    if (status == LCRVM_OK && store->over)
        status = is_over(store);
    if (status != LCRVM_OK) {
        told(status);
        return false;
    }
    *begun = take_guard(store, node, transaction);
    return *begun != NULL || enter(store);
}

/* What a call answers that has entered so. */
static enum lcrvm_status worked(struct lcrvm_store *store, struct begun *begun, enum lcrvm_status status)
{
    if (begun == NULL)
        return done(store, status);
    give_guard(begun);
    return told(status);
}

/* A thread that has no open transaction is asked for work in one: what the session answers to that, or what it would
   have answered before another call began one. */
static enum lcrvm_status refuse_work(struct lcrvm_store *store, uint32_t node, uint32_t thread, uint32_t segment)
{
    struct answer answer = {0};

    if (node < store->geometry.nodes && thread < store->geometry.threads && store->begun[node][thread].open)
        return failed(LCRVM_OUT_OF_TURN, "");
    lcrvm_session_set_range(&store->session, bounded(node), bounded(thread), segment, 0, 0, &answer);
    return answered(store, &answer);
}

/* ---- events, by a thread that has the lock and the transaction's guard */

/* The transaction is over, and who waits for what it locked goes on. */
static void over_now(struct lcrvm_store *store, struct begun *begun)
{
    begun->open = false;
    store->owned -= begun->owner != NOBODY;
    serve_waiters(store);
}

static enum lcrvm_status abort_now(struct lcrvm_store *store, uint32_t node, uint32_t thread, struct begun *begun)
{
    struct answer answer = {0};
    enum lcrvm_status status;

    lcrvm_session_abort(&store->session, bounded(node), bounded(thread), &answer);
    status = answered(store, &answer);
    if (status == LCRVM_OK)
        over_now(store, begun);
    return status;
}

/* Gives the transaction its place in the log, and completes its record. */
static enum lcrvm_status commit_now(struct lcrvm_store *store, uint32_t node, uint32_t thread, struct begun *begun,
                                    struct lcrvm_record *placed)
{
    struct answer answer = {0};
    enum lcrvm_status status = end_in_session(store, node, thread, begun, &answer);

    *placed = (struct lcrvm_record){0, 0};
    if (status != LCRVM_OK)
        return status;
    if (answer.reply == RESERVED) {
        *placed = (struct lcrvm_record){.place = answer.place, .words = answer.words};
        store->counted[node].log_words = placed->place + placed->words;
        store->records[node]++;
    }
    over_now(store, begun);
    return LCRVM_OK;
}

/* Commits by a thread that is at the files, and empties the log where it is still full. */
static enum lcrvm_status commit_at_files(struct lcrvm_store *store, uint32_t node, uint32_t thread,
                                         struct begun *begun, struct lcrvm_record *placed)
{
    enum lcrvm_status status = commit_now(store, node, thread, begun, placed);
    struct lcrvm_fault full;

    if (status != LCRVM_FULL)
        return status;
    full = fault_here;
    status = truncate_now(store, node);
    if (status == LCRVM_OK)
        return commit_now(store, node, thread, begun, placed);
    if (store->over)
        return status;
    fault_here = full;
    return LCRVM_FULL;
}

/* Commits, and empties the log first where it is full and has room for the record then. Without an open transaction
   it is refused. */
static enum lcrvm_status commit_with_room(struct lcrvm_store *store, uint32_t node, uint32_t thread,
                                          struct begun *begun, struct lcrvm_record *placed)
{
    enum lcrvm_status status;

    if (begun == NULL)
        return refuse_work(store, node, thread, 1);
    status = commit_now(store, node, thread, begun, placed);

    if (status != LCRVM_FULL || fault_here.need > store->geometry.words)
        return status;
    status = take_files(store);
    if (status != LCRVM_OK)
        return status;
    status = commit_at_files(store, node, thread, begun, placed);
    give_files(store);
    return status;
}

/* ---- the end of a store */

static void abort_all(struct lcrvm_store *store)
{
    for (uint32_t node = 0; node < store->geometry.nodes; node++)
        for (uint32_t thread = 0; thread < store->geometry.threads; thread++)
            if (store->begun[node][thread].open && !store->over)
                abort_now(store, node, thread, &store->begun[node][thread]);
}

/* Flushes each log, and empties it where that can be: not where the token of a segment has gone to another node. */
static void empty_all(struct lcrvm_store *store)
{
    for (uint32_t node = 0; node < store->geometry.nodes && !store->over; node++)
        truncate_now(store, node);
}

/* In a child: what another thread of the parent was changing is left as it was, and is not freed. */
static void forget_store(struct lcrvm_store *store)
{
    if (atomic_load(&store->within) == 0 && !is_guard_held(store))
        free_memory(store);
}

enum lcrvm_status lcrvm_close(struct lcrvm_store *store, struct lcrvm_fault *fault)
{
    enum lcrvm_status status;

    if (!has_room(fault))
        return no_room();
    if (store == NULL)
        return told_to(LCRVM_OK, fault);
    status = look_at_store(store);
    if (status != LCRVM_OK) {
        forget_store(store);
        return told_to(status, fault);
    }
    pthread_mutex_lock(&store->events);
    if (atomic_load(&store->within) > 0 || is_guard_held(store) ||
        (!store->over && has_begun(store, this_thread(), true))) {
        pthread_mutex_unlock(&store->events);
        return told_to(failed(LCRVM_BUSY, ""), fault);
    }
    abort_all(store);
    empty_all(store);
    status = store->over ? is_over(store) : LCRVM_OK;
    if (status == LCRVM_OK)
        leave_record(store);
    pthread_mutex_unlock(&store->events);
    free_store(store);
    return told_to(status, fault);
}

/* ---- copies */

/* Looks at the size of a copy, which has as many nodes as the store, and of the rest no less: UNKNOWN, with the number
   that is outside and its range. */
static enum lcrvm_status look_at_size(const struct lcrvm_geometry *from, const struct lcrvm_geometry *to)
{
    const struct bounded_number all[] = {
        {"nodes", to->nodes, from->nodes, from->nodes},
        {"threads", to->threads, 1, MOST_THREADS},
        {"segments", to->segments, from->segments, MOST_SEGMENTS},
        {"pages", to->pages, from->pages, MOST_PAGES},
        {"words", to->words, from->words, MOST_WORDS},
    };

    for (size_t i = 0; i < sizeof all / sizeof all[0]; i++)
        if (!is_within(all[i].number, all[i].low, all[i].high))
            return out_of_range("a copy", &all[i]);
    return LCRVM_OK;
}

/* Takes what all areas hold, after a flush: each is as a stop at this moment would leave it. They stand one after
   another as those of a store of this size, with zeros behind what each has. */
static enum lcrvm_status take_bytes(struct lcrvm_store *store, const struct lcrvm_geometry *size, uint8_t **bytes)
{
    enum lcrvm_status status = look_at_size(&store->geometry, size);

    for (uint32_t node = 0; node < store->geometry.nodes && status == LCRVM_OK; node++)
        status = flush_shared(store, node);
    if (status != LCRVM_OK)
        return status;
    *bytes = calloc(1, bytes_before(size, areas_of(size)));
    if (*bytes == NULL)
        return failed(LCRVM_NO_MEMORY, "");
    for (uint32_t place = 0; place < store->areas; place++)
        lcrvm_session_bytes(&store->session, place, 0, *bytes + bytes_before(size, place),
                            len_of(&store->geometry, place));
    return LCRVM_OK;
}

enum lcrvm_status lcrvm_copy(struct lcrvm_store *store, const char *folder, const struct lcrvm_geometry *geometry)
{
    struct lcrvm_geometry size;
    uint8_t *bytes = NULL;
    enum lcrvm_status status;

    if (folder == NULL)
        return misused("folder: NULL");
    if (geometry != NULL && !take_structure(&size, sizeof size, FIRST_GEOMETRY, geometry))
        return misused("geometry: no size of this structure, or a field that is not known");
    if (!enter(store))
        return not_entered();
    if (geometry == NULL)
        size = store->geometry;
    status = done(store, take_bytes(store, &size, &bytes));
    if (status == LCRVM_OK)
        status = told(make_store(folder, &size, bytes, &fault_here));
    free(bytes);
    return status;
}

/* ---- the calls */

/* Whether there are as many things as are counted. */
static bool are_there(const void *things, size_t count)
{
    return things != NULL || count == 0;
}

static struct wish wish_of(uint32_t node, const uint32_t *segments, size_t count, const uint32_t *reading,
                           size_t reading_count)
{
    return (struct wish){
        .node = node,
        .segments = segments,
        .reading = reading,
        .count = count,
        .reading_count = reading_count,
        .owner = NOBODY,
        .writes = set_of(segments, count),
        .reads = set_of(reading, reading_count),
    };
}

enum lcrvm_status lcrvm_begin(struct lcrvm_store *store, uint32_t node, uint32_t *transaction,
                              const uint32_t *segments, size_t count, const uint32_t *reading, size_t reading_count,
                              uint32_t milliseconds)
{
    struct wish wish;

    if (transaction == NULL || !are_there(segments, count) || !are_there(reading, reading_count))
        return misused("transaction, segments or reading: NULL");
    *transaction = LCRVM_NO_TRANSACTION;
    if (!enter(store))
        return not_entered();
    wish = wish_of(node, segments, count, reading, reading_count);
    wish.owner = this_thread();
    wish.has_another = has_begun(store, wish.owner, false);
    return done(store, named_of(store, begin_waiting(store, &wish, transaction, milliseconds), &wish, 0));
}

enum lcrvm_status lcrvm_begin_transaction(struct lcrvm_store *store, uint32_t node, uint32_t thread,
                                          const uint32_t *segments, size_t count, const uint32_t *reading,
                                          size_t reading_count)
{
    struct wish wish;

    if (!are_there(segments, count) || !are_there(reading, reading_count))
        return misused("segments or reading: NULL");
    wish = wish_of(node, segments, count, reading, reading_count);
    if (!enter(store))
        return not_entered();
    return done(store, named_of(store, begin_now(store, thread, &wish), &wish, thread));
}

enum lcrvm_status lcrvm_set_range(struct lcrvm_store *store, uint32_t node, uint32_t transaction, uint32_t segment,
                                  uint32_t offset, uint32_t length)
{
    struct begun *begun;
    enum lcrvm_status status;

    if (!enter_work(store, node, transaction, &begun))
        return not_entered();
    status = begun != NULL ? set_range_in(store, begun, segment, offset, length)
                           : refuse_work(store, node, transaction, segment);
    return worked(store, begun, named(store, status, node, transaction, segment));
}

enum lcrvm_status lcrvm_write(struct lcrvm_store *store, uint32_t node, uint32_t transaction, uint32_t segment,
                              uint32_t offset, const void *bytes, uint32_t length)
{
    struct begun *begun;
    enum lcrvm_status status;

    if (!are_there(bytes, length))
        return misused("bytes: NULL");
    if (!enter_work(store, node, transaction, &begun))
        return not_entered();
    status = begun != NULL ? write_in(store, begun, segment, offset, bytes, length)
                           : refuse_work(store, node, transaction, segment);
    return worked(store, begun, named(store, status, node, transaction, segment));
}

enum lcrvm_status lcrvm_put(struct lcrvm_store *store, uint32_t node, uint32_t transaction, uint32_t segment,
                            uint32_t offset, const void *bytes, uint32_t length)
{
    struct begun *begun;
    enum lcrvm_status status;

    if (!are_there(bytes, length))
        return misused("bytes: NULL");
    if (!enter_work(store, node, transaction, &begun))
        return not_entered();
    status = begun != NULL ? put_in(store, begun, segment, offset, bytes, length)
                           : refuse_work(store, node, transaction, segment);
    return worked(store, begun, named(store, status, node, transaction, segment));
}

enum lcrvm_status lcrvm_read(struct lcrvm_store *store, uint32_t node, uint32_t transaction, uint32_t segment,
                             uint32_t offset, void *bytes, uint32_t length)
{
    struct begun *begun;
    enum lcrvm_status status;

    if (!are_there(bytes, length))
        return misused("bytes: NULL");
    if (!enter_work(store, node, transaction, &begun))
        return not_entered();
    status = begun != NULL ? read_in(store, begun, segment, offset, bytes, length)
                           : refuse_work(store, node, transaction, segment);
    return worked(store, begun, named(store, status, node, transaction, segment));
}

enum lcrvm_status lcrvm_bytes(struct lcrvm_store *store, uint32_t node, uint32_t transaction, uint32_t segment,
                              const void **bytes, size_t *length)
{
    struct begun *begun;
    enum lcrvm_status status;

    if (bytes == NULL)
        return misused("bytes: NULL");
    *bytes = NULL;
    if (!enter_work(store, node, transaction, &begun))
        return not_entered();
    status = begun != NULL ? lend_image(store, begun, segment, bytes, length)
                           : refuse_work(store, node, transaction, segment);
    return worked(store, begun, named(store, status, node, transaction, segment));
}

enum lcrvm_status lcrvm_change(struct lcrvm_store *store, uint32_t node, uint32_t transaction, uint32_t segment,
                               uint32_t offset, uint32_t length, void **bytes)
{
    struct begun *begun;
    enum lcrvm_status status;

    if (bytes == NULL)
        return misused("bytes: NULL");
    *bytes = NULL;
    if (!enter_work(store, node, transaction, &begun))
        return not_entered();
    status = begun != NULL ? lend_range(store, begun, segment, offset, length, bytes)
                           : refuse_work(store, node, transaction, segment);
    return worked(store, begun, named(store, status, node, transaction, segment));
}

enum lcrvm_status lcrvm_abort_transaction(struct lcrvm_store *store, uint32_t node, uint32_t thread)
{
    enum lcrvm_status status = look_at_store(store);
    struct begun *begun;

    if (status != LCRVM_OK)
        return told(status);
    begun = take_guard(store, node, thread);
    if (begun != NULL && !store->over)
        restore_images(store, begun);
    if (!enter(store))
        status = not_entered();
    else {
        status = begun != NULL ? abort_now(store, node, thread, begun) : refuse_work(store, node, thread, 1);
        status = done(store, named(store, status, node, thread, 1));
    }
    give_guard(begun);
    return status;
}

enum lcrvm_status lcrvm_abort(struct lcrvm_store *store, uint32_t node, uint32_t *transaction)
{
    enum lcrvm_status status;

    if (transaction == NULL || *transaction == LCRVM_NO_TRANSACTION)
        return told(LCRVM_OK);
    status = lcrvm_abort_transaction(store, node, *transaction);
    if (status == LCRVM_OK || status == LCRVM_DEVICE_FAULT)
        *transaction = LCRVM_NO_TRANSACTION;
    return status;
}

/* The guard is given back before the flush: the thread's number may be that of another transaction by then.

   Makes stable what a transaction committed, and all that it may have read: whatever its node has committed by
   now. What others commit comes after it in the log, and a commit of another node is read only once it is stable. */
static enum lcrvm_status flush_after(struct lcrvm_store *store, uint32_t node, bool flush)
{
    return flush && !store->over ? flush_shared(store, node) : LCRVM_OK;
}

static enum lcrvm_status commit_and_flush(struct lcrvm_store *store, uint32_t node, uint32_t *transaction,
                                          struct begun *begun, bool flush, struct lcrvm_record *record)
{
    struct lcrvm_record placed;
    enum lcrvm_status status = commit_with_room(store, node, *transaction, begun, &placed);

    give_guard(begun);
    if (status == LCRVM_OK) {
        *transaction = LCRVM_NO_TRANSACTION;
        status = flush_after(store, node, flush);
    }
    if (status == LCRVM_OK && record != NULL)
        *record = placed;
    return status;
}

enum lcrvm_status lcrvm_commit(struct lcrvm_store *store, uint32_t node, uint32_t *transaction, bool flush,
                               struct lcrvm_record *record)
{
    struct begun *begun;
    enum lcrvm_status status;

    if (transaction == NULL)
        return misused("transaction: NULL");
    status = look_at_store(store);
    if (status != LCRVM_OK)
        return told(status);
    begun = take_guard(store, node, *transaction);
    if (enter(store)) {
        status = commit_and_flush(store, node, transaction, begun, flush, record);
        status = done(store, named(store, status, node, *transaction, 1));
    } else {
        give_guard(begun);
        status = not_entered();
    }
    if (status == LCRVM_DEVICE_FAULT)
        *transaction = LCRVM_NO_TRANSACTION;
    return status;
}

/* Commits, and flushes whatever became of the commit, which is answered first. */
static enum lcrvm_status end_and_flush(struct lcrvm_store *store, uint32_t node, uint32_t thread, struct begun *begun,
                                       bool flush, struct lcrvm_record *record)
{
    struct lcrvm_record placed;
    enum lcrvm_status ended = commit_with_room(store, node, thread, begun, &placed), flushed;
    const struct lcrvm_fault why = fault_here;

    give_guard(begun);
    flushed = flush_after(store, node, flush);
    if (store->over)
        return is_over(store);
    if (ended == LCRVM_OK && flushed == LCRVM_OK && record != NULL)
        *record = placed;
    if (ended == LCRVM_OK)
        return flushed;
    fault_here = why;
    return ended;
}

enum lcrvm_status lcrvm_end_transaction(struct lcrvm_store *store, uint32_t node, uint32_t thread, bool flush,
                                        struct lcrvm_record *record)
{
    enum lcrvm_status status = look_at_store(store);
    struct begun *begun;

    if (status != LCRVM_OK)
        return told(status);
    begun = take_guard(store, node, thread);
    if (enter(store))
        return done(store, named(store, end_and_flush(store, node, thread, begun, flush, record), node, thread, 1));
    give_guard(begun);
    return not_entered();
}

enum lcrvm_status lcrvm_flush(struct lcrvm_store *store, uint32_t node, uint64_t *records)
{
    enum lcrvm_status status;
    uint64_t known;

    if (!enter(store))
        return not_entered();
    known = node < MOST_NODES ? store->records[node] : 0;
    status = done(store, named(store, flush_shared(store, node), node, 0, 1));
    if (status == LCRVM_OK && records != NULL)
        *records = known;
    return status;
}

static enum lcrvm_status truncate_alone(struct lcrvm_store *store, uint32_t node, uint64_t *rounds)
{
    enum lcrvm_status status = take_files(store);

    if (status != LCRVM_OK)
        return status;
    status = truncate_now(store, node);
    if (status == LCRVM_OK && rounds != NULL)
        *rounds = store->rounds[node];
    give_files(store);
    return status;
}

enum lcrvm_status lcrvm_truncate(struct lcrvm_store *store, uint32_t node, uint64_t *rounds)
{
    if (!enter(store))
        return not_entered();
    return done(store, named(store, truncate_alone(store, node, rounds), node, 0, 1));
}

enum lcrvm_status lcrvm_trim(struct lcrvm_store *store, uint32_t node, uint64_t *count)
{
    if (!enter(store))
        return not_entered();
    return done(store, named(store, trim_now(store, node, count), node, 0, 1));
}

/* Counts what stands beside the store's own counters too. */
static enum lcrvm_status count_node(const struct lcrvm_store *store, uint32_t node, struct lcrvm_counters *counters)
{
    struct lcrvm_counters now;
    const uint32_t size = counters->size;

    if (node >= store->geometry.nodes)
        return failed(LCRVM_UNKNOWN, "");
    now = store->counted[node];
    for (uint32_t thread = 0; thread < store->geometry.threads; thread++)
        now.open += store->begun[node][thread].open;
    now.commits = store->records[node];
    now.truncations = store->rounds[node];
    memcpy(counters, &now, size < sizeof now ? size : sizeof now);
    counters->size = size;
    return LCRVM_OK;
}

enum lcrvm_status lcrvm_stats(struct lcrvm_store *store, uint32_t node, struct lcrvm_counters *counters)
{
    if (counters == NULL)
        return misused("counters: NULL");
    if (!is_room(counters->size, FIRST_COUNTERS))
        return misused("counters: no size of this structure");
    if (!enter(store))
        return not_entered();
    return done(store, named(store, count_node(store, node, counters), node, 0, 1));
}

enum lcrvm_status lcrvm_leave(struct lcrvm_store *store, uint32_t node, uint32_t segment)
{
    struct answer answer = {0};

    if (!enter(store))
        return not_entered();
    lcrvm_session_leave(&store->session, bounded(node), segment, &answer);
    return done(store, named(store, answered(store, &answer), node, 0, segment));
}

enum lcrvm_status lcrvm_arrive(struct lcrvm_store *store, uint32_t node, uint32_t segment)
{
    struct answer answer = {0};

    if (!enter(store))
        return not_entered();
    lcrvm_session_arrive(&store->session, bounded(node), segment, &answer);
    return done(store, named(store, answered(store, &answer), node, 0, segment));
}

static enum lcrvm_delivery delivery_of(uint32_t reply)
{
    return reply == APPLIED ? LCRVM_APPLIED : reply == HELD_BACK ? LCRVM_HELD_BACK : LCRVM_IGNORED;
}

enum lcrvm_status lcrvm_deliver(struct lcrvm_store *store, uint32_t node, uint64_t record, uint32_t segment,
                                uint32_t to, struct lcrvm_delivered *delivered)
{
    struct answer answer = {0};
    enum lcrvm_status status;

    if (!enter(store))
        return not_entered();
    lcrvm_session_deliver(&store->session, bounded(node), record, segment, bounded(to), &answer);
    status = named(store, answered(store, &answer), node, 0, segment);
    status = done(store, named(store, status, to, 0, segment));
    if (status == LCRVM_OK && delivered != NULL)
        *delivered = (struct lcrvm_delivered){.delivery = delivery_of(answer.reply), .applied = answer.count};
    return status;
}

/* ---- what is asked of no session */

const char *lcrvm_version(void)
{
    return LCRVM_VERSION;
}

const char *lcrvm_status_text(enum lcrvm_status status)
{
    return text_of(status);
}

const struct lcrvm_fault *lcrvm_fault_of(const struct lcrvm_store *store)
{
    (void)store;
    return &fault_told;
}

const struct lcrvm_geometry *lcrvm_geometry_of(const struct lcrvm_store *store)
{
    return store != NULL ? &store->geometry : NULL;
}
