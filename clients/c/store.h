/* A store that is open, and the events of its session, whose calls of areas are made on their files. */
#ifndef LCRVM_STORE_H
#define LCRVM_STORE_H

#include "descriptors.h"
#include "session.h"
#include "statuses.h"
#include "store_files.h"
#include "transactions.h"

#include <errno.h>
#include <pthread.h>
#include <stdatomic.h>
#include <stdlib.h>
#include <time.h>

struct waiter;
struct turn;

struct lcrvm_store {
    struct handle session;
    struct descriptors kept;
    struct lcrvm_geometry geometry, stated; /* by the folder; of no nodes where it states none */
    struct timespec names;                  /* when those in the folder changed last, as the opening found it */
    unsigned forks;                         /* as many as had led to this process when it opened the store */
    atomic_bool over;                       /* a file has failed: each call answers why */
    struct lcrvm_fault why;

    atomic_uint within;     /* so many calls are on their way, of whatever thread */
    pthread_mutex_t events; /* held around each event, and while what is below is read or changed */
    bool busy;              /* a thread is at the files: who is to call one waits */
    bool shared;            /* that thread gives `events` back while it syncs */
    struct turn *turns;     /* who waits for the files, in turn */
    struct waiter *waiters; /* who waits to begin, in turn */

    struct lcrvm_counters counted[MOST_NODES];
    uint64_t records[MOST_NODES]; /* the commits of each node that have one */
    uint64_t acked[MOST_NODES];   /* so many of them are stable */
    uint64_t rounds[MOST_NODES];
    struct begun begun[MOST_NODES][MOST_THREADS];
    unsigned owned; /* so many of them are open that lcrvm_begin began */

    uint32_t areas;
    uint64_t calls[MOST_AREAS]; /* of each area, those that its file has had */
    bool stable[MOST_AREAS];    /* of each file, whether all that was written to it is */
    uint8_t *bytes;             /* room for what one call writes */
    /* Of each segment, what its writer sees, or else what is committed: it is touched under the guard of who has it
       locked, which it gets and gives back under the lock of events. */
    uint8_t *images;
};

/* Who wants the lock spins before it sleeps: so many rounds, each with twice the pauses of the one before, up to so
   many. That is longer than most events take, and far less than a truncation. */
enum { SPIN_ROUNDS = 40, LEAST_PAUSES = 4, MOST_PAUSES = 64 };

/* Tells the processor that the thread spins. */
static void pause_once(void)
{
#if defined(__x86_64__) || defined(__i386__)
    __builtin_ia32_pause();
#elif defined(__aarch64__)
    __asm__ volatile("yield");
#endif
}

static void lock_events(struct lcrvm_store *store)
{
    unsigned pauses = LEAST_PAUSES;

    for (int round = 0; round < SPIN_ROUNDS; round++) {
        if (pthread_mutex_trylock(&store->events) == 0)
            return;
        for (unsigned pause = 0; pause < pauses; pause++)
            pause_once();
        pauses = pauses < MOST_PAUSES ? 2 * pauses : pauses;
    }
    pthread_mutex_lock(&store->events);
}

/* Each call of a store that is over answers why it is. */
static enum lcrvm_status is_over(const struct lcrvm_store *store)
{
    fault_here = store->why;
    return store->why.status;
}

static enum lcrvm_status refused(const struct answer *answer)
{
    if (answer->status == LCRVM_OK)
        return LCRVM_OK;
    fault_here = (struct lcrvm_fault){
        .size = sizeof fault_here,
        .status = (enum lcrvm_status)answer->status,
        .has_area = answer->has_area,
        .segment = answer->segment,
        .sequence = answer->sequence,
        .applied = answer->applied,
        .area = answer->area,
        .words = answer->words,
        .tail = answer->tail,
        .need = answer->need,
    };
    return fault_here.status;
}

static bool write_file(struct lcrvm_store *store, uint32_t place, const uint8_t *bytes, size_t len, uint64_t at)
{
    if (len > 0)
        store->stable[place] = false;
    return write_whole(store->kept.of[place], bytes, len, at);
}

static bool write_area(struct lcrvm_store *store, uint32_t place, size_t at, size_t len)
{
    return lcrvm_session_bytes(&store->session, place, at, store->bytes, len) &&
           write_file(store, place, store->bytes, len, at);
}

/* Others commit in memory meanwhile, where the thread that is at the files lets them; none of them calls a file. */
static bool sync_area(struct lcrvm_store *store, uint32_t place)
{
    bool synced;
    int reason;

    if (store->stable[place])
        return true;
    if (store->shared)
        pthread_mutex_unlock(&store->events);
    synced = make_stable(store->kept.of[place], fdatasync);
    reason = errno;
    if (store->shared)
        lock_events(store);
    store->stable[place] = synced;
    errno = reason;
    return synced;
}

/* Makes on the file of an area the call that was made on the area. */
static bool mirror_call(struct lcrvm_store *store, uint32_t place, const struct last_call *call)
{
    switch (call->kind) {
    case WRITE:
        return write_area(store, place, call->at, call->len);
    case SYNC:
        return sync_area(store, place);
    default:
        return true;
    }
}

/* Leaves a mark for whoever opens the store next. It takes no descriptor, of which the caller may have none left. */
static void leave_mark(int folder, struct lcrvm_fault *fault)
{
    if (mknodat(folder, mark, S_IFREG | 0666, 0) != 0 && errno != EEXIST)
        add_line(fault, mark, "not made: unmount the file system before the store is opened again");
}

/* The file of an area has failed: the store is given up. */
static enum lcrvm_status given_up(struct lcrvm_store *store, uint32_t place)
{
    char name[NAME_BYTES];

    name_of(&store->geometry, place, name);
    file_failed(&store->why, name);
    leave_mark(store->kept.of[FOLDER], &store->why);
    lcrvm_session_give_up(&store->session);
    store->over = true;
    return is_over(store);
}

/* After an event that calls no area. */
static enum lcrvm_status answered(const struct lcrvm_store *store, const struct answer *answer)
{
    return store->over ? is_over(store) : refused(answer);
}

/* After an event that may have called the area at this place: the same is called of its file, and only then the
   answer is given. Of no area of the store nothing was called. */
static enum lcrvm_status mirrored(struct lcrvm_store *store, uint32_t place, const struct answer *answer)
{
    struct last_call call = {0};

    if (store->over)
        return is_over(store);
    if (place < store->areas && lcrvm_session_last_call(&store->session, place, &call) &&
        call.calls != store->calls[place]) {
        errno = EIO;
        if (call.calls - store->calls[place] != 1 || !mirror_call(store, place, &call))
            return given_up(store, place);
        store->calls[place] = call.calls;
    }
    return refused(answer);
}

/* The same after an event of a truncation, which may have called any area. */
static enum lcrvm_status all_mirrored(struct lcrvm_store *store, const struct answer *answer)
{
    enum lcrvm_status status = LCRVM_OK;

    for (uint32_t place = 0; place < store->areas && !store->over; place++)
        status = mirrored(store, place, answer);
    return status;
}

#endif
