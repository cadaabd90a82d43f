/* Transactions that wait to begin. They are served in the order in which they came, by who ends one: no later one
   takes a segment that an earlier one waits for. A thread that has a transaction already need not wait for its
   turn, since those in front of it may wait for that one. */
#ifndef LCRVM_WAITING_H
#define LCRVM_WAITING_H

#include "store.h"
#include "times.h"

#include <time.h>

/* A transaction that is to begin. */
struct wish {
    uint32_t node;
    const uint32_t *segments, *reading;
    size_t count, reading_count;
    uint64_t owner;
    uint32_t writes, reads; /* the same segments as sets */
    bool has_another;       /* the owner has a transaction that is open */
};

struct waiter {
    struct wish wish;
    bool served, is_stuck;
    enum lcrvm_status status;
    struct lcrvm_fault fault;
    uint32_t thread;
    pthread_cond_t turn;
    struct waiter *next;
};

/* The number of the calling thread, which no other thread has or has had. */
static uint64_t this_thread(void)
{
    static atomic_uint_fast64_t last;
    static _Thread_local uint64_t number;

    if (number == NOBODY)
        number = atomic_fetch_add(&last, 1) + 1;
    return number;
}

/* Begins the draft of a transaction that the session has begun. It has room for as many locks as a store has
   segments. */
static enum lcrvm_status begin_draft(struct lcrvm_store *store, uint32_t thread, const struct wish *wish)
{
    struct begun *begun = &store->begun[wish->node][thread];
    struct answer answer = {0};

    if (lcrvm_session_lock_draft(&store->session, bounded(wish->node), bounded(thread), &begun->draft) != LCRVM_OK) {
        lcrvm_session_abort(&store->session, bounded(wish->node), bounded(thread), &answer);
        return failed(LCRVM_NO_MEMORY, "");
    }
    begun->writing = wish->writes;
    begun->reading = wish->reads & ~wish->writes;
    begun->owner = wish->owner;
    atomic_store_explicit(&begun->open, true, memory_order_release);
    store->owned += wish->owner != NOBODY;
    return LCRVM_OK;
}

/* The segments of a wish, of which a slice of nothing has an address all the same. */
static const uint32_t *listed(const uint32_t *segments, size_t count)
{
    static const uint32_t none = 0;

    return count > 0 ? segments : &none;
}

/* Begins a transaction of a thread now, or not. It takes no memory. */
static enum lcrvm_status begin_now(struct lcrvm_store *store, uint32_t thread, const struct wish *wish)
{
    struct answer answer = {0};
    enum lcrvm_status status;

    lcrvm_session_begin(&store->session, bounded(wish->node), bounded(thread), listed(wish->segments, wish->count),
                        wish->count, listed(wish->reading, wish->reading_count), wish->reading_count, &answer);
    status = answered(store, &answer);
    return status == LCRVM_OK ? begin_draft(store, thread, wish) : status;
}

static enum lcrvm_status busy_at(uint32_t segments)
{
    uint32_t list_of_them[MOST_SEGMENTS];

    failed(LCRVM_BUSY, "");
    if (list_of(segments, list_of_them) > 0)
        fault_here.segment = list_of_them[0];
    return LCRVM_BUSY;
}

/* Begins a transaction by the lowest thread of the node that has none now, or not. It takes no memory. */
static enum lcrvm_status begin_free(struct lcrvm_store *store, const struct wish *wish, uint32_t *thread)
{
    struct answer answer = {0};
    uint16_t free = 0;
    enum lcrvm_status status;

    lcrvm_session_begin_free(&store->session, bounded(wish->node), listed(wish->segments, wish->count), wish->count,
                             listed(wish->reading, wish->reading_count), wish->reading_count, &free, &answer);
    status = answered(store, &answer);
    if (status == LCRVM_OUT_OF_TURN)
        return busy_at(0);
    if (status != LCRVM_OK)
        return status;
    *thread = free;
    return begin_draft(store, free, wish);
}

/* The same, unless it would take what these, which are in front of it, wait for. */
static enum lcrvm_status try_begin(struct lcrvm_store *store, const struct wish *wish, uint32_t writing,
                                   uint32_t reading, uint32_t *thread)
{
    uint32_t wanted = contested(wish->writes, wish->reads, writing, reading);

    return wanted != 0 && !wish->has_another ? busy_at(wanted) : begin_free(store, wish, thread);
}

/* Begins what waits, as far as it can, in turn; of a store that is over all are told so. */
static void serve_waiters(struct lcrvm_store *store)
{
    struct waiter **at = &store->waiters;
    struct lcrvm_fault kept;
    uint32_t writing = 0, reading = 0;

    if (*at == NULL)
        return;
    kept = fault_here;
    while (*at != NULL) {
        struct waiter *waiter = *at;

        waiter->status = store->over ? is_over(store)
                                     : try_begin(store, &waiter->wish, writing, reading, &waiter->thread);
        waiter->fault = fault_here;
        if (waiter->status == LCRVM_BUSY) {
            writing |= waiter->wish.writes;
            reading |= waiter->wish.reads;
            at = &waiter->next;
        } else {
            waiter->served = true;
            *at = waiter->next;
            pthread_cond_signal(&waiter->turn);
        }
    }
    fault_here = kept;
}

/* Begins a transaction that comes now, after all that wait. */
static enum lcrvm_status begin_in_turn(struct lcrvm_store *store, const struct wish *wish, uint32_t *thread)
{
    uint32_t writing = 0, reading = 0;

    for (const struct waiter *waiter = store->waiters; waiter != NULL; waiter = waiter->next) {
        writing |= waiter->wish.writes;
        reading |= waiter->wish.reads;
    }
    return try_begin(store, wish, writing, reading, thread);
}

/* Whether a thread has a transaction that lcrvm_begin began, or where `others`, whether another thread has one. */
static bool has_begun(const struct lcrvm_store *store, uint64_t owner, bool others)
{
    for (uint32_t node = 0; store->owned > 0 && node < store->geometry.nodes; node++)
        for (uint32_t thread = 0; thread < store->geometry.threads; thread++) {
            const struct begun *begun = &store->begun[node][thread];

            if (begun->open && begun->owner != NOBODY && (begun->owner == owner) != others)
                return true;
        }
    return false;
}

/* ---- who waits for itself */

/* Whether a thread goes on no sooner than the owner: it is the owner, or it waits and is thought stuck. */
static bool is_held_up(const struct lcrvm_store *store, uint64_t thread, uint64_t owner)
{
    if (thread == NOBODY || thread == owner)
        return thread != NOBODY;
    for (const struct waiter *waiter = store->waiters; waiter != NULL; waiter = waiter->next)
        if (waiter->wish.owner == thread)
            return waiter->is_stuck;
    return false;
}

/* Whether a wish is granted no sooner than the owner goes on: a thread that is held up has one of its segments, or
   all threads of the node are taken by such. */
static bool is_stuck(const struct lcrvm_store *store, const struct wish *wish, uint64_t owner)
{
    bool all_wait = true;

    for (uint32_t node = 0; node < store->geometry.nodes; node++)
        for (uint32_t thread = 0; thread < store->geometry.threads; thread++) {
            const struct begun *begun = &store->begun[node][thread];
            bool waits = begun->open && is_held_up(store, begun->owner, owner);

            if (waits && contested(wish->writes, wish->reads, begun->writing, begun->reading) != 0)
                return true;
            if (node == wish->node && !waits)
                all_wait = false;
        }
    return all_wait;
}

/* Takes one waiter out of those that are thought stuck, if one of them can go on without the owner. */
static bool frees_one(struct lcrvm_store *store, uint64_t owner)
{
    for (struct waiter *waiter = store->waiters; waiter != NULL; waiter = waiter->next)
        if (waiter->is_stuck && !is_stuck(store, &waiter->wish, owner)) {
            waiter->is_stuck = false;
            return true;
        }
    return false;
}

/* Whether the owner would wait for itself. Without a transaction nobody waits for it. All waiters that have a
   transaction are thought stuck first, and each that can go on is taken out, until none is. */
static bool waits_for_itself(struct lcrvm_store *store, const struct wish *wish)
{
    if (!wish->has_another)
        return false;
    for (struct waiter *waiter = store->waiters; waiter != NULL; waiter = waiter->next)
        waiter->is_stuck = waiter->wish.has_another;
    while (frees_one(store, wish->owner))
        continue;
    return is_stuck(store, wish, wish->owner);
}

/* ---- waiting */

static void init_condition(pthread_cond_t *condition)
{
    pthread_condattr_t attributes;

    pthread_condattr_init(&attributes);
    pthread_condattr_setclock(&attributes, CLOCK_MONOTONIC);
    pthread_cond_init(condition, &attributes);
    pthread_condattr_destroy(&attributes);
}

/* Counts a wait that began at this time. */
static void count_wait(struct lcrvm_counters *counted, const struct timespec *begun)
{
    const uint64_t waited = microseconds_since(begun);

    counted->waits++;
    if (waited > counted->longest_wait)
        counted->longest_wait = waited;
}

/* Waits until the waiter is served, or the time is over. */
static void wait_for_turn(struct lcrvm_store *store, struct waiter *waiter, uint32_t milliseconds)
{
    const struct timespec begun = time_after(0), until = time_after(milliseconds);
    int ended = 0;

    while (!waiter->served && ended == 0) {
        if (milliseconds == UINT32_MAX)
            pthread_cond_wait(&waiter->turn, &store->events);
        else
            ended = pthread_cond_timedwait(&waiter->turn, &store->events, &until);
    }
    if (waiter->wish.node < store->geometry.nodes)
        count_wait(&store->counted[waiter->wish.node], &begun);
}

static void take_out(struct lcrvm_store *store, const struct waiter *waiter)
{
    struct waiter **at = &store->waiters;

    while (*at != waiter)
        at = &(*at)->next;
    *at = waiter->next;
}

/* Waits after all others; what the first attempt answered is in fault_here. */
static enum lcrvm_status wait_to_begin(struct lcrvm_store *store, const struct wish *wish, uint32_t *thread,
                                       uint32_t milliseconds)
{
    struct waiter waiter = {.wish = *wish, .status = LCRVM_BUSY, .fault = fault_here};
    struct waiter **last = &store->waiters;

    init_condition(&waiter.turn);
    while (*last != NULL)
        last = &(*last)->next;
    *last = &waiter;
    wait_for_turn(store, &waiter, milliseconds);
    if (!waiter.served) {
        take_out(store, &waiter);
        serve_waiters(store);
    }
    pthread_cond_destroy(&waiter.turn);
    if (waiter.status == LCRVM_OK)
        *thread = waiter.thread;
    else
        fault_here = waiter.fault;
    return waiter.status;
}

static enum lcrvm_status begin_waiting(struct lcrvm_store *store, const struct wish *wish, uint32_t *thread,
                                       uint32_t milliseconds)
{
    enum lcrvm_status status = begin_in_turn(store, wish, thread);

    if (status != LCRVM_BUSY || milliseconds == 0 || waits_for_itself(store, wish))
        return status;
    return wait_to_begin(store, wish, thread, milliseconds);
}

#endif
