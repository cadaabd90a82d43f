/* How logs are flushed and emptied. One thread at a time is at the files; in a flush it lets others commit in
   memory while it syncs, and who finds its commits stable after that sync returns. */
#ifndef LCRVM_LOGS_H
#define LCRVM_LOGS_H

#include "store.h"

/* ---- the files */

/* Who waits for the files: for its turn at them, or until so many records of the node are stable. */
struct turn {
    uint32_t node;
    uint64_t wanted; /* none: it wants the files themselves */
    bool has_come, is_done;
    pthread_cond_t said;
    struct turn *next;
};

enum { THE_FILES = 0 };

/* Whether a thread that waits has what it wants without a turn: its records are stable, or the store is over. */
static bool needs_no_turn(const struct lcrvm_store *store, const struct turn *turn)
{
    return store->over || (turn->wanted != THE_FILES && store->acked[turn->node] >= turn->wanted);
}

/* Lets those go on who need no turn any more, and gives the files to the first of the others. */
static void give_files(struct lcrvm_store *store)
{
    struct turn **at = &store->turns, *turn;

    while ((turn = *at) != NULL)
        if (needs_no_turn(store, turn)) {
            *at = turn->next;
            turn->is_done = true;
            pthread_cond_signal(&turn->said);
        } else
            at = &turn->next;
    turn = store->turns;
    store->busy = turn != NULL;
    if (turn != NULL) {
        store->turns = turn->next;
        turn->has_come = true;
        pthread_cond_signal(&turn->said);
    }
}

/* Waits for a turn at the files, after all who came before: true where it has come, and the thread is at the files.
   Else so many records of the node are stable, or the store is over. */
static bool take_turn(struct lcrvm_store *store, uint32_t node, uint64_t wanted)
{
    struct turn turn = {.node = node, .wanted = wanted, .has_come = !store->busy};
    struct turn **last = &store->turns;

    store->busy = true;
    if (turn.has_come)
        return true;
    pthread_cond_init(&turn.said, NULL);
    while (*last != NULL)
        last = &(*last)->next;
    *last = &turn;
    while (!turn.has_come && !turn.is_done)
        pthread_cond_wait(&turn.said, &store->events);
    pthread_cond_destroy(&turn.said);
    return turn.has_come;
}

/* Waits until no other thread is at the files. */
static enum lcrvm_status take_files(struct lcrvm_store *store)
{
    return take_turn(store, 0, THE_FILES) ? LCRVM_OK : is_over(store);
}

/* ---- flushes */

static enum lcrvm_status flush_now(struct lcrvm_store *store, uint32_t node)
{
    struct answer answer = {0};
    const uint64_t before = store->acked[node];
    enum lcrvm_status status;

    do {
        lcrvm_session_flush_step(&store->session, bounded(node), &answer);
        status = mirrored(store, node, &answer);
    } while (status == LCRVM_OK && answer.reply == STEPPED);
    if (status != LCRVM_OK)
        return status;
    store->acked[node] = answer.reply == ACKED ? answer.count : store->records[node];
    store->counted[node].flushes += store->acked[node] > before;
    store->counted[node].flushed += store->acked[node] - before;
    return LCRVM_OK;
}

/* Makes stable what the node has committed so far. Who comes while another thread flushes waits for it, and then the
   first of those who wait flushes for all. */
static enum lcrvm_status flush_shared(struct lcrvm_store *store, uint32_t node)
{
    uint64_t wanted;
    enum lcrvm_status status = LCRVM_OK;

    if (node >= store->geometry.nodes)
        return failed(LCRVM_UNKNOWN, "");
    wanted = store->records[node];
    if (store->acked[node] >= wanted)
        return LCRVM_OK;
    if (!take_turn(store, node, wanted))
        return store->over ? is_over(store) : LCRVM_OK;
    store->shared = true;
    while (status == LCRVM_OK && store->acked[node] < wanted)
        status = flush_now(store, node);
    store->shared = false;
    give_files(store);
    return status;
}

/* ---- truncations */

static enum lcrvm_status trim_now(struct lcrvm_store *store, uint32_t node, uint64_t *count)
{
    struct answer answer = {0};
    enum lcrvm_status status;

    lcrvm_session_trim(&store->session, bounded(node), &answer);
    status = answered(store, &answer);
    if (status == LCRVM_OK && count != NULL)
        *count = answer.count;
    return status;
}

/* Empties the log of a node, by a thread that is at the files. The lock is held all the while. */
static enum lcrvm_status truncate_now(struct lcrvm_store *store, uint32_t node)
{
    struct answer answer = {0};
    enum lcrvm_status status;

    do {
        lcrvm_session_truncate_step(&store->session, bounded(node), &answer);
        status = all_mirrored(store, &answer);
    } while (status == LCRVM_OK && answer.reply == STEPPED);
    if (status != LCRVM_OK)
        return status;
    store->acked[node] = store->records[node];
    store->rounds[node] += answer.reply == RESET;
    store->counted[node].log_words = 0;
    return trim_now(store, node, NULL);
}

#endif
