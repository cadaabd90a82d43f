/* The work of open transactions on the images of segments, under the guard of the transaction alone: nobody else has
   the bytes of a segment that it has locked. The store hears of it at the transaction's end, in one hold of its lock.
   What is answered is what the store would answer.

   Each segment has one image. It holds what the transaction sees that has locked the segment for writing, and else
   what is committed. A transaction's draft says which ranges it has set, and keeps the bytes that they had. */
#ifndef LCRVM_WORKING_H
#define LCRVM_WORKING_H

#include "store.h"

/* The image of a segment; of a number that is none, bytes of no length, which the draft refuses. */
static uint8_t *image_of(const struct lcrvm_store *store, uint32_t segment, size_t *len)
{
    static uint8_t none;
    const bool is_there = is_within(segment, 1, store->geometry.segments);

    *len = is_there ? image_len_of(&store->geometry) : 0;
    return is_there ? store->images + (segment - 1) * *len : &none;
}

/* The open transaction of a thread, with its guard: NULL where it has none, or the store has no such thread. */
static struct begun *take_guard(struct lcrvm_store *store, uint32_t node, uint32_t thread)
{
    struct begun *begun;

    if (node >= store->geometry.nodes || thread >= store->geometry.threads)
        return NULL;
    begun = &store->begun[node][thread];
    pthread_mutex_lock(&begun->guard);
    if (atomic_load_explicit(&begun->open, memory_order_acquire))
        return begun;
    pthread_mutex_unlock(&begun->guard);
    return NULL;
}

static void give_guard(struct begun *begun)
{
    if (begun != NULL)
        pthread_mutex_unlock(&begun->guard);
}

/* Whether another thread is within a call of some transaction. */
static bool is_guard_held(struct lcrvm_store *store)
{
    for (uint32_t node = 0; node < store->geometry.nodes; node++)
        for (uint32_t thread = 0; thread < store->geometry.threads; thread++) {
            if (pthread_mutex_trylock(&store->begun[node][thread].guard) != 0)
                return true;
            pthread_mutex_unlock(&store->begun[node][thread].guard);
        }
    return false;
}

static enum lcrvm_status set_range_in(const struct lcrvm_store *store, struct begun *begun, uint32_t segment,
                                      uint32_t offset, uint32_t length)
{
    struct answer answer = {0};
    size_t len;
    const uint8_t *image = image_of(store, segment, &len);

    lcrvm_draft_set_range(&begun->draft, segment, image, len, offset, length, &answer);
    return refused(&answer);
}

static enum lcrvm_status write_in(const struct lcrvm_store *store, struct begun *begun, uint32_t segment,
                                  uint32_t offset, const void *bytes, uint32_t length)
{
    struct answer answer = {0};
    size_t len;
    uint8_t *image = image_of(store, segment, &len);

    if (length == 0)
        return LCRVM_OK;
    lcrvm_draft_write(&begun->draft, segment, image, len, offset, bytes, length, &answer);
    return refused(&answer);
}

static enum lcrvm_status put_in(const struct lcrvm_store *store, struct begun *begun, uint32_t segment,
                                uint32_t offset, const void *bytes, uint32_t length)
{
    enum lcrvm_status status = length > 0 ? set_range_in(store, begun, segment, offset, length) : LCRVM_OK;

    return status == LCRVM_OK ? write_in(store, begun, segment, offset, bytes, length) : status;
}

static enum lcrvm_status read_in(const struct lcrvm_store *store, struct begun *begun, uint32_t segment,
                                 uint32_t offset, void *bytes, uint32_t length)
{
    struct answer answer = {0};
    uint8_t none = 0;
    size_t len;
    const uint8_t *image = image_of(store, segment, &len);

    lcrvm_draft_read(&begun->draft, segment, image, len, offset, length > 0 ? bytes : &none, length, &answer);
    return refused(&answer);
}

/* Hands out the image of a segment that the transaction has locked. */
static enum lcrvm_status lend_image(const struct lcrvm_store *store, struct begun *begun, uint32_t segment,
                                    const void **bytes, size_t *length)
{
    enum lcrvm_status status = read_in(store, begun, segment, 0, NULL, 0);
    size_t len;
    const uint8_t *image = image_of(store, segment, &len);

    if (status != LCRVM_OK)
        return status;
    *bytes = image;
    if (length != NULL)
        *length = len;
    return LCRVM_OK;
}

/* Sets a range, and hands out where it stands. */
static enum lcrvm_status lend_range(const struct lcrvm_store *store, struct begun *begun, uint32_t segment,
                                    uint32_t offset, uint32_t length, void **bytes)
{
    enum lcrvm_status status = set_range_in(store, begun, segment, offset, length);
    size_t len;
    uint8_t *image = image_of(store, segment, &len);

    if (status == LCRVM_OK)
        *bytes = image + offset;
    return status;
}

/* Gives the images back what they had before the transaction. */
static void restore_images(const struct lcrvm_store *store, struct begun *begun)
{
    for (uint32_t segment = 1; segment <= store->geometry.segments; segment++)
        if ((begun->writing >> segment & 1) != 0) {
            size_t len;
            uint8_t *image = image_of(store, segment, &len);

            lcrvm_draft_restore(&begun->draft, segment, image, len);
        }
}

/* Hands over to the session what the transaction has set, range by range, with the bytes that stand there. */
static enum lcrvm_status hand_over(struct lcrvm_store *store, uint32_t node, uint32_t thread, struct begun *begun)
{
    struct answer answer = {0};
    enum lcrvm_status status = LCRVM_OK;
    uint32_t segment;
    size_t len;

    while (status == LCRVM_OK && (segment = lcrvm_draft_next(&begun->draft)) != 0) {
        const uint8_t *image = image_of(store, segment, &len);

        lcrvm_session_hand_over(&store->session, bounded(node), bounded(thread), &begun->draft, image, len, &answer);
        status = answered(store, &answer);
    }
    return status;
}

/* Ends the transaction in the session. Where that is refused it is begun again there, with the same locks: to its
   thread it is open as before. */
static enum lcrvm_status end_in_session(struct lcrvm_store *store, uint32_t node, uint32_t thread, struct begun *begun,
                                        struct answer *answer)
{
    enum lcrvm_status status = hand_over(store, node, thread, begun);
    struct answer again = {0};

    if (status == LCRVM_OK) {
        lcrvm_session_end(&store->session, bounded(node), bounded(thread), &begun->draft, answer);
        status = answered(store, answer);
    }
    if (status != LCRVM_OK)
        lcrvm_session_begin_again(&store->session, bounded(node), bounded(thread), &begun->draft, &again);
    return status;
}

/* Fills the image of a segment with what is committed, by a transaction of the node that has its token. */
static enum lcrvm_status fill_image(struct lcrvm_store *store, uint32_t segment)
{
    static const uint32_t none = 0;
    struct answer answer = {0};
    uint16_t thread = 0;
    uint32_t node = 0;
    size_t len;
    uint8_t *image = image_of(store, segment, &len);
    enum lcrvm_status status;

    do {
        lcrvm_session_begin_free(&store->session, bounded(node), &none, 0, &segment, 1, &thread, &answer);
        status = refused(&answer);
    } while (status == LCRVM_NOT_HERE && ++node < store->geometry.nodes);
    if (status != LCRVM_OK)
        return status;
    lcrvm_session_read(&store->session, bounded(node), thread, segment, 0, image, len, &answer);
    status = refused(&answer);
    lcrvm_session_abort(&store->session, bounded(node), thread, &answer);
    return status;
}

/* Makes the images of a store that has come up, and the drafts of its threads. */
static enum lcrvm_status make_images(struct lcrvm_store *store)
{
    const size_t len = image_len_of(&store->geometry);
    enum lcrvm_status status = LCRVM_OK;

    store->images = malloc(store->geometry.segments * len);
    if (store->images == NULL)
        return failed(LCRVM_NO_MEMORY, "");
    for (uint32_t segment = 1; segment <= store->geometry.segments && status == LCRVM_OK; segment++)
        status = fill_image(store, segment);
    for (uint32_t node = 0; node < store->geometry.nodes; node++)
        for (uint32_t thread = 0; thread < store->geometry.threads && status == LCRVM_OK; thread++)
            if (lcrvm_draft_new((uint32_t)len, &store->begun[node][thread].draft) != LCRVM_OK)
                status = failed(LCRVM_NO_MEMORY, "");
    return status;
}

static void free_images(struct lcrvm_store *store)
{
    for (uint32_t node = 0; node < MOST_NODES; node++)
        for (uint32_t thread = 0; thread < MOST_THREADS; thread++)
            lcrvm_draft_free(store->begun[node][thread].draft);
    free(store->images);
}

#endif
