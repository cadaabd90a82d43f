/* What is known of a store beside its session: its size, and what its open transactions have locked. */
#ifndef LCRVM_TRANSACTIONS_H
#define LCRVM_TRANSACTIONS_H

#include "../../include/lcrvm.h"
#include "session.h"

#include <pthread.h>
#include <stdatomic.h>

enum {
    MOST_NODES = 8,
    MOST_THREADS = 16,
    MOST_SEGMENTS = 16,
    MOST_PAGES = 1024,
    LEAST_WORDS = 64,
    MOST_WORDS = 4096,
    MOST_AREAS = MOST_NODES + MOST_SEGMENTS,
    WORD_BYTES = 8,
    PAGE_BYTES = 256,
    PAGE_AREA_BYTES = 544, /* a page in its file, which has two slots for it */
    CACHE_LINE = 64,
    NOBODY = 0 /* whose transactions those of lcrvm_begin_transaction are */
};

/* The transaction of a thread of a node. Its work on the images of segments is done under the guard alone. */
struct begun {
    _Alignas(CACHE_LINE) pthread_mutex_t guard; /* held within each call of the transaction */
    struct handle draft;                        /* what it has locked, and what it has set of the images */
    atomic_bool open;                           /* set last where it begins; it ends under the guard */
    uint32_t writing, reading; /* what it locked, a bit a segment: who waits for it is told by these */
    uint64_t owner;            /* the number of the thread that began it */
};

/* ---- sizes */

static const struct lcrvm_geometry ordinary = {
    .size = sizeof ordinary, .nodes = 1, .threads = MOST_THREADS, .segments = 4, .pages = 64, .words = MOST_WORDS,
};
static const struct lcrvm_geometry greatest = {
    .size = sizeof greatest,
    .nodes = MOST_NODES,
    .threads = MOST_THREADS,
    .segments = MOST_SEGMENTS,
    .pages = MOST_PAGES,
    .words = MOST_WORDS,
};

static bool is_within(uint32_t number, uint32_t low, uint32_t high)
{
    return low <= number && number <= high;
}

/* A number of a geometry, and from where to where it goes. */
struct bounded_number {
    const char *name;
    uint32_t number, low, high;
};

/* Looks for a number of the geometry that is outside of its range, and writes it to *outside; false if none is. */
static bool find_outside(const struct lcrvm_geometry *geometry, struct bounded_number *outside)
{
    const struct bounded_number all[] = {
        {"nodes", geometry->nodes, 1, MOST_NODES},          {"threads", geometry->threads, 1, MOST_THREADS},
        {"segments", geometry->segments, 1, MOST_SEGMENTS}, {"pages", geometry->pages, 1, MOST_PAGES},
        {"words", geometry->words, LEAST_WORDS, MOST_WORDS},
    };

    for (size_t i = 0; i < sizeof all / sizeof all[0]; i++)
        if (!is_within(all[i].number, all[i].low, all[i].high)) {
            *outside = all[i];
            return true;
        }
    return false;
}

static uint32_t threads_of(const struct lcrvm_options *options)
{
    return options->threads > 0 ? options->threads : MOST_THREADS;
}

/* The size of a store that is to be made. */
static const struct lcrvm_geometry *size_of(const struct lcrvm_options *options)
{
    return options->geometry != NULL ? options->geometry : &ordinary;
}

static uint32_t areas_of(const struct lcrvm_geometry *geometry)
{
    return geometry->nodes + geometry->segments;
}

/* How long the image of a segment is. */
static size_t image_len_of(const struct lcrvm_geometry *geometry)
{
    return (size_t)geometry->pages * PAGE_BYTES;
}

/* How long the area at a place is, and its file. */
static size_t len_of(const struct lcrvm_geometry *geometry, uint32_t place)
{
    if (place < geometry->nodes)
        return ((size_t)geometry->words + 1) * WORD_BYTES;
    return (size_t)geometry->pages * PAGE_AREA_BYTES;
}

/* A node or a thread as a session may be asked for it: what is greater is outside of each geometry, as this is. */
static uint16_t bounded(uint32_t number)
{
    return number < UINT16_MAX ? (uint16_t)number : UINT16_MAX;
}

/* ---- sets of segments, a bit each */

static uint32_t set_of(const uint32_t *segments, size_t count)
{
    uint32_t set = 0;

    for (size_t i = 0; i < count; i++)
        if (is_within(segments[i], 1, MOST_SEGMENTS))
            set |= UINT32_C(1) << segments[i];
    return set;
}

/* The segments of a set, ascending, and how many they are. */
static size_t list_of(uint32_t set, uint32_t segments[MOST_SEGMENTS])
{
    size_t count = 0;

    for (uint32_t segment = 1; segment <= MOST_SEGMENTS; segment++)
        if ((set >> segment & 1) != 0)
            segments[count++] = segment;
    return count;
}

/* Which segments two transactions cannot have at once. */
static uint32_t contested(uint32_t writing, uint32_t reading, uint32_t others_writing, uint32_t others_reading)
{
    return (writing & (others_writing | others_reading)) | (reading & others_writing);
}

#endif
