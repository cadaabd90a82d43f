/* The structures that a program hands in. Each begins with its size, so later versions can add fields at its end: a
   program that was built before has the shorter one. A program that was built later has the longer one, and may leave
   what is not known here at zero. */
#ifndef LCRVM_STRUCTURES_H
#define LCRVM_STRUCTURES_H

#include "../../include/lcrvm.h"
#include "statuses.h"
#include "transactions.h"

#include <stdint.h>
#include <stdio.h>
#include <string.h>

/* More bytes than any version of a structure has: a greater size was never set. */
enum { MOST_SIZE = 4096 };

/* How long each is in the first version that has it. None has bytes at its end that no field has: those may hold
   anything. */
enum { FIRST_FAULT = 328, FIRST_GEOMETRY = 24, FIRST_OPTIONS = 24, FIRST_COUNTERS = 64 };

_Static_assert(FIRST_FAULT <= sizeof(struct lcrvm_fault), "a fault has no fewer fields than in its first version");
_Static_assert(FIRST_GEOMETRY <= sizeof(struct lcrvm_geometry), "nor a geometry");
_Static_assert(FIRST_OPTIONS <= sizeof(struct lcrvm_options), "nor options");
_Static_assert(FIRST_COUNTERS <= sizeof(struct lcrvm_counters), "nor counters");

/* Copies a structure of the caller, whose size is its first field, into one of this version; false if its size is
   none, or it has something set that this version does not know. */
static bool take_structure(void *to, uint32_t known, uint32_t first, const void *from)
{
    const uint32_t size = *(const uint32_t *)from;

    if (size < first || size > MOST_SIZE)
        return false;
    for (uint32_t at = known; at < size; at++)
        if (((const unsigned char *)from)[at] != 0)
            return false;
    memset(to, 0, known);
    memcpy(to, from, size < known ? size : known);
    *(uint32_t *)to = known;
    return true;
}

/* Takes the caller's options, which may be NULL, with their geometry, which then stands in *geometry. */
static enum lcrvm_status take_options(const struct lcrvm_options *given, struct lcrvm_options *options,
                                      struct lcrvm_geometry *geometry)
{
    *options = (struct lcrvm_options){.size = sizeof *options};
    if (given == NULL)
        return LCRVM_OK;
    if (!take_structure(options, sizeof *options, FIRST_OPTIONS, given))
        return failed(LCRVM_MISUSE, "options: no size of this structure, or a field that is not known");
    if (options->geometry == NULL)
        return LCRVM_OK;
    if (!take_structure(geometry, sizeof *geometry, FIRST_GEOMETRY, options->geometry))
        return failed(LCRVM_MISUSE, "geometry: no size of this structure, or a field that is not known");
    options->geometry = geometry;
    return LCRVM_OK;
}

/* Names a number that is outside of its range. */
static enum lcrvm_status out_of_range(const char *what, const struct bounded_number *outside)
{
    char text[64];

    snprintf(text, sizeof text, "%s %u: %s has %u to %u", outside->name, (unsigned)outside->number, what,
             (unsigned)outside->low, (unsigned)outside->high);
    return failed(LCRVM_UNKNOWN, text);
}

/* Looks at the numbers of the options: UNKNOWN, with the one that is outside and its range. */
static enum lcrvm_status look_at_numbers(const struct lcrvm_options *options)
{
    struct lcrvm_geometry size = ordinary;
    struct bounded_number outside;

    if (options->geometry != NULL)
        size = *options->geometry;
    else
        size.threads = threads_of(options);
    return find_outside(&size, &outside) ? out_of_range("a store", &outside) : LCRVM_OK;
}

/* Whether a structure of the caller's, of this size, has room for all fields of the first version. */
static bool is_room(uint32_t size, uint32_t first)
{
    return is_within(size, first, MOST_SIZE);
}

/* Whether a fault can be handed out. */
static bool has_room(const struct lcrvm_fault *fault)
{
    return fault == NULL || is_room(fault->size, FIRST_FAULT);
}

static enum lcrvm_status no_room(void)
{
    return misused("fault: no size of this structure");
}

#endif
