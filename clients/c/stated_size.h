/* The file of a store's folder that states its size. */
#ifndef LCRVM_STATED_SIZE_H
#define LCRVM_STATED_SIZE_H

#include "../../include/lcrvm.h"
#include "transactions.h"

#include <inttypes.h>
#include <stdio.h>
#include <string.h>

enum { SIZE_BYTES = 64 /* more than a text of the file has */ };

static const char size_name[] = "lcrvm.store";

/* Writes the text of the file; how long it is. The threads are in no file. */
static inline size_t write_size(const struct lcrvm_geometry *size, char text[SIZE_BYTES])
{
    return (size_t)snprintf(
        text, SIZE_BYTES,
        "format 1\nnodes %" PRIu32 "\nsegments %" PRIu32 "\npages %" PRIu32 "\nwords %" PRIu32 "\n", size->nodes,
        size->segments, size->pages, size->words);
}

/* Takes the size from the text, but for the threads, where it is just that of a store's size. */
static inline bool read_size(const char *text, size_t length, struct lcrvm_geometry *size)
{
    struct lcrvm_geometry read = {.size = sizeof read, .threads = size->threads};
    struct bounded_number outside;
    char again[SIZE_BYTES];

    if (sscanf(text, "format 1 nodes %1" SCNu32 " segments %2" SCNu32 " pages %4" SCNu32 " words %4" SCNu32,
               &read.nodes, &read.segments, &read.pages, &read.words) != 4)
        return false;
    if (find_outside(&read, &outside) || write_size(&read, again) != length || memcmp(text, again, length) != 0)
        return false;
    *size = read;
    return true;
}

#endif
