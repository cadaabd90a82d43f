/* The names of the statuses, and faults. */
#ifndef LCRVM_STATUSES_H
#define LCRVM_STATUSES_H

#include "../../include/lcrvm.h"

#include <stdio.h>
#include <string.h>

static const struct {
    enum lcrvm_status status;
    const char *name;
} names[] = {
    {LCRVM_OK, "ok"},
    {LCRVM_DOWN, "Down"},
    {LCRVM_UNKNOWN, "Unknown"},
    {LCRVM_HALTED, "Halted"},
    {LCRVM_OUT_OF_TURN, "OutOfTurn"},
    {LCRVM_BUSY, "Busy"},
    {LCRVM_NOT_HERE, "NotHere"},
    {LCRVM_NOT_LOCKED, "NotLocked"},
    {LCRVM_EMPTY_RANGE, "EmptyRange"},
    {LCRVM_OUT_OF_SEGMENT, "OutOfSegment"},
    {LCRVM_NO_RANGE, "NoRange"},
    {LCRVM_TOO_MANY_RANGES, "TooManyRanges"},
    {LCRVM_SEQUENCE_SPENT, "SequenceSpent"},
    {LCRVM_TOO_LONG, "TooLong"},
    {LCRVM_SEALED, "Sealed"},
    {LCRVM_FULL, "Full"},
    {LCRVM_HELD, "Held"},
    {LCRVM_WRITING, "Writing"},
    {LCRVM_UNFLUSHED, "Unflushed"},
    {LCRVM_BEHIND, "Behind"},
    {LCRVM_UNCOMMITTED, "Uncommitted"},
    {LCRVM_NOT_NEWER, "NotNewer"},
    {LCRVM_UNCLEAN, "Unclean"},
    {LCRVM_ROUNDS_SPENT, "RoundsSpent"},
    {LCRVM_DEVICE_FAULT, "device fault"},
    {LCRVM_BAD_GEOMETRY, "BadGeometry"},
    {LCRVM_TWICE, "Twice"},
    {LCRVM_GAP, "Gap"},
    {LCRVM_READ_ONLY, "ReadOnly"},
    {LCRVM_NO_MEMORY, "NoMemory"},
    {LCRVM_STORE_IN_USE, "store in use"},
    {LCRVM_NO_STORE, "no store"},
    {LCRVM_EXISTS, "Exists"},
    {LCRVM_MISUSE, "misuse"},
    {LCRVM_FORKED, "forked"},
};

/* Why something was not done in the call of this thread; and why its last call did nothing that did nothing. */
static _Thread_local struct lcrvm_fault fault_here, fault_told;

/* What lcrvm_status_text answers. */
static const char *text_of(enum lcrvm_status status)
{
    for (size_t i = 0; i < sizeof names / sizeof names[0]; i++)
        if (names[i].status == status)
            return names[i].name;
    return "no status";
}

/* Fills a fault, and answers its status. */
static enum lcrvm_status fill_fault(struct lcrvm_fault *fault, enum lcrvm_status status, const char *text)
{
    memset(fault, 0, sizeof *fault);
    fault->size = sizeof *fault;
    fault->status = status;
    snprintf(fault->text, sizeof fault->text, "%s", text);
    return status;
}

/* Keeps why something was not done. */
static enum lcrvm_status failed(enum lcrvm_status status, const char *text)
{
    return fill_fault(&fault_here, status, text);
}

/* What a call answers; of one that did nothing the fault is kept for lcrvm_fault_of. */
static enum lcrvm_status told(enum lcrvm_status status)
{
    if (status != LCRVM_OK)
        fault_told = fault_here;
    return status;
}

/* Copies a fault to the caller's, as far as that one reaches. */
static void hand_out(const struct lcrvm_fault *fault, struct lcrvm_fault *wanted)
{
    const uint32_t size = wanted->size;

    memcpy(wanted, fault, size < sizeof *fault ? size : sizeof *fault);
    wanted->size = size;
}

/* The same as told, and the fault is handed out if the caller wants it. */
static enum lcrvm_status told_to(enum lcrvm_status status, struct lcrvm_fault *fault)
{
    struct lcrvm_fault none;

    fill_fault(&none, LCRVM_OK, "");
    if (fault != NULL)
        hand_out(status != LCRVM_OK ? &fault_here : &none, fault);
    return told(status);
}

static enum lcrvm_status misused(const char *text)
{
    return told(failed(LCRVM_MISUSE, text));
}

#endif
