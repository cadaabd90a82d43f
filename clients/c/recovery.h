/* The recovery of a store that is opened. It runs to its end in memory, and each call that it made of an area is listed
   with its bytes. Then the calls are made on the files, in rounds: the first call of all pages, then the second of all
   pages, and so on, and the logs last. In which round a call stands is said by the proved library. So the pages of a
   file share their syncs: all but the first of a round find the file stable. */
#ifndef LCRVM_RECOVERY_H
#define LCRVM_RECOVERY_H

#include "store.h"

struct listed_call {
    uint32_t place, round, kind;
    uint32_t len;
    uint64_t at;
    size_t from; /* where its bytes stand among those of the list */
};

struct call_list {
    struct listed_call *calls;
    uint8_t *bytes;
    size_t count, room, bytes_count, bytes_room;
    uint32_t rounds;
};

enum { FIRST_CALLS = 64, FIRST_BYTES = 16384 };

/* Room for one call more, with so many bytes. Where there is no memory the list is as before. */
static bool has_list_room(struct call_list *list, size_t len)
{
    size_t room = list->room > 0 ? list->room : FIRST_CALLS;
    size_t bytes_room = list->bytes_room > 0 ? list->bytes_room : FIRST_BYTES;
    struct listed_call *calls;
    uint8_t *bytes;

    while (room <= list->count)
        room *= 2;
    while (bytes_room - list->bytes_count < len)
        bytes_room *= 2;
    if (room != list->room) {
        calls = realloc(list->calls, room * sizeof *calls);
        if (calls == NULL)
            return false;
        list->calls = calls;
        list->room = room;
    }
    if (bytes_room != list->bytes_room) {
        bytes = realloc(list->bytes, bytes_room);
        if (bytes == NULL)
            return false;
        list->bytes = bytes;
        list->bytes_room = bytes_room;
    }
    return true;
}

/* Finds the area that the last step has called, and that call, if it has called one. The search begins at the area of
   the call before: the calls of a page are made one after another. */
static bool find_call(struct lcrvm_store *store, uint32_t *place, struct last_call *call)
{
    for (uint32_t k = 0; k < store->areas; k++) {
        uint32_t at = (*place + k) % store->areas;

        if (lcrvm_session_last_call(&store->session, at, call) && call->calls != store->calls[at]) {
            *place = at;
            return true;
        }
    }
    return false;
}

/* Adds the call of the step that was made after so many others. A write of nothing is none. */
static enum lcrvm_status list_call(struct lcrvm_store *store, struct call_list *list, uint64_t steps, uint32_t *place)
{
    const struct lcrvm_geometry *geometry = &store->geometry;
    struct last_call call = {0};
    uint32_t round;

    if (!find_call(store, place, &call))
        return LCRVM_OK;
    errno = EIO;
    if (call.calls - store->calls[*place] != 1)
        return given_up(store, *place);
    store->calls[*place] = call.calls;
    if (call.kind == WRITE && call.len == 0)
        return LCRVM_OK;
    if (!has_list_room(list, call.len))
        return failed(LCRVM_NO_MEMORY, "");
    if (!lcrvm_session_bytes(&store->session, *place, call.at, list->bytes + list->bytes_count, call.len))
        return given_up(store, *place);
    round = lcrvm_recovery_round(bounded(geometry->nodes), geometry->segments, steps, *place);
    list->calls[list->count++] = (struct listed_call){
        .place = *place,
        .round = round,
        .kind = call.kind,
        .len = (uint32_t)call.len,
        .at = call.at,
        .from = list->bytes_count,
    };
    list->bytes_count += call.len;
    if (round >= list->rounds)
        list->rounds = round + 1;
    return LCRVM_OK;
}

/* Recovers the store in memory. Where it is refused no call was made of a file. */
static enum lcrvm_status list_calls(struct lcrvm_store *store, struct call_list *list)
{
    struct answer answer = {0};
    uint32_t place = 0;
    enum lcrvm_status status = LCRVM_OK;

    for (uint64_t steps = 0; status == LCRVM_OK && answer.reply != RECOVERED; steps++) {
        lcrvm_session_recover_step(&store->session, &answer);
        status = refused(&answer);
        if (status == LCRVM_OK)
            status = list_call(store, list, steps, &place);
    }
    return status;
}

/* Makes a call of the list on its file. */
static bool make_listed(struct lcrvm_store *store, const struct call_list *list, const struct listed_call *call)
{
    switch (call->kind) {
    case WRITE:
        return write_file(store, call->place, list->bytes + call->from, call->len, call->at);
    case SYNC:
        return sync_area(store, call->place);
    default:
        return true;
    }
}

/* Makes the calls on the files, round by round, and in a round in the order in which they were listed. */
static enum lcrvm_status make_rounds(struct lcrvm_store *store, const struct call_list *list)
{
    for (uint32_t round = 0; round < list->rounds; round++)
        for (size_t k = 0; k < list->count; k++)
            if (list->calls[k].round == round && !make_listed(store, list, &list->calls[k]))
                return given_up(store, list->calls[k].place);
    return LCRVM_OK;
}

static enum lcrvm_status recover(struct lcrvm_store *store)
{
    struct call_list list = {0};
    enum lcrvm_status status = list_calls(store, &list);

    if (status == LCRVM_OK)
        status = make_rounds(store, &list);
    free(list.calls);
    free(list.bytes);
    return status;
}

#endif
