/* What crosses to the proved library, as lc_c declares it. */
#ifndef LCRVM_SESSION_H
#define LCRVM_SESSION_H

#include <stdbool.h>
#include <stddef.h>
#include <stdint.h>

struct handle {
    void *at;
    bool held;
};

enum reply {
    DONE,
    RESERVED,
    ENDED,
    STEPPED,
    ACKED,
    NOTHING,
    APPLIED,
    HELD_BACK,
    IGNORED,
    TRIMMED,
    WRITTEN,
    RESET,
    RECOVERED,
    BYTES,
    DOWN
};

struct answer {
    uint32_t status, reply;
    bool has_area;
    uint32_t segment, area, words, tail, need, place;
    uint64_t sequence, applied, count;
};

enum kind { NO_CALL, WRITE, SYNC };

struct last_call {
    uint32_t kind;
    uint64_t calls, at, len;
};

uint32_t lcrvm_session_new(uint16_t nodes, uint16_t threads, uint32_t segments, uint32_t pages, uint32_t words,
                           struct handle *handle);
uint32_t lcrvm_session_area(struct handle *handle, const uint8_t *bytes, size_t len);
uint32_t lcrvm_session_start(struct handle *handle, struct answer *answer);
uint32_t lcrvm_session_recover_step(struct handle *handle, struct answer *answer);
uint32_t lcrvm_session_begin(struct handle *handle, uint16_t node, uint16_t thread, const uint32_t *writing,
                             size_t writing_count, const uint32_t *reading, size_t reading_count,
                             struct answer *answer);
uint32_t lcrvm_session_begin_free(struct handle *handle, uint16_t node, const uint32_t *writing, size_t writing_count,
                                  const uint32_t *reading, size_t reading_count, uint16_t *thread,
                                  struct answer *answer);
uint32_t lcrvm_session_set_range(struct handle *handle, uint16_t node, uint16_t thread, uint32_t segment,
                                 uint32_t offset, uint32_t len, struct answer *answer);
uint32_t lcrvm_session_read(struct handle *handle, uint16_t node, uint16_t thread, uint32_t segment, uint32_t offset,
                            uint8_t *buffer, size_t len, struct answer *answer);
uint32_t lcrvm_session_abort(struct handle *handle, uint16_t node, uint16_t thread, struct answer *answer);
uint32_t lcrvm_session_flush_step(struct handle *handle, uint16_t node, struct answer *answer);
uint32_t lcrvm_session_truncate_step(struct handle *handle, uint16_t node, struct answer *answer);
uint32_t lcrvm_session_leave(struct handle *handle, uint16_t node, uint32_t segment, struct answer *answer);
uint32_t lcrvm_session_arrive(struct handle *handle, uint16_t node, uint32_t segment, struct answer *answer);
uint32_t lcrvm_session_deliver(struct handle *handle, uint16_t sender, uint64_t number, uint32_t segment, uint16_t to,
                               struct answer *answer);
uint32_t lcrvm_session_trim(struct handle *handle, uint16_t node, struct answer *answer);
bool lcrvm_session_last_call(struct handle *handle, uint32_t place, struct last_call *call);
uint32_t lcrvm_recovery_round(uint16_t nodes, uint32_t segments, uint64_t steps, uint32_t place);
bool lcrvm_session_bytes(struct handle *handle, uint32_t place, size_t at, uint8_t *buffer, size_t len);
void lcrvm_session_give_up(struct handle *handle);
void lcrvm_session_free(struct handle handle);

/* The draft of an open transaction: what it has locked, and what it has set of images, an array a segment. */
uint32_t lcrvm_draft_new(uint32_t image_len, struct handle *draft);
uint32_t lcrvm_draft_set_range(struct handle *draft, uint32_t segment, const uint8_t *image, size_t image_len,
                               uint32_t offset, uint32_t len, struct answer *answer);
uint32_t lcrvm_draft_write(struct handle *draft, uint32_t segment, uint8_t *image, size_t image_len, uint32_t offset,
                           const uint8_t *bytes, size_t len, struct answer *answer);
uint32_t lcrvm_draft_read(struct handle *draft, uint32_t segment, const uint8_t *image, size_t image_len,
                          uint32_t offset, uint8_t *buffer, size_t len, struct answer *answer);
void lcrvm_draft_restore(struct handle *draft, uint32_t segment, uint8_t *image, size_t image_len);
uint32_t lcrvm_draft_next(struct handle *draft);
void lcrvm_draft_free(struct handle draft);

uint32_t lcrvm_session_lock_draft(struct handle *handle, uint16_t node, uint16_t thread, struct handle *draft);
uint32_t lcrvm_session_hand_over(struct handle *handle, uint16_t node, uint16_t thread, struct handle *draft,
                                 const uint8_t *image, size_t image_len, struct answer *answer);
uint32_t lcrvm_session_end(struct handle *handle, uint16_t node, uint16_t thread, struct handle *draft,
                           struct answer *answer);
uint32_t lcrvm_session_begin_again(struct handle *handle, uint16_t node, uint16_t thread, struct handle *draft,
                                   struct answer *answer);

#endif
