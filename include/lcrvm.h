/* Recoverable virtual memory from C, by C11 and POSIX: transactions on bytes that outlive a crash, in the program's
   own process.

   A store is a folder of files. It has segments, which are bytes in pages of 256, numbered from 1. A transaction
   locks segments, says which bytes it is about to change, writes them, and commits. A commit appends a record to the
   log of a node; a flush makes the records stable; a truncation writes the pages and empties the log. Most programs
   have one node, number 0, and need lcrvm_open, lcrvm_begin, lcrvm_put, lcrvm_read, lcrvm_commit, lcrvm_abort and
   lcrvm_close.

   Answers. Each call answers LCRVM_OK, or why it did nothing; lcrvm_fault_of has the fields.

   - LCRVM_DOWN to LCRVM_READ_ONLY, but for LCRVM_DEVICE_FAULT: the store refused the call. Nothing has changed, and
     the store goes on.
   - LCRVM_NO_MEMORY, LCRVM_MISUSE: nothing has changed, and the store goes on.
   - LCRVM_DEVICE_FAULT of an open store: a file failed, and the store is over; each later call answers the same.
     Whether a commit that was not acknowledged is there, only the next lcrvm_open tells. Of lcrvm_copy see there.
   - LCRVM_FORKED: this process is a forked child of the one that opened the store.

   Numbers. Offsets and lengths are in bytes, places and lengths in a log in words of 8 bytes, times in milliseconds.
   The pointer to no segments, or to no bytes, may be NULL. A store that is NULL, and a pointer that is NULL and may
   not be, are LCRVM_MISUSE. A segment that a list names twice is one segment.

   Structures. Options, a geometry, a fault and counters begin with `size`, which the program sets to the structure's
   sizeof, and it clears the other fields: struct lcrvm_fault fault = {.size = sizeof fault}. So fields can be added at
   the end. A size below that of the first version is LCRVM_MISUSE, and so is a field that is set and that this
   library does not know; then nothing is done.

   Names. Calls on transactions have two families. lcrvm_begin, lcrvm_commit and lcrvm_abort hand a transaction out and
   take it back. lcrvm_begin_transaction, lcrvm_set_range, lcrvm_end_transaction and lcrvm_abort_transaction have the
   names of RVM's own calls, and a thread that the caller chooses.

   Threads. Each call may come from any thread, but none on a store after its lcrvm_close has begun. A transaction is
   used by one thread at a time, and stays open where its thread ends. Threads that flush at once share one flush, and
   others commit in memory while it waits for the device. What a transaction reads may be of a commit that is not
   stable yet: an end with `flush` makes stable all that it may have seen. No thread may be cancelled within a call.

   Forks. A child of fork closes its copies of the descriptors, and each of its calls on the store answers
   LCRVM_FORKED; it may open stores of its own. The parent's store goes on, and its locks end with the parent, also
   where the child lives. A fork waits for no call: at most until a file is opened or closed. A child that is made by
   vfork or posix_spawn calls nothing before its exec.

   Signals. No call may come from a signal's handler. A call that a signal interrupts goes on.

   Memory. lcrvm_create, lcrvm_open and lcrvm_copy take memory; lcrvm_set_range, lcrvm_put, lcrvm_change, lcrvm_deliver
   and commits may. All that a store has taken is given back by lcrvm_close. */
#ifndef LCRVM_H
#define LCRVM_H

#include <stdbool.h>
#include <stddef.h>
#include <stdint.h>

#ifdef __cplusplus
extern "C" {
#endif

/* The version of this header. A program that wants that of the library asks lcrvm_version. */
#define LCRVM_VERSION "0.1.0"
#define LCRVM_VERSION_MAJOR 0
#define LCRVM_VERSION_MINOR 1
#define LCRVM_VERSION_PATCH 0

enum lcrvm_status {
    LCRVM_OK = 0,

    /* Refusals, by their numbers. After the colon are the fields of the fault that each has. */
    LCRVM_DOWN = 1,             /* the store is down */
    LCRVM_UNKNOWN = 2,          /* a number is outside the geometry, or no record has it: text */
    LCRVM_HALTED = 3,           /* a device of the node has failed */
    LCRVM_OUT_OF_TURN = 4,      /* a transaction is open already, or none is; so it is with tokens */
    LCRVM_BUSY = 5,             /* another transaction has the segment's lock: segment, or 0 where no thread is free */
    LCRVM_NOT_HERE = 6,         /* the segment's token is not at the node: segment */
    LCRVM_NOT_LOCKED = 7,       /* the transaction did not lock the segment */
    LCRVM_EMPTY_RANGE = 8,      /* the range has no bytes */
    LCRVM_OUT_OF_SEGMENT = 9,   /* the bytes reach past the segment, or of a recovery those of a record do: area */
    LCRVM_NO_RANGE = 10,        /* some byte was not set */
    LCRVM_TOO_MANY_RANGES = 11, /* more than 64 ranges would stand */
    LCRVM_SEQUENCE_SPENT = 12,  /* the segment has had its last number: segment */
    LCRVM_TOO_LONG = 13,        /* the record would have more than 4,096 words: words */
    LCRVM_SEALED = 14,          /* the log is being emptied */
    LCRVM_FULL = 15,            /* the log has no room and could not be emptied: tail, need */
    LCRVM_HELD = 16,            /* a transaction holds the segment */
    LCRVM_WRITING = 17,         /* a page of the segment is being written */
    LCRVM_UNFLUSHED = 18,       /* a record of the node is not stable */
    LCRVM_BEHIND = 19,          /* the node has not applied all that the token has counted: applied, sequence */
    LCRVM_UNCOMMITTED = 20,     /* of no call any more */
    LCRVM_NOT_NEWER = 21,       /* the page on the device has all of the segment's numbers */
    LCRVM_UNCLEAN = 22,         /* a record of the log may not be on the pages: segment, sequence */
    LCRVM_ROUNDS_SPENT = 23,    /* the log has had its last round */
    LCRVM_DEVICE_FAULT = 24,    /* a file failed, or could not be made or opened: error, text */
    LCRVM_BAD_GEOMETRY = 25,    /* an area has another length, or a record in it is of another node: area; or the folder
                                   states another size, whose files differ from that area on: area, text */
    LCRVM_TWICE = 26,           /* two records have the same number: segment, sequence */
    LCRVM_GAP = 27,             /* a number is missing: segment, sequence */
    LCRVM_READ_ONLY = 28,       /* the segment is locked for reading alone: segment */

    LCRVM_NO_MEMORY = 64,    /* there is no memory for this call */
    LCRVM_STORE_IN_USE = 65, /* the store is open already, or one of its files by another folder: text */
    LCRVM_NO_STORE = 66,     /* the files do not fit together, so there is no store as found: text */
    LCRVM_EXISTS = 67,       /* something stands under a name that a store has: text */
    LCRVM_MISUSE = 68,       /* an argument is NULL that may not be, or the size of a structure is none: text */
    LCRVM_FORKED = 69        /* the store is that of a process of which this one is a forked child */
};

/* Why a call did nothing. Fields that its status does not name are 0, and the text is empty. */
struct lcrvm_fault {
    uint32_t size; /* of this structure, in bytes */
    enum lcrvm_status status;
    int error;     /* the system's number, as errno has it; 0 if it gave none */
    bool has_area; /* of LCRVM_OUT_OF_SEGMENT, which may have an area or none */
    uint64_t segment, sequence, applied, area, words, tail, need;
    /* The file or the folder that failed and the system's reason, and a line for each other file that something is to
       be said of; or the number that is outside. Cut short. */
    char text[256];
};

/* How large a store is. */
struct lcrvm_geometry {
    uint32_t size;     /* of this structure, in bytes */
    uint32_t nodes;    /* 1 to 8 */
    uint32_t threads;  /* of a node, as many transactions as may be open there: 1 to 16 */
    uint32_t segments; /* 1 to 16 */
    uint32_t pages;    /* of a segment, 256 bytes each: 1 to 1024 */
    uint32_t words;    /* of a log, 8 bytes each: 64 to 4096 */
};

struct lcrvm_options {
    uint32_t size; /* of this structure, in bytes */
    /* NULL: as the store says; of lcrvm_create 1 node, 16 threads, 4 segments of 64 pages, and 4,096 words. */
    const struct lcrvm_geometry *geometry;
    /* Without a geometry, the threads of a node, which no file says; 0 for 16. */
    uint32_t threads;
    /* How long lcrvm_open waits for a store that is open elsewhere: 0 for not at all, UINT32_MAX for as long as it
       takes. */
    uint32_t milliseconds;
};

/* Where a commit's record stands in its node's log, and how long it is, in words. No words: no range was set. */
struct lcrvm_record {
    uint64_t place, words;
};

/* What a node has done since the store was opened. */
struct lcrvm_counters {
    uint32_t size;                /* of this structure, in bytes */
    uint32_t open;                /* transactions that are open now */
    uint64_t log_words;           /* of its log, that records have now */
    uint64_t commits;             /* that have a record */
    uint64_t flushes;             /* that made records stable */
    uint64_t flushed;             /* records that these made stable; several commits share a flush */
    uint64_t truncations;         /* of its log */
    uint64_t waits;               /* begins that waited for other transactions */
    uint64_t longest_wait;        /* of these, in microseconds */
};

enum lcrvm_delivery { LCRVM_APPLIED, LCRVM_HELD_BACK, LCRVM_IGNORED };

/* What became of a record; where it was applied, `applied` is the number up to which its segment is. */
struct lcrvm_delivered {
    enum lcrvm_delivery delivery;
    uint64_t applied;
};

/* The number of no transaction. */
enum { LCRVM_NO_TRANSACTION = 0xffff };

struct lcrvm_store;

/* ---- Stores */

/* Makes a new store, of zeros. The folder is made where it is missing, but not the one that it stands in. Options
   and fault may be NULL. MISUSE; UNKNOWN where a number of the options is outside its range; EXISTS where a name
   is taken that a store of any size may have; STORE_IN_USE; NO_MEMORY; DEVICE_FAULT. Then nothing is made, or what
   was made is taken away again, the folder too; what could not be, the fault's text says: `NAME: left in place`.
   After LCRVM_OK the store is stable, its names and its folder's. */
enum lcrvm_status lcrvm_create(const char *folder, const struct lcrvm_options *options, struct lcrvm_fault *fault);

/* Opens the store in a folder, for this process alone, and recovers it: each commit that was acknowledged is there.
   Options and fault may be NULL. Where it is not opened *store is NULL, and the fault says why: MISUSE; UNKNOWN where
   a number of the options is outside its range; NO_STORE; STORE_IN_USE, with the process that has it if the system
   tells; NO_MEMORY; DEVICE_FAULT; BAD_GEOMETRY, GAP, TWICE or OUT_OF_SEGMENT where the recovery is refused. An opening
   that is refused can be tried again. A folder that is not there is NO_STORE.

   Without a geometry the store has the size that its file lcrvm.store states, and then none of its files may be
   missing; in a folder without that file, the size of the files which there are. Where a file has failed before,
   which a file `fault` in the folder marks, each file is copied first, and the copy put in its place: of a link
   where it leads to. What is no regular file under a copy's name, NAME.new, is a DEVICE_FAULT that names it. */
enum lcrvm_status lcrvm_open(const char *folder, const struct lcrvm_options *options, struct lcrvm_store **store,
                             struct lcrvm_fault *fault);

/* Ends the store and frees it. All commits are made stable; transactions that are open are aborted; and each log is
   emptied where that can be, so that the next opening has no page to write. Of NULL it does nothing, and is OK. The
   fault may be NULL.

   BUSY: another thread is within a call, or has a transaction that it began by lcrvm_begin. Nothing has changed then,
   and the store is still open. After any other answer it is freed: OK, or DEVICE_FAULT of a store that is over. A
   commit that was acknowledged is there all the same. FORKED in a child, which does not use the store again. */
enum lcrvm_status lcrvm_close(struct lcrvm_store *store, struct lcrvm_fault *fault);

/* Makes a store of its own in another folder, as this one is now, with each commit that was acknowledged before the
   call. It flushes all nodes; transactions that are open go on, and what they have changed is not in the copy. The
   copy may be larger: with a geometry it has as many nodes, and no fewer segments, pages and words; what it has more is
   zero. The folder is made where it is missing. MISUSE; UNKNOWN of a number that no copy has: text; EXISTS where one of
   its names is taken that a store of any size may have; STORE_IN_USE; NO_MEMORY. DEVICE_FAULT is of this store where a
   flush failed, which ends it, and else of the copy, and then the store goes on. What was made is taken away again as
   by lcrvm_create; a copy that was cut is no store. */
enum lcrvm_status lcrvm_copy(struct lcrvm_store *store, const char *folder, const struct lcrvm_geometry *geometry);

/* ---- Transactions of a program's threads */

/* Begins a transaction at a node, locks segments for writing and others for reading, and hands out its number, which
   no other open transaction of the node has. Where another transaction has one of the segments, or the node has no
   number left, it waits, so many milliseconds at most: 0 for not at all, UINT32_MAX for as long as it takes. Who came
   first is served first. UNKNOWN, NOT_HERE; BUSY where the time is over, and at once where the calling thread would
   wait for itself: for a transaction of its own, or for a thread that waits for one. Then *transaction is
   LCRVM_NO_TRANSACTION. */
enum lcrvm_status lcrvm_begin(struct lcrvm_store *store, uint32_t node, uint32_t *transaction,
                              const uint32_t *segments, size_t count, const uint32_t *reading, size_t reading_count,
                              uint32_t milliseconds);

/* Says that the transaction is about to change these bytes of a segment, and writes them: lcrvm_set_range and
   lcrvm_write in one, or neither of them. Of no bytes nothing is asked of the store. */
enum lcrvm_status lcrvm_put(struct lcrvm_store *store, uint32_t node, uint32_t transaction, uint32_t segment,
                            uint32_t offset, const void *bytes, uint32_t length);

/* Hands out where the bytes of a segment stand that the transaction has locked, to be read in place until it ends, and
   how many they are. `length` may be NULL. UNKNOWN, OUT_OF_TURN, NOT_LOCKED: *bytes is NULL then. */
enum lcrvm_status lcrvm_bytes(struct lcrvm_store *store, uint32_t node, uint32_t transaction, uint32_t segment,
                              const void **bytes, size_t *length);

/* Says that the transaction is about to change these bytes of a segment, as lcrvm_set_range does, and hands out where
   they stand, to be changed in place until the transaction ends. No byte beside them may be changed, and none after
   the end. As of lcrvm_set_range; *bytes is NULL then. */
enum lcrvm_status lcrvm_change(struct lcrvm_store *store, uint32_t node, uint32_t transaction, uint32_t segment,
                               uint32_t offset, uint32_t length, void **bytes);

/* Commits the transaction; *transaction is LCRVM_NO_TRANSACTION then. With `flush` it answers once the commit is
   stable, and all that the transaction may have read. `record` may be NULL. UNKNOWN, OUT_OF_TURN where there is no such
   transaction. SEQUENCE_SPENT, TOO_LONG, SEALED, FULL, NO_MEMORY: the transaction is open as before, and *transaction
   is its number. DEVICE_FAULT: the store is over, and with it the transaction; *transaction is LCRVM_NO_TRANSACTION.

   A transaction that only read ends by lcrvm_commit or by lcrvm_abort, which are the same to it but for `flush`: with
   it the commit answers once all that was read is stable. Either gives its locks back.

   A log that is full is emptied first, also beside other transactions that are open, to which it is as if nothing
   had been. So FULL is the answer only where that cannot help: the record is longer than the log, or the
   truncation is refused, as UNCLEAN where a token is elsewhere. */
enum lcrvm_status lcrvm_commit(struct lcrvm_store *store, uint32_t node, uint32_t *transaction, bool flush,
                               struct lcrvm_record *record);

/* Ends the transaction without a commit: the bytes are as before it, and *transaction is LCRVM_NO_TRANSACTION. It
   takes no memory. It does nothing and is OK if `transaction` is NULL or *transaction is LCRVM_NO_TRANSACTION, so an
   end that cleans up may call it whatever came before. UNKNOWN, OUT_OF_TURN where there is no such transaction, and
   then *transaction is as before. */
enum lcrvm_status lcrvm_abort(struct lcrvm_store *store, uint32_t node, uint32_t *transaction);

/* ---- Transactions, by threads of the caller's choice or of lcrvm_begin */

/* Begins the transaction of a thread of the node, from 0 on, whose number it has, and locks segments for writing and
   others for reading. It does not wait, and takes no memory. The transaction belongs to no thread of the program.
   UNKNOWN, OUT_OF_TURN, NOT_HERE, BUSY. */
enum lcrvm_status lcrvm_begin_transaction(struct lcrvm_store *store, uint32_t node, uint32_t thread,
                                          const uint32_t *segments, size_t count, const uint32_t *reading,
                                          size_t reading_count);

/* Says that the transaction is about to change these bytes of a segment that it locked for writing.
   UNKNOWN, OUT_OF_TURN, NOT_LOCKED, READ_ONLY, EMPTY_RANGE, OUT_OF_SEGMENT, TOO_MANY_RANGES, NO_MEMORY. */
enum lcrvm_status lcrvm_set_range(struct lcrvm_store *store, uint32_t node, uint32_t transaction, uint32_t segment,
                                  uint32_t offset, uint32_t length);

/* Writes these bytes inside the transaction's ranges. Of no bytes nothing is asked of the store.
   UNKNOWN, OUT_OF_TURN, NOT_LOCKED, READ_ONLY, OUT_OF_SEGMENT, NO_RANGE. */
enum lcrvm_status lcrvm_write(struct lcrvm_store *store, uint32_t node, uint32_t transaction, uint32_t segment,
                              uint32_t offset, const void *bytes, uint32_t length);

/* Reads bytes of a segment that the transaction locked, with what it wrote. Where it is refused `bytes` are as
   before. UNKNOWN, OUT_OF_TURN, NOT_LOCKED, OUT_OF_SEGMENT. */
enum lcrvm_status lcrvm_read(struct lcrvm_store *store, uint32_t node, uint32_t transaction, uint32_t segment,
                             uint32_t offset, void *bytes, uint32_t length);

/* Commits the transaction, as lcrvm_commit does. With `flush` the node's log is flushed also where the commit is
   refused, and what the commit answered is answered. */
enum lcrvm_status lcrvm_end_transaction(struct lcrvm_store *store, uint32_t node, uint32_t thread, bool flush,
                                        struct lcrvm_record *record);

/* Ends the transaction without a commit: the bytes are as before it.
   UNKNOWN, OUT_OF_TURN. */
enum lcrvm_status lcrvm_abort_transaction(struct lcrvm_store *store, uint32_t node, uint32_t thread);

/* ---- Logs */

/* Makes all commits of the node stable; `records`, which may be NULL, is how many it has had since the store was
   opened. UNKNOWN. */
enum lcrvm_status lcrvm_flush(struct lcrvm_store *store, uint32_t node, uint64_t *records);

/* Flushes the node's log, writes its pages and empties the log; `rounds`, which may be NULL, is how often it was
   emptied since the store was opened. Open transactions go on, and nothing that they wrote is in a page. UNKNOWN,
   UNFLUSHED, UNCLEAN, ROUNDS_SPENT. What was done before the refusal stays done. */
enum lcrvm_status lcrvm_truncate(struct lcrvm_store *store, uint32_t node, uint64_t *rounds);

/* Drops the node's stable records that all nodes have applied; `count`, which may be NULL, is how many these were.
   Until then a record stays in memory. Each truncation does it for its node by itself. UNKNOWN. */
enum lcrvm_status lcrvm_trim(struct lcrvm_store *store, uint32_t node, uint64_t *count);

/* Counts what the node has done since the store was opened. The program sets the size of `counters`. It asks for no
   memory and no file. MISUSE, UNKNOWN. */
enum lcrvm_status lcrvm_stats(struct lcrvm_store *store, uint32_t node, struct lcrvm_counters *counters);

/* ---- Several nodes. Each segment has a token, which is at one node, and there alone it can be locked. */

/* Takes the segment's token from the node.
   UNKNOWN, NOT_HERE, HELD, WRITING, UNFLUSHED. */
enum lcrvm_status lcrvm_leave(struct lcrvm_store *store, uint32_t node, uint32_t segment);

/* Gives the token that is on its way to the node.
   UNKNOWN, OUT_OF_TURN, BEHIND. */
enum lcrvm_status lcrvm_arrive(struct lcrvm_store *store, uint32_t node, uint32_t segment);

/* Brings a stable record of a node, by its number from 1 on, to another node, for one segment. `delivered` may be
   NULL. UNKNOWN, NO_MEMORY. */
enum lcrvm_status lcrvm_deliver(struct lcrvm_store *store, uint32_t node, uint64_t record, uint32_t segment,
                                uint32_t to, struct lcrvm_delivered *delivered);

/* ---- What is asked of no store */

/* The version of the library, as "0.1.0". */
const char *lcrvm_version(void);

/* The fault of the last call of the calling thread, on whatever store, that did not answer LCRVM_OK; of none, one
   with LCRVM_OK. The store may be NULL. It is the thread's own, and good until its next call. */
const struct lcrvm_fault *lcrvm_fault_of(const struct lcrvm_store *store);

/* How large the store is; of NULL, NULL. */
const struct lcrvm_geometry *lcrvm_geometry_of(const struct lcrvm_store *store);

/* A status in words, as `Full` or `store in use`; of a number that is none, `no status`. */
const char *lcrvm_status_text(enum lcrvm_status status);

#ifdef __cplusplus
}
#endif

#endif
