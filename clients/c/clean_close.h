/* The record that a close leaves where all of a store is stable. An opening that finds each file as the record says
   has nothing to sync. It empties the record; the file stays, so that the folder is not changed each time. The record
   is never synced itself: where it is lost, all is synced.

   A write gives its file the time of the system's clock, which stands still between two ticks. So a file that is not
   older than the record is set back by a nanosecond, to a time that no later write gives it. */
#ifndef LCRVM_CLEAN_CLOSE_H
#define LCRVM_CLEAN_CLOSE_H

#include "store.h"

#include <sys/resource.h>
#include <time.h>

enum {
    RECORD_BYTES = 4096, /* more than a record has */
    BOOT_BYTES = 37,
    NANOSECONDS = 1000000000,
    /* What has a line in the record: the folder, the file of the size, and then those of the areas. */
    FOLDER_LINE = 0,
    SIZE_LINE,
    FIRST_AREA_LINE
};

static const char record_name[] = "lcrvm.clean";
static const char boot_name[] = "/proc/sys/kernel/random/boot_id"; /* another one after each start of the system */

struct record {
    char text[RECORD_BYTES];
    size_t len;
};

static int file_of_line(const struct lcrvm_store *store, uint32_t line)
{
    return store->kept.of[line == FOLDER_LINE ? FOLDER : line - FIRST_AREA_LINE];
}

static bool look_at_line(const struct lcrvm_store *store, uint32_t line, struct stat *at)
{
    if (line == SIZE_LINE)
        return fstatat(store->kept.of[FOLDER], size_name, at, 0) == 0;
    return fstat(file_of_line(store, line), at) == 0;
}

/* Opens the record, which has to be a regular file: under its descriptor, or -1. */
static int open_record(struct lcrvm_store *store, int access, struct stat *at)
{
    int file = open_kept(&store->kept, ONE_FILE, store->kept.of[FOLDER], record_name, access | O_NOFOLLOW);

    return file >= 0 && fstat(file, at) == 0 && S_ISREG(at->st_mode) ? file : -1;
}

/* ---- what a record says */

static bool add_boot(struct descriptors *kept, struct record *record)
{
    int file = open_kept(kept, ONE_FILE, AT_FDCWD, boot_name, O_RDONLY);
    bool is_read = file >= 0 && read_whole(file, (uint8_t *)record->text + record->len, BOOT_BYTES, 0);

    close_kept(kept, ONE_FILE);
    record->len += BOOT_BYTES;
    return is_read;
}

static bool add_line_of(struct record *record, const struct stat *at)
{
    record->len += (size_t)snprintf(record->text + record->len, sizeof record->text - record->len,
                                    "%ju %ju %jd %jd.%09ld %jd.%09ld\n", (uintmax_t)at->st_dev, (uintmax_t)at->st_ino,
                                    (intmax_t)at->st_size, (intmax_t)at->st_mtim.tv_sec, (long)at->st_mtim.tv_nsec,
                                    (intmax_t)at->st_ctim.tv_sec, (long)at->st_ctim.tv_nsec);
    return record->len < sizeof record->text;
}

/* Writes the record of the store as it stands, where all of it can be told. */
static bool describe(struct lcrvm_store *store, struct record *record)
{
    struct stat at;
    bool is_told;

    record->len = (size_t)snprintf(record->text, sizeof record->text, "format 1\nboot ");
    is_told = add_boot(&store->kept, record);
    for (uint32_t line = 0; line < FIRST_AREA_LINE + store->areas && is_told; line++)
        is_told = look_at_line(store, line, &at) && add_line_of(record, &at);
    return is_told;
}

/* ---- the times of files */

static bool is_before(const struct timespec *one, const struct timespec *other)
{
    return one->tv_sec < other->tv_sec || (one->tv_sec == other->tv_sec && one->tv_nsec < other->tv_nsec);
}

/* Gives a file the time in front of this one. */
static void set_before(const struct lcrvm_store *store, uint32_t line, const struct timespec *time)
{
    struct timespec times[] = {{.tv_nsec = UTIME_OMIT}, *time};

    if (times[1].tv_nsec-- == 0)
        times[1] = (struct timespec){time->tv_sec - 1, NANOSECONDS - 1};
    if (line == SIZE_LINE)
        utimensat(store->kept.of[FOLDER], size_name, times, 0);
    else
        futimens(file_of_line(store, line), times);
}

/* Makes a file older than the record; whether it is, by the same clock. */
static bool make_older(const struct lcrvm_store *store, uint32_t line, const struct stat *record)
{
    struct stat at;

    if (look_at_line(store, line, &at) && !is_before(&at.st_mtim, &record->st_mtim))
        set_before(store, line, &record->st_mtim);
    return look_at_line(store, line, &at) && is_before(&at.st_mtim, &record->st_mtim) && at.st_dev == record->st_dev;
}

/* ---- the close */

/* Whether all that was written is stable, and so the names, which nobody has changed since the opening. */
static bool is_all_stable(const struct lcrvm_store *store)
{
    const struct timespec *named = &store->names;
    struct stat at;
    bool is_stable = store->stated.nodes > 0 && look_at_line(store, FOLDER_LINE, &at) &&
                     at.st_mtim.tv_sec == named->tv_sec && at.st_mtim.tv_nsec == named->tv_nsec;

    for (uint32_t place = 0; place < store->areas; place++)
        is_stable = is_stable && store->stable[place];
    return is_stable;
}

/* Makes an empty record, or takes the one that is there, and gives it the time of the file system's clock. Times of
   whole seconds tell too little. */
static bool begin_record(struct lcrvm_store *store, struct stat *at)
{
    int file = open_record(store, O_WRONLY | O_CREAT, at);
    bool is_begun = file >= 0 && at->st_size == 0 && futimens(file, NULL) == 0 && fstat(file, at) == 0 &&
                    at->st_mtim.tv_nsec != 0;

    close_kept(&store->kept, ONE_FILE);
    return is_begun;
}

/* Makes one write, and none that would meet the limit of a file's length: a signal might end the process. */
static void fill_record(struct lcrvm_store *store, const struct record *record)
{
    struct rlimit most;
    struct stat at;
    int file = open_record(store, O_WRONLY, &at);

    if (file >= 0 && getrlimit(RLIMIT_FSIZE, &most) == 0 && record->len <= most.rlim_cur &&
        write(file, record->text, record->len) != (ssize_t)record->len)
        (void)!ftruncate(file, 0);
    close_kept(&store->kept, ONE_FILE);
}

/* Leaves the record of a store that has ended well, or an empty one. */
static void leave_record(struct lcrvm_store *store)
{
    struct record record;
    struct stat at;
    bool is_right = is_all_stable(store) && begin_record(store, &at);

    for (uint32_t line = 0; line < FIRST_AREA_LINE + store->areas && is_right; line++)
        is_right = make_older(store, line, &at);
    if (is_right && describe(store, &record))
        fill_record(store, &record);
}

/* ---- the opening */

/* Reads the record and empties it; whether there was one. */
static bool take_text(struct lcrvm_store *store, struct record *record)
{
    struct stat at;
    int file = open_record(store, O_RDWR, &at);
    ssize_t len = file >= 0 ? read(file, record->text, sizeof record->text) : 0;
    bool is_taken = len > 0 && ftruncate(file, 0) == 0;

    close_kept(&store->kept, ONE_FILE);
    record->len = is_taken ? (size_t)len : 0;
    return is_taken;
}

/* Empties the record, before anything is written. Whether all that was read of the store is stable by it. */
static bool take_record(struct lcrvm_store *store)
{
    struct record found, now;
    struct stat at;
    bool is_stable = take_text(store, &found) && describe(store, &now) && found.len == now.len &&
                     memcmp(found.text, now.text, now.len) == 0;

    if (look_at_line(store, FOLDER_LINE, &at))
        store->names = at.st_mtim;
    for (uint32_t place = 0; place < store->areas; place++)
        store->stable[place] = is_stable;
    return is_stable;
}

#endif
