/* The files of a store in its folder: their names and locks, and what size they have. */
#ifndef LCRVM_STORE_FILES_H
#define LCRVM_STORE_FILES_H

#include "descriptors.h"
#include "stated_size.h"
#include "statuses.h"
#include "times.h"
#include "transactions.h"

#include <errno.h>
#include <fcntl.h>
#include <stdio.h>
#include <string.h>
#include <sys/file.h>
#include <sys/stat.h>
#include <sys/sysmacros.h>
#include <sys/types.h>
#include <time.h>
#include <unistd.h>

enum { NAME_BYTES = 16 };

static const char log_kind[] = "log", segment_kind[] = "seg", mark[] = "fault", in_use[] = "store in use";
static const char folder_name[] = "folder"; /* how the folder of a store is named where its path is not known */
static const char copy_end[] = ".new"; /* the end of the name of a file that is not whole yet */

/* ---- what failed */

/* Fills a fault of a file with its name, and a reason after it. */
static enum lcrvm_status fault_of_file(struct lcrvm_fault *fault, enum lcrvm_status status, const char *name,
                                       const char *reason)
{
    fill_fault(fault, status, "");
    snprintf(fault->text, sizeof fault->text, "%s: %s", name, reason);
    return status;
}

/* Fills a fault of a file with its name and the system's reason. */
static enum lcrvm_status file_failed(struct lcrvm_fault *fault, const char *name)
{
    const int error = errno;

    fault_of_file(fault, LCRVM_DEVICE_FAULT, name, strerror(error));
    fault->error = error;
    return fault->status;
}

/* Fills a fault of the folder with the end of its path, which may be long, and the system's reason. */
static enum lcrvm_status folder_failed(struct lcrvm_fault *fault, enum lcrvm_status status, const char *path)
{
    enum { SHOWN = 160 };
    const int error = errno;
    const size_t length = strlen(path);

    fill_fault(fault, status, "");
    if (length == 0)
        snprintf(fault->text, sizeof fault->text, "the path is empty");
    else
        snprintf(fault->text, sizeof fault->text, "%s%s: %s", length > SHOWN ? ".." : "",
                 length > SHOWN ? path + length - SHOWN : path, strerror(error));
    fault->error = error;
    return status;
}

/* Says one thing more of a file, on a line of its own. For all lines that find no room there is one of two dots. */
static void add_line(struct lcrvm_fault *fault, const char *name, const char *what)
{
    static const char dots[] = "\n..";
    size_t used = strlen(fault->text), room = sizeof fault->text - used;
    char line[sizeof fault->text];
    int length = snprintf(line, sizeof line, "\n%s: %s", name, what);

    if (used >= sizeof dots && strcmp(fault->text + used + 1 - sizeof dots, dots) == 0)
        return;
    if ((size_t)length + sizeof dots <= room)
        strcpy(fault->text + used, line);
    else if (sizeof dots <= room)
        strcpy(fault->text + used, dots);
}

/* ---- calls on files */

static bool write_whole(int file, const uint8_t *bytes, size_t len, uint64_t at)
{
    while (len > 0) {
        ssize_t written = pwrite(file, bytes, len, (off_t)at);

        if (written < 0) {
            if (errno == EINTR)
                continue;
            return false;
        }
        if (written == 0) {
            errno = EIO;
            return false;
        }
        bytes += written;
        at += (uint64_t)written;
        len -= (size_t)written;
    }
    return true;
}

static bool read_whole(int file, uint8_t *bytes, size_t len, uint64_t at)
{
    while (len > 0) {
        ssize_t got = pread(file, bytes, len, (off_t)at);

        if (got < 0) {
            if (errno == EINTR)
                continue;
            return false;
        }
        if (got == 0) {
            errno = EIO;
            return false;
        }
        bytes += got;
        at += (uint64_t)got;
        len -= (size_t)got;
    }
    return true;
}

/* Makes what was written to a file stable, by fdatasync or fsync. */
static bool make_stable(int file, int (*sync)(int file))
{
    while (sync(file) != 0)
        if (errno != EINTR)
            return false;
    return true;
}

static int open_folder(struct descriptors *kept, int slot, int beside, const char *path)
{
    return open_kept(kept, slot, beside, path, O_RDONLY | O_DIRECTORY);
}

/* ---- names */

static void write_name(const char *kind, uint32_t number, char name[NAME_BYTES])
{
    snprintf(name, NAME_BYTES, "%s%u", kind, (unsigned)number);
}

static void name_of(const struct lcrvm_geometry *geometry, uint32_t place, char name[NAME_BYTES])
{
    if (place < geometry->nodes)
        write_name(log_kind, place, name);
    else
        write_name(segment_kind, place - geometry->nodes + 1, name);
}

/* OK where nothing stands under a name, EXISTS where something does, and then the name is said. A link counts,
   wherever it leads. */
static enum lcrvm_status look_at(int folder, const char *name, struct lcrvm_fault *fault)
{
    struct stat at;

    if (fstatat(folder, name, &at, AT_SYMLINK_NOFOLLOW) == 0)
        return fill_fault(fault, LCRVM_EXISTS, name);
    return errno == ENOENT ? LCRVM_OK : file_failed(fault, name);
}

/* Opens a file of a store, which has to be a regular one: under its descriptor, or -1. */
static int open_regular(struct descriptors *kept, int slot, const char *name, int access, struct lcrvm_fault *fault)
{
    struct stat at;
    int file;

    if (fstatat(kept->of[FOLDER], name, &at, 0) != 0) {
        file_failed(fault, name);
        return -1;
    }
    file = S_ISREG(at.st_mode) ? open_kept(kept, slot, kept->of[FOLDER], name, access) : -1;
    if (S_ISREG(at.st_mode) && file < 0) {
        file_failed(fault, name);
        return -1;
    }
    if (file < 0 || fstat(file, &at) != 0 || !S_ISREG(at.st_mode)) {
        fault_of_file(fault, LCRVM_DEVICE_FAULT, name, "not a regular file");
        close_kept(kept, slot);
        return -1;
    }
    return file;
}

/* ---- locks */

/* Locks what is open until it is unlocked, unless it is locked already. */
static bool lock(int file)
{
    while (flock(file, LOCK_EX | LOCK_NB) != 0)
        if (errno != EINTR)
            return false;
    return true;
}

/* Tries to lock what is open, for so long at most: no lock of the system's can be waited for with an end. */
static bool lock_within(int file, uint32_t milliseconds)
{
    static const struct timespec briefly = {0, 5000000};
    const struct timespec until = time_after(milliseconds);
    bool locked = lock(file);

    while (!locked && errno == EWOULDBLOCK && milliseconds > 0 && (milliseconds == UINT32_MAX || !is_past(&until))) {
        nanosleep(&briefly, NULL);
        locked = lock(file);
    }
    return locked;
}

/* The process that has what is open locked, by the system's list of locks; 0 if that does not tell. */
static long locked_by(int file)
{
    FILE *locks = fopen("/proc/locks", "re");
    char line[256];
    struct stat at;
    long process = 0;

    if (locks == NULL)
        return 0;
    while (fstat(file, &at) == 0 && process == 0 && fgets(line, sizeof line, locks) != NULL) {
        unsigned long long inode;
        unsigned major_number, minor_number;
        long owner;

        if (sscanf(line, "%*[^:]: FLOCK %*s %*s %ld %x:%x:%llu", &owner, &major_number, &minor_number, &inode) == 4 &&
            inode == at.st_ino && major_number == major(at.st_dev) && minor_number == minor(at.st_dev))
            process = owner;
    }
    fclose(locks);
    return process > 0 ? process : 0;
}

/* Fills a fault of a file or a folder that is locked, with the process that has it. */
static enum lcrvm_status is_in_use(struct lcrvm_fault *fault, const char *name, int file)
{
    const long process = locked_by(file);
    char reason[64];

    snprintf(reason, sizeof reason, process > 0 ? "%s by process %ld" : "%s", in_use, process);
    return name != NULL ? fault_of_file(fault, LCRVM_STORE_IN_USE, name, reason)
                        : fill_fault(fault, LCRVM_STORE_IN_USE, reason);
}

/* Locks the folder, so that no other process makes or opens a store there until it is unlocked. */
static enum lcrvm_status lock_folder(int folder, const char *path, uint32_t milliseconds, struct lcrvm_fault *fault)
{
    if (lock_within(folder, milliseconds))
        return LCRVM_OK;
    return errno == EWOULDBLOCK ? is_in_use(fault, NULL, folder) : folder_failed(fault, LCRVM_DEVICE_FAULT, path);
}

/* Locks a file, so that no other process opens it by another folder, where it may have a name too. */
static enum lcrvm_status lock_file(int file, const char *name, struct lcrvm_fault *fault)
{
    if (lock(file))
        return LCRVM_OK;
    return errno == EWOULDBLOCK ? is_in_use(fault, name, file) : file_failed(fault, name);
}

/* ---- the size of a store by its files */

struct row {
    uint32_t count;
    uint64_t len;
};

static enum lcrvm_status no_store(struct lcrvm_fault *fault, const char *kind, uint32_t number, const char *why)
{
    fill_fault(fault, LCRVM_NO_STORE, "");
    snprintf(fault->text, sizeof fault->text, "%s%u %s", kind, (unsigned)number, why);
    return LCRVM_NO_STORE;
}

/* NO_STORE if nothing stands under the name of the first log. */
static enum lcrvm_status look_for_store(int folder, struct lcrvm_fault *fault)
{
    char name[NAME_BYTES];
    enum lcrvm_status status;

    write_name(log_kind, 0, name);
    status = look_at(folder, name, fault);
    if (status == LCRVM_OK)
        return no_store(fault, log_kind, 0, "is missing");
    return status == LCRVM_EXISTS ? LCRVM_OK : status;
}

/* How many files of a kind there are, from the first on, each as long as the first. */
static enum lcrvm_status find_row(int folder, const char *kind, uint32_t first, uint32_t most, struct row *row,
                                  struct lcrvm_fault *fault)
{
    char name[NAME_BYTES];
    struct stat at;

    *row = (struct row){0};
    for (uint32_t place = 0; place < most; place++) {
        write_name(kind, first + place, name);
        if (fstatat(folder, name, &at, 0) != 0) {
            if (errno != ENOENT)
                return file_failed(fault, name);
            continue;
        }
        if (row->count < place)
            return no_store(fault, kind, first + row->count, "is missing");
        if (place > 0 && (uint64_t)at.st_size != row->len)
            return no_store(fault, kind, first + place, "has another length than the first");
        *row = (struct row){.count = place + 1, .len = (uint64_t)at.st_size};
    }
    return row->count > 0 ? LCRVM_OK : no_store(fault, kind, first, "is missing");
}

/* How many things of so many bytes there are in this length, if they fill it. */
static bool count_in(uint64_t len, uint64_t each, uint64_t least_count, uint64_t most_count, uint32_t *count)
{
    if (len % each != 0 || len / each < least_count || len / each > most_count)
        return false;
    *count = (uint32_t)(len / each);
    return true;
}

static enum lcrvm_status find_size(int folder, struct lcrvm_geometry *found, struct lcrvm_fault *fault)
{
    struct row logs, segments;
    enum lcrvm_status status = find_row(folder, log_kind, 0, MOST_NODES, &logs, fault);

    if (status == LCRVM_OK)
        status = find_row(folder, segment_kind, 1, MOST_SEGMENTS, &segments, fault);
    if (status != LCRVM_OK)
        return status;
    if (!count_in(logs.len, WORD_BYTES, LEAST_WORDS + 1, MOST_WORDS + 1, &found->words))
        return no_store(fault, log_kind, 0, "has a length of no store");
    if (!count_in(segments.len, PAGE_AREA_BYTES, 1, MOST_PAGES, &found->pages))
        return no_store(fault, segment_kind, 1, "has a length of no store");
    found->words--;
    found->nodes = logs.count;
    found->segments = segments.count;
    return LCRVM_OK;
}

/* ---- the size that a folder states */

/* Takes the size from its file, which has nothing else. */
static enum lcrvm_status take_stated(int file, struct lcrvm_geometry *stated, struct lcrvm_fault *fault)
{
    char text[SIZE_BYTES] = "";
    struct stat at;
    size_t len;

    if (fstat(file, &at) != 0)
        return file_failed(fault, size_name);
    len = at.st_size < (off_t)sizeof text ? (size_t)at.st_size : 0;
    if (!read_whole(file, (uint8_t *)text, len, 0))
        return file_failed(fault, size_name);
    if (!read_size(text, len, stated))
        return fault_of_file(fault, LCRVM_DEVICE_FAULT, size_name, "not the size of a store");
    return LCRVM_OK;
}

/* Takes the size that a folder states; where it states none, that stays as it was. */
static enum lcrvm_status read_stated(struct descriptors *kept, struct lcrvm_geometry *stated, struct lcrvm_fault *fault)
{
    enum lcrvm_status status = look_at(kept->of[FOLDER], size_name, fault);
    int file;

    if (status != LCRVM_EXISTS)
        return status;
    file = open_regular(kept, ONE_FILE, size_name, O_RDONLY, fault);
    status = file < 0 ? fault->status : take_stated(file, stated, fault);
    close_kept(kept, ONE_FILE);
    return status;
}

/* Whether the files of two sizes have one name and length at a place. Where one has no more they have not. */
static bool is_same_at(const struct lcrvm_geometry *one, const struct lcrvm_geometry *other, uint32_t place)
{
    char name[NAME_BYTES], other_name[NAME_BYTES];

    if (place >= areas_of(one) || place >= areas_of(other))
        return false;
    name_of(one, place, name);
    name_of(other, place, other_name);
    return strcmp(name, other_name) == 0 && len_of(one, place) == len_of(other, place);
}

/* The geometry is not that which is stated, from an area on: a file of the other is missing, or it is said. */
static enum lcrvm_status other_than_stated(int folder, const struct lcrvm_geometry *stated, uint32_t area,
                                           struct lcrvm_fault *fault)
{
    enum lcrvm_status status = LCRVM_EXISTS;
    char name[NAME_BYTES];

    for (uint32_t place = 0; place < areas_of(stated) && status == LCRVM_EXISTS; place++) {
        name_of(stated, place, name);
        status = look_at(folder, name, fault);
    }
    fill_fault(fault, LCRVM_BAD_GEOMETRY, "");
    fault->area = area;
    if (status == LCRVM_OK)
        snprintf(fault->text, sizeof fault->text, "%s is missing", name);
    else
        snprintf(fault->text, sizeof fault->text, "%s: nodes %u segments %u pages %u words %u", size_name,
                 (unsigned)stated->nodes, (unsigned)stated->segments, (unsigned)stated->pages, (unsigned)stated->words);
    return LCRVM_BAD_GEOMETRY;
}

/* Whether the geometry is that which is stated, but for the threads. */
static enum lcrvm_status compare_to_stated(int folder, const struct lcrvm_geometry *geometry,
                                           const struct lcrvm_geometry *stated, struct lcrvm_fault *fault)
{
    uint32_t place = 0;

    while (is_same_at(geometry, stated, place))
        place++;
    if (place == areas_of(geometry) && place == areas_of(stated))
        return LCRVM_OK;
    return other_than_stated(folder, stated, place, fault);
}

#endif
