/* What is done in a folder that a fault has marked: a page that could not be written is called clean by the
   system, and is not written again where it stands. So a stable copy is put in the place of each file, and the
   mark is taken away. What the system had of a file in its memory alone is on the device then, or was lost and is
   read so. */
#ifndef LCRVM_RENEWED_FILES_H
#define LCRVM_RENEWED_FILES_H

#include "store_files.h"

#include <limits.h>

enum { MOST_LINKS = 40, COPIED_BYTES = 4096 };

/* Where a file stands: in the folder that is open by this slot, under this name. */
struct place_of_file {
    int slot;
    char name[PATH_MAX];
    char copy[PATH_MAX + sizeof copy_end];
};

/* Goes to where a link leads from this place, one link further; whether it could. */
static bool follow_link(struct descriptors *kept, struct place_of_file *place, char *target)
{
    char *slash = strrchr(target, '/');
    int from = place->slot, to = from == OTHER_FOLDER ? FURTHER_FOLDER : OTHER_FOLDER;

    if (slash == NULL) {
        strcpy(place->name, target);
        return true;
    }
    strcpy(place->name, slash + 1);
    slash[1] = '\0';
    place->slot = to;
    open_folder(kept, to, kept->of[from], target);
    if (from != FOLDER)
        close_kept(kept, from);
    return kept->of[to] >= 0;
}

/* Finds where the file of this name stands: of a link that is where it leads to. */
static bool find_place(struct descriptors *kept, const char *name, struct place_of_file *place)
{
    char target[PATH_MAX];

    place->slot = FOLDER;
    strcpy(place->name, name);
    for (int links = 0; links <= MOST_LINKS; links++) {
        ssize_t len = readlinkat(kept->of[place->slot], place->name, target, sizeof target - 1);

        if (len < 0 && errno == EINVAL) {
            snprintf(place->copy, sizeof place->copy, "%s%s", place->name, copy_end);
            return true;
        }
        if (len < 0)
            return false;
        target[len] = '\0';
        if (!follow_link(kept, place, target))
            return false;
    }
    errno = ELOOP;
    return false;
}

/* Removes a file, if there is one. What is no regular file, a link also, is neither followed nor removed, but a
   fault. */
static enum lcrvm_status remove_regular(int folder, const char *name, const char *said, struct lcrvm_fault *fault)
{
    struct stat at;

    if (fstatat(folder, name, &at, AT_SYMLINK_NOFOLLOW) != 0)
        return errno == ENOENT ? LCRVM_OK : file_failed(fault, said);
    if (!S_ISREG(at.st_mode))
        return fault_of_file(fault, LCRVM_DEVICE_FAULT, said, "not a regular file");
    return unlinkat(folder, name, 0) == 0 ? LCRVM_OK : file_failed(fault, said);
}

static bool copy_owner_and_mode(int from, int to)
{
    struct stat old, new;

    if (fstat(from, &old) != 0 || fstat(to, &new) != 0)
        return false;
    if ((new.st_uid != old.st_uid || new.st_gid != old.st_gid) && fchown(to, old.st_uid, old.st_gid) != 0)
        return false;
    return fchmod(to, old.st_mode & 07777) == 0;
}

/* Copies the first so many bytes of an open file; a fault of reading is that of the file, and else of its copy. */
static enum lcrvm_status copy_bytes(int from, int to, size_t len, const char *name, const char *named,
                                    struct lcrvm_fault *fault)
{
    uint8_t bytes[COPIED_BYTES];

    for (size_t at = 0; at < len; at += sizeof bytes) {
        size_t count = len - at < sizeof bytes ? len - at : sizeof bytes;

        if (!read_whole(from, bytes, count, at))
            return file_failed(fault, name);
        if (!write_whole(to, bytes, count, at))
            return file_failed(fault, named);
    }
    return LCRVM_OK;
}

/* Fills a copy that is open, and makes it stable. */
static enum lcrvm_status fill_copy(int from, int to, size_t len, const char *name, const char *named,
                                   struct lcrvm_fault *fault)
{
    enum lcrvm_status status;

    if (!copy_owner_and_mode(from, to))
        return file_failed(fault, named);
    status = copy_bytes(from, to, len, name, named, fault);
    return status == LCRVM_OK && !make_stable(to, fsync) ? file_failed(fault, named) : status;
}

/* Makes the copy of a file that is open beside it, and puts it in its place. Of a link the folder that it leads to
   is synced: it may be another one. */
static enum lcrvm_status replace_file(struct descriptors *kept, int from, size_t len, const char *name,
                                      const struct place_of_file *place, struct lcrvm_fault *fault)
{
    int folder = kept->of[place->slot], to;
    char named[NAME_BYTES + sizeof copy_end];
    enum lcrvm_status status;

    snprintf(named, sizeof named, "%s%s", name, copy_end);
    status = remove_regular(folder, place->copy, named, fault);
    if (status != LCRVM_OK)
        return status;
    to = open_kept(kept, ONE_FILE, folder, place->copy, O_RDWR | O_CREAT | O_EXCL);
    status = to >= 0 ? fill_copy(from, to, len, name, named, fault) : file_failed(fault, named);
    close_kept(kept, ONE_FILE);
    if (status == LCRVM_OK && renameat(folder, place->copy, folder, place->name) != 0)
        status = file_failed(fault, named);
    if (status != LCRVM_OK && kept->made)
        unlinkat(folder, place->copy, 0);
    if (status == LCRVM_OK && place->slot != FOLDER && !make_stable(folder, fsync))
        status = file_failed(fault, name);
    return status;
}

/* Puts a copy in the place of the file of an area, which is open and locked. */
static enum lcrvm_status renew_file(struct descriptors *kept, const struct lcrvm_geometry *geometry, uint32_t area,
                                    struct lcrvm_fault *fault)
{
    struct place_of_file place;
    char name[NAME_BYTES];
    enum lcrvm_status status;

    name_of(geometry, area, name);
    if (find_place(kept, name, &place))
        status = replace_file(kept, kept->of[area], len_of(geometry, area), name, &place, fault);
    else
        status = file_failed(fault, name);
    close_kept(kept, OTHER_FOLDER);
    close_kept(kept, FURTHER_FOLDER);
    return status;
}

/* Renews all files of a store, makes their names stable, and takes the mark away last. */
static enum lcrvm_status renew_files(struct descriptors *kept, const struct lcrvm_geometry *geometry,
                                     struct lcrvm_fault *fault)
{
    enum lcrvm_status status = LCRVM_OK;

    for (uint32_t area = 0; area < areas_of(geometry) && status == LCRVM_OK; area++)
        status = renew_file(kept, geometry, area, fault);
    if (status == LCRVM_OK && !make_stable(kept->of[FOLDER], fsync))
        status = file_failed(fault, folder_name);
    return status == LCRVM_OK ? remove_regular(kept->of[FOLDER], mark, mark, fault) : status;
}

#endif
