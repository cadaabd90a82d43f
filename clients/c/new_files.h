/* How the files of a store are made: of zeros, or of what the areas of another store hold. */
#ifndef LCRVM_NEW_FILES_H
#define LCRVM_NEW_FILES_H

#include "store_files.h"

enum { PIECE_BYTES = 4096 /* of zeros, that are written at once */ };

/* A store that is to be made. */
struct new_store {
    const char *path;
    const struct lcrvm_geometry *geometry;
    const uint8_t *bytes; /* what its areas hold, one after another; NULL for zeros */
    bool is_folder_new;
    struct descriptors kept;
};

static bool write_zeros(int file, size_t len)
{
    static const uint8_t zeros[PIECE_BYTES];
    size_t piece;

    for (size_t at = 0; at < len; at += piece) {
        piece = len - at < sizeof zeros ? len - at : sizeof zeros;
        if (!write_whole(file, zeros, piece, at))
            return false;
    }
    return true;
}

/* The files in the order in which they are made: that of the size, and then those of the areas. */

static void name_of_new(const struct lcrvm_geometry *geometry, uint32_t number, char name[NAME_BYTES])
{
    if (number == 0)
        snprintf(name, NAME_BYTES, "%s", size_name);
    else
        name_of(geometry, number - 1, name);
}

/* How many bytes the areas in front of this place have. */
static size_t bytes_before(const struct lcrvm_geometry *geometry, uint32_t place)
{
    size_t bytes = 0;

    for (uint32_t other = 0; other < place; other++)
        bytes += len_of(geometry, other);
    return bytes;
}

static bool fill_file(int file, const struct new_store *new, uint32_t number)
{
    const struct lcrvm_geometry *geometry = new->geometry;
    char text[SIZE_BYTES];

    if (number == 0)
        return write_whole(file, (const uint8_t *)text, write_size(geometry, text), 0);
    if (new->bytes == NULL)
        return write_zeros(file, len_of(geometry, number - 1));
    return write_whole(file, new->bytes + bytes_before(geometry, number - 1), len_of(geometry, number - 1), 0);
}

/* Takes a file or a folder away that was made; where it cannot, it says so. */
static void take_away(int folder, const char *name, int flags, struct lcrvm_fault *fault)
{
    if (unlinkat(folder, name, flags) != 0 && errno != ENOENT)
        add_line(fault, name, "left in place");
}

/* Makes a file, or none. That of an area which is copied gets its name once it is stable: so a copy that was cut is
   no store. */
static enum lcrvm_status make_file(struct new_store *new, uint32_t number, struct lcrvm_fault *fault)
{
    int folder = new->kept.of[FOLDER], file;
    char name[NAME_BYTES], first[NAME_BYTES + sizeof copy_end];
    bool is_copied = new->bytes != NULL && number > 0;
    enum lcrvm_status status = LCRVM_OK;

    name_of_new(new->geometry, number, name);
    snprintf(first, sizeof first, "%s%s", name, is_copied ? copy_end : "");
    file = open_kept(&new->kept, ONE_FILE, folder, first, O_RDWR | O_CREAT | O_EXCL);
    if (file < 0 || !fill_file(file, new, number) || !make_stable(file, fsync) ||
        (is_copied && renameat(folder, first, folder, name) != 0)) {
        status = file_failed(fault, name);
        if (new->kept.made)
            take_away(folder, first, 0, fault);
    }
    close_kept(&new->kept, ONE_FILE);
    return status;
}

/* Makes the names in the folder stable, and then its own. That the folder which it stands in cannot be synced is
   no fault where it was there. */
static bool sync_names(struct new_store *new)
{
    int parent;
    bool synced;

    if (!make_stable(new->kept.of[FOLDER], fsync))
        return false;
    parent = open_folder(&new->kept, OTHER_FOLDER, new->kept.of[FOLDER], "..");
    synced = parent >= 0 && make_stable(parent, fsync);
    close_kept(&new->kept, OTHER_FOLDER);
    return synced || !new->is_folder_new;
}

/* Looks at the names of all areas that a store may have, with this at the end of each. */
static enum lcrvm_status look_at_areas(int folder, const char *end, struct lcrvm_fault *fault)
{
    char name[NAME_BYTES];
    enum lcrvm_status status = LCRVM_OK;

    for (uint32_t place = 0; place < MOST_AREAS && status == LCRVM_OK; place++) {
        name_of(&greatest, place, name);
        strcat(name, end);
        status = look_at(folder, name, fault);
    }
    return status;
}

/* Looks at all names that stand in the folder of a store, at any time. */
static enum lcrvm_status look_at_all(int folder, struct lcrvm_fault *fault)
{
    enum lcrvm_status status = look_at(folder, size_name, fault);

    if (status == LCRVM_OK)
        status = look_at_areas(folder, "", fault);
    if (status == LCRVM_OK)
        status = look_at(folder, mark, fault);
    return status == LCRVM_OK ? look_at_areas(folder, copy_end, fault) : status;
}

/* Makes the files, or none: where it fails, those that were made are taken away, the last first. */
static enum lcrvm_status make_files(struct new_store *new, struct lcrvm_fault *fault)
{
    uint32_t files = 1 + areas_of(new->geometry), made = 0;
    char name[NAME_BYTES];
    enum lcrvm_status status = LCRVM_OK;

    while (made < files && (status = make_file(new, made, fault)) == LCRVM_OK)
        made++;
    if (status == LCRVM_OK && !sync_names(new))
        status = file_failed(fault, folder_name);
    while (status != LCRVM_OK && made > 0) {
        name_of_new(new->geometry, --made, name);
        take_away(new->kept.of[FOLDER], name, 0, fault);
    }
    return status;
}

/* Opens the folder, which is made where it is missing; another process may make it, or take it away, at once. */
static enum lcrvm_status open_or_make(struct new_store *new, struct lcrvm_fault *fault)
{
    if (open_folder(&new->kept, FOLDER, AT_FDCWD, new->path) >= 0)
        return LCRVM_OK;
    if (errno != ENOENT)
        return folder_failed(fault, LCRVM_DEVICE_FAULT, new->path);
    new->is_folder_new = mkdirat(AT_FDCWD, new->path, 0777) == 0;
    if (!new->is_folder_new && errno != EEXIST)
        return folder_failed(fault, LCRVM_DEVICE_FAULT, new->path);
    if (open_folder(&new->kept, FOLDER, AT_FDCWD, new->path) < 0)
        return folder_failed(fault, LCRVM_DEVICE_FAULT, new->path);
    return LCRVM_OK;
}

/* All names are looked at before the first file is made. */
static enum lcrvm_status make_in_folder(struct new_store *new, struct lcrvm_fault *fault)
{
    enum lcrvm_status status = look_at_all(new->kept.of[FOLDER], fault);

    if (status == LCRVM_OK)
        status = lock_folder(new->kept.of[FOLDER], new->path, 0, fault);
    return status == LCRVM_OK ? make_files(new, fault) : status;
}

/* Makes a store of this size in a folder. */
static enum lcrvm_status make_store(const char *path, const struct lcrvm_geometry *geometry, const uint8_t *bytes,
                                    struct lcrvm_fault *fault)
{
    struct new_store new = {.path = path, .geometry = geometry, .bytes = bytes};
    enum lcrvm_status status;

    if (!follows_forks)
        return fill_fault(fault, LCRVM_NO_MEMORY, "");
    keep_descriptors(&new.kept);
    status = open_or_make(&new, fault);
    if (status == LCRVM_OK)
        status = make_in_folder(&new, fault);
    /* Where another process makes a store in the folder, it is no more to be taken away. */
    if (new.is_folder_new && status != LCRVM_OK && status != LCRVM_EXISTS && status != LCRVM_STORE_IN_USE)
        take_away(AT_FDCWD, path, AT_REMOVEDIR, fault);
    release_descriptors(&new.kept);
    return status;
}

#endif
