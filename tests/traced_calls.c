/* Loaded before the C library: writes down the calls that a program makes on the files below a folder, and what it prints;
   fails one of them, or holds one sync. All calls are single, so the program has one thread.

   CALLS_FOLDER   paths that begin so are looked at, and what is open under them
   CALLS_TRACE    the file to which the calls are added, in the order in which they ended; tests/power.py reads it
   CALLS_FAILED   the number of the call that fails, from 1 on, and does nothing
   CALLS_ERROR    its error's number
   CALLS_KIND     the kind of call that is counted and fails, where not any: stat, open, pread, pwrite, sync, rename, unlink, flock,
                  chmod
   CALLS_MARK     the file that then has the kind of the failed call and its path, on a line; and `again` before those of each
                  later read, write or sync of the same path
   CALLS_HALF     half of the bytes of a failed write are written where this is set
   CALLS_IDLE     no sync is made where this is set; each answers that it was
   CALLS_HELD     the number of the sync that is held
   CALLS_GATE     the file that stands while it is held, and whose removal lets it go on */
#define _GNU_SOURCE
#include <dlfcn.h>
#include <errno.h>
#include <fcntl.h>
#include <stdarg.h>
#include <stdio.h>
#include <stdlib.h>
#include <string.h>
#include <sys/stat.h>
#include <sys/syscall.h>
#include <sys/types.h>
#include <unistd.h>

#define MOST 1024

static char *paths[MOST];
static long made, syncs;
static char *failed;

static int is_below(const char *path)
{
    const char *folder = getenv("CALLS_FOLDER");
    return folder != NULL && path != NULL && strncmp(path, folder, strlen(folder)) == 0;
}

static const char *path_of(int file)
{
    return file >= 0 && file < MOST ? paths[file] : NULL;
}

/* The path of a name beside an open folder, in this room where it is made. */
static const char *whole_path(int folder, const char *path, char room[5000])
{
    if (path == NULL || path[0] == '/' || path_of(folder) == NULL)
        return path;
    snprintf(room, 5000, "%s/%s", path_of(folder), path);
    return room;
}

static void put(const char *name, const char *text, const void *bytes, size_t len, int flags)
{
    const char *path = getenv(name);
    if (path == NULL)
        return;
    int before = errno;
    int file = syscall(SYS_openat, AT_FDCWD, path, flags | O_CREAT | O_WRONLY | O_CLOEXEC, 0600);
    if (file < 0 || syscall(SYS_write, file, text, strlen(text)) < 0)
        abort();
    for (size_t done = 0; done < len;) {
        ssize_t more = syscall(SYS_write, file, (const char *)bytes + done, len - done);
        if (more <= 0)
            abort();
        done += more;
    }
    syscall(SYS_close, file);
    errno = before;
}

static void trace(const char *text, const void *bytes, size_t len)
{
    put("CALLS_TRACE", text, bytes, len, O_APPEND);
}

/* Whether this call is the one that fails. */
static int fails(const char *kind, const char *path)
{
    const char *number = getenv("CALLS_FAILED"), *error = getenv("CALLS_ERROR"), *only = getenv("CALLS_KIND");
    char line[5000];
    if (failed != NULL && strcmp(failed, path) == 0 && strstr("pread pwrite sync", kind) != NULL) {
        snprintf(line, sizeof line, "again %s %s\n", kind, path);
        put("CALLS_MARK", line, NULL, 0, O_APPEND);
    }
    if (number == NULL || (only != NULL && strcmp(only, kind) != 0) || ++made != atol(number))
        return 0;
    failed = strdup(path);
    snprintf(line, sizeof line, "%s %s\n", kind, path);
    put("CALLS_MARK", line, NULL, 0, O_TRUNC);
    errno = error == NULL ? EIO : atoi(error);
    return 1;
}

static void hold(void)
{
    const char *number = getenv("CALLS_HELD"), *gate = getenv("CALLS_GATE");
    struct stat there;
    if (number == NULL || gate == NULL || ++syncs != atol(number))
        return;
    put("CALLS_GATE", "", NULL, 0, O_TRUNC);
    for (int turns = 0; turns < 60000 && stat(gate, &there) == 0; turns++)
        usleep(1000);
}

static int opened(int folder, const char *path, int flags, mode_t mode)
{
    char line[6000], room[5000];
    const char *whole = whole_path(folder, path, room);
    if (is_below(whole) && fails("open", whole))
        return -1;
    int file = syscall(SYS_openat, folder, path, flags, mode);
    if (file >= 0 && file < MOST) {
        free(paths[file]);
        paths[file] = is_below(whole) ? strdup(whole) : NULL;
        if (paths[file] != NULL) {
            snprintf(line, sizeof line, "open %d %d %s\n", file, flags, whole);
            trace(line, NULL, 0);
        }
    }
    return file;
}

#define MODE_OF(flags) \
    mode_t mode = 0; \
    if ((flags) & (O_CREAT | __O_TMPFILE)) { \
        va_list rest; \
        va_start(rest, flags); \
        mode = va_arg(rest, mode_t); \
        va_end(rest); \
    }

int open(const char *path, int flags, ...)
{
    MODE_OF(flags)
    return opened(AT_FDCWD, path, flags, mode);
}

int open64(const char *path, int flags, ...)
{
    MODE_OF(flags)
    return opened(AT_FDCWD, path, flags, mode);
}

int openat(int folder, const char *path, int flags, ...)
{
    MODE_OF(flags)
    return opened(folder, path, flags, mode);
}

int openat64(int folder, const char *path, int flags, ...)
{
    MODE_OF(flags)
    return opened(folder, path, flags, mode);
}

/* A file under another number is the same file. */
static int numbered(int file, int command, long other)
{
    char line[5000];
    int done = syscall(SYS_fcntl, file, command, other);
    if ((command == F_DUPFD || command == F_DUPFD_CLOEXEC) && done >= 0 && done < MOST && path_of(file) != NULL) {
        free(paths[done]);
        paths[done] = strdup(paths[file]);
        snprintf(line, sizeof line, "open %d %d %s\n", done, 0, paths[done]);
        trace(line, NULL, 0);
    }
    return done;
}

int fcntl(int file, int command, ...)
{
    va_list rest;
    va_start(rest, command);
    long other = va_arg(rest, long);
    va_end(rest);
    return numbered(file, command, other);
}

int fcntl64(int file, int command, ...)
{
    va_list rest;
    va_start(rest, command);
    long other = va_arg(rest, long);
    va_end(rest);
    return numbered(file, command, other);
}

int close(int file)
{
    char line[100];
    if (path_of(file) != NULL) {
        snprintf(line, sizeof line, "close %d\n", file);
        trace(line, NULL, 0);
        free(paths[file]);
        paths[file] = NULL;
    }
    return syscall(SYS_close, file);
}

int statx(int folder, const char *restrict path, int flags, unsigned int mask, struct statx *restrict what)
{
    const char *named = path[0] == 0 ? path_of(folder) : path;
    if (is_below(named) && fails("stat", named))
        return -1;
    return syscall(SYS_statx, folder, path, flags, mask, what);
}

ssize_t pread(int file, void *bytes, size_t len, off_t at)
{
    if (path_of(file) != NULL && fails("pread", paths[file]))
        return -1;
    return syscall(SYS_pread64, file, bytes, len, at);
}

ssize_t pread64(int file, void *bytes, size_t len, off64_t at)
{
    return pread(file, bytes, len, at);
}

static void wrote(int file, const void *bytes, ssize_t len, off_t at)
{
    char line[100];
    if (len < 0)
        return;
    snprintf(line, sizeof line, "write %d %lld %zd\n", file, (long long)at, len);
    trace(line, bytes, len);
}

ssize_t pwrite(int file, const void *bytes, size_t len, off_t at)
{
    if (path_of(file) != NULL && fails("pwrite", paths[file])) {
        int error = errno;
        if (getenv("CALLS_HALF") != NULL && len > 1)
            wrote(file, bytes, syscall(SYS_pwrite64, file, bytes, len / 2, at), at);
        errno = error;
        return -1;
    }
    ssize_t put = syscall(SYS_pwrite64, file, bytes, len, at);
    if (path_of(file) != NULL)
        wrote(file, bytes, put, at);
    return put;
}

ssize_t pwrite64(int file, const void *bytes, size_t len, off64_t at)
{
    return pwrite(file, bytes, len, at);
}

ssize_t read(int file, void *bytes, size_t len)
{
    if (path_of(file) != NULL && fails("pread", paths[file]))
        return -1;
    return syscall(SYS_read, file, bytes, len);
}

ssize_t write(int file, const void *bytes, size_t len)
{
    char line[100];
    if (path_of(file) != NULL && fails("pwrite", paths[file]))
        return -1;
    off_t at = path_of(file) != NULL ? lseek(file, 0, SEEK_CUR) : 0;
    ssize_t put = syscall(SYS_write, file, bytes, len);
    if (path_of(file) != NULL)
        wrote(file, bytes, put, at);
    else if (file == 1 && put > 0) {
        snprintf(line, sizeof line, "print %zd\n", put);
        trace(line, bytes, put);
    }
    return put;
}

/* Copies are made by reads and writes, which are seen. */
ssize_t copy_file_range(int from, off64_t *from_at, int to, off64_t *to_at, size_t len, unsigned int flags)
{
    (void)from, (void)from_at, (void)to, (void)to_at, (void)len, (void)flags;
    errno = ENOSYS;
    return -1;
}

ssize_t sendfile(int to, int from, off_t *at, size_t len)
{
    (void)to, (void)from, (void)at, (void)len;
    errno = ENOSYS;
    return -1;
}

int ftruncate(int file, off_t len)
{
    char line[100];
    if (path_of(file) != NULL && fails("pwrite", paths[file]))
        return -1;
    int done = syscall(SYS_ftruncate, file, len);
    if (path_of(file) != NULL && done == 0) {
        snprintf(line, sizeof line, "truncate %d %lld\n", file, (long long)len);
        trace(line, NULL, 0);
    }
    return done;
}

int ftruncate64(int file, off64_t len)
{
    return ftruncate(file, len);
}

static int synced(int file, long call)
{
    char line[100];
    if (path_of(file) == NULL)
        return syscall(call, file);
    hold();
    int done = fails("sync", paths[file]) ? -1 : getenv("CALLS_IDLE") != NULL ? 0 : syscall(call, file);
    snprintf(line, sizeof line, "sync %d %d\n", file, done < 0 ? errno : 0);
    trace(line, NULL, 0);
    return done;
}

int fsync(int file)
{
    return synced(file, SYS_fsync);
}

int fdatasync(int file)
{
    return synced(file, SYS_fdatasync);
}

int flock(int file, int operation)
{
    if (path_of(file) != NULL && fails("flock", paths[file]))
        return -1;
    return syscall(SYS_flock, file, operation);
}

int fchmod(int file, mode_t mode)
{
    if (path_of(file) != NULL && fails("chmod", paths[file]))
        return -1;
    return syscall(SYS_fchmod, file, mode);
}

int rename(const char *from, const char *to)
{
    char line[10000];
    if (is_below(from) && fails("rename", from))
        return -1;
    int done = syscall(SYS_rename, from, to);
    if (is_below(from) && done == 0) {
        snprintf(line, sizeof line, "rename %s %s\n", from, to);
        trace(line, NULL, 0);
    }
    return done;
}

int unlinkat(int folder, const char *path, int flags)
{
    char line[5000];
    if (is_below(path) && fails("unlink", path))
        return -1;
    int done = syscall(SYS_unlinkat, folder, path, flags);
    if (is_below(path) && done == 0) {
        snprintf(line, sizeof line, "unlink %s\n", path);
        trace(line, NULL, 0);
    }
    return done;
}

int unlink(const char *path)
{
    return unlinkat(AT_FDCWD, path, 0);
}
