/* The descriptors that this process has open for stores. A child of a fork closes its copies, so that the locks end
   with the process whose store it is.

   One lock is held across a fork, `list_lock`. It is held else only while a descriptor is opened or closed, so a fork
   waits for no write or sync, and a child finds each descriptor in the list. No lock of a store is held across a
   fork: a child takes none. */
#ifndef LCRVM_DESCRIPTORS_H
#define LCRVM_DESCRIPTORS_H

#include "transactions.h"

#include <errno.h>
#include <fcntl.h>
#include <pthread.h>
#include <sys/file.h>
#include <unistd.h>

/* The slots of descriptors: the files of the areas, by their places, and these. */
enum { FOLDER = MOST_AREAS, ONE_FILE, OTHER_FOLDER, FURTHER_FOLDER, SLOTS };

enum { LEAST_DESCRIPTOR = 3 };

struct descriptors {
    int of[SLOTS]; /* -1 for none */
    bool made;     /* whether the file that was asked for last is open, or was and could not be kept so */
    struct descriptors *next;
};

static pthread_mutex_t list_lock = PTHREAD_MUTEX_INITIALIZER;
static struct descriptors *all_descriptors;
static unsigned forks; /* so many forks led to this process; a child alone writes it, where it has one thread */
static bool follows_forks;

static void close_file(int file)
{
    int reason = errno;

    if (file >= 0)
        close(file);
    errno = reason;
}

static void before_fork(void)
{
    pthread_mutex_lock(&list_lock);
}

static void after_fork(void)
{
    pthread_mutex_unlock(&list_lock);
}

/* It unlocks nothing: the parent has the locks. */
static void in_child(void)
{
    forks++;
    for (struct descriptors *kept = all_descriptors; kept != NULL; kept = kept->next)
        for (int slot = 0; slot < SLOTS; slot++) {
            close_file(kept->of[slot]);
            kept->of[slot] = -1;
        }
    all_descriptors = NULL;
    pthread_mutex_unlock(&list_lock);
}

/* As the library is loaded: there is no other thread that forks at once. */
__attribute__((constructor)) static void follow_forks(void)
{
    follows_forks = pthread_atfork(before_fork, after_fork, in_child) == 0;
}

static void keep_descriptors(struct descriptors *kept)
{
    for (int slot = 0; slot < SLOTS; slot++)
        kept->of[slot] = -1;
    pthread_mutex_lock(&list_lock);
    kept->next = all_descriptors;
    all_descriptors = kept;
    pthread_mutex_unlock(&list_lock);
}

/* The file is under no descriptor of the standard streams: what is printed would be written into it. */
static int beside_standard_streams(int file)
{
    int other;

    if (file < 0 || file >= LEAST_DESCRIPTOR)
        return file;
    other = fcntl(file, F_DUPFD_CLOEXEC, LEAST_DESCRIPTOR);
    close_file(file);
    return other;
}

/* Opens a file by this slot, which is free: under its descriptor, or -1. What is no regular file keeps nobody
   waiting. */
static int open_kept(struct descriptors *kept, int slot, int beside, const char *path, int access)
{
    int file;

    pthread_mutex_lock(&list_lock);
    file = openat(beside, path, access | O_CLOEXEC | O_NONBLOCK | O_NOCTTY, 0666);
    kept->made = file >= 0;
    file = beside_standard_streams(file);
    kept->of[slot] = file;
    pthread_mutex_unlock(&list_lock);
    return file;
}

static void close_kept(struct descriptors *kept, int slot)
{
    int reason = errno;

    pthread_mutex_lock(&list_lock);
    close_file(kept->of[slot]);
    kept->of[slot] = -1;
    pthread_mutex_unlock(&list_lock);
    errno = reason;
}

/* A child by vfork or posix_spawn has what is open too until its exec, and so the locks: they are given back here,
   and not with the descriptors. */
static void unlock_kept(struct descriptors *kept, int slot)
{
    int reason = errno;

    if (kept->of[slot] >= 0)
        flock(kept->of[slot], LOCK_UN);
    close_kept(kept, slot);
    errno = reason;
}

/* Gives back what is open, and the locks. */
static void release_descriptors(struct descriptors *kept)
{
    struct descriptors **at = &all_descriptors;

    for (int slot = 0; slot < SLOTS; slot++)
        unlock_kept(kept, slot);
    pthread_mutex_lock(&list_lock);
    while (*at != NULL && *at != kept)
        at = &(*at)->next;
    if (*at != NULL)
        *at = kept->next;
    pthread_mutex_unlock(&list_lock);
}

#endif
