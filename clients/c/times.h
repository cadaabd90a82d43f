/* Times of a clock that nobody sets. */
#ifndef LCRVM_TIMES_H
#define LCRVM_TIMES_H

#include <stdbool.h>
#include <stdint.h>
#include <time.h>

/* The time so many milliseconds from now. */
static struct timespec time_after(uint32_t milliseconds)
{
    struct timespec at;

    clock_gettime(CLOCK_MONOTONIC, &at);
    at.tv_sec += (time_t)(milliseconds / 1000);
    at.tv_nsec += (long)(milliseconds % 1000) * 1000000;
    if (at.tv_nsec >= 1000000000) {
        at.tv_sec++;
        at.tv_nsec -= 1000000000;
    }
    return at;
}

static uint64_t microseconds_since(const struct timespec *begun)
{
    const struct timespec now = time_after(0);

    return (uint64_t)((now.tv_sec - begun->tv_sec) * 1000000 + (now.tv_nsec - begun->tv_nsec) / 1000);
}

static bool is_past(const struct timespec *until)
{
    const struct timespec now = time_after(0);

    return now.tv_sec > until->tv_sec || (now.tv_sec == until->tv_sec && now.tv_nsec >= until->tv_nsec);
}

#endif
