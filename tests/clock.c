/* A clock that a test holds. The time of day of a program that loads this is what stands in the file that HELD_CLOCK names: milliseconds
   since the epoch, in 8 bytes, the low one first. It may change at any moment, forth and back. Other clocks go on. */
#define _GNU_SOURCE
#include <fcntl.h>
#include <stdint.h>
#include <stdlib.h>
#include <sys/mman.h>
#include <sys/syscall.h>
#include <sys/time.h>
#include <time.h>
#include <unistd.h>

static const volatile uint64_t *held;

__attribute__((constructor)) static void open_clock(void)
{
    const char *name = getenv("HELD_CLOCK");
    int file = name ? open(name, O_RDONLY | O_CLOEXEC) : -1;
    void *mapped = file < 0 ? MAP_FAILED : mmap(NULL, sizeof *held, PROT_READ, MAP_SHARED, file, 0);
    if (mapped == MAP_FAILED)
        abort();
    close(file);
    held = mapped;
}

int clock_gettime(clockid_t clock, struct timespec *now)
{
    if (!held || (clock != CLOCK_REALTIME && clock != CLOCK_REALTIME_COARSE))
        return (int)syscall(SYS_clock_gettime, clock, now);
    uint64_t milliseconds = *held;
    now->tv_sec = (time_t)(milliseconds / 1000);
    now->tv_nsec = (long)(milliseconds % 1000) * 1000000;
    return 0;
}

int gettimeofday(struct timeval *restrict now, void *restrict zone)
{
    struct timespec held_now;
    (void)zone;
    clock_gettime(CLOCK_REALTIME, &held_now);
    now->tv_sec = held_now.tv_sec;
    now->tv_usec = held_now.tv_nsec / 1000;
    return 0;
}

time_t time(time_t *now)
{
    struct timespec held_now;
    clock_gettime(CLOCK_REALTIME, &held_now);
    if (now)
        *now = held_now.tv_sec;
    return held_now.tv_sec;
}
