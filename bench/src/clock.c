/* CPU times: of the calling thread, and of the children that were waited for. */
#define _POSIX_C_SOURCE 200809L
#include <stdint.h>
#include <sys/resource.h>
#include <time.h>

uint64_t thread_nanoseconds(void)
{
    struct timespec now = {0, 0};
    clock_gettime(CLOCK_THREAD_CPUTIME_ID, &now);
    return (uint64_t)now.tv_sec * 1000000000 + (uint64_t)now.tv_nsec;
}

static uint64_t nanoseconds(struct timeval time)
{
    return (uint64_t)time.tv_sec * 1000000000 + (uint64_t)time.tv_usec * 1000;
}

uint64_t children_nanoseconds(void)
{
    struct rusage used = {0};
    getrusage(RUSAGE_CHILDREN, &used);
    return nanoseconds(used.ru_utime) + nanoseconds(used.ru_stime);
}
