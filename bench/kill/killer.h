/* What both killers need, of processes and of locks: drawn numbers, the time, and whether all stand still beside a process
 * that is stopped. Each says itself how many calls the others have made. */
#include <signal.h>
#include <stdbool.h>
#include <stdint.h>
#include <time.h>
#include <unistd.h>

static uint64_t calls_but_of(uint64_t p);

static uint64_t draw(uint64_t *x) { return *x ^= *x << 13, *x ^= *x >> 7, *x ^= *x << 17; }

static double now(void) {
    struct timespec t;
    clock_gettime(CLOCK_MONOTONIC, &t);
    return (double)t.tv_sec + (double)t.tv_nsec / 1e9;
}

static bool are_stopped(pid_t pid, uint64_t p) {
    kill(pid, SIGSTOP);
    usleep(1000);
    uint64_t before = calls_but_of(p);
    usleep(20000);
    bool stopped = calls_but_of(p) == before;
    kill(pid, SIGCONT);
    return stopped;
}
