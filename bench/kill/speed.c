/* What a call takes, where nobody dies: processes that share a counter or a queue of 24, without a lock, or under a
 * robust mutex.
 *
 *     speed counter|queue shared|robust PROCESSES CALLS
 *
 * It prints the processor time of a call; and of single calls the worst, and what 99.999 in 100 take at most, in
 * processor time and by the clock, with some 0.3 microseconds for looking at the clocks. */
#define _GNU_SOURCE
#include "universal_shared.h"
#include <pthread.h>
#include <stdbool.h>
#include <stdio.h>
#include <stdlib.h>
#include <string.h>
#include <sys/mman.h>
#include <sys/wait.h>
#include <time.h>
#include <unistd.h>

enum { CAPACITY = 24, MOST = 64, BINS = 512 };

static struct all {
    pthread_mutex_t mutex;
    uint64_t count, item[CAPACITY];
    struct times {
        _Alignas(128) double whole, worst[2];
        uint64_t bins[2][BINS];
    } of[MOST];
} * all;

static bool is_queue, is_shared;
static universal_shared_segment *segment;

static double clocked(clockid_t which) {
    struct timespec t;
    clock_gettime(which, &t);
    return (double)t.tv_sec * 1e9 + (double)t.tv_nsec;
}

/* Sixteen bins for each power of two. */
static int bin_of(double nanoseconds) {
    uint64_t x = nanoseconds < 16 ? 16 : (uint64_t)nanoseconds;
    int power = 63 - __builtin_clzll(x), bin = 16 * (power - 4) + (int)(x >> (power - 4)) - 16;
    return bin < BINS ? bin : BINS - 1;
}

static double end_of(int bin) { return (double)((uint64_t)(bin % 16 + 17) << (bin / 16)); }

static uint64_t locked(uint64_t number) {
    uint64_t reply = 0;
    pthread_mutex_lock(&all->mutex);
    if (!is_queue)
        reply = all->item[0], all->item[0] += number;
    else if (number && all->count < CAPACITY)
        all->item[all->count++] = number, reply = 1;
    else if (!number && all->count) {
        reply = all->item[0];
        memmove(all->item, all->item + 1, --all->count * sizeof *all->item);
    }
    pthread_mutex_unlock(&all->mutex);
    return reply;
}

static void work(uint64_t p, uint64_t calls) {
    universal_shared_seat *seat = NULL;
    universal_shared_last last;
    struct times *mine = &all->of[p];
    if (is_shared && universal_shared_claim(segment, (int64_t)p, &seat, &last)) _exit(1);
    for (int single = 0; single < 2; single++) { /* first all together, and then each by itself */
        double began = clocked(CLOCK_THREAD_CPUTIME_ID);
        for (uint64_t k = 0; k < calls; k++) {
            uint64_t word = is_queue ? (k & 1 ? 0 : k + 1) : 1, reply = 0, version = 0;
            double cpu = single ? clocked(CLOCK_THREAD_CPUTIME_ID) : 0, wall = single ? clocked(CLOCK_MONOTONIC) : 0;
            if (!is_shared)
                locked(word);
            else if (universal_shared_apply(seat, &word, 1, &reply, 1, &version))
                _exit(1);
            if (!single) continue;
            double took[2] = {0, clocked(CLOCK_MONOTONIC) - wall};
            took[0] = clocked(CLOCK_THREAD_CPUTIME_ID) - cpu;
            for (int c = 0; c < 2; c++) {
                mine->bins[c][bin_of(took[c])]++;
                if (took[c] > mine->worst[c]) mine->worst[c] = took[c];
            }
        }
        if (!single) mine->whole = (clocked(CLOCK_THREAD_CPUTIME_ID) - began) / (double)calls;
    }
    _exit(0);
}

int main(int argc, char **argv) {
    if (argc < 5) return fprintf(stderr, "usage: speed counter|queue shared|robust PROCESSES CALLS\n"), 2;
    is_queue = !strcmp(argv[1], "queue"), is_shared = !strcmp(argv[2], "shared");
    uint64_t n = strtoull(argv[3], NULL, 10), calls = strtoull(argv[4], NULL, 10);
    universal_shared_kind kind = {.object = is_queue ? UNIVERSAL_SHARED_QUEUE : UNIVERSAL_SHARED_COUNTER,
                                  .capacity = is_queue ? CAPACITY : 0};
    all = mmap(NULL, sizeof *all, PROT_READ | PROT_WRITE, MAP_SHARED | MAP_ANONYMOUS, -1, 0);
    if (n < 1 || n > MOST || all == MAP_FAILED || universal_shared_create_named(NULL, &kind, n, &segment)) return 1;
    pthread_mutexattr_t how;
    pthread_mutexattr_init(&how);
    pthread_mutexattr_setpshared(&how, PTHREAD_PROCESS_SHARED);
    pthread_mutexattr_setrobust(&how, PTHREAD_MUTEX_ROBUST);
    pthread_mutex_init(&all->mutex, &how);
    for (uint64_t p = 0; p < n; p++)
        if (!fork()) work(p, calls);
    int ended = 0, is_wrong = 0;
    while (wait(&ended) > 0) is_wrong |= ended;
    double whole = 0, worst[2] = {0, 0}, most[2] = {0, 0};
    for (uint64_t p = 0; p < n; p++) whole += all->of[p].whole / (double)n;
    for (int c = 0; c < 2; c++) {
        uint64_t sum = 0;
        for (int bin = 0; bin < BINS; bin++) {
            for (uint64_t p = 0; p < n; p++) sum += all->of[p].bins[c][bin];
            if (!most[c] && (double)sum >= 0.99999 * (double)(n * calls)) most[c] = end_of(bin);
        }
        for (uint64_t p = 0; p < n; p++)
            if (all->of[p].worst[c] > worst[c]) worst[c] = all->of[p].worst[c];
    }
    printf("%s, %s, %lu processes: processor time of a call %.0f ns; of single calls 99.999 in 100 at most %.1f us, "
           "worst %.1f us; by the clock "
           "%.1f us, worst %.1f us%s\n",
           argv[1], is_shared ? "shared" : "robust mutex", n, whole, most[0] / 1e3, worst[0] / 1e3, most[1] / 1e3,
           worst[1] / 1e3, is_wrong ? "; WRONG" : "");
    return is_wrong != 0;
}
