/* The load of `kill queue`, on a queue in shared memory under a lock: what a holder that is killed leaves.
 *
 *     locks plain|robust|spin|fcntl PROCESSES KILLS MICROSECONDS
 *
 * plain and robust are mutexes of pthreads, fcntl is a record lock of the system. With STOP in the environment nobody
 * is killed, but stopped for 20 ms. It tells what was seen; the status is 0. */
#define _GNU_SOURCE
#include <errno.h>
#include <fcntl.h>
#include <pthread.h>
#include <signal.h>
#include <stdatomic.h>
#include <stdbool.h>
#include <stdint.h>
#include <stdio.h>
#include <stdlib.h>
#include <string.h>
#include <sys/mman.h>
#include <sys/prctl.h>
#include <sys/wait.h>
#include <time.h>
#include <unistd.h>
#include "killer.h"

enum { CAPACITY = 24, MOST = 64, NUMBERS = 1 << 26 };

static struct all {
    pthread_mutex_t mutex;
    _Atomic uint32_t spin;
    volatile uint64_t count, item[CAPACITY],
        sum; /* the oldest number first; and the sum of all, which tells a torn state */
    _Alignas(128) _Atomic uint64_t stop, died, torn, twice;
    _Atomic uint8_t put[NUMBERS], taken[NUMBERS];
    struct {
        _Alignas(128) _Atomic uint64_t calls;
        uint64_t puts, seed;
    } of[MOST];
} * all;

static enum { PLAIN, ROBUST, SPIN, FCNTL } lock;
static int file;
static uint64_t n;

/* What a user of a robust mutex has to think of: is the state whole? Here it can be told, by the sum, and is made whole
 * again. */
static void look(void) {
    uint64_t sum = 0;
    bool is_torn = all->count > CAPACITY;
    if (is_torn) all->count = CAPACITY;
    for (uint64_t i = 0; i < all->count; i++) sum += all->item[i];
    if (is_torn || sum != all->sum) atomic_fetch_add(&all->torn, 1);
    all->sum = sum;
}

static void take_lock(void) {
    struct flock byte = {.l_type = F_WRLCK, .l_whence = SEEK_SET, .l_len = 1};
    switch (lock) {
    case PLAIN: pthread_mutex_lock(&all->mutex); break;
    case ROBUST:
        if (pthread_mutex_lock(&all->mutex) == EOWNERDEAD) {
            atomic_fetch_add(&all->died, 1);
            look();
            pthread_mutex_consistent(&all->mutex);
        }
        break;
    case SPIN:
        while (atomic_exchange(&all->spin, 1))
            while (all->spin) __builtin_ia32_pause();
        break;
    case FCNTL:
        while (fcntl(file, F_SETLKW, &byte)) {
        }
        look();
    }
}

static void let_go(void) {
    struct flock byte = {.l_type = F_UNLCK, .l_whence = SEEK_SET, .l_len = 1};
    switch (lock) {
    case SPIN: atomic_store(&all->spin, 0); break;
    case FCNTL: fcntl(file, F_SETLK, &byte); break;
    default: pthread_mutex_unlock(&all->mutex);
    }
}

static uint64_t call(uint64_t number) {
    uint64_t reply = 0;
    take_lock();
    if (number && all->count < CAPACITY) {
        all->item[all->count] = number, all->count++, all->sum += number;
        reply = 1;
    } else if (!number && all->count && all->count <= CAPACITY) {
        reply = all->item[0];
        for (uint64_t i = 1; i < all->count; i++) all->item[i - 1] = all->item[i];
        all->count--, all->sum -= reply;
    }
    let_go();
    return reply;
}

static void work(uint64_t p) {
    prctl(PR_SET_PDEATHSIG, SIGKILL);
    if (!all->of[p].seed) all->of[p].seed = 88172645463325252ull + p * 977;
    while (!all->stop && all->of[p].puts + 2 < NUMBERS / n) {
        uint64_t number = draw(&all->of[p].seed) & 1 ? p * (NUMBERS / n) + all->of[p].puts++ + 1 : 0,
                 reply = call(number);
        if (number && reply) all->put[number] = 1;
        if (!number && reply && reply < NUMBERS && all->taken[reply]++) all->twice++;
        all->of[p].calls++;
    }
    while (!all->stop) usleep(1000);
    _exit(0);
}

static uint64_t calls_but_of(uint64_t p) {
    uint64_t calls = 0;
    for (uint64_t q = 0; q < n; q++) calls += q == p ? 0 : all->of[q].calls;
    return calls;
}

/* Whether nobody makes a call in three seconds. */
static bool all_are_stuck(void) {
    uint64_t before = calls_but_of(MOST);
    for (double began = now(); now() - began < 3; usleep(1000))
        if (calls_but_of(MOST) != before) return false;
    return true;
}

int main(int argc, char **argv) {
    const char *const kinds[] = {"plain", "robust", "spin", "fcntl"};
    for (lock = PLAIN; lock <= FCNTL && argc > 4 && strcmp(argv[1], kinds[lock]); lock++) {
    }
    if (argc < 5 || lock > FCNTL)
        return fprintf(stderr, "usage: locks plain|robust|spin|fcntl PROCESSES KILLS MICROSECONDS\n"), 2;
    n = strtoull(argv[2], NULL, 10);
    uint64_t kills = strtoull(argv[3], NULL, 10), most = strtoull(argv[4], NULL, 10), killed = 0, quiet = 0;
    uint64_t x = 0x9e3779b97f4a7c15ull ^ (uint64_t)getpid() << 20;
    file = memfd_create("lock", 0);
    all = mmap(NULL, sizeof *all, PROT_READ | PROT_WRITE, MAP_SHARED | MAP_ANONYMOUS, -1, 0);
    if (n < 1 || n > MOST || all == MAP_FAILED || ftruncate(file, 100)) return 2;
    pthread_mutexattr_t how;
    pthread_mutexattr_init(&how);
    pthread_mutexattr_setpshared(&how, PTHREAD_PROCESS_SHARED);
    if (lock == ROBUST) pthread_mutexattr_setrobust(&how, PTHREAD_MUTEX_ROBUST);
    pthread_mutex_init(&all->mutex, &how);
    pid_t pid[MOST];
    bool is_stuck = false, only_stops = getenv("STOP") != NULL;
    for (uint64_t p = 0; p < n; p++)
        if (!(pid[p] = fork())) work(p);
    for (; killed < kills && !is_stuck; killed++) {
        nanosleep(&(struct timespec){0, (long)((most ? draw(&x) % most : 0) * 1000)}, NULL);
        uint64_t p = draw(&x) % n;
        if (only_stops) {
            quiet += are_stopped(pid[p], p);
            continue;
        }
        kill(pid[p], SIGKILL), waitpid(pid[p], NULL, 0);
        if (!(pid[p] = fork())) work(p);
        if (killed % 20 == 19) is_stuck = all_are_stuck();
    }
    uint64_t calls = calls_but_of(MOST), lost = 0, unknown = 0;
    all->stop = 1;
    for (uint64_t p = 0; p < n; p++)
        if (is_stuck) kill(pid[p], SIGKILL);
    for (uint64_t p = 0; p < n; p++) waitpid(pid[p], NULL, 0);
    for (uint64_t r; !is_stuck && (r = call(0));)
        if (r < NUMBERS) all->taken[r]++;
    for (uint64_t i = 0; i < NUMBERS && !is_stuck; i++)
        lost += all->put[i] && !all->taken[i], unknown += all->taken[i] && !all->put[i];
    printf("%s, %lu processes: ", argv[1], n);
    if (only_stops)
        printf("stopped for 20 ms %lu times: nobody else made a call in %lu of them\n", killed, quiet);
    else if (is_stuck)
        printf("ALL STUCK for good, seen after %lu kills, %lu calls\n", killed, calls);
    else
        printf("%lu kills, %lu calls; a holder had died %lu times, the state was torn %lu times; numbers taken twice "
               "%lu, put and lost %lu, "
               "taken and not known to be put %lu\n",
               killed, calls, (uint64_t)all->died, (uint64_t)all->torn, (uint64_t)all->twice, lost, unknown);
    return 0;
}
