// Calls on a shared object from C: `measure OBJECT FORM N K R`, with OBJECT `tally`, `counter` or `queue`, of 64 numbers,
// and FORM `universal`, `mutex` or, of a tally, `fetch_add`. R times over, N threads make K calls each on a new object; on
// a queue they put and take in turn. It prints the nanoseconds that each round took, from the first call of a thread to
// the last one of any; the opening isn't in it.
#include "universal.h"
#include <pthread.h>
#include <stdatomic.h>
#include <stdio.h>
#include <stdlib.h>
#include <string.h>
#include <time.h>

enum { MOST = 64, CAPACITY = 64 };

typedef struct worker {
    universal_handle seat;
    uint64_t calls, first, last, told;
} worker;

static enum { TALLY, COUNTER, QUEUE } object;
static enum { UNIVERSAL, MUTEX, FETCH_ADD } form;
static worker workers[MOST];
static pthread_mutex_t mutex = PTHREAD_MUTEX_INITIALIZER;
static _Atomic uint64_t added;
static uint64_t sum, ring[CAPACITY], taken, put;
static atomic_uint waiting;

static uint64_t now(void) {
    struct timespec time;
    clock_gettime(CLOCK_MONOTONIC, &time);
    return (uint64_t)time.tv_sec * 1000000000 + (uint64_t)time.tv_nsec;
}

static uint64_t shared(worker *me, uint64_t number) {
    uint64_t reply = 0, version;
    universal_reply answer = {0, 0};
    uint32_t status = object == TALLY ? universal_apply(&me->seat, number, &answer)
                                      : universal_small_apply(&me->seat, &number, 1, &reply, 1, &version);
    if (status != UNIVERSAL_DONE)
        abort();
    return reply + answer.reply;
}

static uint64_t guarded(uint64_t number) {
    uint64_t reply = 0;
    pthread_mutex_lock(&mutex);
    if (object != QUEUE) {
        reply = sum;
        sum += number;
    } else if (number == 0) {
        reply = taken == put ? 0 : ring[taken++ % CAPACITY];
    } else if (put - taken < CAPACITY) {
        ring[put++ % CAPACITY] = number;
        reply = 1;
    }
    pthread_mutex_unlock(&mutex);
    return reply;
}

// A number is put into the queue or added; 0 takes the first number out. What is added to a tally is drawn.
static uint64_t number_of(uint64_t nth, uint64_t *word) {
    if (object != TALLY)
        return object == QUEUE && nth % 2 == 1 ? 0 : nth + 1;
    *word ^= *word << 13;
    *word ^= *word >> 7;
    *word ^= *word << 17;
    return *word % 1000;
}

static void *work(void *it) {
    worker *me = it;
    uint64_t word = 0x9e3779b97f4a7c15, told = 0;
    atomic_fetch_sub(&waiting, 1);
    while (atomic_load(&waiting) != 0)
        ;
    me->first = now();
    for (uint64_t nth = 0; nth < me->calls; nth++) {
        uint64_t number = number_of(nth, &word);
        told += form == UNIVERSAL ? shared(me, number)
                : form == MUTEX   ? guarded(number)
                                  : atomic_fetch_add(&added, number);
    }
    me->last = now();
    me->told = told;
    return NULL;
}

static void open_seats(unsigned n, uint64_t k) {
    universal_handle opened = UNIVERSAL_NONE;
    uint64_t process;
    uint32_t status = object == TALLY     ? universal_open_tally(n, k, &opened)
                      : object == COUNTER ? universal_open_counter(n, &opened)
                                          : universal_open_queue(n, CAPACITY, &opened);
    for (unsigned t = 0; t < n && status == UNIVERSAL_DONE; t++)
        status = (object == TALLY ? universal_seat : universal_small_seat)(&opened, &workers[t].seat, &process);
    if (status != UNIVERSAL_DONE)
        abort();
    universal_drop(&opened);
}

static uint64_t round_of(unsigned n, uint64_t k) {
    pthread_t threads[MOST];
    uint64_t first = UINT64_MAX, last = 0;
    atomic_store(&waiting, n);
    if (form == UNIVERSAL)
        open_seats(n, k);
    for (unsigned t = 0; t < n; t++) {
        workers[t].calls = k;
        if (pthread_create(&threads[t], NULL, work, &workers[t]) != 0)
            abort();
    }
    for (unsigned t = 0; t < n; t++) {
        pthread_join(threads[t], NULL);
        first = workers[t].first < first ? workers[t].first : first;
        last = workers[t].last > last ? workers[t].last : last;
        universal_drop(&workers[t].seat);
    }
    return last - first;
}

int main(int argc, char **argv) {
    if (argc != 6)
        return 2;
    object = strcmp(argv[1], "tally") == 0 ? TALLY : strcmp(argv[1], "counter") == 0 ? COUNTER : QUEUE;
    form = strcmp(argv[2], "universal") == 0 ? UNIVERSAL : strcmp(argv[2], "mutex") == 0 ? MUTEX : FETCH_ADD;
    unsigned n = (unsigned)atoi(argv[3]);
    if (n < 1 || n > MOST)
        return 2;
    for (long r = 0; r < atol(argv[5]); r++)
        printf("%llu\n", (unsigned long long)round_of(n, strtoull(argv[4], NULL, 10)));
    return 0;
}
