/* More threads than seats: a pool lends each seat to one thread at a time. It is the program of docs/bindings.md. */
#include "universal.h"
#include <pthread.h>
#include <stdbool.h>
#include <stdio.h>
#include <stdlib.h>

enum { SEATS = 4, THREADS = 1000 };

typedef struct pool {
    pthread_mutex_t lock;
    pthread_cond_t given_back;
    universal_handle seats[SEATS];
    int free[SEATS], count; /* which seats aren't lent */
} pool;

static void expect(bool holds, const char *what) {
    if (!holds) {
        fprintf(stderr, "not so: %s\n", what);
        exit(1);
    }
}

static pool the_pool = {.lock = PTHREAD_MUTEX_INITIALIZER, .given_back = PTHREAD_COND_INITIALIZER};

/* The number of a seat that is lent. It waits while all are. */
static int take(pool *pool) {
    pthread_mutex_lock(&pool->lock);
    while (!pool->count)
        pthread_cond_wait(&pool->given_back, &pool->lock);
    int seat = pool->free[--pool->count];
    pthread_mutex_unlock(&pool->lock);
    return seat;
}

static void give_back(pool *pool, int seat) {
    pthread_mutex_lock(&pool->lock);
    pool->free[pool->count++] = seat;
    pthread_cond_signal(&pool->given_back);
    pthread_mutex_unlock(&pool->lock);
}

static void *work(void *it) {
    pool *pool = it;
    const uint64_t five = 5;
    uint64_t before = 0, version = 0;
    int seat = take(pool);
    expect(universal_small_apply(&pool->seats[seat], &five, 1, &before, 1, &version) == UNIVERSAL_DONE, "a call is done");
    give_back(pool, seat);
    return NULL;
}

int main(void) {
    static pthread_t running[THREADS];
    universal_handle counter = UNIVERSAL_NONE;
    uint64_t process = 0, total = 0;
    expect(universal_open_counter(SEATS, &counter) == UNIVERSAL_DONE, "a counter opens");
    for (int s = 0; s < SEATS; s++) {
        expect(universal_small_seat(&counter, &the_pool.seats[s], &process) == UNIVERSAL_DONE, "there is a seat");
        give_back(&the_pool, s);
    }
    for (int t = 0; t < THREADS; t++)
        expect(pthread_create(&running[t], NULL, work, &the_pool) == 0, "a thread starts");
    for (int t = 0; t < THREADS; t++)
        pthread_join(running[t], NULL);
    for (int s = 0; s < SEATS; s++)
        universal_drop(&the_pool.seats[s]);
    expect(universal_small_close(&counter, &total, 1) == UNIVERSAL_DONE, "the counter closes");
    expect(total == 5 * THREADS, "each call is in the sum");
    return 0;
}
