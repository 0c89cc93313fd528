/* The processor time of a call by the words of the object's state, of an array of counters and of a queue that has ten numbers,
 * beside the same under a mutex: capacity SEATS. One thread calls. */
#include "universal.h"
#include <pthread.h>
#include <stdio.h>
#include <stdlib.h>
#include <time.h>

enum { ROUNDS = 15 };

static double now(void) {
    struct timespec at;
    clock_gettime(CLOCK_THREAD_CPUTIME_ID, &at);
    return at.tv_sec * 1e9 + at.tv_nsec;
}

static int ascending(const void *left, const void *right) {
    double difference = *(const double *)left - *(const double *)right;
    return (difference > 0) - (difference < 0);
}

static void must(uint32_t status) {
    if (status != UNIVERSAL_DONE) fprintf(stderr, "capacity: %s\n", universal_strerror(status)), exit(1);
}

static double middle(double took[ROUNDS]) {
    qsort(took, ROUNDS, sizeof *took, ascending);
    return took[ROUNDS / 2];
}

/* Nanoseconds of a call, in the middle round: of adding to one counter after the other, or of a queue's, put and take in turn. */
static double of_words(uint64_t seats, uint32_t words, int is_queue) {
    universal_handle object = UNIVERSAL_NONE, seat = UNIVERSAL_NONE;
    uint64_t process = 0, reply = 0, version = 0, calls = 2000000 / (words + 20);
    double took[ROUNDS];
    must(is_queue ? universal_open_queue(seats, words - 2, &object) : universal_open_counters(seats, words, &object));
    must(universal_small_seat(&object, &seat, &process));
    for (uint64_t k = 0; is_queue && k < 10; k++) must(universal_small_apply(&seat, &(uint64_t){1 + k}, 1, &reply, 1, &version));
    for (int round = 0; round < ROUNDS; round++) {
        double began = now();
        for (uint64_t call = 0; call < calls; call++) {
            const uint64_t add[] = UNIVERSAL_COUNTERS_ADD(call % words, 1), put_or_take = call % 2 ? 0 : 7;
            must(universal_small_apply(&seat, is_queue ? &put_or_take : add, is_queue ? 1 : 2, &reply, 1, &version));
        }
        took[round] = (now() - began) / calls;
    }
    universal_drop(&seat);
    universal_drop(&object);
    return middle(took);
}

/* The same of as many counters in an array, under a mutex. */
static double of_mutex(uint32_t words) {
    pthread_mutex_t mutex = PTHREAD_MUTEX_INITIALIZER;
    volatile uint64_t *counters = calloc(words, sizeof *counters);
    uint64_t calls = 2000000;
    double took[ROUNDS];
    if (!counters) exit(1);
    for (int round = 0; round < ROUNDS; round++) {
        double began = now();
        for (uint64_t call = 0; call < calls; call++) {
            pthread_mutex_lock(&mutex);
            counters[call % words]++;
            pthread_mutex_unlock(&mutex);
        }
        took[round] = (now() - began) / calls;
    }
    free((void *)counters);
    return middle(took);
}

int main(int count, char **words) {
    const uint32_t widths[] = {1, 64, 1024, 65535};
    uint64_t seats = count > 1 ? strtoull(words[1], NULL, 10) : 1;
    for (int k = 0; k < 4; k++)
        printf("%d seats, %5u words: counters %.0f ns a call, a queue of ten %.0f, counters under a mutex %.0f\n", (int)seats, widths[k],
               of_words(seats, widths[k], 0), widths[k] > 12 ? of_words(seats, widths[k], 1) : 0, of_mutex(widths[k]));
    return 0;
}
