/* Threads that work with a seat each of one log, and the log's calls once it is closed. Link with pthread. */
#ifndef WORKING_H
#define WORKING_H

#include "universal.h"
#include <pthread.h>
#include <stdbool.h>
#include <stdio.h>
#include <stdlib.h>

typedef struct worker {
    universal_handle seat;
    uint64_t process;
} worker;

static void expect(bool holds, const char *what) {
    if (!holds) {
        fprintf(stderr, "not so: %s\n", what);
        exit(1);
    }
}

static uint32_t call(worker *me, uint64_t inv) {
    universal_reply answer = {0, 0};
    expect(universal_apply(&me->seat, inv, &answer) == UNIVERSAL_DONE, "a call is done");
    return answer.reply;
}

/* A seat for each worker; the log's handle is dropped. */
static void take_seats(universal_handle *log, worker *workers, int threads) {
    for (int t = 0; t < threads; t++)
        expect(universal_seat(log, &workers[t].seat, &workers[t].process) == UNIVERSAL_DONE, "there is a seat");
    universal_drop(log);
}

/* Each worker's work in a thread of its own; then all calls in their order, of which there are so many. */
static void work_and_read(worker *workers, int threads, void *(*work)(void *), universal_entry *calls, size_t all) {
    pthread_t running[64];
    size_t count = 0;
    for (int t = 0; t < threads; t++)
        expect(pthread_create(&running[t], NULL, work, &workers[t]) == 0, "a thread starts");
    for (int t = 0; t < threads; t++)
        pthread_join(running[t], NULL);
    for (int t = 1; t < threads; t++)
        universal_drop(&workers[t].seat);
    expect(universal_close(&workers[0].seat) == UNIVERSAL_DONE, "the last seat closes");
    expect(universal_read(&workers[0].seat, calls, all, &count) == UNIVERSAL_DONE, "the calls are read");
    expect(count == all, "the log has each call");
    universal_drop(&workers[0].seat);
}

#endif
