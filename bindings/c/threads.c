/* Threads that count, that agree on a value, and that run a machine by its tables. */
#include "working.h"

enum { THREADS = 4, CALLS = 1000 };

/* The invocation that a process makes, again and again. */
static uint64_t (*inv_of)(uint64_t process);

static uint64_t one_more(uint64_t process) {
    return process + 1;
}

static uint64_t odd(uint64_t process) {
    return process % 2;
}

static void *work(void *it) {
    worker *me = it;
    for (int i = 0; i < CALLS; i++)
        call(me, inv_of(me->process));
    return NULL;
}

static void shared(universal_handle *log, uint64_t (*inv)(uint64_t), universal_entry *calls) {
    static worker workers[THREADS];
    inv_of = inv;
    take_seats(log, workers, THREADS);
    work_and_read(workers, THREADS, work, calls, THREADS * CALLS);
}

int main(void) {
    static universal_entry calls[THREADS * CALLS];
    universal_handle log = UNIVERSAL_NONE;
    expect(universal_open_tally(THREADS, CALLS, &log) == UNIVERSAL_DONE, "a tally opens");
    shared(&log, one_more, calls);
    uint64_t sum = 0;
    for (int i = 0; i < THREADS * CALLS; i++)
        sum += calls[i].inv;
    printf("count: %d calls, sum %llu\n", THREADS * CALLS, (unsigned long long)sum);

    expect(universal_open_sticky(THREADS, CALLS, &log) == UNIVERSAL_DONE, "a sticky register opens");
    shared(&log, one_more, calls);
    bool same = true;
    for (int i = 0; i < THREADS * CALLS; i++)
        same = same && calls[i].reply == calls[0].inv;
    printf("agree: one value %s\n", same ? "true" : "false");

    /* A turnstile of two states, locked and unlocked: a coin (0) unlocks it, and a push (1) locks it. The reply is 1 to
     * a push that passes. */
    const uint32_t next[] = {1, 0, 1, 0}, reply[] = {0, 0, 0, 1};
    expect(universal_open_machine(THREADS, CALLS, 2, 2, next, 4, reply, 4, &log) == UNIVERSAL_DONE, "a machine opens");
    shared(&log, odd, calls);
    bool unlocked = false, told = true;
    for (int i = 0; i < THREADS * CALLS; i++) {
        told = told && calls[i].reply == (unlocked && calls[i].inv == 1);
        unlocked = calls[i].inv == 0;
    }
    printf("machine: %d calls, as its tables say %s\n", THREADS * CALLS, told ? "true" : "false");
    return 0;
}
