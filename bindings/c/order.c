/* Threads that tell one another which calls have returned, and ask about them: the closed log has each in that order. */
#include "working.h"
#include <stdatomic.h>

enum { THREADS = 8, CALLS = 1250, ALL = THREADS * (CALLS + 1) };

/* A call of a process. */
typedef struct named {
    uint64_t process, nth;
} named;

/* What each process asked about before each of its calls but the first. */
static named earlier[THREADS][CALLS];

/* How many calls of each process have returned. */
static atomic_uint_fast64_t returned[THREADS];

/* Each call is made after the latest one of another process that has returned. */
static void *work(void *it) {
    worker *me = it;
    for (uint64_t i = 0; i < CALLS; i++) {
        uint64_t other = (me->process + 1 + i % (THREADS - 1)) % THREADS;
        uint32_t is_there = 0;
        named asked = {other, atomic_load(&returned[other]) - 1};
        expect(universal_follows(&me->seat, asked.process, asked.nth, &is_there) == UNIVERSAL_DONE, "a seat asks");
        expect(is_there == 1, "a call that has returned is there");
        call(me, 1);
        earlier[me->process][i] = asked;
        atomic_store(&returned[me->process], i + 2);
    }
    return NULL;
}

int main(void) {
    static worker workers[THREADS];
    static universal_entry entries[ALL];
    static size_t place[THREADS][CALLS + 1];
    universal_handle log = UNIVERSAL_NONE;
    expect(universal_open_tally(THREADS, CALLS + 1, &log) == UNIVERSAL_DONE, "a tally opens");
    take_seats(&log, workers, THREADS);
    for (int t = 0; t < THREADS; t++) {
        call(&workers[t], 1);
        atomic_store(&returned[workers[t].process], 1);
    }
    work_and_read(workers, THREADS, work, entries, ALL);
    for (size_t i = 0; i < ALL; i++)
        place[entries[i].process][entries[i].nth] = i;
    int in_order = 0;
    for (int p = 0; p < THREADS; p++)
        for (int i = 0; i < CALLS; i++)
            in_order += place[earlier[p][i].process][earlier[p][i].nth] < place[p][i + 1];
    expect(in_order == THREADS * CALLS, "each call stands after the one that was asked about");
    printf("order: %d pairs\n", in_order);
    return 0;
}
