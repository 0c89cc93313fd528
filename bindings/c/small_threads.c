/* Threads over one counter, one map and one queue: the calls' order is legal, and agrees with what the threads told each
 * other and followed; and so do reads of a counter without a call. The arguments are how many calls each thread makes, and how many threads there are, once or more. */
#include "universal.h"
#include <pthread.h>
#include <stdatomic.h>
#include <stdbool.h>
#include <stdio.h>
#include <stdlib.h>

enum { KEYS = 8, MOST = 64, NONE = -1 };

typedef struct worker {
    universal_handle seat;
    uint64_t process, after, version, reply[2];
} worker;

static uint64_t threads, calls;

/* Of each process: what it tells of its latest call, and then a version that this call is in. */
static atomic_uint_fast64_t mark[MOST], told[MOST];

static void expect(bool holds, const char *what) {
    if (!holds) {
        fprintf(stderr, "not so: %s\n", what);
        exit(1);
    }
}

static void *room(size_t size) {
    void *at = calloc(threads * calls, size);
    expect(at != NULL, "there is room");
    return at;
}

/* A call, and what it tells the others. */
static void call(worker *me, const uint64_t *invocation, size_t count, size_t replies) {
    me->after = me->version;
    expect(universal_small_apply(&me->seat, invocation, count, me->reply, replies, &me->version) == UNIVERSAL_DONE, "done");
    expect(me->version > me->after, "a call's version is greater than each that its seat had");
}

static void tell(worker *me, uint64_t what) {
    atomic_store(&mark[me->process], what);
    atomic_store(&told[me->process], me->version);
}

/* What another process told, in 1 of 16 turns, and 0 else: all later calls of this seat come after it. */
static uint64_t follow(worker *me, uint64_t turn) {
    uint64_t other = (me->process + 1 + turn / 16) % threads, what = atomic_load(&mark[other]);
    uint64_t version = atomic_load(&told[other]);
    uint32_t has_come = 0;
    if (turn % 16 != 0)
        return 0;
    expect(universal_small_follows(&me->seat, version, &has_come) == UNIVERSAL_DONE, "a seat asks");
    expect(has_come == 1, "a version that a call was answered has come");
    me->version = version > me->version ? version : me->version;
    return what;
}

/* Each process's work in a thread of its own, and the last state. */
static void shared(universal_handle *object, void *(*work)(void *), uint64_t *state, size_t count) {
    static worker workers[MOST];
    pthread_t running[MOST];
    for (uint64_t t = 0; t < threads; t++) {
        workers[t] = (worker){UNIVERSAL_NONE, 0, 0, 0, {0, 0}};
        atomic_store(&mark[t], 0);
        atomic_store(&told[t], 0);
        expect(universal_small_seat(object, &workers[t].seat, &workers[t].process) == UNIVERSAL_DONE, "there is a seat");
    }
    for (uint64_t t = 0; t < threads; t++)
        expect(pthread_create(&running[t], NULL, work, &workers[t]) == 0, "a thread starts");
    for (uint64_t t = 0; t < threads; t++)
        pthread_join(running[t], NULL);
    for (uint64_t t = 0; t < threads; t++)
        universal_drop(&workers[t].seat);
    expect(universal_small_close(object, state, count) == UNIVERSAL_DONE, "the object closes by its own handle");
}

/* Each call adds 1, so its reply is its place. */
static atomic_uchar *has_been;

static void *count_up(void *it) {
    worker *me = it;
    const uint64_t add[] = UNIVERSAL_COUNTER_ADD(1);
    for (uint64_t i = 0; i < calls; i++) {
        uint64_t earlier = follow(me, i);
        call(me, add, 1, 1);
        expect(me->reply[0] >= earlier, "a call stands after what its thread followed");
        expect(me->reply[0] < threads * calls && atomic_exchange(&has_been[me->reply[0]], 1) == 0, "each place is one call's");
        tell(me, me->reply[0] + 1);
    }
    return NULL;
}

static void counter(void) {
    universal_handle object = UNIVERSAL_NONE;
    uint64_t sum = 0;
    has_been = room(1);
    expect(universal_open_counter(threads, &object) == UNIVERSAL_DONE, "a counter opens");
    shared(&object, count_up, &sum, 1);
    expect(sum == threads * calls, "the last sum is the number of calls");
    free(has_been);
}

/* All processes but 0 add 1 in each call, and 0 reads what they have come to, until they are over: in every other turn by a read
 * that may find nothing, and else by one that ends as a call. */
static atomic_uint_fast64_t over;

static void *watch(void *it) {
    worker *me = it;
    const uint64_t add[] = UNIVERSAL_COUNTER_ADD(1), ask[] = UNIVERSAL_COUNTER_ADD(0);
    uint64_t most = (threads - 1) * calls, sum = 0;
    if (me->process != 0) {
        for (uint64_t i = 0; i < calls; i++) {
            uint64_t earlier = follow(me, i);
            call(me, add, 1, 1);
            expect(me->reply[0] >= earlier, "a call stands after what its thread followed, be it a read");
            tell(me, me->reply[0] + 1);
        }
        atomic_fetch_add(&over, 1);
        return NULL;
    }
    bool is_over = false;
    for (uint64_t i = 0; !is_over; i++) {
        is_over = atomic_load(&over) == threads - 1;
        uint64_t earlier = follow(me, i), version = me->version;
        uint32_t status = i % 2 == 0 ? universal_small_read(&me->seat, ask, 1, me->reply, 1, &version)
                                     : universal_small_read_or_apply(&me->seat, ask, 1, me->reply, 1, &version);
        bool may_miss = i % 2 == 0 && !is_over;
        expect(status == UNIVERSAL_DONE || (status == UNIVERSAL_CHANGED && may_miss), "a read is done, or others are at work");
        expect(version >= me->version, "a read's version is at least the seat's own");
        if (status == UNIVERSAL_DONE) {
            expect(me->reply[0] >= sum, "what is read never goes down");
            expect(me->reply[0] >= earlier, "a read comes after what its thread followed");
            expect(me->reply[0] <= most, "what is read never passes the end");
            sum = me->reply[0], me->version = version;
            tell(me, sum);
        }
    }
    expect(sum == most, "once the others are over, one read is the sum");
    return NULL;
}

static void reads(void) {
    universal_handle object = UNIVERSAL_NONE;
    uint64_t sum = 0;
    atomic_store(&over, 0);
    expect(universal_open_counter(threads, &object) == UNIVERSAL_DONE, "a counter opens");
    shared(&object, watch, &sum, 1);
    expect(sum == (threads - 1) * calls, "no read is a call");
}

/* Each call gives a key a value that no other call gives, 1 + its number, and is answered the value before. So these tell
 * the order of a key's calls. Of each call: the one before it, and the one that its thread followed, by their values. */
static uint32_t *before, *followed, *place;

static void *chain(void *it) {
    worker *me = it;
    for (uint64_t i = 0; i < calls; i++) {
        uint64_t earlier = follow(me, i), mine = i * threads + me->process;
        uint64_t key = earlier == 0 ? i % KEYS : earlier % KEYS;
        const uint64_t insert[] = UNIVERSAL_MAP_INSERT(key, mine + 1);
        call(me, insert, 3, 2);
        expect(me->reply[0] != UNIVERSAL_MAP_FULL && me->reply[1] <= threads * calls, "a key has room");
        before[mine] = (uint32_t)me->reply[1];
        followed[mine] = (uint32_t)(earlier / KEYS);
        tell(me, (mine + 1) * KEYS + key);
    }
    return NULL;
}

static void map(void) {
    universal_handle object = UNIVERSAL_NONE;
    uint64_t state[1 + 2 * KEYS] = {0}, found = 0;
    before = room(4), followed = room(4), place = room(4);
    expect(universal_open_map(threads, KEYS, &object) == UNIVERSAL_DONE, "a map opens");
    shared(&object, chain, state, 1 + 2 * KEYS);
    expect(state[0] <= KEYS, "there are at most so many keys");
    /* from the last value of each key back; a later call has the lower place */
    for (uint64_t k = 0; k < state[0]; k++)
        for (uint64_t value = state[2 + 2 * k]; value != 0; value = before[value - 1]) {
            expect(value <= threads * calls && place[value - 1] == 0, "each value stands once");
            place[value - 1] = (uint32_t)++found;
        }
    expect(found == threads * calls, "each call stands in the order of its key");
    for (uint64_t i = 0; i < threads * calls; i++)
        expect(followed[i] == 0 || place[followed[i] - 1] > place[i], "a call stands after what its thread followed");
    free(before), free(followed), free(place);
}

/* Of each value that goes through the queue: the versions that its call in and its call out come after, and are in. */
typedef struct passage {
    uint64_t in_after, in_version, out_after, out_version;
} passage;

static passage *passages;

/* A thread puts a number in, and takes one out: so there is room, and one to take. */
static void *pass_on(void *it) {
    worker *me = it;
    const uint64_t take[] = UNIVERSAL_QUEUE_TAKE;
    for (uint64_t i = 0; i < calls / 2; i++) {
        uint64_t mine = i * threads + me->process;
        const uint64_t put[] = UNIVERSAL_QUEUE_PUT(mine + 1);
        follow(me, i);
        call(me, put, 1, 1);
        expect(me->reply[0] == 1, "there is room");
        passages[mine].in_after = me->after, passages[mine].in_version = me->version;
        call(me, take, 1, 1);
        uint64_t taken = me->reply[0] - 1;
        expect(taken < threads * calls && passages[taken].out_version == 0, "each number is taken out once");
        passages[taken].out_after = me->after, passages[taken].out_version = me->version;
        tell(me, 0);
    }
    return NULL;
}

static int by_after(const void *a, const void *b) {
    uint64_t x = ((const passage *)a)->in_after, y = ((const passage *)b)->in_after;
    return (x > y) - (x < y);
}

static int by_version(const void *a, const void *b) {
    uint64_t x = ((const passage *)a)->in_version, y = ((const passage *)b)->in_version;
    return (x > y) - (x < y);
}

/* A call that is in a version comes before those that come after that version. A history of a queue of different numbers,
 * in which none is missed, is legal in such an order where no number comes out before it goes in, and none that goes in
 * before another comes out after it. */
static void in_order(uint64_t count) {
    passage *ended = room(sizeof(passage));
    uint64_t latest = 0;
    for (uint64_t i = 0; i < count; i++)
        expect(passages[i].out_version > passages[i].in_after, "no number comes out before it goes in");
    for (uint64_t i = 0; i < count; i++)
        ended[i] = passages[i];
    qsort(ended, count, sizeof(passage), by_version);
    qsort(passages, count, sizeof(passage), by_after);
    for (uint64_t i = 0, e = 0; i < count; i++) {
        for (; e < count && ended[e].in_version <= passages[i].in_after; e++)
            latest = ended[e].out_after > latest ? ended[e].out_after : latest;
        expect(passages[i].out_version > latest, "no number overtakes another");
    }
    free(ended);
}

static void queue(void) {
    universal_handle object = UNIVERSAL_NONE;
    uint64_t state[2 + MOST] = {0};
    passages = room(sizeof(passage));
    expect(universal_open_queue(threads, MOST, &object) == UNIVERSAL_DONE, "a queue opens");
    shared(&object, pass_on, state, 2 + MOST);
    expect(state[0] == 0, "each number came out");
    in_order(calls / 2 * threads);
    free(passages);
}

int main(int count, char **arguments) {
    expect(count > 2, "there are arguments: calls, and threads");
    calls = strtoull(arguments[1], NULL, 10);
    for (int i = 2; i < count; i++) {
        threads = strtoull(arguments[i], NULL, 10);
        expect(threads >= 1 && threads <= MOST, "there are from 1 to 64 threads");
        counter();
        reads();
        map();
        queue();
        printf("%llu threads, %llu calls each: legal\n", (unsigned long long)threads, (unsigned long long)calls);
    }
    return 0;
}
