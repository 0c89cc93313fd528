/* Threads share a small object of the library, and record their calls: the lines go to standard output. The arguments are the
 * object (queue, stack, register or map), how many threads there are, and how many calls each makes. */
#include "../../bindings/universal.h"
#include "../../recorders/recorder.h"
#include <pthread.h>
#include <string.h>

enum { MOST = 64, KEYS = 8, CAPACITY = 4000 };

typedef struct worker {
    universal_handle seat;
    struct record_log log;
    char name[8];
    uint64_t process, drawn, version, reply[2];
} worker;

static const char *object_name;
static uint64_t threads, calls;

static void expect(int holds, const char *what) {
    if (!holds) {
        fprintf(stderr, "not so: %s\n", what);
        exit(1);
    }
}

static uint64_t draw(worker *me, uint64_t below) {
    me->drawn = me->drawn * 6364136223846793005u + 1442695040888963407u;
    return (me->drawn >> 33) % below;
}

static void apply(worker *me, const uint64_t *invocation, size_t count, size_t replies) {
    expect(universal_small_apply(&me->seat, invocation, count, me->reply, replies, &me->version) == UNIVERSAL_DONE, "done");
}

/* A number that no other call has is put in, or one is taken out. */
static void of_numbers(worker *me, uint64_t call, const char *put, const char *take) {
    const uint64_t number[] = {draw(me, 2) ? call * threads + me->process + 1 : 0};
    if (number[0]) record_begin(&me->log, "%s %ju", put, (uintmax_t)number[0]);
    else record_begin(&me->log, "%s", take);
    apply(me, number, 1, 1);
    expect(!number[0] || me->reply[0] == 1, "there is room");
    if (number[0]) record_end(&me->log, "ok");
    else if (me->reply[0]) record_end(&me->log, "%ju", (uintmax_t)me->reply[0]);
    else record_end(&me->log, "empty");
}

static void of_register(worker *me) {
    const uint64_t kind = draw(me, 3), expected = draw(me, 4), value = draw(me, 4), words[] = {kind, kind == 1 ? value : expected, value};
    if (kind == 0) record_begin(&me->log, "read");
    else if (kind == 1) record_begin(&me->log, "write %ju", (uintmax_t)value);
    else record_begin(&me->log, "cas %ju %ju", (uintmax_t)expected, (uintmax_t)value);
    apply(me, words, 3, 1);
    if (kind == 0) record_end(&me->log, "%ju", (uintmax_t)me->reply[0]);
    else record_end(&me->log, "%s", kind == 1 ? "ok" : me->reply[0] == expected ? "true" : "false");
}

static void of_map(worker *me) {
    const uint64_t words[] = {draw(me, 3), draw(me, KEYS), draw(me, 4)};
    const char *names[] = {"get", "insert", "remove"};
    if (words[0] == 1) record_begin(&me->log, "insert %ju %ju", (uintmax_t)words[1], (uintmax_t)words[2]);
    else record_begin(&me->log, "%s %ju", names[words[0]], (uintmax_t)words[1]);
    apply(me, words, 3, 2);
    if (me->reply[0] == UNIVERSAL_MAP_VALUE) record_end(&me->log, "%ju", (uintmax_t)me->reply[1]);
    else record_end(&me->log, "none");
}

static void *work(void *it) {
    worker *me = it;
    for (uint64_t call = 0; call < calls; call++)
        if (!strcmp(object_name, "queue")) of_numbers(me, call, "enq", "deq");
        else if (!strcmp(object_name, "stack")) of_numbers(me, call, "push", "pop");
        else if (!strcmp(object_name, "register")) of_register(me);
        else of_map(me);
    return NULL;
}

static uint32_t opened(universal_handle *object) {
    if (!strcmp(object_name, "queue")) return universal_open_queue(threads, CAPACITY, object);
    if (!strcmp(object_name, "stack")) return universal_open_stack(threads, CAPACITY, object);
    if (!strcmp(object_name, "register")) return universal_open_register64(threads, object);
    return universal_open_map(threads, KEYS, object);
}

int main(int count, char **words) {
    static worker workers[MOST];
    pthread_t running[MOST];
    universal_handle object = UNIVERSAL_NONE;
    expect(count == 4, "there are an object, threads and calls");
    object_name = words[1], threads = strtoull(words[2], NULL, 10), calls = strtoull(words[3], NULL, 10);
    expect(threads >= 1 && threads <= MOST && opened(&object) == UNIVERSAL_DONE, "the object opens");
    for (uint64_t t = 0; t < threads; t++) {
        worker *me = &workers[t];
        me->seat = (universal_handle)UNIVERSAL_NONE;
        expect(universal_small_seat(&object, &me->seat, &me->process) == UNIVERSAL_DONE, "there is a seat");
        snprintf(me->name, sizeof me->name, "T%ju", (uintmax_t)me->process);
        me->log = (struct record_log){me->name, NULL, 0, 0}, me->drawn = 1 + me->process;
    }
    for (uint64_t t = 0; t < threads; t++)
        expect(pthread_create(&running[t], NULL, work, &workers[t]) == 0, "a thread starts");
    for (uint64_t t = 0; t < threads; t++) pthread_join(running[t], NULL);
    for (uint64_t t = 0; t < threads; t++) {
        universal_drop(&workers[t].seat);
        record_print(&workers[t].log, stdout);
    }
    universal_drop(&object);
}
