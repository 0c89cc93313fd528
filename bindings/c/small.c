/* Small objects: each call on its happy path, each refusal, and each misuse that has a status. */
#include "universal.h"
#include "universal_program.h"
#include <stdio.h>
#include <string.h>

static int wrong = 0;

static void is(uint64_t found, uint64_t wanted, const char *what, int line) {
    if (found != wanted) {
        fprintf(stderr, "small.c:%d: %s is %llu, and not %llu\n", line, what, (unsigned long long)found,
                (unsigned long long)wanted);
        wrong++;
    }
}

#define IS(found, wanted) is((uint64_t)(found), (uint64_t)(wanted), #found, __LINE__)

enum { NEVER = 12345 };

static uint64_t process, version, reply[2];
static uint32_t has_come;

/* A call of these words, answered so many words. */
#define CALL(seat, replies, ...) call(seat, (const uint64_t[])__VA_ARGS__, sizeof(uint64_t[])__VA_ARGS__ / 8, replies)

static uint64_t call(universal_handle *seat, const uint64_t *invocation, size_t count, size_t replies) {
    uint64_t before = version;
    reply[0] = reply[1] = NEVER;
    IS(universal_small_apply(seat, invocation, count, reply, replies, &version), UNIVERSAL_DONE);
    IS(version > before, 1);
    IS(reply[1] == NEVER, replies == 1);
    return reply[0];
}

/* The seat of an object for one process, whose own handle is dropped. */
static universal_handle only_seat(universal_handle *object) {
    universal_handle seat = UNIVERSAL_NONE;
    IS(universal_small_seat(object, &seat, &process), UNIVERSAL_DONE);
    IS(process, 0);
    universal_drop(object);
    version = 0;
    return seat;
}

static void closes(universal_handle *handle, const uint64_t *wanted, size_t count) {
    uint64_t state[16] = {0};
    IS(universal_small_close(handle, state, count), UNIVERSAL_DONE);
    IS(memcmp(state, wanted, 8 * count), 0);
    IS(handle->at != NULL, 0);
}

/* What a call of these words would be answered, read without it: twice the same, and of the version that the seat has. */
#define READ(seat, replies, ...) found(seat, (const uint64_t[])__VA_ARGS__, sizeof(uint64_t[])__VA_ARGS__ / 8, replies)

static uint64_t found(universal_handle *seat, const uint64_t *invocation, size_t count, size_t replies) {
    for (int i = 0; i < 2; i++) {
        uint64_t present = NEVER, first = reply[0];
        reply[0] = reply[1] = NEVER;
        IS(universal_small_read(seat, invocation, count, reply, replies, &present), UNIVERSAL_DONE);
        IS(present, version);
        IS(reply[1] == NEVER, replies == 1);
        IS(i == 1 && reply[0] != first, 0);
    }
    return reply[0];
}

static void numbers(void) {
    universal_handle object = UNIVERSAL_NONE, seat;
    IS(universal_open_counter(1, &object), UNIVERSAL_DONE);
    seat = only_seat(&object);
    IS(READ(&seat, 1, UNIVERSAL_COUNTER_ADD(3)), 0);
    IS(CALL(&seat, 1, UNIVERSAL_COUNTER_ADD(5)), 0);
    IS(READ(&seat, 1, UNIVERSAL_COUNTER_ADD(3)), 5);
    IS(CALL(&seat, 1, UNIVERSAL_COUNTER_ADD(-1)), 5);
    IS(CALL(&seat, 1, UNIVERSAL_COUNTER_ADD(0)), 4);
    closes(&seat, (const uint64_t[]){4}, 1);

    IS(universal_open_register64(1, &object), UNIVERSAL_DONE);
    seat = only_seat(&object);
    IS(CALL(&seat, 1, UNIVERSAL_REGISTER64_WRITE(-1)), 0);
    IS(READ(&seat, 1, UNIVERSAL_REGISTER64_READ), UINT64_MAX);
    IS(READ(&seat, 1, UNIVERSAL_REGISTER64_COMPARE_EXCHANGE(-1, 9)), UINT64_MAX);
    IS(CALL(&seat, 1, UNIVERSAL_REGISTER64_COMPARE_EXCHANGE(3, 9)), UINT64_MAX);
    IS(CALL(&seat, 1, UNIVERSAL_REGISTER64_COMPARE_EXCHANGE(-1, 9)), UINT64_MAX);
    IS(CALL(&seat, 1, UNIVERSAL_REGISTER64_READ), 9);
    IS(CALL(&seat, 1, {3, 1, 1}), 9);
    closes(&seat, (const uint64_t[]){9}, 1);

    IS(universal_open_counters(1, 3, &object), UNIVERSAL_DONE);
    seat = only_seat(&object);
    IS(CALL(&seat, 1, UNIVERSAL_COUNTERS_ADD(2, 8)), 0);
    IS(CALL(&seat, 1, UNIVERSAL_COUNTERS_ADD(2, 1)), 8);
    IS(READ(&seat, 1, UNIVERSAL_COUNTERS_ADD(2, 1)), 9);
    IS(READ(&seat, 1, UNIVERSAL_COUNTERS_ADD(1, 1)), 0);
    IS(CALL(&seat, 1, UNIVERSAL_COUNTERS_ADD(3, 1)), 0);
    closes(&seat, (const uint64_t[]){0, 0, 9}, 3);
}

static void rows(void) {
    universal_handle object = UNIVERSAL_NONE, seat;
    IS(universal_open_queue(1, 2, &object), UNIVERSAL_DONE);
    seat = only_seat(&object);
    IS(CALL(&seat, 1, UNIVERSAL_QUEUE_TAKE), 0);
    IS(CALL(&seat, 1, UNIVERSAL_QUEUE_PUT(8)), 1);
    IS(READ(&seat, 1, UNIVERSAL_QUEUE_PUT(9)), 1);
    IS(READ(&seat, 1, UNIVERSAL_QUEUE_TAKE), 8);
    IS(CALL(&seat, 1, UNIVERSAL_QUEUE_PUT(9)), 1);
    IS(READ(&seat, 1, UNIVERSAL_QUEUE_PUT(7)), 0);
    IS(READ(&seat, 1, UNIVERSAL_QUEUE_TAKE), 8);
    IS(CALL(&seat, 1, UNIVERSAL_QUEUE_PUT(7)), 0);
    IS(CALL(&seat, 1, UNIVERSAL_QUEUE_TAKE), 8);
    closes(&seat, (const uint64_t[]){1, 1, 0, 9}, 4);

    IS(universal_open_stack(1, 2, &object), UNIVERSAL_DONE);
    seat = only_seat(&object);
    IS(CALL(&seat, 1, UNIVERSAL_STACK_POP), 0);
    IS(CALL(&seat, 1, UNIVERSAL_STACK_PUSH(8)), 1);
    IS(READ(&seat, 1, UNIVERSAL_STACK_POP), 8);
    IS(CALL(&seat, 1, UNIVERSAL_STACK_PUSH(9)), 1);
    IS(READ(&seat, 1, UNIVERSAL_STACK_PUSH(7)), 0);
    IS(READ(&seat, 1, UNIVERSAL_STACK_POP), 9);
    IS(CALL(&seat, 1, UNIVERSAL_STACK_PUSH(7)), 0);
    IS(CALL(&seat, 1, UNIVERSAL_STACK_POP), 9);
    closes(&seat, (const uint64_t[]){1, 8, 0}, 3);
}

static void map(void) {
    universal_handle object = UNIVERSAL_NONE, seat;
    IS(universal_open_map(1, 2, &object), UNIVERSAL_DONE);
    seat = only_seat(&object);
    IS(CALL(&seat, 2, UNIVERSAL_MAP_INSERT(7, 70)), UNIVERSAL_MAP_ABSENT);
    IS(reply[1], 0);
    IS(CALL(&seat, 2, UNIVERSAL_MAP_INSERT(7, 71)), UNIVERSAL_MAP_VALUE);
    IS(reply[1], 70);
    IS(CALL(&seat, 2, UNIVERSAL_MAP_INSERT(0, -1)), UNIVERSAL_MAP_ABSENT);
    IS(READ(&seat, 2, UNIVERSAL_MAP_GET(7)), UNIVERSAL_MAP_VALUE);
    IS(reply[1], 71);
    IS(READ(&seat, 2, UNIVERSAL_MAP_GET(9)), UNIVERSAL_MAP_ABSENT);
    IS(reply[1], 0);
    IS(READ(&seat, 2, UNIVERSAL_MAP_INSERT(9, 90)), UNIVERSAL_MAP_FULL);
    IS(READ(&seat, 2, UNIVERSAL_MAP_REMOVE(7)), UNIVERSAL_MAP_VALUE);
    IS(reply[1], 71);
    IS(CALL(&seat, 2, UNIVERSAL_MAP_INSERT(9, 90)), UNIVERSAL_MAP_FULL);
    IS(CALL(&seat, 2, UNIVERSAL_MAP_GET(9)), UNIVERSAL_MAP_ABSENT);
    IS(CALL(&seat, 2, UNIVERSAL_MAP_GET(0)), UNIVERSAL_MAP_VALUE);
    IS(reply[1], UINT64_MAX);
    IS(CALL(&seat, 2, UNIVERSAL_MAP_REMOVE(7)), UNIVERSAL_MAP_VALUE);
    IS(reply[1], 71);
    closes(&seat, (const uint64_t[]){1, 0, UINT64_MAX, 0, 0}, 5);
}

static void book(void) {
    universal_handle object = UNIVERSAL_NONE, seat;
    uint64_t most = 999999999999, state[16] = {0};
    IS(universal_open_book(1, &object), UNIVERSAL_DONE);
    seat = only_seat(&object);
    IS(CALL(&seat, 2, UNIVERSAL_BOOK_DEPOSIT(3, 10)), UNIVERSAL_BOOK_BALANCE);
    IS(reply[1], 10);
    IS(CALL(&seat, 2, UNIVERSAL_BOOK_DEPOSIT(3, most)), UNIVERSAL_BOOK_OVER);
    IS(CALL(&seat, 2, UNIVERSAL_BOOK_WITHDRAW(3, 11)), UNIVERSAL_BOOK_SHORT);
    IS(CALL(&seat, 2, UNIVERSAL_BOOK_WITHDRAW(3, 1)), UNIVERSAL_BOOK_BALANCE);
    IS(reply[1], 9);
    IS(CALL(&seat, 2, UNIVERSAL_BOOK_MOVE(3, 15, 4)), UNIVERSAL_BOOK_MOVED);
    IS(CALL(&seat, 2, UNIVERSAL_BOOK_TOTAL), UNIVERSAL_BOOK_SUM);
    IS(reply[1], 9);
    IS(READ(&seat, 2, UNIVERSAL_BOOK_TOTAL), UNIVERSAL_BOOK_SUM);
    IS(reply[1], 9);
    IS(READ(&seat, 2, UNIVERSAL_BOOK_DEPOSIT(3, 0)), UNIVERSAL_BOOK_BALANCE);
    IS(reply[1], 5);
    IS(READ(&seat, 2, UNIVERSAL_BOOK_WITHDRAW(3, 6)), UNIVERSAL_BOOK_SHORT);
    IS(CALL(&seat, 2, UNIVERSAL_BOOK_DEPOSIT(16, 1)), UNIVERSAL_BOOK_SUM);
    state[3] = 5, state[15] = 4;
    closes(&seat, state, 16);
}

/* A switch: 0 asks, and each greater invocation turns it over. */
static void machine(void) {
    uint32_t next[] = {0, 1, 1, 0}, told[] = {0, 0, 1, 1}, past[] = {0, 1, 2, 0}, high[] = {0, 0, 1, 1u << 31};
    universal_handle object = UNIVERSAL_NONE, seat;
    IS(universal_open_small_machine(1, 0, 2, next, 4, told, 4, &object), UNIVERSAL_BAD_TABLE);
    IS(universal_open_small_machine(1, 2, 0, next, 4, told, 4, &object), UNIVERSAL_BAD_TABLE);
    IS(universal_open_small_machine(1, 2, 2, next, 3, told, 4, &object), UNIVERSAL_BAD_TABLE);
    IS(universal_open_small_machine(1, 2, 2, next, 4, told, 0, &object), UNIVERSAL_BAD_TABLE);
    IS(universal_open_small_machine(1, 2, 2, past, 4, told, 4, &object), UNIVERSAL_BAD_TABLE);
    IS(universal_open_small_machine(0, 2, 2, next, 4, high, 4, &object), UNIVERSAL_BAD_TABLE);
    IS(universal_open_small_machine(0, 2, 2, next, 4, told, 4, &object), UNIVERSAL_BAD_COUNT);
    IS(universal_open_small_machine(65, 2, 2, next, 4, told, 4, &object), UNIVERSAL_BAD_COUNT);
    IS(object.at != NULL, 0);
    IS(universal_open_small_machine(1, 2, 2, next, 4, told, 4, &object), UNIVERSAL_DONE);
    memset(next, 255, sizeof next);
    memset(told, 255, sizeof told);
    seat = only_seat(&object);
    IS(CALL(&seat, 1, UNIVERSAL_MACHINE_CALL(0)), 0);
    IS(CALL(&seat, 1, UNIVERSAL_MACHINE_CALL(-1)), 0);
    IS(READ(&seat, 1, UNIVERSAL_MACHINE_CALL(1)), 1);
    IS(CALL(&seat, 1, UNIVERSAL_MACHINE_CALL(0)), 1);
    IS(CALL(&seat, 1, UNIVERSAL_MACHINE_CALL(1)), 1);
    IS(READ(&seat, 1, UNIVERSAL_MACHINE_CALL(0)), 0);
    IS(CALL(&seat, 1, UNIVERSAL_MACHINE_CALL(2)), 0);
    closes(&seat, (const uint64_t[]){1}, 1);
}

/* A program: each call adds its word, and is answered the sum. */
static void program(void) {
    universal_instruction code[8];
    up_program p = UP_PROGRAM(code);
    enum { sum, number };
    universal_handle object = UNIVERSAL_NONE, seat;
    uint64_t place = NEVER;
    up_load(&p, sum, UP_STATE, 0);
    up_load(&p, number, UP_INVOCATION, 0);
    up_add(&p, sum, sum, number, UP_END);
    up_store(&p, 0, sum);
    up_answer(&p, 0, sum);
    IS(up_open(&p, 1, (const uint64_t[]){40}, 1, 1, 1, &place, &object), UNIVERSAL_DONE);
    seat = only_seat(&object);
    IS(READ(&seat, 1, {2}), 42);
    IS(CALL(&seat, 1, {3}), 43);
    IS(READ(&seat, 1, {2}), 45);
    closes(&seat, (const uint64_t[]){43}, 1);
}

static void bad_sizes(void) {
    universal_handle object = UNIVERSAL_NONE;
    IS(universal_open_counter(0, &object), UNIVERSAL_BAD_COUNT);
    IS(universal_open_register64(65, &object), UNIVERSAL_BAD_COUNT);
    IS(universal_open_book(UINT64_MAX, &object), UNIVERSAL_BAD_COUNT);
    IS(universal_open_map(0, UINT32_MAX, &object), UNIVERSAL_BAD_COUNT);
    IS(universal_open_counters(1, 65537, &object), UNIVERSAL_BAD_CAPACITY);
    IS(universal_open_queue(1, 65535, &object), UNIVERSAL_BAD_CAPACITY);
    IS(universal_open_stack(1, UINT32_MAX, &object), UNIVERSAL_BAD_CAPACITY);
    IS(universal_open_map(1, 32768, &object), UNIVERSAL_BAD_CAPACITY);
    IS(object.at != NULL, 0);
    IS(universal_open_counters(1, 65536, &object), UNIVERSAL_DONE);
    IS(universal_open_queue(1, 65534, &object), UNIVERSAL_DONE);
    IS(universal_open_map(1, 32767, &object), UNIVERSAL_DONE);
    IS(universal_open_queue(1, 65535, &object), UNIVERSAL_BAD_CAPACITY);
    universal_handle seat = only_seat(&object);
    IS(CALL(&seat, 2, UNIVERSAL_MAP_GET(1)), UNIVERSAL_MAP_ABSENT);
    universal_drop(&seat);
    /* objects of no room */
    IS(universal_open_counters(1, 0, &object), UNIVERSAL_DONE);
    seat = only_seat(&object);
    IS(CALL(&seat, 1, UNIVERSAL_COUNTERS_ADD(0, 1)), 0);
    closes(&seat, reply, 0);
    IS(universal_open_queue(1, 0, &object), UNIVERSAL_DONE);
    seat = only_seat(&object);
    IS(CALL(&seat, 1, UNIVERSAL_QUEUE_PUT(1)), 0);
    IS(CALL(&seat, 1, UNIVERSAL_QUEUE_TAKE), 0);
    closes(&seat, (const uint64_t[]){0, 0}, 2);
}

/* Other counts of words are refused, and nothing is written. */
static void widths(void) {
    universal_handle object = UNIVERSAL_NONE;
    const uint64_t insert[] = {1, 7, 70, 0};
    uint64_t state[6] = {NEVER, NEVER, NEVER, NEVER, NEVER, NEVER};
    IS(universal_open_map(1, 2, &object), UNIVERSAL_DONE);
    universal_handle seat = only_seat(&object);
    version = NEVER;
    reply[0] = reply[1] = NEVER;
    for (size_t count = 0; count <= 4; count++)
        for (size_t replies = 0; replies <= 2; replies++)
            if (count != 3 || replies != 2) {
                IS(universal_small_apply(&seat, insert, count, reply, replies, &version), UNIVERSAL_BAD_WIDTH);
                IS(universal_small_read(&seat, insert, count, reply, replies, &version), UNIVERSAL_BAD_WIDTH);
            }
    IS(reply[0] != NEVER || reply[1] != NEVER || version != NEVER, 0);
    for (size_t count = 0; count <= 6; count++)
        if (count != 5)
            IS(universal_small_close(&seat, state, count), UNIVERSAL_BAD_WIDTH);
    IS(state[0], NEVER);
    version = 0;
    IS(CALL(&seat, 2, UNIVERSAL_MAP_GET(7)), UNIVERSAL_MAP_ABSENT);
    closes(&seat, (const uint64_t[]){0, 0, 0, 0, 0}, 5);
}

static void seats_end(void) {
    universal_handle object = UNIVERSAL_NONE, first = UNIVERSAL_NONE, second = UNIVERSAL_NONE, third = UNIVERSAL_NONE;
    uint64_t state = NEVER;
    IS(universal_open_counter(2, &object), UNIVERSAL_DONE);
    IS(universal_small_seat(&object, &first, &process), UNIVERSAL_DONE);
    IS(process, 1);
    IS(universal_small_seat(&object, &second, &process), UNIVERSAL_DONE);
    IS(process, 0);
    process = NEVER;
    IS(universal_small_seat(&object, &third, &process), UNIVERSAL_NO_SEAT);
    IS(process != NEVER || third.at != NULL, 0);

    /* a version is followed from the other seat */
    version = 0;
    IS(CALL(&first, 1, UNIVERSAL_COUNTER_ADD(5)), 0);
    uint64_t told = version;
    IS(universal_small_follows(&second, told, &has_come), UNIVERSAL_DONE);
    IS(has_come, 1);
    IS(universal_small_follows(&second, told + 1, &has_come), UNIVERSAL_DONE);
    IS(has_come, 0);
    IS(CALL(&second, 1, UNIVERSAL_COUNTER_ADD(2)), 5);
    IS(version > told, 1);

    /* what one seat's call made, the other reads and follows; its next call has a later version */
    const uint64_t add[] = UNIVERSAL_COUNTER_ADD(0);
    uint64_t present = NEVER;
    told = version;
    IS(universal_small_read(&first, add, 1, reply, 1, &present), UNIVERSAL_DONE);
    IS(reply[0], 7);
    IS(present, told);
    IS(CALL(&first, 1, UNIVERSAL_COUNTER_ADD(0)), 7);
    IS(version > told, 1);

    /* each handle is busy as long as another has the object; then the object's own one closes it with no seat */
    IS(universal_small_close(&first, &state, 1), UNIVERSAL_BUSY);
    universal_drop(&second);
    IS(universal_small_close(&first, &state, 1), UNIVERSAL_BUSY);
    IS(universal_small_close(&object, &state, 1), UNIVERSAL_BUSY);
    IS(state, NEVER);
    IS(CALL(&first, 1, UNIVERSAL_COUNTER_ADD(1)), 7);
    IS(universal_small_seat(&object, &third, &process), UNIVERSAL_NO_SEAT);
    universal_drop(&first);
    closes(&object, (const uint64_t[]){8}, 1);

    /* seats that were never given out */
    IS(universal_open_queue(64, 1, &object), UNIVERSAL_DONE);
    closes(&object, (const uint64_t[]){0, 0, 0}, 3);
}

/* What is on a handle that has no small object, or no seat of one, is refused and changes nothing. */
static void refuses(universal_handle *handle) {
    universal_handle seat = UNIVERSAL_NONE;
    const uint64_t add[] = UNIVERSAL_COUNTER_ADD(1);
    uint64_t state = NEVER;
    process = version = reply[0] = has_come = NEVER;
    IS(universal_small_seat(handle, &seat, &process), UNIVERSAL_WRONG_HANDLE);
    IS(universal_small_apply(handle, add, 1, reply, 1, &version), UNIVERSAL_WRONG_HANDLE);
    IS(universal_small_apply(handle, add, 0, reply, 0, &version), UNIVERSAL_WRONG_HANDLE);
    IS(universal_small_read(handle, add, 1, reply, 1, &version), UNIVERSAL_WRONG_HANDLE);
    IS(universal_small_read(handle, add, 0, reply, 0, &version), UNIVERSAL_WRONG_HANDLE);
    IS(universal_small_follows(handle, 0, &has_come), UNIVERSAL_WRONG_HANDLE);
    IS(universal_small_close(handle, &state, 1), UNIVERSAL_WRONG_HANDLE);
    IS(universal_small_close(handle, &state, 0), UNIVERSAL_WRONG_HANDLE);
    IS(seat.at != NULL || process != NEVER || version != NEVER || reply[0] != NEVER || has_come != NEVER || state != NEVER, 0);
}

static void misuse(void) {
    static universal_handle none = UNIVERSAL_NONE; /* by -Wpedantic, too */
    universal_handle log = UNIVERSAL_NONE, seat = UNIVERSAL_NONE, object = UNIVERSAL_NONE;
    refuses(&none);

    /* a log, its seat, and its entries */
    IS(universal_open_tally(1, 2, &log), UNIVERSAL_DONE);
    refuses(&log);
    IS(universal_seat(&log, &seat, &process), UNIVERSAL_DONE);
    refuses(&seat);
    universal_drop(&log);
    IS(universal_close(&seat), UNIVERSAL_DONE);
    refuses(&seat);
    universal_drop(&seat);

    /* a call and a question by an object's own handle, a seat of a seat */
    IS(universal_open_counter(1, &object), UNIVERSAL_DONE);
    const uint64_t add[] = UNIVERSAL_COUNTER_ADD(1);
    IS(universal_small_apply(&object, add, 1, reply, 1, &version), UNIVERSAL_WRONG_HANDLE);
    IS(universal_small_read(&object, add, 1, reply, 1, &version), UNIVERSAL_WRONG_HANDLE);
    IS(universal_small_follows(&object, 0, &has_come), UNIVERSAL_WRONG_HANDLE);
    IS(universal_small_seat(&object, &seat, &process), UNIVERSAL_DONE);
    IS(universal_small_seat(&seat, &none, &process), UNIVERSAL_WRONG_HANDLE);

    /* the functions of logs, on both */
    universal_reply answer = {NEVER, NEVER};
    size_t count = NEVER;
    for (int i = 0; i < 2; i++) {
        universal_handle *it = i == 0 ? &object : &seat;
        IS(universal_seat(it, &none, &process), UNIVERSAL_WRONG_HANDLE);
        IS(universal_apply(it, 1, &answer), UNIVERSAL_WRONG_HANDLE);
        IS(universal_follows(it, 0, 0, &has_come), UNIVERSAL_WRONG_HANDLE);
        IS(universal_close(it), UNIVERSAL_WRONG_HANDLE);
        IS(universal_read(it, &(universal_entry){0}, 1, &count), UNIVERSAL_WRONG_HANDLE);
    }
    IS(answer.reply != NEVER || count != NEVER || none.at != NULL, 0);
    version = 0;
    IS(CALL(&seat, 1, UNIVERSAL_COUNTER_ADD(1)), 0);
    universal_drop(&object);
    closes(&seat, (const uint64_t[]){1}, 1);
    refuses(&seat);
    universal_drop(&seat);
}

/* The calls by name. */
static void named(void) {
    universal_handle object = UNIVERSAL_NONE, seat;
    uint64_t told[2] = {NEVER, NEVER};
    IS(universal_open_counter(1, &object), UNIVERSAL_DONE);
    seat = only_seat(&object);
    IS(universal_counter_add(&seat, 5, told) || universal_counter_add(&seat, (uint64_t)-1, told), UNIVERSAL_DONE);
    IS(told[0], 5);
    IS(universal_queue_put(&seat, 3, told), UNIVERSAL_DONE); /* the same words as an addition */
    IS(universal_map_get(&seat, 3, told), UNIVERSAL_BAD_WIDTH);
    IS(told[0], 4);
    IS(told[1], NEVER);
    closes(&seat, (const uint64_t[]){7}, 1);
    IS(universal_counter_add(&seat, 5, told), UNIVERSAL_WRONG_HANDLE);

    IS(universal_open_register64(1, &object), UNIVERSAL_DONE);
    seat = only_seat(&object);
    IS(universal_register64_write(&seat, 6, told) || told[0], 0);
    IS(universal_register64_compare_exchange(&seat, 6, 9, told), UNIVERSAL_DONE);
    IS(told[0], 6);
    IS(universal_register64_read(&seat, told), UNIVERSAL_DONE);
    IS(told[0], 9);
    closes(&seat, (const uint64_t[]){9}, 1);

    IS(universal_open_counters(1, 3, &object), UNIVERSAL_DONE);
    seat = only_seat(&object);
    IS(universal_counters_add(&seat, 2, 8, told) || universal_counters_add(&seat, 2, 1, told), UNIVERSAL_DONE);
    IS(told[0], 8);
    closes(&seat, (const uint64_t[]){0, 0, 9}, 3);

    IS(universal_open_queue(1, 2, &object), UNIVERSAL_DONE);
    seat = only_seat(&object);
    IS(universal_queue_put(&seat, 8, told) || universal_queue_put(&seat, 9, told), UNIVERSAL_DONE);
    IS(told[0], 1);
    IS(universal_queue_put(&seat, 7, told) || told[0], 0);
    IS(universal_queue_take(&seat, told), UNIVERSAL_DONE);
    IS(told[0], 8);
    closes(&seat, (const uint64_t[]){1, 1, 0, 9}, 4);

    IS(universal_open_stack(1, 2, &object), UNIVERSAL_DONE);
    seat = only_seat(&object);
    IS(universal_stack_push(&seat, 8, told) || universal_stack_push(&seat, 9, told), UNIVERSAL_DONE);
    IS(universal_stack_pop(&seat, told), UNIVERSAL_DONE);
    IS(told[0], 9);
    closes(&seat, (const uint64_t[]){1, 8, 0}, 3);

    IS(universal_open_map(1, 2, &object), UNIVERSAL_DONE);
    seat = only_seat(&object);
    IS(universal_map_insert(&seat, 7, 70, told) || told[0], UNIVERSAL_MAP_ABSENT);
    IS(universal_map_get(&seat, 7, told) || told[0] != UNIVERSAL_MAP_VALUE, 0);
    IS(told[1], 70);
    IS(universal_map_remove(&seat, 7, told) || told[1] != 70, 0);
    IS(universal_map_get(&seat, 7, told) || told[0] != UNIVERSAL_MAP_ABSENT, 0);
    closes(&seat, (const uint64_t[]){0, 0, 0, 0, 0}, 5);
}

int main(void) {
    numbers();
    named();
    rows();
    map();
    book();
    machine();
    program();
    bad_sizes();
    widths();
    seats_end();
    misuse();
    for (uint32_t status = 0; status <= 19; status++)
        IS(strcmp(universal_strerror(status), "no status") == 0, 0);
    IS(strcmp(universal_strerror(20), "no status"), 0);
    IS(strcmp(universal_strerror(UNIVERSAL_CHANGED), "no status") == 0, 0);
    if (wrong == 0)
        printf("small: as the header says\n");
    return wrong != 0;
}
