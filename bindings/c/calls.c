/* Each call on its happy path, each refusal, and each misuse that has a status. */
#include "universal.h"
#include <stdio.h>
#include <string.h>

static int wrong = 0;

static void is(uint32_t found, uint32_t wanted, const char *what, int line) {
    if (found != wanted) {
        fprintf(stderr, "calls.c:%d: %s is %u, and not %u\n", line, what, found, wanted);
        wrong++;
    }
}

#define IS(found, wanted) is((uint32_t)(found), (uint32_t)(wanted), #found, __LINE__)

enum { NEVER = 12345 };

static universal_reply answer;
static uint64_t process;
static size_t count;
static universal_entry entries[4];

static uint32_t replied(universal_handle *seat, uint64_t inv) {
    answer = (universal_reply){NEVER, NEVER};
    IS(universal_apply(seat, inv, &answer), UNIVERSAL_DONE);
    return answer.reply;
}

/* A seat of the log, whose handle is dropped. */
static universal_handle only_seat(universal_handle *log) {
    universal_handle seat = UNIVERSAL_NONE;
    IS(universal_seat(log, &seat, &process), UNIVERSAL_DONE);
    universal_drop(log);
    return seat;
}

static void objects(void) {
    universal_handle log = UNIVERSAL_NONE, seat;
    IS(universal_open_tally(1, 4, &log), UNIVERSAL_DONE);
    seat = only_seat(&log);
    IS(replied(&seat, 5), 0);
    IS(replied(&seat, ((uint64_t)1 << 31) + 2), 5);
    IS(replied(&seat, 0), 7);
    universal_drop(&seat);

    IS(universal_open_sticky(1, 4, &log), UNIVERSAL_DONE);
    seat = only_seat(&log);
    IS(replied(&seat, 1000000001), 0);
    IS(replied(&seat, 8), 8);
    IS(replied(&seat, 10), 8);
    universal_drop(&seat);

    IS(universal_open_register(1, 12, &log), UNIVERSAL_DONE);
    seat = only_seat(&log);
    IS(replied(&seat, UNIVERSAL_WRITE(5)), 0);
    IS(replied(&seat, UNIVERSAL_SWAP(9)), 5);
    IS(replied(&seat, UNIVERSAL_FETCH_ADD(3)), 9);
    IS(replied(&seat, UNIVERSAL_FETCH_MAX(7)), 12);
    IS(replied(&seat, UNIVERSAL_FETCH_MAX(20)), 12);
    IS(replied(&seat, UNIVERSAL_COMPARE_EXCHANGE(1, 2)), 20);
    IS(replied(&seat, UNIVERSAL_COMPARE_EXCHANGE(20, 2)), 20);
    IS(replied(&seat, UNIVERSAL_READ), 2);
    IS(replied(&seat, UNIVERSAL_FETCH_ADD(-1)), 2);
    IS(replied(&seat, UNIVERSAL_COMPARE_EXCHANGE(1, -1)), 1);
    IS(replied(&seat, UNIVERSAL_WRITE(UINT64_MAX)), 0);
    IS(replied(&seat, UNIVERSAL_READ), 2147483647);
    universal_drop(&seat);

    uint32_t next[] = {0, 1, 1, 0}, reply[] = {0, 0, 1, 1};
    IS(universal_open_machine(1, 4, 2, 2, next, 4, reply, 4, &log), UNIVERSAL_DONE);
    memset(next, 255, sizeof next);
    memset(reply, 255, sizeof reply);
    seat = only_seat(&log);
    IS(replied(&seat, 0), 0);
    IS(replied(&seat, 1), 0);
    IS(replied(&seat, 9), 1);
    IS(replied(&seat, 0), 0);
    universal_drop(&seat);
}

static void bad_sizes(void) {
    universal_handle log = UNIVERSAL_NONE;
    IS(universal_open_tally(0, 0, &log), UNIVERSAL_BAD_COUNT);
    IS(universal_open_sticky(65, 1, &log), UNIVERSAL_BAD_COUNT);
    IS(universal_open_register(UINT64_MAX, 1, &log), UNIVERSAL_BAD_COUNT);
    IS(universal_open_tally(1, 0, &log), UNIVERSAL_BAD_ROW);
    IS(universal_open_sticky(64, 4097, &log), UNIVERSAL_BAD_ROW);
    IS(universal_open_register(1, UINT64_MAX, &log), UNIVERSAL_BAD_ROW);
    IS(log.at != NULL, 0);
    IS(universal_open_register(64, 4096, &log), UNIVERSAL_DONE);
    IS(universal_open_tally(0, 1, &log), UNIVERSAL_BAD_COUNT);
    universal_handle seat = only_seat(&log);
    IS(process, 63);
    IS(replied(&seat, UNIVERSAL_SWAP(4)), 0);
    IS(replied(&seat, UNIVERSAL_READ), 4);
    universal_drop(&seat);
}

static void bad_tables(void) {
    const uint32_t next[] = {0, 1, 1, 0}, reply[] = {0, 0, 1, 1}, past[] = {0, 1, 2, 0}, high[] = {0, 0, 1, 1u << 31};
    universal_handle log = UNIVERSAL_NONE;
    IS(universal_open_machine(1, 1, 0, 2, next, 4, reply, 4, &log), UNIVERSAL_BAD_TABLE);
    IS(universal_open_machine(1, 1, 2, 0, next, 4, reply, 4, &log), UNIVERSAL_BAD_TABLE);
    IS(universal_open_machine(1, 1, 2, 2, next, 3, reply, 4, &log), UNIVERSAL_BAD_TABLE);
    IS(universal_open_machine(1, 1, 2, 2, next, 4, reply, 0, &log), UNIVERSAL_BAD_TABLE);
    IS(universal_open_machine(1, 1, 2, 2, past, 4, reply, 4, &log), UNIVERSAL_BAD_TABLE);
    IS(universal_open_machine(0, 0, 2, 2, next, 4, high, 4, &log), UNIVERSAL_BAD_TABLE);
    IS(universal_open_machine(0, 1, 2, 2, next, 4, reply, 4, &log), UNIVERSAL_BAD_COUNT);
    IS(universal_open_machine(1, 0, 2, 2, next, 4, reply, 4, &log), UNIVERSAL_BAD_ROW);
    IS(log.at != NULL, 0);
}

static void seats_end(void) {
    universal_handle log = UNIVERSAL_NONE, first = UNIVERSAL_NONE, second = UNIVERSAL_NONE, third = UNIVERSAL_NONE;
    IS(universal_open_tally(2, 1, &log), UNIVERSAL_DONE);
    IS(universal_seat(&log, &first, &process), UNIVERSAL_DONE);
    IS(process, 1);
    IS(universal_seat(&log, &second, &process), UNIVERSAL_DONE);
    IS(process, 0);
    process = NEVER;
    IS(universal_seat(&log, &third, &process), UNIVERSAL_NO_SEAT);
    IS(process, NEVER);
    IS(third.at != NULL, 0);
    universal_drop(&first);
    universal_drop(&second);
    IS(universal_seat(&log, &third, &process), UNIVERSAL_NO_SEAT);
    universal_drop(&log);
}

static void is_entry(const universal_entry *entry, uint64_t seq, uint64_t p, uint64_t of_p, uint64_t inv, uint64_t reply) {
    IS(entry->seq, seq);
    IS(entry->process, p);
    IS(entry->nth, of_p);
    IS(entry->inv, inv);
    IS(entry->reply, reply);
    IS(entry->is_replied, 1);
}

static void full(void) {
    universal_handle log = UNIVERSAL_NONE;
    IS(universal_open_tally(1, 1, &log), UNIVERSAL_DONE);
    universal_handle seat = only_seat(&log);
    IS(replied(&seat, 4), 0);
    answer = (universal_reply){NEVER, NEVER};
    IS(universal_apply(&seat, 4, &answer), UNIVERSAL_SPENT);
    IS(UNIVERSAL_FULL, UNIVERSAL_SPENT);
    IS(answer.reply, NEVER);
    IS(answer.turns, NEVER);
    IS(universal_close(&seat), UNIVERSAL_DONE);
    IS(universal_read(&seat, entries, 4, &count), UNIVERSAL_DONE);
    IS(count, 1);
    is_entry(&entries[0], 2, 0, 0, 4, 0);
    universal_drop(&seat);
}

/* Two calls of process 1, and one of process 0. */
static void entries_are_told(void) {
    universal_handle log = UNIVERSAL_NONE, first = UNIVERSAL_NONE, second = UNIVERSAL_NONE;
    IS(universal_open_tally(2, 2, &log), UNIVERSAL_DONE);
    IS(universal_seat(&log, &first, &process), UNIVERSAL_DONE);
    IS(universal_seat(&log, &second, &process), UNIVERSAL_DONE);
    IS(replied(&first, 5), 0);
    IS(replied(&first, 2), 5);
    IS(replied(&second, 1), 7);
    universal_drop(&log);
    universal_drop(&second);
    IS(universal_close(&first), UNIVERSAL_DONE);
    IS(universal_read(&first, entries, 4, &count), UNIVERSAL_DONE);
    IS(count, 3);
    is_entry(&entries[0], 2, 1, 0, 5, 0);
    is_entry(&entries[1], 3, 1, 1, 2, 5);
    is_entry(&entries[2], 4, 0, 0, 1, 7);
    universal_drop(&first);
}

static void busy(void) {
    universal_handle log = UNIVERSAL_NONE, first = UNIVERSAL_NONE, second = UNIVERSAL_NONE;
    IS(universal_open_tally(2, 2, &log), UNIVERSAL_DONE);
    IS(universal_seat(&log, &first, &process), UNIVERSAL_DONE);
    IS(universal_seat(&log, &second, &process), UNIVERSAL_DONE);
    IS(replied(&first, 3), 0);
    IS(universal_close(&first), UNIVERSAL_BUSY);
    universal_drop(&log);
    IS(universal_close(&first), UNIVERSAL_BUSY);
    IS(replied(&first, 1), 3);
    universal_drop(&second);
    IS(universal_close(&first), UNIVERSAL_DONE);
    memset(entries, 0, sizeof entries);
    IS(universal_read(&first, entries, 1, &count), UNIVERSAL_DONE);
    IS(count, 2);
    IS(entries[0].inv, 3);
    IS(entries[1].seq, 0);
    IS(universal_read(&first, entries, 0, &count), UNIVERSAL_DONE);
    IS(count, 2);
    universal_drop(&first);
}

static uint64_t nth;

/* What a comparison answers, and which call it tells. */
static void compares(universal_handle *log, uint64_t p, const universal_call *calls, size_t made, uint32_t status, uint64_t at) {
    nth = NEVER;
    IS(universal_compare(log, p, calls, made, &nth), status);
    IS(nth, at);
}

/* Two seats count, each call kept with its reply; the closed log has exactly these, and no others. */
static void all_seats(void) {
    universal_handle log = UNIVERSAL_NONE, first = UNIVERSAL_NONE, second = UNIVERSAL_NONE;
    universal_call of_first[3] = {{3, {0, 0}}, {1, {0, 0}}, {0, {0, 0}}}, of_second[1] = {{7, {0, 0}}};
    IS(universal_open_tally(3, 4, &log), UNIVERSAL_DONE);
    IS(universal_seat(&log, &first, &process), UNIVERSAL_DONE);
    IS(universal_seat(&log, &second, &process), UNIVERSAL_DONE);
    universal_drop(&log);
    IS(universal_apply(&first, of_first[0].inv, &of_first[0].answer), UNIVERSAL_DONE);
    IS(universal_apply(&second, of_second[0].inv, &of_second[0].answer), UNIVERSAL_DONE);
    IS(universal_apply(&first, of_first[1].inv, &of_first[1].answer), UNIVERSAL_DONE);
    IS(of_first[0].answer.reply, 0);
    IS(of_second[0].answer.reply, 3);
    IS(of_first[1].answer.reply, 10);
    compares(&first, 2, of_first, 2, UNIVERSAL_WRONG_HANDLE, NEVER);
    universal_drop(&second);
    IS(universal_close(&first), UNIVERSAL_DONE);
    compares(&first, 2, of_first, 2, UNIVERSAL_DONE, NEVER);
    compares(&first, 1, of_second, 1, UNIVERSAL_DONE, NEVER);
    compares(&first, 0, of_first, 0, UNIVERSAL_DONE, NEVER);
    compares(&first, UINT64_MAX, of_first, 0, UNIVERSAL_DONE, NEVER);
    /* a call too few, one too many, those of another process, and of one that there isn't */
    compares(&first, 2, of_first, 1, UNIVERSAL_DIFFERS, 1);
    compares(&first, 2, of_first, 3, UNIVERSAL_DIFFERS, 2);
    compares(&first, 2, of_second, 1, UNIVERSAL_DIFFERS, 0);
    compares(&first, 1, of_first, 2, UNIVERSAL_DIFFERS, 0);
    compares(&first, 3, of_second, 1, UNIVERSAL_DIFFERS, 0);
    compares(&first, ((uint64_t)1 << 32) + 2, of_first, 2, UNIVERSAL_DIFFERS, 0);
    /* another invocation, another reply; other turns are no other call */
    of_first[0].answer.turns = NEVER;
    of_first[1].inv = 2;
    compares(&first, 2, of_first, 2, UNIVERSAL_DIFFERS, 1);
    of_first[1].inv = 1;
    compares(&first, 2, of_first, 2, UNIVERSAL_DONE, NEVER);
    of_first[1].answer.reply++;
    compares(&first, 2, of_first, 2, UNIVERSAL_DIFFERS, 1);
    /* the entries are still there */
    IS(universal_read(&first, entries, 4, &count), UNIVERSAL_DONE);
    IS(count, 3);
    universal_drop(&first);
    compares(&first, 2, of_first, 0, UNIVERSAL_WRONG_HANDLE, NEVER);
}

/* What is on a handle that has nothing, or has something else, is refused and changes nothing. */
static void refuses(universal_handle *handle) {
    universal_handle seat = UNIVERSAL_NONE;
    const universal_call none[1] = {{0, {0, 0}}};
    answer = (universal_reply){NEVER, NEVER};
    process = NEVER;
    count = NEVER;
    IS(universal_seat(handle, &seat, &process), UNIVERSAL_WRONG_HANDLE);
    IS(universal_apply(handle, 1, &answer), UNIVERSAL_WRONG_HANDLE);
    IS(universal_close(handle), UNIVERSAL_WRONG_HANDLE);
    IS(universal_read(handle, entries, 4, &count), UNIVERSAL_WRONG_HANDLE);
    compares(handle, 0, none, 0, UNIVERSAL_WRONG_HANDLE, NEVER);
    IS(seat.at != NULL || process != NEVER || answer.reply != NEVER || answer.turns != NEVER || count != NEVER, 0);
}

static void misuse(void) {
    /* a null handle */
    universal_handle none = UNIVERSAL_NONE, log = UNIVERSAL_NONE, seat;
    refuses(&none);
    universal_drop(&none);
    refuses(&none);

    /* a dropped one, and one that is dropped twice */
    IS(universal_open_tally(1, 2, &log), UNIVERSAL_DONE);
    universal_drop(&log);
    universal_drop(&log);
    refuses(&log);

    /* a call, a closing and a reading by a log's handle; a seat of a seat's handle */
    IS(universal_open_tally(1, 2, &log), UNIVERSAL_DONE);
    answer = (universal_reply){NEVER, NEVER};
    IS(universal_apply(&log, 1, &answer), UNIVERSAL_WRONG_HANDLE);
    IS(universal_close(&log), UNIVERSAL_WRONG_HANDLE);
    IS(universal_read(&log, entries, 4, &count), UNIVERSAL_WRONG_HANDLE);
    seat = only_seat(&log);
    IS(universal_seat(&seat, &none, &process), UNIVERSAL_WRONG_HANDLE);
    IS(universal_read(&seat, entries, 4, &count), UNIVERSAL_WRONG_HANDLE);
    IS(replied(&seat, 3), 0);

    /* a second closing, and a seat that is used after it */
    IS(universal_close(&seat), UNIVERSAL_DONE);
    IS(universal_close(&seat), UNIVERSAL_WRONG_HANDLE);
    IS(universal_apply(&seat, 1, &answer), UNIVERSAL_WRONG_HANDLE);
    IS(universal_seat(&seat, &none, &process), UNIVERSAL_WRONG_HANDLE);
    IS(universal_read(&seat, entries, 4, &count), UNIVERSAL_DONE);
    IS(count, 1);
    universal_drop(&seat);
    refuses(&seat);
}

/* A seat has its log: whatever other logs there are, its calls are in that one. */
static void two_logs(void) {
    universal_handle one = UNIVERSAL_NONE, two = UNIVERSAL_NONE, first = UNIVERSAL_NONE, second = UNIVERSAL_NONE;
    IS(universal_open_tally(1, 2, &one), UNIVERSAL_DONE);
    IS(universal_open_tally(2, 2, &two), UNIVERSAL_DONE);
    IS(universal_seat(&one, &first, &process), UNIVERSAL_DONE);
    IS(universal_seat(&two, &second, &process), UNIVERSAL_DONE);
    IS(process, 1);
    IS(replied(&first, 5), 0);
    IS(replied(&second, 7), 0);
    IS(replied(&first, 1), 5);
    /* the other log's handle is dropped, which leaves this one busy; and a seat of the other log takes its place */
    universal_drop(&two);
    IS(universal_close(&first), UNIVERSAL_BUSY);
    IS(universal_seat(&one, &second, &process), UNIVERSAL_NO_SEAT);
    IS(replied(&second, 1), 7);
    universal_drop(&one);
    IS(universal_close(&first), UNIVERSAL_DONE);
    IS(universal_close(&second), UNIVERSAL_DONE);
    IS(universal_read(&first, entries, 4, &count), UNIVERSAL_DONE);
    IS(count, 2);
    IS(entries[1].inv, 1);
    IS(universal_read(&second, entries, 4, &count), UNIVERSAL_DONE);
    IS(count, 2);
    IS(entries[0].inv, 7);
    const universal_call of_first[] = {{5, {0, 1}}, {1, {5, 1}}}, of_second[] = {{7, {0, 1}}, {1, {7, 1}}};
    compares(&first, 0, of_first, 2, UNIVERSAL_DONE, NEVER);
    compares(&second, 1, of_second, 2, UNIVERSAL_DONE, NEVER);
    compares(&first, 0, of_second, 2, UNIVERSAL_DIFFERS, 0);
    compares(&second, 1, of_first, 2, UNIVERSAL_DIFFERS, 0);
    /* a handle that is opened again drops what it had */
    IS(universal_open_sticky(1, 1, &first), UNIVERSAL_DONE);
    IS(universal_seat(&first, &second, &process), UNIVERSAL_DONE);
    universal_drop(&first);
    universal_drop(&second);
}

int main(void) {
    IS(universal_version(), UNIVERSAL_VERSION);
    objects();
    bad_sizes();
    bad_tables();
    seats_end();
    full();
    entries_are_told();
    busy();
    all_seats();
    misuse();
    two_logs();
    if (wrong == 0)
        printf("calls: as the header says\n");
    return wrong != 0;
}
