/* Each allocation of a whole use is refused in turn: the call answers UNIVERSAL_MEMORY and changes nothing, and nothing
 * leaks. */
#include "universal.h"
#include "refusing.h"
#include <stdbool.h>
#include <stdio.h>
#include <stdlib.h>

static void expect(bool holds, const char *what) {
    if (!holds) {
        fprintf(stderr, "allocation %ld refused: not so: %s\n", refused, what);
        exit(1);
    }
}

/* A use, in which a refused call is made again: all goes on as if nothing had been refused. */
static void use(uint32_t (*open)(universal_handle *)) {
    universal_handle log = UNIVERSAL_NONE, seats[2] = {UNIVERSAL_NONE, UNIVERSAL_NONE};
    uint32_t status = open(&log);
    if (status == UNIVERSAL_MEMORY) {
        expect(log.at == NULL, "the handle is as it was");
        status = open(&log);
    }
    expect(status == UNIVERSAL_DONE, "a log opens");
    for (uint64_t t = 0; t < 2; t++) {
        uint64_t process = 9;
        status = universal_seat(&log, &seats[t], &process);
        if (status == UNIVERSAL_MEMORY) {
            expect(seats[t].at == NULL && process == 9, "the seat's handle is as it was");
            status = universal_seat(&log, &seats[t], &process);
        }
        expect(status == UNIVERSAL_DONE && process == 1 - t, "no seat is lost");
    }
    universal_drop(&log);
    for (int i = 0; i < 6; i++) {
        universal_reply answer = {0, 0};
        long before = asked;
        expect(universal_apply(&seats[i % 2], 1, &answer) == UNIVERSAL_DONE, "a call is done");
        expect(asked == before, "a call takes no memory");
    }
    universal_drop(&seats[1]);
    universal_entry entries[6];
    size_t count = 0;
    status = universal_close(&seats[0]);
    if (status == UNIVERSAL_MEMORY) {
        universal_reply answer = {0, 0};
        expect(universal_read(&seats[0], entries, 6, &count) == UNIVERSAL_WRONG_HANDLE, "it isn't read yet");
        expect(universal_apply(&seats[0], 1, &answer) == UNIVERSAL_WRONG_HANDLE, "it is closed");
        status = universal_close(&seats[0]);
    }
    expect(status == UNIVERSAL_DONE, "the log closes");
    expect(universal_read(&seats[0], entries, 6, &count) == UNIVERSAL_DONE && count == 6, "it has each call");
    universal_drop(&seats[0]);
}

/* The same with a small object. */
static void use_small(uint32_t (*open)(universal_handle *)) {
    universal_handle object = UNIVERSAL_NONE, seats[2] = {UNIVERSAL_NONE, UNIVERSAL_NONE};
    uint32_t status = open(&object);
    if (status == UNIVERSAL_MEMORY) {
        expect(object.at == NULL, "the handle is as it was");
        status = open(&object);
    }
    expect(status == UNIVERSAL_DONE, "an object opens");
    for (uint64_t t = 0; t < 2; t++) {
        uint64_t process = 9;
        status = universal_small_seat(&object, &seats[t], &process);
        if (status == UNIVERSAL_MEMORY) {
            expect(seats[t].at == NULL && process == 9, "the seat's handle is as it was");
            status = universal_small_seat(&object, &seats[t], &process);
        }
        expect(status == UNIVERSAL_DONE && process == 1 - t, "no seat is lost");
    }
    long before = asked;
    for (uint64_t i = 0; i < 6; i++) {
        const uint64_t insert[] = UNIVERSAL_MAP_INSERT(i % 3, i + 1);
        uint64_t reply[2] = {0}, version = 0;
        uint32_t has_come = 0;
        expect(universal_small_apply(&seats[i % 2], insert, 3, reply, 2, &version) == UNIVERSAL_DONE, "a call is done");
        expect(reply[1] == (i < 3 ? 0 : i - 2), "it is told the value before");
        expect(universal_small_follows(&seats[(i + 1) % 2], version, &has_come) == UNIVERSAL_DONE && has_come, "it has come");
    }
    universal_drop(&object);
    universal_drop(&seats[1]);
    uint64_t state[7] = {0};
    expect(universal_small_close(&seats[0], state, 7) == UNIVERSAL_DONE && state[0] == 3, "the object closes");
    expect(asked == before, "calls and closing take no memory");
}

/* Opening alone. */
static void opens(uint32_t (*open)(universal_handle *)) {
    universal_handle object = UNIVERSAL_NONE;
    uint32_t status = open(&object);
    if (status == UNIVERSAL_MEMORY) {
        expect(object.at == NULL, "the handle is as it was");
        status = open(&object);
    }
    expect(status == UNIVERSAL_DONE, "an object opens");
    universal_drop(&object);
}

static uint32_t map(universal_handle *object) {
    return universal_open_map(2, 3, object);
}

static uint32_t tally(universal_handle *log) {
    return universal_open_tally(2, 3, log);
}

static uint32_t machine(universal_handle *log) {
    const uint32_t next[] = {0, 1, 1, 0}, reply[] = {0, 0, 1, 1};
    return universal_open_machine(2, 3, 2, 2, next, 4, reply, 4, log);
}

static uint32_t small_machine(universal_handle *object) {
    const uint32_t next[] = {0, 1, 1, 0}, reply[] = {0, 0, 1, 1};
    return universal_open_small_machine(2, 2, 2, next, 4, reply, 4, object);
}

static long each(void (*run)(uint32_t (*)(universal_handle *)), uint32_t (*open)(universal_handle *)) {
    long last = 0;
    for (refused = 1;; refused++) {
        asked = 0;
        run(open);
        if (asked < refused)
            return last;
        last = refused;
    }
}

int main(void) {
    const uint32_t outside[] = {0, 1, 2, 0};
    universal_handle log = UNIVERSAL_NONE;
    refused = 1;
    expect(universal_open_machine(2, 3, 2, 2, outside, 4, outside, 4, &log) == UNIVERSAL_BAD_TABLE && asked == 0,
           "bad tables are told before memory is asked for");
    long of_tally = each(use, tally), of_machine = each(use, machine), of_map = each(use_small, map);
    long of_small_machine = each(opens, small_machine);
    expect(of_tally > 0 && of_machine > of_tally && of_map > 0 && of_small_machine > 2, "there was memory to refuse");
    printf("refused: %ld, %ld, %ld and %ld allocations, each in turn\n", of_tally, of_machine, of_map,
           of_small_machine);
    return 0;
}
