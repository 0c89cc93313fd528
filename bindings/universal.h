/* Objects that threads share, and that no thread can hold up. A call takes no lock and no memory, and ends within a number
 * of steps on shared words that is told beforehand, whatever the other threads do. All calls have one order, in which each
 * has the reply that it was given.
 *
 * n processes share an object, from 1 to 64. Each has a seat, by which it makes its calls. There are two kinds:
 *   - a small object: a counter, a register, an array of counters, a queue, a stack, a map, a book of accounts, a
 *     machine of two tables, or a program of your own, on words of 64 bits. A seat makes up to 2^50 calls, and it keeps no history.
 *   - a log: a tally, a sticky register, a register, or a machine of two tables, on words of 31 bits. A seat makes up to k
 *     calls, at most 4,096, and the closed log tells all of them in their order.
 *
 * The functions of this file stand in crates/universal_c, but for universal_version and those that are static inline, which are
 * C and no part of the proof; docs/bindings.md says what is proved of each. Only tested: when memory is refused, and that a
 * call takes no memory and no lock. That a read stores nothing in a shared word, takes neither, and finds the present version
 * is in no clause: it is seen from the code. That all calls have one order is a law of every execution; what closing an object
 * says is of the calls of the seat that closes it. What a caller owes is written here, and nothing checks it.
 *
 * What a caller owes:
 *   - A handle begins as UNIVERSAL_NONE. Only these functions change it, and it is never copied: of two copies the
 *     second one that is used is a use after free. It may be moved while no call uses it.
 *   - A handle is in one call at a time. Different handles may be in calls at the same time, on any threads. A handle may
 *     go from thread to thread: by a thread's start or join, a lock, or a sequentially consistent atomic.
 *   - A pointer that is passed is not null, is aligned, and is to memory of its type that was written before; so are the
 *     elements of an array, also where it has none. No two pointers of one call are to the same memory.
 *   - No call is made from a signal handler, nor in the forked child of a process with threads, and none is left by
 *     longjmp or by a thread's cancellation.
 *
 * A handle that has nothing, that was closed, or that has something else than a call is for is no error of the caller's:
 * the call answers UNIVERSAL_WRONG_HANDLE and changes nothing.
 */
#ifndef UNIVERSAL_H
#define UNIVERSAL_H

#include <stddef.h>
#include <stdint.h>

#ifdef __cplusplus
extern "C" {
#endif

/* The version of this header: major, minor and patch as 10000 * major + 100 * minor + patch; and that of the library, which is
 * another one where a program runs with another library than it was compiled for. */
#define UNIVERSAL_VERSION 400
uint32_t universal_version(void);

/* A small object, a log, a seat of either, a seat of a small object without an owner, a closed log, read or not, or nothing. */
typedef struct universal_handle {
    void *at; /* null where it has nothing; else of no use to a caller */
} universal_handle;

/* What a handle is initialized with, also one of static storage. As a value, which a handle can be set to as long as it has
 * nothing, it is (universal_handle)UNIVERSAL_NONE. */
#ifdef __cplusplus
#define UNIVERSAL_NONE (universal_handle{nullptr})
#else
#define UNIVERSAL_NONE {0}
#endif

/* What a call answers. */
typedef enum universal_status {
    UNIVERSAL_DONE = 0,
    UNIVERSAL_BAD_COUNT = 1,    /* n isn't from 1 to 64 */
    UNIVERSAL_BAD_ROW = 2,      /* k isn't from 1 to 4096 */
    UNIVERSAL_MEMORY = 3,       /* memory was refused */
    UNIVERSAL_SPENT = 4,        /* the seat has made its k calls; of a small object, its 2^50 calls */
    UNIVERSAL_FULL = 4,         /* the same, by the name that it had until 0.3.0: of no queue or map */
    UNIVERSAL_NO_SEAT = 5,      /* all n seats are given out */
    UNIVERSAL_BUSY = 6,         /* another handle still has the log or the object */
    UNIVERSAL_WRONG_HANDLE = 7, /* the handle hasn't what the call is for */
    UNIVERSAL_BAD_TABLE = 8,    /* the tables aren't those of a machine */
    UNIVERSAL_DIFFERS = 9,      /* the closed log has other calls of the process */
    UNIVERSAL_BAD_CAPACITY = 10, /* a state would have more than 65,536 words; of a program also an invocation or a reply, or a
                                    reply none */
    UNIVERSAL_BAD_WIDTH = 11,    /* these aren't as many words as those of the object */
    UNIVERSAL_NO_OPERATION = 12, /* an instruction of a program has no operation that there is, or not all its words */
    UNIVERSAL_NO_REGISTER = 13,  /* it names a register that isn't below 16 */
    UNIVERSAL_NO_PLACE = 14,     /* its fixed place lies outside its area */
    UNIVERSAL_JUMPS_BACK = 15,   /* it would go on at itself or at an earlier instruction */
    UNIVERSAL_NO_TARGET = 16,    /* it would go on past the end */
    UNIVERSAL_GOES_FORWARD = 17, /* its loop would go back to a later instruction */
    UNIVERSAL_NO_LOOP = 18,      /* its loop's number isn't below 16 */
    UNIVERSAL_TOO_LONG = 19,     /* a program has more than 4,096 instructions, or more than 2^32 steps in a call */
    UNIVERSAL_CHANGED = 28       /* another version came while a read loaded the state (20 to 27 are of universal_shared.h) */
} universal_status;

/* What a status says, in words; "no status" of any other number. The text stays for good. */
static inline const char *universal_strerror(uint32_t status) {
    switch (status) {
    case UNIVERSAL_DONE: return "done";
    case UNIVERSAL_BAD_COUNT: return "the number of processes isn't from 1 to 64";
    case UNIVERSAL_BAD_ROW: return "the number of calls of a process isn't from 1 to 4096";
    case UNIVERSAL_MEMORY: return "memory was refused";
    case UNIVERSAL_SPENT: return "the seat has made all its calls";
    case UNIVERSAL_NO_SEAT: return "all seats are given out";
    case UNIVERSAL_BUSY: return "another handle still has the log or the object";
    case UNIVERSAL_WRONG_HANDLE: return "the handle hasn't what the call is for";
    case UNIVERSAL_BAD_TABLE: return "the tables aren't those of a machine";
    case UNIVERSAL_DIFFERS: return "the closed log has other calls of the process";
    case UNIVERSAL_BAD_CAPACITY: return "a state, an invocation or a reply would have more than 65536 words, or a reply none";
    case UNIVERSAL_BAD_WIDTH: return "these aren't as many words as those of the object";
    case UNIVERSAL_NO_OPERATION: return "an instruction has no such operation, or not all its words";
    case UNIVERSAL_NO_REGISTER: return "an instruction names no register";
    case UNIVERSAL_NO_PLACE: return "an instruction's place lies outside its area";
    case UNIVERSAL_JUMPS_BACK: return "an instruction doesn't lead to a later one";
    case UNIVERSAL_NO_TARGET: return "an instruction leads past the end";
    case UNIVERSAL_GOES_FORWARD: return "a loop goes back to a later instruction";
    case UNIVERSAL_NO_LOOP: return "a loop's number isn't below 16";
    case UNIVERSAL_TOO_LONG: return "a program has more than 4096 instructions, or more than 2^32 steps in a call";
    case UNIVERSAL_CHANGED: return "another version came while the state was read";
    default: return "no status";
    }
}

/* ------------------------------------------------------------------------------------------------------------------
 * Small objects
 *
 * An invocation, a reply and a state are each so many words, as the table says. A macro makes the words of an invocation, to
 * be the initial value of an array:
 *
 *     const uint64_t insert[] = UNIVERSAL_MAP_INSERT(7, 70);
 *     uint64_t reply[2] = {0}, version = 0;
 *     universal_small_apply(&seat, insert, 3, reply, 2, &version);
 *
 * object       invocation   reply   state
 * counter      1            1       1
 * register64   3            1       1
 * counters     2            1       count
 * queue        1            1       2 + capacity: how many numbers, the slot of the oldest one, and the slots, from 0. Behind
 *                                   that slot come the others in their order, and behind the last slot the first one
 * stack        1            1       1 + capacity: how many numbers, and then they, the newest last
 * map          3            2       1 + 2 * capacity: how many keys, and then each with its value, the oldest key first
 * book         4            2       16: the balances
 * machine      1            1       1
 * program      as it says   ..      ..
 *
 * Where a state has W words, an invocation I and a reply R, a call takes at most 6W + (9 + 3I + 6R)n + I + R + 11 steps on
 * shared words. Where another process brought in a version since the process's own last one, it copies the whole state, also
 * while the object is empty: some 1.3 nanoseconds a word (docs/measured.md). Where none came, it takes the time of what it
 * touches: one counter, or a value; or, where a map takes or loses a key, as many words as the object holds.
 *
 * What a call would be answered can be read without making it: universal_small_read stores nothing, so no other process copies a
 * state for it. It takes at most W + (1 + R)n + 3 steps, and may find that the state has changed meanwhile.
 * ------------------------------------------------------------------------------------------------------------------ */

/* Opens a counter modulo 2^64, 0 at the start, for n processes. A call adds its number, and is answered the sum before.
 *
 * UNIVERSAL_BAD_COUNT, UNIVERSAL_MEMORY, in this order; after either *object is as it was. After UNIVERSAL_DONE it has the
 * object, and what it had before is dropped. */
uint32_t universal_open_counter(uint64_t n, universal_handle *object);

#define UNIVERSAL_COUNTER_ADD(number) {(uint64_t)(number)}

/* Opens a register of 64 bits, 0 at the start. Each call is answered the value before; so a compare-and-exchange has
 * written where that is the expected one. Other words than those of the macros read.
 * The statuses are those of universal_open_counter. */
uint32_t universal_open_register64(uint64_t n, universal_handle *object);

#define UNIVERSAL_REGISTER64_READ {0, 0, 0}
#define UNIVERSAL_REGISTER64_WRITE(value) {1, (uint64_t)(value), 0}
#define UNIVERSAL_REGISTER64_COMPARE_EXCHANGE(expected, value) {2, (uint64_t)(expected), (uint64_t)(value)}

/* Opens an array of `count` counters modulo 2^64, each 0 at the start. A call adds a number to one of them, by its index from
 * 0, and is answered the sum before. One that names none changes nothing, and is answered 0. A copy is `count`
 * words.
 *
 * UNIVERSAL_BAD_COUNT; UNIVERSAL_BAD_CAPACITY where count is more than 65,536; UNIVERSAL_MEMORY; in this order. After each
 * *object is as it was. */
uint32_t universal_open_counters(uint64_t n, uint32_t count, universal_handle *object);

#define UNIVERSAL_COUNTERS_ADD(index, number) {(uint64_t)(index), (uint64_t)(number)}

/* Opens a queue of at most `capacity` numbers that aren't 0. A number that is put in is answered 1, or 0 where the queue is
 * full. Taking the oldest number out is answered it, or 0 where there is none. To put 0 in is to take one out. A copy is
 * 2 + capacity words (1 + capacity until 0.3.0, and in another order).
 *
 * UNIVERSAL_BAD_COUNT; UNIVERSAL_BAD_CAPACITY where capacity is more than 65,534; UNIVERSAL_MEMORY; in this order. After each
 * *object is as it was. */
uint32_t universal_open_queue(uint64_t n, uint32_t capacity, universal_handle *object);

#define UNIVERSAL_QUEUE_PUT(number) {(uint64_t)(number)}
#define UNIVERSAL_QUEUE_TAKE {0}

/* Opens a stack of at most `capacity` numbers that aren't 0. It is as the queue is, but that the newest number comes off.
 * A copy is 1 + capacity words. The statuses are those of universal_open_queue, with UNIVERSAL_BAD_CAPACITY where capacity is
 * more than 65,535. */
uint32_t universal_open_stack(uint64_t n, uint32_t capacity, universal_handle *object);

#define UNIVERSAL_STACK_PUSH(number) {(uint64_t)(number)}
#define UNIVERSAL_STACK_POP {0}

/* Opens a map from words to words, of at most `capacity` keys. The reply is UNIVERSAL_MAP_VALUE and the value that the key had
 * before the call, or UNIVERSAL_MAP_ABSENT and 0. It is UNIVERSAL_MAP_FULL and 0 where a new key has no room: the map stays as
 * it is. Other words than those of the macros get. A copy is 1 + 2 * capacity
 * words.
 * The statuses are those of universal_open_queue, with UNIVERSAL_BAD_CAPACITY where capacity is more than 32,767. */
uint32_t universal_open_map(uint64_t n, uint32_t capacity, universal_handle *object);

#define UNIVERSAL_MAP_GET(key) {0, (uint64_t)(key), 0}
#define UNIVERSAL_MAP_INSERT(key, value) {1, (uint64_t)(key), (uint64_t)(value)}
#define UNIVERSAL_MAP_REMOVE(key) {2, (uint64_t)(key), 0}

enum { UNIVERSAL_MAP_ABSENT = 0, UNIVERSAL_MAP_VALUE = 1, UNIVERSAL_MAP_FULL = 2 };

/* Opens a book of sixteen accounts, 0 to 15, each with a balance from 0 to 999,999,999,999 that is 0 at the start. Where an
 * account or an amount of a call is none, it asks for the total. The first word of a reply says which one it is:
 *   UNIVERSAL_BOOK_BALANCE, with the balance after a deposit or a withdrawal;
 *   UNIVERSAL_BOOK_MOVED;
 *   UNIVERSAL_BOOK_OVER, where a balance would be too great, and nothing is changed;
 *   UNIVERSAL_BOOK_SHORT, where a balance is too small, and nothing is changed;
 *   UNIVERSAL_BOOK_SUM, with the sum of all balances.
 * The statuses are those of universal_open_counter. */
uint32_t universal_open_book(uint64_t n, universal_handle *object);

#define UNIVERSAL_BOOK_DEPOSIT(account, amount) {0, (uint64_t)(account), 0, (uint64_t)(amount)}
#define UNIVERSAL_BOOK_WITHDRAW(account, amount) {1, (uint64_t)(account), 0, (uint64_t)(amount)}
#define UNIVERSAL_BOOK_MOVE(from, to, amount) {2, (uint64_t)(from), (uint64_t)(to), (uint64_t)(amount)}
#define UNIVERSAL_BOOK_TOTAL {3, 0, 0, 0}

enum {
    UNIVERSAL_BOOK_BALANCE = 0,
    UNIVERSAL_BOOK_OVER = 1,
    UNIVERSAL_BOOK_SHORT = 2,
    UNIVERSAL_BOOK_MOVED = 3,
    UNIVERSAL_BOOK_SUM = 4
};

/* Opens the machine of two tables, which are copied. Its states are the numbers below `states`, of which 0 is the start;
 * its invocations are those below `invocations`, and each greater one is the last of them. In state s a call of
 * invocation i is answered reply[s * invocations + i], and next[s * invocations + i] is the state after it.
 *
 * UNIVERSAL_BAD_TABLE: states isn't from 1 to 2^31; or invocations is 0; or a table hasn't states * invocations
 * entries; or an entry of `next` isn't below states; or one of `reply` isn't below 2^31. Then come the statuses of
 * universal_open_counter. After each *object is as it was. */
uint32_t universal_open_small_machine(uint64_t n, uint32_t states, uint32_t invocations, const uint32_t *next,
                                      size_t next_count, const uint32_t *reply, size_t reply_count,
                                      universal_handle *object);

#define UNIVERSAL_MACHINE_CALL(invocation) {(uint64_t)(invocation)}

/* An instruction of a program: an operation, and what it is made with. */
typedef struct universal_instruction {
    uint64_t operation; /* a universal_operation */
    uint64_t to, left, right, otherwise;
} universal_instruction;

/* What instructions do. A program has 16 registers, numbered from 0, that are 0 as a call begins, and so is the reply. `to`, `left`
 * and `right` name registers, where nothing else is said. The instructions are numbered from 0; their count, as a number to go on
 * at, ends the call. A program goes on at the next instruction, or at a later one, but for AGAIN. */
typedef enum universal_operation {
    UNIVERSAL_OP_SET = 0x10, /* to gets the number `left` */
    /* `to` gets word `left` of an area, or the word whose place register `left` has; where it has none there, the program goes on
     * at `otherwise` */
    UNIVERSAL_OP_LOAD_STATE = 0x20,
    UNIVERSAL_OP_LOAD_STATE_BY = 0x21,
    UNIVERSAL_OP_LOAD_INVOCATION = 0x22,
    UNIVERSAL_OP_LOAD_INVOCATION_BY = 0x23,
    UNIVERSAL_OP_LOAD_REPLY = 0x24,
    UNIVERSAL_OP_LOAD_REPLY_BY = 0x25,
    /* word `to` of the state or the reply, or the word whose place register `to` has, gets what register `left` has; where there is
     * none, the program goes on at `otherwise` */
    UNIVERSAL_OP_STORE = 0x30,
    UNIVERSAL_OP_STORE_BY = 0x31,
    UNIVERSAL_OP_ANSWER = 0x32,
    UNIVERSAL_OP_ANSWER_BY = 0x33,
    /* `to` gets left + right, and so on; where that is no number of 64 bits, or right is 0 in a division, `to` stays, and the
     * program goes on at `otherwise` */
    UNIVERSAL_OP_ADD = 0x40,
    UNIVERSAL_OP_SUBTRACT = 0x41,
    UNIVERSAL_OP_MULTIPLY = 0x42,
    UNIVERSAL_OP_DIVIDE = 0x43,
    UNIVERSAL_OP_REMAINDER = 0x44,
    /* the same modulo 2^64 */
    UNIVERSAL_OP_WRAPPING_ADD = 0x50,
    UNIVERSAL_OP_WRAPPING_SUBTRACT = 0x51,
    UNIVERSAL_OP_WRAPPING_MULTIPLY = 0x52,
    /* the program goes on at the instruction `to`: always, or where left == right, != , <, <= */
    UNIVERSAL_OP_GO = 0x60,
    UNIVERSAL_OP_IF_EQUAL = 0x61,
    UNIVERSAL_OP_IF_NOT_EQUAL = 0x62,
    UNIVERSAL_OP_IF_LESS = 0x63,
    UNIVERSAL_OP_IF_AT_MOST = 0x64,
    /* the program goes back to the instruction `to`, this one or an earlier one, as long as the loop of the number `right`, from 0 to
     * 15, has gone back fewer than `left` times in the call */
    UNIVERSAL_OP_AGAIN = 0x70
} universal_operation;

/* Opens an object by a program, for n processes: its state begins as the `words` words of `start`, an invocation has `invocation`
 * words, and a reply `reply`. `code` are the fields of instructions, `count` words, five of each instruction. All is copied.
 * universal_program.h writes programs. The program ends after at most as many steps as there are instructions, times one more than
 * the `left` of all AGAINs together. A call may run it up to 3n times (by hand), also for the calls of other processes.
 *
 * UNIVERSAL_BAD_COUNT; UNIVERSAL_NO_OPERATION; then, of the first instruction that is wrong, the first of UNIVERSAL_NO_REGISTER,
 * UNIVERSAL_NO_PLACE, UNIVERSAL_JUMPS_BACK, UNIVERSAL_NO_TARGET, UNIVERSAL_GOES_FORWARD, UNIVERSAL_NO_LOOP: after each of these but
 * the first *place is that instruction's number. UNIVERSAL_TOO_LONG; UNIVERSAL_BAD_CAPACITY where a state, an invocation or a reply
 * has more than 65,536 words, or a reply none. In this order; UNIVERSAL_MEMORY may come from UNIVERSAL_NO_OPERATION on. After each
 * *object is as it was. */
uint32_t universal_open_program(uint64_t n, const uint64_t *code, size_t count, const uint64_t *start, size_t words,
                                uint64_t invocation, uint64_t reply, uint64_t *place, universal_handle *object);

/* Gives out the next seat of a small object: that of the greatest process that has none yet. *process is which it is. What
 * *seat had before is dropped. A seat may be used, and closed, after the object's own handle is dropped.
 *
 * UNIVERSAL_WRONG_HANDLE: *object has no small object. UNIVERSAL_NO_SEAT: all are given out. UNIVERSAL_MEMORY: no seat is
 * lost. In this order; after each *seat and *process are as they were. */
uint32_t universal_small_seat(universal_handle *object, universal_handle *seat, uint64_t *process);

/* A call by a seat of a small object. Versions count from 0, the start; *version is one that the call is in, and greater than
 * each that the seat has had since it was opened or taken over; that it is greater than those before a take-over is in no clause.
 *
 * UNIVERSAL_WRONG_HANDLE: *seat has no seat of a small object. UNIVERSAL_BAD_WIDTH: the invocation or the reply hasn't as many
 * words as those of the object. UNIVERSAL_SPENT: the seat has made 2^50 calls. In this order; after each nothing is changed. */
uint32_t universal_small_apply(universal_handle *seat, const uint64_t *invocation, size_t invocation_count, uint64_t *reply,
                               size_t reply_count, uint64_t *version);

/* Reads the present state by a seat of a small object: the reply is what a call of this invocation would be answered there, and
 * *version is the one that has that state. No call is made, nothing is stored in a shared word, and no lock and no memory is taken.
 * The version is at least the one that the seat had, and all calls of the seat are in it. The seat has it then: its later calls come
 * after all calls that are in it, and their versions are greater. The first read of a version copies its words; each further one
 * before the seat's next call loads one word (in no clause).
 *
 * UNIVERSAL_WRONG_HANDLE, UNIVERSAL_BAD_WIDTH, UNIVERSAL_SPENT: as of universal_small_apply; after each nothing is changed.
 * UNIVERSAL_CHANGED: another version came meanwhile, and nothing is known of the state. The reply, *version and the version of the
 * seat are as they were. Ask again, as often as you like; who has to be answered within a bound makes the call. In this order. */
uint32_t universal_small_read(universal_handle *seat, const uint64_t *invocation, size_t invocation_count, uint64_t *reply,
                              size_t reply_count, uint64_t *version);

/* For an invocation that changes nothing: up to three reads, and where another version came each time the call. So it stores nothing
 * where nobody else is at work, and ends within a bound in any case. It is C over the two, with their statuses but
 * UNIVERSAL_CHANGED, and no part of the proof. */
static inline uint32_t universal_small_read_or_apply(universal_handle *seat, const uint64_t *invocation, size_t invocation_count,
                                                     uint64_t *reply, size_t reply_count, uint64_t *version) {
    for (int i = 0; i < 3; i++) {
        uint32_t status = universal_small_read(seat, invocation, invocation_count, reply, reply_count, version);
        if (status != UNIVERSAL_CHANGED) return status;
    }
    return universal_small_apply(seat, invocation, invocation_count, reply, reply_count, version);
}

/* The calls of the objects by name, which know how many words each has; the version isn't told. They are C over
 * universal_small_apply, with its statuses, and no part of the proof. What a call is answered is written where it is
 * UNIVERSAL_DONE. */
#define UNIVERSAL_NAMED(name, replies, reply, invocation, ...) \
    static inline uint32_t name(universal_handle *seat, __VA_ARGS__) { \
        const uint64_t words[] = invocation; \
        uint64_t version = 0; \
        return universal_small_apply(seat, words, sizeof words / sizeof *words, reply, replies, &version); \
    }
UNIVERSAL_NAMED(universal_counter_add, 1, before, UNIVERSAL_COUNTER_ADD(number), uint64_t number, uint64_t *before)
UNIVERSAL_NAMED(universal_register64_write, 1, before, UNIVERSAL_REGISTER64_WRITE(value), uint64_t value, uint64_t *before)
UNIVERSAL_NAMED(universal_register64_compare_exchange, 1, before, UNIVERSAL_REGISTER64_COMPARE_EXCHANGE(expected, value),
                uint64_t expected, uint64_t value, uint64_t *before)
UNIVERSAL_NAMED(universal_counters_add, 1, before, UNIVERSAL_COUNTERS_ADD(index, number), uint32_t index, uint64_t number,
                uint64_t *before)
/* *is_in is 1, or 0 where there is no room */
UNIVERSAL_NAMED(universal_queue_put, 1, is_in, UNIVERSAL_QUEUE_PUT(number), uint64_t number, uint64_t *is_in)
UNIVERSAL_NAMED(universal_stack_push, 1, is_in, UNIVERSAL_STACK_PUSH(number), uint64_t number, uint64_t *is_in)
/* *number is 0 where there is none */
UNIVERSAL_NAMED(universal_queue_take, 1, number, UNIVERSAL_QUEUE_TAKE, uint64_t *number)
UNIVERSAL_NAMED(universal_stack_pop, 1, number, UNIVERSAL_STACK_POP, uint64_t *number)
/* the reply's two words */
UNIVERSAL_NAMED(universal_map_insert, 2, reply, UNIVERSAL_MAP_INSERT(key, value), uint64_t key, uint64_t value, uint64_t reply[2])
UNIVERSAL_NAMED(universal_map_remove, 2, reply, UNIVERSAL_MAP_REMOVE(key), uint64_t key, uint64_t reply[2])

/* What only reads is answered by universal_small_read_or_apply. */
static inline uint32_t universal_register64_read(universal_handle *seat, uint64_t *value) {
    const uint64_t words[] = UNIVERSAL_REGISTER64_READ;
    uint64_t version = 0;
    return universal_small_read_or_apply(seat, words, 3, value, 1, &version);
}
static inline uint32_t universal_map_get(universal_handle *seat, uint64_t key, uint64_t reply[2]) {
    const uint64_t words[] = UNIVERSAL_MAP_GET(key);
    uint64_t version = 0;
    return universal_small_read_or_apply(seat, words, 3, reply, 2, &version);
}

/* The next three are for who keeps objects in memory that outlives a process, as universal_shared.h does: a seat is taken over
 * after its owner's death. */

/* A call by a seat of a small object, as universal_small_apply, but announced at once: no direct attempt is made. A seat that may be
 * taken over after its owner's death makes its calls by this one alone.
 *
 * The statuses are those of universal_small_apply. */
uint32_t universal_small_apply_announced(universal_handle *seat, const uint64_t *invocation, size_t invocation_count,
                                         uint64_t *reply, size_t reply_count, uint64_t *version);

/* Leaves a seat, which is between two calls: the handle has the seat of a process without an owner then.
 *
 * UNIVERSAL_WRONG_HANDLE: *seat has no seat of a small object, and nothing is changed. */
uint32_t universal_small_leave(universal_handle *seat);

/* Takes over a seat without an owner, of which `made` calls have returned. Where its former owner had begun one more, that is
 * ended: *ended is 1, the reply is written, and *version is one that the call is in. Else *ended is 0, and the reply and *version
 * are as they were. The handle has a seat then, which goes on.
 *
 * What the caller vouches for: the former owner takes no more steps. Exactly `made` of its calls have returned. All were made by
 * universal_small_apply_announced. This is what the proof asks for.
 * One more may have returned, whose reply is lost: it is told as one that had begun, with the same reply. That rests on a law of
 * executions (last_load_leaves_no_trace) and an argument by hand; no clause of this function has it.
 *
 * UNIVERSAL_WRONG_HANDLE: *seat has no seat without an owner. UNIVERSAL_BAD_WIDTH: the reply hasn't as many words as those of the
 * object. UNIVERSAL_MEMORY. In this order; after each nothing is changed. */
uint32_t universal_small_resume(universal_handle *seat, uint64_t made, uint64_t *reply, size_t reply_count, uint32_t *ended,
                                uint64_t *version);

/* Asks whether a version has come, by one load: *has_come is 1 or 0. 1: all later calls of this seat come after all calls that
 * are in that version. Of a version that a call was answered it is 1 by a law of the rule (returned_has_come); no clause of this
 * function says so. A program handles 0.
 *
 * UNIVERSAL_WRONG_HANDLE: *seat has no seat of a small object, and nothing is changed. */
uint32_t universal_small_follows(universal_handle *seat, uint64_t version, uint32_t *has_come);

/* Closes a small object, by the last handle that has it, and writes its last state. That it is the state after a history with
 * this seat's calls is proved, and that this history has all calls is tested. The handle is the
 * object's own or that of a seat, and has nothing afterwards. It takes no memory. Where all seats are lost, as with a thread
 * that died, the object's own handle closes it: drop the seats' handles before.
 *
 * UNIVERSAL_WRONG_HANDLE: *handle has neither. UNIVERSAL_BAD_WIDTH: a state hasn't so many words. UNIVERSAL_BUSY: another
 * handle has the object. In this order; after each *handle and the words are as they were. */
uint32_t universal_small_close(universal_handle *handle, uint64_t *state, size_t state_count);

/* ------------------------------------------------------------------------------------------------------------------
 * Logs
 *
 * A call of a log ends within 12n + 15 steps on shared words.
 * ------------------------------------------------------------------------------------------------------------------ */

/* A reply. */
typedef struct universal_reply {
    uint32_t reply; /* what the object answered */
    uint32_t turns; /* how many turns of the construction's loop the call took */
} universal_reply;

/* A call as a caller made it, with what it was answered. */
typedef struct universal_call {
    uint64_t inv;
    universal_reply answer; /* its turns aren't looked at */
} universal_call;

/* A call that took effect. */
typedef struct universal_entry {
    uint64_t seq;        /* its number in the log; the first entry has 2 */
    uint64_t process;    /* whose call it was, from 0 to n - 1 */
    uint64_t nth;        /* the how many-th call of its process it was, from 0 */
    uint64_t inv;        /* what was invoked */
    uint32_t reply;      /* what was answered, or 0 */
    uint32_t is_replied; /* 0 only in a last entry whose call never returned, and 1 else */
} universal_entry;

/* Opens a log of a tally, for n processes that make up to k calls each. A tally is a sum, 0 at the start: a call adds
 * inv modulo 2^31, and is answered the sum before.
 *
 * UNIVERSAL_BAD_COUNT, UNIVERSAL_BAD_ROW, UNIVERSAL_MEMORY, in this order; after each *log is as it was. After
 * UNIVERSAL_DONE it has the log, and what it had before is dropped. The log takes 8 * (2n + 5 * (n * k + 1)) bytes. */
uint32_t universal_open_tally(uint64_t n, uint64_t k, universal_handle *log);

/* Opens a log of a sticky register, which keeps the first value. It is unset at the start. An inv from 1 to 10^9 sets it
 * if it is unset, and each other inv reads. The reply is the value afterwards, 0 for unset.
 * The statuses are those of universal_open_tally. */
uint32_t universal_open_sticky(uint64_t n, uint64_t k, universal_handle *log);

/* Opens a log of a register of 31 bits, 0 at the start. The call is UNIVERSAL_READ or one that a macro below makes.
 * The statuses are those of universal_open_tally. */
uint32_t universal_open_register(uint64_t n, uint64_t k, universal_handle *log);

/* The lowest 31 bits of a number: of -1 they are 2^31 - 1, which is what adding -1 modulo 2^31 wants. */
#define UNIVERSAL_31_BITS(number) ((uint64_t)(number) & 0x7fffffff)

/* The invocations of a register; of each value the lowest 31 bits count. A write is answered 0, each other call the
 * value before. */
#define UNIVERSAL_READ ((uint64_t)0)
#define UNIVERSAL_WRITE(value) (((uint64_t)1 << 31) + UNIVERSAL_31_BITS(value))
#define UNIVERSAL_SWAP(value) (((uint64_t)2 << 31) + UNIVERSAL_31_BITS(value))
#define UNIVERSAL_FETCH_ADD(number) (((uint64_t)3 << 31) + UNIVERSAL_31_BITS(number))
#define UNIVERSAL_FETCH_MAX(value) (((uint64_t)4 << 31) + UNIVERSAL_31_BITS(value))
#define UNIVERSAL_COMPARE_EXCHANGE(expected, value) \
    (((((uint64_t)1 << 31) + UNIVERSAL_31_BITS(expected)) << 31) + UNIVERSAL_31_BITS(value))

/* Opens a log of a machine of two tables, as universal_open_small_machine does. UNIVERSAL_BAD_TABLE comes before the
 * statuses of universal_open_tally. After each *log is as it was. */
uint32_t universal_open_machine(uint64_t n, uint64_t k, uint32_t states, uint32_t invocations, const uint32_t *next,
                                size_t next_count, const uint32_t *reply, size_t reply_count, universal_handle *log);

/* Gives out the next seat of a log: that of the greatest process that has none yet. *process is which it is. What *seat
 * had before is dropped. A seat may be used, and closed, after the log's handle is dropped.
 *
 * UNIVERSAL_WRONG_HANDLE: *log has no log. UNIVERSAL_NO_SEAT: all are given out. UNIVERSAL_MEMORY: no seat is lost.
 * In this order; after each *seat and *process are as they were. */
uint32_t universal_seat(universal_handle *log, universal_handle *seat, uint64_t *process);

/* A call by a seat.
 *
 * UNIVERSAL_WRONG_HANDLE: *seat has no seat. UNIVERSAL_SPENT: it has made its k calls. After either nothing is changed. */
uint32_t universal_apply(universal_handle *seat, uint64_t inv, universal_reply *answer);

/* Asks whether a call stands in the log: the call `nth`, from 0, of a process, as that process counts its own calls. It
 * takes no lock and no memory. *is_there is 1 or 0. 1: it stands there, with all that its process made before it, and
 * all later calls of this seat come after it, in the log that is closed too. Of a call that has returned it is 1 by a law of
 * the rule (returned_is_there); the clause of this function has that of the calls that the seat knows. 0 says nothing;
 * it is 0 where there is no such process or call.
 *
 * UNIVERSAL_WRONG_HANDLE: *seat has no seat, and nothing is changed. */
uint32_t universal_follows(universal_handle *seat, uint64_t process, uint64_t nth, uint32_t *is_there);

/* Closes the log of a seat, by the last handle that has the log: drop the log's own handle and the other seats before.
 * Afterwards *seat has the entries in place of the seat.
 *
 * UNIVERSAL_WRONG_HANDLE: *seat has neither a seat nor a closed log whose entries are still to be read. UNIVERSAL_BUSY: another
 * handle has the log. After either *seat is as it was.
 * UNIVERSAL_MEMORY: the log is closed, but its entries could not be read: *seat has it in place of the seat, and a further
 * universal_close reads them. */
uint32_t universal_close(universal_handle *seat);

/* Writes the first entries of a closed log in their order, up to `capacity`, and to *count how many there are in all.
 *
 * UNIVERSAL_WRONG_HANDLE: *log has no entries, and nothing is written. */
uint32_t universal_read(universal_handle *log, universal_entry *entries, size_t capacity, size_t *count);

/* Compares a closed log with the calls of a process, in their order, each with the reply that it was given. A closed log
 * is proved to have those of the process whose seat closed it. A caller that keeps what the other seats were told sees
 * here that it has theirs too. UNIVERSAL_DONE: it has exactly these calls of the process.
 *
 * UNIVERSAL_WRONG_HANDLE: *log has no entries. UNIVERSAL_DIFFERS: it has others, and *nth is the number, from 0, of the
 * first call in which they differ. After each but UNIVERSAL_DIFFERS *nth is as it was. */
uint32_t universal_compare(universal_handle *log, uint64_t process, const universal_call *calls, size_t count,
                           uint64_t *nth);

/* Lets go what the handle has, which is nothing afterwards. At UNIVERSAL_NONE it does nothing. */
void universal_drop(universal_handle *handle);

#ifdef __cplusplus
}
#endif
#endif
