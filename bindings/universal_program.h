/* Programs for universal_open_program, written so that they read like code. Nothing of this header is proved: what a program
 * means, and that a wrong one is refused, is.
 *
 * An account of at most 100, whose call adds its word where the sum is no more than that, and is answered the sum:
 *
 *     universal_instruction code[16];
 *     up_program p = UP_PROGRAM(code);
 *     enum { balance, amount, most };
 *     up_load(&p, balance, UP_STATE, 0);
 *     up_load(&p, amount, UP_INVOCATION, 0);
 *     up_add(&p, balance, balance, amount, UP_END);
 *     up_set(&p, most, 100);
 *     up_if_less(&p, most, balance, UP_END);
 *     up_store(&p, 0, balance);
 *     up_answer(&p, 0, balance);
 *     const uint64_t start[] = {40};
 *     uint32_t status = up_open(&p, 4, start, 1, 1, 1, &place, &object);
 *
 * Registers are the numbers 0 to 15. A place to go on at is UP_END, where the call ends, or a label: up_label makes one, and
 * up_here puts it before the next instruction. A label that is never put anywhere is refused, with UNIVERSAL_JUMPS_BACK. A program
 * goes forward alone, but for up_again.
 */
#ifndef UNIVERSAL_PROGRAM_H
#define UNIVERSAL_PROGRAM_H

#include "universal.h"

/* How many labels a program may have. */
enum { UP_LABELS = 64 };

/* Instructions that are being written. Where they don't fit, or there are too many labels, up_open answers UNIVERSAL_TOO_LONG. */
typedef struct up_program {
    universal_instruction *code;
    size_t room, count, labels;
    uint64_t here[UP_LABELS]; /* the instruction that each label is before */
} up_program;

#define UP_PROGRAM(array) {(array), sizeof(array) / sizeof *(array), 0, 0, {0}}

/* A place to go on at. */
typedef uint64_t up_place;

/* Where the call ends. A label has the number of its entry below it. */
#define UP_END UINT64_MAX

/* Words that up_load loads from. */
enum { UP_STATE = 0, UP_INVOCATION = 2, UP_REPLY = 4 };

static inline void up_write(up_program *p, uint64_t operation, uint64_t to, uint64_t left, uint64_t right, uint64_t otherwise) {
    if (p->count < p->room) {
        universal_instruction *i = &p->code[p->count];
        i->operation = operation, i->to = to, i->left = left, i->right = right, i->otherwise = otherwise;
    }
    p->count++;
}

/* The number of the next instruction: where up_again goes back to. */
static inline uint64_t up_next(const up_program *p) { return p->count; }

static inline up_place up_label(up_program *p) { return UP_END - 1 - p->labels++; }

/* The label is here, before the next instruction, or at the end. */
static inline void up_here(up_program *p, up_place label) {
    size_t number = (size_t)(UP_END - 1 - label);
    if (number < UP_LABELS) p->here[number] = p->count;
}

static inline void up_set(up_program *p, uint64_t to, uint64_t value) { up_write(p, UNIVERSAL_OP_SET, to, value, 0, 0); }

/* A word at a fixed place, and at the place that a register has; where there is none, the program goes on at `otherwise`. */
static inline void up_load(up_program *p, uint64_t to, uint64_t area, uint64_t place) {
    up_write(p, UNIVERSAL_OP_LOAD_STATE + area, to, place, 0, UP_END);
}
static inline void up_load_by(up_program *p, uint64_t to, uint64_t area, uint64_t place, up_place otherwise) {
    up_write(p, UNIVERSAL_OP_LOAD_STATE_BY + area, to, place, 0, otherwise);
}

/* Writes a register into the state, and into the reply. */
static inline void up_store(up_program *p, uint64_t place, uint64_t value) {
    up_write(p, UNIVERSAL_OP_STORE, place, value, 0, UP_END);
}
static inline void up_store_by(up_program *p, uint64_t place, uint64_t value, up_place otherwise) {
    up_write(p, UNIVERSAL_OP_STORE_BY, place, value, 0, otherwise);
}
static inline void up_answer(up_program *p, uint64_t place, uint64_t value) {
    up_write(p, UNIVERSAL_OP_ANSWER, place, value, 0, UP_END);
}
static inline void up_answer_by(up_program *p, uint64_t place, uint64_t value, up_place otherwise) {
    up_write(p, UNIVERSAL_OP_ANSWER_BY, place, value, 0, otherwise);
}

/* Arithmetic: where there is no result of 64 bits, the program goes on at `otherwise`. */
#define UP_CHECKED(name, OPERATION) \
    static inline void name(up_program *p, uint64_t to, uint64_t left, uint64_t right, up_place otherwise) { \
        up_write(p, OPERATION, to, left, right, otherwise); \
    }
UP_CHECKED(up_add, UNIVERSAL_OP_ADD)
UP_CHECKED(up_subtract, UNIVERSAL_OP_SUBTRACT)
UP_CHECKED(up_multiply, UNIVERSAL_OP_MULTIPLY)
UP_CHECKED(up_divide, UNIVERSAL_OP_DIVIDE)
UP_CHECKED(up_remainder, UNIVERSAL_OP_REMAINDER)

/* Arithmetic modulo 2^64. */
#define UP_WRAPPING(name, OPERATION) \
    static inline void name(up_program *p, uint64_t to, uint64_t left, uint64_t right) { \
        up_write(p, OPERATION, to, left, right, 0); \
    }
UP_WRAPPING(up_wrapping_add, UNIVERSAL_OP_WRAPPING_ADD)
UP_WRAPPING(up_wrapping_subtract, UNIVERSAL_OP_WRAPPING_SUBTRACT)
UP_WRAPPING(up_wrapping_multiply, UNIVERSAL_OP_WRAPPING_MULTIPLY)

/* Where the left register compares so with the right one, the program goes on at the place. */
#define UP_TEST(name, OPERATION) \
    static inline void name(up_program *p, uint64_t left, uint64_t right, up_place to) { up_write(p, OPERATION, to, left, right, 0); }
UP_TEST(up_if_equal, UNIVERSAL_OP_IF_EQUAL)
UP_TEST(up_if_not_equal, UNIVERSAL_OP_IF_NOT_EQUAL)
UP_TEST(up_if_less, UNIVERSAL_OP_IF_LESS)
UP_TEST(up_if_at_most, UNIVERSAL_OP_IF_AT_MOST)

static inline void up_go(up_program *p, up_place to) { up_write(p, UNIVERSAL_OP_GO, to, 0, 0, 0); }

/* Goes back to an instruction, as long as the loop of this number, from 0 to 15, has gone back fewer than `most` times in the
 * call: so what is between is made at most most + 1 times. */
static inline void up_again(up_program *p, uint64_t back, uint64_t most, uint64_t turn) {
    up_write(p, UNIVERSAL_OP_AGAIN, back, most, turn, 0);
}

static inline uint64_t up_number(const up_program *p, uint64_t place) {
    if (place == UP_END) return p->count;
    return UP_END - 1 - place < p->labels ? p->here[UP_END - 1 - place] : place;
}

/* Puts the numbers of instructions in place of labels: once, when the program is whole. UNIVERSAL_TOO_LONG: it didn't fit. */
static inline uint32_t up_close(up_program *p) {
    if (p->count > p->room || p->labels > UP_LABELS) return UNIVERSAL_TOO_LONG;
    for (size_t k = 0; k < p->count; k++) {
        universal_instruction *i = &p->code[k];
        uint64_t family = i->operation / 16;
        if (family == UNIVERSAL_OP_GO / 16) i->to = up_number(p, i->to);
        if (family >= UNIVERSAL_OP_LOAD_STATE / 16 && family <= UNIVERSAL_OP_ADD / 16) i->otherwise = up_number(p, i->otherwise);
    }
    p->labels = 0;
    return UNIVERSAL_DONE;
}

/* Opens the program, as universal_open_program does. */
static inline uint32_t up_open(up_program *p, uint64_t n, const uint64_t *start, size_t words, uint64_t invocation,
                               uint64_t reply, uint64_t *place, universal_handle *object) {
    uint32_t status = up_close(p);
    if (status != UNIVERSAL_DONE) return status;
    return universal_open_program(n, &p->code->operation, 5 * p->count, start, words, invocation, reply, place, object);
}

#endif
