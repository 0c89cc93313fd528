/* Objects by programs: each refusal; and an account, a rate limiter, a leaderboard and a map with compare-and-insert, each beside a
 * plain function: 100,000 calls one after another, and 4 threads, whose calls are made again in the order that they were told.
 *
 *     programs [CALLS]
 *
 * CALLS is how many calls the threads make in all on each object, by default 1,000,000. */
#include "universal_program.h"

#include <pthread.h>
#include <stdbool.h>
#include <stdio.h>
#include <stdlib.h>
#include <string.h>

enum { THREADS = 4, WORDS = 18, INVOCATION = 3, REPLY = 8, CLIENTS = 8, TOKENS = 5, RATE = 2, PAIRS = 8, BEST = 3, LIMIT = 1000 };

static void check(bool holds, const char *what) {
    if (holds) return;
    fprintf(stderr, "programs: %s\n", what);
    exit(1);
}

/* The registers that all programs use alike. The last two count the calls: word 0 of the state is how many there were, and each
 * reply begins with it, so that it tells the call's place among all calls. */
enum { calls = 15, one = 14, two = 13 };

static void counted(up_program *p) {
    up_load(p, calls, UP_STATE, 0);
    up_answer(p, 0, calls);
    up_set(p, one, 1);
    up_set(p, two, 2);
    up_add(p, calls, calls, one, UP_END);
    up_store(p, 0, calls);
}

/* An account of at most LIMIT: the call (0, amount) adds, (1, amount) takes. The reply is whether that was done, and the balance. */
static void account(up_program *p) {
    enum { kind, amount, balance, sum, limit };
    up_place takes = up_label(p), done = up_label(p), refused = up_label(p);
    up_load(p, kind, UP_INVOCATION, 0);
    up_load(p, amount, UP_INVOCATION, 1);
    up_load(p, balance, UP_STATE, 1);
    up_if_equal(p, kind, one, takes);
    up_add(p, sum, balance, amount, refused);
    up_set(p, limit, LIMIT);
    up_if_less(p, limit, sum, refused);
    up_go(p, done);
    up_here(p, takes);
    up_subtract(p, sum, balance, amount, refused);
    up_here(p, done);
    up_store(p, 1, sum);
    up_answer(p, 1, one);
    up_answer(p, 2, sum);
    up_go(p, UP_END);
    up_here(p, refused);
    up_answer(p, 2, balance);
}

static void plain_account(uint64_t *state, const uint64_t *call, uint64_t *reply) {
    uint64_t balance = state[1], amount = call[1];
    if (call[0] == 1 ? amount <= balance : amount <= LIMIT - balance) {
        state[1] = call[0] == 1 ? balance - amount : balance + amount;
        reply[1] = 1;
    }
    reply[2] = state[1];
}

/* A rate limiter: each of CLIENTS has at most TOKENS tokens, and gets RATE more with each unit of time. The call (client, now) takes
 * one: the reply is 1, or 0 where there is none. */
static void limiter(up_program *p) {
    enum { client, now, place, next, tokens, last, elapsed, number };
    up_place full = up_label(p), fresh = up_label(p), none = up_label(p);
    up_load(p, client, UP_INVOCATION, 0);
    up_load(p, now, UP_INVOCATION, 1);
    up_multiply(p, place, client, two, UP_END);
    up_add(p, place, place, one, UP_END);
    up_add(p, next, place, one, UP_END);
    up_load_by(p, tokens, UP_STATE, place, UP_END);
    up_load_by(p, last, UP_STATE, next, UP_END);
    up_subtract(p, elapsed, now, last, fresh);
    up_store_by(p, next, now, UP_END);
    up_set(p, number, RATE);
    up_multiply(p, elapsed, elapsed, number, full);
    up_add(p, tokens, tokens, elapsed, full);
    up_set(p, number, TOKENS);
    up_if_at_most(p, tokens, number, fresh);
    up_here(p, full);
    up_set(p, tokens, TOKENS);
    up_here(p, fresh);
    up_subtract(p, tokens, tokens, one, none);
    up_answer(p, 1, one);
    up_here(p, none);
    up_store_by(p, place, tokens, UP_END);
}

static void plain_limiter(uint64_t *state, const uint64_t *call, uint64_t *reply) {
    if (call[0] >= CLIENTS) return;
    uint64_t *tokens = &state[1 + 2 * call[0]], *last = &state[2 + 2 * call[0]];
    if (call[1] >= *last) {
        __extension__ typedef unsigned __int128 wide;
        wide more = (wide)(call[1] - *last) * RATE + *tokens;
        *tokens = more > TOKENS ? TOKENS : (uint64_t)more;
        *last = call[1];
    }
    if (*tokens > 0) *tokens -= 1, reply[1] = 1;
}

/* Goes on with the place of the pair of a key, or at `absent` with that behind the last pair. Word 1 of the state is how many pairs
 * there are, and then they come. */
static void finds(up_program *p, uint64_t key, uint64_t place, uint64_t end, uint64_t found, up_place here, up_place absent) {
    up_load(p, end, UP_STATE, 1);
    up_multiply(p, end, end, two, UP_END);
    up_add(p, end, end, two, UP_END);
    up_set(p, place, 2);
    uint64_t again = up_next(p);
    up_if_equal(p, place, end, absent);
    up_load_by(p, found, UP_STATE, place, UP_END);
    up_if_equal(p, found, key, here);
    up_add(p, place, place, two, UP_END);
    up_again(p, again, PAIRS, 0);
    up_go(p, UP_END);
}

/* A new pair has this key, at this place; where there is no room for it, the call ends. */
static void appends(up_program *p, uint64_t key, uint64_t place, uint64_t end) {
    up_store_by(p, place, key, UP_END);
    up_load(p, end, UP_STATE, 1);
    up_add(p, end, end, one, UP_END);
    up_store(p, 1, end);
}

/* A leaderboard: the call (0, player, points) adds points, and is answered the sum, or 0 where that is too great or there is no room;
 * each other call is answered the BEST best players with their points. */
static void leaderboard(up_program *p) {
    enum { kind, player, points, place, end, found, next, prior, above };
    up_place adds = up_label(p), here = up_label(p), absent = up_label(p), tell = up_label(p);
    up_load(p, kind, UP_INVOCATION, 0);
    up_load(p, player, UP_INVOCATION, 1);
    up_load(p, points, UP_INVOCATION, 2);
    up_set(p, found, 0);
    up_if_equal(p, kind, found, adds);
    for (uint64_t word = 2; word < 2 + 2 * BEST; word++) {
        up_load(p, found, UP_STATE, word);
        up_answer(p, word, found);
    }
    up_go(p, UP_END);
    up_here(p, adds);
    finds(p, player, place, end, found, here, absent);
    up_here(p, absent);
    appends(p, player, place, end);
    up_add(p, next, place, one, UP_END);
    up_go(p, tell);
    up_here(p, here);
    up_add(p, next, place, one, UP_END);
    up_load_by(p, found, UP_STATE, next, UP_END);
    up_add(p, points, points, found, UP_END);
    up_here(p, tell);
    up_store_by(p, next, points, UP_END);
    up_answer(p, 1, points);
    uint64_t again = up_next(p);
    up_subtract(p, prior, next, two, UP_END);
    up_if_equal(p, prior, one, UP_END);
    up_load_by(p, above, UP_STATE, prior, UP_END);
    up_if_at_most(p, points, above, UP_END);
    up_store_by(p, next, above, UP_END);
    up_store_by(p, prior, points, UP_END);
    up_subtract(p, place, prior, one, UP_END);
    up_load_by(p, found, UP_STATE, place, UP_END);
    up_store_by(p, place, player, UP_END);
    up_add(p, place, place, two, UP_END);
    up_store_by(p, place, found, UP_END);
    up_subtract(p, next, next, two, UP_END);
    up_again(p, again, PAIRS, 1);
}

static uint64_t *plain_find(uint64_t *state, uint64_t key) {
    for (uint64_t k = 0; k < state[1]; k++)
        if (state[2 + 2 * k] == key) return &state[2 + 2 * k];
    return NULL;
}

static uint64_t *plain_append(uint64_t *state, uint64_t key) {
    if (state[1] == PAIRS) return NULL;
    uint64_t *pair = &state[2 + 2 * state[1]++];
    pair[0] = key;
    return pair;
}

static void plain_leaderboard(uint64_t *state, const uint64_t *call, uint64_t *reply) {
    if (call[0] != 0) {
        memcpy(reply + 2, state + 2, 2 * BEST * sizeof *reply);
        return;
    }
    uint64_t *pair = plain_find(state, call[1]);
    if (pair == NULL && (pair = plain_append(state, call[1])) == NULL) return;
    if (pair[1] + call[2] < pair[1]) return;
    pair[1] += call[2], reply[1] = pair[1];
    for (; pair > state + 2 && pair[-1] < pair[1]; pair -= 2) {
        uint64_t moved[2] = {pair[0], pair[1]};
        memcpy(pair, pair - 2, sizeof moved);
        memcpy(pair - 2, moved, sizeof moved);
    }
}

/* A map of words but 0: the call (key, expected, value) writes the value where the key has the expected one, 0 for none. The reply is
 * whether it was written, and the value before. */
static void compare_insert(up_program *p) {
    enum { key, expected, value, place, end, found, next };
    up_place here = up_label(p), absent = up_label(p), write = up_label(p);
    up_load(p, key, UP_INVOCATION, 0);
    up_load(p, expected, UP_INVOCATION, 1);
    up_load(p, value, UP_INVOCATION, 2);
    finds(p, key, place, end, found, here, absent);
    up_here(p, here);
    up_add(p, next, place, one, UP_END);
    up_load_by(p, found, UP_STATE, next, UP_END);
    up_answer(p, 2, found);
    up_if_not_equal(p, found, expected, UP_END);
    up_go(p, write);
    up_here(p, absent);
    up_set(p, found, 0);
    up_if_not_equal(p, found, expected, UP_END);
    up_add(p, next, place, one, UP_END);
    appends(p, key, place, end);
    up_here(p, write);
    up_store_by(p, next, value, UP_END);
    up_answer(p, 1, one);
}

static void plain_compare_insert(uint64_t *state, const uint64_t *call, uint64_t *reply) {
    uint64_t *pair = plain_find(state, call[0]);
    if (pair != NULL) reply[2] = pair[1];
    if (reply[2] != call[1]) return;
    if (pair == NULL && (pair = plain_append(state, call[0])) == NULL) return;
    pair[1] = call[2], reply[1] = 1;
}

typedef struct example {
    const char *name;
    void (*program)(up_program *p);
    void (*plain)(uint64_t *state, const uint64_t *call, uint64_t *reply);
} example;

static const example EXAMPLES[] = {
    {"account", account, plain_account},
    {"rate limiter", limiter, plain_limiter},
    {"leaderboard", leaderboard, plain_leaderboard},
    {"compare-and-insert", compare_insert, plain_compare_insert},
};

/* xorshift64* (S. Vigna, 'An experimental exploration of Marsaglia's xorshift generators, scrambled', 2016). */
static uint64_t drawn(uint64_t *seed) {
    *seed ^= *seed >> 12, *seed ^= *seed << 25, *seed ^= *seed >> 27;
    return *seed * 0x2545F4914F6CDD1D;
}

/* Calls that reach each branch: small numbers, and now and then one of all 64 bits. */
static void draw(uint64_t *seed, uint64_t *call, uint64_t time) {
    for (int k = 0; k < INVOCATION; k++) {
        uint64_t number = drawn(seed);
        call[k] = number % 1009 == 0 ? drawn(seed) : (number >> 32) % (k == 0 ? 10 : 4);
    }
    if (drawn(seed) % 4 == 0) call[1] = time;
}

static universal_handle opened(const example *e, uint64_t n) {
    universal_instruction code[128];
    up_program p = UP_PROGRAM(code);
    counted(&p);
    e->program(&p);
    universal_handle object = UNIVERSAL_NONE;
    uint64_t start[WORDS] = {0}, place = 0;
    uint32_t status = up_open(&p, n, start, WORDS, INVOCATION, REPLY, &place, &object);
    if (status != UNIVERSAL_DONE) fprintf(stderr, "%s: instruction %zu: %s\n", e->name, (size_t)place, universal_strerror(status));
    check(status == UNIVERSAL_DONE, "a program is refused");
    return object;
}

static void plain_call(const example *e, uint64_t *state, const uint64_t *call, uint64_t *reply) {
    memset(reply, 0, REPLY * sizeof *reply);
    reply[0] = state[0]++;
    e->plain(state, call, reply);
}

static void one_by_one(const example *e) {
    universal_handle object = opened(e, 1), seat = UNIVERSAL_NONE;
    uint64_t state[WORDS] = {0}, last[WORDS], seed = 7, process, version, call[INVOCATION], reply[REPLY], wanted[REPLY];
    check(universal_small_seat(&object, &seat, &process) == UNIVERSAL_DONE, "no seat");
    for (uint64_t k = 0; k < 100000; k++) {
        draw(&seed, call, k / 16);
        plain_call(e, state, call, wanted);
        check(universal_small_apply(&seat, call, INVOCATION, reply, REPLY, &version) == UNIVERSAL_DONE, "a call is refused");
        if (memcmp(reply, wanted, sizeof reply) != 0) fprintf(stderr, "%s: call %zu\n", e->name, (size_t)k);
        check(memcmp(reply, wanted, sizeof reply) == 0, "a reply differs from the plain function's");
    }
    universal_drop(&object);
    check(universal_small_close(&seat, last, WORDS) == UNIVERSAL_DONE, "not closed");
    check(memcmp(state, last, sizeof state) == 0, "the last state differs from the plain function's");
}

typedef struct made {
    uint64_t call[INVOCATION], reply[REPLY];
} made;

typedef struct worker {
    universal_handle seat;
    uint64_t seed;
    size_t count;
    made *calls;
} worker;

static void *work(void *argument) {
    worker *w = argument;
    uint64_t version;
    for (size_t k = 0; k < w->count; k++) {
        draw(&w->seed, w->calls[k].call, k / 16);
        check(universal_small_apply(&w->seat, w->calls[k].call, INVOCATION, w->calls[k].reply, REPLY, &version) == UNIVERSAL_DONE,
              "a call of a thread is refused");
    }
    return NULL;
}

static void in_threads(const example *e, size_t each) {
    universal_handle object = opened(e, THREADS);
    worker workers[THREADS];
    pthread_t threads[THREADS];
    size_t all = THREADS * each;
    made **order = calloc(all, sizeof *order);
    uint64_t process, state[WORDS] = {0}, last[WORDS], wanted[REPLY];
    for (int t = 0; t < THREADS; t++) {
        workers[t] = (worker){UNIVERSAL_NONE, 1000 + (uint64_t)t, each, calloc(each, sizeof(made))};
        check(workers[t].calls != NULL && order != NULL, "no memory");
        check(universal_small_seat(&object, &workers[t].seat, &process) == UNIVERSAL_DONE, "no seat");
    }
    for (int t = 0; t < THREADS; t++) check(pthread_create(&threads[t], NULL, work, &workers[t]) == 0, "no thread");
    for (int t = 0; t < THREADS; t++) pthread_join(threads[t], NULL);
    for (int t = 0; t < THREADS; t++) {
        for (size_t k = 0; k < each; k++) {
            uint64_t place = workers[t].calls[k].reply[0];
            check(place < all && order[place] == NULL, "two calls have one place");
            order[place] = &workers[t].calls[k];
        }
        universal_drop(&workers[t].seat);
    }
    for (size_t k = 0; k < all; k++) {
        plain_call(e, state, order[k]->call, wanted);
        if (memcmp(order[k]->reply, wanted, sizeof wanted) != 0) fprintf(stderr, "%s: call %zu\n", e->name, k);
        check(memcmp(order[k]->reply, wanted, sizeof wanted) == 0, "a thread's reply differs from the plain function's");
    }
    check(universal_small_close(&object, last, WORDS) == UNIVERSAL_DONE, "not closed");
    check(memcmp(state, last, sizeof state) == 0, "the last state differs from the plain function's");
    for (int t = 0; t < THREADS; t++) free(workers[t].calls);
    free(order);
}

/* Opening words is refused with a status, and tells the number of an instruction where it is to. */
static void refuses(const uint64_t *code, size_t count, uint64_t n, uint64_t invocation, uint64_t reply, uint32_t status,
                    uint64_t number) {
    universal_handle object = UNIVERSAL_NONE;
    const uint64_t start[] = {0};
    uint64_t place = 99;
    uint32_t found = universal_open_program(n, code, count, start, 1, invocation, reply, &place, &object);
    if (found != status || place != number) fprintf(stderr, "found %u at %zu, wanted %u\n", found, (size_t)place, status);
    check(found == status && place == number && object.at == NULL, "another refusal, or another place");
}

static void refusals(void) {
    /* each is a first instruction that is right, and one that is wrong in this way */
#define WRONG(status, ...) \
    { \
        const uint64_t code[] = {UNIVERSAL_OP_SET, 0, 0, 0, 0, __VA_ARGS__}; \
        refuses(code, 10, 1, 1, 1, status, 1); \
    }
    WRONG(UNIVERSAL_NO_OPERATION, 0, 0, 0, 0, 0)
    WRONG(UNIVERSAL_NO_OPERATION, UNIVERSAL_OP_AGAIN + 1, 0, 0, 0, 0)
    WRONG(UNIVERSAL_NO_REGISTER, UNIVERSAL_OP_SET, 16, 0, 0, 0)
    WRONG(UNIVERSAL_NO_REGISTER, UNIVERSAL_OP_LOAD_STATE_BY, 0, 16, 0, 2)
    WRONG(UNIVERSAL_NO_PLACE, UNIVERSAL_OP_LOAD_STATE, 0, 1, 0, 0)
    WRONG(UNIVERSAL_NO_PLACE, UNIVERSAL_OP_ANSWER, 1, 0, 0, 2)
    WRONG(UNIVERSAL_JUMPS_BACK, UNIVERSAL_OP_GO, 1, 0, 0, 0)
    WRONG(UNIVERSAL_JUMPS_BACK, UNIVERSAL_OP_ADD, 0, 0, 0, 0)
    WRONG(UNIVERSAL_NO_TARGET, UNIVERSAL_OP_IF_LESS, 3, 0, 0, 0)
    WRONG(UNIVERSAL_GOES_FORWARD, UNIVERSAL_OP_AGAIN, 2, 1, 16, 0)
    WRONG(UNIVERSAL_NO_LOOP, UNIVERSAL_OP_AGAIN, 1, 1, 16, 0)
    const uint64_t set[] = {UNIVERSAL_OP_SET, 0, 0, 0, 0}, loop[] = {UNIVERSAL_OP_AGAIN, 0, (uint64_t)1 << 32, 0, 0};
    refuses(set, 4, 1, 1, 1, UNIVERSAL_NO_OPERATION, 0);
    refuses(loop, 5, 1, 1, 1, UNIVERSAL_TOO_LONG, 99);
    refuses(set, 5, 1, 65537, 1, UNIVERSAL_BAD_CAPACITY, 99);
    refuses(set, 5, 1, 1, 0, UNIVERSAL_BAD_CAPACITY, 99);
    refuses(set, 4, 65, 1, 1, UNIVERSAL_BAD_COUNT, 99);
    refuses(set, 4, 0, 1, 1, UNIVERSAL_BAD_COUNT, 99);
    uint64_t *many = malloc(5 * 4097 * sizeof *many);
    check(many != NULL, "no memory");
    for (size_t k = 0; k < 5 * 4097; k++) many[k] = k % 5 == 0 ? UNIVERSAL_OP_SET : 0;
    refuses(many, 5 * 4097, 1, 1, 1, UNIVERSAL_TOO_LONG, 99);
    free(many);
}

int main(int count, char **arguments) {
    size_t all = count > 1 ? strtoull(arguments[1], NULL, 10) : 1000000;
    refusals();
    for (size_t k = 0; k < sizeof EXAMPLES / sizeof *EXAMPLES; k++) {
        one_by_one(&EXAMPLES[k]);
        in_threads(&EXAMPLES[k], all / THREADS);
        printf("%s: 100000 calls one by one, and %zu by %d threads, agree with the plain function\n", EXAMPLES[k].name,
               all / THREADS * THREADS, THREADS);
    }
    return 0;
}
