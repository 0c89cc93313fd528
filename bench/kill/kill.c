/* Processes share an object, and a killer ends them by SIGKILL at moments that it draws. Each seat is claimed anew, and
 * each answer is accounted for: the seats' owners write down, in memory that outlives them too, what they are about to
 * call and what they were answered.
 *
 *     kill OBJECT SEATS KILLS MICROSECONDS fork|exec [again|lost]
 *
 * OBJECT is counter, register, queue, map, book or program, which is a counter with a limit. Between two kills pass up to so
 * many MICROSECONDS. Workers are forked, or are programs that are begun anew. With `again` who takes a seat over makes a call
 * again that was ended, and with `lost` it takes one for made that wasn't: both have to be seen as wrong. With STOP in the
 * environment nobody is killed, but stopped for 20 ms. The status is 1 where something is wrong. */
#define _GNU_SOURCE
#include <errno.h>
#include <signal.h>
#include <stdatomic.h>
#include <stdbool.h>
#include <stdio.h>
#include <stdlib.h>
#include <string.h>
#include <sys/mman.h>
#include <sys/prctl.h>
#include <sys/wait.h>
#include <time.h>
#include <unistd.h>
#include "killer.h"
#include "limited.h"

enum { SEATS = 64, KEYS = 8, CAPACITY = 24, ACCOUNTS = 16, NUMBERS = 1 << 28 };

/* What is wrong. */
enum { TWICE, VERSION, UNKNOWN, ORDER, CALLS, WORDS, STATUS, BALANCE, WRONGS };
static const char *const wrongs[WRONGS] = {"an answer came twice",
                                           "a version didn't grow",
                                           "a number came out that wasn't put in",
                                           "a producer's order isn't kept",
                                           "a claim tells another number of calls",
                                           "a claim tells other words",
                                           "a status",
                                           "a balance isn't the one of the calls"};

/* What a seat's owners write down. `recorded` is written last. */
typedef struct diary {
    _Alignas(128) _Atomic uint64_t recorded;                  /* calls whose answers are counted */
    uint64_t asked[2][4];                                     /* of call c in place c % 2: written before it is made */
    uint64_t seed[2], numbers[2], last_seen[2], last_version; /* as they are after call c - 1, in place c % 2 */
    uint64_t last_of[SEATS];                                  /* of a queue: the last number taken of each producer */
    int64_t moved[2][ACCOUNTS];                               /* of a book: what the seat's calls changed */
    uint64_t is_full;
} diary;

static struct all {
    _Atomic uint64_t wrong[WRONGS], was[3], ended, asked_only, stop;
    _Atomic uint32_t in[NUMBERS], out[NUMBERS]; /* of a number: the call that has put it in, or was answered it */
    diary of[SEATS];
} * all;

static universal_shared_kind kind;
static uint64_t n, words_in, words_out;
static bool makes_again, loses;

static void wrong(int which) { atomic_fetch_add(&all->wrong[which], 1); }

/* Notes that this call met a number: false where another one has. A call may say it again, where its owner died before
 * it was counted. */
static bool is_first(_Atomic uint32_t *met, uint64_t number, uint64_t p, uint64_t c) {
    uint32_t none = 0, call = (uint32_t)((c + 1) * SEATS + p);
    if (number >= NUMBERS) return false;
    return atomic_compare_exchange_strong(&met[number], &none, call) || none == call;
}

/* The number that stands for the j-th one of a seat. */
static uint64_t number(uint64_t p, uint64_t j) { return p * (NUMBERS / n) + j + 1; }

/* ---- What is called, and what is checked of the answer. ---- */

static void choose(uint64_t p, uint64_t c) {
    diary *d = &all->of[p];
    uint64_t *words = d->asked[c % 2], x = d->seed[c % 2] = draw(&(uint64_t){d->seed[(c + 1) % 2]});
    uint64_t next = d->numbers[c % 2] = d->numbers[(c + 1) % 2] + 1;
    if (next + 2 >= NUMBERS / n || c >= (1u << 26) - 2) d->is_full = 1;
    switch (kind.object) {
    case UNIVERSAL_SHARED_PROGRAM:
    case UNIVERSAL_SHARED_COUNTER: words[0] = 1; break;
    case UNIVERSAL_SHARED_REGISTER64:
        words[0] = 1 + (x & 1), words[1] = x & 1 ? d->last_seen[(c + 1) % 2] : number(p, next),
        words[2] = x & 1 ? number(p, next) : 0;
        break;
    case UNIVERSAL_SHARED_QUEUE: words[0] = x & 1 ? number(p, next) : 0; break;
    case UNIVERSAL_SHARED_MAP: words[0] = 1, words[1] = (x >> 8) % KEYS, words[2] = number(p, next); break;
    default:
        words[0] = x % 3, words[1] = (x >> 8) % ACCOUNTS, words[2] = (x >> 16) % ACCOUNTS, words[3] = (x >> 24) % 1000;
    }
}

/* Of call c, which is answered: `again` where it may have been checked already, since its owner died before it was
 * counted. */
static void check(uint64_t p, uint64_t c, const uint64_t *reply, uint64_t version, bool again) {
    diary *d = &all->of[p];
    const uint64_t *words = d->asked[c % 2];
    if (version < d->last_version || (!again && version == d->last_version)) wrong(VERSION);
    d->last_version = version;
    d->last_seen[c % 2] = reply[0];
    switch (kind.object) {
    case UNIVERSAL_SHARED_PROGRAM:
    case UNIVERSAL_SHARED_COUNTER:
        if (reply[0] + 2 * SEATS >= NUMBERS)
            d->is_full = 1;
        else if (!is_first(all->out, reply[0], p, c))
            wrong(TWICE);
        break;
    case UNIVERSAL_SHARED_REGISTER64: { /* what a call has written, another one replaces, once */
        bool wrote = words[0] == 1 || reply[0] == words[1];
        uint64_t written = words[0] == 1 ? words[1] : words[2];
        if (wrote) is_first(all->in, written, p, c), d->last_seen[c % 2] = written;
        if (wrote && reply[0] && !is_first(all->out, reply[0], p, c)) wrong(TWICE);
        break;
    }
    case UNIVERSAL_SHARED_QUEUE:
        if (words[0] && reply[0]) is_first(all->in, words[0], p, c);
        if (!words[0] && reply[0]) {
            uint64_t q = (reply[0] - 1) / (NUMBERS / n);
            if (q >= n || !is_first(all->out, reply[0], p, c))
                wrong(TWICE);
            else if (reply[0] < d->last_of[q] || (!again && reply[0] == d->last_of[q]))
                wrong(ORDER);
            else
                d->last_of[q] = reply[0];
        }
        break;
    case UNIVERSAL_SHARED_MAP:
        is_first(all->in, words[2], p, c);
        if (reply[0] == UNIVERSAL_MAP_VALUE && !is_first(all->out, reply[1], p, c)) wrong(TWICE);
        break;
    default: {
        int64_t *moved = d->moved[c % 2], amount = (int64_t)words[3];
        memcpy(moved, d->moved[(c + 1) % 2], sizeof d->moved[0]);
        if (reply[0] == UNIVERSAL_BOOK_BALANCE) moved[words[1]] += words[0] == 0 ? amount : -amount;
        if (reply[0] == UNIVERSAL_BOOK_MOVED) moved[words[1]] -= amount, moved[words[2]] += amount;
    }
    }
}

/* A call is counted, and the next one is written down. */
static void count(uint64_t p, uint64_t c, const uint64_t *reply, uint64_t version, bool again) {
    check(p, c, reply, version, again);
    choose(p, c + 1);
    atomic_store(&all->of[p].recorded, c + 1);
}

static void go_on(uint64_t p, const universal_shared_last *last) {
    diary *d = &all->of[p];
    uint64_t c = d->recorded;
    atomic_fetch_add(&all->was[last->was], 1);
    atomic_fetch_add(&all->ended, last->ended);
    atomic_fetch_add(&all->asked_only, last->is_next);
    if (c == 0) { /* (again, where the first call was written down and not made) */
        d->seed[1] = 88172645463325252ull + p * 977;
        choose(p, 0);
    }
    if (last->made == c + 1) { /* the call was made, and isn't counted */
        if (memcmp(last->invocation, d->asked[c % 2], 8 * words_in)) wrong(WORDS);
        if (!makes_again) count(p, c, last->reply, last->version, true);
    } else if (last->made == c) {
        if (last->is_next && memcmp(last->next, d->asked[c % 2], 8 * words_in)) wrong(WORDS);
        if (loses && last->is_next) count(p, c, last->reply, last->version, true);
    } else if (!makes_again && !loses)
        wrong(CALLS);
}

static void work(universal_shared_segment *segment, uint64_t p) {
    universal_shared_seat *seat = NULL;
    universal_shared_last last;
    uint32_t status = universal_shared_claim(segment, (int64_t)p, &seat, &last);
    if (status) {
        wrong(STATUS);
        fprintf(stderr, "claim: %s, %s\n", universal_shared_strerror(status), strerror(errno));
        _exit(1);
    }
    go_on(p, &last);
    diary *d = &all->of[p];
    uint64_t reply[2] = {0, 0}, version = 0;
    while (!all->stop && !d->is_full) {
        uint64_t c = d->recorded;
        if (universal_shared_apply(seat, d->asked[c % 2], words_in, reply, words_out, &version)) wrong(STATUS);
        count(p, c, reply, version, false);
    }
    while (!all->stop) usleep(1000);
    universal_shared_release(seat);
    _exit(0);
}

/* ---- The killer. ---- */

static int file, diaries;
static bool by_exec;
static char **arguments;

static pid_t begin(universal_shared_segment *segment, uint64_t p) {
    pid_t pid = fork();
    if (pid) return pid;
    prctl(PR_SET_PDEATHSIG, SIGKILL);
    if (!by_exec) work(segment, p);
    char a[16], b[16], c[16];
    snprintf(a, 16, "%d", file), snprintf(b, 16, "%d", diaries), snprintf(c, 16, "%d", (int)p);
    execl("/proc/self/exe", "kill", arguments[1], arguments[2], a, b, "worker", c, arguments[6], NULL);
    _exit(99);
}

static void end(pid_t pid) {
    kill(pid, SIGKILL);
    waitpid(pid, NULL, 0);
}

/* How many seats made no call within ten seconds. */
static uint64_t still(void) {
    uint64_t before[SEATS], count = n;
    for (uint64_t p = 0; p < n; p++) before[p] = all->of[p].recorded;
    for (double began = now(); count && now() - began < 10; usleep(1000)) {
        count = 0;
        for (uint64_t p = 0; p < n; p++) count += all->of[p].recorded == before[p] && !all->of[p].is_full;
    }
    return count;
}

static uint64_t calls_but_of(uint64_t p) {
    uint64_t calls = 0;
    for (uint64_t q = 0; q < n; q++) calls += q == p ? 0 : all->of[q].recorded;
    return calls;
}

/* The last state, by calls of a seat, beside what was answered: false where they don't fit. */
static bool fits(universal_shared_seat *seat) {
    uint64_t reply[2] = {0, 0}, version = 0, calls = 0, left = 0, lost = 0, unknown = 0;
    for (uint64_t p = 0; p < n; p++) calls += all->of[p].recorded;
    if (kind.object == UNIVERSAL_SHARED_BOOK) {
        int64_t most = 0;
        for (uint64_t account = 0; account < ACCOUNTS; account++) {
            int64_t sum = 0;
            for (uint64_t p = 0; p < n; p++) sum += all->of[p].moved[(all->of[p].recorded + 1) % 2][account];
            const uint64_t nothing[] = UNIVERSAL_BOOK_DEPOSIT(account, 0);
            universal_shared_apply(seat, nothing, 4, reply, 2, &version);
            if (reply[0] != UNIVERSAL_BOOK_BALANCE || (int64_t)reply[1] != sum) wrong(BALANCE);
            if (sum > most) most = sum;
        }
        printf("book: %lu answers, and each balance is theirs; the greatest %ld\n", calls, most);
        return true;
    }
    if (kind.object == UNIVERSAL_SHARED_COUNTER || kind.object == UNIVERSAL_SHARED_PROGRAM) {
        universal_shared_apply(seat, (uint64_t[])UNIVERSAL_COUNTER_ADD(0), 1, reply, 1, &version);
        for (uint64_t i = 0; i < reply[0] && i < NUMBERS; i++) lost += !all->out[i];
        printf("%s: %lu answers, the sum is %lu; sums that nobody was answered: %lu\n", arguments[1], calls, reply[0], lost);
        return reply[0] == calls && (!lost || calls >= NUMBERS - 2 * SEATS);
    }
    for (uint64_t key = 0; key < (kind.object == UNIVERSAL_SHARED_MAP ? KEYS : CAPACITY + 1); key++) {
        if (kind.object == UNIVERSAL_SHARED_MAP)
            universal_shared_apply(seat, (uint64_t[])UNIVERSAL_MAP_REMOVE(key), 3, reply, 2, &version);
        else if (kind.object == UNIVERSAL_SHARED_QUEUE)
            universal_shared_apply(seat, (uint64_t[])UNIVERSAL_QUEUE_TAKE, 1, reply, 1, &version);
        else
            universal_shared_apply(seat, (uint64_t[])UNIVERSAL_REGISTER64_WRITE(0), 3, reply, 1, &version);
        uint64_t value =
            kind.object == UNIVERSAL_SHARED_MAP ? (reply[0] == UNIVERSAL_MAP_VALUE ? reply[1] : 0) : reply[0];
        if (value && !is_first(all->out, value, SEATS - 1, 0)) wrong(TWICE);
        left += value != 0;
    }
    uint64_t in = 0, out = 0;
    for (uint64_t p = 0; p < n; p++) {
        const diary *d = &all->of[p];
        uint64_t most = d->numbers[0] > d->numbers[1] ? d->numbers[0] : d->numbers[1];
        for (uint64_t i = number(p, 0); i <= number(p, most); i++) {
            in += all->in[i] != 0, out += all->out[i] != 0;
            lost += all->in[i] && !all->out[i], unknown += all->out[i] && !all->in[i];
        }
    }
    printf("%s: %lu answers; %lu went in, %lu came out, of these %lu at the end; lost %lu, not known to have gone in "
           "%lu\n",
           arguments[1], calls, in, out, left, lost, unknown);
    return !lost && !unknown;
}

static bool is_known(const char *object) {
    const struct {
        const char *name;
        uint32_t object, capacity;
        uint64_t in, out;
    } known[] = {{"counter", UNIVERSAL_SHARED_COUNTER, 0, 1, 1},
                 {"register", UNIVERSAL_SHARED_REGISTER64, 0, 3, 1},
                 {"queue", UNIVERSAL_SHARED_QUEUE, CAPACITY, 1, 1},
                 {"map", UNIVERSAL_SHARED_MAP, CAPACITY, 3, 2},
                 {"book", UNIVERSAL_SHARED_BOOK, 0, 4, 2},
                 {"program", UNIVERSAL_SHARED_PROGRAM, 0, 1, 1}};
    for (int k = 0; k < 6; k++)
        if (!strcmp(object, known[k].name)) {
            kind = (universal_shared_kind){.object = known[k].object, .capacity = known[k].capacity};
            words_in = known[k].in, words_out = known[k].out;
            if (kind.object == UNIVERSAL_SHARED_PROGRAM) kind = limited_counter();
            return true;
        }
    return false;
}

int main(int argc, char **argv) {
    arguments = argv;
    if (argc < 6 || !is_known(argv[1]))
        return fprintf(stderr, "usage: kill OBJECT SEATS KILLS MICROSECONDS fork|exec [again|lost]\n"), 2;
    n = strtoull(argv[2], NULL, 10);
    makes_again = argv[argc - 1][0] == 'a', loses = !strcmp(argv[argc - 1], "lost");
    universal_shared_segment *segment = NULL;
    if (!strcmp(argv[5], "worker")) {
        all = mmap(NULL, sizeof *all, PROT_READ | PROT_WRITE, MAP_SHARED, atoi(argv[4]), 0);
        uint32_t status = universal_shared_attach(atoi(argv[3]), &kind, n, &segment);
        if (!status) work(segment, strtoull(argv[6], NULL, 10));
        wrong(STATUS);
        return fprintf(stderr, "attach: %s, %s\n", universal_shared_strerror(status), strerror(errno)), 1;
    }
    uint64_t kills = strtoull(argv[3], NULL, 10), most = strtoull(argv[4], NULL, 10), killed = 0, stuck = 0, quiet = 0;
    by_exec = !strcmp(argv[5], "exec");
    file = memfd_create("segment", 0), diaries = memfd_create("diaries", 0);
    if (n < 1 || n > SEATS || ftruncate(diaries, sizeof *all)) return 2;
    all = mmap(NULL, sizeof *all, PROT_READ | PROT_WRITE, MAP_SHARED, diaries, 0);
    uint32_t status = universal_shared_create(file, &kind, n, &segment);
    if (status) return fprintf(stderr, "create: %s, %s\n", universal_shared_strerror(status), strerror(errno)), 1;
    pid_t pid[SEATS];
    bool only_stops = getenv("STOP") != NULL;
    double began = now();
    for (uint64_t p = 0; p < n; p++) pid[p] = begin(segment, p);
    uint64_t x = 0x9e3779b97f4a7c15ull ^ (uint64_t)getpid() << 20;
    for (; killed < kills && !stuck; killed++) {
        if (most) nanosleep(&(struct timespec){0, (long)(draw(&x) % most * 1000)}, NULL);
        uint64_t p = draw(&x) % n;
        if (only_stops) {
            quiet += are_stopped(pid[p], p);
            continue;
        }
        end(pid[p]);
        pid[p] = begin(segment, p);
        if (killed % 500 == 499) stuck = still();
    }
    if (!stuck) stuck = still();
    all->stop = 1;
    for (uint64_t p = 0; p < n; p++)
        if (stuck)
            end(pid[p]);
        else
            waitpid(pid[p], NULL, 0);
    double took = now() - began;
    universal_shared_seat *seat = NULL;
    universal_shared_last last;
    if (universal_shared_claim(segment, -1, &seat, &last)) wrong(STATUS);
    bool is_wrong = stuck || !seat || !fits(seat);
    if (only_stops)
        printf("stopped for 20 ms %lu times: nobody else made a call in %lu of them\n", killed, quiet);
    else
        printf("%lu kills in %.1f s, %s, %lu seats: a seat was claimed anew %lu times; a call was ended %lu times, and "
               "had been asked for "
               "and not begun %lu times; seats that stood still %lu\n",
               killed, took, by_exec ? "exec" : "fork", n, (uint64_t)all->was[2], (uint64_t)all->ended,
               (uint64_t)all->asked_only, stuck);
    for (int k = 0; k < WRONGS; k++)
        if (all->wrong[k]) printf("WRONG: %s: %lu times\n", wrongs[k], (uint64_t)all->wrong[k]), is_wrong = true;
    puts(is_wrong ? "WRONG" : "right");
    return is_wrong;
}
