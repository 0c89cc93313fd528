/* A process is killed by SIGKILL after EVERY instruction of a call, in turn: it is single-stepped so far. Another one
 * makes its calls before, meanwhile and afterwards; then the seat is claimed, and all is checked.
 *
 *     steps OBJECT MEANWHILE [STRIDE [HEIR]]
 *
 * OBJECT is counter, register, queue, map, book or program, which is a counter with a limit; MEANWHILE is how many calls the
 * other makes while the first one is in its own. With STRIDE every so many-th instruction is taken. With HEIR the call is cut off
 * after that many instructions, and the claim of its seat is what is stepped through. The status is 1 where something is wrong. */
#define _GNU_SOURCE
#include <signal.h>
#include <stdbool.h>
#include <stdio.h>
#include <stdlib.h>
#include <string.h>
#include <sys/ptrace.h>
#include <sys/wait.h>
#include <unistd.h>
#include "limited.h"

enum { COUNTER, REGISTER, QUEUE, MAP, BOOK, PROGRAM, OBJECTS };

static struct object {
    const char *name;
    universal_shared_kind kind;
    size_t in, out;
} objects[] = {
    {"counter", {.object = UNIVERSAL_SHARED_COUNTER}, 1, 1},
    {"register", {.object = UNIVERSAL_SHARED_REGISTER64}, 3, 1},
    {"queue", {.object = UNIVERSAL_SHARED_QUEUE, .capacity = 8}, 1, 1},
    {"map", {.object = UNIVERSAL_SHARED_MAP, .capacity = 8}, 3, 2},
    {"book", {.object = UNIVERSAL_SHARED_BOOK}, 4, 2},
    {"program", {.object = UNIVERSAL_SHARED_PROGRAM}, 1, 1},
};

static int which;
static unsigned long at, faults;

static void must(bool holds, const char *what) {
    if (holds) return;
    if (faults++ < 20) printf("killed after %lu: WRONG: %s\n", at, what);
}

typedef struct answer {
    uint64_t words[2];
} answer;

static answer call(universal_shared_seat *seat, uint64_t a, uint64_t b, uint64_t c, uint64_t d) {
    answer told = {{0, 0}};
    uint64_t version = 0;
    if (universal_shared_apply(seat, (uint64_t[]){a, b, c, d}, objects[which].in, told.words, objects[which].out,
                               &version))
        exit(9);
    return told;
}

/* The i-th call of the other, from 0: it adds 1, writes i + 1, puts i + 1 in, gives key 8 the value i, or puts 1 into
 * account 0. */
static answer others(universal_shared_seat *seat, uint64_t i) {
    switch (which) {
    case PROGRAM:
    case COUNTER: return call(seat, 1, 0, 0, 0);
    case REGISTER: return call(seat, 1, i + 1, 0, 0);
    case QUEUE: return call(seat, i + 1, 0, 0, 0);
    case MAP: return call(seat, 1, 8, i, 0);
    default: return call(seat, 0, 0, 0, 1);
    }
}

static const uint64_t victims[][4] = {{1000}, {1, 1000, 0}, {0}, {1, 8, 1000}, {2, 0, 1, 3}, {1000}};

/* The call that is cut off: it adds 1000, writes 1000, takes, gives key 8 the value 1000, or moves 3 from account 0 to
 * account 1. */
static void victim(universal_shared_seat *seat) {
    call(seat, victims[which][0], victims[which][1], victims[which][2], victims[which][3]);
}

/* What is seen after `calls` calls of the other, where the victim's call was made or not: its reply, and the state. */
static void is_right(universal_shared_seat *seat, const universal_shared_last *last, uint64_t before, uint64_t calls) {
    bool made = last->made == 1;
    const uint64_t *reply = last->reply;
    answer told;
    switch (which) {
    case PROGRAM:
    case COUNTER:
        if (made) must(reply[0] >= before && reply[0] <= calls, "the sum before is one of those");
        must(call(seat, 0, 0, 0, 0).words[0] == calls + (made ? 1000 : 0), "the sum");
        break;
    case REGISTER:
        if (made) must(reply[0] >= before && reply[0] <= calls, "the value before is one of those");
        told = call(seat, 0, 0, 0, 0);
        must(told.words[0] == (made && reply[0] == calls ? 1000 : calls), "the value");
        break;
    case QUEUE:
        if (made) must(reply[0] == 1, "the oldest number came out");
        for (uint64_t i = made ? 2 : 1; i <= calls; i++)
            must(call(seat, 0, 0, 0, 0).words[0] == i, "the numbers that are left");
        must(call(seat, 0, 0, 0, 0).words[0] == 0, "and no more");
        break;
    case MAP:
        if (made) must(reply[0] == 1 && reply[1] + 1 >= before && reply[1] < calls, "the value before is one of those");
        told = call(seat, 0, 8, 0, 0);
        must(told.words[0] == 1 && told.words[1] == (made && reply[1] == calls - 1 ? 1000 : calls - 1), "the value");
        break;
    default:
        if (made) must(reply[0] == UNIVERSAL_BOOK_MOVED, "the amount was moved");
        must(call(seat, 0, 1, 0, 0).words[1] == (made ? 3 : 0), "the balance of account 1");
        must(call(seat, 3, 0, 0, 0).words[1] == calls, "the total");
    }
}

/* A process that claims the seat 1 and makes the call; it stops before the call, or before the claim, to be stepped
 * from there. */
static pid_t begun(universal_shared_segment *segment, bool steps_claim) {
    pid_t pid = fork();
    if (pid == 0) {
        universal_shared_seat *seat = NULL;
        universal_shared_last last;
        if (!steps_claim && universal_shared_claim(segment, 1, &seat, &last)) _exit(9);
        ptrace(PTRACE_TRACEME, 0, 0, 0);
        raise(SIGSTOP);
        if (steps_claim) _exit(universal_shared_claim(segment, 1, &seat, &last) ? 9 : 0);
        victim(seat);
        _exit(0);
    }
    int how = 0;
    waitpid(pid, &how, 0);
    if (!WIFSTOPPED(how)) exit(9);
    return pid;
}

/* One instruction: false where the process ended by it. */
static bool steps(pid_t pid) {
    int how = 0;
    ptrace(PTRACE_SINGLESTEP, pid, 0, 0);
    waitpid(pid, &how, 0);
    if (WIFEXITED(how) && WEXITSTATUS(how)) exit(9);
    return WIFSTOPPED(how);
}

static void end(pid_t pid) {
    kill(pid, SIGKILL);
    waitpid(pid, NULL, 0);
}

int main(int argc, char **argv) {
    objects[PROGRAM].kind = limited_counter();
    for (which = 0; which < OBJECTS && argc > 2 && strcmp(argv[1], objects[which].name); which++) {
    }
    if (argc < 3 || which == OBJECTS) return fprintf(stderr, "usage: steps OBJECT MEANWHILE [STRIDE [HEIR]]\n"), 2;
    unsigned long meanwhile = strtoul(argv[2], NULL, 10), stride = argc > 3 ? strtoul(argv[3], NULL, 10) : 1;
    unsigned long heir = argc > 4 ? strtoul(argv[4], NULL, 10) : 0, runs = 0, made = 0, ended = 0, asked_only = 0,
                  died = 0;
    for (bool is_whole = false; !is_whole; at += stride, runs++) {
        universal_shared_segment *segment = NULL;
        universal_shared_seat *mine = NULL, *dead = NULL;
        universal_shared_last last, told;
        uint64_t calls = 0;
        if (universal_shared_create_named(NULL, &objects[which].kind, 3, &segment)) return 9;
        if (universal_shared_claim(segment, 0, &mine, &last)) return 9;
        while (calls < 3) others(mine, calls++);
        if (heir) {
            pid_t first = begun(segment, false);
            for (unsigned long k = 0; k < heir; k++)
                if (!steps(first)) return 9;
            end(first);
        }
        pid_t pid = begun(segment, heir != 0);
        unsigned long done = 0;
        for (; done < at && !is_whole; done++) {
            if (calls < 3 + meanwhile && done * (meanwhile + 1) >= at * (calls - 2)) others(mine, calls++);
            is_whole = !steps(pid);
        }
        if (!is_whole) end(pid);
        must(universal_shared_made(mine) == calls, "the other's calls were made");
        others(mine, calls++);
        if (universal_shared_claim(segment, 1, &dead, &told)) return 9;
        must(told.made <= 1 && told.ended <= told.made && (told.made == 0 || told.is_next == 0), "one call at most");
        must(!told.made || !memcmp(told.invocation, victims[which], 8 * objects[which].in),
             "the words of the call that was made");
        must(!told.is_next || !memcmp(told.next, victims[which], 8 * objects[which].in),
             "the words of the call that wasn't");
        made += told.made, ended += told.ended, asked_only += told.is_next, died += told.was == UNIVERSAL_SHARED_DIED;
        is_right(dead, &told, 3, calls);
        is_right(mine, &told, 3, which == QUEUE ? (told.made ? 1 : 0) : calls);
        universal_shared_release(dead), universal_shared_release(mine), universal_shared_detach(segment);
    }
    printf("%s, %lu calls of another meanwhile%s: killed after each of %lu instructions, %lu runs: the owner had died "
           "in %lu; the call was "
           "made in %lu, of which the claim ended it in %lu; it was asked for and not begun in %lu\n%s\n",
           argv[1], meanwhile, heir ? ", in a claim" : "", at - stride, runs, died, made, ended, asked_only,
           faults ? "WRONG" : "right");
    return faults != 0;
}
