/* What a fork does to seats and segments. */
#define _GNU_SOURCE
#include "universal_shared.h"
#include <pthread.h>
#include <sched.h>
#include <signal.h>
#include <stdbool.h>
#include <stdio.h>
#include <stdlib.h>
#include <sys/syscall.h>
#include <sys/wait.h>
#include <unistd.h>

static void expect(bool holds, const char *what) {
    if (holds) return;
    fprintf(stderr, "not so: %s\n", what);
    exit(1);
}

static const universal_shared_kind counter = {.object = UNIVERSAL_SHARED_COUNTER};

static uint32_t add(universal_shared_seat *seat, uint64_t number, uint64_t *before) {
    uint64_t version = 0;
    return universal_shared_apply(seat, &number, 1, before, 1, &version);
}

/* The status that a child ends with. */
static uint32_t ends(pid_t child) {
    int how = 0;
    waitpid(child, &how, 0);
    return WIFEXITED(how) ? (uint32_t)WEXITSTATUS(how) : 1000 + (uint32_t)WTERMSIG(how);
}

/* An owner with a child of its own, which lives longer: the seat is free again as the owner dies. */
static void a_child_keeps_no_seat(void) {
    universal_shared_segment *segment = NULL;
    universal_shared_seat *seat = NULL;
    universal_shared_last last;
    int go[2], told[2];
    uint64_t before = 99;
    uint32_t status = 99;
    expect(!universal_shared_create_named(NULL, &counter, 1, &segment) && !pipe(go) && !pipe(told),
           "a segment of one seat");
    pid_t owner = fork();
    if (!owner) {
        if (universal_shared_claim(segment, 0, &seat, &last) || add(seat, 1, &before)) _exit(9);
        if (!fork()) {
            alarm(60); /* where the test fails meanwhile, as below */
            status = add(seat, 1, &before);
            char c;
            if (write(told[1], &status, sizeof status) != sizeof status || read(go[0], &c, 1) < 0) _exit(9);
            universal_shared_release(seat);
            _exit(0);
        }
        alarm(60);
        pause();
    }
    expect(read(told[0], &status, sizeof status) == sizeof status && status == UNIVERSAL_WRONG_HANDLE,
           "a child has no seat of its parent's");
    expect(universal_shared_claim(segment, 0, &seat, &last) == UNIVERSAL_SHARED_TAKEN, "its owner lives");
    expect(universal_shared_claim(segment, -1, &seat, &last) == UNIVERSAL_NO_SEAT, "there is no other seat");
    kill(owner, SIGKILL);
    expect(ends(owner) == 1000 + SIGKILL, "the owner is killed");
    expect(!universal_shared_claim(segment, 0, &seat, &last), "the seat is free, though the child lives");
    expect(last.made == 1 && last.was == UNIVERSAL_SHARED_DIED && !last.ended && last.reply[0] == 0 &&
               last.invocation[0] == 1,
           "what was made is told");
    expect(!add(seat, 5, &before) && before == 1 && universal_shared_made(seat) == 2, "it goes on");
    expect(write(go[1], "x", 1) == 1 && wait(NULL) == -1, "the grandchild ends");
    universal_shared_release(seat);
    expect(!universal_shared_claim(segment, -1, &seat, &last) && last.was == UNIVERSAL_SHARED_RELEASED &&
               last.made == 2,
           "it was released");
    universal_shared_release(seat);
    universal_shared_detach(segment);
}

/* A child that is made with no handler called, as by clone. */
static void nor_one_of_a_bare_clone(void) {
    universal_shared_segment *segment = NULL;
    universal_shared_seat *seat = NULL, *own = NULL;
    universal_shared_last last;
    uint64_t before = 99;
    expect(!universal_shared_create_named(NULL, &counter, 2, &segment) &&
               !universal_shared_claim(segment, -1, &seat, &last),
           "a seat");
    pid_t child = (pid_t)syscall(SYS_clone, SIGCHLD, 0, 0, 0, 0);
    if (!child) {
        if (add(seat, 1, &before) != UNIVERSAL_WRONG_HANDLE) _exit(1);
        if (universal_shared_claim(segment, -1, &own, &last) || last.process != 1 || add(own, 1, &before) ||
            before != 0)
            _exit(2);
        universal_shared_release(seat), universal_shared_release(own);
        _exit(0);
    }
    expect(ends(child) == 0, "the child of a bare clone has its own seat alone");
    expect(!add(seat, 1, &before) && before == 1, "the parent's goes on");
    universal_shared_release(seat), universal_shared_detach(segment);
}

/* Children of children, each with its own seat; and what the first ones had is theirs no more. */
static void each_generation_claims(void) {
    universal_shared_segment *segment = NULL;
    universal_shared_seat *seat[4] = {NULL};
    universal_shared_last last;
    uint64_t before = 99, depth = 0;
    expect(!universal_shared_create_named(NULL, &counter, 4, &segment), "a segment of four seats");
    for (;; depth++) {
        if (universal_shared_claim(segment, (int64_t)depth, &seat[depth], &last) || add(seat[depth], 1, &before) ||
            before != depth)
            _exit(1);
        for (uint64_t d = 0; d < depth; d++)
            if (add(seat[d], 1, &before) != UNIVERSAL_WRONG_HANDLE) _exit(2);
        if (depth == 3) _exit(0);
        pid_t child = fork();
        if (child) {
            if (depth) _exit((int)ends(child));
            expect(ends(child) == 0, "each generation has its own seat alone");
            break;
        }
    }
    expect(!add(seat[0], 1, &before) && before == 4, "four calls were made");
    universal_shared_release(seat[0]), universal_shared_detach(segment);
}

/* Threads that claim and release while others fork: each child can claim, and no seat is lost. */
static universal_shared_segment *common;
static volatile bool stops;

static void *claims(void *unused) {
    universal_shared_seat *seat = NULL;
    universal_shared_last last;
    while (!stops)
        if (!universal_shared_claim(common, -1, &seat, &last)) universal_shared_release(seat);
    return unused;
}

static void forks_amid_claims(void) {
    pthread_t threads[2];
    universal_shared_seat *seat = NULL;
    universal_shared_last last;
    expect(!universal_shared_create_named(NULL, &counter, 4, &common), "a segment of four seats");
    for (int t = 0; t < 2; t++) expect(!pthread_create(&threads[t], NULL, claims, NULL), "a thread starts");
    for (int k = 0; k < 200; k++) {
        pid_t child = fork();
        if (!child) _exit(universal_shared_claim(common, -1, &seat, &last) ? 1 : 0);
        expect(ends(child) == 0, "a child claims a seat");
    }
    pid_t lives = fork(); /* (what it had of its parent's locks it has let go) */
    if (!lives) alarm(60), pause(), _exit(0);
    stops = true;
    for (int t = 0; t < 2; t++) pthread_join(threads[t], NULL);
    for (int k = 0; k < 4; k++)
        expect(!universal_shared_claim(common, k, &seat, &last), "each seat is free in the end");
    kill(lives, SIGKILL);
    expect(ends(lives) == 1000 + SIGKILL, "the last child ends");
}

int main(void) {
    a_child_keeps_no_seat();
    nor_one_of_a_bare_clone();
    each_generation_claims();
    forks_amid_claims();
    return 0;
}
