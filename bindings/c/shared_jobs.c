/* Each job exactly once, whoever dies. Workers take jobs from a shared queue, and count each in a shared array of
 * counts; a killer ends them by SIGKILL at moments that it draws. In the end each count is 1. This is the program of
 * docs/processes.md.
 *
 *     shared_jobs WORKERS KILLS [forget|again]
 *
 * With `forget` a new worker doesn't look at what the last one was in, and jobs are lost; with `again` it does the last
 * job anew, and jobs are done twice. The status is 0 where each job was done once. */
#define _GNU_SOURCE
#include "universal_shared.h"
#include <signal.h>
#include <stdbool.h>
#include <stdio.h>
#include <stdlib.h>
#include <string.h>
#include <sys/prctl.h>
#include <sys/wait.h>
#include <time.h>
#include <unistd.h>

enum { AT_A_TIME = 100, MOST = 63, MOST_KILLS = 6000 };

static universal_shared_segment *jobs, *counts;
static uint64_t workers, all_jobs;
static bool forgets, does_again;

static void done(uint32_t status) {
    if (status == UNIVERSAL_DONE) return;
    fprintf(stderr, "%s\n", universal_shared_strerror(status));
    perror(NULL);
    exit(2);
}

static uint64_t call(universal_shared_seat *seat, const uint64_t *words, size_t count) {
    uint64_t reply = 0, version = 0;
    done(universal_shared_apply(seat, words, count, &reply, 1, &version));
    return reply;
}

/* A job: some work, which may be cut off and done again, and then its effect. */
static void do_job(universal_shared_seat *counting, uint64_t job) {
    usleep(100);
    call(counting, (uint64_t[])UNIVERSAL_COUNTERS_ADD(job, 1), 2);
}

/* A worker, with the seats of the one that it comes after. */
static void work(int64_t me) {
    universal_shared_seat *taking = NULL, *counting = NULL;
    universal_shared_last taken, counted;
    done(universal_shared_claim(jobs, me, &taking, &taken));
    done(universal_shared_claim(counts, me, &counting, &counted));
    uint64_t job = taken.made ? taken.reply[0] : 0; /* the last job that was taken, if that take was given one */
    bool is_counted = counted.made && counted.invocation[0] == job;
    if (job && !forgets && (!is_counted || does_again)) do_job(counting, job);
    for (;;) {
        job = call(taking, (uint64_t[])UNIVERSAL_QUEUE_TAKE, 1);
        if (job)
            do_job(counting, job);
        else
            usleep(100);
    }
}

static uint64_t draw(uint64_t *x) { return *x ^= *x << 13, *x ^= *x >> 7, *x ^= *x << 17; }

static pid_t start(int64_t me) {
    pid_t pid = fork();
    if (pid == 0) {
        prctl(PR_SET_PDEATHSIG, SIGKILL);
        work(me);
    }
    return pid;
}

static void kill_one(pid_t pid) {
    kill(pid, SIGKILL);
    waitpid(pid, NULL, 0);
}

static uint64_t counts_that_are(universal_shared_seat *seat, uint64_t wanted) {
    uint64_t found = 0;
    for (uint64_t job = 1; job <= all_jobs; job++)
        found += call(seat, (uint64_t[])UNIVERSAL_COUNTERS_ADD(job, 0), 2) == wanted;
    return found;
}

/* All jobs are put in, and done, with so many kills meanwhile. */
static bool is_done_once(uint64_t kills, uint64_t *x) {
    universal_shared_kind queue = {.object = UNIVERSAL_SHARED_QUEUE, .capacity = AT_A_TIME};
    universal_shared_kind array = {.object = UNIVERSAL_SHARED_COUNTERS, .capacity = (uint32_t)all_jobs + 1};
    universal_shared_seat *putting = NULL, *looking = NULL;
    universal_shared_last last;
    pid_t pid[MOST];
    done(universal_shared_create_named(NULL, &queue, workers + 1, &jobs));
    done(universal_shared_create_named(NULL, &array, workers + 1, &counts));
    done(universal_shared_claim(jobs, (int64_t)workers, &putting, &last));
    done(universal_shared_claim(counts, (int64_t)workers, &looking, &last));
    for (uint64_t w = 0; w < workers; w++) pid[w] = start((int64_t)w);
    uint64_t put = 0, killed = 0;
    while (put < all_jobs || killed < kills) {
        while (put < all_jobs && call(putting, (uint64_t[])UNIVERSAL_QUEUE_PUT(put + 1), 1)) put++;
        if (killed == kills) continue;
        nanosleep(&(struct timespec){0, (long)(draw(x) % 300 * 1000)}, NULL);
        uint64_t w = draw(x) % workers;
        kill_one(pid[w]);
        pid[w] = start((int64_t)w);
        killed++;
    }
    for (int tries = 0; tries < 100 && counts_that_are(looking, 0); tries++)
        usleep(20000); /* all that will be done is done */
    uint64_t never = counts_that_are(looking, 0), once = counts_that_are(looking, 1);
    for (uint64_t w = 0; w < workers; w++) kill_one(pid[w]);
    printf("%lu workers, %lu kills, %lu jobs: done once %lu, never %lu, more than once %lu\n", workers, killed,
           all_jobs, once, never, all_jobs - once - never);
    universal_shared_release(putting), universal_shared_release(looking);
    universal_shared_detach(jobs), universal_shared_detach(counts);
    return once == all_jobs;
}

int main(int argc, char **argv) {
    workers = argc > 1 ? strtoull(argv[1], NULL, 10) : 0;
    if (argc < 3 || workers < 1 || workers > MOST)
        return fprintf(stderr, "usage: shared_jobs WORKERS KILLS [forget|again]\n"), 2;
    forgets = !strcmp(argv[argc - 1], "forget"), does_again = !strcmp(argv[argc - 1], "again");
    uint64_t kills = strtoull(argv[2], NULL, 10), x = 0x9e3779b97f4a7c15ull ^ (uint64_t)getpid() << 20;
    if (kills > MOST_KILLS) kills = MOST_KILLS;
    all_jobs = 1000 + 10 * kills;
    return is_done_once(kills, &x) ? 0 : 1;
}
