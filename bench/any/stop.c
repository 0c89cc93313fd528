/* Runs a program of so many threads, stops one of its threads for good a tenth of a second after they have started, and counts
   the lines that the others write within a minute: `stop N PROGRAM ARGUMENT..`. It ends with status 1 where one of them is missing. */
#define _GNU_SOURCE
#include <dirent.h>
#include <poll.h>
#include <signal.h>
#include <stdio.h>
#include <stdlib.h>
#include <string.h>
#include <sys/ptrace.h>
#include <sys/types.h>
#include <sys/wait.h>
#include <time.h>
#include <unistd.h>

static double now(void) {
    struct timespec time;
    clock_gettime(CLOCK_MONOTONIC, &time);
    return time.tv_sec + time.tv_nsec / 1e9;
}

/* The newest thread of a process. */
static pid_t newest_thread(pid_t process) {
    char path[64];
    snprintf(path, sizeof path, "/proc/%d/task", (int)process);
    DIR *tasks = opendir(path);
    pid_t newest = 0;
    for (struct dirent *task; tasks && (task = readdir(tasks));) {
        pid_t thread = atoi(task->d_name);
        if (thread > newest) newest = thread;
    }
    if (tasks) closedir(tasks);
    return newest;
}

int main(int count, char **words) {
    if (count < 3) return 2;
    int threads = atoi(words[1]), pipes[2], lines = 0;
    if (pipe(pipes)) return 2;
    pid_t process = fork();
    if (process == 0) {
        dup2(pipes[1], 1);
        execv(words[2], words + 2);
        _exit(2);
    }
    close(pipes[1]);
    pid_t stopped = process;
    for (double end = now() + 60; now() < end && stopped == process;) {
        usleep(1000);
        stopped = newest_thread(process);
    }
    usleep(100000);
    stopped = newest_thread(process);
    int early = 0;
    struct pollfd ready = {pipes[0], POLLIN, 0};
    if (poll(&ready, 1, 0) > 0) early = 1;
    if (ptrace(PTRACE_SEIZE, stopped, 0, 0) || ptrace(PTRACE_INTERRUPT, stopped, 0, 0)) return 2;
    int status = 0;
    waitpid(stopped, &status, __WALL);
    if (!WIFSTOPPED(status)) return 2;
    char text[4096];
    for (double end = now() + 60; now() < end && lines < threads - 1;) {
        if (poll(&ready, 1, 100) <= 0) continue;
        ssize_t length = read(pipes[0], text, sizeof text);
        if (length <= 0) break;
        for (ssize_t i = 0; i < length; i++) lines += text[i] == '\n';
    }
    printf("one of %d threads was stopped%s; of the others %d have made their calls\n", threads,
           early ? ", after another had ended" : "", lines);
    kill(process, 9);
    return lines == threads - 1 ? 0 : 1;
}
