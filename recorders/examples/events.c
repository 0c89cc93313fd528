/* A queue under a lock, which four threads share: right. No recorder is needed where each event is one printf, since stdio
 * has a lock of its own: a call's line is out before the call begins, and its return's line comes after. events [CALLS] */
#include <pthread.h>
#include <stdio.h>
#include <stdlib.h>

enum { THREADS = 4, MOST = 10000 };

static pthread_mutex_t lock = PTHREAD_MUTEX_INITIALIZER;
static int items[THREADS * MOST], head, tail, calls = 1000;

static void *work(void *argument) {
    int process = (int)(size_t)argument;
    for (int call = 0; call < calls; call++) {
        int number = process * calls + call, taken = -1;
        if (call % 2 == 0) printf("call %d enq %d\n", process, number);
        else printf("call %d deq\n", process);
        pthread_mutex_lock(&lock);
        if (call % 2 == 0) items[tail++] = number;
        else if (head < tail) taken = items[head++];
        pthread_mutex_unlock(&lock);
        if (call % 2 == 0) printf("return %d ok\n", process);
        else if (taken < 0) printf("return %d empty\n", process);
        else printf("return %d %d\n", process, taken);
    }
    return NULL;
}

int main(int count, char **words) {
    if (count > 1) calls = atoi(words[1]);
    if (calls < 0 || calls > MOST) return 2;
    pthread_t threads[THREADS];
    for (size_t i = 0; i < THREADS; i++) pthread_create(&threads[i], NULL, work, (void *)i);
    for (int i = 0; i < THREADS; i++) pthread_join(threads[i], NULL);
}
