/* A queue under a lock, which four threads share: right. */
#include "../recorder.h"
#include <pthread.h>

enum { THREADS = 4, CALLS = 2000 };

static pthread_mutex_t lock = PTHREAD_MUTEX_INITIALIZER;
static int items[THREADS * CALLS], head, tail;
static struct record_log logs[THREADS] = {{"T0"}, {"T1"}, {"T2"}, {"T3"}};

static void *work(void *argument) {
    struct record_log *log = argument;
    for (int call = 0; call < CALLS; call++) {
        int number = (int)(log - logs) * CALLS + call, taken = -1;
        if (call % 2 == 0) record_begin(log, "enq %d", number);
        else record_begin(log, "deq");
        pthread_mutex_lock(&lock);
        if (call % 2 == 0) items[tail++] = number;
        else if (head < tail) taken = items[head++];
        pthread_mutex_unlock(&lock);
        if (call % 2 == 0) record_end(log, "ok");
        else if (taken < 0) record_end(log, "empty");
        else record_end(log, "%d", taken);
    }
    return NULL;
}

int main(void) {
    pthread_t threads[THREADS];
    for (int i = 0; i < THREADS; i++) pthread_create(&threads[i], NULL, work, &logs[i]);
    for (int i = 0; i < THREADS; i++) pthread_join(threads[i], NULL);
    for (int i = 0; i < THREADS; i++) record_print(&logs[i], stdout);
}
