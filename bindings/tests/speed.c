/* The processor time of a call, beside one atomic fetch-and-add and a mutex. Measures; tests nothing. */
#define _POSIX_C_SOURCE 200809L
#include "waqdimur.h"

#include <pthread.h>
#include <sched.h>
#include <stdatomic.h>
#include <stdio.h>
#include <stdlib.h>
#include <time.h>

enum { MOST = 4, CALLS = 1000000 };

static _Atomic uint64_t word;
static uint64_t guarded;
static pthread_mutex_t lock = PTHREAD_MUTEX_INITIALIZER;
static struct wq_caller callers[MOST];
static pthread_barrier_t line;

static void atomic_add(struct wq_caller *caller) {
    (void)caller;
    atomic_fetch_add(&word, 1);
}

static void mutex_add(struct wq_caller *caller) {
    (void)caller;
    pthread_mutex_lock(&lock);
    guarded++;
    pthread_mutex_unlock(&lock);
}

static void past(struct wq_caller *caller) {
    uint64_t before;
    while (wq_add(caller, 1, &before) == WQ_LOST) {}
}

static void through(struct wq_caller *caller) {
    uint64_t before;
    uint32_t status = wq_begin(caller, false, 1);
    if (status == WQ_NO_ROW) past(caller);
    else while (wq_poll(caller, &before) == WQ_NOT_YET) sched_yield();
}

struct run {
    void (*call)(struct wq_caller *);
    struct wq_caller *caller;
    double seconds;
};

static void *calls_of(void *arg) {
    struct run *run = arg;
    struct timespec from, to;
    pthread_barrier_wait(&line);
    clock_gettime(CLOCK_THREAD_CPUTIME_ID, &from);
    for (int i = 0; i < CALLS; i++) run->call(run->caller);
    clock_gettime(CLOCK_THREAD_CPUTIME_ID, &to);
    run->seconds = (double)(to.tv_sec - from.tv_sec) + (double)(to.tv_nsec - from.tv_nsec) * 1e-9;
    return NULL;
}

/* The processor time of a call, over all threads. */
static double measure(void (*call)(struct wq_caller *), int threads, uint64_t cap) {
    uint64_t allowances[MOST] = {CALLS, CALLS, CALLS, CALLS};
    struct run runs[MOST];
    pthread_t ids[MOST];
    double seconds = 0;
    if (wq_open(callers, (size_t)threads, 0, cap, allowances, (size_t)threads) != WQ_OK) exit(1);
    pthread_barrier_init(&line, NULL, (unsigned)threads);
    for (int i = 0; i < threads; i++) {
        runs[i] = (struct run){call, &callers[i], 0};
        if (pthread_create(&ids[i], NULL, calls_of, &runs[i]) != 0) exit(1);
    }
    for (int i = 0; i < threads; i++) {
        pthread_join(ids[i], NULL);
        seconds += runs[i].seconds;
        if (wq_close(&callers[i]) != WQ_OK) exit(1);
    }
    pthread_barrier_destroy(&line);
    return seconds * 1e9 / ((double)threads * CALLS);
}

static void row(const char *name, void (*call)(struct wq_caller *), uint64_t cap) {
    printf("%-34s %8.1f %8.1f\n", name, measure(call, 1, cap), measure(call, MOST, cap));
}

int main(void) {
    printf("%-34s %8s %8s\n", "ns of processor a call, threads:", "1", "4");
    row("atomic fetch-and-add", atomic_add, WQ_NO_CAP);
    row("mutex", mutex_add, WQ_NO_CAP);
    row("wq_add", past, WQ_NO_CAP);
    row("wq_add under a cap", past, WQ_NO_CAP - 1);
    row("wq_begin, wq_poll", through, WQ_NO_CAP);
    return 0;
}
