/* Four threads on one funnel: the replies are distinct, nothing is lost, and misuse is answered by a status. */
#include "waqdimur.h"

#include <inttypes.h>
#include <pthread.h>
#include <sched.h>
#include <stdio.h>
#include <stdlib.h>

#define CHECK(what) ((what) ? (void)0 : failed(#what, __LINE__))

enum { THREADS = 4, CALLS = 100000, OPENING = 1000 };

enum way { PAST, PAST_CAPPED, THROUGH };

struct work {
    struct wq_caller caller;
    uint64_t *replies;
    enum way way;
};

static void failed(const char *what, int line) {
    fprintf(stderr, "threads.c:%d: %s\n", line, what);
    exit(1);
}

/* Adds 1 past the aggregators. */
static void add_past(struct wq_caller *caller, uint64_t *before, bool may_lose) {
    uint32_t status;
    while ((status = wq_add(caller, 1, before)) == WQ_LOST) CHECK(may_lose);
    CHECK(status == WQ_OK);
}

/* Adds 1 through the aggregators, where a row is open. */
static void add_through(struct wq_caller *caller, uint64_t *before) {
    uint32_t status = wq_begin(caller, false, 1);
    if (status == WQ_NO_ROW) {
        add_past(caller, before, false);
        return;
    }
    CHECK(status == WQ_NOT_YET);
    while ((status = wq_poll(caller, before)) == WQ_NOT_YET) sched_yield();
    CHECK(status == WQ_OK);
}

static void *run(void *arg) {
    struct work *work = arg;
    for (int i = 0; i < CALLS; i++) {
        if (work->way == THROUGH) add_through(&work->caller, &work->replies[i]);
        else add_past(&work->caller, &work->replies[i], work->way == PAST_CAPPED);
        if (i > 0) CHECK(work->replies[i - 1] < work->replies[i]);
    }
    return NULL;
}

static int by_value(const void *a, const void *b) {
    uint64_t x = *(const uint64_t *)a, y = *(const uint64_t *)b;
    return (x > y) - (x < y);
}

/* A caller whose thread has ended, and that has spent all it had. */
static void check_spent(struct wq_caller *caller) {
    uint64_t number = 0;
    CHECK(wq_load(caller, &number) == WQ_OK && number == OPENING + THREADS * CALLS);
    CHECK(wq_left(caller, &number) == WQ_OK && number == 0);
    CHECK(wq_add(caller, 1, &number) == WQ_SPENT && wq_begin(caller, true, 1) == WQ_SPENT);
    CHECK(wq_close(caller) == WQ_OK && wq_close(caller) == WQ_EMPTY);
    CHECK(!caller->full && wq_load(caller, &number) == WQ_EMPTY && number == 0);
}

static void four_threads(enum way way) {
    struct wq_caller callers[THREADS] = {WQ_CALLER_INIT};
    uint64_t allowances[THREADS];
    struct work works[THREADS];
    pthread_t threads[THREADS];
    uint64_t *all = calloc(THREADS * CALLS, sizeof *all);
    uint64_t cap = way == PAST_CAPPED ? WQ_NO_CAP - 1 : WQ_NO_CAP;
    for (int i = 0; i < THREADS; i++) allowances[i] = CALLS;
    CHECK(wq_open(callers, THREADS, OPENING, cap, allowances, THREADS) == WQ_OK);
    for (int i = 0; i < THREADS; i++) {
        works[i] = (struct work){.caller = callers[i], .replies = all + i * CALLS, .way = way};
        CHECK(pthread_create(&threads[i], NULL, run, &works[i]) == 0);
    }
    for (int i = 0; i < THREADS; i++) CHECK(pthread_join(threads[i], NULL) == 0);
    qsort(all, THREADS * CALLS, sizeof *all, by_value);
    for (int i = 0; i < THREADS * CALLS; i++) CHECK(all[i] == OPENING + (uint64_t)i);
    for (int i = 0; i < THREADS; i++) check_spent(&works[i].caller);
    free(all);
}

/* Numbers that open no funnel, and callers that are full already. */
static void refused(void) {
    struct wq_caller callers[65] = {WQ_CALLER_INIT};
    uint64_t allowances[65] = {10, 20};
    CHECK(wq_open(callers, 0, 0, WQ_NO_CAP, allowances, 0) == WQ_REFUSED);
    CHECK(wq_open(callers, 65, 0, WQ_NO_CAP, allowances, 65) == WQ_REFUSED);
    CHECK(wq_open(callers, 2, 0, WQ_NO_CAP, allowances, 3) == WQ_REFUSED);
    CHECK(wq_open(callers, 2, 9, 8, allowances, 2) == WQ_REFUSED);
    CHECK(wq_open(callers, 2, 0, WQ_NO_CAP + 1, allowances, 2) == WQ_REFUSED);
    CHECK(wq_open(callers, 2, WQ_NO_CAP - 29, WQ_NO_CAP, allowances, 2) == WQ_REFUSED);
    for (int i = 0; i < 65; i++) CHECK(!callers[i].full && callers[i].at == NULL);
    CHECK(wq_open(callers + 1, 1, 7, WQ_NO_CAP, allowances, 1) == WQ_OK);
    CHECK(wq_open(callers, 2, 0, WQ_NO_CAP, allowances, 2) == WQ_REFUSED);
    uint64_t number = 0;
    CHECK(!callers[0].full && wq_load(&callers[1], &number) == WQ_OK && number == 7);
    CHECK(wq_close(&callers[1]) == WQ_OK);
    for (int i = 0; i < 64; i++) allowances[i] = 1;
    CHECK(wq_open(callers, 64, 0, WQ_NO_CAP, allowances, 64) == WQ_OK);
    for (int i = 0; i < 64; i++) CHECK(wq_add(&callers[i], 1, &number) == WQ_OK && number == (uint64_t)i);
    for (int i = 0; i < 64; i++) CHECK(wq_close(&callers[i]) == WQ_OK);
}

/* One thread with two callers: each status with its cause. */
static void statuses(void) {
    struct wq_caller c[2] = {WQ_CALLER_INIT, WQ_CALLER_INIT};
    uint64_t allowances[2] = {20, 100}, met = 99;
    CHECK(wq_load(&c[0], &met) == WQ_EMPTY && wq_add(&c[0], 1, &met) == WQ_EMPTY && wq_sub(&c[0], 1, &met) == WQ_EMPTY);
    CHECK(wq_begin(&c[0], true, 1) == WQ_EMPTY && wq_poll(&c[0], &met) == WQ_EMPTY && wq_left(&c[0], &met) == WQ_EMPTY);
    CHECK(met == 99 && wq_open(c, 2, 5, 8, allowances, 2) == WQ_OK);
    CHECK(wq_add(&c[0], 2, &met) == WQ_OK && met == 5);
    CHECK(wq_add(&c[1], 9, &met) == WQ_OK && met == 7);
    CHECK(wq_load(&c[1], &met) == WQ_OK && met == 8);
    CHECK(wq_sub(&c[1], 10, &met) == WQ_OK && met == 8);
    CHECK(wq_load(&c[0], &met) == WQ_OK && met == 0);
    CHECK(wq_poll(&c[0], &met) == WQ_IDLE && wq_add(&c[0], 0, &met) == WQ_SPENT && wq_sub(&c[0], 19, &met) == WQ_SPENT);
    CHECK(met == 0 && wq_begin(&c[0], false, 0) == WQ_SPENT && wq_begin(&c[0], false, 3) == WQ_NOT_YET);
    CHECK(wq_begin(&c[0], false, 3) == WQ_UNDERWAY && wq_load(&c[0], &met) == WQ_UNDERWAY);
    CHECK(wq_add(&c[0], 3, &met) == WQ_UNDERWAY && wq_sub(&c[0], 3, &met) == WQ_UNDERWAY);
    CHECK(wq_left(&c[0], &met) == WQ_UNDERWAY && wq_close(&c[0]) == WQ_UNDERWAY && c[0].full);
    CHECK(met == 0 && wq_poll(&c[0], &met) == WQ_OK && met == 0);
    CHECK(wq_load(&c[1], &met) == WQ_OK && met == 3);
    CHECK(wq_begin(&c[1], true, 2) == WQ_NOT_YET && wq_poll(&c[1], &met) == WQ_OK && met == 3);
    CHECK(wq_load(&c[0], &met) == WQ_OK && met == 1 && wq_left(&c[0], &met) == WQ_OK && met == 15);
    CHECK(wq_close(&c[0]) == WQ_OK && wq_load(&c[1], &met) == WQ_OK && met == 1 && wq_close(&c[1]) == WQ_OK);
}

int main(void) {
    refused();
    statuses();
    four_threads(PAST);
    four_threads(PAST_CAPPED);
    four_threads(THROUGH);
    return 0;
}
