/* Each allocation of an opening refused in turn: the status says so, all is freed, and the callers stay empty. Calls
 * take no memory. Link with -Wl,--wrap=malloc,--wrap=realloc,--wrap=free. */
#include "waqdimur.h"

#include <stdio.h>
#include <stdlib.h>

#define CHECK(what) ((what) ? (void)0 : failed(#what, __LINE__))

enum { CALLERS = 5 };

void *__real_malloc(size_t bytes);
void *__real_realloc(void *at, size_t bytes);
void __real_free(void *at);

static long granted = -1; /* how many more allocations are granted; -1 means all */
static long asked, live;

static void failed(const char *what, int line) {
    fprintf(stderr, "memory.c:%d: %s\n", line, what);
    exit(1);
}

static bool grants(void) {
    asked++;
    if (granted > 0) granted--;
    else if (granted == 0) return false;
    return true;
}

void *__wrap_malloc(size_t bytes) {
    void *at = grants() ? __real_malloc(bytes) : NULL;
    live += at != NULL;
    return at;
}

void *__wrap_realloc(void *at, size_t bytes) {
    void *moved = grants() ? __real_realloc(at, bytes) : NULL;
    live += at == NULL && moved != NULL;
    return moved;
}

void __wrap_free(void *at) {
    live -= at != NULL;
    __real_free(at);
}

/* Opens, with so many allocations granted, and closes again. */
static bool opens_with(long allocations) {
    struct wq_caller callers[CALLERS] = {WQ_CALLER_INIT};
    uint64_t allowances[CALLERS] = {1, 2, 3, 4, 5}, before = 0;
    long live_before = live;
    granted = allocations;
    uint32_t status = wq_open(callers, CALLERS, 1, WQ_NO_CAP, allowances, CALLERS);
    granted = -1;
    if (status != WQ_OK) {
        CHECK(status == WQ_NO_MEMORY && live == live_before);
        for (int i = 0; i < CALLERS; i++) CHECK(!callers[i].full && callers[i].at == NULL);
        return false;
    }
    for (int i = 0; i < CALLERS; i++) {
        CHECK(wq_add(&callers[i], (uint64_t)i + 1, &before) == WQ_OK);
        CHECK(live > live_before && wq_close(&callers[i]) == WQ_OK);
    }
    CHECK(before == 11 && live == live_before);
    return true;
}

/* No call asks for memory. */
static void calls_take_none(void) {
    struct wq_caller c[2] = {WQ_CALLER_INIT, WQ_CALLER_INIT};
    uint64_t allowances[2] = {100, 100}, number;
    CHECK(wq_open(c, 2, 0, WQ_NO_CAP, allowances, 2) == WQ_OK);
    asked = 0;
    granted = 0;
    for (int i = 0; i < 50; i++) {
        CHECK(wq_add(&c[0], 1, &number) == WQ_OK && wq_sub(&c[0], 1, &number) == WQ_OK);
        uint32_t status = wq_begin(&c[1], i % 2 == 0, 1);
        CHECK(status == WQ_NOT_YET ? wq_poll(&c[1], &number) == WQ_OK : status == WQ_NO_ROW);
        CHECK(wq_load(&c[1], &number) == WQ_OK && wq_left(&c[1], &number) == WQ_OK);
    }
    CHECK(wq_close(&c[0]) == WQ_OK && wq_close(&c[1]) == WQ_OK && asked == 0);
    granted = -1;
}

int main(void) {
    long allocations = 0;
    while (!opens_with(allocations)) allocations++;
    CHECK(allocations > CALLERS && live == 0);
    calls_take_none();
    CHECK(live == 0);
    return 0;
}
