/* Waqdimur: shared natural numbers for several threads, with fetch-and-add, a floor and a ceiling.
 *
 * The functions are proved (crates/funnel_c). docs/FROM_C.md says what is proved, owed and trusted.
 *
 * What the program owes, since no proof can see it:
 *   - each `struct wq_caller` is zero at first (WQ_CALLER_INIT), and these functions alone change it;
 *   - it isn't copied and then used twice, and its memory isn't given up while it is full (wq_close first);
 *   - it is in one call at a time, and goes from thread to thread only across a lock, the start or the join of a
 *     thread, or a sequentially consistent atomic step;
 *   - pointers and counts are what the parameters say, and no parameter's memory overlaps another's;
 *   - no call comes from a signal handler, or in a forked child of a process with threads;
 *   - malloc, realloc and free are of one allocator, which aligns by 16; and the stack has some kilobytes left.
 * Where one of these is broken, the behaviour is undefined. All other misuse (an empty caller, a call while one is
 * underway, too large an amount, numbers that open no funnel) is answered by a status.
 *
 * Who begins polls to the end. A call that wq_begin has begun stands in a batch with those of other callers, and may
 * be the one that has to take the batch up. While it isn't polled, the others may get WQ_NOT_YET for ever: so a
 * thread that begins a call polls it until WQ_OK, and doesn't stop, exit or wait for another caller in between. Calls
 * by wq_add, wq_sub and wq_load have nobody wait for them.
 */
#ifndef WAQDIMUR_H
#define WAQDIMUR_H

#include <stdbool.h>
#include <stddef.h>
#include <stdint.h>

#ifdef __cplusplus
extern "C" {
#endif

/* A caller of a funnel, for one thread at a time. Opaque. */
struct wq_caller {
    bool full;
    void *at;
};

#define WQ_CALLER_INIT { false, NULL }

enum wq_status {
    WQ_OK = 0,        /* done */
    WQ_NOT_YET = 1,   /* the call waits for its reply: poll it */
    WQ_NO_ROW = 2,    /* at some level each row is blocked, and no call was begun: try again, or past the aggregators */
    WQ_LOST = 3,      /* another changed the number in between, and no call was made: try again */
    WQ_EMPTY = 4,     /* there is no caller */
    WQ_UNDERWAY = 5,  /* the caller's call has no reply yet */
    WQ_IDLE = 6,      /* the caller has no call underway */
    WQ_SPENT = 7,     /* the amount is 0, or more than the caller has left */
    WQ_NO_MEMORY = 8, /* there is no memory for a funnel */
    WQ_REFUSED = 9    /* a caller is full already, there isn't an allowance for each, or the numbers open no funnel */
};

/* No addition stops at this cap. */
#define WQ_NO_CAP UINT64_C(9223372036854775807)

/* Opens a funnel at `opening` with `count` callers, 1 to 64, the k-th of which may add and take `allowances[k]` in all.
 * opening <= cap <= WQ_NO_CAP, and opening and allowances total less than 2^63. But for WQ_OK nothing has changed.
 * WQ_OK, WQ_REFUSED, WQ_NO_MEMORY. */
uint32_t wq_open(struct wq_caller *callers, size_t count, uint64_t opening, uint64_t cap,
                 const uint64_t *allowances, size_t allowance_count);

/* The number, as a call of its own. WQ_OK, WQ_EMPTY, WQ_UNDERWAY. */
uint32_t wq_load(struct wq_caller *caller, uint64_t *value);

/* One try past the aggregators: adds up to the cap, or subtracts down to zero, and writes the number before. The amount
 * is spent, also where less was moved. An addition at the cap WQ_NO_CAP is never lost.
 * WQ_OK, WQ_LOST, WQ_SPENT, WQ_EMPTY, WQ_UNDERWAY. */
uint32_t wq_add(struct wq_caller *caller, uint64_t amount, uint64_t *before);
uint32_t wq_sub(struct wq_caller *caller, uint64_t amount, uint64_t *before);

/* Through the aggregators: begin, and poll until WQ_OK, which writes the number before. Callers that begin together are
 * served by one step on the number.
 * WQ_NOT_YET, WQ_NO_ROW, WQ_SPENT, WQ_EMPTY, WQ_UNDERWAY of wq_begin; WQ_OK, WQ_NOT_YET, WQ_EMPTY, WQ_IDLE of wq_poll. */
uint32_t wq_begin(struct wq_caller *caller, bool subtracts, uint64_t amount);
uint32_t wq_poll(struct wq_caller *caller, uint64_t *before);

/* What the caller may still add and take. WQ_OK, WQ_EMPTY, WQ_UNDERWAY. */
uint32_t wq_left(struct wq_caller *caller, uint64_t *left);

/* Lets a caller go that has no call underway; it is empty then. The last one of a funnel frees it.
 * WQ_OK, WQ_EMPTY, WQ_UNDERWAY. */
uint32_t wq_close(struct wq_caller *caller);

#ifdef __cplusplus
}
#endif

#endif
