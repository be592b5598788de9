/* Threads, one after another: each runs whole when it is made. Of the orders that the program's contracts allow that is
   one: no thread of it waits for another, and what they write doesn't depend on the order. */
#include "shim.h"

enum { MOST_THREADS = 64 }; /* that are made and not yet joined */

static void *results[MOST_THREADS + 1];
static uint8_t is_taken[MOST_THREADS + 1];
static uint64_t running; /* the thread that runs, or 0, which is the program's first */

int pthread_attr_init(void *attributes) {
    (void)attributes;
    return 0;
}

int pthread_attr_setguardsize(void *attributes, size_t size) {
    (void)attributes, (void)size;
    return 0;
}

int pthread_attr_setstacksize(void *attributes, size_t size) {
    (void)attributes, (void)size;
    return 0;
}

int pthread_attr_destroy(void *attributes) {
    (void)attributes;
    return 0;
}

uint64_t pthread_self(void) {
    return running;
}

/* The first number that no thread has, or 0. */
static uint64_t free_number(void) {
    for (uint64_t number = 1; number <= MOST_THREADS; number++)
        if (!is_taken[number]) return number;
    return 0;
}

int pthread_create(uint64_t *made, const void *attributes, void *(*start)(void *), void *given) {
    (void)attributes;
    uint64_t number = free_number();
    if (!number) return ERROR_AGAIN;
    uint64_t maker = running;
    is_taken[number] = 1;
    *made = number;
    running = number;
    results[number] = start(given);
    running = maker;
    return 0;
}

int pthread_join(uint64_t thread, void **result) {
    if (result) *result = results[thread];
    is_taken[thread] = 0;
    return 0;
}

int pthread_detach(uint64_t thread) {
    is_taken[thread] = 0;
    return 0;
}

int sched_yield(void) {
    return 0;
}
