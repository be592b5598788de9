/* Copies, fills and comparisons of bytes, which compiled code asks for by these names. Short ones go by words here: a
   host's own memory.copy and memory.fill cost a call, and are for long ones. */
#include "shim.h"

#ifdef __wasm__
#define WITH_BULK __attribute__((target("bulk-memory")))
#else
#define WITH_BULK
#endif

enum { WORD = 8, LONG = 128 };

typedef uint64_t __attribute__((aligned(1), may_alias)) word;

WITH_BULK void *memcpy(void *restrict to, const void *restrict from, size_t size) {
    if (size >= LONG) return __builtin_memcpy(to, from, size), to;
    uint8_t *target = to;
    const uint8_t *source = from;
    size_t at = 0;
    for (; at + WORD <= size; at += WORD) *(word *)(target + at) = *(const word *)(source + at);
    for (; at < size; at++) target[at] = source[at];
    return to;
}

/* As memcpy, from the end on. */
static void copy_from_end(uint8_t *target, const uint8_t *source, size_t size) {
    size_t at = size;
    for (; at >= WORD; at -= WORD) *(word *)(target + at - WORD) = *(const word *)(source + at - WORD);
    for (; at > 0; at--) target[at - 1] = source[at - 1];
}

WITH_BULK void *memmove(void *to, const void *from, size_t size) {
    if (size >= LONG) return __builtin_memmove(to, from, size), to;
    if ((uintptr_t)to - (uintptr_t)from < size) copy_from_end(to, from, size);
    else memcpy(to, from, size);
    return to;
}

WITH_BULK void *memset(void *to, int value, size_t size) {
    if (size >= LONG) return __builtin_memset(to, value, size), to;
    uint8_t *target = to;
    uint64_t repeated = (uint64_t)0x0101010101010101 * (uint8_t)value;
    size_t at = 0;
    for (; at + WORD <= size; at += WORD) *(word *)(target + at) = repeated;
    for (; at < size; at++) target[at] = (uint8_t)value;
    return to;
}

int memcmp(const void *one, const void *other, size_t size) {
    const uint8_t *first = one, *second = other;
    for (size_t at = 0; at < size; at++)
        if (first[at] != second[at]) return first[at] < second[at] ? -1 : 1;
    return 0;
}

int bcmp(const void *one, const void *other, size_t size) {
    return memcmp(one, other, size);
}
