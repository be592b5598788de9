/* Arithmetic of 128 bits, which compiled code asks for by these names where the machine has none. */
#include "shim.h"

typedef unsigned __int128 wide;

enum { HALF = 64 };

/* A number by its halves, so that nothing here asks for itself. */
union halves {
    wide whole;
    struct {
        uint64_t low, high;
    };
};

static wide of(uint64_t high, uint64_t low) {
    union halves made = {.low = low, .high = high};
    return made.whole;
}

static uint64_t high_of(wide number) {
    union halves parts = {.whole = number};
    return parts.high;
}

/* The product of two halves, by quarters. */
static wide product(uint64_t one, uint64_t other) {
    uint64_t low = (uint32_t)one, high = one >> 32;
    uint64_t other_low = (uint32_t)other, other_high = other >> 32;
    uint64_t first = low * other_low;
    uint64_t second = high * other_low + (first >> 32);
    uint64_t third = low * other_high + (uint32_t)second;
    return of(high * other_high + (second >> 32) + (third >> 32), third << 32 | (uint32_t)first);
}

wide __multi3(wide one, wide other) {
    uint64_t low = (uint64_t)one, other_low = (uint64_t)other;
    wide made = product(low, other_low);
    uint64_t more = high_of(one) * other_low + low * high_of(other);
    return of(high_of(made) + more, (uint64_t)made);
}

static wide shifted_left(wide number, uint32_t by) {
    uint64_t low = (uint64_t)number, high = high_of(number);
    if (by >= HALF) return of(low << (by - HALF), 0);
    return by ? of(high << by | low >> (HALF - by), low << by) : number;
}

static wide shifted_right(wide number, uint32_t by) {
    uint64_t low = (uint64_t)number, high = high_of(number);
    if (by >= HALF) return of(0, high >> (by - HALF));
    return by ? of(high >> by, low >> by | high << (HALF - by)) : number;
}

wide __ashlti3(wide number, int by) {
    return shifted_left(number, (uint32_t)by);
}

wide __lshrti3(wide number, int by) {
    return shifted_right(number, (uint32_t)by);
}

/* How many bits a number has; 0 has one. */
static uint32_t length_in_bits(wide number) {
    uint64_t high = high_of(number);
    if (high) return 2 * HALF - (uint32_t)__builtin_clzll(high);
    return HALF - (uint32_t)__builtin_clzll((uint64_t)number | 1);
}

/* Division with a remainder, a bit at a time but for what is below 2 to the 64th. Division by 0 is never asked for. */
static wide divided(wide number, wide divisor, wide *rest) {
    if (!high_of(number) && !high_of(divisor)) {
        *rest = (uint64_t)number % (uint64_t)divisor;
        return (uint64_t)number / (uint64_t)divisor;
    }
    wide quotient = 0;
    uint32_t length = length_in_bits(number), least = length_in_bits(divisor);
    for (uint32_t by = length < least ? 0 : length - least + 1; by > 0; by--) {
        wide part = shifted_left(divisor, by - 1);
        quotient = shifted_left(quotient, 1);
        if (number < part) continue;
        number -= part;
        quotient |= 1;
    }
    *rest = number;
    return quotient;
}

wide __udivti3(wide number, wide divisor) {
    wide rest;
    return divided(number, divisor, &rest);
}

wide __umodti3(wide number, wide divisor) {
    wide rest;
    divided(number, divisor, &rest);
    return rest;
}
