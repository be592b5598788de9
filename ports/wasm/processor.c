/* The program's start asks an x86-64 processor whether it has what the module was compiled for, and writes a line by
   `__write` if it hasn't. A module of WebAssembly uses none of that, so everything is said to be there. */
#include "shim.h"

/* The four registers of a leaf of cpuid, and what of them may be used, as glibc tells them. */
enum { NUMBERS_OF_LEAF = 8 };

const uint32_t *__x86_get_cpuid_feature_leaf(uint32_t number) {
    static const uint32_t everything[NUMBERS_OF_LEAF] = {
        0xffffffff, 0xffffffff, 0xffffffff, 0xffffffff, 0xffffffff, 0xffffffff, 0xffffffff, 0xffffffff};
    (void)number;
    return everything;
}

int64_t write(int file, const void *from, size_t count);

int64_t __write(int file, const void *from, size_t count) {
    return write(file, from, count);
}
