/* How a run begins and ends: its words, its status, and where it stands still. */
#include "shim.h"

FROM_HOST(exit) _Noreturn void host_exit(int32_t status);

/* The program's own `main`, as retarget.py has named it. */
int program_main(void) __asm__("program_main");

enum { UNWOUND = 65536 }; /* bytes of the calls that are put aside while the program stands still */

static char *words;
static size_t word_count;

/* Where binaryen's asyncify puts calls aside: two addresses, the next free byte and the end, and then the bytes. */
static struct {
    address next, end;
    uint8_t bytes[UNWOUND];
} unwound __attribute__((aligned(16)));

FOR_HOST(unwind_at) address unwind_at(void) {
    unwound.next = address_of(unwound.bytes);
    unwound.end = address_of(unwound.bytes + UNWOUND);
    return address_of(&unwound);
}

FOR_HOST(args_at) address args_at(address size) {
    words = malloc(size);
    return address_of(words);
}

FOR_HOST(run) int run(int count) {
    word_count = (size_t)count;
    return program_main();
}

size_t rattle_arg_count(void) {
    return word_count;
}

/* The bytes of a word: how many, or -1 where there is no such word, or -2 where it is longer than `size`. */
int64_t rattle_arg(size_t number, uint8_t *to, size_t size) {
    if (number >= word_count) return -1;
    const char *word = words;
    for (; number > 0; number--) word += length_of(word) + 1;
    size_t length = length_of(word);
    if (length > size) return -2;
    __builtin_memcpy(to, word, length);
    return (int64_t)length;
}

/* A run has no environment. */
int64_t rattle_env(const char *name, uint8_t *to, size_t size) {
    (void)name, (void)to, (void)size;
    return -1;
}

int64_t rattle_env_at(size_t number, uint8_t *to, size_t size) {
    (void)number, (void)to, (void)size;
    return -1;
}

_Noreturn void _exit(int status) {
    host_exit(status);
}

_Noreturn void abort(void) {
    __builtin_trap();
}

/* There are no signals: a host that is hung up on answers a write by an error. */
int64_t __sysv_signal(int number, int64_t handler) {
    (void)number, (void)handler;
    return 0;
}
