/* What the program's object file asks of the kit's C and of glibc, over musl. */
#define _GNU_SOURCE
#include <errno.h>
#include <signal.h>
#include <stddef.h>
#include <stdint.h>
#include <stdlib.h>
#include <sys/syscall.h>
#include <unistd.h>

enum { LARGEST_ALIGNMENT = 16 };

int rattle_errno(void) {
    return errno;
}

void rattle_set_errno(int error) {
    errno = error;
}

/* What the kit's own C answers: whether there is memory, and where. */
struct tried {
    uint64_t is_there;
    void *block;
};

static struct tried tried(void *block) {
    static _Alignas(LARGEST_ALIGNMENT) uint8_t nothing[LARGEST_ALIGNMENT];
    return (struct tried){block != NULL, block ? block : nothing};
}

struct tried rattle_alloc(size_t size, size_t alignment) {
    return tried(malloc(size ? size : alignment));
}

struct tried rattle_realloc(void *block, size_t used, size_t size, size_t alignment) {
    (void)used;
    return tried(realloc(block, size ? size : alignment));
}

void rattle_dealloc(void *block) {
    free(block);
}

/* Musl has it from version 1.2.5 on. The struct is Linux's own. */
int statx(int folder, const char *name, int flags, unsigned mask, void *out) {
    return (int)syscall(SYS_statx, folder, name, flags, mask, out);
}

/* A handler that is taken away before it is called, as in System V. */
void (*__sysv_signal(int number, void (*handler)(int)))(int) {
    struct sigaction now = {.sa_handler = handler, .sa_flags = SA_RESETHAND | SA_NODEFER}, before;
    return sigaction(number, &now, &before) ? SIG_ERR : before.sa_handler;
}

#ifdef __x86_64__
ssize_t __write(int file, const void *from, size_t count) {
    return write(file, from, count);
}

/* What the processor can do, as glibc tells it: of some leaves of cpuid the four registers, and what of them may be used.
   The program asks this at its start, before it uses what the first x86-64 hadn't. Of that it needs nothing that the
   system would have to turn on; so what has to be turned on is left out. */
struct leaf {
    uint32_t registers[4], usable[4];
};

enum { FIRST_LEAF = 0, EXTENDED_LEAF = 2, EXTENDED = 0x80000001 };
enum { ECX = 2, EDX = 3 };
enum { SSE3 = 1 << 0, SSSE3 = 1 << 9, CMPXCHG16B = 1 << 13, SSE4_1 = 1 << 19, SSE4_2 = 1 << 20, POPCNT = 1 << 23 };
enum { LAHF = 1 << 0 };

/* Every processor of this kind has the two leaves that are asked. */
static void ask(struct leaf *leaf, uint32_t number, uint32_t usable) {
    uint32_t *said = leaf->registers;
    __asm__("cpuid" : "=a"(said[0]), "=b"(said[1]), "=c"(said[ECX]), "=d"(said[EDX]) : "a"(number), "c"(0));
    leaf->usable[ECX] = said[ECX] & usable;
    leaf->usable[EDX] = said[EDX];
}

const struct leaf *__x86_get_cpuid_feature_leaf(uint32_t number) {
    static struct leaf first, extended, none;
    ask(&first, 1, SSE3 | SSSE3 | CMPXCHG16B | SSE4_1 | SSE4_2 | POPCNT);
    ask(&extended, EXTENDED, LAHF);
    return number == FIRST_LEAF ? &first : number == EXTENDED_LEAF ? &extended : &none;
}
#endif
