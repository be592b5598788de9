/* memory.c against a model: what is allocated has its size, its alignment and its bytes for itself, until it is freed.
   Built with other names for malloc and free (ports/try). */
#include <stdint.h>
#include <stdio.h>
#include <stdlib.h>
#include <string.h>
#include <sys/mman.h>
#include "memory.h"

struct tried {
    uint64_t is_there;
    void *block;
};
struct tried rattle_alloc(size_t, size_t);
struct tried rattle_realloc(void *, size_t, size_t, size_t);
void rattle_dealloc(void *);

enum { ALIGNMENT = 16, BLOCKS = 400, ROUNDS = 60000, REGION = 1 << 26, START = 12345 };

static uint8_t *region;
static size_t there = PAGE; /* bytes that memory.c was given */
static size_t most = REGION;

uint8_t *first_free(void) {
    return region + START;
}

uint8_t *memory_end(void) {
    return region + there;
}

int grow(size_t pages) {
    if (pages * PAGE > most - there) return 0;
    there += pages * PAGE;
    return 1;
}

static uint64_t seed = 0x9e3779b97f4a7c15;

static uint64_t any(void) {
    seed ^= seed << 13, seed ^= seed >> 7, seed ^= seed << 17;
    return seed;
}

static int passed, failed;

static void count(int holds, const char *what) {
    if (holds) passed++;
    else failed++, printf("FAILED: %s\n", what);
}

/* The model: what each block that is there has to hold. */
static struct {
    uint8_t *at;
    size_t size;
    uint8_t value;
} blocks[BLOCKS];
static long refused, wrong;

static void fill(int number, void *at, size_t size) {
    blocks[number].at = at;
    blocks[number].size = size;
    blocks[number].value = (uint8_t)any();
    memset(at, blocks[number].value, size);
    if ((uintptr_t)at % ALIGNMENT || (uint8_t *)at < region + START || (uint8_t *)at + size > region + there) wrong++;
}

static void look(int number, const uint8_t *at, size_t size) {
    for (size_t k = 0; k < size; k++)
        if (at[k] != blocks[number].value) {
            wrong++;
            return;
        }
}

static uint64_t longest = 17; /* the bits of a size */

static size_t any_size(void) {
    size_t size = any() % ((size_t)1 << (any() % longest));
    return any() % 4 ? size : ((size_t)1 << (any() % (longest - 1))) + any() % 3 - 1;
}

static void allocate(int number) {
    size_t size = any_size();
    struct tried made = rattle_alloc(size, ALIGNMENT);
    if (made.is_there) fill(number, made.block, size);
    else refused++;
}

static void reallocate(int number) {
    size_t size = any_size(), before = blocks[number].size, used = before < size ? before : size;
    struct tried made = rattle_realloc(blocks[number].at, used, size, ALIGNMENT);
    look(number, made.is_there ? made.block : blocks[number].at, made.is_there ? used : before);
    if (made.is_there) fill(number, made.block, size);
    else refused++;
}

static void release(int number) {
    look(number, blocks[number].at, blocks[number].size);
    rattle_dealloc(blocks[number].at);
    blocks[number].at = NULL;
}

static void step(void) {
    int number = (int)(any() % BLOCKS);
    if (!blocks[number].at) allocate(number);
    else if (any() % 3) reallocate(number);
    else release(number);
}

static void release_all(void) {
    for (int number = 0; number < BLOCKS; number++)
        if (blocks[number].at) release(number);
}

static void try_random(size_t limit, const char *what) {
    most = limit;
    wrong = 0;
    for (int round = 0; round < ROUNDS; round++) step();
    release_all();
    count(wrong == 0, what);
}

/* The same blocks once more, which are all freed in between, take no more memory. */
static void try_again(void) {
    size_t before = 0;
    most = REGION;
    for (int round = 0; round < 20; round++) {
        uint64_t begun = seed;
        for (int number = 0; number < BLOCKS; number++) allocate(number);
        release_all();
        if (round == 0) before = there;
        seed = begun;
    }
    count(there == before, "what is freed is used again");
}

/* Of many blocks of one size at most a quarter and their fronts are more than what was asked for. */
static void try_waste(size_t size) {
    size_t before = there, blocks_made = 0;
    for (; blocks_made < 500; blocks_made++)
        if (!rattle_alloc(size, ALIGNMENT).is_there) break;
    size_t least = size < 32 ? 32 : size;
    count(blocks_made == 500 && there - before <= blocks_made * (least + least / 4 + ALIGNMENT) + 64 * PAGE, "waste");
}

static void try_edges(void) {
    struct tried none = rattle_alloc((size_t)1 << 40, ALIGNMENT);
    count(!none.is_there && none.block, "what is larger than all memory is refused");
    count(!rattle_alloc(SIZE_MAX, ALIGNMENT).is_there, "and so is the largest number");
    struct tried made = rattle_alloc(100, ALIGNMENT);
    memset(made.block, 7, 100);
    count(!rattle_realloc(made.block, 100, (size_t)1 << 33, ALIGNMENT).is_there, "a block that can't grow is refused");
    count(((uint8_t *)made.block)[99] == 7, "and stays as it was");
    rattle_dealloc(made.block);
    most = there;
    while (rattle_alloc(1 << 20, ALIGNMENT).is_there) continue;
    made = rattle_alloc(4000, ALIGNMENT);
    while (rattle_alloc(40, ALIGNMENT).is_there) continue;
    struct tried less = rattle_realloc(made.block, 40, 40, ALIGNMENT);
    count(!made.is_there || less.is_there, "a block gets smaller where there is no memory");
    free(NULL);
}

int main(void) {
    region = mmap(NULL, REGION, PROT_READ | PROT_WRITE, MAP_PRIVATE | MAP_ANONYMOUS | MAP_NORESERVE, -1, 0);
    if (region == MAP_FAILED) return 2;
    try_random(REGION, "random blocks");
    try_again();
    try_waste(100);
    try_waste(40000);
    refused = 0;
    longest = 20;
    try_random(there, "random blocks where memory ends");
    count(refused > 0, "memory did end");
    try_edges();
    printf("%d passed, %d failed\n", passed, failed);
    return failed != 0;
}
