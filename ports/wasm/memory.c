/* The allocator. Blocks have sizes in classes, four to each power of two, so that at most a quarter of a block is
   wasted; a block that is freed is kept for its class, and blocks are neither split nor joined. So an allocation takes a
   few steps whatever went before, and the memory that is taken is at most the sum of what each class needed at once. */
#include "shim.h"
#include "memory.h"

enum {
    SMALLEST = 32,    /* the size of the first class */
    CLASSES = 108,    /* the last of them has nearly 4 GiB */
    FRONT = 16,       /* bytes before a block, which have its class; as many as the largest alignment */
    LEAST_PAGES = 64, /* that are asked for at once, where there are so many */
};

static uint8_t *top, *end;  /* what no block has had yet */
static void *kept[CLASSES]; /* of each class the blocks that were freed, each with the address of the next */

static size_t size_of(uint32_t class) {
    size_t power = (size_t)SMALLEST << (class >> 2);
    return power + (power >> 2) * (class & 3);
}

/* The first class whose blocks have so many bytes, or CLASSES. */
static uint32_t class_for(size_t size) {
    if (size <= SMALLEST) return 0;
    if (size > size_of(CLASSES - 1)) return CLASSES;
    uint32_t power = 63 - (uint32_t)__builtin_clzll(size - 1);
    uint32_t class = (power - 5) * 4;
    while (size_of(class) < size) class++;
    return class;
}

static uint32_t *class_at(void *block) {
    return (uint32_t *)((uint8_t *)block - FRONT);
}

/* Whether there are so many bytes from `top` to `end`. */
static int has_room(size_t bytes) {
    if (!top) {
        top = (uint8_t *)(((uintptr_t)first_free() + FRONT - 1) & ~(uintptr_t)(FRONT - 1));
        end = memory_end();
    }
    if ((size_t)(end - top) >= bytes) return 1;
    size_t pages = (bytes - (size_t)(end - top) + PAGE - 1) / PAGE;
    if (pages < LEAST_PAGES && grow(LEAST_PAGES)) pages = LEAST_PAGES;
    else if (!grow(pages)) return 0;
    end += PAGE * pages;
    return 1;
}

void *malloc(size_t size) {
    uint32_t class = class_for(size);
    if (class == CLASSES) return NULL;
    void *block = kept[class];
    if (block) {
        kept[class] = *(void **)block;
        return block;
    }
    size_t bytes = (FRONT + size_of(class) + FRONT - 1) / FRONT * FRONT;
    if (!has_room(bytes)) return NULL;
    block = top + FRONT;
    top += bytes;
    *class_at(block) = class;
    return block;
}

void free(void *block) {
    if (!block) return;
    uint32_t class = *class_at(block);
    *(void **)block = kept[class];
    kept[class] = block;
}

/* What the kit's own C answers: whether there is memory, and where. */
struct tried {
    uint64_t is_there;
    void *block;
};

static struct tried tried(void *block) {
    static uint8_t nothing[FRONT];
    return (struct tried){block != NULL, block ? block : nothing};
}

struct tried rattle_alloc(size_t size, size_t alignment) {
    return tried(malloc(size ? size : alignment));
}

/* The block with another size. Its first `used` bytes are as they were, also where there is no memory for it. */
struct tried rattle_realloc(void *block, size_t used, size_t size, size_t alignment) {
    uint32_t class = class_for(size ? size : alignment);
    uint32_t before = *class_at(block);
    if (class == before) return tried(block);
    void *other = malloc(size ? size : alignment);
    if (!other) return tried(class < before ? block : NULL);
    __builtin_memcpy(other, block, used);
    free(block);
    return tried(other);
}

void rattle_dealloc(void *block) {
    free(block);
}
