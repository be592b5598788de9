/* The memory of a module, for memory.c. */
#include "shim.h"
#include "memory.h"

/* The linker puts the program's data, and its stack, before this. */
extern uint8_t __heap_base;

enum { MOST_PAGES = 65536 }; /* of a memory with 32 bits */

uint8_t *first_free(void) {
    return &__heap_base;
}

uint8_t *memory_end(void) {
    return (uint8_t *)(__builtin_wasm_memory_size(0) * PAGE);
}

/* What memory.grow answers where there is none has 32 bits or 64, as the memory had when the module was linked. */
int grow(size_t pages) {
    if (pages > MOST_PAGES - __builtin_wasm_memory_size(0)) return 0;
    return (int32_t)__builtin_wasm_memory_grow(0, pages) != -1;
}
