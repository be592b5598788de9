/* Where memory.c gets its memory from: whole pages at the end of what there is, which are never given back. */
#ifndef W4_MEMORY_H
#define W4_MEMORY_H

#include "shim.h"

enum { PAGE = 65536 };

/* The first address behind the program's own data. */
uint8_t *first_free(void);

/* The first address behind the last page. */
uint8_t *memory_end(void);

/* Whether there are so many pages more behind the last from now on. */
int grow(size_t pages);

#endif
