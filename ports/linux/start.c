/* The words and the environment of a run, as the kit's own C has them, for a program that is linked with musl. */
#include <stddef.h>
#include <stdint.h>
#include <stdlib.h>
#include <string.h>

extern char **environ;

static size_t word_count;
static char **words;

/* The program's own `main` has no arguments, and musl gives constructors none: so the linker leads the start through
   here (--wrap=main). */
int __real_main(void);
int __wrap_main(int count, char **given) {
    word_count = (size_t)count;
    words = given;
    return __real_main();
}

/* The bytes of a text: how many, or -1 where there is none, or -2 where it is longer than `size`. */
static ptrdiff_t copied(const char *text, uint8_t *to, size_t size) {
    if (!text) return -1;
    size_t length = strlen(text);
    if (length > size) return -2;
    memcpy(to, text, length);
    return (ptrdiff_t)length;
}

size_t rattle_arg_count(void) {
    return word_count;
}

ptrdiff_t rattle_arg(size_t number, uint8_t *to, size_t size) {
    return copied(number < word_count ? words[number] : NULL, to, size);
}

ptrdiff_t rattle_env(const char *name, uint8_t *to, size_t size) {
    return copied(getenv(name), to, size);
}

ptrdiff_t rattle_env_at(size_t number, uint8_t *to, size_t size) {
    char **row = environ;
    while (row && *row && number > 0) row++, number--;
    return copied(row ? *row : NULL, to, size);
}
