/* wide.c against the arithmetic of this machine's compiler, over numbers with runs of bits. Built with the names of
   wide.c changed (ports/try). */
#include <stdint.h>
#include <stdio.h>

typedef unsigned __int128 wide;
wide wide_multi3(wide, wide), wide_udivti3(wide, wide), wide_umodti3(wide, wide);
wide wide_ashlti3(wide, int), wide_lshrti3(wide, int);

static uint64_t seed = 0x9e3779b97f4a7c15;

static uint64_t any(void) {
    seed ^= seed << 13, seed ^= seed >> 7, seed ^= seed << 17;
    return seed;
}

/* A number of any length, of random bits, or of ones or zeros but for a few. */
static wide any_wide(void) {
    wide number = (wide)any() << 64 | any();
    if (any() % 3 == 0) number = (wide)1 << (any() % 128);
    if (any() % 3 == 0) number -= any() % 3;
    return number >> (any() % 128);
}

static long failed;

static void check(const char *what, wide got, wide wanted) {
    if (got == wanted) return;
    if (failed++ < 10) printf("FAILED: %s: %016llx%016llx\n", what, (unsigned long long)(got >> 64), (unsigned long long)got);
}

int main(void) {
    for (int round = 0; round < 300000; round++) {
        wide one = any_wide(), other = any_wide();
        int by = (int)(any() % 128);
        check("multi3", wide_multi3(one, other), one * other);
        check("ashlti3", wide_ashlti3(one, by), one << by);
        check("lshrti3", wide_lshrti3(one, by), one >> by);
        if (!other) continue;
        check("udivti3", wide_udivti3(one, other), one / other);
        check("umodti3", wide_umodti3(one, other), one % other);
    }
    printf("%d passed, %d failed\n", failed == 0, failed != 0);
    return failed != 0;
}
