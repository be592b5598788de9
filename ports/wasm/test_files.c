/* files.c, threads.c and bytes.c over a host that answers what it is told to: what the host is asked, what C's callers
   get, and that each error comes through. Built with other names for C's own functions (ports/try). */
#define _GNU_SOURCE
#include <fcntl.h>
#include <stdio.h>
#include <string.h>
#include "shim.h"

int rattle_errno(void);
void rattle_set_errno(int);
int64_t shim_read(int, void *, size_t), shim_write(int, const void *, size_t), shim_lseek(int, int64_t, int);
int64_t shim_readlink(const char *, char *, size_t);
int shim_open(const char *, int, ...), shim_close(int), shim_ftruncate(int, int64_t), shim_fchmod(int, unsigned);
int shim_fsync(int), shim_fdatasync(int), shim_flock(int, int), shim_rename(const char *, const char *);
int shim_unlink(const char *), shim_statx(int, const char *, int, unsigned, void *);
int shim_pthread_create(uint64_t *, const void *, void *(*)(void *), void *), shim_pthread_join(uint64_t, void **);
int shim_pthread_detach(uint64_t);
uint64_t shim_pthread_self(void);
void *shim_memcpy(void *, const void *, size_t), *shim_memmove(void *, const void *, size_t);
void *shim_memset(void *, int, size_t);
int shim_memcmp(const void *, const void *, size_t);

static int passed, failed;

static void count(int holds, const char *what) {
    if (holds) passed++;
    else failed++, printf("FAILED: %s\n", what);
}

/* What the host was asked last, and what it answers. */
static char asked[200];
static int64_t to_answer;

#define ASKED(...) (snprintf(asked, sizeof asked, __VA_ARGS__), to_answer)

static const char *text(address name, address length) {
    static char texts[2][64];
    static int turn;
    char *made = texts[turn ^= 1];
    memcpy(made, (const char *)name, length);
    made[length] = 0;
    return made;
}

static void tell_status(address out) {
    uint32_t numbers[] = {0100640, 17, 18, 0, 0x89abcdef, 0x1234567};
    if (to_answer >= 0) memcpy((void *)out, numbers, sizeof numbers);
}

int32_t host_read(int32_t file, address to, address size) {
    (void)to;
    return (int32_t)ASKED("read %d %zu", file, (size_t)size);
}
int32_t host_write(int32_t file, address from, address size) {
    (void)from;
    return (int32_t)ASKED("write %d %zu", file, (size_t)size);
}
int32_t host_open(address name, address length, int32_t flags, int32_t mode) {
    return (int32_t)ASKED("open %s %o %o", text(name, length), flags, mode);
}
int32_t host_close(int32_t file) {
    return (int32_t)ASKED("close %d", file);
}
int32_t host_stat(address name, address length, int32_t follows, address out) {
    tell_status(out);
    return (int32_t)ASKED("stat %s %d", text(name, length), follows);
}
int32_t host_fstat(int32_t file, address out) {
    tell_status(out);
    return (int32_t)ASKED("fstat %d", file);
}
int64_t host_seek(int32_t file, int64_t offset, int32_t whence) {
    return ASKED("seek %d %ld %d", file, (long)offset, whence);
}
int32_t host_truncate(int32_t file, int64_t size) {
    return (int32_t)ASKED("truncate %d %ld", file, (long)size);
}
int32_t host_chmod(int32_t file, int32_t mode) {
    return (int32_t)ASKED("chmod %d %o", file, mode);
}
int32_t host_sync(int32_t file) {
    return (int32_t)ASKED("sync %d", file);
}
int32_t host_readlink(address name, address length, address to, address size) {
    (void)to;
    return (int32_t)ASKED("readlink %s %zu", text(name, length), (size_t)size);
}
int32_t host_rename(address name, address length, address other, address other_length) {
    return (int32_t)ASKED("rename %s %s", text(name, length), text(other, other_length));
}
int32_t host_unlink(address name, address length) {
    return (int32_t)ASKED("unlink %s", text(name, length));
}

static char buffer[256];

/* The calls, each with what it has to ask of the host. */
static int64_t call(int number) {
    switch (number) {
        case 0: return shim_read(5, buffer, 9);
        case 1: return shim_write(1, buffer, (size_t)1 << 40);
        case 2: return shim_open("a/b", O_WRONLY | O_CREAT | O_EXCL, 0600);
        case 3: return shim_open("c", O_RDONLY, 0777);
        case 4: return shim_close(7);
        case 5: return shim_lseek(3, (int64_t)1 << 40, 2);
        case 6: return shim_ftruncate(4, (int64_t)1 << 40);
        case 7: return shim_fchmod(4, 0644);
        case 8: return shim_fsync(4);
        case 9: return shim_fdatasync(6);
        case 10: return shim_readlink("link", buffer, 100);
        case 11: return shim_rename("from", "to");
        case 12: return shim_unlink("gone");
        case 13: return shim_statx(AT_FDCWD, "name", 0, 0, buffer);
        case 14: return shim_statx(AT_FDCWD, "name", AT_SYMLINK_NOFOLLOW, 0, buffer);
        case 15: return shim_statx(-1, "/name", 0, 0, buffer);
        default: return shim_statx(8, "", AT_EMPTY_PATH, 0, buffer);
    }
}

static const char *const wanted[] = {
    "read 5 9", "write 1 2147479552", "open a/b 301 600", "open c 0 0", "close 7", "seek 3 1099511627776 2",
    "truncate 4 1099511627776", "chmod 4 644", "sync 4", "sync 6", "readlink link 100", "rename from to", "unlink gone",
    "stat name 1", "stat name 0", "stat /name 1", "fstat 8"};
enum { CALLS = sizeof wanted / sizeof *wanted, LARGEST_ERROR = 133 };

static void try_calls(void) {
    for (int number = 0; number < CALLS; number++) {
        to_answer = 0;
        rattle_set_errno(77);
        int64_t got = call(number);
        count(got == 0 && !strcmp(asked, wanted[number]) && rattle_errno() == 77, wanted[number]);
    }
}

/* Each error of each call is -1 with its number, and nothing is written where a status was wanted. */
static void try_faults(int number) {
    int wrong = 0;
    for (int error = 1; error <= LARGEST_ERROR; error++) {
        memset(buffer, 0x55, sizeof buffer);
        to_answer = -error;
        rattle_set_errno(0);
        wrong += call(number) != -1 || rattle_errno() != error || buffer[0] != 0x55 || buffer[40] != 0x55;
    }
    count(!wrong, wanted[number]);
}

static void try_answers(void) {
    to_answer = 123;
    count(call(0) == 123 && call(1) == 123 && call(2) == 123 && call(10) == 123, "what the host answers is answered");
    to_answer = ((int64_t)1 << 40) + 5;
    count(call(5) == to_answer, "a place past 4 GiB");
    to_answer = 0;
    call(13);
    uint32_t mask;
    uint16_t mode;
    uint32_t user, group;
    uint64_t size;
    memcpy(&mask, buffer, 4), memcpy(&mode, buffer + 28, 2), memcpy(&user, buffer + 20, 4);
    memcpy(&group, buffer + 24, 4), memcpy(&size, buffer + 40, 8);
    count(mode == 0100640 && user == 17 && group == 18 && size == 0x123456789abcdef, "the status, as Linux lays it out");
    count(mask == (0x1 | 0x2 | 0x8 | 0x10 | 0x200), "of it what a host knows");
    count(shim_statx(3, "in/folder", 0, 0, buffer) == -1 && rattle_errno() == 22, "a name in an open folder is refused");
    count(shim_flock(3, 2) == -1 && rattle_errno() == 38, "there are no locks");
}

static uint64_t seen[3];

static void *inner(void *given) {
    seen[1] = shim_pthread_self();
    return given;
}

static void *outer(void *given) {
    uint64_t thread;
    void *result;
    seen[0] = shim_pthread_self();
    if (shim_pthread_create(&thread, NULL, inner, (char *)given + 1) || shim_pthread_join(thread, &result)) return NULL;
    seen[2] = shim_pthread_self();
    return result;
}

static void try_threads(void) {
    uint64_t threads[70];
    void *result;
    int made = 0;
    count(shim_pthread_create(threads, NULL, outer, buffer) == 0 && shim_pthread_join(threads[0], &result) == 0 && result == buffer + 1,
          "a thread that makes a thread, and what they return");
    count(seen[0] && seen[1] && seen[0] != seen[1] && seen[0] == seen[2] && shim_pthread_self() == 0, "each has a number");
    for (; made < 70; made++)
        if (shim_pthread_create(threads + made, NULL, inner, buffer)) break;
    count(made == 64, "there is an end of threads that aren't joined");
    for (int k = 0; k < made; k++) shim_pthread_detach(threads[k]);
    count(shim_pthread_create(threads, NULL, inner, buffer) == 0, "what was left is made again");
}

/* Copies, fills and comparisons against the C library's, at each length and distance about the limits. */
static void try_bytes(void) {
    enum { MOST = 300 };
    static uint8_t own[3 * MOST], theirs[3 * MOST];
    int wrong = 0;
    for (int k = 0; k < 3 * MOST; k++) own[k] = theirs[k] = (uint8_t)(k * 7 + k / 11);
    for (size_t size = 0; size < MOST; size++)
        for (size_t from = 0; from < 40; from++) {
            shim_memmove(own + 20, own + from, size), memmove(theirs + 20, theirs + from, size);
            shim_memcpy(own + 2 * MOST, own + from, size), memcpy(theirs + 2 * MOST, theirs + from, size);
            shim_memset(own + from, (int)size + 400, size / 3), memset(theirs + from, (int)size + 400, size / 3);
            int mine = shim_memcmp(own, own + from, size), other = memcmp(own, own + from, size);
            wrong += memcmp(own, theirs, sizeof own) != 0 || (mine > 0) - (mine < 0) != (other > 0) - (other < 0);
        }
    count(!wrong, "bytes that are copied, filled and compared");
}

int main(void) {
    try_calls();
    for (int number = 0; number < CALLS; number++) try_faults(number);
    try_answers();
    try_threads();
    try_bytes();
    printf("%d passed, %d failed\n", passed, failed);
    return failed != 0;
}
