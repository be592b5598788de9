/* The C library's calls of files and streams, over the host's. */
#include "shim.h"

FROM_HOST(read) int32_t host_read(int32_t file, address to, address count);
FROM_HOST(write) int32_t host_write(int32_t file, address from, address count);
FROM_HOST(open) int32_t host_open(address name, address length, int32_t flags, int32_t mode);
FROM_HOST(close) int32_t host_close(int32_t file);
FROM_HOST(stat) int32_t host_stat(address name, address length, int32_t follows, address out);
FROM_HOST(fstat) int32_t host_fstat(int32_t file, address out);
FROM_HOST(seek) int64_t host_seek(int32_t file, int64_t offset, int32_t whence);
FROM_HOST(truncate) int32_t host_truncate(int32_t file, int64_t size);
FROM_HOST(chmod) int32_t host_chmod(int32_t file, int32_t mode);
FROM_HOST(sync) int32_t host_sync(int32_t file);
FROM_HOST(readlink) int32_t host_readlink(address name, address length, address to, address size);
FROM_HOST(rename) int32_t host_rename(address name, address length, address other, address other_length);
FROM_HOST(unlink) int32_t host_unlink(address name, address length);

enum {
    MOST_AT_ONCE = 0x7ffff000, /* bytes of a read or a write, as in Linux */
    CREATES = 0100,            /* O_CREAT */
    NO_FOLLOW = 0x100,         /* AT_SYMLINK_NOFOLLOW */
    EMPTY_NAME = 0x1000,       /* AT_EMPTY_PATH */
    CALLERS_FOLDER = -100,     /* AT_FDCWD */
    KNOWN = 0x021b             /* STATX_TYPE, STATX_MODE, STATX_UID, STATX_GID and STATX_SIZE */
};

static int last_error;

int rattle_errno(void) {
    return last_error;
}

void rattle_set_errno(int error) {
    last_error = error;
}

/* C's answer for a host's: -1 where it is an error, which is kept. */
static int64_t answer(int64_t of_host) {
    if (of_host >= 0) return of_host;
    last_error = (int)-of_host;
    return -1;
}

static address at_once(size_t count) {
    return count < MOST_AT_ONCE ? (address)count : MOST_AT_ONCE;
}

int64_t read(int file, void *to, size_t count) {
    return answer(host_read(file, address_of(to), at_once(count)));
}

int64_t write(int file, const void *from, size_t count) {
    return answer(host_write(file, address_of(from), at_once(count)));
}

int open(const char *name, int flags, ...) {
    int mode = 0;
    if (flags & CREATES) {
        __builtin_va_list rest;
        __builtin_va_start(rest, flags);
        mode = __builtin_va_arg(rest, int);
        __builtin_va_end(rest);
    }
    return (int)answer(host_open(address_of(name), length_of(name), flags, mode));
}

int close(int file) {
    return (int)answer(host_close(file));
}

int64_t lseek(int file, int64_t offset, int whence) {
    return answer(host_seek(file, offset, whence));
}

int ftruncate(int file, int64_t size) {
    return (int)answer(host_truncate(file, size));
}

int fchmod(int file, unsigned mode) {
    return (int)answer(host_chmod(file, (int32_t)mode));
}

int fsync(int file) {
    return (int)answer(host_sync(file));
}

int fdatasync(int file) {
    return (int)answer(host_sync(file));
}

/* No host has locks, and the program asks for none. */
int flock(int file, int operation) {
    (void)file, (void)operation;
    return (int)answer(-ERROR_NO_CALL);
}

int64_t readlink(const char *name, char *to, size_t size) {
    return answer(host_readlink(address_of(name), length_of(name), address_of(to), at_once(size)));
}

int rename(const char *name, const char *other) {
    return (int)answer(host_rename(address_of(name), length_of(name), address_of(other), length_of(other)));
}

int unlink(const char *name) {
    return (int)answer(host_unlink(address_of(name), length_of(name)));
}

/* What a host says of a file. */
struct status {
    uint32_t mode, user, group, rest;
    uint64_t size;
};

/* Linux's struct statx. */
struct statx {
    uint32_t mask, block_size;
    uint64_t attributes;
    uint32_t links, user, group;
    uint16_t mode, spare;
    uint64_t number, size, blocks, attributes_mask, others[24];
};

_Static_assert(sizeof(struct status) == 24, "as in HOST.md");
_Static_assert(__builtin_offsetof(struct statx, mode) == 28 && __builtin_offsetof(struct statx, size) == 40, "as in Linux");
_Static_assert(sizeof(struct statx) == 256, "as in Linux");

/* Of what Linux tells, that which a host knows. Names begin in the caller's folder, or at the root. */
int statx(int folder, const char *name, int flags, unsigned mask, struct statx *out) {
    (void)mask;
    struct status said = {0};
    int32_t of_host;
    if (!name[0] && flags & EMPTY_NAME) of_host = host_fstat(folder, address_of(&said));
    else if (folder != CALLERS_FOLDER && name[0] != '/') of_host = -ERROR_INVALID;
    else of_host = host_stat(address_of(name), length_of(name), !(flags & NO_FOLLOW), address_of(&said));
    if (answer(of_host) < 0) return -1;
    *out = (struct statx){.mask = KNOWN, .mode = (uint16_t)said.mode, .user = said.user, .group = said.group,
                          .size = said.size, .links = 1, .block_size = 4096};
    return 0;
}
