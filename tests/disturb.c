/* To be preloaded: the calls of the C library by which a program reads and makes files, numbered from 1 as
   they come. That of number FAIL fails with the error ERROR, or where this is 0 the process is killed
   before it. A write of number SHORT takes half of its bytes. That of number INTERRUPT is interrupted by
   a signal, or where this is 0 every other call. The name of each call goes to the file LOG, one a line. */
#define _GNU_SOURCE
#include <dlfcn.h>
#include <errno.h>
#include <fcntl.h>
#include <libgen.h>
#include <signal.h>
#include <stdarg.h>
#include <stdlib.h>
#include <string.h>
#include <sys/stat.h>
#include <unistd.h>

#define NEXT(name) ((__typeof__(&name))dlsym(RTLD_NEXT, #name))

static int calls, failing, error, shortened, interrupted = -1, was_interrupted, names = -1;
static struct stat renamed;
static ssize_t (*next_write)(int, const void *, size_t);

static int number_of(const char *name, int otherwise) {
    const char *text = getenv(name);
    return text ? atoi(text) : otherwise;
}

__attribute__((constructor)) static void begin(void) {
    next_write = NEXT(write);
    failing = number_of("FAIL", 0);
    error = number_of("ERROR", 0);
    shortened = number_of("SHORT", 0);
    interrupted = number_of("INTERRUPT", -1);
    int file = NEXT(open)(getenv("LOG"), O_WRONLY | O_CREAT | O_TRUNC | O_CLOEXEC, 0600);
    names = fcntl(file, F_DUPFD_CLOEXEC, 100);
    if (names < 0) _exit(99);
    close(file);
}

/* Numbers a call, and says whether it isn't to be made. */
static int is_disturbed(const char *name, int may_be_interrupted) {
    calls++;
    next_write(names, name, strlen(name));
    next_write(names, "\n", 1);
    if (calls == failing && error == 0) raise(SIGKILL);
    if (calls == failing) {
        errno = error;
        return 1;
    }
    was_interrupted = may_be_interrupted && !was_interrupted && (interrupted == 0 || interrupted == calls);
    if (was_interrupted) errno = EINTR;
    return was_interrupted;
}

static int is_folder(const char *path) {
    struct stat found;
    return NEXT(stat)(path, &found) == 0 && S_ISDIR(found.st_mode);
}

/* Whether it is open for the folder in which the last rename was. */
static int is_renamed_in(int file) {
    struct stat found;
    return NEXT(fstat)(file, &found) == 0 && found.st_dev == renamed.st_dev && found.st_ino == renamed.st_ino;
}

int open(const char *path, int flags, ...) {
    va_list more;
    va_start(more, flags);
    mode_t mode = flags & O_CREAT ? va_arg(more, mode_t) : 0;
    va_end(more);
    const char *to_read = is_folder(path) ? "open a folder" : "open";
    const char *name = (flags & O_ACCMODE) == O_RDONLY ? to_read : "open to write";
    return is_disturbed(flags & O_CREAT ? "create" : name, 1) ? -1 : NEXT(open)(path, flags, mode);
}

ssize_t read(int file, void *bytes, size_t size) {
    return is_disturbed("read", 1) ? -1 : NEXT(read)(file, bytes, size);
}

ssize_t write(int file, const void *bytes, size_t size) {
    if (is_disturbed("write", 1)) return -1;
    return next_write(file, bytes, calls == shortened ? (size + 1) / 2 : size);
}

ssize_t __write(int file, const void *bytes, size_t size) {
    return write(file, bytes, size);
}

int statx(int folder, const char *path, int flags, unsigned mask, struct statx *found) {
    return is_disturbed("statx", 0) ? -1 : NEXT(statx)(folder, path, flags, mask, found);
}

ssize_t readlink(const char *path, char *text, size_t size) {
    return is_disturbed("readlink", 0) ? -1 : NEXT(readlink)(path, text, size);
}

int fchmod(int file, mode_t mode) {
    return is_disturbed("fchmod", 1) ? -1 : NEXT(fchmod)(file, mode);
}

int fsync(int file) {
    return is_disturbed(is_renamed_in(file) ? "fsync the folder" : "fsync", 1) ? -1 : NEXT(fsync)(file);
}

int rename(const char *from, const char *to) {
    char *path = strdup(to);
    if (!path || NEXT(stat)(dirname(path), &renamed) < 0) _exit(99);
    free(path);
    return is_disturbed("rename", 0) ? -1 : NEXT(rename)(from, to);
}

int unlink(const char *path) {
    return is_disturbed("unlink", 0) ? -1 : NEXT(unlink)(path);
}
