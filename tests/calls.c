// For LD_PRELOAD: shortens a call, or makes it fail. CALL names its kind: read, write, ftruncate,
// fsync, lseek, statx, open, rename, link, unlink, flock, fchmod or fchown, message for a write to
// standard error, or any. NUMBER is its number among the calls of its kind, from 1, or 0 for all.
// DO says what happens: the call transfers "one" byte, "half" of the bytes or "none", or fails with
// the error of this number; or before it signal 9 kills the process ("kill"), or the shell runs DO,
// any other text. If AFTER names a kind, only calls after the first of that kind count. The file
// "met" gets the kind and the file of the first call for which DO happens. If KEPT is set, each
// unlink fails. The file that TRACE names gets a line for each call but unlink: its kind, the file,
// and the result (0 if open succeeds). A read of the character device /dev/urandom returns the
// bytes of the file that URANDOM names. If CLOCK is set, these milliseconds pass between two looks
// at the clock. If INODE is set, each file's inode number is its size times this. If BAD has two
// offsets, a file IN.age cannot be read from the first to before the second.
#define _GNU_SOURCE
#include <dlfcn.h>
#include <errno.h>
#include <fcntl.h>
#include <signal.h>
#include <stdarg.h>
#include <stdio.h>
#include <stdlib.h>
#include <string.h>
#include <sys/stat.h>
#include <sys/syscall.h>
#include <sys/sysmacros.h>
#include <time.h>
#include <unistd.h>

static void *real(const char *name)
{
    void *found = dlsym(RTLD_NEXT, name);
    if (found == NULL)
        abort();
    return found;
}

static int opened(const char *name, int flags, mode_t mode)
{
    int (*next)(const char *, int, ...) = (int (*)(const char *, int, ...))real("open");
    return next(name, flags, mode);
}

// A file of a call: its name or, if that is NULL, its descriptor.
struct file {
    const char *name;
    int number;
};

// The last part of the name of a file.
static const char *name_of(struct file file)
{
    static char buffer[4096];
    char link[32];
    int error = errno;
    const char *name = file.name;
    if (name == NULL) {
        snprintf(link, sizeof link, "/proc/self/fd/%d", file.number);
        ssize_t length = readlink(link, buffer, sizeof buffer - 1);
        buffer[length < 0 ? 0 : length] = 0;
        name = length < 0 ? "nothing" : buffer;
    }
    errno = error;
    return strrchr(name, '/') ? strrchr(name, '/') + 1 : name;
}

// How much of a size the next call of this kind may transfer; -1, with errno set, if it must fail.
static ssize_t allowed(const char *kind, struct file file, long *calls, size_t size)
{
    static long all;
    static int is_after, is_met;
    const char *call = getenv("CALL"), *after = getenv("AFTER");
    if (after != NULL && !is_after) {
        is_after = strcmp(after, kind) == 0;
        return (ssize_t)size;
    }
    if (call != NULL && strcmp(call, "any") == 0)
        calls = &all;
    else if (call == NULL || strcmp(call, kind) != 0)
        return (ssize_t)size;
    long number = atol(getenv("NUMBER"));
    if (++*calls != number && number != 0)
        return (ssize_t)size;
    if (!is_met) {
        is_met = 1;
        int met = opened("met", O_CREAT | O_WRONLY, 0600);
        dprintf(met, "%s %s\n", kind, name_of(file));
        close(met);
    }
    const char *what = getenv("DO");
    if (strcmp(what, "none") == 0)
        return 0;
    if (strcmp(what, "one") == 0)
        return size < 1 ? 0 : 1;
    if (strcmp(what, "half") == 0)
        return (ssize_t)(size - size / 2);
    if (strcmp(what, "kill") == 0)
        raise(SIGKILL);
    if (atoi(what) == 0) {
        unsetenv("LD_PRELOAD");
        if (system(what) != 0)
            abort();
        return (ssize_t)size;
    }
    errno = atoi(what);
    return -1;
}

static void trace(const char *kind, struct file file, long result)
{
    const char *to = getenv("TRACE");
    int error = errno;
    if (to == NULL)
        return;
    int out = opened(to, O_CREAT | O_WRONLY | O_APPEND, 0600);
    dprintf(out, "%s %s %ld\n", kind, name_of(file), result);
    close(out);
    errno = error;
}

ssize_t write(int to, const void *bytes, size_t size)
{
    static long writes, messages;
    ssize_t (*next)(int, const void *, size_t) =
        (ssize_t (*)(int, const void *, size_t))real("write");
    int is_message = to == STDERR_FILENO;
    const char *kind = is_message ? "message" : "write";
    struct file file = {NULL, to};
    ssize_t count = allowed(kind, file, is_message ? &messages : &writes, size);
    if (count > 0 || size == 0)
        count = next(to, bytes, count < 0 ? 0 : (size_t)count);
    trace(kind, file, count);
    return count;
}

// The bytes of the file that URANDOM names, from the end of the last such read on.
static ssize_t read_known(const char *name, void *bytes, size_t size)
{
    static off_t at;
    int known = opened(name, O_RDONLY, 0);
    ssize_t count = pread(known, bytes, size, at);
    close(known);
    at += count > 0 ? count : 0;
    return count;
}

// How much of a file can be read from its offset on; -1, with errno set, if the byte there cannot.
static ssize_t readable(int from, size_t size)
{
    const char *bad = getenv("BAD");
    struct stat file;
    long long first, last;
    off_t at = (off_t)syscall(SYS_lseek, from, 0, SEEK_CUR);
    if (bad == NULL || sscanf(bad, "%lld %lld", &first, &last) != 2 || at < 0 ||
        strcmp(name_of((struct file){NULL, from}), "IN.age") != 0 ||
        fstat(from, &file) != 0 || at >= last || at >= file.st_size)
        return (ssize_t)size;
    if (at < first)
        return at + (off_t)size <= first ? (ssize_t)size : (ssize_t)(first - at);
    errno = EIO;
    return -1;
}

ssize_t read(int from, void *bytes, size_t size)
{
    static long reads;
    ssize_t (*next)(int, void *, size_t) = (ssize_t (*)(int, void *, size_t))real("read");
    const char *known = getenv("URANDOM");
    struct file file = {NULL, from};
    struct stat found;
    ssize_t count = allowed("read", file, &reads, size);
    if (count > 0)
        count = readable(from, (size_t)count);
    if (count > 0 && known != NULL && fstat(from, &found) == 0 && S_ISCHR(found.st_mode) &&
        found.st_rdev == makedev(1, 9))
        count = read_known(known, bytes, (size_t)count);
    else if (count > 0)
        count = next(from, bytes, (size_t)count);
    trace("read", file, count);
    return count;
}

// A call that transfers nothing, of a file with this name or descriptor.
#define CALL(type, kind, name, number, parameters, arguments) \
    type kind parameters \
    { \
        static long calls; \
        struct file its = {name, number}; \
        type(*next) parameters = (type(*) parameters)real(#kind); \
        type result = allowed(#kind, its, &calls, 0) < 0 ? -1 : next arguments; \
        trace(#kind, its, (long)result); \
        return result; \
    }

CALL(int, ftruncate, NULL, file, (int file, off_t size), (file, size))
CALL(int, fsync, NULL, file, (int file), (file))
CALL(int, flock, NULL, file, (int file, int how), (file, how))
CALL(int, fchmod, NULL, file, (int file, mode_t mode), (file, mode))
CALL(int, fchown, NULL, file, (int file, uid_t owner, gid_t group), (file, owner, group))
CALL(off_t, lseek, NULL, file, (int file, off_t to, int from), (file, to, from))
CALL(int, rename, from, 0, (const char *from, const char *to), (from, to))
CALL(int, link, from, 0, (const char *from, const char *to), (from, to))

int statx(int at, const char *path, int flags, unsigned mask, struct statx *found)
{
    static long calls;
    int (*next)(int, const char *, int, unsigned, struct statx *) =
        (int (*)(int, const char *, int, unsigned, struct statx *))real("statx");
    const char *factor = getenv("INODE");
    struct file file = {*path ? path : NULL, at};
    int result = allowed("statx", file, &calls, 0) < 0 ? -1 : next(at, path, flags, mask, found);
    trace("statx", file, result);
    if (result == 0 && factor != NULL)
        found->stx_ino = found->stx_size * strtoull(factor, NULL, 10);
    return result;
}

int open(const char *name, int flags, ...)
{
    static long calls;
    va_list rest;
    va_start(rest, flags);
    mode_t mode = va_arg(rest, mode_t);
    va_end(rest);
    struct file file = {name, 0};
    int result = allowed("open", file, &calls, 0) < 0 ? -1 : opened(name, flags, mode);
    trace("open", file, result < 0 ? result : 0);
    return result;
}

int unlink(const char *name)
{
    static long calls;
    int (*next)(const char *) = (int (*)(const char *))real("unlink");
    if (getenv("KEPT") != NULL) {
        errno = EIO;
        return -1;
    }
    return allowed("unlink", (struct file){name, 0}, &calls, 0) < 0 ? -1 : next(name);
}

int clock_gettime(clockid_t clock, struct timespec *now)
{
    static long looks;
    int (*next)(clockid_t, struct timespec *) =
        (int (*)(clockid_t, struct timespec *))real("clock_gettime");
    long passed = getenv("CLOCK") == NULL ? 0 : atol(getenv("CLOCK")) * ++looks;
    if (passed == 0)
        return next(clock, now);
    now->tv_sec = passed / 1000;
    now->tv_nsec = passed % 1000 * 1000000;
    return 0;
}
