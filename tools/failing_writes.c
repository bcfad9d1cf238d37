/* A library that is loaded before a program (LD_PRELOAD): one call on a file goes wrong, or the program is killed at it. The soak's parts `faults` and
   `steps` build it.

   FAILING_FILE    the end of the file's name, for calls by a descriptor; any file but the standard streams where it isn't given
   FAILING_CALL    which calls are counted: write, fsync, fdatasync, sync (both), flock, ftruncate, fchmod, link, rename, unlink, or any of these but flock
   FAILING_AT      the number of the call, counted from 1
   FAILING_HOW     an error's number, or
                     0   a write takes half of the bytes
                    -1   a write does so, and the next call fails (ENOSPC)
                    -2   a write takes nothing and says that it took all
                    -3   the program is killed before the call
                    -4   nothing goes wrong
   FAILING_RUNS    a command that runs before the call, if it is given
   FAILING_TOLD    a file that is made when the call comes
   FAILING_COUNTED a file that gets a byte with each call that is counted */
#define _GNU_SOURCE
#include <dlfcn.h>
#include <errno.h>
#include <fcntl.h>
#include <signal.h>
#include <stdatomic.h>
#include <stdio.h>
#include <stdlib.h>
#include <string.h>
#include <sys/stat.h>
#include <unistd.h>

static atomic_long calls;

/* Whether a descriptor is of the file. */
static int is_watched(int fd)
{
    char link[64], name[4096];
    const char *end = getenv("FAILING_FILE");
    if (!end)
        return fd > 2;
    snprintf(link, sizeof link, "/proc/self/fd/%d", fd);
    ssize_t length = readlink(link, name, sizeof name - 1);
    if (length < (ssize_t)strlen(end))
        return 0;
    name[length] = 0;
    return strcmp(name + length - strlen(end), end) == 0;
}

/* Whether calls of a sort are counted. */
static int is_counted(const char *call)
{
    const char *which = getenv("FAILING_CALL");
    if (!which || strcmp(which, call) == 0)
        return which != NULL;
    return (strcmp(which, "sync") == 0 && strstr(call, "sync")) || (strcmp(which, "any") == 0 && strcmp(call, "flock") != 0);
}

/* The error's number, or what stands in its place. */
static int how(void)
{
    const char *number = getenv("FAILING_HOW");
    return number ? atoi(number) : EIO;
}

/* Adds a byte to a file. */
static void add_byte(const char *name)
{
    ssize_t (*real)(int, const void *, size_t) = (ssize_t (*)(int, const void *, size_t))dlsym(RTLD_NEXT, "write");
    int file = open(name, O_CREAT | O_APPEND | O_WRONLY, 0600);
    if (real(file, "x", 1) != 1)
        _exit(77);
    close(file);
}

/* Counts a call of a sort, by a descriptor or by a name (-1). How many calls after the one that is to go wrong it is, or a negative number. */
static long since_due(const char *call, int fd)
{
    const char *at = getenv("FAILING_AT"), *told = getenv("FAILING_TOLD"), *runs = getenv("FAILING_RUNS"), *counted = getenv("FAILING_COUNTED");
    int kept = errno;
    int counts = at && is_counted(call) && (fd < 0 || is_watched(fd));
    long since = counts ? atomic_fetch_add(&calls, 1) + 1 - atol(at) : -1;
    if (counts && counted)
        add_byte(counted);
    if (since == 0 && told)
        close(open(told, O_CREAT | O_WRONLY, 0600));
    if (since == 0 && runs && (unsetenv("LD_PRELOAD"), system(runs)) != 0)
        _exit(77);
    if (since == 0 && how() == -3)
        kill(getpid(), SIGKILL);
    errno = kept;
    return since;
}

/* Whether this call is to fail, by which error. */
static int fails(const char *call, int fd)
{
    if (since_due(call, fd) != 0 || how() == -4)
        return 0;
    errno = how();
    return 1;
}

ssize_t write(int fd, const void *bytes, size_t count)
{
    ssize_t (*real)(int, const void *, size_t) = (ssize_t (*)(int, const void *, size_t))dlsym(RTLD_NEXT, "write");
    long since = since_due("write", fd);
    if (since == 1 && how() == -1) {
        errno = ENOSPC;
        return -1;
    }
    if (since != 0 || how() == -4)
        return real(fd, bytes, count);
    if (how() == -2)
        return (ssize_t)count;
    if (how() <= 0)
        return real(fd, bytes, count > 1 ? count / 2 : count);
    errno = how();
    return -1;
}

/* A call that fails or goes on: its name, its sort, its descriptor, its parameters and what it is handed. */
#define CALL(name, sort, fd, parameters, ...) \
    int name parameters { return fails(sort, fd) ? -1 : ((int(*) parameters)dlsym(RTLD_NEXT, #name))(__VA_ARGS__); }

CALL(fsync, "fsync", fd, (int fd), fd)
CALL(fdatasync, "fdatasync", fd, (int fd), fd)
CALL(flock, "flock", fd, (int fd, int how), fd, how)
CALL(ftruncate, "ftruncate", fd, (int fd, off_t length), fd, length)
CALL(ftruncate64, "ftruncate", fd, (int fd, off64_t length), fd, length)
CALL(fchmod, "fchmod", fd, (int fd, mode_t mode), fd, mode)
CALL(link, "link", -1, (const char *from, const char *to), from, to)
CALL(rename, "rename", -1, (const char *from, const char *to), from, to)
CALL(unlink, "unlink", -1, (const char *name), name)
