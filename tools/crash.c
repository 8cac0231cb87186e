/*
 * Loaded before a program (LD_PRELOAD), it ends that program at one of its calls that store something.
 *
 * The calls are write, except to standard output and error, fsync, rename and renameat. CRASH_AT says at which
 * of them, from 1, the program ends; 0 lets it go on. A write is done by half before. CRASH_LOG names a file that
 * gets a line for each call.
 */
#define _GNU_SOURCE
#include <dlfcn.h>
#include <fcntl.h>
#include <stdio.h>
#include <stdlib.h>
#include <sys/types.h>
#include <unistd.h>

enum { CRASHED = 77 };

typedef ssize_t write_call(int, const void *, size_t);

static ssize_t real_write(int file, const void *bytes, size_t length)
{
    return ((write_call *)dlsym(RTLD_NEXT, "write"))(file, bytes, length);
}

/* Whether the program ends at this call. */
static int crashes(const char *name)
{
    static int calls;
    char line[32];
    int log = open(getenv("CRASH_LOG"), O_WRONLY | O_CREAT | O_APPEND, 0600);
    real_write(log, line, (size_t)snprintf(line, sizeof line, "%s\n", name));
    close(log);
    return ++calls == atoi(getenv("CRASH_AT"));
}

ssize_t write(int file, const void *bytes, size_t length)
{
    if (file > STDERR_FILENO && crashes("write")) {
        real_write(file, bytes, length / 2);
        _exit(CRASHED);
    }
    return real_write(file, bytes, length);
}

int fsync(int file)
{
    if (crashes("fsync"))
        _exit(CRASHED);
    return ((int (*)(int))dlsym(RTLD_NEXT, "fsync"))(file);
}

int rename(const char *old, const char *new)
{
    if (crashes("rename"))
        _exit(CRASHED);
    return ((int (*)(const char *, const char *))dlsym(RTLD_NEXT, "rename"))(old, new);
}

int renameat(int from, const char *old, int to, const char *new)
{
    if (crashes("rename"))
        _exit(CRASHED);
    return ((int (*)(int, const char *, int, const char *))dlsym(RTLD_NEXT, "renameat"))(from, old, to, new);
}
