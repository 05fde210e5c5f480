/* Preloaded into a program that keeps a catalogue: a call of the system on the catalogue's new file fails, or the
 * process is stopped there. FAULT says which, as `CALL ERRNO`: CALL is open, write (the second half), sync or
 * rename, or folder, the sync of the folder behind them; an ERRNO of 0 stops the process as `kill -9` does. */
#define _GNU_SOURCE
#include <dlfcn.h>
#include <errno.h>
#include <fcntl.h>
#include <signal.h>
#include <stdarg.h>
#include <stdio.h>
#include <stdlib.h>
#include <string.h>
#include <sys/stat.h>
#include <unistd.h>

#define REAL(name) ((__typeof__(&name))dlsym(RTLD_NEXT, #name))

/* Whether this call is to fail; errno is set then. */
static int fails(const char *call)
{
    char due[16];
    int error;
    const char *fault = getenv("FAULT");
    if (!fault || sscanf(fault, "%15s %d", due, &error) != 2 || strcmp(due, call))
        return 0;
    if (error == 0)
        kill(getpid(), SIGKILL);
    errno = error;
    return 1;
}

static int is_new(const char *path)
{
    size_t length = strlen(path);
    return length >= 4 && !strcmp(path + length - 4, ".new");
}

static int is_new_file(int file)
{
    char link[64], path[4096] = "";
    snprintf(link, sizeof link, "/proc/self/fd/%d", file);
    return readlink(link, path, sizeof path - 1) > 0 && is_new(path);
}

int open(const char *path, int flags, ...)
{
    va_list more;
    va_start(more, flags);
    mode_t mode = flags & O_CREAT ? va_arg(more, mode_t) : 0;
    va_end(more);
    return is_new(path) && fails("open") ? -1 : REAL(open)(path, flags, mode);
}

int open64(const char *path, int flags, ...)
{
    va_list more;
    va_start(more, flags);
    mode_t mode = flags & O_CREAT ? va_arg(more, mode_t) : 0;
    va_end(more);
    return is_new(path) && fails("open") ? -1 : REAL(open64)(path, flags, mode);
}

ssize_t write(int file, const void *bytes, size_t count)
{
    static int is_half;
    if (getenv("FAULT") && is_new_file(file)) {
        if (is_half && fails("write"))
            return -1;
        count = is_half ? count : count / 2;
        is_half = 1;
    }
    return REAL(write)(file, bytes, count);
}

int fsync(int file)
{
    struct stat is;
    const char *call = !fstat(file, &is) && S_ISDIR(is.st_mode) ? "folder" : "sync";
    return fails(call) ? -1 : REAL(fsync)(file);
}

int rename(const char *from, const char *to)
{
    return fails("rename") ? -1 : REAL(rename)(from, to);
}
