/* Preloaded into a program, this kills it before one of its calls that open, write, rename or remove
   a file, change its mode or have it written to the disk: before the one whose number, counted from 1, the variable STOP_CALL
   has. */
#define _GNU_SOURCE
#include <dlfcn.h>
#include <fcntl.h>
#include <signal.h>
#include <stdlib.h>
#include <sys/stat.h>
#include <unistd.h>

static long calls;

static void count_call(void)
{
    const char *number = getenv("STOP_CALL");
    if (number != NULL && ++calls == atol(number))
        kill(getpid(), SIGKILL);
}

#define COUNTED(result, name, parameters, arguments)                   \
    result name parameters                                             \
    {                                                                  \
        static result (*next) parameters;                              \
        if (next == NULL)                                              \
            next = (result(*) parameters)dlsym(RTLD_NEXT, #name);      \
        count_call();                                                  \
        return next arguments;                                         \
    }

int open(const char *path, int flags, ...)
{
    static int (*next)(const char *, int, ...);
    if (next == NULL)
        next = (int (*)(const char *, int, ...))dlsym(RTLD_NEXT, "open");
    __builtin_va_list more;
    __builtin_va_start(more, flags);
    unsigned mode = flags & O_CREAT ? __builtin_va_arg(more, unsigned) : 0;
    __builtin_va_end(more);
    count_call();
    return next(path, flags, mode);
}

COUNTED(ssize_t, write, (int file, const void *bytes, size_t count), (file, bytes, count))
COUNTED(int, rename, (const char *from, const char *to), (from, to))
COUNTED(int, unlink, (const char *path), (path))
COUNTED(int, fchmod, (int file, mode_t mode), (file, mode))
COUNTED(int, fsync, (int file), (file))
