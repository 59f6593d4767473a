/* Preloaded into a program, this refuses one of its calls for memory: the one whose number, counted
   from 1, the variable REFUSE_GROWTH has. It then makes the file that REFUSED_GROWTH names, so that
   the caller learns whether the program came that far. Built programs take memory by malloc and
   realloc alone. */
#define _GNU_SOURCE
#include <dlfcn.h>
#include <errno.h>
#include <fcntl.h>
#include <stdlib.h>
#include <unistd.h>

static long calls;

/* Whether this call is the one to be refused. */
static int is_refused(void)
{
    const char *number = getenv("REFUSE_GROWTH");
    if (number == NULL || ++calls != atol(number))
        return 0;
    const char *mark = getenv("REFUSED_GROWTH");
    if (mark != NULL)
        close(open(mark, O_CREAT | O_WRONLY, 0600));
    errno = ENOMEM;
    return 1;
}

void *malloc(size_t size)
{
    static void *(*next)(size_t);
    if (next == NULL)
        next = (void *(*)(size_t))dlsym(RTLD_NEXT, "malloc");
    return is_refused() ? NULL : next(size);
}

void *realloc(void *block, size_t size)
{
    static void *(*next)(void *, size_t);
    if (next == NULL)
        next = (void *(*)(void *, size_t))dlsym(RTLD_NEXT, "realloc");
    return is_refused() ? NULL : next(block, size);
}
