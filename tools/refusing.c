/* Refuses one call of a program that it is loaded into (LD_PRELOAD). REFUSE=KIND:N says which: KIND is memory, open,
 * read or write, and the N-th such call after the program began fails, counted from 1. When it does, a byte goes to the
 * descriptor whose number stands in REFUSE_NOTE. */
#define _GNU_SOURCE
#include <errno.h>
#include <fcntl.h>
#include <stdarg.h>
#include <stdlib.h>
#include <string.h>
#include <sys/syscall.h>
#include <unistd.h>

extern void *__libc_malloc(size_t size);
extern void *__libc_calloc(size_t count, size_t size);
extern void *__libc_realloc(void *old, size_t size);

static const char *kind;
static size_t kind_length;
static long number, calls;
static int descriptor;

__attribute__((constructor)) static void begin(void)
{
    char *refuse = getenv("REFUSE"), *colon = refuse ? strchr(refuse, ':') : NULL;
    char *note = getenv("REFUSE_NOTE");
    if (!colon)
        return;
    kind_length = colon - refuse;
    number = atol(colon + 1);
    descriptor = note ? atoi(note) : -1;
    kind = refuse;
}

static int is_refused(const char *called, int error)
{
    if (!kind || strlen(called) != kind_length || strncmp(kind, called, kind_length) || ++calls != number)
        return 0;
    if (descriptor >= 0)
        syscall(SYS_write, descriptor, "!", 1);
    errno = error;
    return 1;
}

void *malloc(size_t size)
{
    return is_refused("memory", ENOMEM) ? NULL : __libc_malloc(size);
}

void *calloc(size_t count, size_t size)
{
    return is_refused("memory", ENOMEM) ? NULL : __libc_calloc(count, size);
}

void *realloc(void *old, size_t size)
{
    return is_refused("memory", ENOMEM) ? NULL : __libc_realloc(old, size);
}

int open(const char *name, int flags, ...)
{
    va_list more;
    va_start(more, flags);
    int mode = flags & O_CREAT ? va_arg(more, int) : 0;
    va_end(more);
    return is_refused("open", EACCES) ? -1 : syscall(SYS_openat, AT_FDCWD, name, flags, mode);
}

ssize_t read(int file, void *to, size_t size)
{
    return is_refused("read", EIO) ? -1 : syscall(SYS_read, file, to, size);
}

ssize_t write(int file, const void *from, size_t size)
{
    return is_refused("write", ENOSPC) ? -1 : syscall(SYS_write, file, from, size);
}

ssize_t __write(int file, const void *from, size_t size)
{
    return write(file, from, size);
}
