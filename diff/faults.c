/* A library to preload, for `diff/faults`: it counts the calls of a process that take memory, read, write, open and
   close, and lets those between two numbers fail. It shares nothing with crates/: the program is only run under it.

   FAULTS is `KIND FIRST LAST HOW`: KIND is one of alloc, read, write1, write2, open, close (write2 is a write to
   standard error), FIRST and LAST are numbers of calls counted from 1, HOW is an errno, 0 to answer 0, or -1 to move one
   byte alone. At the end of the process it writes to the descriptor FAULTS_REPORT how many calls failed and how many
   calls of each kind there were. */
#define _GNU_SOURCE
#include <errno.h>
#include <fcntl.h>
#include <stdarg.h>
#include <stddef.h>
#include <stdio.h>
#include <stdlib.h>
#include <string.h>
#include <sys/syscall.h>
#include <unistd.h>

extern void *__libc_malloc(size_t);
extern void *__libc_calloc(size_t, size_t);
extern void *__libc_realloc(void *, size_t);
extern void *__libc_memalign(size_t, size_t);

enum { ALLOC, READ, WRITE1, WRITE2, OPEN, CLOSE, KINDS };
static const char *const names[KINDS] = {"alloc", "read", "write1", "write2", "open", "close"};
static long calls[KINDS], fired, first = 1, last;
static int planned = -1, how, report = -1;

__attribute__((constructor)) static void begin(void)
{
    char kind[16];
    const char *plan = getenv("FAULTS"), *to = getenv("FAULTS_REPORT");
    if (to)
        report = atoi(to);
    if (plan && sscanf(plan, "%15s %ld %ld %d", kind, &first, &last, &how) == 4)
        for (int k = 0; k < KINDS; k++)
            if (!strcmp(kind, names[k]))
                planned = k;
    memset(calls, 0, sizeof calls);
}

__attribute__((destructor)) static void end(void)
{
    char text[160];
    int n = snprintf(text, sizeof text, "%ld %ld %ld %ld %ld %ld %ld\n", fired, calls[0], calls[1], calls[2], calls[3],
                     calls[4], calls[5]);
    if (report >= 0)
        syscall(SYS_write, report, text, n);
}

/* Counts a call, and whether it is one that fails. */
static int fails(int kind)
{
    calls[kind]++;
    if (kind != planned || calls[kind] < first || calls[kind] > last)
        return 0;
    fired++;
    return 1;
}

static void *none(void)
{
    errno = ENOMEM;
    return NULL;
}

void *malloc(size_t n) { return fails(ALLOC) ? none() : __libc_malloc(n); }
void *calloc(size_t n, size_t each) { return fails(ALLOC) ? none() : __libc_calloc(n, each); }
void *realloc(void *old, size_t n) { return fails(ALLOC) ? none() : __libc_realloc(old, n); }
void *memalign(size_t align, size_t n) { return fails(ALLOC) ? none() : __libc_memalign(align, n); }
void *aligned_alloc(size_t align, size_t n) { return memalign(align, n); }
int posix_memalign(void **to, size_t align, size_t n)
{
    *to = memalign(align, n);
    return *to ? 0 : ENOMEM;
}

/* What a read or write that fails answers. */
static ssize_t moved(int kind, long call, int fd, void *bytes, size_t n)
{
    if (fails(kind)) {
        if (how > 0) {
            errno = how;
            return -1;
        }
        if (how == 0)
            return 0;
        n = n > 0 ? 1 : 0;
    }
    return syscall(call, fd, bytes, n);
}

ssize_t read(int fd, void *into, size_t n) { return moved(READ, SYS_read, fd, into, n); }
ssize_t write(int fd, const void *from, size_t n)
{
    return moved(fd == 2 ? WRITE2 : WRITE1, SYS_write, fd, (void *)from, n);
}

int open(const char *name, int flags, ...)
{
    va_list more;
    va_start(more, flags);
    int mode = flags & (O_CREAT | O_TMPFILE) ? va_arg(more, int) : 0;
    va_end(more);
    if (fails(OPEN)) {
        errno = how;
        return -1;
    }
    return syscall(SYS_openat, AT_FDCWD, name, flags, mode);
}

int close(int fd)
{
    int done = syscall(SYS_close, fd);
    if (fails(CLOSE)) {
        errno = how;
        return -1;
    }
    return done;
}
