/* Preloaded by tools/check/refuse into a program: refuses its Nth memory request, its Nth read or its Nth write.

   REFUSE_MALLOC, REFUSE_READ and REFUSE_WRITE say which, counted from 1. REFUSE_PIECE is the most bytes that a read or a
   write takes. With REFUSE_INTERRUPT each read and write is interrupted once before it is done. With REFUSE_CALLS a write of
   no bytes says that a call begins, and the next one that it has ended: only the memory requests of calls are counted, and a
   call whose digit in REFUSE_CALLS is 1 has each of them refused. As the program ends it writes a line to standard error: how
   many memory requests, reads and writes there were, interrupted ones aside, how many of these were refused, how many calls
   began, and how many memory requests those made whose digit is 1. */
#include <errno.h>
#include <stdio.h>
#include <stdlib.h>
#include <sys/syscall.h>
#include <unistd.h>

extern void *__libc_malloc(size_t), *__libc_calloc(size_t, size_t), *__libc_realloc(void *, size_t);

enum { MALLOC, READ, WRITE };
static unsigned long which[3], count[3], refused, begun, unwanted;
static size_t piece;
static int interrupts, is_repeated, is_in_call;
static const char *calls;

static unsigned long number(const char *name)
{
    const char *text = getenv(name);
    return text ? strtoul(text, NULL, 10) : 0;
}

__attribute__((constructor)) static void begin(void)
{
    which[MALLOC] = number("REFUSE_MALLOC"), which[READ] = number("REFUSE_READ"), which[WRITE] = number("REFUSE_WRITE");
    piece = number("REFUSE_PIECE"), interrupts = number("REFUSE_INTERRUPT") != 0, calls = getenv("REFUSE_CALLS");
    count[MALLOC] = count[READ] = count[WRITE] = 0;
}

__attribute__((destructor)) static void end(void)
{
    char line[128];
    int length = snprintf(line, sizeof line, "%lu %lu %lu %lu %lu %lu\n", count[MALLOC], count[READ], count[WRITE],
                          refused, begun, unwanted);
    syscall(SYS_write, STDERR_FILENO, line, length);
}

/* Whether this call is refused: with this error. */
static int refuses(int kind, int error)
{
    int is_it = ++count[kind] == which[kind];
    refused += is_it;
    if (is_it)
        errno = error;
    return is_it;
}

/* The same of a memory request, which is not counted where it is not of a call. */
static int refuses_memory(void)
{
    if (calls && !is_in_call)
        return 0;
    if (!calls || *calls != '1')
        return refuses(MALLOC, ENOMEM);
    unwanted++, errno = ENOMEM;
    return 1;
}

/* A call begins, or it has ended. */
static void step(void)
{
    is_in_call = !is_in_call;
    begun += is_in_call;
    calls += !is_in_call && *calls;
}

/* Whether this read or write is interrupted: each for the first time. */
static int is_interrupted(void)
{
    is_repeated = interrupts && !is_repeated;
    if (is_repeated)
        errno = EINTR;
    return is_repeated;
}

void *malloc(size_t size)
{
    return refuses_memory() ? NULL : __libc_malloc(size);
}
void *calloc(size_t number, size_t size)
{
    return refuses_memory() ? NULL : __libc_calloc(number, size);
}
void *realloc(void *old, size_t size)
{
    return refuses_memory() ? NULL : __libc_realloc(old, size);
}

ssize_t read(int from, void *to, size_t size)
{
    return is_interrupted() || refuses(READ, EIO) ? -1
                                                  : syscall(SYS_read, from, to, piece && piece < size ? piece : size);
}

ssize_t write(int to, const void *from, size_t size)
{
    if (calls && size == 0)
        return step(), 0;
    return is_interrupted() || refuses(WRITE, EIO) ? -1
                                                   : syscall(SYS_write, to, from, piece && piece < size ? piece : size);
}
