/* Loaded into a program before the C library (LD_PRELOAD): a `read` and a `write` that move fewer bytes than they are asked to, and may fail.
   CUT_READ and CUT_WRITE are the most bytes of a call; 0 stands for another size at each call. FAIL_READ and FAIL_WRITE are the number of a
   call, counted from 1, that moves nothing and fails as one that a signal interrupted. */
#include <errno.h>
#include <stdlib.h>
#include <sys/syscall.h>
#include <unistd.h>

/* What the calls of one function go by. */
typedef struct cut {
    const char *most;
    const char *fails;
    size_t calls;
} cut;

static size_t number(const char *name)
{
    const char *value = getenv(name);
    return value == NULL ? (size_t)-1 : strtoul(value, NULL, 10);
}

/* The bytes of the next call, at most so many. */
static size_t next(cut *calls, size_t asked)
{
    size_t most = number(calls->most);

    calls->calls++;
    if (most == 0)
        most = 1 + calls->calls * calls->calls * 2654435761u % 4999;
    return asked < most ? asked : most;
}

/* Whether the call that has begun is the one that fails. */
static int fails(const cut *calls)
{
    errno = EINTR;
    return calls->calls == number(calls->fails);
}

ssize_t read(int file, void *bytes, size_t asked)
{
    static cut reads = {"CUT_READ", "FAIL_READ", 0};
    size_t most = next(&reads, asked);
    return fails(&reads) ? -1 : syscall(SYS_read, file, bytes, most);
}

ssize_t write(int file, const void *bytes, size_t asked)
{
    static cut writes = {"CUT_WRITE", "FAIL_WRITE", 0};
    size_t most = next(&writes, asked);
    return fails(&writes) ? -1 : syscall(SYS_write, file, bytes, most);
}
