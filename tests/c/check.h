/* What the C programs of this folder share: answers are held to what is expected, and failures are told and counted. */
#ifndef CHECK_H
#define CHECK_H

#include "unloop.h"
#include <stdio.h>
#include <string.h>

#define LENGTH(a) (sizeof(a) / sizeof((a)[0]))

static int failures = 0;

static void check(int ok, const char *what)
{
    if (!ok) {
        failures++;
        fprintf(stderr, "failed: %s\n", what);
    }
}

static void answers(unloop_reply reply, size_t number, size_t count, size_t detail, const char *what)
{
    check(reply.number == number && reply.count == count && reply.detail == detail, what);
    if (reply.number != number || reply.count != count || reply.detail != detail)
        fprintf(stderr, "  %zu %zu %zu\n", reply.number, reply.count, reply.detail);
}

/* The exit status of a program, which says where nothing failed. */
static int ended(const char *program)
{
    if (failures == 0)
        printf("%s: ok\n", program);
    return failures != 0;
}

#endif
