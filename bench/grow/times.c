/* The clock, and the lowest and the median of rounds. The time is the process's own: what others do beside it doesn't count. */
#define _POSIX_C_SOURCE 199309L
#include "grow.h"

#include <stdlib.h>
#include <time.h>

double seconds(void)
{
    struct timespec now;
    clock_gettime(CLOCK_PROCESS_CPUTIME_ID, &now);
    return (double)now.tv_sec + (double)now.tv_nsec * 1e-9;
}

static int compare(const void *a, const void *b)
{
    const double x = *(const double *)a;
    const double y = *(const double *)b;
    return (x > y) - (x < y);
}

static double ranked(struct times *t, unsigned rank)
{
    qsort(t->list, ROUNDS, sizeof t->list[0], compare);
    return t->list[rank];
}

double lowest(struct times *t)
{
    return ranked(t, 0);
}

double median(struct times *t)
{
    return ranked(t, ROUNDS / 2u);
}
