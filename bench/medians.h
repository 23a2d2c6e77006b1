/* What embedded.c and piped.c measure and tell alike. */
#include <stdio.h>
#include <stdlib.h>
#include <time.h>

/* Nanoseconds by a clock that only rises. */
static double now(void)
{
    struct timespec at;
    clock_gettime(CLOCK_MONOTONIC, &at);
    return at.tv_sec * 1e9 + at.tv_nsec;
}

static int by_size(const void *a, const void *b)
{
    double x = *(const double *)a, y = *(const double *)b;
    return (x > y) - (x < y);
}

/* Prints the median of these times. */
static void tell(const char *what, double *times, size_t count)
{
    qsort(times, count, sizeof *times, by_size);
    printf("%s %.0f\n", what, times[count / 2]);
}
