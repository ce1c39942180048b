/* `bench` times every case on both sides in one process, in turns, and prints the medians. `bench list` holds both sides of every case to each
   other and lists the cases, each with a loop length to count by; `bench CASE SIDE N` only runs one, for its instructions to be counted. */
#define _POSIX_C_SOURCE 199309L
#include "cases.h"

#include <stdio.h>
#include <stdlib.h>
#include <string.h>
#include <time.h>

enum { TURNS = 41 };

static volatile uint64_t sink;

static double now(void)
{
    struct timespec t;

    clock_gettime(CLOCK_PROCESS_CPUTIME_ID, &t);
    return (double)t.tv_sec * 1e9 + (double)t.tv_nsec;
}

/* Nanoseconds of a call. */
static double timed(const struct test *t, bool ours)
{
    double start = now();

    sink = t->run(ours, t->calls);
    return (now() - start) / (double)t->calls;
}

static int by_size(const void *a, const void *b)
{
    double x = *(const double *)a, y = *(const double *)b;

    return (x > y) - (x < y);
}

static void compare(const struct test *t)
{
    double ours[TURNS], peers[TURNS];

    for (int i = 0; i < TURNS; i++) {
        ours[i] = timed(t, true);
        peers[i] = timed(t, false);
    }
    qsort(ours, TURNS, sizeof *ours, by_size);
    qsort(peers, TURNS, sizeof *peers, by_size);
    double a = ours[TURNS / 2], b = peers[TURNS / 2];
    printf("| %-42s | %9.1f | %9.1f | %5.2f |\n", t->name, a, b, a / b);
}

int main(int argc, char **argv)
{
    prepare();
    if (argc == 4) {
        sink = tests[(size_t)atol(argv[1]) % test_count].run(!strcmp(argv[2], "ours"), (size_t)atol(argv[3]));
        return 0;
    }
    if (argc == 2) {
        for (size_t i = 0; i < test_count; i++) {
            for (size_t n = 1; n < 4; n++)
                if (tests[i].run(true, n) != tests[i].run(false, n)) {
                    fprintf(stderr, "%s: the answers differ\n", tests[i].name);
                    return 1;
                }
            printf("%zu %zu %s\n", i, tests[i].calls / 10, tests[i].name);
        }
        return 0;
    }
    printf("| %-42s | %9s | %9s | ratio |\n|---|---|---|---|\n", "nanoseconds a call", "ours", "C");
    for (size_t i = 0; i < test_count; i++)
        compare(&tests[i]);
    return 0;
}
