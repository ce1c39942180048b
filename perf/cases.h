/* The calls that are compared, each with its inputs. */
#ifndef CASES_H
#define CASES_H

#include <stdbool.h>
#include <stddef.h>
#include <stdint.h>

struct test {
    const char *name;
    uint64_t (*run)(bool ours, size_t n);
    size_t calls; /* enough of them to time */
};

extern const struct test tests[];
extern const size_t test_count;

void prepare(void);

#endif
