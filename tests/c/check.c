#include "check.h"

#include <stdio.h>

#define TOLD_AT_MOST 10u

static unsigned groups_passed;
static unsigned groups_failed;
static unsigned long checks;
static unsigned long failures;

void check(bool holds, const char *what, const char *file, int line)
{
    checks++;
    if (!holds) {
        failures++;
        if (failures <= TOLD_AT_MOST) {
            printf("%s:%d: does not hold: %s\n", file, line, what);
        }
    }
}

void run_group(const char *name, void (*group)(void))
{
    checks = 0;
    failures = 0;
    group();
    const bool passed = checks > 0 && failures == 0;
    if (passed) {
        groups_passed++;
        printf("ok %s: %lu checks\n", name, checks);
    } else {
        groups_failed++;
        printf("FAILED %s: %lu of %lu checks\n", name, failures, checks);
    }
    fflush(stdout);
}

int report(void)
{
    printf("%u passed, %u failed\n", groups_passed, groups_failed);
    return groups_failed == 0 && groups_passed > 0 ? 0 : 1;
}
