/* What the tests of this folder share: the count of checks. */
#ifndef CHECK_H
#define CHECK_H

#include <stdio.h>

/* How many checks held and how many did not. */
static int passed, failed;

/* Counts one check, and names it if it does not hold. */
static void check(const char *name, int holds)
{
    if (holds) {
        passed++;
    } else {
        failed++;
        printf("failed: %s\n", name);
    }
}

/* Says how many checks held; the program's status. */
static int ended(void)
{
    printf("%d passed, %d failed\n", passed, failed);
    return failed == 0 ? 0 : 1;
}

#endif
