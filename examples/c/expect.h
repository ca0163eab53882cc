/* What a test looks at: each difference is printed and counted. It stands in the one file of a program that has `main`,
 * whose status is to be 1 where there is one. */
#ifndef EXPECT_H
#define EXPECT_H

#include <stdio.h>

static unsigned differences;

/* Compares what was seen with what is wanted. */
static void expect(const char *what, unsigned seen, unsigned wanted)
{
    if (seen == wanted)
        return;
    printf("  %s: %X, not %X\n", what, seen, wanted);
    differences++;
}

#endif
