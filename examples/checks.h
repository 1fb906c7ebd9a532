/* Counts what is checked, and says each. */
#ifndef CHECKS_H
#define CHECKS_H

#include <stddef.h>
#include <stdio.h>

static size_t good, bad;

static void check(int holds, const char *tells)
{
    printf("%s %s\n", holds ? "good " : "WRONG", tells);
    good += holds ? 1 : 0;
    bad += holds ? 0 : 1;
}

/* The last line, and the exit status. */
static int checks_end(void)
{
    printf("%lu of %lu as the header says\n", (unsigned long)good, (unsigned long)(good + bad));
    return bad == 0 ? 0 : 1;
}

#endif
