/* Memory whose last byte is directly followed by a page that may not be touched, so that an access
 * of one byte too many ends the program. The page before it is filled with a pattern, so that a byte
 * written too early shows. For Linux. */
#ifndef GUARDED_H
#define GUARDED_H

#include <stdint.h>
#include <stdio.h>
#include <stdlib.h>
#include <string.h>
#include <sys/mman.h>
#include <unistd.h>

enum { GUARD_FILL = 0xA7 };

struct guarded {
    uint8_t *page;
    size_t page_length;
    uint8_t *bytes; /* the last bytes of the page */
    size_t length;
};

static void guarded_demand(int holds, const char *what)
{
    if (!holds) {
        perror(what);
        exit(2);
    }
}

/* The second page is kept and barred, not given back: another mapping could take its place. */
static struct guarded guarded_bytes(size_t length)
{
    struct guarded made;

    made.page_length = (size_t)sysconf(_SC_PAGESIZE);
    made.length = length;
    if (length > made.page_length) {
        fputs("more than a page\n", stderr);
        exit(2);
    }
    made.page = mmap(NULL, 2 * made.page_length, PROT_READ | PROT_WRITE, MAP_PRIVATE | MAP_ANONYMOUS, -1, 0);
    guarded_demand(made.page != MAP_FAILED, "mmap");
    guarded_demand(mprotect(made.page + made.page_length, made.page_length, PROT_NONE) == 0, "mprotect");
    memset(made.page, GUARD_FILL, made.page_length);
    made.bytes = made.page + made.page_length - length;
    return made;
}

static struct guarded guarded_read_only_copy(const uint8_t *bytes, size_t length)
{
    struct guarded made = guarded_bytes(length);

    memcpy(made.bytes, bytes, length);
    guarded_demand(mprotect(made.page, made.page_length, PROT_READ) == 0, "mprotect");
    return made;
}

/* Whether these bytes stand at the start of what was lent, and every other byte is as it was. */
static inline int guarded_holds_only(const struct guarded *lent, const uint8_t *bytes, size_t length)
{
    for (const uint8_t *at = lent->page; at < lent->bytes; at++)
        if (*at != GUARD_FILL)
            return 0;
    for (size_t i = length; i < lent->length; i++)
        if (lent->bytes[i] != GUARD_FILL)
            return 0;
    return length == 0 || memcmp(lent->bytes, bytes, length) == 0;
}

static void guarded_release(const struct guarded *made)
{
    guarded_demand(munmap(made->page, 2 * made->page_length) == 0, "munmap");
}

#endif
