/* Lent buffers. A touch outside one is caught by a page without rights on one side and by guard bytes on the other. */
#include <stdlib.h>
#include <string.h>
#include <sys/mman.h>

#include "differ.h"

#define PAGE 65536 /* a whole number of pages, also where a machine's pages are large */
#define GUARD_BYTES 256

void open_lent(struct lent *lent, size_t capacity)
{
    lent->capacity = (capacity + GUARD_BYTES + PAGE - 1) / PAGE * PAGE;
    unsigned char *all = mmap(NULL, lent->capacity + 2 * PAGE, PROT_NONE, MAP_PRIVATE | MAP_ANONYMOUS, -1, 0);
    if (all == MAP_FAILED || mprotect(all + PAGE, lent->capacity, PROT_READ | PROT_WRITE) != 0)
        abort();
    lent->pages = all + PAGE;
}

static int ends_at_page(const struct lent *lent)
{
    return lent->at + lent->bytes == lent->pages + lent->capacity;
}

/* Where the guard bytes of this lending lie. */
static unsigned char *guard_bytes(const struct lent *lent)
{
    return ends_at_page(lent) ? lent->at - GUARD_BYTES : lent->at + lent->bytes;
}

/* Lays the content against the first or the last page; a buffer of no bytes is NULL half of the time. */
void *lend(struct lent *lent, const void *content, size_t bytes)
{
    if (bytes + GUARD_BYTES > lent->capacity)
        abort();
    lent->bytes = bytes;
    lent->at = one_in(2) ? lent->pages : lent->pages + lent->capacity - bytes;
    lent->guard = (unsigned char)any();
    if (bytes > 0)
        memcpy(lent->at, content, bytes);
    memset(guard_bytes(lent), lent->guard, GUARD_BYTES);
    return bytes == 0 && one_in(2) ? NULL : lent->at;
}

/* Does the buffer hold just this, with every guard byte as it was? */
int holds(const struct lent *lent, const void *content)
{
    const unsigned char *guard = guard_bytes(lent);
    for (size_t i = 0; i < GUARD_BYTES; i++)
        if (guard[i] != lent->guard)
            return 0;
    return lent->bytes == 0 || memcmp(lent->at, content, lent->bytes) == 0;
}
