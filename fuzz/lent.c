#define _GNU_SOURCE
#include "lent.h"

#include <string.h>
#include <sys/mman.h>

#include "must.h"

#define PAGE 4096
#define BESIDE 192 /* bytes beside a slice that are looked at */

struct lent lent_new(size_t most)
{
    size_t inner = (most + 2 * BESIDE + PAGE - 1) / PAGE * PAGE, i;
    uint8_t *memory = mmap(NULL, inner + 2 * PAGE, PROT_NONE,
                           MAP_PRIVATE | MAP_ANONYMOUS, -1, 0);
    struct lent lent = { 0 };

    MUST(memory != MAP_FAILED);
    MUST(mprotect(memory + PAGE, inner, PROT_READ | PROT_WRITE) == 0);
    lent.low = memory + PAGE;
    lent.high = lent.low + inner;
    lent.old = malloc(inner);
    MUST(lent.old != NULL);
    /* signalling NaNs, no two of them the same */
    for (i = 0; i < inner; i += 8) {
        uint64_t word = 0x7ff4000000000001 + ((uint64_t)i << 5);

        memcpy(lent.old + i, &word, 8);
    }
    return lent;
}

/* The slice, and what lies beside it. */
static void around(const struct lent *lent, uint8_t **from, uint8_t **to)
{
    size_t before = (size_t)(lent->start - lent->low);
    size_t behind = (size_t)(lent->high - lent->start) - lent->bytes;

    *from = lent->start - (before < BESIDE ? before : BESIDE);
    *to = lent->start + lent->bytes + (behind < BESIDE ? behind : BESIDE);
}

void lend(struct lent *lent, size_t bytes, bool at_end)
{
    uint8_t *from, *to;

    MUST(bytes <= (size_t)(lent->high - lent->low));
    lent->bytes = bytes;
    lent->start = at_end ? lent->high - bytes : lent->low;
    around(lent, &from, &to);
    memcpy(from, lent->old + (from - lent->low), (size_t)(to - from));
}

void lend_filled(struct lent *lent, const void *from, size_t bytes,
                 bool at_end)
{
    lend(lent, bytes, at_end);
    if (bytes > 0)
        memcpy(lent->start, from, bytes);
}

static bool as_it_was(const struct lent *lent, const uint8_t *from,
                      const uint8_t *to)
{
    return memcmp(from, lent->old + (from - lent->low),
                  (size_t)(to - from)) == 0;
}

bool untouched(const struct lent *lent, size_t written)
{
    uint8_t *from, *to;

    around(lent, &from, &to);
    return as_it_was(lent, from, lent->start) &&
           as_it_was(lent, lent->start + written, to);
}

bool unchanged(const struct lent *lent, const void *from)
{
    return untouched(lent, lent->bytes) &&
           (lent->bytes == 0 || memcmp(lent->start, from, lent->bytes) == 0);
}
