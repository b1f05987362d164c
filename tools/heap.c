/* The heap of the proved code: the C library's. A request that succeeds gives a pointer that isn't null, and so does one that fails, which
 * `succeeded` alone tells apart. `succeeded` fills a register of its own, and the pointer the next one. */
#include <stddef.h>
#include <stdint.h>
#include <stdlib.h>

struct attempt {
    uint64_t succeeded;
    void *block;
};

static char nothing[16];

static struct attempt attempt_of(void *block)
{
    struct attempt found = { block != NULL, block != NULL ? block : nothing };
    return found;
}

/* Allocates `size` bytes, or as many as `align` where that is 0. The C library aligns to 16, the most that is asked for. */
struct attempt rattle_alloc(size_t size, size_t align)
{
    return attempt_of(malloc(size != 0 ? size : align));
}

struct attempt rattle_realloc(void *block, size_t kept, size_t size, size_t align)
{
    (void)kept;
    return attempt_of(realloc(block, size != 0 ? size : align));
}

void rattle_dealloc(void *block)
{
    free(block);
}
