/* Refuses one allocation of a program: the one whose number, from 1, is in REFUSE_NUMBER.

With REFUSE_AFTER=1 all later ones are refused too. A byte goes to the descriptor REFUSE_MARK when an
allocation is refused, so that the caller knows whether the number was reached. Built and preloaded by
refuse_memory.py. */
#include <errno.h>
#include <stdatomic.h>
#include <stdlib.h>
#include <unistd.h>

static atomic_long asked;
static long refused_number = -1;
static int after, mark = -1;

static long number_in(const char *name, long absent)
{
    const char *text = getenv(name);
    return text ? strtol(text, NULL, 10) : absent;
}

__attribute__((constructor)) static void begin(void)
{
    after = number_in("REFUSE_AFTER", 0) != 0;
    mark = (int)number_in("REFUSE_MARK", -1);
    atomic_store(&asked, 0);
    refused_number = number_in("REFUSE_NUMBER", -1);
}

/* Whether the allocation that is asked now is to be refused. */
static int refuse(void)
{
    if (refused_number < 0)
        return 0;
    long number = atomic_fetch_add(&asked, 1) + 1;
    if (number != refused_number && !(after && number > refused_number))
        return 0;
    if (write(mark, "r", 1) < 0) { /* no mark was asked for */ }
    errno = ENOMEM;
    return 1;
}

extern void *__libc_malloc(size_t);
extern void *__libc_calloc(size_t, size_t);
extern void *__libc_realloc(void *, size_t);
extern void *__libc_memalign(size_t, size_t);

void *malloc(size_t size) { return refuse() ? NULL : __libc_malloc(size); }
void *calloc(size_t count, size_t size) { return refuse() ? NULL : __libc_calloc(count, size); }
void *realloc(void *old, size_t size) { return refuse() ? NULL : __libc_realloc(old, size); }
void *aligned_alloc(size_t align, size_t size) { return refuse() ? NULL : __libc_memalign(align, size); }

int posix_memalign(void **out, size_t align, size_t size)
{
    void *got = refuse() ? NULL : __libc_memalign(align, size);
    if (got)
        *out = got;
    return got ? 0 : ENOMEM;
}
