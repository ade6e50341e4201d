/* What the C programs of the tests share: counts of what held and what did not, of the memory that was
 * asked for, and memory that is refused. A program is linked with
 * -Wl,--wrap=malloc,--wrap=realloc. */
#include <stdio.h>
#include <stdlib.h>

static int passed, failed;

/* The first allocation that is refused, counted from 1, with all after it; below 0, none is. */
static long allowed = -1;
/* The bytes that allocations asked for. */
static size_t asked_bytes;
void *__real_malloc(size_t size);
void *__real_realloc(void *block, size_t size);
void *__wrap_malloc(size_t size);
void *__wrap_realloc(void *block, size_t size);

static int is_refused(void)
{
    if (allowed > 0)
        allowed--;
    return allowed == 0;
}
void *__wrap_malloc(size_t size)
{
    asked_bytes += size;
    return is_refused() ? NULL : __real_malloc(size);
}
void *__wrap_realloc(void *block, size_t size)
{
    asked_bytes += size;
    return is_refused() ? NULL : __real_realloc(block, size);
}

static void expect(int holds, const char *what, const char *file, unsigned line)
{
    passed += holds;
    failed += !holds;
    if (!holds)
        printf("FAILED %s:%u: %s\n", file, line, what);
}
#define EXPECT(holds) expect((holds), #holds, __FILE__, __LINE__)
