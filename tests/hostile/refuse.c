/* Refuses memory to a program that it is loaded into (LD_PRELOAD): the allocations REFUSE_FIRST to REFUSE_LAST, counted from 1, have none.
   At the end it writes into the file REFUSE_TOLD how many allocations there were. */
#include <errno.h>
#include <stdio.h>
#include <stdlib.h>

extern void *__libc_malloc(size_t size);
extern void *__libc_realloc(void *old, size_t size);

static long count, first, last;

__attribute__((constructor)) static void begin(void)
{
    const char *text = getenv("REFUSE_FIRST");
    first = text ? atol(text) : 0;
    text = getenv("REFUSE_LAST");
    last = text ? atol(text) : first;
    count = 0;
}

static int is_refused(void)
{
    count++;
    if (count < first || count > last)
        return 0;
    errno = ENOMEM;
    return 1;
}

void *malloc(size_t size)
{
    return is_refused() ? NULL : __libc_malloc(size);
}

void *realloc(void *old, size_t size)
{
    return is_refused() ? NULL : __libc_realloc(old, size);
}

__attribute__((destructor)) static void end(void)
{
    const char *name = getenv("REFUSE_TOLD");
    long told = count;
    FILE *to;
    first = last = 0;
    if (name && (to = fopen(name, "w"))) {
        fprintf(to, "%ld\n", told);
        fclose(to);
    }
}
