/* Refuses one request for memory. Preloaded into a program, it counts the requests that are made from the start of `main`
 * to its end, and answers that there is no memory to the one whose number the environment variable REFUSED has; with 0
 * to none. With a `+` behind the number it refuses all from that one on. When `main` has returned, the number of requests,
 * that of refusals and how many of these were of requests that shrink a block are written to file descriptor 3, as
 * `ASKED REFUSED SHRINKS` and a newline. For glibc. */
#define _GNU_SOURCE
#include <dlfcn.h>
#include <errno.h>
#include <stddef.h>
#include <stdint.h>
#include <stdio.h>
#include <stdlib.h>
#include <string.h>
#include <unistd.h>

typedef int main_function(int, char **, char **);
typedef int start_function(main_function *, int, char **, void (*)(void), void (*)(void), void (*)(void), void *);

extern void *__libc_malloc(size_t);
extern void *__libc_calloc(size_t, size_t);
extern void *__libc_realloc(void *, size_t);
extern void *__libc_memalign(size_t, size_t);

static main_function *program;
static int counts, all_after;
static unsigned long chosen, asked, refused, shrinks;

/* How large each block was asked to be, by its address. A block that is freed stays noted until another one is there. So few
 * are noted that a free place is always found. */
enum { PLACES = 1 << 20, MOST_NOTED = PLACES / 2 };

static struct block {
    void *at;
    size_t size;
} blocks[PLACES];
static unsigned long noted;

/* Where a block is noted, or would be. */
static struct block *place_of(void *at)
{
    size_t place = ((uintptr_t)at >> 4) * 2654435761u % PLACES;

    while (blocks[place].at != NULL && blocks[place].at != at)
        place = (place + 1) % PLACES;
    return &blocks[place];
}

/* Notes how large a block was asked to be, if there is one. */
static void *sized(void *at, size_t size)
{
    struct block *block;

    if (!counts || at == NULL)
        return at;
    block = place_of(at);
    if (block->at == NULL && noted == MOST_NOTED)
        return at;
    noted += block->at == NULL;
    *block = (struct block){ at, size };
    return at;
}

/* Counts a request, and says whether it is refused. */
static int refuses(void)
{
    if (!counts)
        return 0;
    asked++;
    if (chosen == 0 || (all_after ? asked < chosen : asked != chosen))
        return 0;
    refused++;
    errno = ENOMEM;
    return 1;
}

void *malloc(size_t size)
{
    return refuses() ? NULL : sized(__libc_malloc(size), size);
}

void *calloc(size_t count, size_t size)
{
    return refuses() ? NULL : sized(__libc_calloc(count, size), count * size);
}

void *realloc(void *memory, size_t size)
{
    if (!refuses())
        return sized(__libc_realloc(memory, size), size);
    shrinks += memory != NULL && place_of(memory)->at == memory && size < place_of(memory)->size;
    return NULL;
}

void *aligned_alloc(size_t alignment, size_t size)
{
    return refuses() ? NULL : sized(__libc_memalign(alignment, size), size);
}

int posix_memalign(void **memory, size_t alignment, size_t size)
{
    void *made = refuses() ? NULL : sized(__libc_memalign(alignment, size), size);
    if (made == NULL)
        return ENOMEM;
    *memory = made;
    return 0;
}

static int counted(int argc, char **argv, char **environment)
{
    char told[80];
    const char *number = getenv("REFUSED");
    int status, length;

    if (number != NULL) {
        chosen = strtoul(number, NULL, 10);
        all_after = strchr(number, '+') != NULL;
    }
    counts = 1;
    status = program(argc, argv, environment);
    counts = 0;
    length = snprintf(told, sizeof told, "%lu %lu %lu\n", asked, refused, shrinks);
    if (write(3, told, length) != length)
        return 120;
    return status;
}

int __libc_start_main(main_function *main, int argc, char **argv, void (*init)(void), void (*fini)(void),
                      void (*loader_fini)(void), void *stack_end)
{
    start_function *start = (start_function *)dlsym(RTLD_NEXT, "__libc_start_main");

    program = main;
    return start(counted, argc, argv, init, fini, loader_fini, stack_end);
}
