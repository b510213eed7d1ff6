/* A library for LD_PRELOAD: writes to the file that PEAK names how many bytes of the heap a process held at most, as the
   allocator counts them (malloc_usable_size). It is for one thread and glibc, whose own calls it counts. */
#include <malloc.h>
#include <stdio.h>
#include <stdlib.h>

void *__libc_malloc(size_t);
void *__libc_calloc(size_t, size_t);
void *__libc_realloc(void *, size_t);
void __libc_free(void *);

static size_t held, most;

static void *taken(void *at) {
    held += malloc_usable_size(at);
    if (held > most) most = held;
    return at;
}

void *malloc(size_t size) { return taken(__libc_malloc(size)); }

void *calloc(size_t count, size_t size) { return taken(__libc_calloc(count, size)); }

void *realloc(void *at, size_t size) {
    size_t before = malloc_usable_size(at);
    void *made = __libc_realloc(at, size);
    if (made || !size) held -= before;
    return taken(made);
}

void free(void *at) {
    held -= malloc_usable_size(at);
    __libc_free(at);
}

__attribute__((destructor)) static void tell(void) {
    const char *path = getenv("PEAK");
    FILE *file = path ? fopen(path, "w") : NULL;
    if (!file) return;
    fprintf(file, "%zu\n", most);
    fclose(file);
}
