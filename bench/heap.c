/* Preloaded before a program of one thread, adds up the sizes of the blocks of memory that it holds, as malloc has them,
   and writes the greatest sum to the file HEAP_MOST where the program ends. bench/run uses it. */
#include <fcntl.h>
#include <malloc.h>
#include <stdio.h>
#include <stdlib.h>
#include <unistd.h>

extern void *__libc_malloc(size_t);
extern void *__libc_calloc(size_t, size_t);
extern void *__libc_realloc(void *, size_t);
extern void __libc_free(void *);

static unsigned long held, most;

__attribute__((destructor)) static void end(void) {
    const char *path = getenv("HEAP_MOST");
    int file = path ? open(path, O_WRONLY | O_CREAT | O_TRUNC, 0600) : -1;
    if (file >= 0) {
        dprintf(file, "%lu\n", most);
        close(file);
    }
}

static void *taken(void *block) {
    held += malloc_usable_size(block);
    most = held > most ? held : most;
    return block;
}

void *malloc(size_t size) {
    return taken(__libc_malloc(size));
}

void *calloc(size_t count, size_t size) {
    return taken(__libc_calloc(count, size));
}

/* A growth that is refused lets go of nothing; here none is. */
void *realloc(void *old, size_t size) {
    held -= malloc_usable_size(old);
    return taken(__libc_realloc(old, size));
}

void free(void *block) {
    held -= malloc_usable_size(block);
    __libc_free(block);
}
