/* The heap of heap.c, which counts what it has given out: for one file of a program of bench/. */
#include <malloc.h>
#include <stdbool.h>
#include <stdlib.h>

struct block { bool is_there; void *at; };
static size_t held, most_held;
static char nothing;
static struct block told(void *at) {
    struct block it = { at != NULL, at != NULL ? at : &nothing };
    if (at != NULL) held += malloc_usable_size(at);
    if (held > most_held) most_held = held;
    return it;
}
struct block rattle_alloc(size_t size, size_t align) { return told(malloc(size != 0 ? size : align)); }
struct block rattle_realloc(void *at, size_t size, size_t next, size_t align) {
    (void)size;
    held -= malloc_usable_size(at);
    void *moved = realloc(at, next != 0 ? next : align);
    if (moved == NULL) held += malloc_usable_size(at);
    return told(moved);
}
void rattle_dealloc(void *at) { held -= malloc_usable_size(at), free(at); }
