/* The heap of libroam: all memory that it asks for, it asks of these three functions, and only in roam_open, roam_fitter_open,
 * roam_mosaic_open, roam_page_make, roam_world_open and roam_world_unload, and in roam_strip, roam_fit, roam_fit_with and
 * roam_certificate, which give it back.
 * A program that defines all three itself brings its own allocator, and this file is then not linked out of libroam.a.
 * Blocks come from one allocator, aligned to each power of two up to 16 that divides their size, and may be given back on
 * another thread. */
#include <stdbool.h>
#include <stddef.h>
#include <stdlib.h>

struct block { bool is_there; void *at; };

/* Where no memory is to be had, `at` is the address of something all the same: it is never null. */
static char nothing;
static struct block told(void *at) { struct block it = { at != NULL, at != NULL ? at : &nothing }; return it; }

struct block rattle_alloc(size_t size, size_t align) { return told(malloc(size != 0 ? size : align)); }
struct block rattle_realloc(void *at, size_t size, size_t next, size_t align) {
    (void)size;
    return told(realloc(at, next != 0 ? next : align));
}
void rattle_dealloc(void *at) { free(at); }
