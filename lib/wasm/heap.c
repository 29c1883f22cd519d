/* The heap inside the WebAssembly module, over memory that grows: what lib/heap.c asks of malloc, and rooms for JavaScript. It
 * imports nothing.
 *
 * Blocks lie side by side, each behind a header of 16 bytes with its size and that of the block below it, so that free neighbours are
 * joined at once. Free blocks stand in lists by powers of two; the first that fits is taken and cut. Memory is never given back to
 * the host. The module is translated to addresses of 32 bits (wasm-opt --memory64-lowering), and this is written for both widths. */
typedef unsigned long long u64;
typedef _Bool bool;

struct block {
    u64 size;  /* with the header, a multiple of 16; the lowest bit says that it is taken */
    u64 below; /* the size of the block below it; 0 at the first one */
};
struct free_block {
    struct block head;
    struct free_block *next, *previous;
};
struct answer {
    bool is_there;
    void *at;
};

#define PAGE 65536ull
#define MOST_PAGES 65536ull /* 4 GiB: what addresses of 32 bits reach */
#define STEP 16ull          /* pages that memory grows by at least */
#define LARGEST (1ull << 46)
enum { HEADER = 16, LEAST = sizeof(struct free_block), BINS = 44 };

extern char __heap_base;
static struct free_block *bins[BINS];
static u64 start, end; /* of the blocks; a header of size 0 stands at the end */
static char nothing;

static u64 size_of(const struct block *b) { return b->size & ~1ull; }
static bool is_taken(const struct block *b) { return b->size & 1; }
static struct block *at(void *place, long long by) { return (struct block *)((char *)place + by); }
static struct block *above(struct block *b) { return at(b, (long long)size_of(b)); }
static int bin_of(u64 size) {
    int k = 59 - __builtin_clzll(size);
    return k < BINS ? k : BINS - 1;
}
static u64 whole(u64 bytes) { /* the size of a block with room for so many bytes */
    u64 size = (bytes + HEADER + 15) & ~15ull;
    return size < LEAST ? LEAST : size;
}

static void mark(struct block *b, u64 size, bool taken) {
    b->size = size | taken;
    at(b, (long long)size)->below = size;
}

static void enlist(struct free_block *it) {
    struct free_block **bin = &bins[bin_of(size_of(&it->head))];
    it->previous = 0;
    it->next = *bin;
    if (*bin) (*bin)->previous = it;
    *bin = it;
}

static void delist(struct free_block *it) {
    if (it->previous) it->previous->next = it->next;
    else bins[bin_of(size_of(&it->head))] = it->next;
    if (it->next) it->next->previous = it->previous;
}

/* A taken block becomes free, and one with its free neighbours. */
static void release(struct block *b) {
    u64 size = size_of(b);
    struct block *next = above(b);
    if (!is_taken(next) && size_of(next)) {
        delist((struct free_block *)next);
        size += size_of(next);
    }
    if (b->below) {
        struct block *low = at(b, -(long long)b->below);
        if (!is_taken(low)) {
            delist((struct free_block *)low);
            size += size_of(low);
            b = low;
        }
    }
    mark(b, size, 0);
    enlist((struct free_block *)b);
}

/* Of a taken block what is beyond this size becomes free, if it is a block. */
static void cut(struct block *b, u64 size) {
    u64 rest = size_of(b) - size;
    if (rest < LEAST) return;
    mark(b, size, 1);
    mark(above(b), rest, 1);
    release(above(b));
}

/* With addresses of 32 bits the count is cut to 32 bits, and a refusal is 2^32 - 1. */
static bool lengthen(u64 pages) {
    if (pages > MOST_PAGES || __builtin_wasm_memory_size(0) + pages > MOST_PAGES) return 0;
    return (__builtin_wasm_memory_grow(0, pages) & 0xFFFFFFFF) != 0xFFFFFFFF;
}

/* The memory from `start` on becomes a free block, with a header of size 0 behind it. */
static bool begin(void) {
    u64 first = ((u64)&__heap_base + 15) & ~15ull;
    if (__builtin_wasm_memory_size(0) * PAGE < first + HEADER + LEAST && !lengthen(1)) return 0;
    start = first;
    end = __builtin_wasm_memory_size(0) * PAGE - HEADER;
    struct block *b = (struct block *)start;
    b->below = 0;
    mark(b, end - start, 1);
    ((struct block *)end)->size = 0;
    release(b);
    return 1;
}

/* Memory grows until a free block of this size is at its end. */
static bool grow(u64 size) {
    if (!start) return begin();
    struct block *last = (struct block *)end, *low = at(last, -(long long)last->below);
    u64 have = is_taken(low) ? 0 : size_of(low), pages = (size - have + PAGE - 1) / PAGE;
    if (pages < STEP && lengthen(STEP)) pages = STEP;
    else if (!lengthen(pages)) return 0;
    end += pages * PAGE;
    mark(last, pages * PAGE, 1);
    ((struct block *)end)->size = 0;
    release(last);
    return 1;
}

static struct free_block *found(u64 size) {
    for (int k = bin_of(size); k < BINS; k++)
        for (struct free_block *it = bins[k]; it; it = it->next)
            if (size_of(&it->head) >= size) return it;
    return 0;
}

static void *take(u64 bytes) {
    if (bytes >= LARGEST) return 0;
    u64 size = whole(bytes);
    struct free_block *it;
    while (!(it = found(size)))
        if (!grow(size)) return 0;
    delist(it);
    it->head.size |= 1;
    cut(&it->head, size);
    return (char *)it + HEADER;
}

static void give(void *place) {
    if (place) release(at(place, -HEADER));
}

static void *resize(void *place, u64 kept, u64 bytes) {
    if (bytes >= LARGEST) return 0;
    struct block *b = at(place, -HEADER), *next = above(b);
    u64 size = whole(bytes);
    if (size_of(b) < size && !is_taken(next) && size_of(b) + size_of(next) >= size) {
        delist((struct free_block *)next);
        mark(b, size_of(b) + size_of(next), 1);
    }
    if (size_of(b) >= size) {
        cut(b, size);
        return place;
    }
    void *to = take(bytes);
    if (!to) return 0;
    __builtin_memcpy(to, place, kept < bytes ? kept : bytes);
    give(place);
    return to;
}

static struct answer told(void *place) {
    struct answer it = { place != 0, place ? place : &nothing };
    return it;
}
struct answer rattle_alloc(u64 size, u64 align) { return told(take(size ? size : align)); }
struct answer rattle_realloc(void *place, u64 size, u64 next, u64 align) { return told(resize(place, size, next ? next : align)); }
void rattle_dealloc(void *place) { give(place); }

/* For JavaScript: rooms for arguments and answers; 0 where there is none. */
__attribute__((export_name("take"))) void *js_take(u64 size) { return take(size); }
__attribute__((export_name("give"))) void js_give(void *place) { give(place); }
