/* What programs of random calls share: a heap that counts its blocks and fails, the numbers, what a call has to answer, and `main`.
 * Who includes it has the enum of the calls, its last one CALLS, and their names, and defines the functions declared here. */
#include "roam.h"
#include <stdbool.h>
#include <stdio.h>
#include <stdlib.h>
#include <string.h>

/* --- The heap, which counts its blocks and fails where it is told to. --- */

struct block { bool is_there; void *at; };
static long blocks, left = -1; /* left: allocations that succeed before one fails; -1: all */
static bool has_failed;
static char nothing;

static struct block told(void *at) { struct block it = { at != NULL, at != NULL ? at : &nothing }; return it; }
static bool fails(void) {
    if (left != 0) { left -= left > 0; return false; }
    return has_failed = true;
}
struct block rattle_alloc(size_t size, size_t align) {
    void *at = fails() ? NULL : malloc(size != 0 ? size : align);
    blocks += at != NULL;
    return told(at);
}
struct block rattle_realloc(void *at, size_t size, size_t next, size_t align) {
    (void)size;
    return told(fails() ? NULL : realloc(at, next != 0 ? next : align));
}
void rattle_dealloc(void *at) { blocks--, free(at); }

/* --- The numbers. --- */

static uint64_t seed;
static const uint8_t *bytes; /* where there are bytes, numbers are drawn from them */
static size_t byte_count;

static uint64_t word(void) {
    if (bytes != NULL) {
        uint64_t it = 0;
        for (int k = 0; k < 8 && byte_count > 0; k++, byte_count--) it = it << 8 | *bytes++;
        return it;
    }
    uint64_t it = seed += 0x9E3779B97F4A7C15u;
    it = (it ^ it >> 30) * 0xBF58476D1CE4E5B9u;
    it = (it ^ it >> 27) * 0x94D049BB133111EBu;
    return it ^ it >> 31;
}
static size_t below(size_t end) {
    if (bytes == NULL || end > 256) return (size_t)(word() % end);
    return byte_count > 0 ? (byte_count--, *bytes++) % end : 0;
}

/* --- What a call has to answer. --- */

static unsigned long made[CALLS], refused[CALLS][ROAM_NOT_THERE + 1];
static int call; /* the one that is being made */

static void must(bool holds, const char *what) {
    if (holds) return;
    fprintf(stderr, "calls: roam_%s: %s\n", names[call], what);
    abort();
}
static void answers(int32_t answer, int32_t wanted) {
    made[call]++;
    if (answer >= 0 && answer <= ROAM_NOT_THERE) refused[call][answer]++;
    if (answer == wanted) return;
    fprintf(stderr, "calls: roam_%s answers %d, not %d\n", names[call], (int)answer, (int)wanted);
    abort();
}

static void fill(void *at, size_t size) { memset(at, 0xA5, size); }
static bool is_filled(const void *at, size_t size) {
    const uint8_t *byte = at;
    return size == 0 || (byte[0] == 0xA5 && memcmp(byte, byte + 1, size - 1) == 0);
}

/* Whether memory ran out during a call that takes some. */
static int32_t or_no_memory(int32_t wanted) { left = -1; return wanted == ROAM_OK && has_failed ? ROAM_NO_MEMORY : wanted; }
/* The answer of a call that takes no memory: it has none. */
#define WITHOUT_MEMORY(made) (left = 0, has_failed = false, none_was_asked(made))
static inline int32_t none_was_asked(int32_t answer) {
    left = -1;
    must(!has_failed, "a call asks for memory that takes none");
    return answer;
}

/* The answer of a call that opens a handle: where it is refused, no more memory is held than before. */
#define OPENED(made, wanted) (held_before = blocks, has_failed = false, is_as_opened(made, wanted))
static long held_before;
static inline int32_t is_as_opened(int32_t answer, int32_t wanted) {
    answers(answer, or_no_memory(wanted));
    must(answer == ROAM_OK || blocks == held_before, "a refused call has left memory behind");
    return answer;
}

/* The points of a side of a grid of this level, and the number of the level of a grid of so many heights, or 0. */
static size_t side_of(unsigned n) { return ((size_t)1 << n) + 1; }
static unsigned level_of(size_t count) {
    for (unsigned n = 1; n <= 14; n++) if (count == side_of(n) * side_of(n)) return n;
    return 0;
}

static inline bool is_within(int64_t a, int64_t end) { return -end <= a && a <= end; }
static inline bool is_place(int64_t x, int64_t y, int64_t z) {
    const int64_t end = (int64_t)1 << 30;
    return is_within(x, end) && is_within(y, end) && is_within(z, end);
}
static inline bool is_plane(const roam_plane *p) {
    const int64_t slope = (int64_t)1 << 20, offset = (int64_t)1 << 50;
    return is_within(p->a, slope) && is_within(p->b, slope) && is_within(p->c, slope) && is_within(p->d, offset);
}
/* What a call that takes the planes of an engine or a world has to answer. */
static inline int32_t wanted_look(bool is_open, const roam_plane *planes, size_t count) {
    bool are_planes = true;
    for (size_t k = 0; k < count; k++) are_planes &= is_plane(&planes[k]);
    return !is_open ? ROAM_IS_EMPTY : !are_planes ? ROAM_BAD_PLANE : count > 6 ? ROAM_TOO_MANY_PLANES : ROAM_OK;
}

/* --- Arguments at the ends of their ranges. --- */

#define OF(table) (table)[below(sizeof(table) / sizeof *(table))]

static uint32_t number(uint32_t end) {
    const uint32_t ends[] = { 0, 1, 2, end - 1, end, end + 1, (uint32_t)INT32_MAX, (uint32_t)INT32_MAX + 1, UINT32_MAX };
    return below(4) == 0 ? OF(ends) : (uint32_t)below((size_t)end + 1);
}

/* Heights of a few values, and now and then some that are drawn anew. */
static void begin_heights(uint16_t *height, size_t count) { for (size_t k = 0; k < count; k++) height[k] = (uint16_t)(k * 7919 % 211); }
static void draw_heights(uint16_t *height, size_t count) {
    const unsigned rough = (unsigned)below(17);
    for (size_t k = 0; k < count && below(4) == 0; k++) height[below(count)] = (uint16_t)((word() & 0xFFFF) >> rough);
}

/* --- The program: until each call was made so often, what random calls do not come to, or the numbers of libFuzzer. --- */

static void start(void);
static void step(void);
static void close_all(void);
static void test_ends(void);

static void finish(void) {
    close_all();
    must(blocks == 0, "blocks are left when all is closed");
}

#ifdef FUZZER
int LLVMFuzzerTestOneInput(const uint8_t *data, size_t size) {
    bytes = data, byte_count = size;
    start();
    while (byte_count > 0) step();
    finish();
    return 0;
}
#else
static void make_each(unsigned long wanted) {
    for (int k = 0; k < CALLS;) {
        step();
        while (k < CALLS && made[k] >= wanted) k++;
    }
}
static void tell_all(void) {
    for (int k = 0; k < CALLS; k++) {
        printf("%s %lu", names[k], made[k]);
        for (int a = 1; a <= ROAM_NOT_THERE; a++) if (refused[k][a] > 0) printf(" %d:%lu", a, refused[k][a]);
        printf("\n");
    }
    printf("each answer is the one that roam.h says\n");
}

int main(int argc, char **argv) {
    const bool is_of_ends = argc == 2 && strcmp(argv[1], "ends") == 0;
    if (!is_of_ends && argc != 3) return fprintf(stderr, "usage: %s SEED COUNT, or %s ends\n", argv[0], argv[0]), 2;
    start();
    if (is_of_ends) test_ends();
    else seed = strtoull(argv[1], NULL, 10), make_each(strtoul(argv[2], NULL, 10));
    finish();
    if (!is_of_ends) tell_all();
    return 0;
}
#endif
