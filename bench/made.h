/* What the programs of bench/ share: processor time of the thread, memory, and made heights, those of `roam try LEVEL 1` as
 * docs/REFERENCE.md has them, which go on beyond its side. */
#include <stdint.h>
#include <stdio.h>
#include <stdlib.h>
#include <string.h>
#include <time.h>

static double now(void) {
    struct timespec it;
    clock_gettime(CLOCK_THREAD_CPUTIME_ID, &it);
    return (double)it.tv_sec + 1e-9 * (double)it.tv_nsec;
}
static void must(int32_t answer) { if (answer != 0) fprintf(stderr, "answer %d\n", (int)answer), exit(1); }
static void *taken(size_t size) {
    void *at = malloc(size);
    if (at == NULL) fprintf(stderr, "out of memory\n"), exit(1);
    return at;
}

static uint64_t mixed(uint64_t z) { return z * 6364136223846793005u + (z >> 32) * (z & 0xFFFFFFFFu) + 1442695040888963407u; }
static uint64_t point(uint64_t octave, uint64_t i, uint64_t j) { return mixed(mixed(mixed(octave + i) + j)) >> 48; }

/* Heights 2^q grid steps apart, 2^n + 1 a side, rows from the far side; the near left one is at (left, near), in grid steps. */
static void made_heights(unsigned level, unsigned n, unsigned q, uint64_t left, uint64_t near, uint16_t *heights) {
    uint64_t m = (uint64_t)1 << n, side = m + 1;
    memset(heights, 0, side * side * sizeof *heights);
    for (unsigned k = 0; k <= level; k++) {
        uint64_t octave = mixed(mixed(1) + k), w = (uint64_t)1 << k;
        for (uint64_t row = 0; row < side; row++) {
            uint64_t y = near + ((m - row) << q), j = y >> k, b = y & (w - 1), low = 0, high = 0, column = UINT64_MAX;
            for (uint64_t d = 0; d < side; d++) {
                uint64_t x = left + (d << q), i = x >> k, a = x & (w - 1);
                if (i != column) {
                    column = i;
                    low = point(octave, i, j) * (w - b) + point(octave, i, j + 1) * b;
                    high = point(octave, i + 1, j) * (w - b) + point(octave, i + 1, j + 1) * b;
                }
                uint16_t *it = &heights[row * side + d];
                *it = (uint16_t)(*it + ((low * (w - a) + high * a) >> 2 * k >> (level - k + 1)));
            }
        }
    }
}
