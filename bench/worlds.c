/* What a world of the C library costs on a flight over made heights, with pages that come and go around the camera, and what
 * the same flight costs an engine over one grid: in processor time of the thread, of three flights the one of the least mean.
 * usage: worlds pages N LARGE RING BUDGET STEP FRAMES    a terrain of 2^LARGE grid steps a side; of each resolution those pages
 *                                                        of 2^N grid steps a side that are up to RING columns and rows away
 *        worlds alone N N 0 BUDGET STEP FRAMES           an engine over a grid of 2^N grid steps a side
 * A line has milliseconds of the first frame and of those behind it (mean, median, worst, and the worst behind a load),
 * evaluations and changes a frame, loads and unloads with the milliseconds of each (mean, worst), the milliseconds of a page's
 * making, the bytes of a page, and those that the world or the engine takes, also for each triangle of the budget. */
#define _POSIX_C_SOURCE 200809L
#include "counted_heap.h"
#include "made.h"
#include "roam.h"
#include <math.h>

enum { SPACING = 30, OCTAVES = 11, FINEST = 8, ACROSS = 1 << (FINEST - 1) };
static unsigned n, large, top, ring;
static uint32_t budget;
static int64_t step, frames, camera[3];
static roam_world world = ROAM_EMPTY;
static roam_handle engine = ROAM_EMPTY;
static bool is_loaded[FINEST][ACROSS][ACROSS]; /* by resolution, row and column */
static uint16_t *made[FINEST][ACROSS][ACROSS]; /* the heights of pages, kept from flight to flight */

struct times { double sum, worst; long count; };
static struct measured {
    struct times frame, behind_load, load, unload, make;
    double median, first;
    uint64_t evaluations, changes, triangles;
    size_t page_bytes, bytes;
} seen;
static void add(struct times *it, double ms) { it->sum += ms, it->count++; if (ms > it->worst) it->worst = ms; }
static double mean(const struct times *it) { return it->count == 0 ? 0 : it->sum / (double)it->count; }
static double since(double start) { return 1000 * (now() - start); }

/* A gentle curve through the middle of the terrain. */
static void move_to(int64_t frame) {
    int64_t width = (int64_t)SPACING << large, way = step * frame;
    camera[0] = width / 2 - step * frames / 2 + way;
    camera[1] = width / 2 + 700 + (int64_t)(sin((double)way / 60000) * 20000);
    camera[2] = 40000;
}

static bool is_near(unsigned q, int64_t column, int64_t row) {
    int64_t width = ((int64_t)SPACING << q) << n, right = column - camera[0] / width, up = row - camera[1] / width;
    return q == top || (-(int64_t)ring <= right && right <= (int64_t)ring && -(int64_t)ring <= up && up <= (int64_t)ring);
}

static size_t points(void) { return (((size_t)1 << n) + 1) * (((size_t)1 << n) + 1); }
static const uint16_t *heights_of(unsigned q, uint32_t column, uint32_t row) {
    uint16_t **it = &made[q][row][column];
    if (*it == NULL) {
        *it = taken(points() * sizeof **it);
        made_heights(OCTAVES, n, q, ((uint64_t)column << n) << q, ((uint64_t)row << n) << q, *it);
    }
    return *it;
}
static roam_page made_page(unsigned q, uint32_t column, uint32_t row) {
    const uint16_t *heights = heights_of(q, column, row);
    size_t before = held;
    roam_page page = ROAM_EMPTY;
    double start = now();
    must(roam_page_make(&page, heights, points()));
    add(&seen.make, since(start));
    seen.page_bytes = held - before;
    return page;
}

/* Lets a page come or go, if it has to; answers whether it came. */
static bool visit(unsigned q, uint32_t column, uint32_t row, bool is_coming) {
    bool *it = &is_loaded[q][row][column], wanted = is_near(q, column, row);
    if (*it == wanted || wanted != is_coming) return false;
    roam_page page = ROAM_EMPTY;
    if (is_coming) page = made_page(q, column, row);
    double start = now();
    must(is_coming ? roam_world_load(&world, q, column, row, &page) : roam_world_unload(&world, q, column, row, &page));
    add(is_coming ? &seen.load : &seen.unload, since(start));
    if (!is_coming) must(roam_page_drop(&page));
    *it = wanted;
    return is_coming;
}

/* The finest pages go first and come last. Answers how many came. */
static long turn_pages(void) {
    long come = 0;
    for (unsigned k = 0; k < 2 * top; k++) {
        unsigned q = k < top ? k : 2 * top - 1 - k;
        uint32_t squares = (uint32_t)1 << (top - q);
        for (uint32_t row = 0; row < squares; row++)
            for (uint32_t column = 0; column < squares; column++) come += visit(q, column, row, k >= top);
    }
    return come;
}

static void count(uint64_t evaluations, uint32_t splits, uint32_t merges, uint32_t triangles) {
    seen.evaluations += evaluations, seen.changes += (uint64_t)splits + merges, seen.triangles = triangles;
}
static double world_frame(void) {
    roam_world_note note;
    double start = now();
    must(roam_world_camera(&world, camera[0], camera[1], camera[2]));
    must(roam_world_frame(&world, &note));
    start = since(start);
    count(note.evaluations, note.splits, note.merges, note.triangles);
    return start;
}
static double engine_frame(void) {
    roam_frame_note note;
    roam_state_note before, after;
    must(roam_state(&engine, &before));
    double start = now();
    must(roam_camera(&engine, camera[0], camera[1], camera[2]));
    must(roam_frame(&engine, &note));
    start = since(start);
    must(roam_state(&engine, &after));
    count(after.evaluations - before.evaluations, note.splits, note.merges, note.triangles);
    return start;
}

static void open_all(bool has_pages) {
    size_t before = held;
    if (has_pages) {
        roam_page page = made_page(top, 0, 0);
        before = held;
        must(roam_world_open(&world, &page, large, budget, SPACING));
        memset(is_loaded, 0, sizeof is_loaded);
        is_loaded[top][0][0] = true;
    } else {
        must(roam_open(&engine, heights_of(0, 0, 0), points(), budget, SPACING));
    }
    seen.bytes = held - before;
}

static int by_size(const void *a, const void *b) {
    double x = *(const double *)a, y = *(const double *)b;
    return (x > y) - (x < y);
}
static void fly(bool has_pages) {
    double *frame = taken((size_t)frames * sizeof *frame);
    memset(&seen, 0, sizeof seen);
    open_all(has_pages);
    move_to(0);
    if (has_pages) turn_pages();
    seen.first = has_pages ? world_frame() : engine_frame();
    memset(&seen.load, 0, sizeof seen.load), seen.evaluations = seen.changes = 0;
    for (int64_t k = 0; k < frames; k++) {
        move_to(k + 1);
        long come = has_pages ? turn_pages() : 0;
        frame[k] = has_pages ? world_frame() : engine_frame();
        add(&seen.frame, frame[k]);
        if (come > 0) add(&seen.behind_load, frame[k]);
    }
    qsort(frame, (size_t)frames, sizeof *frame, by_size);
    seen.median = frame[frames / 2];
    must(has_pages ? roam_world_close(&world) : roam_close(&engine));
    free(frame);
}

static void print(const char *kind) {
    printf("%s triangles %lu first %.2f mean %.3f median %.3f worst %.3f behind_load %.3f evaluations %.0f changes %.0f ",
           kind, (unsigned long)seen.triangles, seen.first, mean(&seen.frame), seen.median, seen.frame.worst,
           seen.behind_load.worst, (double)seen.evaluations / (double)frames, (double)seen.changes / (double)frames);
    printf("loads %ld load %.4f load_worst %.4f unloads %ld unload %.4f unload_worst %.4f ", seen.load.count, mean(&seen.load),
           seen.load.worst, seen.unload.count, mean(&seen.unload), seen.unload.worst);
    printf("make %.2f page %zu bytes %zu a_triangle %.1f\n", mean(&seen.make), seen.page_bytes, seen.bytes,
           (double)seen.bytes / budget);
}

int main(int argc, char **argv) {
    bool has_pages = argc == 8 && strcmp(argv[1], "pages") == 0;
    if (!has_pages && !(argc == 8 && strcmp(argv[1], "alone") == 0))
        return fprintf(stderr, "usage: worlds pages|alone N LARGE RING BUDGET STEP FRAMES\n"), 2;
    n = (unsigned)atoi(argv[2]), large = (unsigned)atoi(argv[3]), ring = (unsigned)atoi(argv[4]);
    budget = (uint32_t)atol(argv[5]), step = atol(argv[6]), frames = atol(argv[7]);
    if (n < 1 || n > large || large > 14 || large - n >= FINEST || frames < 1) return 2;
    top = large - n;
    struct measured best = { 0 };
    for (int k = 0; k < 3; k++) {
        fly(has_pages);
        if (k == 0 || seen.frame.sum < best.frame.sum) best = seen;
    }
    seen = best;
    print(argv[1]);
    return 0;
}
