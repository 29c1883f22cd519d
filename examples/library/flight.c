/* A flight over a grid, in which each mesh is tested by code that shares nothing with the library: the areas of its triangles
 * sum to that of the square, all turn the same way, no vertex lies inside an edge, and what roam_changes tells of two frames
 * leads from the one to the other.
 * usage: flight GRID.pgm BUDGET SPACING FRAMES      (a raw PGM of two-byte samples) */
#include "roam.h"
#include <stdio.h>
#include <stdlib.h>
#include <string.h>

static void must(int holds, const char *what) {
    if (holds) return;
    fprintf(stderr, "flight: %s\n", what);
    exit(1);
}

static void *room(size_t count, size_t size) {
    void *it = calloc(count, size);
    must(it != NULL, "out of memory");
    return it;
}

static uint16_t *read_grid(const char *name, size_t *side) {
    unsigned width = 0, height = 0, greatest = 0;
    FILE *file = fopen(name, "rb");
    must(file != NULL, "the grid cannot be opened");
    must(fscanf(file, "P5 %u %u %u", &width, &height, &greatest) == 3 && greatest > 255 && fgetc(file) != EOF, "no raw grid of two-byte samples");
    must(width == height && width <= 2049, "not as wide as high");
    *side = width;
    uint16_t *heights = room(*side * *side, sizeof *heights);
    for (size_t k = 0; k < *side * *side; k++) {
        int high = fgetc(file), low = fgetc(file);
        must(low != EOF, "the grid is cut short");
        heights[k] = (uint16_t)(high << 8 | low);
    }
    fclose(file);
    return heights;
}

/* A corner of a triangle: steps to the right of, and beyond, the near left point. */
struct point { long x, y; };
static struct point point_of(uint32_t index, size_t side) {
    struct point it = { (long)(index % side), (long)(side - 1 - index / side) };
    return it;
}

/* is_vertex marks the points of the mesh, so that a vertex inside an edge can be seen. */
static void test_mesh(const uint32_t *index, size_t triangles, size_t side, unsigned char *is_vertex) {
    long twice = 0;
    memset(is_vertex, 0, side * side);
    for (size_t k = 0; k < 3 * triangles; k++) {
        must(index[k] < side * side, "an index is no place in the heights");
        is_vertex[index[k]] = 1;
    }
    for (size_t k = 0; k < triangles; k++) {
        struct point p[3];
        for (int c = 0; c < 3; c++) p[c] = point_of(index[3 * k + c], side);
        long area = (p[1].x - p[0].x) * (p[2].y - p[0].y) - (p[2].x - p[0].x) * (p[1].y - p[0].y);
        must(area > 0, "a triangle does not turn counterclockwise");
        twice += area;
        for (int c = 0; c < 3; c++) {
            struct point a = p[c], b = p[(c + 1) % 3];
            long dx = b.x - a.x, dy = b.y - a.y, steps = labs(dx) > labs(dy) ? labs(dx) : labs(dy);
            for (long s = 1; s < steps; s++)
                must(!is_vertex[(side - 1 - (size_t)(a.y + dy / steps * s)) * side + (size_t)(a.x + dx / steps * s)], "a vertex lies inside an edge");
        }
    }
    must(twice == 2 * (long)((side - 1) * (side - 1)), "the triangles do not cover the square once");
}

/* The strip has the triangles of the mesh, one beside the other: they sum to the square, and neighbours share two vertices. */
static void test_strip(const uint32_t *strip, size_t triangles, size_t side) {
    long twice = 0;
    for (size_t k = 0; k < triangles; k++) {
        const uint32_t *a = strip + 3 * k, *b = strip + 3 * ((k + 1) % triangles);
        struct point p = point_of(a[0], side), q = point_of(a[1], side), r = point_of(a[2], side);
        int shared = 0;
        twice += (q.x - p.x) * (r.y - p.y) - (r.x - p.x) * (q.y - p.y);
        for (int i = 0; i < 9; i++) shared += a[i / 3] == b[i % 3];
        must(shared == 2, "neighbours of the strip share no edge");
    }
    must(twice == 2 * (long)((side - 1) * (side - 1)), "the strip does not cover the square");
}

static int by_number(const void *a, const void *b) {
    uint32_t x = *(const uint32_t *)a, y = *(const uint32_t *)b;
    return x < y ? -1 : x > y;
}

/* The list before, without what went and with what came, is the list after. */
static void test_changes(const uint32_t *before, size_t befores, const uint32_t *after, size_t afters, uint32_t *gone, uint32_t *come, roam_changes_note told) {
    uint32_t *patched = room(befores + told.come + 1, sizeof *patched), *wanted = room(afters + 1, sizeof *wanted);
    size_t count = 0;
    qsort(gone, told.gone, sizeof *gone, by_number);
    for (size_t k = 0; k < befores; k++)
        if (!bsearch(&before[k], gone, told.gone, sizeof *gone, by_number)) patched[count++] = before[k];
    must(count + told.gone == befores, "something went that was not there");
    memcpy(patched + count, come, told.come * sizeof *come);
    count += told.come;
    memcpy(wanted, after, afters * sizeof *after);
    qsort(patched, count, sizeof *patched, by_number);
    qsort(wanted, afters, sizeof *wanted, by_number);
    must(count == afters && memcmp(patched, wanted, count * sizeof *wanted) == 0, "the changes do not lead from the one frame to the other");
    free(patched);
    free(wanted);
}

int main(int argc, char **argv) {
    must(argc == 5, "usage: flight GRID.pgm BUDGET SPACING FRAMES");
    size_t side, triangles = 0, leaves = 0, befores = 0;
    uint16_t *heights = read_grid(argv[1], &side);
    uint32_t budget = (uint32_t)strtoul(argv[2], NULL, 10), spacing = (uint32_t)strtoul(argv[3], NULL, 10);
    long frames = strtol(argv[4], NULL, 10);
    int64_t width = (int64_t)(side - 1) * spacing;

    roam_handle terrain = ROAM_EMPTY;
    must(roam_open(&terrain, heights, side * side, budget, spacing) == ROAM_OK, "the engine cannot be opened");
    uint32_t *index = room(3 * (size_t)budget, sizeof *index), *leaf = room(budget, sizeof *leaf), *before = room(budget, sizeof *before);
    uint32_t *gone = room(budget, sizeof *gone), *come = room(budget, sizeof *come);
    unsigned char *is_vertex = room(side * side, 1);
    unsigned long long drawn = 0, changed = 0;

    for (long k = 0; k < frames; k++) {
        roam_frame_note note;
        roam_changes_note told;
        /* From the near left corner to the far right one, and the ground rises under the flight halfway. */
        must(roam_camera(&terrain, width * k / frames, width * k / frames, 1200) == ROAM_OK, "camera");
        if (k == frames / 2)
            must(roam_raise(&terrain, 0, 0, (uint32_t)(side - 1) / 2, (uint32_t)(side - 1) / 2, 300) == ROAM_OK, "raise");
        must(roam_frame(&terrain, &note) == ROAM_OK, "frame");
        must(roam_indices(&terrain, index, 3 * (size_t)budget, &triangles) == ROAM_OK, "indices");
        must(roam_leaves(&terrain, leaf, budget, &leaves) == ROAM_OK, "leaves");
        must(triangles == note.triangles && leaves == triangles && triangles <= budget, "counts");
        must(note.blocking == 0 ? note.worst == 0 : note.need > budget, "the certificate");
        test_mesh(index, triangles, side, is_vertex);
        must(roam_strip(&terrain, index, 3 * (size_t)budget, &triangles) == ROAM_OK, "strip");
        test_strip(index, triangles, side);
        if (k > 0) {
            roam_changes(before, befores, leaf, leaves, gone, budget, come, budget, &told);
            test_changes(before, befores, leaf, leaves, gone, come, told);
            changed += told.gone + told.come;
        }
        drawn += triangles;
        uint32_t *swap = before;
        before = leaf, leaf = swap, befores = leaves;
    }
    printf("%ld frames, %llu triangles drawn, %llu changed\n", frames, drawn, changed);
    must(roam_close(&terrain) == ROAM_OK && roam_close(&terrain) == ROAM_IS_EMPTY, "close");
    free(heights), free(index), free(leaf), free(before), free(gone), free(come), free(is_vertex);
    return 0;
}
