/* What fitters and mosaics of the C library cost, in processor time of the thread.
 * usage: mosaic books COLUMNS ROWS N         a mosaic's books: each border put and asked for, with all points and with few
 *        mosaic terrain LEVEL N ERROR        the made heights of side 2^LEVEL + 1 in tiles of side 2^N + 1, until none lacks a point
 *        mosaic required N ERROR POINTS      a mesh with so many required points, beside one with none */
#define _POSIX_C_SOURCE 200809L
#include "counted_heap.h"
#include "made.h"
#include "roam.h"

static int books(uint32_t columns, uint32_t rows, unsigned n) {
    uint32_t m = (uint32_t)1 << n, side = m + 1, count = 0;
    uint32_t *all = taken(16 * (size_t)side), *few = taken(16 * (size_t)side), *out = taken(16 * (size_t)side), fews = 0;
    for (uint32_t place = 0; place < side * side; place++) {
        uint32_t row = place / side, column = place % side, along = row == 0 || row == m ? column : row;
        if ((row != 0 && row != m && column != 0 && column != m) || along % m == 0) continue;
        all[count++] = place;
        if (along % (m / 8) == 0) few[fews++] = place;
    }
    double tiles = (double)columns * rows, words = tiles * 4 * m / 64;
    roam_mosaic mosaic = ROAM_EMPTY;
    double start = now();
    must(roam_mosaic_open(&mosaic, columns, rows, side));
    printf("open %.6f s, %.1f MB, %.2f bits a border point\n", now() - start, held / 1e6, 8.0 * held / (tiles * 4 * (m - 1)));
    for (int turn = 0; turn < 2; turn++) {
        double putting = 0, asking = 0, seeking = 0;
        size_t seen = 0;
        roam_required_note note;
        roam_tile_note tile;
        start = now();
        for (uint32_t k = 0; k < columns * rows; k++)
            must(roam_mosaic_put(&mosaic, k % columns, k / columns, turn ? all : few, turn ? count : fews));
        putting = now() - start, start = now();
        for (uint32_t k = 0; k < columns * rows; k++) {
            must(roam_mosaic_required(&mosaic, k % columns, k / columns, out, 4 * (size_t)m, &note));
            seen += note.count;
        }
        asking = now() - start, start = now();
        must(roam_mosaic_next(&mosaic, &tile));
        seeking = now() - start;
        printf("%u of %u border points a tile: put %.3f s, required %.3f s (%.1f points a tile), next over all %.3f s; "
               "a word of 64 points %.3f, %.3f, %.4f us; waits %u\n", turn ? count : fews, count, putting, asking, seen / tiles, seeking,
               1e6 * putting / words, 1e6 * asking / words, 1e6 * seeking / words, tile.waits);
    }
    must(roam_mosaic_close(&mosaic));
    free(all), free(few), free(out);
    return 0;
}

static int terrain(unsigned level, unsigned n, uint32_t thousandths) {
    uint32_t across = (uint32_t)1 << (level - n), m = (uint32_t)1 << n, side = m + 1, found;
    size_t points = (size_t)side * side, runs = 0, later = 0, triangles = 0, count;
    uint16_t *heights = taken(points * sizeof *heights);
    uint32_t *required = taken(16 * (size_t)side), *border = taken(16 * (size_t)side), **leaves = calloc((size_t)across * across, sizeof *leaves);
    uint32_t *counts = calloc((size_t)across * across, sizeof *counts);
    if (leaves == NULL || counts == NULL) return 1;
    roam_mosaic mosaic = ROAM_EMPTY;
    roam_fitter fitter = ROAM_EMPTY;
    roam_tile_note tile;
    roam_required_note note;
    double made = 0, opened = 0, fitted = 0, kept = 0, restored = 0, more = 0, again = 0, keeping = 0, asked = 0, start;
    must(roam_mosaic_open(&mosaic, across, across, side));
    for (;;) {
        start = now();
        must(roam_mosaic_next(&mosaic, &tile));
        if (!tile.waits) break;
        must(roam_mosaic_required(&mosaic, tile.column, tile.row, required, 4 * (size_t)m, &note));
        asked += now() - start, start = now();
        size_t at = (size_t)tile.row * across + tile.column;
        made_heights(level, n, 0, (uint64_t)tile.column << n, (uint64_t)tile.row << n, heights);
        made += now() - start, start = now();
        must(roam_fitter_open(&fitter, heights, points));
        double open = now() - start;
        bool is_later = leaves[at] != NULL;
        start = now();
        if (!is_later) {
            must(roam_fitter_fit(&fitter, thousandths, required, 0, required, note.count, &found));
            opened += open, fitted += now() - start;
        } else {
            must(roam_fitter_restore(&fitter, leaves[at], counts[at]));
            again += open, restored += now() - start, start = now();
            must(roam_fitter_more(&fitter, thousandths, required, 0, required, note.count, &found));
            more += now() - start, later++;
        }
        start = now();
        free(leaves[at]);
        leaves[at] = taken(found * sizeof **leaves);
        must(roam_fitter_leaves(&fitter, leaves[at], found, &count));
        counts[at] = found;
        must(roam_fitter_border(&fitter, border, 4 * (size_t)m, &count));
        must(roam_mosaic_put(&mosaic, tile.column, tile.row, border, count));
        *(is_later ? &keeping : &kept) += now() - start;
        must(roam_fitter_close(&fitter));
        runs++;
    }
    for (size_t k = 0; k < (size_t)across * across; k++) triangles += counts[k], free(leaves[k]);
    size_t tiles = (size_t)across * across;
    printf("%zu tiles of %u, %zu triangles, %zu runs, %.3f a tile; heights %.2f s; first runs: open %.3f s, fit %.3f s, leaves and border "
           "%.3f s; %zu later runs: open %.3f s, restore %.3f s, more %.3f s, leaves and border %.3f s; books %.3f s; later / first %.3f; "
           "fitting %.3f s\n", tiles, side, triangles, runs, (double)runs / (double)tiles, made, opened, fitted, kept, later, again, restored, more,
           keeping, asked, (again + restored + more) / (opened + fitted), opened + fitted + again + restored + more);
    must(roam_mosaic_close(&mosaic));
    free(heights), free(required), free(border), free(leaves), free(counts);
    return 0;
}

static int with_required(unsigned n, uint32_t thousandths, uint32_t count) {
    size_t side = ((size_t)1 << n) + 1, points = side * side;
    uint16_t *heights = taken(points * sizeof *heights);
    uint32_t *places = taken((count + 1) * sizeof *places), number = 1, none = 0, some = 0;
    made_heights(n, n, 0, 0, 0, heights);
    for (uint32_t k = 0; k < count; k++) number = number * 1664525 + 1013904223, places[k] = (uint32_t)((uint64_t)number * points >> 32);
    roam_fitter fitter = ROAM_EMPTY;
    double least[2] = { 1e9, 1e9 }, start;
    must(roam_fitter_open(&fitter, heights, points));
    for (int k = 0; k < 14; k++) {
        start = now();
        must(roam_fitter_fit(&fitter, thousandths, places, 0, places, k % 2 ? count : 0, k % 2 ? &some : &none));
        double it = now() - start;
        if (it < least[k % 2]) least[k % 2] = it;
    }
    printf("side %zu: none %.4f s, %u triangles; %u points %.4f s, %u triangles; ratio %.3f\n", side, least[0], none, count, least[1],
           some, least[1] / least[0]);
    must(roam_fitter_close(&fitter));
    free(heights), free(places);
    return 0;
}

int main(int argc, char **argv) {
    if (argc == 5 && strcmp(argv[1], "books") == 0)
        return books((uint32_t)atol(argv[2]), (uint32_t)atol(argv[3]), (unsigned)atoi(argv[4]));
    if (argc == 5 && strcmp(argv[1], "terrain") == 0)
        return terrain((unsigned)atoi(argv[2]), (unsigned)atoi(argv[3]), (uint32_t)(1000 * atof(argv[4]) + 0.5));
    if (argc == 5 && strcmp(argv[1], "required") == 0)
        return with_required((unsigned)atoi(argv[2]), (uint32_t)(1000 * atof(argv[3]) + 0.5), (uint32_t)atol(argv[4]));
    return fprintf(stderr, "usage: mosaic books COLUMNS ROWS N, or mosaic terrain LEVEL N ERROR, or mosaic required N ERROR POINTS\n"), 2;
}
