/* A terrain of 4 x 4 tiles of 513 x 513 points, meshed tile by tile until all meshes are one mesh without cracks, which is
 * written as OBJ. The heights of one tile alone are looked at at a time, as a program does whose terrain stands in files.
 * usage: tiles SEED THOUSANDTHS MESH.obj           the mesh is off by so many thousandths of a unit of height at most
 *        tiles SEED THOUSANDTHS MESH.obj alone     each tile for itself, in no rounds: the meshes do not meet */
#include "roam.h"
#include <stdio.h>
#include <stdlib.h>
#include <string.h>

enum { LEVEL = 11, ACROSS = 4, STEPS = (1 << LEVEL) / ACROSS, SIDE = STEPS + 1, POINTS = SIDE * SIDE, ALL = (1 << LEVEL) + 1 };

static void must(int holds, const char *what) {
    if (holds) return;
    fprintf(stderr, "tiles: %s\n", what);
    exit(1);
}
static void *room(size_t count, size_t size) {
    void *it = calloc(count, size);
    must(it != NULL, "out of memory");
    return it;
}

/* --- The terrain: the generated grid of level 11 and a seed, rows from the far side to the near one. --- */

static uint64_t seed;
static uint64_t q(uint64_t z) {
    return z * 6364136223846793005u + (z >> 32) * (z & 0xFFFFFFFFu) + 1442695040888963407u;
}
static uint64_t lattice(uint64_t k, uint64_t i, uint64_t j) { return q(q(q(q(q(seed) + k) + i) + j)) >> 48; }
static uint16_t height_of(uint64_t x, uint64_t y) {
    uint64_t sum = 0;
    for (unsigned k = 0; k <= LEVEL; k++) {
        const uint64_t w = (uint64_t)1 << k, i = x / w, a = x % w, j = y / w, b = y % w;
        const uint64_t near = lattice(k, i, j) * (w - a) + lattice(k, i + 1, j) * a;
        const uint64_t far = lattice(k, i, j + 1) * (w - a) + lattice(k, i + 1, j + 1) * a;
        sum += (near * (w - b) + far * b) / (w * w) >> (LEVEL - k + 1);
    }
    return (uint16_t)sum;
}

/* --- Tiles: column 0 is the left one, row 0 the near one. --- */

static uint16_t *terrain, *heights; /* of all points, and of one tile */
static struct { uint32_t *leaf; size_t count; } meshes[ACROSS * ACROSS];
static uint32_t *points; /* places in the heights of a tile */
static roam_fitter fitter = ROAM_EMPTY;
static unsigned fits;

/* Where in the terrain the point of a place in a tile's heights is. */
static size_t in_terrain(uint32_t column, uint32_t row, uint32_t place) {
    return ((ACROSS - 1 - row) * (size_t)STEPS + place / SIDE) * ALL + column * (size_t)STEPS + place % SIDE;
}

/* The fitter has a tile's heights, and the mesh that it had before, if it had one. */
static int open_tile(uint32_t column, uint32_t row) {
    const size_t tile = row * ACROSS + column;
    for (uint32_t place = 0; place < POINTS; place++) heights[place] = terrain[in_terrain(column, row, place)];
    must(roam_fitter_open(&fitter, heights, POINTS) == ROAM_OK, "a tile cannot be opened");
    if (meshes[tile].leaf == NULL) return 0;
    must(roam_fitter_restore(&fitter, meshes[tile].leaf, meshes[tile].count) == ROAM_OK, "restore");
    return 1;
}

/* Fits a tile with what is required of it, from nothing or going on from its mesh, and keeps the mesh. */
static void fit_tile(uint32_t column, uint32_t row, uint32_t thousandths, size_t required) {
    uint32_t triangles;
    int32_t answer = open_tile(column, row) ? roam_fitter_more(&fitter, thousandths, points, 0, points, required, &triangles)
                                            : roam_fitter_fit(&fitter, thousandths, points, 0, points, required, &triangles);
    const size_t tile = row * ACROSS + column;
    must(answer == ROAM_OK, "fit");
    free(meshes[tile].leaf);
    meshes[tile].leaf = room(triangles, sizeof *meshes[tile].leaf);
    must(roam_fitter_leaves(&fitter, meshes[tile].leaf, triangles, &meshes[tile].count) == ROAM_OK, "leaves");
    fits++;
}

/* Until each tile has the border points that its neighbours have. */
static void fit_in_rounds(uint32_t thousandths) {
    roam_mosaic mosaic = ROAM_EMPTY;
    roam_tile_note tile;
    must(roam_mosaic_open(&mosaic, ACROSS, ACROSS, SIDE) == ROAM_OK, "the mosaic cannot be opened");
    while (roam_mosaic_next(&mosaic, &tile) == ROAM_OK && tile.waits) {
        roam_required_note asked;
        size_t count;
        must(roam_mosaic_required(&mosaic, tile.column, tile.row, points, 4 * STEPS, &asked) == ROAM_OK, "required");
        fit_tile(tile.column, tile.row, thousandths, asked.count);
        must(roam_fitter_border(&fitter, points, 4 * STEPS, &count) == ROAM_OK, "border");
        must(roam_mosaic_put(&mosaic, tile.column, tile.row, points, count) == ROAM_OK, "put");
    }
    must(roam_mosaic_close(&mosaic) == ROAM_OK, "close");
}

/* --- The mesh of all tiles: vertices by y and then by x, faces tile by tile. --- */

static void write_mesh(const char *name) {
    size_t triangles = 0, vertices = 0, count = 0;
    roam_deviation_note note, worst = { 0, STEPS };
    for (size_t tile = 0; tile < ACROSS * ACROSS; tile++) triangles += meshes[tile].count;
    uint32_t *index = room(3 * triangles, sizeof *index), *number = room((size_t)ALL * ALL, sizeof *number);
    for (uint32_t tile = 0; tile < ACROSS * ACROSS; tile++) {
        uint32_t *own = index + 3 * count;
        size_t more;
        open_tile(tile % ACROSS, tile / ACROSS);
        must(roam_fitter_indices(&fitter, own, 3 * meshes[tile].count, &more) == ROAM_OK, "indices");
        must(roam_fitter_deviation(&fitter, &note) == ROAM_OK, "deviation");
        if (note.off > worst.off) worst = note;
        for (size_t k = 0; k < 3 * more; k++) {
            own[k] = (uint32_t)in_terrain(tile % ACROSS, tile / ACROSS, own[k]);
            number[own[k]] = 1;
        }
        count += more;
    }
    FILE *file = fopen(name, "w");
    must(file != NULL, "the mesh cannot be opened");
    for (size_t y = 0; y < ALL; y++)
        for (size_t x = 0; x < ALL; x++) {
            const size_t place = (ALL - 1 - y) * ALL + x;
            if (number[place] == 0) continue;
            number[place] = (uint32_t)++vertices;
            fprintf(file, "v %zu %zu %u\n", x, y, (unsigned)terrain[place]);
        }
    for (const uint32_t *at = index; at < index + 3 * triangles; at += 3)
        fprintf(file, "f %u %u %u\n", (unsigned)number[at[0]], (unsigned)number[at[1]], (unsigned)number[at[2]]);
    must(fclose(file) == 0, "the mesh cannot be written");
    printf("%d tiles, %u fits, %zu triangles, %zu vertices, off by at most %llu/%llu\n", ACROSS * ACROSS, fits, triangles, vertices,
           (unsigned long long)worst.off, (unsigned long long)worst.over);
    free(index), free(number);
}

int main(int argc, char **argv) {
    must(argc == 4 || (argc == 5 && strcmp(argv[4], "alone") == 0), "usage: tiles SEED THOUSANDTHS MESH.obj [alone]");
    const uint32_t thousandths = (uint32_t)strtoul(argv[2], NULL, 10);
    seed = strtoul(argv[1], NULL, 10);
    terrain = room((size_t)ALL * ALL, sizeof *terrain), heights = room(POINTS, sizeof *heights), points = room(4 * STEPS, sizeof *points);
    for (size_t y = 0; y < ALL; y++)
        for (size_t x = 0; x < ALL; x++) terrain[(ALL - 1 - y) * ALL + x] = height_of(x, y);
    if (argc == 4) fit_in_rounds(thousandths);
    else for (uint32_t tile = 0; tile < ACROSS * ACROSS; tile++) fit_tile(tile % ACROSS, tile / ACROSS, thousandths, 0);
    write_mesh(argv[3]);
    must(roam_fitter_close(&fitter) == ROAM_OK, "close");
    for (size_t tile = 0; tile < ACROSS * ACROSS; tile++) free(meshes[tile].leaf);
    free(terrain), free(heights), free(points);
    return 0;
}
