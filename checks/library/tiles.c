/* Every call of roam.h of fitters and mosaics with arguments at the ends of their ranges and random ones. Each answer is
 * compared with what the header says, and each mesh with that of a plain program, written anew here: it looks at all leaves
 * until none is off by too much. What a refused call may not write is compared byte by byte. Allocations fail now and then,
 * calls that take no memory have none, and at the end no block is left.
 * usage: tiles SEED COUNT       until each call was made COUNT times
 *        tiles ends             each side, each allocation refused in turn, and mosaics of very many tiles
 * With -DFUZZER the numbers are those of libFuzzer. */
enum { FITTER_OPEN, FITTER_CLOSE, FITTER_FIT, FITTER_MORE, FITTER_INDICES, FITTER_LEAVES, FITTER_BORDER, FITTER_DEVIATION,
       FITTER_RESTORE, FIT_WITH, MOSAIC_OPEN, MOSAIC_CLOSE, MOSAIC_NEXT, MOSAIC_REQUIRED, MOSAIC_PUT, CALLS };
static const char *const names[CALLS] = {
    "fitter_open", "fitter_close", "fitter_fit", "fitter_more", "fitter_indices", "fitter_leaves", "fitter_border",
    "fitter_deviation", "fitter_restore", "fit_with", "mosaic_open", "mosaic_close", "mosaic_next", "mosaic_required", "mosaic_put"
};
#include "random_calls.h"
#include "addresses.h"

/* --- The plain program: grids up to side 17, and the triangles of each level by address. --- */

enum { LEVELS = 4, SIDE = 17, POINTS = SIDE * SIDE, MOST = 2 * (SIDE - 1) * (SIDE - 1), END = 2 * MOST, ROOM = 3 * MOST + 8 };

static struct triangle { int64_t x[3], y[3]; uint32_t mate; } triangles[LEVELS + 1][END]; /* apex and the ends of the base */
static uint32_t splittable_end(unsigned n) { return (uint32_t)2 << 2 * n; }

static void make_triangles(void) {
    for (unsigned n = 1; n <= LEVELS; n++)
        for (uint32_t a = 2; a < 2 * splittable_end(n); a++) {
            struct triangle *t = &triangles[n][a];
            uint32_t place[3];
            corners(a, side_of(n), place);
            for (int c = 0; c < 3; c++)
                t->x[c] = place[c] % (uint32_t)side_of(n), t->y[c] = (int64_t)side_of(n) - 1 - place[c] / (uint32_t)side_of(n);
            t->mate = 0;
            for (uint32_t b = 2; b < a; b++) { /* the base turned about, on the same level */
                struct triangle *u = &triangles[n][b];
                if (level(b) == level(a) && u->x[1] == t->x[2] && u->y[1] == t->y[2] && u->x[2] == t->x[1] && u->y[2] == t->y[1])
                    t->mate = b, u->mate = a;
            }
        }
}

/* A mesh by what is split in it. */
struct mesh { unsigned n; uint8_t split[MOST + 2]; uint16_t height[POINTS]; };
struct limit { uint32_t thousandths; const uint32_t *own; }; /* own: of each point, or NULL */

static bool is_leaf(const struct mesh *m, uint32_t a) {
    return (a < 4 || m->split[a / 2]) && (a >= splittable_end(m->n) || !m->split[a]);
}
static bool is_conforming(const struct mesh *m) {
    for (uint32_t a = 2; a < splittable_end(m->n); a++) {
        const uint32_t mate = triangles[m->n][a].mate;
        if (m->split[a] && ((a >= 4 && !m->split[a / 2]) || (mate != 0 && !m->split[mate]))) return false;
    }
    return true;
}
static void force(struct mesh *m, uint32_t a) {
    if (m->split[a]) return;
    m->split[a] = 1;
    if (a >= 4) force(m, a / 2);
    if (triangles[m->n][a].mate != 0) force(m, triangles[m->n][a].mate);
}
/* How far the heights are from a triangle's plane at most, times side - 1; or over all points by how much, in thousandths,
 * one is off by more than its limit. */
static int64_t off(const struct mesh *m, uint32_t a, const struct limit *limit) {
    const struct triangle *t = &triangles[m->n][a];
    const int64_t side = (int64_t)side_of(m->n), over = side - 1;
    int64_t p[3][2], z[3], most = 0, low[2] = { over, over }, high[2] = { 0, 0 };
    for (int c = 0; c < 3; c++) {
        p[c][0] = t->x[c], p[c][1] = t->y[c], z[c] = m->height[(over - t->y[c]) * side + t->x[c]];
        for (int k = 0; k < 2; k++) {
            if (p[c][k] < low[k]) low[k] = p[c][k];
            if (p[c][k] > high[k]) high[k] = p[c][k];
        }
    }
    for (int64_t y = low[1]; y <= high[1]; y++)
        for (int64_t x = low[0]; x <= high[0]; x++) {
            const int64_t r[2] = { x, y }, place = (over - y) * side + x;
            const int64_t u = doubled(r, p[1], p[2]), v = doubled(r, p[2], p[0]), w = doubled(r, p[0], p[1]);
            if (u < 0 || v < 0 || w < 0) continue;
            int64_t it = over * m->height[place] - over * (u * z[0] + v * z[1] + w * z[2]) / (u + v + w);
            if (it < 0) it = -it;
            if (limit != NULL) {
                const uint32_t own = limit->own != NULL ? limit->own[place] : limit->thousandths;
                it = limit->own != NULL && own == UINT32_MAX ? 0 : 1000 * it - (int64_t)own * over;
            }
            if (it > most) most = it;
        }
    return most;
}
static bool is_mesh_within(const struct mesh *m, const struct limit *limit) {
    for (uint32_t a = 2; a < splittable_end(m->n); a++) if (is_leaf(m, a) && off(m, a, limit) > 0) return false;
    return true;
}
static void split_at(struct mesh *m, const uint32_t *required, size_t count) {
    for (size_t k = 0; k < count; k++)
        for (uint32_t a = 2; a < splittable_end(m->n); a++) {
            const struct triangle *t = &triangles[m->n][a];
            const int64_t x = (t->x[1] + t->x[2]) / 2, y = (t->y[1] + t->y[2]) / 2, side = (int64_t)side_of(m->n);
            if ((side - 1 - y) * side + x == required[k]) force(m, a);
        }
}
static void settle(struct mesh *m, const struct limit *limit) {
    bool is_known[MOST + 2] = { false }, is_done = false;
    while (!is_done) { /* what a split forces may have children at lesser numbers */
        is_done = true;
        for (uint32_t a = 2; a < splittable_end(m->n); a++) {
            if (!is_leaf(m, a) || is_known[a]) continue;
            is_known[a] = true;
            if (off(m, a, limit) > 0) force(m, a), is_done = false;
        }
    }
}
static uint32_t leaves_below(const struct mesh *m, uint32_t a, uint32_t *out, uint32_t count) {
    if (a < splittable_end(m->n) && m->split[a]) return leaves_below(m, 2 * a + 1, out, leaves_below(m, 2 * a, out, count));
    out[count] = a;
    return count + 1;
}
static uint32_t leaves_of(const struct mesh *m, uint32_t *out) { return leaves_below(m, 3, out, leaves_below(m, 2, out, 0)); }

/* --- Fitters. --- */

enum { FITTERS = 3 };
static struct fitter {
    roam_fitter handle;
    bool is_open;
    struct mesh mesh;
    uint32_t leaf[MOST], count; /* of the mesh */
    uint32_t kept[MOST], kepts; /* leaves that were written before */
} fitters[FITTERS];
static uint16_t heights[POINTS];
static uint32_t list[ROOM], tolerances[POINTS + 2], required[POINTS + 8];
static size_t tolerance_count, required_count;
static uint32_t thousandths;

static void test_fitter(struct fitter *f) {
    const int was = call;
    size_t count;
    call = FITTER_LEAVES;
    fill(list, sizeof list), fill(&count, sizeof count);
    answers(roam_fitter_leaves(&f->handle, list, ROOM, &count), f->is_open ? ROAM_OK : ROAM_IS_EMPTY);
    call = was;
    if (!f->is_open) {
        must(is_filled(list, sizeof list) && is_filled(&count, sizeof count), "a refused call has written");
        return;
    }
    must(count == f->count && memcmp(list, f->leaf, count * sizeof *list) == 0, "the mesh is another");
    must(is_filled(list + count, sizeof list - count * sizeof *list), "places were written that no triangle has");
}

static void begin_mesh(struct mesh *m, const uint16_t *from, unsigned n) {
    memset(m, 0, sizeof *m);
    m->n = n;
    memcpy(m->height, from, side_of(n) * side_of(n) * sizeof *from);
}
/* Whether it was refused memory; so the others that take some. */
static bool do_fitter_open(struct fitter *f, const uint16_t *from, size_t count) {
    call = FITTER_OPEN;
    const int32_t answer = OPENED(roam_fitter_open(&f->handle, from, count), level_of(count) == 0 ? ROAM_BAD_GRID : ROAM_OK);
    if (answer == ROAM_OK) {
        f->is_open = true;
        begin_mesh(&f->mesh, from, level_of(count));
        f->count = leaves_of(&f->mesh, f->leaf);
    }
    test_fitter(f);
    return answer == ROAM_NO_MEMORY;
}
static void do_fitter_close(struct fitter *f) {
    call = FITTER_CLOSE;
    answers(roam_fitter_close(&f->handle), f->is_open ? ROAM_OK : ROAM_IS_EMPTY);
    f->is_open = false;
    test_fitter(f);
}

/* What a fit of a grid with so many heights has to answer, but for what it takes and writes. */
static int32_t wanted_of_fit(size_t count) {
    bool are_tolerances = tolerance_count == 0 ? thousandths <= 65535999 : tolerance_count == count, are_inside = true;
    for (size_t k = 0; k < required_count; k++) are_inside &= required[k] < count;
    for (size_t k = 0; k < tolerance_count; k++) are_tolerances &= tolerances[k] <= 65535999 || tolerances[k] == UINT32_MAX;
    return !are_inside ? ROAM_OUTSIDE_GRID : !are_tolerances ? ROAM_BAD_TOLERANCE : ROAM_OK;
}
static struct limit limit_now(void) {
    struct limit it = { thousandths, tolerance_count > 0 ? tolerances : NULL };
    return it;
}

static void do_fit(struct fitter *f, bool is_fresh) {
    call = is_fresh ? FITTER_FIT : FITTER_MORE;
    uint32_t triangles_told;
    fill(&triangles_told, sizeof triangles_told);
    const size_t side = side_of(f->mesh.n);
    const int32_t wanted = !f->is_open ? ROAM_IS_EMPTY : wanted_of_fit(side * side);
    const int32_t answer = WITHOUT_MEMORY((is_fresh ? roam_fitter_fit : roam_fitter_more)(&f->handle, thousandths, tolerances, tolerance_count, required, required_count, &triangles_told));
    answers(answer, wanted);
    if (wanted != ROAM_OK) {
        must(is_filled(&triangles_told, sizeof triangles_told), "a refused call has written");
        test_fitter(f);
        return;
    }
    const struct limit limit = limit_now();
    struct mesh *m = &f->mesh;
    if (is_fresh) memset(m->split, 0, sizeof m->split);
    if (is_fresh || is_mesh_within(m, &limit)) { /* the plain program's mesh */
        split_at(m, required, required_count);
        settle(m, &limit);
        f->count = leaves_of(m, f->leaf);
    } else { /* a mesh that was found for another limit: what it has split stays, and what is required comes */
        size_t count;
        static struct mesh next;
        next = *m;
        split_at(&next, required, required_count);
        answers(roam_fitter_leaves(&f->handle, f->leaf, MOST, &count), ROAM_OK);
        f->count = (uint32_t)count;
        test_leaves(f->leaf, f->count, side);
        memset(m->split, 0, sizeof m->split);
        for (uint32_t k = 0; k < f->count; k++) for (uint32_t a = f->leaf[k] / 2; a >= 2; a /= 2) m->split[a] = 1;
        must(is_conforming(m), "the mesh is not conforming");
        for (uint32_t a = 2; a < splittable_end(m->n); a++) must(!next.split[a] || m->split[a], "a split is lost, or a point is no vertex");
    }
    must(triangles_told == f->count, "the count of triangles is another");
    test_fitter(f);
}

/* What a list has to be, `each` numbers a triangle, or the border's places where it is 0. */
static uint32_t wanted_list[ROOM];
static size_t make_list(const struct fitter *f, unsigned each) {
    const size_t side = side_of(f->mesh.n);
    bool is_vertex[POINTS] = { false };
    size_t count = 0;
    for (uint32_t k = 0; k < f->count; k++) {
        uint32_t place[3];
        corners(f->leaf[k], side, place);
        for (int c = 0; c < 3; c++) is_vertex[place[c]] = true;
        if (each == 1) wanted_list[count++] = f->leaf[k];
        if (each == 3) memcpy(wanted_list + count, place, sizeof place), count += 3;
    }
    if (each == 0) for (size_t k = 0; k < side * side; k++) {
        const bool is_column = k % side == 0 || k % side == side - 1, is_row = k / side == 0 || k / side == side - 1;
        if (is_vertex[k] && is_column != is_row) wanted_list[count++] = (uint32_t)k;
    }
    return count;
}
static void do_list(struct fitter *f, unsigned each, int spare) {
    call = each == 3 ? FITTER_INDICES : each == 1 ? FITTER_LEAVES : FITTER_BORDER;
    const size_t length = f->is_open ? make_list(f, each) : 8;
    const size_t places = spare < 0 && length < (size_t)-spare ? 0 : length + (size_t)spare;
    size_t count;
    fill(list, sizeof list), fill(&count, sizeof count);
    const int32_t wanted = !f->is_open ? ROAM_IS_EMPTY : places < length ? ROAM_NO_ROOM : ROAM_OK;
    const int32_t answer = WITHOUT_MEMORY((each == 3 ? roam_fitter_indices : each == 1 ? roam_fitter_leaves : roam_fitter_border)(&f->handle, list, places, &count));
    answers(answer, wanted);
    if (wanted == ROAM_OK) {
        must(count == length / (each == 3 ? 3 : 1) && memcmp(list, wanted_list, length * sizeof *list) == 0, "the list is another");
        must(is_filled(list + length, sizeof list - length * sizeof *list), "places were written that no triangle has");
        if (each == 1) memcpy(f->kept, list, length * sizeof *list), f->kepts = (uint32_t)length;
    } else {
        must(is_filled(list, sizeof list) && is_filled(&count, sizeof count), "a refused call has written");
    }
    test_fitter(f);
}
static uint64_t deviation_of(const struct mesh *m) {
    int64_t most = 0;
    for (uint32_t a = 2; a < 2 * splittable_end(m->n); a++)
        if (is_leaf(m, a) && off(m, a, NULL) > most) most = off(m, a, NULL);
    return (uint64_t)most;
}
static void do_deviation(struct fitter *f) {
    call = FITTER_DEVIATION;
    roam_deviation_note it;
    fill(&it, sizeof it);
    const int32_t answer = WITHOUT_MEMORY(roam_fitter_deviation(&f->handle, &it));
    answers(answer, f->is_open ? ROAM_OK : ROAM_IS_EMPTY);
    if (f->is_open) must(it.over == side_of(f->mesh.n) - 1 && it.off == deviation_of(&f->mesh), "off or over is another");
    else must(is_filled(&it, sizeof it), "a refused call has written");
    test_fitter(f);
}

static void do_restore(struct fitter *f, const uint32_t *leaf, size_t count) {
    call = FITTER_RESTORE;
    static struct mesh next;
    static uint32_t again[MOST];
    next = f->mesh;
    memset(next.split, 0, sizeof next.split);
    bool is_mesh = count <= MOST;
    for (size_t k = 0; k < count && is_mesh; k++) {
        is_mesh = leaf[k] >= 2 && leaf[k] < 2 * splittable_end(next.n);
        for (uint32_t a = leaf[k] / 2; is_mesh && a >= 2; a /= 2) next.split[a] = 1;
    }
    is_mesh = is_mesh && is_conforming(&next) && leaves_of(&next, again) == count && memcmp(again, leaf, count * sizeof *leaf) == 0;
    const int32_t answer = WITHOUT_MEMORY(roam_fitter_restore(&f->handle, leaf, count));
    answers(answer, !f->is_open ? ROAM_IS_EMPTY : is_mesh ? ROAM_OK : ROAM_BAD_MESH);
    if (answer == ROAM_OK) f->mesh = next, f->count = leaves_of(&next, f->leaf);
    test_fitter(f);
}

static bool do_fit_with(const uint16_t *from, size_t count, int spare) {
    call = FIT_WITH;
    static struct mesh m;
    static uint32_t leaf[MOST], wanted_index[ROOM];
    const long held = blocks;
    roam_fit_note it;
    size_t length = 0, places;
    int32_t wanted = level_of(count) == 0 ? ROAM_BAD_GRID : wanted_of_fit(count);
    if (wanted == ROAM_OK) {
        const struct limit limit = limit_now();
        begin_mesh(&m, from, level_of(count));
        split_at(&m, required, required_count);
        settle(&m, &limit);
        length = leaves_of(&m, leaf);
        for (size_t k = 0; k < length; k++) corners(leaf[k], side_of(m.n), wanted_index + 3 * k);
        length *= 3;
    }
    places = spare < 0 && length < (size_t)-spare ? 0 : length + (size_t)spare;
    fill(list, sizeof list), fill(&it, sizeof it);
    has_failed = false;
    const int32_t answer = roam_fit_with(from, count, thousandths, tolerances, tolerance_count, required, required_count, list, places, &it);
    wanted = or_no_memory(wanted);
    if (wanted == ROAM_OK && places < length) wanted = ROAM_NO_ROOM;
    answers(answer, wanted);
    must(blocks == held, "the call has left memory behind");
    if (wanted == ROAM_OK) {
        bool is_vertex[POINTS] = { false };
        uint32_t vertices = 0;
        for (size_t k = 0; k < length; k++) if (!is_vertex[wanted_index[k]]) is_vertex[wanted_index[k]] = true, vertices++;
        must(memcmp(list, wanted_index, length * sizeof *list) == 0, "the mesh is another");
        must(is_filled(list + length, sizeof list - length * sizeof *list), "places were written that no triangle has");
        must(it.triangles == length / 3 && it.vertices == vertices, "the counts are others");
        must(it.over == side_of(m.n) - 1 && it.off == deviation_of(&m), "off or over is another");
    } else {
        must(is_filled(list, sizeof list) && is_filled(&it, sizeof it), "a refused call has written");
    }
    return answer == ROAM_NO_MEMORY;
}

/* --- Mosaics. --- */

enum { MOSAICS = 2, ACROSS = 4, TILES = ACROSS * ACROSS };
static struct mosaic {
    roam_mosaic handle;
    bool is_open, is_large; /* of a large one alone the shape is known */
    uint32_t columns, rows;
    size_t side;
    uint64_t turn; /* the one that comes next */
    bool is_put[TILES], has[TILES][POINTS]; /* of each tile, whether a mesh was put, and its border points by place */
} mosaics[MOSAICS];

static bool is_border(size_t side, size_t place) {
    return place % side == 0 || place % side == side - 1 || place / side == 0 || place / side == side - 1;
}
static bool is_corner(size_t side, size_t place) {
    return (place % side == 0 || place % side == side - 1) && (place / side == 0 || place / side == side - 1);
}
/* Whether a tile is asked to have a point: its centre, or one that a neighbour has at the same place of the terrain. */
static bool is_asked(const struct mosaic *m, uint32_t column, uint32_t row, size_t place) {
    const long steps = (long)m->side - 1, x = (long)column * steps + (long)(place % m->side), y = (long)row * steps + steps - (long)(place / m->side);
    if (place == (m->side / 2) * m->side + m->side / 2) return true;
    if (!is_border(m->side, place) || is_corner(m->side, place)) return false;
    for (uint32_t u = 0; u < m->columns; u++)
        for (uint32_t v = 0; v < m->rows; v++) {
            const long i = x - (long)u * steps, j = steps - (y - (long)v * steps);
            if ((u == column && v == row) || i < 0 || j < 0 || i > steps || j > steps) continue;
            if (m->has[v * m->columns + u][(size_t)j * m->side + (size_t)i]) return true;
        }
    return false;
}
static bool lacks(const struct mosaic *m, uint32_t column, uint32_t row) {
    const size_t tile = row * m->columns + column;
    if (!m->is_put[tile]) return true;
    for (size_t k = 0; k < m->side * m->side; k++)
        if (is_border(m->side, k) && !m->has[tile][k] && is_asked(m, column, row, k)) return true;
    return false;
}

static void do_required(struct mosaic *m, uint32_t column, uint32_t row, size_t places) {
    call = MOSAIC_REQUIRED;
    roam_required_note it;
    size_t length = 0;
    fill(list, sizeof list), fill(&it, sizeof it);
    const bool is_tile = m->is_open && column < m->columns && row < m->rows;
    if (is_tile && !m->is_large) for (size_t k = 0; k < m->side * m->side; k++) length += is_asked(m, column, row, k);
    if (is_tile && m->is_large) length = 1;
    const int32_t wanted = !m->is_open ? ROAM_IS_EMPTY : !is_tile ? ROAM_OUTSIDE_GRID : places < length ? ROAM_NO_ROOM : ROAM_OK;
    const int32_t answer = WITHOUT_MEMORY(roam_mosaic_required(&m->handle, column, row, list, places, &it));
    answers(answer, wanted);
    if (wanted != ROAM_OK) {
        must(is_filled(list, sizeof list) && is_filled(&it, sizeof it), "a refused call has written");
        return;
    }
    must(it.count == length && it.spare == 0, "the count is another");
    must(is_filled(list + length, sizeof list - length * sizeof *list), "places were written that nothing is required at");
    if (m->is_large) {
        must(list[0] == (m->side / 2) * m->side + m->side / 2, "the centre is another");
        return;
    }
    bool is_told[POINTS] = { false };
    for (size_t k = 0; k < length; k++) {
        must(list[k] < m->side * m->side && !is_told[list[k]] && is_asked(m, column, row, list[k]), "a point that is not required");
        is_told[list[k]] = true;
    }
    must(it.lacks == (uint32_t)lacks(m, column, row), "whether it lacks something is another");
}
static void test_mosaic(struct mosaic *m) {
    const int was = call;
    do_required(m, (uint32_t)below(m->is_open ? m->columns : 2), (uint32_t)below(m->is_open ? m->rows : 2), ROOM);
    call = was;
}

static bool do_mosaic_open(struct mosaic *m, uint32_t columns, uint32_t rows, uint32_t side) {
    call = MOSAIC_OPEN;
    const bool is_shape = columns >= 1 && columns <= 65536 && rows >= 1 && rows <= 65536 && level_of((size_t)side * side) > 0;
    const int32_t answer = OPENED(roam_mosaic_open(&m->handle, columns, rows, side), is_shape ? ROAM_OK : ROAM_BAD_GRID);
    if (answer == ROAM_OK) {
        const roam_mosaic handle = m->handle;
        memset(m, 0, sizeof *m);
        m->handle = handle, m->is_open = true, m->columns = columns, m->rows = rows, m->side = side;
        m->is_large = columns > ACROSS || rows > ACROSS || side > SIDE;
    }
    test_mosaic(m);
    return answer == ROAM_NO_MEMORY;
}
static void do_mosaic_close(struct mosaic *m) {
    call = MOSAIC_CLOSE;
    answers(roam_mosaic_close(&m->handle), m->is_open ? ROAM_OK : ROAM_IS_EMPTY);
    m->is_open = false;
    test_mosaic(m);
}

/* Tiles with an even sum of column and row come first, row by row, then the others; from the turn behind the last one on, round
 * and round. */
static void do_next(struct mosaic *m) {
    call = MOSAIC_NEXT;
    roam_tile_note it;
    fill(&it, sizeof it);
    const int32_t answer = WITHOUT_MEMORY(roam_mosaic_next(&m->handle, &it));
    answers(answer, m->is_open ? ROAM_OK : ROAM_IS_EMPTY);
    if (!m->is_open) {
        must(is_filled(&it, sizeof it), "a refused call has written");
        return;
    }
    const uint64_t all = (uint64_t)m->columns * m->rows;
    uint64_t turn = m->turn, count = 0;
    for (; count < 2 * all; count++, turn++) {
        const uint64_t tile = turn % all;
        const uint32_t column = (uint32_t)(tile % m->columns), row = (uint32_t)(tile / m->columns);
        if ((column + row) % 2 != turn / all % 2 || (!m->is_large && !lacks(m, column, row))) continue;
        must(it.waits == 1 && it.column == column && it.row == row && it.spare == 0, "another tile comes next");
        m->turn = turn % (2 * all) + 1;
        break;
    }
    if (count == 2 * all) must(it.waits == 0 && it.spare == 0, "a tile comes that lacks nothing");
    test_mosaic(m);
}

/* A border point, and those that a mesh has where it has this one: the middles of the parts of the side that hold it. */
static void add_border(bool *has, size_t side, size_t place) {
    const size_t x = place % side, y = place / side, at = x == 0 || x == side - 1 ? y : x;
    size_t low = 0, high = side - 1, middle;
    do {
        middle = (low + high) / 2;
        has[at == y ? middle * side + x : y * side + middle] = true;
        if (at < middle) high = middle;
        else low = middle;
    } while (middle != at);
}
static void do_put(struct mosaic *m, uint32_t column, uint32_t row, const uint32_t *border, size_t count) {
    call = MOSAIC_PUT;
    const bool is_tile = m->is_open && column < m->columns && row < m->rows && !m->is_large;
    const size_t tile = is_tile ? row * m->columns + column : 0;
    bool are_border = true, has[POINTS] = { false }, is_less = false;
    for (size_t k = 0; k < count && is_tile; k++) {
        are_border &= border[k] < m->side * m->side && is_border(m->side, border[k]) && !is_corner(m->side, border[k]);
        if (are_border) add_border(has, m->side, border[k]);
    }
    for (size_t k = 0; k < POINTS && is_tile; k++) is_less |= m->has[tile][k] && !has[k];
    const int32_t wanted = !m->is_open ? ROAM_IS_EMPTY : !is_tile || !are_border ? ROAM_OUTSIDE_GRID : is_less ? ROAM_SHRUNK : ROAM_OK;
    const int32_t answer = WITHOUT_MEMORY(roam_mosaic_put(&m->handle, column, row, border, count));
    answers(answer, wanted);
    if (answer == ROAM_OK) memcpy(m->has[tile], has, sizeof has), m->is_put[tile] = true;
    test_mosaic(m);
}

/* --- Arguments at the ends of their ranges, and random ones. --- */

static const size_t counts[] = { 9, 9, 25, 25, 81, 289, 0, 1, 4, 8, 10, 16, 24, 26, 80, 82, 288 };

static void open_fitter(struct fitter *f) {
    draw_heights(heights, POINTS);
    if (below(16) == 0) left = (long)below(8);
    do_fitter_open(f, heights, OF(counts));
    left = -1;
}
static uint32_t tolerance(void) {
    static const uint32_t ends[] = { 0, 1, 999, 1000, 65535998, 65535999, 65535999, UINT32_MAX };
    return below(3) ? (uint32_t)((word() & 0x3FFFFFF) >> below(26)) % 65536000 : OF(ends);
}
static void draw_request(size_t count) {
    static const uint32_t bad[] = { 65536000, 65536001, INT32_MAX, (uint32_t)INT32_MAX + 1, UINT32_MAX - 1, UINT32_MAX };
    static const size_t few[] = { 0, 0, 1, 1, 2, 3, 7 };
    thousandths = below(12) ? tolerance() % 65536000 : OF(bad);
    tolerance_count = below(3) ? 0 : below(12) ? count : below(4) ? count - 1 : count + 1;
    if (tolerance_count > POINTS + 1) tolerance_count = POINTS + 1;
    const uint32_t common = tolerance();
    const bool is_mixed = below(2);
    for (size_t k = 0; k < tolerance_count; k++) tolerances[k] = is_mixed ? tolerance() : below(8) ? common : UINT32_MAX;
    if (tolerance_count > 0 && below(16) == 0) tolerances[below(tolerance_count)] = bad[below(5)];
    required_count = OF(few);
    for (size_t k = 0; k < required_count; k++) required[k] = (uint32_t)below(count);
    if (required_count > 0 && below(12) == 0) required[below(required_count)] = below(2) ? (uint32_t)count : number((uint32_t)count);
}
static int spare_places(void) {
    static const int spares[] = { 0, 0, 0, 0, 1, 2, -1, -1, -2, -3, -1000 };
    return OF(spares);
}
static void restore_some(struct fitter *f) {
    static uint32_t leaf[MOST + 1];
    const struct fitter *from = below(4) ? f : &fitters[below(FITTERS)];
    uint32_t count = below(2) ? from->kepts : from->is_open ? from->count : 0;
    memcpy(leaf, below(2) && count == from->kepts ? from->kept : from->leaf, count * sizeof *leaf);
    if (count > 0 && below(3) == 0) {
        const size_t at = below(count), with = below(count);
        const uint32_t it = leaf[at];
        switch (below(7)) {
        case 0: leaf[at] = leaf[with], leaf[with] = it; break;
        case 1: leaf[at] = number(2 * splittable_end(f->mesh.n)); break;
        case 2: memmove(leaf + at, leaf + at + 1, (--count - at) * sizeof *leaf); break;
        case 3: count = (uint32_t)at; break;
        case 4: leaf[at] = (uint32_t)word() >> below(32); break;
        case 5: leaf[at] = it ^ 1; break;
        default: /* a triangle split alone */
            memmove(leaf + at + 1, leaf + at, (count++ - at) * sizeof *leaf);
            leaf[at] = 2 * it, leaf[at + 1] = 2 * it + 1;
        }
    }
    do_restore(f, leaf, count);
}
static void open_mosaic(struct mosaic *m) {
    static const uint32_t ends[] = { 0, 1, 5, 65535, 65536, 65537, UINT32_MAX }, sides[] = { 0, 1, 2, 4, 6, 16, 18, 65536, 65537, UINT32_MAX };
    const uint32_t columns = below(16) ? 1 + (uint32_t)below(ACROSS) : OF(ends);
    const uint32_t rows = below(16) && columns <= ACROSS ? 1 + (uint32_t)below(ACROSS) : below(4) || columns <= ACROSS ? OF(ends) : 1;
    if (below(16) == 0) left = (long)below(4);
    const bool is_many = (uint64_t)columns * rows > 65536;
    const uint32_t side = below(12) ? (uint32_t)side_of(1 + (unsigned)below(is_many ? 1 : LEVELS)) : OF(sides);
    if (is_many && columns <= 65536 && rows <= 65536) left = 0; /* gigabytes */
    do_mosaic_open(m, columns, rows, side);
    left = -1;
}
static void put_some(struct mosaic *m) {
    static uint32_t border[4 * SIDE + 4];
    const uint32_t column = below(16) ? (uint32_t)below(m->is_open ? m->columns : 2) : number(m->is_open ? m->columns : 2);
    const uint32_t row = below(16) ? (uint32_t)below(m->is_open ? m->rows : 2) : number(m->is_open ? m->rows : 2);
    const bool is_tile = m->is_open && !m->is_large && column < m->columns && row < m->rows;
    const size_t side = m->is_open ? m->side : 5, rarely = 1 + below(6), kind = below(4);
    size_t count = 0;
    if (m->is_large) return; /* what its tiles have is not known */
    for (size_t k = 0; k < side * side && side <= SIDE; k++) { /* mostly what it has, and what is asked of it, and some more */
        if (!is_border(side, k) || is_corner(side, k)) continue;
        const bool is_had = is_tile && m->has[row * m->columns + column][k];
        const bool is_wanted = is_tile && kind > 0 && is_asked(m, column, row, k);
        if (is_had || is_wanted || below(8 * rarely) == 0) border[count++] = (uint32_t)k;
    }
    if (count > 0 && below(8) == 0) border[below(count)] = number((uint32_t)(side * side));
    if (count > 1 && below(8) == 0) border[below(count)] = border[below(count)];
    if (count > 0 && below(6) == 0) border[below(count)] = border[count - 1], count--;
    do_put(m, column, row, border, count);
}

static void step(void) {
    struct fitter *f = &fitters[below(FITTERS)];
    struct mosaic *m = &mosaics[below(MOSAICS)];
    const size_t count = f->is_open ? side_of(f->mesh.n) * side_of(f->mesh.n) : 25;
    switch (below(CALLS)) {
    case FITTER_OPEN: open_fitter(f); break;
    case FITTER_CLOSE:
        do_fitter_close(f);
        while (!f->is_open && below(8)) open_fitter(f);
        break;
    case FITTER_FIT: draw_request(count), do_fit(f, true); break;
    case FITTER_MORE: /* mostly for the limit of the fit before */
        draw_request(count);
        do_fit(f, true);
        for (size_t more = below(4); more > 0; more--) {
            const uint32_t was = thousandths;
            const size_t own = tolerance_count;
            required_count = below(4);
            for (size_t k = 0; k < required_count; k++) required[k] = (uint32_t)below(count);
            if (below(4) == 0) draw_request(count);
            do_fit(f, false);
            if (below(2)) thousandths = was, tolerance_count = own <= tolerance_count ? own : tolerance_count;
        }
        break;
    case FITTER_INDICES: do_list(f, 3, spare_places()); break;
    case FITTER_LEAVES: do_list(f, 1, spare_places()); break;
    case FITTER_BORDER: do_list(f, 0, spare_places()); break;
    case FITTER_DEVIATION: do_deviation(f); break;
    case FITTER_RESTORE: restore_some(f); break;
    case FIT_WITH: {
        const size_t points = OF(counts);
        draw_request(points > 0 ? points : 1);
        if (below(8) == 0) left = (long)below(8);
        do_fit_with(heights, points, spare_places());
        break;
    }
    case MOSAIC_OPEN: open_mosaic(m); break;
    case MOSAIC_CLOSE:
        do_mosaic_close(m);
        while (!m->is_open && below(8)) open_mosaic(m);
        break;
    case MOSAIC_NEXT: do_next(m); break;
    case MOSAIC_REQUIRED: {
        static const size_t rooms[] = { 0, 1, 2, 3, 5, 8, 4 * (SIDE - 1), ROOM };
        const uint32_t columns = m->is_open ? m->columns : 2, rows = m->is_open ? m->rows : 2;
        do_required(m, below(8) ? (uint32_t)below(columns) : number(columns), below(8) ? (uint32_t)below(rows) : number(rows), OF(rooms));
        break;
    }
    case MOSAIC_PUT:
        for (size_t more = 1 + below(6); more > 0; more--) put_some(m);
        break;
    default: break;
    }
}

static void start(void) {
    const roam_fitter empty = ROAM_EMPTY;
    const roam_mosaic none = ROAM_EMPTY;
    memset(fitters, 0, sizeof fitters), memset(mosaics, 0, sizeof mosaics);
    for (int k = 0; k < FITTERS; k++) fitters[k].mesh.n = 1;
    fitters[0].handle = empty, mosaics[0].handle = none;
    fill(&fitters[1].handle, sizeof fitters[1].handle), fill(&mosaics[1].handle, sizeof mosaics[1].handle); /* that nobody has written */
    begin_heights(heights, POINTS);
    if (triangles[1][2].x[1] == 0) make_triangles();
}
static void close_all(void) {
    for (int k = 0; k < FITTERS; k++) if (fitters[k].is_open) do_fitter_close(&fitters[k]);
    for (int k = 0; k < MOSAICS; k++) if (mosaics[k].is_open) do_mosaic_close(&mosaics[k]);
}

/* --- What random calls do not come to. --- */

/* Each side: flat ground, on which a mesh is what its points need, and one summit in the last place. */
static void test_sides(void) {
    const size_t most = (size_t)2049 * 2049;
    uint16_t *large = calloc(most + 1, sizeof *large);
    uint32_t *out = calloc(6 * most, sizeof *out), told_count;
    roam_fitter f = ROAM_EMPTY;
    roam_deviation_note note;
    must(large != NULL && out != NULL, "out of memory");
    for (unsigned n = 1; n <= 11; n++) {
        const size_t side = side_of(n), count = side * side;
        const uint32_t all = 2 * (uint32_t)((side - 1) * (side - 1)), centre = (uint32_t)(count / 2), outside = (uint32_t)count;
        size_t n_written;
        call = FITTER_OPEN, answers(roam_fitter_open(&f, large, count - 1), ROAM_BAD_GRID);
        answers(roam_fitter_open(&f, large, count + 1), ROAM_BAD_GRID);
        large[count - 1] = 65535;
        answers(roam_fitter_open(&f, large, count), ROAM_OK);
        call = FITTER_FIT, answers(roam_fitter_fit(&f, 65535999, out, 0, &outside, 1, &told_count), ROAM_OUTSIDE_GRID);
        answers(roam_fitter_fit(&f, 65535999, out, 0, &centre, 1, &told_count), ROAM_OK);
        must(told_count == 4, "the mesh of the centre has not four triangles");
        answers(roam_fitter_fit(&f, 0, out, 0, &centre, 0, &told_count), ROAM_OK);
        call = FITTER_DEVIATION, answers(roam_fitter_deviation(&f, &note), ROAM_OK);
        must(note.off == 0 && note.over == side - 1, "a mesh for tolerance 0 is off");
        call = FITTER_INDICES, answers(roam_fitter_indices(&f, out, 3 * (size_t)told_count, &n_written), ROAM_OK);
        must(n_written == told_count, "the count is another");
        for (size_t k = 0; k < count; k++) out[k] = (uint32_t)k; /* each point is required, by its place */
        call = FITTER_MORE, answers(roam_fitter_more(&f, 0, out, 0, out, count, &told_count), ROAM_OK);
        must(told_count == all, "not all triangles of the finest mesh");
        call = FITTER_LEAVES, answers(roam_fitter_leaves(&f, out, all - 1, &n_written), ROAM_NO_ROOM);
        answers(roam_fitter_leaves(&f, out, all, &n_written), ROAM_OK);
        for (uint32_t k = 0; k < all; k++) must(out[k] == all + k, "a leaf is not of the finest level");
        call = FITTER_RESTORE, answers(roam_fitter_restore(&f, out, all - 1), ROAM_BAD_MESH);
        answers(roam_fitter_restore(&f, out, all), ROAM_OK);
        call = FITTER_BORDER, answers(roam_fitter_border(&f, out, 4 * (side - 2) - 1, &n_written), ROAM_NO_ROOM);
        answers(roam_fitter_border(&f, out, 4 * (side - 2), &n_written), ROAM_OK);
        must(n_written == 4 * (side - 2) && out[0] == 1 && out[n_written - 1] == count - 2, "the border is another");
        large[count - 1] = 0;
    }
    call = FITTER_CLOSE, answers(roam_fitter_close(&f), ROAM_OK);
    free(large), free(out);
}

static void test_refused_allocations(void) {
    struct fitter *f = &fitters[0];
    struct mosaic *m = &mosaics[0];
    long count;
    for (int is_full = 0; is_full < 2; is_full++) { /* over an empty handle, and over one whose mesh has to stay */
        do_fitter_open(f, heights, 81), do_mosaic_open(m, 2, 3, 5);
        draw_request(81), do_fit(f, true), put_some(m);
        if (!is_full) do_fitter_close(f), do_mosaic_close(m);
        for (count = 0;; count++) {
            left = count;
            if (!do_fitter_open(f, heights, 289)) break;
        }
        must(count >= 1, "a fitter takes no memory");
        for (count = 0;; count++) {
            left = count;
            if (!do_mosaic_open(m, 3, 2, 9)) break;
        }
        must(count >= 1, "a mosaic takes no memory");
        do_fitter_close(f), do_mosaic_close(m);
    }
    thousandths = 1000, tolerance_count = required_count = 0;
    for (count = 0;; count++) {
        left = count;
        if (!do_fit_with(heights, 289, 0)) break;
    }
    must(count >= 1, "fit_with takes no memory");
    printf("%ld allocations, each refused in turn\n", count);
}

static void test_many_tiles(void) {
    struct mosaic *m = &mosaics[0];
    do_mosaic_open(m, 65536, 1, 3), do_next(m), do_next(m);
    do_required(m, 65535, 0, 1), do_required(m, 65536, 0, 1), do_required(m, 65535, 1, 1), do_required(m, 0, 0, 0);
    do_mosaic_open(m, 1, 65536, 3), do_next(m), do_next(m);
    do_mosaic_open(m, 65537, 1, 3), do_mosaic_open(m, 1, 65537, 3), do_mosaic_open(m, 1, 1, 4097), do_mosaic_open(m, 1, 1, 2050);
    do_mosaic_open(m, 2, 2, 2049), do_next(m), do_required(m, 1, 1, 1);
    do_mosaic_close(m);
}

/* A handle of another kind is taken as an empty one, and stays as it is; what is opened over it takes its place. */
static void test_kinds(void) {
    union { roam_handle engine; roam_fitter fitter; roam_mosaic mosaic; } any = { ROAM_EMPTY };
    roam_frame_note frame;
    roam_deviation_note note;
    roam_tile_note tile;
    roam_required_note asked;
    uint32_t triangles_told;
    size_t count;
    call = FITTER_OPEN;
    answers(roam_open(&any.engine, heights, 81, 40, 3), ROAM_OK);
    for (int kind = 0; kind < 3; kind++) { /* an engine, a fitter, a mosaic, and at the end an engine again */
        const bool is_fitter = kind == 1, is_mosaic = kind == 2;
        call = FITTER_FIT, answers(roam_fitter_fit(&any.fitter, 0, list, 0, list, 0, &triangles_told), is_fitter ? ROAM_OK : ROAM_IS_EMPTY);
        answers(roam_fitter_more(&any.fitter, 0, list, 0, list, 0, &triangles_told), is_fitter ? ROAM_OK : ROAM_IS_EMPTY);
        answers(roam_fitter_indices(&any.fitter, list, ROOM, &count), is_fitter ? ROAM_OK : ROAM_IS_EMPTY);
        answers(roam_fitter_leaves(&any.fitter, list, ROOM, &count), is_fitter ? ROAM_OK : ROAM_IS_EMPTY);
        answers(roam_fitter_restore(&any.fitter, list, is_fitter ? count : 0), is_fitter ? ROAM_OK : ROAM_IS_EMPTY);
        answers(roam_fitter_border(&any.fitter, list, ROOM, &count), is_fitter ? ROAM_OK : ROAM_IS_EMPTY);
        answers(roam_fitter_deviation(&any.fitter, &note), is_fitter ? ROAM_OK : ROAM_IS_EMPTY);
        call = MOSAIC_NEXT, answers(roam_mosaic_next(&any.mosaic, &tile), is_mosaic ? ROAM_OK : ROAM_IS_EMPTY);
        answers(roam_mosaic_required(&any.mosaic, 0, 0, list, ROOM, &asked), is_mosaic ? ROAM_OK : ROAM_IS_EMPTY);
        answers(roam_mosaic_put(&any.mosaic, 0, 0, list, 0), is_mosaic ? ROAM_OK : ROAM_IS_EMPTY);
        answers(roam_frame(&any.engine, &frame), kind == 0 ? ROAM_OK : ROAM_IS_EMPTY);
        if (kind != 0) answers(roam_close(&any.engine), ROAM_IS_EMPTY);
        if (!is_fitter) answers(roam_fitter_close(&any.fitter), ROAM_IS_EMPTY);
        if (!is_mosaic) answers(roam_mosaic_close(&any.mosaic), ROAM_IS_EMPTY);
        if (kind == 0) answers(roam_fitter_open(&any.fitter, heights, 81), ROAM_OK);
        else if (kind == 1) answers(roam_mosaic_open(&any.mosaic, 2, 1, 9), ROAM_OK);
        else answers(roam_open(&any.engine, heights, 9, 8, 1), ROAM_OK);
    }
    answers(roam_close(&any.engine), ROAM_OK);
    must(blocks == 0, "blocks are left of what other handles had");
}

static void test_ends(void) { test_kinds(), test_sides(), test_many_tiles(), test_refused_allocations(); }
