/* Every call of roam.h of pages and worlds with arguments at the ends of their ranges and random ones. Each answer is compared with what
 * the header says. Where a world has the coarsest page alone, or all pages of a resolution, it is one grid: then frames are
 * compared with those of an engine over this grid, from the same place and with the same planes. What a refused call may not write is compared byte by byte.
 * Allocations fail now and then, calls that take no memory have none, and at the end no block is left.
 * usage: worlds SEED COUNT      until each call was made COUNT times
 *        worlds ends            each allocation refused in turn
 * With -DFUZZER the numbers are those of libFuzzer. */
enum { PAGE_MAKE, PAGE_DROP, PAGE_SET_HEIGHT, PAGE_RAISE, WORLD_OPEN, WORLD_CLOSE, WORLD_LOAD, WORLD_UNLOAD, WORLD_SET_HEIGHT,
       WORLD_RAISE, WORLD_CAMERA, WORLD_LOOK, WORLD_THRESHOLD, WORLD_BUDGET, WORLD_FRAME, WORLD_LEAVES, WORLD_DRAWS,
       CALLS };
static const char *const names[CALLS] = { "page_make", "page_drop", "page_set_height", "page_raise", "world_open", "world_close",
    "world_load", "world_unload", "world_set_height", "world_raise",
    "world_camera", "world_look", "world_threshold", "world_budget", "world_frame", "world_leaves", "world_draws" };
#include "random_calls.h"

enum { SIDE = 17, POINTS = SIDE * SIDE, ROOM = 1024, PAGES = 4, WORLDS = 2, CUTS = 3, TABLE = 85 };
static uint16_t heights[POINTS];
static struct page {
    roam_page handle;
    bool is_full;
    unsigned n;
    uint16_t height[POINTS]; /* of those up to SIDE */
} pages[PAGES];
static struct world {
    roam_world handle;
    bool is_open;
    uint32_t n, large, most, triangles; /* of the last frame */
    roam_handle twin; /* an engine over the same heights, where their distance is in its range and no finer page was loaded */
    struct { bool is_there; uint16_t height[POINTS]; } loaded[TABLE]; /* of a terrain whose side is halved at most CUTS times */
} worlds[WORLDS];

/* --- Pages. --- */

static bool do_page_make(struct page *p, const uint16_t *from, size_t count) {
    call = PAGE_MAKE;
    const int32_t answer = OPENED(roam_page_make(&p->handle, from, count), level_of(count) == 0 ? ROAM_BAD_GRID : ROAM_OK);
    if (answer == ROAM_OK) p->is_full = true, p->n = level_of(count), memcpy(p->height, from, count * sizeof *from);
    return answer == ROAM_NO_MEMORY;
}
static void do_page_drop(struct page *p) {
    call = PAGE_DROP;
    answers(roam_page_drop(&p->handle), p->is_full ? ROAM_OK : ROAM_IS_EMPTY);
    p->is_full = false;
}

/* --- Changes of heights. --- */

/* The columns x0 to x1 and the rows y0 to y1, and by how much their heights rise; or, of one point, the height that it gets. */
struct change { uint32_t x0, y0, x1, y1; bool is_set; uint16_t height; int32_t dz; };

/* The call that makes a change, by the calls of pages or of worlds: its answer. */
#define CHANGED(kind, handle, c) WITHOUT_MEMORY((c)->is_set ? kind##_set_height(handle, (c)->x0, (c)->y0, (c)->height) \
                                                            : kind##_raise(handle, (c)->x0, (c)->y0, (c)->x1, (c)->y1, (c)->dz))

/* A page's heights at its points in the area, `step` grid steps apart from the point (x, y) on; whether there is one. */
static bool change_heights(uint16_t *height, unsigned n, uint32_t x, uint32_t y, uint32_t step, const struct change *c) {
    const uint32_t side = (uint32_t)1 << n;
    bool is_there = false;
    for (uint32_t k = 0; k < (side + 1) * (side + 1); k++) {
        const uint64_t px = x + (uint64_t)(k % (side + 1)) * step, py = y + (uint64_t)(side - k / (side + 1)) * step;
        if (px < c->x0 || px > c->x1 || py < c->y0 || py > c->y1) continue;
        const int64_t raised = (int64_t)height[k] + c->dz;
        height[k] = c->is_set ? c->height : (uint16_t)(raised < 0 ? 0 : raised > 65535 ? 65535 : raised);
        is_there = true;
    }
    return is_there;
}
static int32_t wanted_change(const struct change *c, uint32_t side) {
    if (c->x0 > c->x1 || c->x1 > side || c->y0 > c->y1 || c->y1 > side) return ROAM_OUTSIDE_GRID;
    return !c->is_set && (c->dz < -65535 || c->dz > 65535) ? ROAM_BAD_CHANGE : ROAM_OK;
}

static void do_page_change(struct page *p, const struct change *c) {
    call = c->is_set ? PAGE_SET_HEIGHT : PAGE_RAISE;
    const int32_t answer = CHANGED(roam_page, &p->handle, c);
    answers(answer, p->is_full ? wanted_change(c, (uint32_t)1 << p->n) : ROAM_IS_EMPTY);
    if (answer == ROAM_OK) (void)change_heights(p->height, p->n, 0, 0, 1, c);
}

/* --- Worlds. --- */

static void close_twin(struct world *w) { (void)roam_close(&w->twin); }
static void open_twin(struct world *w, const struct page *p, uint32_t budget, uint32_t spacing) {
    const uint64_t wide = (uint64_t)spacing << (w->large - w->n);
    close_twin(w);
    if (wide > 1024) return;
    const int32_t answer = roam_open(&w->twin, p->height, side_of(p->n) * side_of(p->n), budget, (uint32_t)wide);
    must(answer == ROAM_OK, "there is no engine over the same heights");
}

static bool do_world_open(struct world *w, struct page *p, uint32_t large, uint32_t budget, uint32_t spacing) {
    call = WORLD_OPEN;
    const long held = blocks;
    has_failed = false;
    const int32_t answer = roam_world_open(&w->handle, &p->handle, large, budget, spacing);
    const int32_t wanted = !p->is_full ? ROAM_IS_EMPTY : large < p->n || large > 14 ? ROAM_BAD_GRID
        : budget < 2 || budget > 1048576 ? ROAM_BAD_BUDGET : spacing < 1 || spacing > 1024 ? ROAM_BAD_SPACING : ROAM_OK;
    answers(answer, or_no_memory(wanted));
    if (answer == ROAM_OK) {
        w->is_open = true, w->n = p->n, w->large = large, w->most = budget, w->triangles = 2, p->is_full = false;
        for (int k = 0; k < TABLE; k++) w->loaded[k].is_there = false;
        w->loaded[0].is_there = true, memcpy(w->loaded[0].height, p->height, sizeof p->height);
        open_twin(w, p, budget, spacing);
    } else if (answer == ROAM_NO_MEMORY) {
        p->is_full = false;
        must(blocks < held, "the page is not let go of");
    } else {
        must(blocks == held, "a refused call has left memory behind");
    }
    return answer == ROAM_NO_MEMORY;
}
static void do_world_close(struct world *w) {
    call = WORLD_CLOSE;
    answers(roam_world_close(&w->handle), w->is_open ? ROAM_OK : ROAM_IS_EMPTY);
    close_twin(w);
    w->is_open = false;
}

/* Where a square of 2^cuts columns and rows stands in the table. */
static size_t at(unsigned cuts, uint32_t x, uint32_t y) { return (((size_t)1 << 2 * cuts) - 1) / 3 + ((size_t)y << cuts) + x; }
static bool is_loaded(const struct world *w, unsigned cuts, int64_t x, int64_t y) {
    const int64_t squares = (int64_t)1 << cuts;
    return 0 <= x && x < squares && 0 <= y && y < squares && w->loaded[at(cuts, (uint32_t)x, (uint32_t)y)].is_there;
}

/* The height at a point of the terrain, in grid steps from the near left one, or -1 where no loaded page has it. */
static int32_t height_at(const struct world *w, uint32_t x, uint32_t y) {
    const int64_t side = (int64_t)1 << w->n;
    for (unsigned cuts = 0; cuts <= w->large - w->n; cuts++) {
        const unsigned q = w->large - w->n - cuts;
        const int64_t px = x >> q, py = y >> q;
        if ((x | y) & (((uint32_t)1 << q) - 1)) continue;
        for (int64_t row = py / side - 1; row <= py / side; row++)
            for (int64_t column = px / side - 1; column <= px / side; column++) {
                const int64_t dx = px - column * side, dy = py - row * side;
                if (!is_loaded(w, cuts, column, row) || dx > side || dy > side) continue;
                return w->loaded[at(cuts, (uint32_t)column, (uint32_t)row)].height[(side - dy) * (side + 1) + dx];
            }
    }
    return -1;
}
/* The same at a height of a page, by its place there. */
static int32_t height_under(const struct world *w, uint32_t q, uint32_t column, uint32_t row, size_t k) {
    const uint32_t side = (uint32_t)1 << w->n, dx = (uint32_t)k % (side + 1), dy = side - (uint32_t)k / (side + 1);
    return height_at(w, ((column << w->n) + dx) << q, ((row << w->n) + dy) << q);
}

static bool can_load(const struct world *w, uint32_t q, uint32_t column, uint32_t row, const struct page *p) {
    if (q >= w->large - w->n) return false;
    const unsigned cuts = w->large - w->n - q;
    const int64_t squares = (int64_t)1 << (cuts - 1), x = column / 2, y = row / 2;
    if (column >= 2 * squares || row >= 2 * squares || is_loaded(w, cuts, column, row) || p->n != w->n) return false;
    if (!is_loaded(w, cuts - 1, x, y)) return false;
    if ((x > 0 && !is_loaded(w, cuts - 1, x - 1, y)) || (x + 1 < squares && !is_loaded(w, cuts - 1, x + 1, y)) ||
        (y > 0 && !is_loaded(w, cuts - 1, x, y - 1)) || (y + 1 < squares && !is_loaded(w, cuts - 1, x, y + 1))) return false;
    for (size_t k = 0; k < side_of(p->n) * side_of(p->n); k++) {
        const int32_t there = height_under(w, q, column, row, k);
        if (there >= 0 && there != p->height[k]) return false;
    }
    return true;
}
static bool can_unload(const struct world *w, uint32_t q, uint32_t column, uint32_t row) {
    if (q >= w->large - w->n) return false;
    const unsigned cuts = w->large - w->n - q;
    if (q == 0) return true;
    for (uint32_t y = 0; y < (uint32_t)2 << cuts; y++)
        for (uint32_t x = 0; x < (uint32_t)2 << cuts; x++) {
            const int64_t dx = (int64_t)(x / 2) - column, dy = (int64_t)(y / 2) - row;
            if (dx * dx + dy * dy <= 1 && is_loaded(w, cuts + 1, x, y)) return false;
        }
    return true;
}

static void do_load(struct world *w, uint32_t q, uint32_t column, uint32_t row, struct page *p) {
    call = WORLD_LOAD;
    const bool can = w->is_open && p->is_full && can_load(w, q, column, row, p);
    const int32_t answer = WITHOUT_MEMORY(roam_world_load(&w->handle, q, column, row, &p->handle));
    answers(answer, !w->is_open || !p->is_full ? ROAM_IS_EMPTY : can ? ROAM_OK : ROAM_BAD_PAGE);
    if (answer != ROAM_OK) return;
    const size_t k = at(w->large - w->n - q, column, row);
    w->loaded[k].is_there = true, memcpy(w->loaded[k].height, p->height, sizeof p->height), p->is_full = false;
    close_twin(w);
}
static void do_unload(struct world *w, uint32_t q, uint32_t column, uint32_t row, struct page *p) {
    call = WORLD_UNLOAD;
    const bool is_there = w->is_open && q <= w->large - w->n && is_loaded(w, w->large - w->n - q, column, row);
    has_failed = false;
    const int32_t answer = roam_world_unload(&w->handle, q, column, row, &p->handle);
    left = -1;
    answers(answer, !w->is_open ? ROAM_IS_EMPTY : has_failed ? ROAM_NO_MEMORY : !is_there ? ROAM_NOT_THERE
        : can_unload(w, q, column, row) ? ROAM_OK : ROAM_BAD_PAGE);
    if (answer != ROAM_OK) return;
    const size_t k = at(w->large - w->n - q, column, row);
    w->loaded[k].is_there = false, p->is_full = true, p->n = w->n, memcpy(p->height, w->loaded[k].height, sizeof p->height);
}

/* The loaded heights of a world whose side is halved at most CUTS times, and those of its twin: the coarsest page's. */
static bool change_loaded(struct world *w, const struct change *c) {
    bool is_there = false;
    for (unsigned cuts = 0; cuts <= w->large - w->n; cuts++)
        for (uint32_t k = 0; k < (uint32_t)1 << 2 * cuts; k++) {
            const uint32_t q = w->large - w->n - cuts, column = k % ((uint32_t)1 << cuts), row = k >> cuts;
            const size_t here = at(cuts, column, row);
            if (!w->loaded[here].is_there) continue;
            const uint32_t x = column << (w->n + q), y = row << (w->n + q);
            is_there |= change_heights(w->loaded[here].height, w->n, x, y, (uint32_t)1 << q, c);
        }
    return is_there;
}
static void change_twin(struct world *w, const struct change *c) {
    const unsigned q = w->large - w->n;
    const uint32_t last = ((uint32_t)1 << q) - 1, x0 = (c->x0 + last) >> q, y0 = (c->y0 + last) >> q;
    const uint32_t x1 = c->x1 >> q, y1 = c->y1 >> q;
    if (x0 > x1 || y0 > y1) return;
    (void)(c->is_set ? roam_set(&w->twin, x0, y0, c->height) : roam_raise(&w->twin, x0, y0, x1, y1, c->dz));
}
static void do_change(struct world *w, const struct change *c) {
    call = c->is_set ? WORLD_SET_HEIGHT : WORLD_RAISE;
    const int32_t answer = CHANGED(roam_world, &w->handle, c);
    const int32_t wanted = w->is_open ? wanted_change(c, (uint32_t)1 << w->large) : ROAM_IS_EMPTY;
    answers(answer, wanted != ROAM_OK ? wanted : change_loaded(w, c) ? ROAM_OK : ROAM_NOT_THERE);
    if (answer == ROAM_OK) change_twin(w, c);
}

static void do_camera(struct world *w, int64_t x, int64_t y, int64_t z) {
    call = WORLD_CAMERA;
    const int32_t answer = WITHOUT_MEMORY(roam_world_camera(&w->handle, x, y, z));
    answers(answer, !w->is_open ? ROAM_IS_EMPTY : is_place(x, y, z) ? ROAM_OK : ROAM_BAD_CAMERA);
    if (answer == ROAM_OK) (void)roam_camera(&w->twin, x, y, z);
}
static void do_look(struct world *w, const roam_plane *planes, size_t count) {
    call = WORLD_LOOK;
    const int32_t answer = WITHOUT_MEMORY(roam_world_look(&w->handle, planes, count));
    answers(answer, wanted_look(w->is_open, planes, count));
    if (answer == ROAM_OK) (void)roam_look(&w->twin, planes, count);
}
static void do_threshold(struct world *w, uint64_t ratio) {
    call = WORLD_THRESHOLD;
    const int32_t answer = WITHOUT_MEMORY(roam_world_threshold(&w->handle, ratio));
    answers(answer, w->is_open ? ROAM_OK : ROAM_IS_EMPTY);
    (void)roam_threshold(&w->twin, ratio);
}
static void do_budget(struct world *w, uint32_t triangles) {
    call = WORLD_BUDGET;
    const int32_t answer = WITHOUT_MEMORY(roam_world_budget(&w->handle, triangles));
    answers(answer, !w->is_open ? ROAM_IS_EMPTY : triangles < 2 || triangles > w->most ? ROAM_BAD_BUDGET : ROAM_OK);
    if (answer == ROAM_OK) (void)roam_budget(&w->twin, triangles);
}
static void do_frame(struct world *w) {
    call = WORLD_FRAME;
    roam_world_note note;
    roam_frame_note twin;
    fill(&note, sizeof note);
    const int32_t answer = WITHOUT_MEMORY(roam_world_frame(&w->handle, &note));
    answers(answer, w->is_open ? ROAM_OK : ROAM_IS_EMPTY);
    if (answer != ROAM_OK) must(is_filled(&note, sizeof note), "a refused call has written");
    else {
        w->triangles = note.triangles;
        must(note.spare == 0 && note.triangles >= 2 && note.triangles <= w->most, "the note is none");
        if (roam_frame(&w->twin, &twin) != ROAM_OK) return;
        must(note.worst == twin.worst && note.triangles == twin.triangles, "the mesh is another than the engine's");
        must(note.blocking == twin.blocking && note.need == twin.need, "what blocks is another than at the engine");
    }
}

static void do_leaves(struct world *w, size_t places) {
    call = WORLD_LEAVES;
    static uint32_t list[ROOM], of_twin[ROOM];
    if (places > ROOM) places = ROOM;
    size_t count, twins;
    fill(list, sizeof list), fill(&count, sizeof count);
    const int32_t answer = WITHOUT_MEMORY(roam_world_leaves(&w->handle, list, places, &count));
    answers(answer, !w->is_open ? ROAM_IS_EMPTY : places < w->triangles ? ROAM_NO_ROOM : ROAM_OK);
    if (answer == ROAM_OK) {
        must(count == w->triangles && is_filled(list + count, sizeof list - count * sizeof *list), "the count is another");
        if (roam_leaves(&w->twin, of_twin, ROOM, &twins) != ROAM_OK) return;
        must(twins == count && memcmp(list, of_twin, count * sizeof *list) == 0, "the mesh is another than the engine's");
    } else {
        must(is_filled(list, sizeof list) && is_filled(&count, sizeof count), "a refused call has written");
    }
}

#include "world_draws.h"

/* --- Arguments at the ends of their ranges, and random ones. --- */

static const size_t counts[] = { 9, 9, 25, 25, 81, 81, 289, 0, 1, 4, 8, 10, 16, 24, 26, 80, 82, 288 };

static void make_page(struct page *p) {
    draw_heights(heights, POINTS);
    if (below(16) == 0) left = (long)below(8);
    do_page_make(p, heights, OF(counts));
    left = -1;
}
static void open_world(struct world *w) {
    static const uint32_t larges[] = { 0, 1, 2, 3, 5, 6, 15, 31, 32, UINT32_MAX };
    static const uint32_t budgets[] = { 0, 1, 2, 3, 4, 1048576, 1048577, UINT32_MAX }, spacings[] = { 0, 1, 2, 1024, 1025, UINT32_MAX };
    struct page *p = &pages[below(PAGES)];
    if (!p->is_full && below(8)) make_page(p);
    if (below(16) == 0) left = (long)below(8);
    do_world_open(w, p, below(8) ? p->n + (uint32_t)below(4) : OF(larges), below(8) ? 2 + (uint32_t)below(600) : OF(budgets),
                  below(8) ? 1 + (uint32_t)below(100) : OF(spacings));
    left = -1;
}
/* A square of a resolution, nearly always one that there is. */
static void square(const struct world *w, uint32_t *q, uint32_t *column, uint32_t *row) {
    static const uint32_t ends[] = { 0, 1, 2, 14, 31, 32, 16384, UINT32_MAX };
    const unsigned cuts = (unsigned)below(w->large - w->n + 1);
    *q = below(16) ? w->large - w->n - cuts : OF(ends);
    *column = below(16) ? (uint32_t)below((size_t)1 << cuts) : OF(ends), *row = below(16) ? (uint32_t)below((size_t)1 << cuts) : OF(ends);
}
/* Worlds whose sides are halved more often are left with their coarsest page. */
static bool is_told(const struct world *w) { return w->large - w->n <= CUTS; }
static void load(struct world *w) {
    uint32_t q, column, row;
    struct page *p = &pages[below(PAGES)];
    if (!is_told(w)) return;
    square(w, &q, &column, &row);
    if (below(8) && w->is_open && q < w->large - w->n && column >> (w->large - w->n - q) == 0 && row >> (w->large - w->n - q) == 0) {
        static uint16_t fitting[POINTS];
        const size_t count = side_of(w->n) * side_of(w->n);
        for (size_t k = 0; k < count; k++) {
            const int32_t there = height_under(w, q, column, row, k);
            fitting[k] = (uint16_t)(there >= 0 ? (uint64_t)there : word() & 0xFF);
        }
        if (below(8) == 0) fitting[below(count)] ^= 1;
        do_page_make(p, fitting, count);
    }
    do_load(w, q, column, row, p);
}
static void unload(struct world *w) {
    uint32_t q, column, row;
    if (!is_told(w)) return;
    square(w, &q, &column, &row);
    if (below(16) == 0) left = 0;
    do_unload(w, q, column, row, &pages[below(PAGES)]);
}
/* An area of a grid of so many steps a side, nearly always one that there is, and a change of its heights. */
static struct change change(uint32_t side) {
    static const uint32_t ends[] = { 0, 1, 2, 16, 17, 16384, 16385, UINT32_MAX };
    static const int32_t changes[] = { 0, 1, -1, 65535, -65535, 65536, -65536, INT32_MAX, INT32_MIN };
    struct change c;
    c.is_set = below(2), c.height = (uint16_t)word(), c.dz = below(8) ? (int32_t)below(401) - 200 : OF(changes);
    c.x0 = below(16) ? (uint32_t)below((size_t)side + 1) : OF(ends);
    c.y0 = below(16) ? (uint32_t)below((size_t)side + 1) : OF(ends);
    c.x1 = c.is_set ? c.x0 : below(16) ? c.x0 + (uint32_t)below(side / 2 + 1) : OF(ends);
    c.y1 = c.is_set ? c.y0 : below(16) ? c.y0 + (uint32_t)below(side / 2 + 1) : OF(ends);
    return c;
}
static int64_t place(void) {
    static const int64_t ends[] = { 0, 1, (int64_t)1 << 30, -((int64_t)1 << 30), ((int64_t)1 << 30) + 1, -((int64_t)1 << 30) - 1, INT64_MAX, INT64_MIN };
    return below(16) ? (int64_t)below(4096) - 1024 : OF(ends);
}
static void look(struct world *w) {
    static const int64_t slopes[] = { 0, 1, -1, (int64_t)1 << 20, ((int64_t)1 << 20) + 1, -((int64_t)1 << 20) - 1, INT64_MIN };
    roam_plane planes[8];
    const size_t count = below(8) ? below(4) : below(9);
    for (size_t k = 0; k < count; k++) {
        planes[k].a = below(32) ? (int64_t)below(201) - 100 : OF(slopes), planes[k].b = below(32) ? (int64_t)below(201) - 100 : OF(slopes);
        planes[k].c = (int64_t)below(21) - 10, planes[k].d = below(32) ? (int64_t)below(100000) - 20000 : ((int64_t)1 << 50) + (int64_t)below(2);
    }
    do_look(w, planes, count);
}

static void step(void) {
    struct page *p = &pages[below(PAGES)];
    struct world *w = &worlds[below(WORLDS)];
    switch (below(CALLS)) {
    case PAGE_MAKE: make_page(p); break;
    case PAGE_DROP: do_page_drop(p); break;
    case PAGE_SET_HEIGHT: case PAGE_RAISE: { const struct change c = change((uint32_t)1 << p->n); do_page_change(p, &c); break; }
    case WORLD_SET_HEIGHT: case WORLD_RAISE: {
        const struct change c = change((uint32_t)1 << w->large);
        if (is_told(w)) do_change(w, &c);
        break;
    }
    case WORLD_OPEN: if (!w->is_open || below(16) == 0) open_world(w); break;
    case WORLD_CLOSE: if (below(16) == 0) do_world_close(w); break;
    case WORLD_LOAD: load(w); break;
    case WORLD_UNLOAD: if (below(2)) unload(w); break;
    case WORLD_CAMERA: do_camera(w, place(), place(), place()); break;
    case WORLD_LOOK: look(w); break;
    case WORLD_THRESHOLD: do_threshold(w, below(2) ? 0 : word() >> below(64)); break;
    case WORLD_BUDGET: do_budget(w, below(8) ? 2 + (uint32_t)below(w->most > 2 ? w->most : 8) : number(w->most)); break;
    case WORLD_FRAME: do_frame(w); break;
    case WORLD_LEAVES: do_leaves(w, below(4) ? ROOM : below(2) ? w->triangles - 1 : w->triangles); break;
    case WORLD_DRAWS: do_draws(w, below(4) ? ROOM : below(8), below(8) ? 3 * ROOM : 3 * (size_t)w->triangles - below(2)); break;
    default: break;
    }
}

static void start(void) {
    memset(pages, 0, sizeof pages), memset(worlds, 0, sizeof worlds);
    for (int k = 0; k < PAGES; k++) pages[k].n = 1;
    for (int k = 0; k < WORLDS; k++) worlds[k].triangles = 2, worlds[k].n = worlds[k].large = 1;
    fill(&pages[1].handle, sizeof pages[1].handle), fill(&worlds[1].handle, sizeof worlds[1].handle); /* that nobody has written */
    begin_heights(heights, POINTS);
}
static void close_all(void) {
    for (int k = 0; k < PAGES; k++) if (pages[k].is_full) do_page_drop(&pages[k]);
    for (int k = 0; k < WORLDS; k++) if (worlds[k].is_open) do_world_close(&worlds[k]);
}

static void test_refused_allocations(void) {
    struct page *p = &pages[0];
    struct world *w = &worlds[0];
    long count, all = 0;
    for (int is_full = 0; is_full < 2; is_full++) { /* over an empty handle, and over one whose page or world has to stay */
        for (count = 0; left = count, do_page_make(p, heights, 81); count++) left = -1;
        left = -1, all += count;
        must(count > 2, "a page takes no memory");
        for (count = 0; left = count, do_world_open(w, p, 6, 200, 30); count++) left = -1, do_page_make(p, heights, 81);
        left = -1, all += count;
        must(count > 2, "a world takes no memory");
        do_page_make(p, heights, 81);
    }
    printf("%ld allocations, each refused in turn\n", all);
}

/* A handle of one kind is an empty one for the calls of another. */
static void test_kinds(void) {
    union { roam_handle engine; roam_page page; roam_world world; } any;
    roam_page page = ROAM_EMPTY;
    roam_world_note note;
    memset(&any, 0, sizeof any);
    call = PAGE_MAKE, answers(roam_page_make(&any.page, heights, 9), ROAM_OK);
    call = WORLD_FRAME, answers(roam_world_frame(&any.world, &note), ROAM_IS_EMPTY);
    call = WORLD_CLOSE, answers(roam_world_close(&any.world), ROAM_IS_EMPTY);
    must(roam_close(&any.engine) == ROAM_IS_EMPTY, "a page is closed as an engine");
    page = any.page, memset(&any, 0, sizeof any);
    call = WORLD_OPEN, answers(roam_world_open(&any.world, &page, 3, 8, 1), ROAM_OK);
    answers(roam_world_open(&any.world, &page, 3, 8, 1), ROAM_IS_EMPTY);
    call = PAGE_DROP, answers(roam_page_drop(&any.page), ROAM_IS_EMPTY);
    call = WORLD_FRAME, answers(roam_world_frame(&any.world, &note), ROAM_OK);
    call = PAGE_MAKE, answers(roam_page_make(&any.page, heights, 9), ROAM_OK); /* lets go of the world */
    call = PAGE_DROP, answers(roam_page_drop(&any.page), ROAM_OK);
    must(blocks == 0, "blocks are left of what other handles had");
}

/* A terrain of 9 points a side by pages of 3 points a side: with all loaded its frames are those of an engine over the whole grid, and
 * without the finest ones those of an engine over every other point. */
static uint16_t terrain[81];
static void put_all(roam_world *w, uint32_t q) {
    const uint32_t squares = (uint32_t)4 >> q;
    for (uint32_t y = 0; y < squares; y++)
        for (uint32_t x = 0; x < squares; x++) {
            roam_page page = ROAM_EMPTY;
            uint16_t height[9];
            for (uint32_t k = 0; k < 9; k++) height[k] = terrain[(8 - ((2 * y + 2 - k / 3) << q)) * 9 + ((2 * x + k % 3) << q)];
            call = PAGE_MAKE, answers(roam_page_make(&page, height, 9), ROAM_OK);
            call = WORLD_LOAD, answers(roam_world_load(w, q, x, y, &page), ROAM_OK);
            answers(roam_world_load(w, q, x, y, &page), ROAM_IS_EMPTY);
        }
}
static void fly_both(roam_world *w, roam_handle *engine) {
    static const int64_t flight[7][4] = { { 40, 0, 0, 50 }, { 40, 70, 10, 300 }, { 12, 40, 40, 90 }, { 128, 80, 80, 10 }, { 20, -500, 30, 0 },
        { 60, 5, 75, 200 }, { 60, 6, 75, 200 } };
    for (int k = 0; k < 7; k++) {
        roam_world_note note;
        roam_frame_note twin;
        uint32_t list[128], other[128];
        size_t count, twins;
        const int64_t *it = flight[k];
        call = WORLD_CAMERA, answers(roam_world_camera(w, it[1], it[2], it[3]), roam_camera(engine, it[1], it[2], it[3]));
        call = WORLD_BUDGET, answers(roam_world_budget(w, (uint32_t)it[0]), roam_budget(engine, (uint32_t)it[0]));
        call = WORLD_FRAME, answers(roam_world_frame(w, &note), roam_frame(engine, &twin));
        call = WORLD_LEAVES, answers(roam_world_leaves(w, list, 128, &count), roam_leaves(engine, other, 128, &twins));
        must(note.worst == twin.worst && count == twins && memcmp(list, other, count * sizeof *list) == 0, "the mesh is another than the engine's");
    }
}
static void test_paging(void) {
    roam_world w = ROAM_EMPTY;
    roam_page page = ROAM_EMPTY;
    roam_handle finer = ROAM_EMPTY, coarser = ROAM_EMPTY;
    uint16_t half[25], root[9];
    for (uint32_t k = 0; k < 81; k++) terrain[k] = (uint16_t)((37 * (k % 9) + 101 * (8 - k / 9) + 53 * (k % 9) * (8 - k / 9)) % 256);
    for (uint32_t k = 0; k < 25; k++) half[k] = terrain[k / 5 * 18 + k % 5 * 2];
    for (uint32_t k = 0; k < 9; k++) root[k] = terrain[k / 3 * 36 + k % 3 * 4];
    must(roam_open(&finer, terrain, 81, 128, 10) == ROAM_OK && roam_open(&coarser, half, 25, 128, 20) == ROAM_OK, "no engine");
    call = PAGE_MAKE, answers(roam_page_make(&page, root, 9), ROAM_OK);
    call = WORLD_LOAD, answers(roam_world_load(&w, 0, 0, 0, &page), ROAM_IS_EMPTY);
    call = WORLD_UNLOAD, answers(roam_world_unload(&w, 0, 0, 0, &page), ROAM_IS_EMPTY);
    call = WORLD_OPEN, answers(roam_world_open(&w, &page, 3, 128, 10), ROAM_OK);
    put_all(&w, 1), fly_both(&w, &coarser);
    for (int turn = 0; turn < 2; turn++) {
        put_all(&w, 0), fly_both(&w, &finer);
        call = WORLD_RAISE, answers(roam_world_raise(&w, 3, 1, 6, 8, 40), roam_raise(&finer, 3, 1, 6, 8, 40));
        fly_both(&w, &finer);
        answers(roam_world_raise(&w, 3, 1, 6, 8, -40), roam_raise(&finer, 3, 1, 6, 8, -40));
        call = WORLD_SET_HEIGHT, answers(roam_world_set_height(&w, 4, 4, 255), roam_set(&finer, 4, 4, 255)), fly_both(&w, &finer);
        answers(roam_world_set_height(&w, 4, 4, terrain[40]), roam_set(&finer, 4, 4, terrain[40]));
        call = WORLD_UNLOAD, answers(roam_world_unload(&w, 2, 0, 0, &page), ROAM_BAD_PAGE);
        answers(roam_world_unload(&w, 1, 1, 0, &page), ROAM_BAD_PAGE), answers(roam_world_unload(&w, 0, 4, 0, &page), ROAM_NOT_THERE);
        left = 0, answers(roam_world_unload(&w, 0, 0, 0, &page), ROAM_NO_MEMORY), left = -1;
        for (uint32_t k = 0; k < 16; k++) answers(roam_world_unload(&w, 0, k % 4, k / 4, &page), ROAM_OK);
        fly_both(&w, &coarser);
    }
    call = PAGE_DROP, answers(roam_page_drop(&page), ROAM_OK);
    call = WORLD_CLOSE, answers(roam_world_close(&w), ROAM_OK);
    must(roam_close(&finer) == ROAM_OK && roam_close(&coarser) == ROAM_OK && blocks == 0, "blocks are left");
}

static void test_ends(void) { test_kinds(), test_paging(), test_refused_allocations(); }
