/* What roam_world_draws has to write, by the addresses of the leaves and by which pages are loaded. For worlds.c. */
#include "addresses.h"

/* Where a triangle is drawn: the finest loaded page that holds it, and its indices there, if its corners are points there. */
static bool place_of(const struct world *w, uint32_t address, roam_draw *page, uint32_t index[3]) {
    const uint32_t n = w->n, all = (uint32_t)1 << w->large, most = w->large - n < CUTS ? w->large - n : CUTS;
    uint32_t place[3], x[3], y[3];
    corners(address, all + 1, place);
    for (int k = 0; k < 3; k++) x[k] = place[k] % (all + 1), y[k] = all - place[k] / (all + 1);
    for (uint32_t cuts = level(address) / 2 < most ? level(address) / 2 : most;; cuts--) {
        const uint32_t q = w->large - n - cuts, side = (uint32_t)1 << (n + q);
        const uint32_t column = (x[0] + x[1] + x[2]) / 3 / side, row = (y[0] + y[1] + y[2]) / 3 / side;
        if (!is_loaded(w, cuts, column, row)) continue; /* the coarsest one is */
        page->q = q, page->column = column, page->row = row;
        for (int k = 0; k < 3; k++) {
            const uint32_t dx = x[k] - column * side, dy = y[k] - row * side;
            if ((dx | dy) & (((uint32_t)1 << q) - 1)) return false;
            index[k] = (((uint32_t)1 << n) - (dy >> q)) * (((uint32_t)1 << n) + 1) + (dx >> q);
        }
        return true;
    }
}

/* The runs of these leaves, and their indices; 0 if some leaf has no page. */
static size_t runs_of(const struct world *w, const uint32_t *leaves, size_t count, roam_draw *runs, uint32_t *index) {
    size_t all = 0;
    for (size_t k = 0; k < count; k++) {
        roam_draw page = { 0, 0, 0, (uint32_t)k, 1 };
        if (!place_of(w, leaves[k], &page, index + 3 * k)) return 0;
        roam_draw *last = &runs[all == 0 ? 0 : all - 1];
        if (all > 0 && last->q == page.q && last->column == page.column && last->row == page.row) last->triangles++;
        else runs[all++] = page;
    }
    return all;
}

static void do_draws(struct world *w, size_t places, size_t room) {
    static roam_draw wanted[ROOM], draws[ROOM];
    static uint32_t list[ROOM], index[3 * ROOM], indices[3 * ROOM];
    size_t leaves = 0, count, triangles;
    if (w->is_open && roam_world_leaves(&w->handle, list, ROOM, &leaves) != ROAM_OK) return; /* more than are told apart here */
    size_t runs = runs_of(w, list, leaves, wanted, index);
    call = WORLD_DRAWS;
    fill(draws, sizeof draws), fill(indices, sizeof indices), fill(&count, sizeof count), fill(&triangles, sizeof triangles);
    const int32_t answer = WITHOUT_MEMORY(roam_world_draws(&w->handle, draws, places, &count, indices, room, &triangles));
    const bool has_room = runs <= places && 3 * leaves <= room;
    answers(answer, !w->is_open ? ROAM_IS_EMPTY : runs == 0 ? ROAM_NOT_THERE : has_room ? ROAM_OK : ROAM_NO_ROOM);
    if (answer == ROAM_OK || answer == ROAM_NO_ROOM) must(count == runs && triangles == leaves, "the counts are others");
    else must(is_filled(&count, sizeof count) && is_filled(&triangles, sizeof triangles), "a refused call has written");
    if (answer != ROAM_OK) runs = leaves = 0;
    must(memcmp(draws, wanted, runs * sizeof *draws) == 0, "the runs are others");
    must(memcmp(indices, index, 3 * leaves * sizeof *index) == 0, "the corners are others");
    must(is_filled(draws + runs, sizeof draws - runs * sizeof *draws), "more than the runs is written");
    must(is_filled(indices + 3 * leaves, sizeof indices - 3 * leaves * sizeof *indices), "more than the indices is written");
}
