/* Every call of roam.h of an engine with arguments at the ends of their ranges and random ones. Each answer is compared with what the
 * header says, written anew here; after each call the state is compared with a model; what a refused call may not write is
 * compared byte by byte; and each mesh is tested. Allocations fail now and then, and at the end no block is left.
 * usage: calls SEED COUNT       until each call was made COUNT times
 *        calls ends             each side, each allocation refused in turn, and an engine that is worn
 * With -DFUZZER the numbers are those of libFuzzer. Fitters and mosaics have a program of their own, tiles.c. */
enum { OPEN, CLOSE, CAMERA, ADD_PLANE, CLEAR_PLANES, BUDGET, SET, RAISE, FRAME, INDICES, LEAVES, CHANGED, CHANGES, STATE, POSITIONS, COMPACT, STRIP, DEVIATION, FIT, CERTIFICATE, LOOK, RENEW, THRESHOLD, CALLS };
static const char *const names[CALLS] = { "open", "close", "camera", "add_plane", "clear_planes", "budget", "set", "raise", "frame", "indices", "leaves", "changed", "changes", "state",
    "positions", "compact", "strip", "deviation", "fit", "certificate", "look", "renew", "threshold" };
#include "random_calls.h"
#include "addresses.h"

enum { SIDE = 33, POINTS = SIDE * SIDE, MOST = 2 * (SIDE - 1) * (SIDE - 1), ENGINES = 3, ROOM = 3 * MOST + 8 };
static uint16_t heights[POINTS];
static struct engine {
    roam_handle handle;
    bool is_open;
    roam_state_note state;
    int64_t camera[3];
    uint64_t threshold;
    uint16_t height[POINTS]; /* as they are, where the grid has no more */
    uint32_t spacing, triangles, vertices, before_count, before[MOST]; /* of the last frame, and the leaves that were written last */
    uint32_t old_count, old[MOST], now_count, now[MOST]; /* the leaves before and after the last frame */
} engines[ENGINES];
static uint32_t list[ROOM], other[ROOM], gone[ROOM], come[ROOM];

static void test_state(struct engine *e) {
    roam_state_note it;
    int was = call;
    call = STATE;
    fill(&it, sizeof it);
    answers(roam_state(&e->handle, &it), e->is_open ? ROAM_OK : ROAM_IS_EMPTY);
    call = was;
    if (!e->is_open) {
        must(is_filled(&it, sizeof it), "a refused call has written");
        return;
    }
    must(it.side == e->state.side && it.most == e->state.most && it.budget == e->state.budget && it.planes == e->state.planes, "the state is another");
    must(it.way == e->state.way && it.frames == e->state.frames, "the way or the frames are others");
    must(call == FRAME ? it.evaluations >= e->state.evaluations : it.evaluations == e->state.evaluations, "the evaluations are others");
    e->state.evaluations = it.evaluations;
}

static void do_open(struct engine *e, const uint16_t *from, size_t count, uint32_t budget, uint32_t spacing) {
    call = OPEN;
    const int32_t wanted = level_of(count) == 0 ? ROAM_BAD_GRID : budget < 2 || budget > 1048576 ? ROAM_BAD_BUDGET
                     : spacing < 1 || spacing > 1024 ? ROAM_BAD_SPACING : ROAM_OK;
    if (OPENED(roam_open(&e->handle, from, count, budget, spacing), wanted) == ROAM_OK) {
        memset(&e->state, 0, sizeof e->state);
        memset(e->camera, 0, sizeof e->camera);
        e->threshold = 0;
        e->state.side = side_of(level_of(count));
        e->state.most = e->state.budget = budget;
        e->is_open = true, e->triangles = 2, e->vertices = 4, e->before_count = 0, e->spacing = spacing;
        e->old_count = e->now_count = 2, e->old[0] = e->now[0] = 2, e->old[1] = e->now[1] = 3;
        if (count <= POINTS) memcpy(e->height, from, count * sizeof *from);
    }
    test_state(e);
}

static void do_close(struct engine *e) {
    call = CLOSE;
    answers(roam_close(&e->handle), e->is_open ? ROAM_OK : ROAM_IS_EMPTY);
    e->is_open = false;
    test_state(e);
}

static uint64_t distance(int64_t a, int64_t b) { return a < b ? (uint64_t)(b - a) : (uint64_t)(a - b); }

static void do_camera(struct engine *e, int64_t x, int64_t y, int64_t z) {
    call = CAMERA;
    answers(roam_camera(&e->handle, x, y, z), !e->is_open ? ROAM_IS_EMPTY : is_place(x, y, z) ? ROAM_OK : ROAM_BAD_CAMERA);
    if (e->is_open && is_place(x, y, z)) {
        e->state.way += distance(e->camera[0], x) + distance(e->camera[1], y) + distance(e->camera[2], z);
        e->camera[0] = x, e->camera[1] = y, e->camera[2] = z;
    }
    test_state(e);
}

static void do_add_plane(struct engine *e, int64_t a, int64_t b, int64_t c, int64_t d) {
    call = ADD_PLANE;
    const roam_plane plane = { a, b, c, d };
    int32_t wanted = !e->is_open ? ROAM_IS_EMPTY : !is_plane(&plane) ? ROAM_BAD_PLANE : e->state.planes >= 6 ? ROAM_TOO_MANY_PLANES : ROAM_OK;
    answers(roam_add_plane(&e->handle, a, b, c, d), wanted);
    e->state.planes += wanted == ROAM_OK;
    test_state(e);
}

static void do_look(struct engine *e, const roam_plane *planes, size_t count) {
    call = LOOK;
    const int32_t wanted = wanted_look(e->is_open, planes, count);
    answers(roam_look(&e->handle, planes, count), wanted);
    if (wanted == ROAM_OK) e->state.planes = (uint32_t)count;
    test_state(e);
}

static void do_renew(struct engine *e) {
    call = RENEW;
    answers(roam_renew(&e->handle), e->is_open ? ROAM_OK : ROAM_IS_EMPTY);
    e->state.frames = 0;
    test_state(e);
}

static void do_clear_planes(struct engine *e) {
    call = CLEAR_PLANES;
    answers(roam_clear_planes(&e->handle), e->is_open ? ROAM_OK : ROAM_IS_EMPTY);
    e->state.planes = 0;
    test_state(e);
}

static void do_threshold(struct engine *e, uint64_t threshold) {
    call = THRESHOLD;
    answers(roam_threshold(&e->handle, threshold), e->is_open ? ROAM_OK : ROAM_IS_EMPTY);
    if (e->is_open) e->threshold = threshold;
    test_state(e);
}

static void do_budget(struct engine *e, uint32_t budget) {
    call = BUDGET;
    bool is_budget = 2 <= budget && budget <= e->state.most;
    answers(roam_budget(&e->handle, budget), !e->is_open ? ROAM_IS_EMPTY : is_budget ? ROAM_OK : ROAM_BAD_BUDGET);
    if (e->is_open && is_budget) e->state.budget = budget;
    test_state(e);
}

static void do_set(struct engine *e, uint32_t x, uint32_t y, uint16_t height) {
    call = SET;
    bool is_point = x < e->state.side && y < e->state.side;
    answers(roam_set(&e->handle, x, y, height), !e->is_open ? ROAM_IS_EMPTY : is_point ? ROAM_OK : ROAM_OUTSIDE_GRID);
    if (e->is_open && is_point && e->state.side <= SIDE) e->height[(e->state.side - 1 - y) * e->state.side + x] = height;
    test_state(e);
}

static void do_raise(struct engine *e, uint32_t x0, uint32_t y0, uint32_t x1, uint32_t y1, int32_t dz) {
    call = RAISE;
    bool is_area = x0 <= x1 && y0 <= y1 && x1 < e->state.side && y1 < e->state.side;
    int32_t wanted = !e->is_open ? ROAM_IS_EMPTY : !is_area ? ROAM_OUTSIDE_GRID : is_within(dz, 65535) ? ROAM_OK : ROAM_BAD_CHANGE;
    answers(roam_raise(&e->handle, x0, y0, x1, y1, dz), wanted);
    if (wanted == ROAM_OK && e->state.side <= SIDE) for (uint32_t y = y0; y <= y1; y++) for (uint32_t x = x0; x <= x1; x++) {
        uint16_t *at = &e->height[(e->state.side - 1 - y) * e->state.side + x];
        int32_t z = *at + dz;
        *at = (uint16_t)(z < 0 ? 0 : z > 65535 ? 65535 : z);
    }
    test_state(e);
}

static void do_frame(struct engine *e) {
    call = FRAME;
    roam_frame_note it;
    fill(&it, sizeof it);
    int32_t wanted = !e->is_open ? ROAM_IS_EMPTY : e->state.frames >= 1000000 ? ROAM_WORN : ROAM_OK;
    answers(roam_frame(&e->handle, &it), wanted);
    if (wanted == ROAM_OK) {
        must(2 <= it.triangles && it.triangles <= e->state.budget, "the mesh is not within the budget");
        must(it.triangles <= 2 * (e->state.side - 1) * (e->state.side - 1), "more triangles than the grid has");
        must(it.blocking == 0 ? it.worst == 0 && it.need == 0 : it.worst > e->threshold && it.need > e->state.budget, "the certificate");
        must(it.triangles - e->triangles == it.splits - it.merges, "splits and merges do not lead to the mesh");
        must(it.inside + it.cut + it.outside == it.triangles && (e->state.planes > 0 || it.inside == it.triangles), "the counts by planes");
        must(it.spare == 0, "spare");
        e->triangles = it.triangles, e->vertices = it.vertices;
        e->state.frames++;
        size_t count;
        memcpy(e->old, e->now, sizeof e->old), e->old_count = e->now_count;
        call = LEAVES;
        answers(roam_leaves(&e->handle, e->now, MOST, &count), ROAM_OK);
        call = FRAME, e->now_count = (uint32_t)count;
    } else {
        must(is_filled(&it, sizeof it), "a refused call has written");
    }
    test_state(e);
}

/* Of a list of addresses and a list of indices, `each` numbers a triangle. */
static void do_list(struct engine *e, size_t places, unsigned each) {
    call = each == 3 ? INDICES : LEAVES;
    size_t triangles;
    if (places > ROOM) places = ROOM;
    fill(list, sizeof list), fill(&triangles, sizeof triangles);
    int32_t answer = each == 3 ? roam_indices(&e->handle, list, places, &triangles) : roam_leaves(&e->handle, list, places, &triangles);
    int32_t wanted = !e->is_open ? ROAM_IS_EMPTY : places < each * (size_t)e->triangles ? ROAM_NO_ROOM : ROAM_OK;
    answers(answer, wanted);
    size_t written = wanted == ROAM_OK ? each * (size_t)e->triangles : 0;
    must(is_filled(list + written, sizeof list - written * sizeof *list), "places were written that no triangle has");
    if (wanted != ROAM_OK) {
        must(is_filled(&triangles, sizeof triangles), "a refused call has written");
    } else {
        must(triangles == e->triangles, "the count is not that of the frame");
        if (each == 1) {
            test_leaves(list, e->triangles, e->state.side);
            memcpy(e->before, list, written * sizeof *list);
            e->before_count = e->triangles;
        } else {
            call = LEAVES;
            answers(roam_leaves(&e->handle, other, ROOM, &triangles), ROAM_OK);
            call = INDICES;
            for (uint32_t k = 0; k < e->triangles; k++) {
                uint32_t place[3];
                corners(other[k], e->state.side, place);
                must(memcmp(place, list + 3 * k, sizeof place) == 0, "the indices are not the corners of the leaves");
            }
        }
    }
    test_state(e);
}

static bool has(const uint32_t *in, size_t count, uint32_t address) {
    for (size_t k = 0; k < count; k++) if (in[k] == address) return true;
    return false;
}
/* What the first list has alone, in its order, with as many as there is room for, and untouched places behind. */
static void test_alone(const uint32_t *first, size_t firsts, const uint32_t *second, size_t seconds, const uint32_t *out, size_t space, size_t count) {
    size_t alone = 0;
    for (size_t k = 0; k < firsts; k++) {
        if (has(second, seconds, first[k])) continue;
        must(alone >= space || out[alone] == first[k], "an address is missing, or stands in another place");
        alone++;
    }
    must(count == alone, "the count is another");
    if (alone < space) space = alone;
    must(is_filled(out + space, (ROOM - space) * sizeof *out), "places were written for which there was no room");
}

/* How many of the first list the second has not. */
static size_t alone(const uint32_t *first, size_t firsts, const uint32_t *second, size_t seconds) {
    size_t count = 0;
    for (size_t k = 0; k < firsts; k++) count += !has(second, seconds, first[k]);
    return count;
}

/* By how many places the rooms are too small, or none. */
static void do_changed(struct engine *e, size_t gone_lack, size_t come_lack) {
    call = CHANGED;
    roam_changes_note it;
    fill(gone, sizeof gone), fill(come, sizeof come), fill(&it, sizeof it);
    size_t went = alone(e->old, e->old_count, e->now, e->now_count), came = alone(e->now, e->now_count, e->old, e->old_count);
    size_t gone_room = went > gone_lack ? went - gone_lack : went, come_room = came > come_lack ? came - come_lack : came;
    int32_t wanted = !e->is_open ? ROAM_IS_EMPTY : gone_room < went || come_room < came ? ROAM_NO_ROOM : ROAM_OK;
    answers(roam_changed(&e->handle, gone, gone_room, come, come_room, &it), wanted);
    if (wanted == ROAM_OK) {
        test_alone(e->old, e->old_count, e->now, e->now_count, gone, gone_room, it.gone);
        test_alone(e->now, e->now_count, e->old, e->old_count, come, come_room, it.come);
    } else {
        must(is_filled(gone, sizeof gone) && is_filled(come, sizeof come) && is_filled(&it, sizeof it), "a refused call has written");
    }
    test_state(e);
}

static void do_changes(const struct engine *a, const struct engine *b, size_t gone_room, size_t come_room, bool is_strange) {
    call = CHANGES;
    roam_changes_note it;
    fill(gone, sizeof gone), fill(come, sizeof come), fill(&it, sizeof it);
    size_t befores = a->before_count, afters = b->before_count;
    memcpy(list, a->before, sizeof a->before), memcpy(other, b->before, sizeof b->before);
    if (is_strange && befores + afters > 0) for (int k = 0; k < 3; k++) {
        uint32_t *in = below(2) ? list : other;
        in[below(MOST)] = (uint32_t)word() >> below(32);
    }
    bool is_one_grid = a->state.side == b->state.side || befores == 0 || afters == 0;
    roam_changes(list, befores, other, afters, gone, gone_room, come, come_room, &it);
    answers(ROAM_OK, ROAM_OK);
    if (is_strange || !is_one_grid) { /* no lists of one grid: any counts, but nothing beyond the room */
        must(is_filled(gone + gone_room, (ROOM - gone_room) * sizeof *gone), "places were written for which there was no room");
        must(is_filled(come + come_room, (ROOM - come_room) * sizeof *come), "places were written for which there was no room");
        return;
    }
    test_alone(list, befores, other, afters, gone, gone_room, it.gone);
    test_alone(other, afters, list, befores, come, come_room, it.come);
}

/* The mesh again, as indices in `other`. */
static void indices_again(struct engine *e) {
    size_t triangles;
    int was = call;
    call = INDICES;
    answers(roam_indices(&e->handle, other, ROOM, &triangles), ROAM_OK);
    call = was;
}

static void do_vertices(struct engine *e, size_t places, bool is_compact) {
    call = is_compact ? COMPACT : POSITIONS;
    size_t count, wanted_count = is_compact ? e->triangles : e->vertices, side = e->state.side;
    fill(list, sizeof list), fill(&count, sizeof count);
    int32_t answer = is_compact ? roam_compact(&e->handle, list, places, &count) : roam_positions(&e->handle, list, places, &count);
    int32_t wanted = !e->is_open ? ROAM_IS_EMPTY : places < 3 * wanted_count ? ROAM_NO_ROOM : ROAM_OK;
    answers(answer, wanted);
    size_t written = wanted == ROAM_OK ? 3 * wanted_count : 0;
    must(is_filled(list + written, sizeof list - written * sizeof *list), "places were written that the mesh has not");
    if (wanted != ROAM_OK) {
        must(is_filled(&count, sizeof count), "a refused call has written");
        test_state(e);
        return;
    }
    must(count == wanted_count, "the count is not that of the frame");
    if (!is_compact) for (size_t k = 0; k < count; k++) { /* by y and then by x, each at its height */
        const uint32_t *v = list + 3 * k, *before = v - 3;
        must(v[0] % e->spacing == 0 && v[1] % e->spacing == 0, "a vertex is no grid point");
        size_t x = v[0] / e->spacing, y = v[1] / e->spacing;
        must(x < side && y < side && v[2] == e->height[(side - 1 - y) * side + x], "a vertex has another height");
        must(k == 0 || before[1] < v[1] || (before[1] == v[1] && before[0] < v[0]), "the vertices do not stand in order");
    }
    if (is_compact) { /* the vertices of the indices, one by one */
        size_t vertices;
        call = POSITIONS;
        answers(roam_positions(&e->handle, gone, ROOM, &vertices), ROAM_OK);
        call = COMPACT;
        indices_again(e);
        for (size_t k = 0; k < written; k++) {
            must(list[k] < vertices, "a vertex that the mesh has not");
            size_t x = gone[3 * list[k]] / e->spacing, y = gone[3 * list[k] + 1] / e->spacing;
            must((side - 1 - y) * side + x == other[k], "a vertex is another than that of the indices");
        }
    }
    test_state(e);
}

static int by_corners(const void *a, const void *b) { return memcmp(a, b, 3 * sizeof(uint32_t)); }
static bool share_an_edge(const uint32_t *a, const uint32_t *b) {
    int shared = 0;
    for (int i = 0; i < 3; i++) for (int j = 0; j < 3; j++) shared += a[i] == b[j];
    return shared == 2;
}

static void do_strip(struct engine *e, size_t places) {
    call = STRIP;
    long held = blocks;
    size_t triangles, count = e->triangles;
    fill(list, sizeof list), fill(&triangles, sizeof triangles);
    has_failed = false;
    int32_t answer = roam_strip(&e->handle, list, places, &triangles);
    int32_t wanted = or_no_memory(!e->is_open ? ROAM_IS_EMPTY : places < 3 * count ? ROAM_NO_ROOM : ROAM_OK);
    answers(answer, wanted);
    must(blocks == held, "the call has left memory behind");
    size_t written = wanted == ROAM_OK ? 3 * count : 0;
    must(is_filled(list + written, sizeof list - written * sizeof *list), "places were written that no triangle has");
    if (wanted == ROAM_OK) {
        must(triangles == count, "the count is not that of the frame");
        for (size_t k = 0; k < count; k++) must(share_an_edge(list + 3 * k, list + 3 * ((k + 1) % count)) || count == 2, "neighbours share no edge");
        indices_again(e);
        qsort(list, count, 3 * sizeof *list, by_corners), qsort(other, count, 3 * sizeof *other, by_corners);
        must(memcmp(list, other, 3 * count * sizeof *list) == 0, "the triangles of the strip are not those of the mesh");
    } else {
        must(is_filled(&triangles, sizeof triangles), "a refused call has written");
    }
    test_state(e);
}

/* How far the heights are from these triangles at most, times side - 1; they have to cover the square. */
static uint64_t deviation_of(const struct engine *e, const uint32_t *index, size_t triangles) {
    int64_t side = (int64_t)e->state.side, over = side - 1, most = 0, all = 0;
    for (size_t k = 0; k < triangles; k++, index += 3) {
        int64_t p[3][2], z[3], low[2] = { side, side }, high[2] = { 0, 0 };
        for (int c = 0; c < 3; c++) {
            must(index[c] < (size_t)(side * side), "an index is no place in the heights");
            p[c][0] = index[c] % side, p[c][1] = over - index[c] / side, z[c] = e->height[index[c]];
            for (int a = 0; a < 2; a++) {
                if (p[c][a] < low[a]) low[a] = p[c][a];
                if (p[c][a] > high[a]) high[a] = p[c][a];
            }
        }
        int64_t area = doubled(p[0], p[1], p[2]);
        must(area > 0, "a triangle does not turn counterclockwise");
        all += area;
        for (int64_t y = low[1]; y <= high[1]; y++) for (int64_t x = low[0]; x <= high[0]; x++) {
            int64_t r[2] = { x, y }, a = doubled(r, p[1], p[2]), b = doubled(r, p[2], p[0]), c = doubled(r, p[0], p[1]);
            if (a < 0 || b < 0 || c < 0) continue;
            int64_t off = over * e->height[(over - y) * side + x] - over * (a * z[0] + b * z[1] + c * z[2]) / area;
            if (off < 0) off = -off;
            if (off > most) most = off;
        }
    }
    must(all == 2 * over * over, "the triangles do not cover the square");
    return (uint64_t)most;
}

static void do_deviation(struct engine *e) {
    call = DEVIATION;
    roam_deviation_note it;
    fill(&it, sizeof it);
    answers(roam_deviation(&e->handle, &it), e->is_open ? ROAM_OK : ROAM_IS_EMPTY);
    if (!e->is_open) {
        must(is_filled(&it, sizeof it), "a refused call has written");
    } else {
        must(it.over == e->state.side - 1, "over is another");
        indices_again(e);
        must(it.off == deviation_of(e, other, e->triangles), "off is another");
    }
    test_state(e);
}

static void do_fit(struct engine *e, uint32_t thousandths, uint32_t budget, size_t places) {
    call = FIT;
    long held = blocks;
    roam_fit_note it;
    size_t steps = e->is_open ? e->state.side - 1 : 1, room = budget < 2 * steps * steps ? budget : 2 * steps * steps;
    fill(list, sizeof list), fill(&it, sizeof it);
    has_failed = false;
    int32_t answer = roam_fit(&e->handle, thousandths, budget, list, places, &it);
    int32_t wanted = or_no_memory(!e->is_open ? ROAM_IS_EMPTY : budget < 2 ? ROAM_BAD_BUDGET : places < 3 * room ? ROAM_NO_ROOM
                                  : thousandths > 65535999 ? ROAM_BAD_TOLERANCE : ROAM_OK);
    answers(answer, wanted);
    must(blocks == held, "the call has left memory behind");
    size_t written = wanted == ROAM_OK ? 3 * (size_t)it.triangles : 0;
    must(is_filled(list + written, sizeof list - written * sizeof *list), "places were written that no triangle has");
    if (wanted == ROAM_OK) {
        must(it.triangles <= budget && it.over == steps, "more triangles than the budget, or over is another");
        must(it.off == deviation_of(e, list, it.triangles), "off is another");
        must(budget < 2 * steps * steps || it.off * 1000 <= thousandths * (uint64_t)steps, "not within the tolerance");
        uint32_t vertices = 0;
        bool is_vertex[POINTS] = { false };
        for (size_t k = 0; k < written; k++) if (!is_vertex[list[k]]) is_vertex[list[k]] = true, vertices++;
        must(it.vertices == vertices, "the vertices are others");
    } else {
        must(is_filled(&it, sizeof it), "a refused call has written");
    }
    test_state(e);
}

static char text[48 + 33 * 2 * MOST + 8];
static void do_certificate(struct engine *e, int64_t x, int64_t y, int64_t z, size_t room) {
    call = CERTIFICATE;
    long held = blocks;
    size_t length, leaves = 0, reasons = 0;
    if (room > sizeof text) room = sizeof text;
    fill(text, sizeof text), fill(&length, sizeof length);
    has_failed = false;
    int32_t answer = roam_certificate(&e->handle, x, y, z, text, room, &length);
    int32_t wanted = or_no_memory(!e->is_open ? ROAM_IS_EMPTY : is_place(x, y, z) ? ROAM_OK : ROAM_BAD_CAMERA);
    if (answer == ROAM_NO_ROOM && wanted == ROAM_OK) { /* by as much as is enough at first, else by one byte */
        must(room < 48 + 33 * (size_t)e->state.budget, "there is room enough");
        answers(answer, ROAM_NO_ROOM);
        must(is_filled(text, sizeof text) && is_filled(&length, sizeof length), "a refused call has written");
        test_state(e);
        return;
    }
    answers(answer, wanted);
    must(blocks == held, "the call has left memory behind");
    if (wanted == ROAM_OK) {
        must(length <= room && text[length - 1] == '\n', "the text has no end");
        must(is_filled(text + length, sizeof text - length), "bytes were written behind the text");
        char first[80];
        int size = sprintf(first, "camera %lld %lld %lld\n", (long long)x, (long long)y, (long long)z);
        must(strncmp(text, first, (size_t)size) == 0, "the first line is another");
        for (char *line = text + size, *next; line < text + length; line = next) {
            next = memchr(line, '\n', (size_t)(text + length - line)), next++;
            unsigned address;
            if (sscanf(line, "leaf %u", &address) == 1) must(reasons == 0, "a leaf behind a reason"), list[leaves++] = address;
            else must(sscanf(line, "want %u", &address) == 1 || sscanf(line, "parent %u", &address) == 1 || sscanf(line, "mate %u", &address) == 1, "a line of no kind"), reasons++;
        }
        must(leaves <= e->state.budget && reasons < e->state.budget, "more leaves or reasons than the budget");
        test_leaves(list, (uint32_t)leaves, e->state.side);
    } else {
        must(is_filled(text, sizeof text) && is_filled(&length, sizeof length), "a refused call has written");
    }
    test_state(e);
}

/* --- Arguments at the ends of their ranges, and random ones. --- */

static int64_t signed_number(void) {
    static const int64_t ends[] = { 20, 30, 50, 63 };
    int64_t end = OF(ends), power = (int64_t)((uint64_t)1 << (end < 63 ? end : 0)), one = (int64_t)below(3) - 1;
    switch (below(5)) {
    case 0: return power + one;
    case 1: return -power - one;
    case 2: return below(2) ? INT64_MIN : INT64_MAX;
    case 3: return (int64_t)below(4000) - 1000;
    default: return (int64_t)(word() >> below(64)) * (below(2) ? 1 : -1);
    }
}
/* One that a call mostly takes. */
static int64_t place_number(void) { return below(8) ? (int64_t)below(3000) - 500 : signed_number(); }
static size_t room_for(size_t count) {
    const size_t rooms[] = { 0, 1, 2, count > 0 ? count - 1 : 0, count, count, count, count + 1, count + 2, ROOM };
    size_t it = OF(rooms);
    return it < ROOM ? it : ROOM;
}

static void open_some(struct engine *e) {
    static const size_t counts[] = { 9, 9, 25, 25, 81, 81, 289, 1089, 0, 1, 4, 8, 10, 16, 24, 26, 80, 82, 290, 1088 };
    static const uint32_t budgets[] = { 0, 1, 2, 3, 1048577, UINT32_MAX };
    static const uint32_t spacings[] = { 0, 1, 2, 1023, 1024, 1025, UINT32_MAX };
    draw_heights(heights, POINTS);
    if (below(16) == 0) left = (long)below(32);
    do_open(e, heights, OF(counts), below(8) ? 2 + (uint32_t)below(300) : OF(budgets), below(4) ? 1 + (uint32_t)below(40) : OF(spacings));
    left = -1;
}

static void step(void) {
    struct engine *e = &engines[below(ENGINES)];
    uint32_t side = e->is_open ? (uint32_t)e->state.side : 5;
    switch (below(CALLS)) {
    case OPEN: open_some(e); break;
    case CLOSE:
        do_close(e);
        while (!e->is_open && below(8)) open_some(e);
        break;
    case CAMERA: do_camera(e, place_number(), place_number(), place_number()); break;
    case ADD_PLANE:
        for (size_t more = below(4) ? 1 : below(9); more > 0; more--)
            do_add_plane(e, (int64_t)below(9) - 4, (int64_t)below(9) - 4, (int64_t)below(9) - 4, (int64_t)below(2000) - 1000);
        do_add_plane(e, signed_number(), place_number(), place_number(), signed_number());
        break;
    case CLEAR_PLANES: do_clear_planes(e); break;
    case BUDGET: do_budget(e, number(e->is_open ? e->state.most : 9)); break;
    case SET: do_set(e, number(side), number(side), (uint16_t)(word() >> below(64))); break;
    case RAISE: {
        static const int32_t ends[] = { 0, 1, -1, 65535, -65535, 65536, -65536, INT32_MAX, INT32_MIN };
        uint32_t x = number(side), y = number(side), is_free = below(4) == 0;
        do_raise(e, x, y, is_free ? number(side) : x + (uint32_t)below(3), is_free ? number(side) : y + (uint32_t)below(3),
                 below(2) ? (int32_t)below(900) - 450 : OF(ends));
        break;
    }
    case FRAME: do_frame(e); break;
    case INDICES: do_list(e, room_for(3 * (size_t)e->triangles), 3); break;
    case LEAVES: do_list(e, room_for(e->triangles), 1); break;
    case CHANGED: do_changed(e, below(4) ? 0 : below(3), below(4) ? 0 : below(3)); break;
    case CHANGES: {
        const struct engine *b = &engines[below(ENGINES)];
        do_changes(e, b, room_for(e->before_count), room_for(b->before_count), below(4) == 0);
        break;
    }
    case POSITIONS: do_vertices(e, room_for(3 * (size_t)e->vertices), false); break;
    case COMPACT: do_vertices(e, room_for(3 * (size_t)e->triangles), true); break;
    case STRIP:
        if (below(16) == 0) left = 0;
        do_strip(e, room_for(3 * (size_t)e->triangles));
        break;
    case DEVIATION: do_deviation(e); break;
    case FIT: {
        uint32_t most = 2 * (side - 1) * (side - 1), budget = below(2) ? number(most) : 2 + (uint32_t)below(60);
        uint32_t thousandths = below(2) ? number(65535999) : (uint32_t)below(400000);
        if (below(16) == 0) left = (long)below(8);
        do_fit(e, thousandths, budget, room_for(3 * (size_t)(budget < most ? budget : most)));
        break;
    }
    case CERTIFICATE:
        if (below(16) == 0) left = (long)below(40);
        do_certificate(e, place_number(), place_number(), place_number(), below(4) ? sizeof text : below(4000));
        break;
    case LOOK: {
        roam_plane planes[8];
        size_t count = below(9);
        for (size_t k = 0; k < count; k++) {
            roam_plane near = { (int64_t)below(9) - 4, (int64_t)below(9) - 4, (int64_t)below(9) - 4, (int64_t)below(2000) - 1000 };
            roam_plane far = { signed_number(), place_number(), place_number(), signed_number() };
            planes[k] = below(16) ? near : far;
        }
        do_look(e, planes, count);
        break;
    }
    case RENEW: do_renew(e); break;
    case THRESHOLD: do_threshold(e, below(4) == 0 ? 0 : word() >> below(64)); break;
    default: test_state(e); break;
    }
}

static void start(void) {
    const roam_handle empty = ROAM_EMPTY;
    memset(engines, 0, sizeof engines);
    engines[0].handle = empty;
    fill(&engines[1].handle, sizeof engines[1].handle); /* a handle that nobody has written */
    begin_heights(heights, POINTS);
}
static void close_all(void) {
    for (int k = 0; k < ENGINES; k++) if (engines[k].is_open) do_close(&engines[k]);
}

/* --- What random calls do not come to. --- */

static void test_sides(void) {
    struct engine *e = &engines[0];
    size_t most = (size_t)8193 * 8193;
    uint16_t *large = calloc(most + 1, sizeof *large);
    must(large != NULL, "out of memory");
    for (unsigned n = 1; n <= 13; n++) {
        size_t count = side_of(n) * side_of(n);
        do_open(e, large, count - 1, 2, 1);
        do_open(e, large, count + 1, 2, 1);
        do_open(e, large, count, n >= 11 ? 1048576 : 2, 1024);
        do_set(e, 1u << n, 1u << n, 65535), do_set(e, (1u << n) + 1, 0, 1), do_set(e, 0, (1u << n) + 1, 1);
        do_raise(e, 0, 0, 1u << n, 1u << n, 65535), do_raise(e, 0, 0, (1u << n) + 1, 1u << n, 1);
        do_budget(e, 2);
        do_frame(e);
    }
    do_close(e);
    free(large);
}

static void test_refused_allocations(void) {
    struct engine *e = &engines[0];
    long count = 0;
    for (int is_full = 0; is_full < 2; is_full++) { /* over an empty handle, and over one whose engine has to stay */
        do_open(e, heights, 81, 40, 3);
        if (!is_full) do_close(e);
        for (count = 0;; count++) {
            left = count;
            do_open(e, heights, 289, 60, 5);
            if (!has_failed) break;
            must(e->is_open == (is_full == 1), "a refused open has changed the handle");
            if (is_full) do_frame(e), do_list(e, ROOM, 3);
        }
        do_frame(e);
        do_close(e);
    }
    must(count >= 3, "hardly any allocation was refused");
    left = 0; /* closing takes none */
    do_close(e);
    left = -1;
    printf("%ld allocations, each refused in turn\n", count);
}

/* Calls that take memory and give it back, with each allocation refused in turn; the others take none. */
static void test_refused_in_calls(void) {
    struct engine *e = &engines[0];
    do_open(e, heights, 289, 60, 5);
    for (int which = 0; which < 3; which++)
        for (long count = 0;; count++) {
            left = count;
            if (which == 0) do_strip(e, ROOM);
            else if (which == 1) do_fit(e, 2000, 50, ROOM);
            else do_certificate(e, 3, 4, 500, sizeof text);
            if (!has_failed) {
                must(count >= 1, "a call takes no memory");
                break;
            }
        }
    left = 0;
    do_frame(e), do_vertices(e, ROOM, false), do_vertices(e, ROOM, true), do_deviation(e), do_list(e, ROOM, 3), do_list(e, ROOM, 1);
    left = -1;
    do_close(e);
}

static void test_worn(void) {
    struct engine *e = &engines[0];
    do_open(e, heights, 9, 8, 1);
    while (e->state.frames < 1000000) do_frame(e);
    do_frame(e), do_camera(e, 1, 2, 3), do_frame(e), do_list(e, ROOM, 3);
    do_renew(e), do_frame(e), do_list(e, ROOM, 3);
    do_open(e, heights, 9, 8, 1);
    do_frame(e);
    do_close(e);
}

static void test_ends(void) { test_sides(), test_refused_in_calls(), test_refused_allocations(), test_worn(); }
