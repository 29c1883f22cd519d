/* What the calls of the C library cost, over the generated grids of roam_bench and with its flights, in processor time of the
 * thread; and how much memory an engine takes.
 * usage: calls N BUDGET STEP      lines NAME CALLS SECONDS; the first and the later frames tell evaluations and changes, too
 *        calls memory N BUDGET    the most bytes that were taken while an engine was opened, and those that it keeps */
#define _POSIX_C_SOURCE 200809L
#include "counted_heap.h"
#include "made.h"
#include "roam.h"

static void tell(const char *name, int calls, double seconds) { printf("%s %d %.9f\n", name, calls, seconds); }

static roam_handle terrain = ROAM_EMPTY;
static roam_frame_note note;
static roam_state_note state;
static uint64_t asked, changed;
static double frame(void) {
    must(roam_state(&terrain, &state));
    uint64_t before = state.evaluations;
    double start = now();
    must(roam_frame(&terrain, &note));
    start = now() - start;
    must(roam_state(&terrain, &state));
    asked += state.evaluations - before, changed += (uint64_t)note.splits + note.merges;
    return start;
}
static void told_frames(const char *name, int count, double seconds) {
    printf("%s %d %.9f evaluations %llu changes %llu\n", name, count, seconds, (unsigned long long)asked, (unsigned long long)changed);
    asked = changed = 0;
}

/* Four planes of a view that has turned k times, from (x, y, z). */
static void view(int k, int64_t x, int64_t y, int64_t z, roam_plane *planes) {
    planes[0] = (roam_plane){ 1000, 1000 + k, 0, -1000 * x - (1000 + k) * y };
    planes[1] = (roam_plane){ -1000, 1000 - k, 0, 1000 * x - (1000 - k) * y };
    planes[2] = (roam_plane){ 0, 1000, 1500 + k, -1000 * y };
    planes[3] = (roam_plane){ 0, 1000, -1500, 1500 * z - 1000 * y };
}

int main(int argc, char **argv) {
    bool is_memory = argc == 4 && strcmp(argv[1], "memory") == 0;
    if (argc != 4) return fprintf(stderr, "usage: calls N BUDGET STEP, or calls memory N BUDGET\n"), 2;
    unsigned n = (unsigned)atoi(argv[is_memory ? 2 : 1]);
    uint32_t budget = (uint32_t)atol(argv[is_memory ? 3 : 2]);
    int64_t step = atol(argv[3]), width = (int64_t)30 << n, x = width / 3, y = width / 2, z = 40000;
    if (n < 1 || n > 14) return 2;
    size_t side = ((size_t)1 << n) + 1, room = budget;
    uint16_t *heights = taken(side * side * sizeof *heights);
    made_heights(n, n, 0, 0, 0, heights);

    double start = now();
    must(roam_open(&terrain, heights, side * side, budget, 30));
    tell("open", 1, now() - start);
    if (is_memory) {
        printf("most %zu kept %zu\n", most_held, held);
        must(roam_close(&terrain));
        return held != 0;
    }
    uint32_t *index = malloc(12 * room), *leaf = malloc(4 * room), *before = malloc(4 * room), *gone = malloc(4 * room), *come = malloc(4 * room);
    uint32_t *point = malloc(12 * (room + 2));
    char *text = malloc(48 + 33 * room);
    if (!index || !leaf || !before || !gone || !come || !point || !text) return 1;
    must(roam_camera(&terrain, x, y, z));
    told_frames("first", 1, frame());

    double in_frame = 0, in_indices = 0, in_leaves = 0, in_changed = 0, in_changes = 0, in_positions = 0, in_compact = 0, in_strip = 0;
    size_t count = 0, befores = 0;
    must(roam_leaves(&terrain, before, room, &befores));
    for (int k = 1; k <= 10; k++) {
        roam_changes_note both;
        must(roam_camera(&terrain, x += step, y, z));
        in_frame += frame();
        start = now();
        must(roam_indices(&terrain, index, 3 * room, &count));
        in_indices += now() - start, start = now();
        must(roam_leaves(&terrain, leaf, room, &count));
        in_leaves += now() - start, start = now();
        must(roam_positions(&terrain, point, 3 * (room + 2), &count));
        in_positions += now() - start, start = now();
        must(roam_compact(&terrain, index, 3 * room, &count));
        in_compact += now() - start, start = now();
        must(roam_strip(&terrain, index, 3 * room, &count));
        in_strip += now() - start, start = now();
        roam_changes(before, befores, leaf, count, gone, room, come, room, &both);
        in_changes += now() - start, start = now();
        must(roam_changed(&terrain, gone, room, come, room, &both));
        in_changed += now() - start;
        uint32_t *swap = before;
        before = leaf, leaf = swap, befores = count;
    }
    told_frames("later", 10, in_frame);
    tell("indices", 10, in_indices), tell("leaves", 10, in_leaves), tell("changes", 10, in_changes), tell("changed", 10, in_changed);
    tell("positions", 10, in_positions), tell("compact", 10, in_compact), tell("strip", 10, in_strip);

    /* How far the mesh is off; the best mesh of the budget by its error, and the one within 100 units; a certificate. */
    roam_deviation_note off;
    roam_fit_note found;
    size_t length;
    start = now();
    must(roam_deviation(&terrain, &off));
    tell("deviation", 1, now() - start), start = now();
    must(roam_fit(&terrain, 0, budget, index, 3 * room, &found));
    tell("fit_budget", 1, now() - start), start = now();
    must(roam_fit(&terrain, 100000, budget, index, 3 * room, &found));
    tell("fit_error", 1, now() - start), start = now();
    must(roam_certificate(&terrain, x, y, z, text, 48 + 33 * room, &length));
    tell("certificate", 1, now() - start);

    /* A view of four planes that turns in each frame: put one by one, and then all at once. */
    roam_plane planes[4];
    in_frame = 0;
    double in_planes = 0;
    for (int k = 1; k <= 10; k++) {
        must(roam_camera(&terrain, x += step, y, z));
        view(k, x, y, z, planes);
        start = now();
        must(roam_clear_planes(&terrain));
        for (int i = 0; i < 4; i++) must(roam_add_plane(&terrain, planes[i].a, planes[i].b, planes[i].c, planes[i].d));
        in_planes += now() - start;
        in_frame += frame();
    }
    tell("planes", 10, in_planes);
    told_frames("turned", 10, in_frame);
    in_frame = in_planes = 0;
    for (int k = 11; k <= 20; k++) {
        must(roam_camera(&terrain, x += step, y, z));
        view(k, x, y, z, planes);
        start = now();
        must(roam_look(&terrain, planes, 4));
        in_planes += now() - start;
        in_frame += frame();
    }
    tell("look", 10, in_planes);
    told_frames("looked", 10, in_frame);
    must(roam_clear_planes(&terrain));
    frame(), asked = changed = 0;

    start = now();
    for (int k = 0; k < 100000; k++) must(roam_camera(&terrain, x + k % 2, y, z));
    tell("camera", 100000, now() - start), start = now();
    for (int k = 0; k < 100000; k++) must(roam_state(&terrain, &state));
    tell("state", 100000, now() - start), start = now();
    for (int k = 0; k < 1000; k++) must(roam_set(&terrain, (uint32_t)(k * 7919 % (int)side), (uint32_t)(k * 104729 % (int)side), (uint16_t)k));
    tell("set", 1000, now() - start), start = now();
    for (int k = 0; k < 20; k++) must(roam_raise(&terrain, (uint32_t)side / 2, (uint32_t)side / 2, (uint32_t)side / 2 + 16, (uint32_t)side / 2 + 16, k - 10));
    tell("raise", 20, now() - start);
    told_frames("edited", 1, frame());
    must(roam_close(&terrain));
    free(heights), free(index), free(leaf), free(before), free(gone), free(come), free(point), free(text);
    return 0;
}
