// roam.hpp where answers come back in place of exceptions, and where the compiler has spans.
#define ROAM_ANSWERS
#include "roam.hpp"
#include <array>
#include <cstdio>
#if __cplusplus >= 202002L
#include <span>
#endif

static int fail(const char *what) {
    std::fprintf(stderr, "answers: %s\n", what);
    return 1;
}

// A fitter over a hill of nine points and a mosaic of one tile, by hand.
static int tiles() {
    const std::array<uint16_t, 9> hill{0, 0, 0, 0, 100, 0, 0, 0, 0};
    const uint32_t side = 1, corner = 9, tolerances[9] = {0, 0, 0, 0, UINT32_MAX, 0, 0, 0, 0};
    uint32_t out[24], triangles = 77;
    std::size_t count = 77;
    roam_deviation_note off;
    roam_fit_note found;
    roam_tile_note tile;
    roam_required_note asked;
    roam::fitter one, other;
    roam::mosaic rounds;
    if (one.fit({}, triangles) != ROAM_IS_EMPTY || triangles != 77) return fail("a fitter that was not opened fits");
    if (one.open(nullptr, 9) != ROAM_BAD_GRID) return fail("no heights are a grid of a fitter");
    if (one.open(hill) != ROAM_OK || one.leaves(out, 2, count) != ROAM_OK || count != 2) return fail("a fitter's first mesh");
    if (one.fit({99999}, triangles) != ROAM_OK || triangles != 4) return fail("a fitter's mesh");
    if (one.fit({100000}, triangles) != ROAM_OK || triangles != 2) return fail("a fitter's mesh of two triangles");
    if (one.fit({0, tolerances, 9}, triangles) != ROAM_OK || triangles != 2) return fail("a point that does not count");
    if (one.fit({0, tolerances, 8}, triangles) != ROAM_BAD_TOLERANCE) return fail("eight tolerances");
    if (one.fit({0, nullptr, 0, &corner, 1}, triangles) != ROAM_OUTSIDE_GRID || triangles != 2) return fail("a place outside");
    if (one.more({100000, nullptr, 0, &side, 1}, triangles) != ROAM_OK || triangles != 5) return fail("more");
    if (one.indices(out, 14, count) != ROAM_NO_ROOM || one.indices(out, 15, count) != ROAM_OK || count != 5)
        return fail("a fitter's indices");
    if (one.border(nullptr, 4, count) != ROAM_NO_ROOM || one.border(out, 1, count) != ROAM_OK || count != 1 || out[0] != 1)
        return fail("a fitter's border");
    if (one.deviation(off) != ROAM_OK || off.off != 0 || off.over != 2) return fail("a fitter's deviation");
    const uint32_t halves[] = {2, 3};
    if (one.restore(halves, 1) != ROAM_BAD_MESH || one.restore(halves, 2) != ROAM_OK) return fail("restore");
    other = std::move(one);
    if (one.deviation(off) != ROAM_IS_EMPTY || other.deviation(off) != ROAM_OK || off.off != 200) return fail("a fitter's move");
    if (roam::fitter::fit_with(hill.data(), 9, {0, nullptr, 0, &side, 1}, out, 24, found) != ROAM_OK || found.triangles != 5 ||
        found.vertices != 6 || found.off != 0)
        return fail("fit_with");
    if (rounds.next(tile) != ROAM_IS_EMPTY || rounds.open(1, 0, 3) != ROAM_BAD_GRID) return fail("a mosaic of no tiles");
    if (rounds.open(1, 1, 3) != ROAM_OK || rounds.next(tile) != ROAM_OK || tile.waits != 1) return fail("a mosaic's first tile");
    if (rounds.required(0, 0, nullptr, 8, asked) != ROAM_NO_ROOM || rounds.required(0, 0, out, 8, asked) != ROAM_OK ||
        asked.count != 1 || asked.lacks != 1 || out[0] != 4)
        return fail("the centre of a tile");
    if (rounds.required(1, 0, out, 8, asked) != ROAM_OUTSIDE_GRID) return fail("a tile outside");
    if (rounds.put(0, 0, &side, 1) != ROAM_OK || rounds.next(tile) != ROAM_OK || tile.waits != 0) return fail("a tile that is put");
    if (rounds.put(0, 0, nullptr, 1) != ROAM_SHRUNK) return fail("a tile that shrinks");
    return 0;
}

// The planes of the view that REFERENCE.md works out, up to a common factor, and of views that have none.
static int view() {
    const int64_t wanted[4][4] = {{7, 1, 0, -16000}, {-1, 7, 0, -12000}, {9, 12, 20, -66000}, {9, 12, -20, -18000}};
    const std::array<roam_plane, 4> planes = roam::frustum(2000, 2000, 1200, 3, 4, 0, 90);
    for (std::size_t k = 0; k < 4; ++k) {
        const int64_t factor = planes[k].a / wanted[k][0];
        const int64_t seen[] = {planes[k].a, planes[k].b, planes[k].c, planes[k].d};
        for (std::size_t i = 0; i < 4; ++i)
            if (factor <= 0 || seen[i] != factor * wanted[k][i]) return fail("the planes of a view");
    }
    const uint16_t flat[9] = {};
    roam::engine one;
    if (one.open(flat, 9, 8, 30) != ROAM_OK || one.look(planes) != ROAM_OK) return fail("a view is not taken");
    const double nan = std::nan("");
    for (const auto &none : {roam::frustum(0, 0, 9, 0, 0, -1, 90), roam::frustum(0, 0, 9, 0, 0, 0, 90),
                             roam::frustum(0, 0, 9, nan, 0, 0, 90), roam::frustum(0, 0, 9, 1, 0, 0, 171),
                             roam::frustum(0, 0, 9, 1, 0, 0, 0), roam::frustum(0, 0, 9, 1, 0, 0, 170, 1, 2),
                             roam::frustum(0, 0, 9, 1, 0, 0, 90, 1, 0), roam::frustum(0, 0, 9, 1, 0, 0, nan),
                             roam::frustum(INT64_MAX, 0, 9, 1, 0, 0, 90)})
        if (one.look(none) != ROAM_BAD_PLANE) return fail("a view without planes is taken");
    return 0;
}

// The hill of one point from (10, 10, 150): thickness 200 half units at distance 50, 65536 * 200 / 51 = 257003. A field of view of
// 60 degrees over 1080 rows: 262144 * 0.57735 / 1080 = 140.1.
static int thresholds() {
    const uint16_t hill[9] = {0, 0, 0, 0, 100, 0, 0, 0, 0};
    roam_frame_note note;
    roam::engine one;
    if (one.threshold(7) != ROAM_IS_EMPTY) return fail("a threshold of no engine");
    if (one.open(hill, 9, 8, 10) != ROAM_OK || one.camera(10, 10, 150) != ROAM_OK) return fail("a hill");
    if (one.threshold(257003) != ROAM_OK || one.frame(note) != ROAM_OK || note.triangles != 2 || note.worst != 0)
        return fail("what is good enough is split");
    if (one.threshold(257002) != ROAM_OK || one.frame(note) != ROAM_OK || note.triangles != 4) return fail("it is not good enough");
    if (roam::pixel_threshold(1, 60, 1080) != 140 || roam::pixel_threshold(2, 60, 1080) != 280) return fail("an error in pixels");
    const double nan = std::nan("");
    for (const uint64_t none : {roam::pixel_threshold(nan, 60, 1080), roam::pixel_threshold(1, nan, 1080), roam::pixel_threshold(1, 60, 0),
                                roam::pixel_threshold(0, 60, 1080), roam::pixel_threshold(1, 171, 1080)})
        if (none != 0) return fail("a threshold of numbers out of range");
    return 0;
}

int main() {
    const uint16_t heights[9] = {0, 0, 0, 0, 100, 0, 0, 0, 0};
    uint32_t out[12];
    std::size_t triangles = 77;
    roam_frame_note note;
    roam::engine terrain, other;
    if (terrain.frame(note) != ROAM_IS_EMPTY) return fail("an engine that was not opened makes a frame");
    if (terrain.open(nullptr, 9, 8, 10) != ROAM_BAD_GRID) return fail("no heights are a grid");
    if (terrain.open(heights, 9, 1, 10) != ROAM_BAD_BUDGET) return fail("a budget of 1");
    if (terrain.open(heights, 9, 8, 10) != ROAM_OK) return fail("open");
    if (terrain.frame(note) != ROAM_OK || note.triangles != 4) return fail("frame");
    if (terrain.indices(nullptr, 12, triangles) != ROAM_NO_ROOM || triangles != 77) return fail("no room for indices");
    if (terrain.indices(out, 12, triangles) != ROAM_OK || triangles != 4 || out[0] != 4) return fail("indices");
    uint32_t positions[15];
    roam_deviation_note off;
    roam_fit_note found;
    char text[48 + 33 * 8];
    if (terrain.positions(positions, 14, triangles) != ROAM_NO_ROOM || triangles != 4) return fail("no room for positions");
    if (terrain.positions(positions, 15, triangles) != ROAM_OK || triangles != 5 || positions[8] != 100) return fail("positions");
    if (terrain.compact(out, 12, triangles) != ROAM_OK || triangles != 4 || out[0] != 2) return fail("compact");
    if (terrain.strip(out, 12, triangles) != ROAM_OK || triangles != 4) return fail("strip");
    if (terrain.deviation(off) != ROAM_OK || off.off != 0 || off.over != 2) return fail("deviation");
    if (terrain.fit(65536000, 4, out, 12, found) != ROAM_BAD_TOLERANCE) return fail("a tolerance of 65536");
    if (terrain.fit(99999, 4, out, 12, found) != ROAM_OK || found.triangles != 4) return fail("fit");
    if (terrain.certificate(10, 10, 150, nullptr, 9, triangles) != ROAM_NO_ROOM) return fail("no room for a certificate");
    if (terrain.certificate(10, 10, 150, text, sizeof text, triangles) != ROAM_OK || text[triangles - 1] != '\n') return fail("certificate");
    other = std::move(terrain);
    if (terrain.frame(note) != ROAM_IS_EMPTY || other.frame(note) != ROAM_OK) return fail("a move");
    terrain.close();
    const std::array<uint16_t, 9> flat{};
    if (terrain.open(flat, 8, 10) != ROAM_OK || terrain.frame(note) != ROAM_OK || note.triangles != 2) return fail("an array");
#if __cplusplus >= 202002L
    if (terrain.open(std::span<const uint16_t>(heights).first(9), 8, 10) != ROAM_OK || terrain.frame(note) != ROAM_OK || note.triangles != 4)
        return fail("a span");
#endif
    return tiles() || view() || thresholds();
}
