// roam.hpp where calls throw: two tiles of nine points that become one mesh, what is refused, in words, and the lists that come as
// vectors, beside those that roam.h writes.
#include "roam.hpp"
#include <cstdio>
#include <cstring>

static int fail(const char *what) {
    std::fprintf(stderr, "rounds: %s\n", what);
    return 1;
}
template <class Call> static bool is_refused(const Call &call, roam_answer answer, const char *text) {
    try {
        call();
    } catch (const roam::error &refused) {
        return refused.answer == answer && std::strstr(refused.what(), text);
    }
    return false;
}

using heights = std::vector<uint16_t>;
using numbers = std::vector<uint32_t>;

// Of a square of 2^n steps a side, rows from the far side on, at points that are 2^q grid steps apart. Of nine points a side no one
// lies straight between the two ends of an edge, so that all of them are needed.
static heights ground(uint32_t n, uint32_t q, uint32_t column, uint32_t row) {
    const uint32_t side = 1u << n;
    heights out;
    for (uint32_t k = 0; k < (side + 1) * (side + 1); ++k) {
        const uint32_t x = (column * side + k % (side + 1)) << q, y = (row * side + side - k / (side + 1)) << q;
        out.push_back(static_cast<uint16_t>((37 * x * x + 101 * y * y + 53 * x * y) % 251));
    }
    return out;
}

// What the call by a pointer writes.
template <class Owner> static numbers written(Owner &of, roam::result (Owner::*call)(uint32_t *, size_t, size_t &), size_t each) {
    numbers out(1000);
    size_t count = 0;
    (of.*call)(out.data(), out.size(), count);
    out.resize(each * count);
    return out;
}

// An engine whose frame before was of 5 triangles: what goes and what comes are not as many. Within tolerance 0 are all of the 128
// triangles of the finest mesh, and no fewer.
static int lists_of_an_engine() {
    roam::engine one(ground(3, 0, 0, 0), 100, 10);
    numbers out, gone, come, gone_there(100), come_there(100);
    one.budget(5), one.frame(), one.budget(60);
    const roam_frame_note note = one.frame();
    one.indices(out);
    if (out.size() != 3 * note.triangles || out != written(one, &roam::engine::indices, 3)) return fail("a vector of indices");
    one.leaves(out);
    if (out.size() != note.triangles || out != written(one, &roam::engine::leaves, 1)) return fail("a vector of leaves");
    one.positions(out);
    if (out.size() != 3 * note.vertices || out != written(one, &roam::engine::positions, 3)) return fail("a vector of positions");
    one.compact(out);
    if (out.size() != 3 * note.triangles || out != written(one, &roam::engine::compact, 3)) return fail("a vector of numbers");
    one.strip(out);
    if (out.size() != 3 * note.triangles || out != written(one, &roam::engine::strip, 3)) return fail("a vector of a strip");
    roam_changes_note n;
    one.changed(gone, come);
    one.changed(gone_there.data(), gone_there.size(), come_there.data(), come_there.size(), n);
    gone_there.resize(n.gone), come_there.resize(n.come);
    if (n.gone == n.come || n.come - n.gone != note.triangles - 5) return fail("as many triangles come as go");
    if (gone != gone_there || come != come_there) return fail("vectors of what goes and what comes");
    if (one.fit(0, UINT32_MAX, out).triangles != 128 || out.size() != 3 * 128) return fail("a vector of the finest mesh");
    numbers there(3 * 128);
    roam_fit_note found;
    one.fit(0, 128, there.data(), there.size(), found);
    if (out != there || one.fit(0, 40, out).triangles > 40 || out.size() > 3 * 40) return fail("a vector of a fit");
    return one.certificate(1, 2, 3).rfind("camera 1 2 3\n", 0) == 0 ? 0 : fail("a certificate");
}

// Nine points a side in pages of three: the draws have the triangles of the runs that roam.h writes, those of each page together
// and in their order. Some page has more than one run.
static int draws_of_a_world() {
    roam::page coarsest(ground(1, 2, 0, 0));
    roam::world one(coarsest, 3, 128, 10);
    for (uint32_t q = 2; q-- > 0;)
        for (uint32_t k = 0; k < 16u >> 2 * q; ++k) {
            roam::page fine(ground(1, q, k % (4 >> q), k / (4 >> q)));
            one.load(fine, q, k % (4 >> q), k / (4 >> q));
        }
    one.budget(60);
    const size_t triangles = one.frame().triangles;
    std::vector<roam_draw> draws, runs(1000);
    numbers indices, corners(1000), leaves;
    size_t count = 0, all = 0;
    one.draws(runs.data(), runs.size(), count, corners.data(), corners.size(), all);
    one.draws(draws, indices);
    one.leaves(leaves);
    if (all != triangles || indices.size() != 3 * all || leaves != written(one, &roam::world::leaves, 1)) return fail("a world's lists");
    if (draws.size() < 4 || draws.size() == count) return fail("a world without two runs of one page");
    size_t first = 0;
    for (const roam_draw &draw : draws) {
        numbers wanted;
        for (size_t k = 0; k < count; ++k)
            if (runs[k].q == draw.q && runs[k].column == draw.column && runs[k].row == draw.row)
                wanted.insert(wanted.end(), &corners[3 * runs[k].first], &corners[3 * runs[k].first] + 3 * runs[k].triangles);
        if (draw.first != first || wanted.size() != 3 * size_t{draw.triangles}) return fail("where the triangles of a page are");
        if (!std::equal(wanted.begin(), wanted.end(), &indices[3 * first])) return fail("the triangles of a page");
        first += draw.triangles;
    }
    return first == all ? 0 : fail("how many triangles are drawn");
}

int main() {
    if (lists_of_an_engine() || draws_of_a_world()) return 1;
    // The left tile has a bump on the side that both have, and the right one has to have that point too.
    const std::vector<uint16_t> tiles[2] = {{0, 0, 0, 0, 0, 50, 0, 0, 0}, {0, 0, 0, 50, 25, 0, 0, 0, 0}};
    const uint32_t thousandths[2] = {0, 60000};
    std::vector<uint32_t> points, leaves[2], indices;
    uint32_t column = 0, row = 0, fits = 0;
    roam::mosaic rounds(2, 1, 3);
    for (; rounds.next(column, row); fits++) {
        if (!rounds.required(column, row, points)) return fail("a tile that waits lacks nothing");
        roam::fitter tile(tiles[column]);
        if (tile.fit(thousandths[column], points) != 5) return fail("a tile has not five triangles");
        tile.leaves(leaves[column]);
        tile.indices(indices);
        tile.border(points);
        if (indices.size() != 15 || points != std::vector<uint32_t>{column == 0 ? 5u : 3u})
            return fail("indices or border");
        rounds.put(column, row, points);
    }
    if (fits != 2 || rounds.required(1, 0, points) || points.size() != 2)
        return fail("two tiles are not fitted once each");

    roam::fitter other, tile(tiles[1]);
    uint32_t triangles = 0;
    tile.restore(leaves[1]);
    if (tile.more(60000) != 5 || tile.more(0) < 5 || tile.deviation().over != 2) return fail("more");
    const std::vector<uint32_t> uncounted(9, UINT32_MAX);
    tile.fit({0, uncounted.data(), uncounted.size()}, triangles);
    if (triangles != 2) return fail("points that do not count");
    other = std::move(tile);
    other.indices(indices);
    if (indices.size() != 6) return fail("a move");
    const bool are_refused = is_refused([&] { tile.fit(0); }, ROAM_IS_EMPTY, "fit: the handle is empty") &&
                             is_refused([&] { other.fit(0, {9}); }, ROAM_OUTSIDE_GRID, "outside the grid") &&
                             is_refused([&] { other.restore({2}); }, ROAM_BAD_MESH, "no mesh of this grid") &&
                             is_refused([&] { rounds.put(1, 0, {}); }, ROAM_SHRUNK, "had a border point") &&
                             is_refused([&] { roam::mosaic(1, 1, 4); }, ROAM_BAD_GRID, "open: ");
    return are_refused ? 0 : fail("what has to be refused");
}
