// roam.hpp: the calls of roam.h for C++17: an engine, a fitter, a mosaic, a page and a world, as classes that own one and move.
//
// A call that is refused throws roam::error, which says the call and the answer. With ROAM_ANSWERS defined nothing is
// thrown: each call gives its roam_answer, and what it finds goes out through its last parameter.
// What roam.h asks of C is kept by the classes but for points 3, 6 and 7: one call at a time, an order of threads, no signal
// handler.
#ifndef ROAM_HPP
#define ROAM_HPP
#include "roam.h"
#include <algorithm>
#include <array>
#include <cmath>
#include <iterator>
#include <stdexcept>
#include <string>
#include <tuple>
#include <utility>
#include <vector>

namespace roam {
/// What an answer says, in words.
inline const char *text_of(int32_t answer) noexcept {
    static const char *const texts[] = {
        "done", "out of memory", "the count of heights is not (2^n + 1)^2 with n from 1 to 14",
        "the budget is below 2, above 1048576, or above the budget at opening", "the spacing is not from 1 to 1024",
        "a coordinate of the camera is beyond 2^30", "a slope of the plane is beyond 2^20, or its offset beyond 2^50",
        "six planes are in force, or more than six are given", "a point is outside the grid, or the area is empty",
        "the change is beyond 65535", "the engine has made 1000000 frames: renew it; or its camera has gone 2^61 units",
        "the array has too few places", "the handle is empty",
        "a tolerance is above 65535999 thousandths, or there is not one for each point",
        "the addresses are no mesh of this grid, depth first", "the tile had a border point that is not among these",
        "the page has no place there, or may not go", "no such page is loaded"};
    return answer >= 0 && answer <= ROAM_NOT_THERE ? texts[answer] : "an unknown answer";
}

#ifdef ROAM_ANSWERS
using result = roam_answer;
inline result told(int32_t answer, const char *) noexcept { return static_cast<roam_answer>(answer); }
#else
/// A call that was refused. It has changed nothing.
struct error : std::runtime_error {
    roam_answer answer;
    error(int32_t answer, const char *call)
        : std::runtime_error(std::string(call) + ": " + text_of(answer)), answer(static_cast<roam_answer>(answer)) {}
};
using result = void;
inline void told(int32_t answer, const char *call) {
    if (answer != ROAM_OK) throw error(answer, call);
}
#endif

/// The left, right, bottom and top plane of a view, for engine::look: from where the camera stands, where it looks (a direction of
/// any length, neither straight up nor down), the degrees that it sees from left to right, and the picture's width and height.
/// Both fields of view go up to 170 degrees; look refuses the planes of others, of no direction, and of a place beyond 2^30 with
/// ROAM_BAD_PLANE.
inline std::array<roam_plane, 4> frustum(int64_t x, int64_t y, int64_t z, double dx, double dy, double dz, double degrees,
                                         double width = 4, double height = 3) noexcept {
    const double degree = std::acos(-1.0) / 180;
    const double flat = std::hypot(dx, dy), length = std::hypot(flat, dz);
    const double across = std::tan(degrees / 2 * degree), along = across * height / width;
    const double forward[] = {dx / length, dy / length, dz / length}, right[] = {dy / flat, -dx / flat, 0};
    const double up[] = {-forward[0] * dz / flat, -forward[1] * dz / flat, flat / length};
    const auto near = [](int64_t place) { return -(1 << 30) <= place && place <= 1 << 30; };
    const bool seen = near(x) && near(y) && near(z) && flat > 0 && std::isfinite(length) && degrees > 0 && degrees <= 170 &&
                      along > 0 && along <= std::tan(85 * degree);
    std::array<roam_plane, 4> planes;
    for (size_t k = 0; k < planes.size(); ++k) {
        const double *axis = k < 2 ? right : up, reach = k < 2 ? across : along, sign = k % 2 == 0 ? 1 : -1;
        int64_t slopes[3] = {INT64_MAX, 0, 0};
        for (int i = 0; seen && i < 3; ++i) slopes[i] = std::llround(50000 * (reach * forward[i] + sign * axis[i]));
        const int64_t offset = seen ? -(slopes[0] * x + slopes[1] * y + slopes[2] * z) : 0;
        planes[k] = {slopes[0], slopes[1], slopes[2], offset};
    }
    return planes;
}

/// The threshold of an error of so many pixels, for engine::threshold: on a screen of `rows` pixels that shows `degrees` from bottom to
/// top. The picture of a height error is so high where it is in the middle of the picture, and seen from the side.
/// 0 where a number is out of range: the degrees from 0 to 170, or rows that are not positive.
inline uint64_t pixel_threshold(double pixels, double degrees, double rows) noexcept {
    const double ratio = 262144 * pixels * std::tan(degrees / 2 * std::acos(-1.0) / 180) / rows;
    const bool seen = pixels > 0 && degrees > 0 && degrees <= 170 && rows > 0;
    return !seen || !(ratio >= 1) ? 0 : ratio < 1e15 ? static_cast<uint64_t>(ratio) : uint64_t{1000000000000000};
}

/// Owns what a handle of this kind owns, or nothing.
template <class Handle, int32_t (*close_of)(Handle *)> class owner {
protected:
    Handle h = ROAM_EMPTY;
    template <class T> static T *some(T *at) noexcept { // never null
        static T none{};
        return at ? at : &none;
    }
    template <class T> static size_t size(const T *at, size_t count) noexcept { return at ? count : 0; }
    using list = int32_t (*)(Handle *, uint32_t *, size_t, size_t *);
    result listed(list call, uint32_t *out, size_t places, size_t &count, const char *name) {
        return told(call(&h, some(out), size(out, places), &count), name);
    }
#ifndef ROAM_ANSWERS
    void fill(list call, std::vector<uint32_t> &out, size_t each, size_t most, const char *name) {
        size_t count = 0;
        out.resize(each * most);
        listed(call, out.data(), out.size(), count, name);
        out.resize(each * count);
    }
    template <class Note> Note noted(int32_t (*call)(Handle *, Note *), const char *name) {
        Note out;
        told(call(&h, &out), name);
        return out;
    }
    /// What a call answers that is made until the vector has room enough.
    template <class Call> static int32_t with_room(std::vector<uint32_t> &out, const Call &write) {
        out.resize(std::max(out.capacity(), size_t{64}));
        int32_t answer = write();
        while (answer == ROAM_NO_ROOM) {
            out.resize(2 * out.size());
            answer = write();
        }
        return answer;
    }
#endif

public:
    owner() noexcept = default;
    owner(owner &&o) noexcept : h(std::exchange(o.h, Handle ROAM_EMPTY)) {}
    owner &operator=(owner o) noexcept { // by a move alone: what was open goes with o
        std::swap(h, o.h);
        return *this;
    }
    ~owner() { close(); }
    void close() noexcept { (void)close_of(&h); }
};

/// An engine over a grid of heights, or none. Coordinates and units are those of roam.h.
///
/// No member is const: each call uses the engine, so two threads may not make two calls at once.
class engine : public owner<roam_handle, roam_close> {
public:
    engine() noexcept = default;

    /// Opens it over heights; all memory is taken here. What was open is closed, unless this is refused.
    result open(const uint16_t *heights, size_t count, uint32_t budget, uint32_t spacing) {
        return told(roam_open(&h, some(heights), size(heights, count), budget, spacing), "open");
    }
    /// The same of a vector, an array or a span of heights.
    template <class Heights> result open(const Heights &heights, uint32_t budget, uint32_t spacing) {
        return open(std::data(heights), std::size(heights), budget, spacing);
    }

    result camera(int64_t x, int64_t y, int64_t z) { return told(roam_camera(&h, x, y, z), "camera"); }
    result add_plane(int64_t a, int64_t b, int64_t c, int64_t d) { return told(roam_add_plane(&h, a, b, c, d), "add_plane"); }
    result look(const roam_plane *planes, size_t count) { // in the place of those before: for a view that turns
        return told(roam_look(&h, some(planes), size(planes, count)), "look");
    }
    template <class Planes> result look(const Planes &planes) { return look(std::data(planes), std::size(planes)); }
    result renew() { return told(roam_renew(&h), "renew"); }
    result clear_planes() { return told(roam_clear_planes(&h), "clear_planes"); }
    result threshold(uint64_t ratio) { return told(roam_threshold(&h, ratio), "threshold"); } // pixel_threshold gives one
    result budget(uint32_t triangles) { return told(roam_budget(&h, triangles), "budget"); }
    result set(uint32_t x, uint32_t y, uint16_t height) { return told(roam_set(&h, x, y, height), "set"); }
    result raise(uint32_t x0, uint32_t y0, uint32_t x1, uint32_t y1, int32_t dz) {
        return told(roam_raise(&h, x0, y0, x1, y1, dz), "raise");
    }
    result frame(roam_frame_note &out) { return told(roam_frame(&h, &out), "frame"); }
    result state(roam_state_note &out) { return told(roam_state(&h, &out), "state"); }
    result deviation(roam_deviation_note &out) { return told(roam_deviation(&h, &out), "deviation"); }
    /// Numbers into memory of the caller's, such as a mapped buffer, and how many triangles or vertices they are.
    result indices(uint32_t *out, size_t places, size_t &n) { return listed(roam_indices, out, places, n, "indices"); }
    result leaves(uint32_t *out, size_t places, size_t &n) { return listed(roam_leaves, out, places, n, "leaves"); }
    result positions(uint32_t *out, size_t places, size_t &n) { return listed(roam_positions, out, places, n, "positions"); }
    result compact(uint32_t *out, size_t places, size_t &n) { return listed(roam_compact, out, places, n, "compact"); }
    result strip(uint32_t *out, size_t places, size_t &n) { return listed(roam_strip, out, places, n, "strip"); }
    result changed(uint32_t *gone, size_t gone_places, uint32_t *come, size_t come_places, roam_changes_note &n) {
        return told(roam_changed(&h, some(gone), size(gone, gone_places), some(come), size(come, come_places), &n), "changed");
    }
    result fit(uint32_t thousandths, uint32_t budget, uint32_t *out, size_t places, roam_fit_note &found) {
        return told(roam_fit(&h, thousandths, budget, some(out), size(out, places), &found), "fit");
    }
    result certificate(int64_t x, int64_t y, int64_t z, char *out, size_t bytes, size_t &length) {
        return told(roam_certificate(&h, x, y, z, some(out), size(out, bytes), &length), "certificate");
    }

#ifndef ROAM_ANSWERS
    template <class Heights> engine(const Heights &heights, uint32_t budget, uint32_t spacing) { open(heights, budget, spacing); }
    roam_frame_note frame() { return noted(roam_frame, "frame"); }
    roam_state_note state() { return noted(roam_state, "state"); }
    roam_deviation_note deviation() { return noted(roam_deviation, "deviation"); }
    /// The same as vectors, made as long as is needed. Kept from frame to frame, they take memory once.
    void indices(std::vector<uint32_t> &out) { fill(roam_indices, out, 3, state().most, "indices"); }
    void leaves(std::vector<uint32_t> &out) { fill(roam_leaves, out, 1, state().most, "leaves"); }
    void positions(std::vector<uint32_t> &out) { fill(roam_positions, out, 3, size_t{state().most} + 2, "positions"); }
    void compact(std::vector<uint32_t> &out) { fill(roam_compact, out, 3, state().most, "compact"); }
    void strip(std::vector<uint32_t> &out) { fill(roam_strip, out, 3, state().most, "strip"); }
    void changed(std::vector<uint32_t> &gone, std::vector<uint32_t> &come) { // by the last frame
        roam_changes_note n;
        gone.resize(state().most), come.resize(gone.size());
        changed(gone.data(), gone.size(), come.data(), come.size(), n);
        gone.resize(n.gone), come.resize(n.come);
    }
    roam_fit_note fit(uint32_t thousandths, uint32_t budget, std::vector<uint32_t> &out) {
        const size_t steps = state().side - 1;
        roam_fit_note found;
        out.resize(3 * std::min(size_t{budget}, 2 * steps * steps));
        fit(thousandths, budget, out.data(), out.size(), found);
        out.resize(3 * size_t{found.triangles});
        return found;
    }
    std::string certificate(int64_t x, int64_t y, int64_t z) {
        std::string out(48 + 33 * size_t{state().budget}, ' ');
        size_t length = 0;
        certificate(x, y, z, &out[0], out.size(), length);
        out.resize(length);
        return out;
    }
#endif
};

/// What is asked of a mesh: one tolerance for all points, in thousandths of a unit of height, or one for each point, 0xFFFFFFFF
/// where it does not count; and the points that have to be vertices, as places in the heights.
struct request {
    uint32_t thousandths = 0; // not looked at where there are tolerances
    const uint32_t *tolerances = nullptr;
    size_t tolerance_count = 0;
    const uint32_t *required = nullptr;
    size_t required_count = 0;
};

/// Heights of one grid and a mesh of it, or nothing. Points are places in the heights.
class fitter : public owner<roam_fitter, roam_fitter_close> {
public:
    fitter() noexcept = default;

    /// Copies the heights; all memory is taken here. The mesh is the two halves of the square.
    result open(const uint16_t *heights, size_t count) {
        return told(roam_fitter_open(&h, some(heights), size(heights, count)), "open");
    }
    template <class Heights> result open(const Heights &heights) {
        return open(std::data(heights), std::size(heights));
    }

    /// The mesh of the fewest triangles that is within the tolerance and has the required points becomes the mesh.
    result fit(const request &it, uint32_t &triangles) { return fitted(roam_fitter_fit, it, triangles, "fit"); }
    /// The same, going on from the mesh that is there.
    result more(const request &it, uint32_t &triangles) { return fitted(roam_fitter_more, it, triangles, "more"); }
    result indices(uint32_t *out, size_t places, size_t &n) {
        return listed(roam_fitter_indices, out, places, n, "indices");
    }
    result leaves(uint32_t *out, size_t places, size_t &n) {
        return listed(roam_fitter_leaves, out, places, n, "leaves");
    }
    result border(uint32_t *out, size_t places, size_t &n) { // the points that are vertices, but for the four corners
        return listed(roam_fitter_border, out, places, n, "border");
    }
    result deviation(roam_deviation_note &out) { return told(roam_fitter_deviation(&h, &out), "deviation"); }
    /// The mesh of these addresses, as `leaves` wrote them, becomes the mesh.
    result restore(const uint32_t *leaves, size_t count) {
        return told(roam_fitter_restore(&h, some(leaves), size(leaves, count)), "restore");
    }
    /// What `open`, `fit` and `indices` do, with no fitter left behind.
    static result fit_with(const uint16_t *heights, size_t count, const request &it, uint32_t *out, size_t places,
                           roam_fit_note &found) {
        return told(roam_fit_with(some(heights), size(heights, count), it.thousandths, some(it.tolerances),
                                  size(it.tolerances, it.tolerance_count), some(it.required),
                                  size(it.required, it.required_count), some(out), size(out, places), &found),
                    "fit_with");
    }

    /// A mesh of triangles of any shape within an error (roam_tin): `places` as many as for `fit_with` always suffice.
    static result tin(const uint16_t *heights, size_t count, uint32_t thousandths, uint32_t effort, uint32_t *out, size_t places,
                      roam_fit_note &found) {
        return told(roam_tin(some(heights), size(heights, count), thousandths, effort, some(out), size(out, places), &found), "tin");
    }

#ifndef ROAM_ANSWERS
    template <class Heights> explicit fitter(const Heights &heights) { open(heights); }
    /// One tolerance for all points; answers how many triangles the mesh has.
    uint32_t fit(uint32_t thousandths, const std::vector<uint32_t> &required = {}) {
        uint32_t triangles = 0;
        fit(request{thousandths, nullptr, 0, required.data(), required.size()}, triangles);
        return triangles;
    }
    uint32_t more(uint32_t thousandths, const std::vector<uint32_t> &required = {}) {
        uint32_t triangles = 0;
        more(request{thousandths, nullptr, 0, required.data(), required.size()}, triangles);
        return triangles;
    }
    roam_deviation_note deviation() { return noted(roam_fitter_deviation, "deviation"); }
    /// The same as vectors, made as long as is needed. Kept from tile to tile, they hardly take memory.
    void indices(std::vector<uint32_t> &out) { fill(roam_fitter_indices, out, 3, "indices"); }
    void leaves(std::vector<uint32_t> &out) { fill(roam_fitter_leaves, out, 1, "leaves"); }
    void border(std::vector<uint32_t> &out) { fill(roam_fitter_border, out, 1, "border"); }
    void restore(const std::vector<uint32_t> &leaves) { restore(leaves.data(), leaves.size()); }
#endif

private:
    using fitting = int32_t (*)(roam_fitter *, uint32_t, const uint32_t *, size_t, const uint32_t *, size_t, uint32_t *);
    result fitted(fitting call, const request &it, uint32_t &triangles, const char *name) {
        return told(call(&h, it.thousandths, some(it.tolerances), size(it.tolerances, it.tolerance_count),
                         some(it.required), size(it.required, it.required_count), &triangles), name);
    }
#ifndef ROAM_ANSWERS
    void fill(list call, std::vector<uint32_t> &out, size_t each, const char *name) {
        size_t count = 0;
        const auto write = [&] { return call(&h, out.data(), out.size(), &count); };
        told(with_room(out, write), name);
        out.resize(each * count);
    }
#endif
};

/// The rounds of a terrain of tiles that are fitted one by one, or nothing: which tile has to be fitted next, and what its
/// mesh has to have. Column 0 is the left one, row 0 the near one; points are places in the heights of a tile.
class mosaic : public owner<roam_mosaic, roam_mosaic_close> {
public:
    mosaic() noexcept = default;

    /// So many tiles of `side` points a side, none of which has a mesh yet. All memory is taken here.
    result open(uint32_t columns, uint32_t rows, uint32_t side) {
        return told(roam_mosaic_open(&h, columns, rows, side), "open");
    }
    result next(roam_tile_note &out) { return told(roam_mosaic_next(&h, &out), "next"); }
    result required(uint32_t column, uint32_t row, uint32_t *out, size_t places, roam_required_note &n) {
        return told(roam_mosaic_required(&h, column, row, some(out), size(out, places), &n), "required");
    }
    result put(uint32_t column, uint32_t row, const uint32_t *border, size_t count) {
        return told(roam_mosaic_put(&h, column, row, some(border), size(border, count)), "put");
    }

#ifndef ROAM_ANSWERS
    mosaic(uint32_t columns, uint32_t rows, uint32_t side) { open(columns, rows, side); }
    /// Whether a tile has to be fitted, and which.
    bool next(uint32_t &column, uint32_t &row) {
        const roam_tile_note n = noted(roam_mosaic_next, "next");
        if (n.waits) column = n.column, row = n.row;
        return n.waits != 0;
    }
    /// The points that a tile's mesh has to have; answers whether it lacks one.
    bool required(uint32_t column, uint32_t row, std::vector<uint32_t> &out) {
        roam_required_note n{};
        const auto write = [&] { return roam_mosaic_required(&h, column, row, out.data(), out.size(), &n); };
        told(with_room(out, write), "required");
        out.resize(n.count);
        return n.lacks != 0;
    }
    void put(uint32_t column, uint32_t row, const std::vector<uint32_t> &border) {
        put(column, row, border.data(), border.size());
    }
#endif
};

/// The heights of a page of a terrain, or nothing: made on any thread, and put into a world.
class page : public owner<roam_page, roam_page_drop> {
    friend class world;
    friend class pager; // of roam_pager.hpp

public:
    page() noexcept = default;

    /// Copies the heights; all memory is taken here. What was there goes, unless this is refused.
    result make(const uint16_t *heights, size_t count) {
        return told(roam_page_make(&h, some(heights), size(heights, count)), "make");
    }
    template <class Heights> result make(const Heights &heights) { return make(std::data(heights), std::size(heights)); }
    /// In steps of the page's own grid.
    result set_height(uint32_t x, uint32_t y, uint16_t height) {
        return told(roam_page_set_height(&h, x, y, height), "set_height");
    }
    result raise(uint32_t x0, uint32_t y0, uint32_t x1, uint32_t y1, int32_t dz) {
        return told(roam_page_raise(&h, x0, y0, x1, y1, dz), "raise");
    }

#ifndef ROAM_ANSWERS
    template <class Heights> explicit page(const Heights &heights) { make(heights); }
#endif
};

/// One mesh over a terrain of pages that come and go, or nothing. Coordinates and units are those of roam.h.
class world : public owner<roam_world, roam_world_close> {
    friend class pager;

public:
    world() noexcept = default;

    /// Opens it over a terrain of 2^large grid steps a side, which the page covers; the page is empty then. All memory but that of
    /// pages is taken here; where it runs out the page is lost. What was open is closed, unless this is refused.
    result open(page &coarsest, uint32_t large, uint32_t budget, uint32_t spacing) {
        return told(roam_world_open(&h, &coarsest.h, large, budget, spacing), "open");
    }

    /// Puts a page to its place, and it is empty then; or it is refused, and is still there.
    result load(page &p, uint32_t q, uint32_t column, uint32_t row) {
        return told(roam_world_load(&h, q, column, row, &p.h), "load");
    }
    /// Takes a page out; what was there goes, unless this is refused.
    result unload(page &p, uint32_t q, uint32_t column, uint32_t row) {
        return told(roam_world_unload(&h, q, column, row, &p.h), "unload");
    }
    /// In grid steps of the terrain, in each loaded page that has such a point; pages that are loaded later have to agree.
    result set_height(uint32_t x, uint32_t y, uint16_t height) {
        return told(roam_world_set_height(&h, x, y, height), "set_height");
    }
    result raise(uint32_t x0, uint32_t y0, uint32_t x1, uint32_t y1, int32_t dz) {
        return told(roam_world_raise(&h, x0, y0, x1, y1, dz), "raise");
    }
    result camera(int64_t x, int64_t y, int64_t z) { return told(roam_world_camera(&h, x, y, z), "camera"); }
    result look(const roam_plane *planes, size_t count) { // in the place of those before
        return told(roam_world_look(&h, some(planes), size(planes, count)), "look");
    }
    template <class Planes> result look(const Planes &planes) { return look(std::data(planes), std::size(planes)); }
    result threshold(uint64_t ratio) { return told(roam_world_threshold(&h, ratio), "threshold"); } // pixel_threshold gives one
    result budget(uint32_t triangles) { return told(roam_world_budget(&h, triangles), "budget"); }
    result frame(roam_world_note &out) { return told(roam_world_frame(&h, &out), "frame"); }
    result leaves(uint32_t *out, size_t places, size_t &n) { return listed(roam_world_leaves, out, places, n, "leaves"); }
    /// Runs of triangles, each of one page; see roam_world_draws.
    result draws(roam_draw *out, size_t places, size_t &runs, uint32_t *indices, size_t room, size_t &triangles) {
        return told(runs_of(out, places, runs, indices, room, triangles), "draws");
    }

private:
    int32_t runs_of(roam_draw *out, size_t places, size_t &runs, uint32_t *indices, size_t room, size_t &triangles) noexcept {
        return roam_world_draws(&h, some(out), size(out, places), &runs, some(indices), size(indices, room), &triangles);
    }

public:
#ifndef ROAM_ANSWERS
    world(page &coarsest, uint32_t large, uint32_t budget, uint32_t spacing) { open(coarsest, large, budget, spacing); }
    roam_world_note frame() { return noted(roam_world_frame, "frame"); }
    /// The same as a vector, made as long as is needed.
    void leaves(std::vector<uint32_t> &out) {
        size_t count = 0;
        const auto write = [&] { return roam_world_leaves(&h, out.data(), out.size(), &count); };
        told(with_room(out, write), "leaves");
        out.resize(count);
    }
    /// The same by page, in vectors made as long as is needed: one draw for each page that has triangles.
    void draws(std::vector<roam_draw> &out, std::vector<uint32_t> &indices) {
        const auto page_of = [](const roam_draw &d) { return std::make_tuple(d.q, d.column, d.row); };
        std::vector<roam_draw> runs;
        std::vector<uint32_t> corners;
        size_t count = 0, triangles = 0;
        if (runs_of(nullptr, 0, count, nullptr, 0, triangles) == ROAM_NO_ROOM) runs.resize(count), corners.resize(3 * triangles);
        draws(runs.data(), runs.size(), count, corners.data(), corners.size(), triangles);
        std::stable_sort(runs.begin(), runs.end(),
                         [&](const roam_draw &a, const roam_draw &b) { return page_of(a) < page_of(b); });
        out.clear(), indices.clear();
        for (roam_draw run : runs) {
            const uint32_t *from = corners.data() + 3 * size_t{run.first};
            run.first = static_cast<uint32_t>(indices.size() / 3);
            indices.insert(indices.end(), from, from + 3 * size_t{run.triangles});
            if (!out.empty() && page_of(out.back()) == page_of(run)) out.back().triangles += run.triangles;
            else out.push_back(run);
        }
    }
#endif
};
} // namespace roam
#endif
