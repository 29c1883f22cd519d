// roam_pager.hpp over a made terrain of 129 points a side in pages of 5: which pages are there after flights that wait and that do
// not, in what order they are asked for, how many go in and out at a time, what has no page, and what fails for lack of memory.
// usage: pages [UPDATES]      that do not wait, 2000 if not given
#define ROAM_ANSWERS
#include "roam_pager.hpp"
#include <atomic>
#include <cstdio>
#include <cstdlib>

using roam::square;
static const uint32_t n = 2, large = 7, coarsest = large - n, spacing = 10;
static const size_t most = 3;

// A heap that fails while a thread says so, and counts what other threads than the first give back.
static thread_local bool is_out = false, is_first = false;
static std::atomic<long> freed_beside{0};
static char nothing;
struct block {
    bool is_there;
    void *at;
};
static block told(void *at) { return {at != nullptr, at ? at : &nothing}; }
extern "C" block rattle_alloc(std::size_t size, std::size_t align) {
    return told(is_out ? nullptr : std::malloc(size ? size : align));
}
extern "C" block rattle_realloc(void *at, std::size_t, std::size_t next, std::size_t align) {
    return told(is_out ? nullptr : std::realloc(at, next ? next : align));
}
extern "C" void rattle_dealloc(void *at) {
    if (!is_first) ++freed_beside;
    std::free(at);
}

static void must(bool holds, const char *what) {
    if (holds) return;
    std::fprintf(stderr, "pages: %s\n", what);
    std::exit(1);
}

static std::vector<uint16_t> heights_of(uint32_t q, uint32_t column, uint32_t row) {
    const uint32_t side = 1u << n;
    std::vector<uint16_t> out;
    for (uint32_t k = 0; k < (side + 1) * (side + 1); ++k) {
        const uint32_t x = (column * side + k % (side + 1)) << q, y = (row * side + side - k / (side + 1)) << q;
        out.push_back(uint16_t((37 * x + 101 * y + 53 * x * y) % 997));
    }
    return out;
}

static std::vector<square> all_squares() {
    std::vector<square> out;
    for (uint32_t q = coarsest; q-- > 0;)
        for (uint32_t row = 0; row < 1u << (coarsest - q); ++row)
            for (uint32_t column = 0; column < 1u << (coarsest - q); ++column) out.push_back({q, column, row});
    return out;
}
static const std::vector<square> squares = all_squares();

// Four times the square of the distance from a place to a square, and of so many halves of its side, in grid steps.
static int64_t away(const square &it, int64_t x, int64_t y) {
    const int64_t side = int64_t{spacing} << (n + it.q);
    const auto off = [side](int64_t at, int64_t k) { return std::max({int64_t{0}, k * side - at, at - (k + 1) * side}); };
    return 4 * (off(x, it.column) * off(x, it.column) + off(y, it.row) * off(y, it.row));
}
static int64_t halves(const square &it, int64_t count) {
    const int64_t reach = count * (int64_t{spacing} << (n + it.q));
    return reach * reach;
}

static roam::world open() {
    roam::world out;
    roam::page root;
    must(root.make(heights_of(coarsest, 0, 0)) == ROAM_OK && out.open(root, large, 3000, spacing) == ROAM_OK, "a world");
    return out;
}
static std::vector<uint32_t> mesh_of(roam::world &terrain, int64_t x, int64_t y) {
    std::vector<uint32_t> out(3000);
    roam_world_note note;
    std::size_t count = 0;
    must(terrain.camera(x, y, 200) == ROAM_OK && terrain.frame(note) == ROAM_OK, "a frame");
    must(terrain.leaves(out.data(), out.size(), count) == ROAM_OK && count == note.triangles, "its leaves");
    out.resize(count);
    return out;
}

static std::vector<square> loaded(const roam::pager &pages) {
    std::vector<square> out;
    for (const square &it : squares)
        if (pages.is_loaded(it)) out.push_back(it);
    return out;
}

// Updates until nothing is left, none of which puts in or takes out more than it may.
static void settle(roam::pager &pages, int64_t x, int64_t y) {
    std::size_t left = 1;
    for (int turns = 0; left > 0; ++turns) {
        const std::vector<square> before = loaded(pages);
        left = pages.update(x, y);
        const std::vector<square> after = loaded(pages);
        std::size_t stay = 0;
        for (const square &it : before) stay += pages.is_loaded(it);
        must(before.size() - stay <= most && after.size() - stay <= most, "an update moves more pages than it may");
        must(turns < 1000, "a flight comes to no end"); // all pages are loaded by 3 at a time in 455
        pages.wait();
    }
}

// What is near is there, what is far is not; and the mesh is that of a world in which these pages were put at once.
static void check(const roam::pager &pages, roam::world &terrain, int64_t x, int64_t y) {
    roam::world other = open();
    for (const square &it : squares) {
        const bool is_there = pages.is_loaded(it);
        must(is_there || away(it, x, y) >= halves(it, 4), "a page that is near is not there");
        must(!is_there || away(it, x, y) <= halves(it, 5), "a page that is far is there");
        if (!is_there) continue;
        roam::page one;
        must(one.make(heights_of(it.q, it.column, it.row)) == ROAM_OK, "a page");
        must(other.load(one, it.q, it.column, it.row) == ROAM_OK, "what is there may not be there");
    }
    must(mesh_of(terrain, x, y) == mesh_of(other, x, y), "the mesh is not that of the pages that are there");
}

static const int64_t flight[][2] = {{0, 0}, {300, 200}, {640, 640}, {645, 640}, {1280, 0}, {-900, 3000}, {700, 90}};

static void flights(uint32_t updates) {
    roam::world terrain = open();
    std::vector<square> asked;
    roam::pager pages(terrain, n, large, spacing, [&](uint32_t q, uint32_t column, uint32_t row) {
        asked.push_back({q, column, row});
        return heights_of(q, column, row);
    }, 0, most); // which counts as a reach of 2
    must(loaded(pages).empty(), "a pager begins with pages");
    must(pages.is_loaded({coarsest, 0, 0}), "the coarsest page is not there");
    must(!pages.is_loaded({coarsest, 1, 0}) && !pages.is_loaded({coarsest, 0, 1}), "there is another as coarse");
    pages.update(640, 640), pages.wait(), pages.renew(), asked.clear(); // all of it is made anew
    settle(pages, 640, 640);
    for (std::size_t k = 1; k < asked.size(); ++k) {
        const square &one = asked[k - 1], &two = asked[k];
        const bool is_nearer = away(one, 640, 640) <= away(two, 640, 640);
        must(one.q > two.q || (one.q == two.q && is_nearer), "a fine or far page is asked for too early");
    }
    must(asked.size() == loaded(pages).size(), "a page is asked for twice");
    asked.clear();
    settle(pages, 640, 640);
    must(asked.empty(), "what is there is asked for again");
    settle(pages, 655, 640), settle(pages, 630, 640);
    asked.clear();
    settle(pages, 655, 640);
    must(asked.empty(), "what is hardly farther away than the reach has gone");
    for (const auto &place : flight) settle(pages, place[0], place[1]), check(pages, terrain, place[0], place[1]);
    for (uint32_t k = 0; k < updates; ++k) { // without waiting
        const int64_t x = 640 + int64_t{k % 97} * (k % 2 ? 5 : -5), y = k;
        pages.update(x, y);
        if (k % 50 == 0) mesh_of(terrain, x, y);
    }
    for (const auto &place : flight) settle(pages, place[0], place[1]), check(pages, terrain, place[0], place[1]);
    must(pages.refused().empty() && freed_beside > 0, "a page is refused, or none is dropped on the pager's thread");
    pages.update(0, 0); // and ends while pages are being made
}

// Two updates while the first page is being made: nothing is asked for twice, but what has to be made anew.
static void updates_meanwhile(bool are_new) {
    roam::world terrain = open();
    std::vector<square> asked;
    std::atomic<bool> has_begun{false};
    std::mutex gate;
    std::unique_lock<std::mutex> closed(gate);
    roam::pager pages(terrain, n, large, spacing, [&](uint32_t q, uint32_t column, uint32_t row) {
        has_begun = true;
        std::lock_guard<std::mutex> passes(gate);
        asked.push_back({q, column, row});
        return heights_of(q, column, row);
    }, 2, most);
    pages.update(640, 640);
    while (!has_begun) std::this_thread::yield();
    if (are_new) pages.renew();
    pages.update(640, 640);
    closed.unlock();
    settle(pages, 640, 640);
    must(asked.size() == loaded(pages).size() + are_new, "a page that is being made is asked for twice, or is not made anew");
}

// West of the middle there is no page of the resolution 0, that of one square of the resolution 1 has another height, and for
// another one there is no memory.
static void holes() {
    const square lies{1, 11, 9}, lacks{1, 9, 11};
    roam::world terrain = open();
    int asked = 0;
    roam::pager pages(terrain, n, large, spacing, [&](uint32_t q, uint32_t column, uint32_t row) {
        std::vector<uint16_t> out;
        if (q != 0 || column >= 16) out = heights_of(q, column, row);
        if (lies == square{q, column, row}) out[0] ^= 1, ++asked;
        is_out = lacks == square{q, column, row};
        return out;
    }, 4, most);
    settle(pages, 800, 800);
    std::map<square, roam_answer> refused = pages.refused();
    must(refused.count(lies) == 1 && refused[lies] == ROAM_BAD_PAGE, "a page with another height");
    must(refused.count(lacks) == 1 && refused[lacks] == ROAM_NO_MEMORY, "a page without memory");
    must(!pages.is_loaded(lies) && !pages.is_loaded(lacks) && pages.is_loaded({0, 20, 20}), "what is refused is there, or more");
    for (const auto &it : refused) {
        const bool has_none = it.second == ROAM_BAD_GRID && it.first.q == 0 && it.first.column < 16;
        must(has_none || it.first == lies || it.first == lacks, "a page is refused");
    }
    for (const square &it : squares) { // what a page over it or beside that asks for
        const bool is_over = it.q == 0 && std::abs(int(it.column / 2) - 11) + std::abs(int(it.row / 2) - 9) <= 1;
        must(!is_over || !pages.is_loaded(it), "a page without support is there");
    }
    must(asked == 1, "what is refused is asked for again");
    const std::size_t there = loaded(pages).size();
    pages.renew();
    must(pages.refused().empty() && loaded(pages).size() == there, "what is loaded goes, or something is refused for good");
    settle(pages, 800, 800);
    must(asked == 2, "what was refused is not made anew");
    settle(pages, 1 << 20, 1 << 20);
    must(pages.refused().empty() && loaded(pages).empty(), "what is far is known of");
    settle(pages, 800, 800);
    must(asked == 3, "what was far is not asked for again");

    is_out = true; // on this thread: no page goes, and nothing is lost
    const std::size_t count = loaded(pages).size();
    must(pages.update(1 << 20, 1 << 20) == count && loaded(pages).size() == count, "a page goes without memory");
    is_out = false;
    settle(pages, 1 << 20, 1 << 20);
    must(loaded(pages).empty(), "a page does not go");
}

int main(int argc, char **argv) {
    is_first = true;
    flights(argc > 1 ? uint32_t(std::atoi(argv[1])) : 2000);
    updates_meanwhile(false);
    updates_meanwhile(true);
    holes();
    roam::world terrain;
    roam::pager none(terrain, n, large, spacing, heights_of); // of a world that was never opened
    while (none.update(0, 0) > 0) none.wait();
    for (const auto &it : none.refused()) must(it.second == ROAM_IS_EMPTY && it.first.q == coarsest - 1, "a page in no world");
    std::printf("the pages around a camera\n");
    return 0;
}
