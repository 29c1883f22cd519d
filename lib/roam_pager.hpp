// roam_pager.hpp: the pages around a camera, for C++17: made ahead on a thread, and put into a world of roam.hpp a few at a time.
#ifndef ROAM_PAGER_HPP
#define ROAM_PAGER_HPP
#include "roam.hpp"
#include <condition_variable>
#include <functional>
#include <map>
#include <mutex>
#include <optional>
#include <thread>
#include <tuple>

namespace roam {
/// The square of a page: its resolution, and its column and row among those of that resolution.
struct square {
    uint32_t q, column, row;
    bool operator<(const square &o) const noexcept { return std::tie(q, column, row) < std::tie(o.q, o.column, o.row); }
    bool operator==(const square &o) const noexcept { return std::tie(q, column, row) == std::tie(o.q, o.column, o.row); }
};

/// Keeps the pages near a camera in a world: of each resolution those that are less far away, over ground, than `reach` times
/// their side. It makes them on a thread of its own, coarse before fine and near before far, and drops them there. What is more
/// than half a side farther away goes. No one else loads or unloads pages of the world, which has to outlive the pager; the
/// thread that uses the world uses it.
class pager {
public:
    /// The heights of a square's page, as roam_page_make takes them, or none where there is no page. It is called on the pager's
    /// thread, and may throw nothing.
    using source = std::function<std::vector<uint16_t>(uint32_t q, uint32_t column, uint32_t row)>;

    /// For a world of 2^large grid steps a side, each of `spacing` units, and pages of 2^n. An update puts in at most `most`
    /// pages, and takes out as many. A reach below 2 counts as 2: then what has to be loaded under a near page is near too.
    pager(world &terrain, uint32_t n, uint32_t large, uint32_t spacing, source heights, double reach = 2, size_t most = 4)
        : terrain(terrain), n(n), coarsest(large > n ? large - n : 0), spacing(spacing), heights(std::move(heights)),
          reach(std::max(2.0, reach)), most(std::max(most, size_t{1})), worker([this] { work(); }) {}
    /// Waits for the page that is being made.
    ~pager() {
        {
            std::lock_guard<std::mutex> mine(shared);
            ends = true;
            to_do.notify_one();
        }
        worker.join();
    }

    /// A step towards the pages near (x, y), a place as for world::camera: takes out what is far, puts in what is made, and asks
    /// for what is lacking. Answers how many pages are left to be taken out, put in or made; with 0 all are there that are to be
    /// had. Costs what `load` and `unload` cost, and a look at each page that is near or there.
    size_t update(int64_t x, int64_t y) {
        size_t left = let_go(x, y), room = most;
        std::vector<square> lacking;
        for (const square &it : wanted(x, y)) {
            const auto found = pages.find(it);
            if (found == pages.end()) lacking.push_back(it);
            else if (is_ready(*found) && room > 0) --room, load(it, found->second);
            else if (is_ready(*found)) ++left;
        }
        exchange(lacking);
        return left + lacking.size();
    }
    /// Waits until all is made that the last update asked for.
    void wait() {
        std::unique_lock<std::mutex> mine(shared);
        done.wait(mine, [this] { return queue.empty() && !current; });
    }
    /// What to call once other heights stand in the world, and the source gives them: what was made before and is not loaded, and
    /// what was refused, is made anew.
    void renew() {
        std::lock_guard<std::mutex> mine(shared);
        pages.merge(made);
        for (auto it = pages.begin(); it != pages.end();) {
            const auto next = std::next(it);
            if (!it->second.is_loaded) outgoing.push_back(std::move(it->second.held)), pages.erase(it);
            it = next;
        }
        is_stale = current.has_value();
    }
    /// Whether the page of a square is in the world.
    bool is_loaded(const square &it) const {
        const auto found = pages.find(it);
        return it.q == coarsest ? it.column == 0 && it.row == 0 : found != pages.end() && found->second.is_loaded;
    }
    /// The squares near the camera whose page is not to be had, and what roam_page_make answered (ROAM_BAD_GRID where the source
    /// gave none) or roam_world_load (ROAM_BAD_PAGE: it has other heights than its neighbours). They are asked for again when the
    /// camera comes back from afar.
    std::map<square, roam_answer> refused() const {
        std::map<square, roam_answer> out;
        for (const auto &it : pages)
            if (it.second.answer != ROAM_OK) out.emplace(it.first, it.second.answer);
        return out;
    }

private:
    struct entry {
        page held; // where it is not loaded
        roam_answer answer = ROAM_OK;
        bool is_loaded = false;
    };
    world &terrain;
    const uint32_t n, coarsest, spacing;
    const source heights;
    const double reach;
    const size_t most;
    std::map<square, entry> pages; // fine before coarse: made, loaded or refused
    std::vector<page> outgoing;    // for the thread to drop

    std::mutex shared; // what follows
    std::condition_variable to_do, done;
    std::vector<square> queue;     // the next one last
    std::optional<square> current; // is being made
    std::map<square, entry> made;
    std::vector<page> dropped;
    bool is_stale = false, ends = false; // is_stale: `current` has to be made anew
    std::thread worker; // the last member, since it uses the others

    double side(uint32_t q) const noexcept { return std::ldexp(double(spacing), int(n + q)); }
    /// How many of its sides a square is away from a place.
    double away(const square &it, int64_t x, int64_t y) const noexcept {
        const auto off = [](double place, double at) { return std::max({0.0, at - place, place - at - 1}); };
        return std::hypot(off(double(x) / side(it.q), it.column), off(double(y) / side(it.q), it.row));
    }
    /// The squares near a place, coarse before fine and near before far.
    std::vector<square> wanted(int64_t x, int64_t y) const {
        std::vector<square> out;
        for (uint32_t q = coarsest; q-- > 0;) add_wanted(q, x, y, out);
        return out;
    }
    void add_wanted(uint32_t q, int64_t x, int64_t y, std::vector<square> &out) const {
        const double last = std::ldexp(1.0, int(coarsest - q)) - 1, column = double(x) / side(q), row = double(y) / side(q);
        const auto within = [last](double at) { return uint32_t(std::min(std::max(std::floor(at), 0.0), last)); };
        const auto before = std::ptrdiff_t(out.size());
        for (uint32_t r = within(row - reach); r <= within(row + reach); ++r)
            for (uint32_t c = within(column - reach); c <= within(column + reach); ++c)
                if (away({q, c, r}, x, y) < reach) out.push_back({q, c, r});
        const auto is_nearer = [&](const square &a, const square &b) { return away(a, x, y) < away(b, x, y); };
        std::stable_sort(out.begin() + before, out.end(), is_nearer);
    }

    /// Whether a page is made and may be loaded: the next coarser one over its square is loaded, and those beside that.
    bool is_ready(const std::pair<const square, entry> &it) const {
        if (it.second.answer != ROAM_OK || it.second.is_loaded) return false;
        const uint32_t q = it.first.q + 1, c = it.first.column / 2, r = it.first.row / 2, end = uint32_t{1} << (coarsest - q);
        const auto is_there = [this, q, end](uint32_t x, uint32_t y) { return x >= end || y >= end || is_loaded({q, x, y}); };
        return is_there(c, r) && is_there(c - 1, r) && is_there(c + 1, r) && is_there(c, r - 1) && is_there(c, r + 1);
    }
    void load(const square &it, entry &e) {
        e.answer = roam_answer(roam_world_load(&terrain.h, it.q, it.column, it.row, &e.held.h));
        e.is_loaded = e.answer == ROAM_OK;
    }
    bool unload(const square &it, entry &e) {
        return roam_world_unload(&terrain.h, it.q, it.column, it.row, &e.held.h) == ROAM_OK;
    }
    /// Lets go of what is far, of loaded pages no more than `most`; answers how many of these are left.
    size_t let_go(int64_t x, int64_t y) {
        size_t left = 0, room = most;
        for (auto it = pages.begin(); it != pages.end();) {
            const bool is_far = away(it->first, x, y) > reach + 0.5, is_loaded = it->second.is_loaded;
            if (!is_far || (is_loaded && (room == 0 || !unload(it->first, it->second)))) {
                left += is_far;
                ++it;
                continue;
            }
            room -= is_loaded;
            outgoing.push_back(std::move(it->second.held));
            it = pages.erase(it);
        }
        return left;
    }

    /// Takes what the thread has made, and gives it what it has to make and to drop.
    void exchange(const std::vector<square> &lacking) {
        std::lock_guard<std::mutex> mine(shared);
        pages.merge(made);
        std::move(outgoing.begin(), outgoing.end(), std::back_inserter(dropped));
        outgoing.clear();
        queue.clear();
        const auto is_had = [this](const square &it) { return pages.count(it) > 0 || current == it; };
        std::remove_copy_if(lacking.rbegin(), lacking.rend(), std::back_inserter(queue), is_had);
        to_do.notify_one();
    }
    entry make(const square &it) const {
        entry out;
        const std::vector<uint16_t> points = heights(it.q, it.column, it.row);
        out.answer = roam_answer(roam_page_make(&out.held.h, page::some(points.data()), points.size()));
        return out;
    }
    /// What the thread does.
    void work() {
        for (std::unique_lock<std::mutex> mine(shared); !ends;) {
            std::vector<page> goes = std::exchange(dropped, {});
            if (!queue.empty()) current = queue.back(), queue.pop_back();
            mine.unlock();
            goes.clear();
            entry it = current ? make(*current) : entry{};
            mine.lock();
            if (current && !is_stale) made.emplace(*current, std::move(it));
            current.reset(), is_stale = false;
            if (queue.empty()) done.notify_all();
            to_do.wait(mine, [this] { return ends || !queue.empty() || !dropped.empty(); });
        }
    }
};
} // namespace roam
#endif
