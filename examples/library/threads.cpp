// What a C++ program may lean on: each allocation failing in turn leaves nothing behind and keeps the engine that was there;
// no call but `open` takes memory; an engine that goes from thread to thread does what it does on one; two engines on two
// threads do what they do one after the other; nothing is left at the end.
// usage: threads [FRAMES]      of a flight, 150 if not given
#include "roam.hpp"
#include <atomic>
#include <cstdio>
#include <cstdlib>
#include <mutex>
#include <thread>

// An allocator of the program's own, in place of that of heap.c: it counts blocks, and fails where it is told to.
struct block {
    bool is_there;
    void *at;
};
static thread_local long left = -1; // allocations that succeed before one fails; -1: all of them
static std::atomic<long> blocks{0};
static char nothing;

static block told(void *at, bool is_new) {
    if (at && is_new) blocks++;
    return {at != nullptr, at ? at : &nothing};
}
static bool fails() { return left == 0 || (left > 0 && left-- == 0); }
extern "C" block rattle_alloc(std::size_t size, std::size_t align) { return told(fails() ? nullptr : std::malloc(size ? size : align), true); }
extern "C" block rattle_realloc(void *at, std::size_t, std::size_t next, std::size_t align) {
    return told(fails() ? nullptr : std::realloc(at, next ? next : align), false);
}
extern "C" void rattle_dealloc(void *at) {
    blocks--;
    std::free(at);
}

static void must(bool holds, const char *what) {
    if (holds) return;
    std::fprintf(stderr, "threads: %s\n", what);
    std::exit(1);
}

static std::vector<uint16_t> hills(unsigned n, uint32_t seed) {
    std::vector<uint16_t> heights(((1u << n) + 1) * ((1u << n) + 1));
    for (auto &height : heights) height = static_cast<uint16_t>((seed = seed * 1664525u + 1013904223u) >> 22);
    return heights;
}

static int frames = 150;

// The frames from `k` up to `end`, summed up.
static uint64_t fly(roam::engine &terrain, int k, int end, uint64_t sum) {
    std::vector<uint32_t> indices;
    for (; k < end; k++) {
        terrain.camera(12 * k, 9 * k, 300);
        if (k % 40 == 7) terrain.raise(3, 3, 20, 11, k);
        const roam_frame_note note = terrain.frame();
        terrain.indices(indices);
        for (uint32_t place : indices) sum = sum * 31 + place;
        sum = sum * 31 + note.worst + note.splits + note.merges;
    }
    return sum;
}

static uint64_t flight(uint32_t seed) {
    roam::engine first(hills(6, seed), 900, 30), terrain = std::move(first);
    return fly(terrain, 0, frames, 0);
}

// The same, opened on one thread, flown on by this one, and closed on a third: each begins when the one before has ended.
static uint64_t flight_by_joins(uint32_t seed) {
    roam::engine terrain;
    uint64_t sum = 0;
    std::thread opens([&] {
        terrain.open(hills(6, seed), 900, 30);
        sum = fly(terrain, 0, frames / 3, sum);
    });
    opens.join();
    sum = fly(terrain, frames / 3, frames / 2, sum);
    std::thread closes([&sum, own = std::move(terrain)]() mutable {
        sum = fly(own, frames / 2, frames, sum);
        own.close();
    });
    closes.join();
    return sum;
}

// The same by two threads, a frame each time that one has the lock. The first that finds all frames flown closes the engine.
static uint64_t flight_by_a_lock(uint32_t seed) {
    roam::engine terrain(hills(6, seed), 900, 30);
    std::mutex turn;
    uint64_t sum = 0;
    int flown = 0;
    const auto fly_on = [&] {
        for (;;) {
            std::lock_guard<std::mutex> mine(turn);
            if (flown == frames) return terrain.close();
            sum = fly(terrain, flown, flown + 1, sum);
            flown++;
        }
    };
    std::thread s(fly_on), t(fly_on);
    s.join();
    t.join();
    return sum;
}

int main(int argc, char **argv) {
    if (argc > 1) frames = std::atoi(argv[1]);
    const auto heights = hills(5, 1);
    long fails = 0;
    for (;; fails++) {
        left = fails;
        roam::engine terrain;
        try {
            terrain.open(heights.data(), heights.size(), 500, 10);
            left = -1;
            break;
        } catch (const roam::error &refused) {
            left = -1;
            must(refused.answer == ROAM_NO_MEMORY, "another answer than that memory is out");
            must(blocks == 0, "an open that was refused has left memory behind");
        }
    }
    must(fails > 0 && blocks == 0, "no allocation failed, or an engine has left memory behind");
    std::printf("%ld allocations, each refused in turn: nothing left behind\n", fails);

    roam::engine terrain(heights, 500, 10);
    terrain.camera(50, 60, 70);
    const roam_frame_note before = terrain.frame();
    for (long k = 0; k < fails; k++) {
        left = k;
        try {
            terrain.open(heights.data(), heights.size(), 400, 10);
            must(false, "an open without memory succeeded");
        } catch (const roam::error &) {
        }
        left = -1;
    }
    left = 0; // from here on no memory is to be had
    roam_frame_note after = terrain.frame();
    must(after.triangles == before.triangles && after.worst == before.worst && after.splits == 0 && after.merges == 0,
         "an open that was refused has changed the engine");
    terrain.camera(900, 300, 70);
    terrain.raise(0, 0, 9, 9, 50);
    terrain.set(20, 20, 900);
    terrain.add_plane(1, 0, 0, -100);
    terrain.budget(300);
    after = terrain.frame();
    terrain.clear_planes();
    after = terrain.frame();
    left = -1;
    must(after.triangles <= 300, "the budget in force");
    terrain.close();
    must(blocks == 0, "close has left memory behind");
    std::printf("no call but open takes memory\n");

    const uint64_t one = flight(1), two = flight(2);
    uint64_t beside_one = 0, beside_two = 0;
    std::thread s([&] { beside_one = flight(1); }), t([&] { beside_two = flight(2); });
    s.join();
    t.join();
    must(one == beside_one && two == beside_two, "two threads do not do what they do one after the other");
    must(flight_by_joins(1) == one, "an engine that goes from thread to thread does not do what it does on one");
    must(flight_by_a_lock(2) == two, "two threads that take turns do not do what one does");
    must(blocks == 0, "a flight has left memory behind");
    std::printf("an engine that goes from thread to thread as on one, two engines on two threads as one after the other\n");
    return 0;
}
