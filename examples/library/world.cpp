// A flight over 245 km of made terrain, 8193 points a side and 30 m apart, in pages of 257 points a side: what a flight simulator
// writes. Pages are made ahead on the pager's thread; a frame is the best mesh of 10,000 triangles of those that are there.
#include "roam_pager.hpp"
#include <cstdio>

static const uint32_t n = 8, large = 13, spacing = 300; // heights are decimetres

// From 0 to 2^k and back again.
static uint32_t wave(uint32_t at, uint32_t k) {
    const uint32_t place = at & ((2u << k) - 1);
    return place >> k ? (2u << k) - place : place;
}
// A grid point's height, whichever page asks: pages share points, and have to have the same heights there.
static uint16_t height(uint32_t x, uint32_t y) {
    uint32_t sum = 0;
    for (uint32_t k = 3; k < 13; ++k) sum += (wave(3 * x + y, k) * wave(5 * y + 9 * x / 4, k)) >> k;
    return static_cast<uint16_t>(sum);
}
static std::vector<uint16_t> heights_of(uint32_t q, uint32_t column, uint32_t row) {
    const uint32_t steps = 1u << n;
    std::vector<uint16_t> heights;
    for (uint32_t down = 0; down <= steps; ++down) // rows from the far side
        for (uint32_t right = 0; right <= steps; ++right)
            heights.push_back(height((column * steps + right) << q, (row * steps + steps - down) << q));
    return heights;
}

int main() {
    roam::page coarsest(heights_of(large - n, 0, 0));
    roam::world terrain(coarsest, large, 10000, spacing);
    roam::pager pages(terrain, n, large, spacing, heights_of);
    std::vector<roam_draw> draws;
    std::vector<uint32_t> indices;
    terrain.threshold(roam::pixel_threshold(1, 36, 1080));
    for (int k = 0; k < 60; ++k) { // 1,440 m a frame
        const int64_t x = 300000 + 12000 * k, y = 400000 + 8000 * k, z = 30000;
        while (pages.update(x, y) > 0) pages.wait(); // to print the same each time; a simulator calls update once
        terrain.camera(x, y, z);
        terrain.look(roam::frustum(x, y, z, 3, 2, -1, 60, 16, 9));
        const roam_world_note note = terrain.frame();
        terrain.draws(draws, indices);
        uint32_t drawn = 0; // a card binds the vertex buffer of the page, made once, and draws these indices of it
        for (const roam_draw &it : draws) drawn += it.triangles;
        if (k % 10 == 0)
            std::printf("frame %d: %u triangles, %u splits and %u merges\n", k, note.triangles, note.splits, note.merges);
        if (drawn != note.triangles) return 1;
    }
    return 0;
}
