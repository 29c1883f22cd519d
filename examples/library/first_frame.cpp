// The first frame of a made hill: vertices and indices as a graphics card takes them.
#include "roam.hpp"
#include <cstdio>

int main() {
    const unsigned side = 129;
    const float spacing = 10.0f;
    std::vector<uint16_t> heights(side * side);
    for (unsigned row = 0; row < side; row++)
        for (unsigned x = 0; x < side; x++) heights[row * side + x] = static_cast<uint16_t>((row * x) % 97 + row + x);

    // One vertex for each grid point, uploaded once. The first row is the far one.
    std::vector<float> vertices;
    for (unsigned row = 0; row < side; row++)
        for (unsigned x = 0; x < side; x++)
            vertices.insert(vertices.end(), {x * spacing, (side - 1 - row) * spacing, float(heights[row * side + x])});

    roam::engine terrain(heights, 1000, 10); // at most 1,000 triangles; a grid step is 10 units of height long
    std::vector<uint32_t> indices;           // uploaded in each frame
    terrain.camera(640, 0, 200);
    roam_frame_note note = terrain.frame();
    terrain.indices(indices);
    std::printf("%u triangles of %u vertices, %zu floats uploaded once, %zu indices in this frame\n", note.triangles, note.vertices,
                vertices.size(), indices.size());

    // Or the vertices of the mesh alone, both buffers uploaded in each frame.
    std::vector<uint32_t> few, of_few;
    terrain.positions(few);  // x, y, z of each
    terrain.compact(of_few); // three of these for each triangle
    std::printf("or %zu numbers and %zu indices in this frame\n", few.size(), of_few.size());
    return indices.size() == 3 * std::size_t{note.triangles} && note.triangles <= 1000 && few.size() == 3 * std::size_t{note.vertices} ? 0 : 1;
}
