// Meshes of a grid by other ways, each measured at all grid points: for docs/COMPARISON.md.
//
//   c++ -O2 -std=c++17 bench/others.cpp -lmeshoptimizer -o others && ./others GRID.pgm SPACING insertion|meshopt error|budget NUMBER
//   ./others GRID.pgm SPACING rtin map TOLERANCE
//
// insertion: greedy insertion into a Delaunay triangulation (Garland and Heckbert 1995), the algorithm of delatin and happrox: the
// point that is farthest off comes next. meshopt: meshopt_simplify of meshoptimizer on all triangles of the grid (Debian:
// libmeshoptimizer-dev), tuned, since its own measure is another: with SAY in the environment each trial is told. GRID is a raw
// PGM file of two bytes a sample without comments. rtin: right triangles with the map of errors of MARTINI (ISC licence, after Evans,
// Kirkpatrick and Townsend 2001), for its time: its tolerance bounds no distance. A line is printed: the triangles, the greatest
// distance of the ground from the mesh at a grid point, straight up or down, how many grid points no triangle covers, and the
// processor seconds of meshing alone, without reading and measuring.
#include <meshoptimizer.h>

#include <algorithm>
#include <cmath>
#include <cstdint>
#include <cstdio>
#include <cstdlib>
#include <cstring>
#include <ctime>
#include <fstream>
#include <queue>
#include <string>
#include <unordered_map>
#include <vector>

struct Point {
    int64_t x, y;
};
struct Triangle {
    int v[3], across[3];  // across[k]: the triangle at the edge from v[k] to v[k + 1], or -1
    bool dead;
};

static int side;
static std::vector<uint16_t> heights;  // rows from the north
static Point at(int k) { return {k % side, k / side}; }
static int64_t turn(Point a, Point b, Point c) { return (b.x - a.x) * (c.y - a.y) - (b.y - a.y) * (c.x - a.x); }

// Calls look(k, error) for each grid point of a triangle, whichever way it turns.
template <typename Look> static void points_of(int a, int b, int c, Look look) {
    Point p = at(a), q = at(b), r = at(c);
    int64_t twice = turn(p, q, r), sign = twice < 0 ? -1 : 1;
    if (twice == 0) return;
    for (int64_t y = std::min({p.y, q.y, r.y}); y <= std::max({p.y, q.y, r.y}); y++)
        for (int64_t x = std::min({p.x, q.x, r.x}); x <= std::max({p.x, q.x, r.x}); x++) {
            Point o{x, y};
            int64_t u = turn(q, r, o), v = turn(r, p, o), w = turn(p, q, o);
            if (sign * u < 0 || sign * v < 0 || sign * w < 0) continue;
            double plane = (double(u) * heights[a] + double(v) * heights[b] + double(w) * heights[c]) / double(twice);
            int k = int(y) * side + int(x);
            look(k, std::fabs(heights[k] - plane));
        }
}

static bool in_circle(Point a, Point b, Point c, Point p) {
    int64_t ax = a.x - p.x, ay = a.y - p.y, bx = b.x - p.x, by = b.y - p.y, cx = c.x - p.x, cy = c.y - p.y;
    return (ax * ax + ay * ay) * (bx * cy - by * cx) - (bx * bx + by * by) * (ax * cy - ay * cx) + (cx * cx + cy * cy) * (ax * by - ay * bx) > 0;
}

class Insertion {
    std::vector<Triangle> triangles;
    struct Worst {
        double error;
        int point, triangle;
        bool operator<(const Worst &it) const { return error < it.error; }
    };
    std::priority_queue<Worst> queue;
    int alive = 0;

    int add(int a, int b, int c) {
        int name = int(triangles.size());
        triangles.push_back({{a, b, c}, {-1, -1, -1}, false});
        alive++;
        Worst worst{0, -1, name};
        points_of(a, b, c, [&](int k, double error) { if (error > worst.error) worst = {error, k, name}; });
        queue.push(worst);
        return name;
    }

    // Takes out all triangles whose circle holds the point, and joins their border with it.
    void insert(int point, int first) {
        std::vector<int> todo{first}, gone;
        triangles[first].dead = true;
        struct Edge { int a, b, out; };
        std::vector<Edge> border;
        while (!todo.empty()) {
            int name = todo.back();
            todo.pop_back();
            gone.push_back(name);
            for (int k = 0; k < 3; k++) {
                int out = triangles[name].across[k];
                if (out >= 0 && triangles[out].dead) continue;
                const int *v = out >= 0 ? triangles[out].v : nullptr;
                if (v && in_circle(at(v[0]), at(v[1]), at(v[2]), at(point))) {
                    triangles[out].dead = true;
                    todo.push_back(out);
                } else {
                    border.push_back({triangles[name].v[k], triangles[name].v[(k + 1) % 3], out});
                }
            }
        }
        alive -= int(gone.size());
        std::unordered_map<int, int> from, to;  // the new triangle whose border edge begins, ends at a point
        for (const Edge &edge : border) {
            if (edge.out >= 0 && triangles[edge.out].dead) continue;  // it went later
            if (turn(at(edge.a), at(edge.b), at(point)) == 0) continue;  // the point is on the border of the square
            int name = add(edge.a, edge.b, point);
            triangles[name].across[0] = edge.out;
            if (edge.out >= 0)
                for (int k = 0; k < 3; k++)
                    if (triangles[edge.out].v[k] == edge.b && triangles[edge.out].v[(k + 1) % 3] == edge.a) triangles[edge.out].across[k] = name;
            from[edge.a] = to[edge.b] = name;
        }
        for (auto [a, name] : from) {
            auto before = to.find(a);
            if (before == to.end()) continue;
            triangles[name].across[2] = before->second;
            triangles[before->second].across[1] = name;
        }
    }

public:
    Insertion() {
        int last = side - 1, corners[4] = {0, last, last * side + last, last * side};
        int a = add(corners[0], corners[1], corners[2]), b = add(corners[0], corners[2], corners[3]);
        triangles[a].across[2] = b;
        triangles[b].across[0] = a;
    }

    // Until the greatest error is within a bound, or the next point would make more triangles than the budget.
    std::vector<unsigned> until(double error, int budget) {
        while (true) {
            while (triangles[queue.top().triangle].dead) queue.pop();
            Worst worst = queue.top();
            if (worst.error <= error || alive + 2 > budget) break;
            insert(worst.point, worst.triangle);
        }
        std::vector<unsigned> found;
        for (const Triangle &it : triangles)
            if (!it.dead) for (int v : it.v) found.push_back(unsigned(v));
        return found;
    }
};

// The map has a number for each grid point: how far it is from the middle of the edge that it splits, or a point below it from its
// own, at most. A triangle is split whose point has more than the tolerance.
class Rtin {
    std::vector<float> errors;

    static int middle(Point a, Point b) { return int((a.y + b.y) / 2 * side + (a.x + b.x) / 2); }

    void split(Point a, Point b, Point c, float tolerance, std::vector<unsigned> &found) const {
        int m = middle(a, b);
        if (std::abs(a.x - c.x) + std::abs(a.y - c.y) > 1 && errors[size_t(m)] > tolerance) {
            split(c, a, at(m), tolerance, found);
            split(b, c, at(m), tolerance, found);
        } else {
            for (Point it : {a, b, c}) found.push_back(unsigned(it.y * side + it.x));
        }
    }

public:
    // From the finest edges up, each midpoint once: of edges of 2 s along an axis, then of the diagonals of squares of that side.
    Rtin() : errors(heights.size()) {
        int last = side - 1;
        auto put = [&](int x, int y, int dx, int dy, int ex, int ey, int fx, int fy) {
            size_t k = size_t(y) * side + x, d = size_t(dy) * side + dx;
            float worst = std::fabs((heights[k - d] + heights[k + d]) / 2.0f - heights[k]);
            for (auto [u, v] : {Point{x + ex, y + ey}, Point{x - ex, y - ey}, Point{x + fx, y + fy}, Point{x - fx, y - fy}})
                if (u >= 0 && v >= 0 && u <= last && v <= last) worst = std::max(worst, errors[size_t(v * side + u)]);
            errors[k] = worst;
        };
        for (int s = 1; s < last; s *= 2) {
            for (int y = 0; y <= last; y += s)
                for (int x = y / s % 2 ? 0 : s; x <= last; x += 2 * s) {
                    int half = s / 2;
                    if (y / s % 2) put(x, y, 0, s, half, half, half, -half);
                    else put(x, y, s, 0, half, half, half, -half);
                }
            for (int y = s; y < last; y += 2 * s)
                for (int x = s; x < last; x += 2 * s) {
                    bool rising = (x / (2 * s) + last / (2 * s) - 1 - y / (2 * s)) % 2 == 0 && 2 * s < last;
                    put(x, y, rising ? -s : s, s, s, 0, 0, s);
                }
        }
    }

    std::vector<unsigned> within(float tolerance) const {
        int64_t last = side - 1;
        std::vector<unsigned> found;
        split({0, 0}, {last, last}, {last, 0}, tolerance, found);
        split({last, last}, {0, 0}, {0, last}, tolerance, found);
        return found;
    }
};

static double worst_of(const std::vector<unsigned> &found) {
    double worst = 0;
    for (size_t k = 0; k < found.size(); k += 3)
        points_of(int(found[k]), int(found[k + 1]), int(found[k + 2]), [&](int, double off) { worst = std::max(worst, off); });
    return worst;
}

// All triangles of the grid, simplified to a bound by its own measure, or to a target.
class Simplified {
    std::vector<float> places;
    std::vector<unsigned> all;
    double scale;

    std::vector<unsigned> run(double bound, size_t target) {
        std::vector<unsigned> found(all.size());
        float told = 0;
        found.resize(meshopt_simplify(found.data(), all.data(), all.size(), places.data(), places.size() / 3, 12, 3 * target, float(bound / scale), 0, &told));
        if (say) std::printf("bound %g target %zu told %g: triangles %zu error %g\n", bound, target, told * scale, found.size() / 3, worst_of(found));
        return found;
    }

public:
    bool say = false;

    explicit Simplified(double spacing) {
        for (int k = 0; k < side * side; k++) {
            for (double it : {(k % side) * spacing, (side - 1 - k / side) * spacing, double(heights[k])}) places.push_back(float(it));
            if (k % side < side - 1 && k / side < side - 1)
                for (int it : {k, k + side, k + 1, k + 1, k + side, k + side + 1}) all.push_back(unsigned(it));
        }
        scale = meshopt_simplifyScale(places.data(), places.size() / 3, 12);
    }

    // The bound is lowered by 3 parts of 100 until the error that is measured is within the one wanted.
    std::vector<unsigned> for_error(double error) {
        for (double bound = error;; bound *= 0.97) {
            std::vector<unsigned> found = run(bound, 0);
            if (worst_of(found) <= error) return found;
        }
    }

    // The best of forty targets from the budget down, by parts of a hundred of it.
    std::vector<unsigned> for_budget(int budget) {
        std::vector<unsigned> best;
        for (int k = 0; k < 40; k++) {
            std::vector<unsigned> found = run(scale, size_t(budget) * (100 - k) / 100);
            if (found.size() <= 3 * size_t(budget) && (best.empty() || worst_of(found) < worst_of(best))) best = found;
        }
        return best;
    }
};

int main(int count, char **words) {
    if (count != 6) return 2;
    std::ifstream file(words[1], std::ios::binary);
    std::string magic;
    int height, most;
    file >> magic >> side >> height >> most;
    file.get();
    heights.resize(size_t(side) * side);
    for (auto &it : heights) {
        int high = file.get(), low = file.get();
        it = uint16_t(high << 8 | low);
    }
    if (!file || magic != "P5" || side != height || most < 256) return 3;
    bool by_error = !std::strcmp(words[4], "error");
    double error = by_error ? std::atof(words[5]) : 0;
    int budget = by_error ? 0 : std::atoi(words[5]);
    std::vector<unsigned> found;
    std::clock_t start = std::clock();
    if (!std::strcmp(words[3], "rtin")) {
        found = Rtin().within(float(std::atof(words[5])));
    } else if (!std::strcmp(words[3], "insertion")) {
        found = Insertion().until(error, by_error ? INT32_MAX : budget);
    } else {
        Simplified all(std::atof(words[2]));
        all.say = std::getenv("SAY") != nullptr;
        found = by_error ? all.for_error(error) : all.for_budget(budget);
    }
    double seconds = double(std::clock() - start) / CLOCKS_PER_SEC;
    std::vector<char> covered(heights.size());
    for (size_t k = 0; k < found.size(); k += 3)
        points_of(int(found[k]), int(found[k + 1]), int(found[k + 2]), [&](int p, double) { covered[size_t(p)] = 1; });
    long bare = 0;
    for (char it : covered) bare += !it;
    std::printf("%s %s %s triangles %zu error %g bare %ld seconds %.3f\n", words[3], words[4], words[5], found.size() / 3, worst_of(found), bare, seconds);
}
