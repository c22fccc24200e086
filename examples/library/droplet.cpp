// A ball of liquid falls into a pool: a velocity field in metres a second moves the surface, and a colour for each vertex is carried along by what
// the tracker tells. Writes frame_000.obj and so on, each vertex with its colour, into the folder that is named.
//
//     c++ -std=c++17 -O2 -I library examples/library/droplet.cpp library/out/libtopo.a -o droplet && mkdir -p frames && ./droplet frames 30
#include "topo.hpp"

#include <algorithm>
#include <cstdio>
#include <cstdlib>
#include <map>

namespace {

using Colour = std::array<double, 3>;

struct Surface {
    std::vector<topo_metres> points;
    std::vector<topo_triangle> faces;
};

// a box with one corner at `low`; its faces look outward
void add_box(Surface &s, const topo_metres &low, const topo_metres &side)
{
    const auto first = static_cast<std::uint32_t>(s.points.size()) + 1;
    for (unsigned k = 0; k < 8; ++k)
        s.points.push_back({low[0] + side[0] * (k & 1), low[1] + side[1] * (k >> 1 & 1), low[2] + side[2] * (k >> 2 & 1)});
    const std::uint32_t sides[6][4] = {{0, 2, 3, 1}, {4, 5, 7, 6}, {0, 1, 5, 4}, {2, 6, 7, 3}, {0, 4, 6, 2}, {1, 3, 7, 5}};
    for (const auto &q : sides)
        for (int i = 1; i < 3; ++i)
            s.faces.push_back({first + q[0], first + q[i], first + q[i + 1]});
}

// an octahedron, whose faces are halved in both directions `levels` times, and whose vertices are drawn out onto the ball
void add_ball(Surface &s, const topo_metres &middle, double radius, int levels)
{
    const auto first = static_cast<std::uint32_t>(s.points.size()) + 1;
    std::vector<topo_metres> points{{1, 0, 0}, {-1, 0, 0}, {0, 1, 0}, {0, -1, 0}, {0, 0, 1}, {0, 0, -1}};
    std::vector<topo_triangle> faces{{0, 2, 4}, {2, 1, 4}, {1, 3, 4}, {3, 0, 4}, {2, 0, 5}, {1, 2, 5}, {3, 1, 5}, {0, 3, 5}};
    for (; levels > 0; --levels) {
        std::map<std::pair<std::uint32_t, std::uint32_t>, std::uint32_t> halves;
        const auto half = [&](std::uint32_t a, std::uint32_t b) {
            const auto made = halves.try_emplace({std::min(a, b), std::max(a, b)}, static_cast<std::uint32_t>(points.size()));
            if (made.second) {
                topo_metres p{};
                double size = 0;
                for (int i = 0; i < 3; ++i)
                    p[i] = points[a][i] + points[b][i], size += p[i] * p[i];
                for (double &c : p)
                    c /= std::sqrt(size);
                points.push_back(p);
            }
            return made.first->second;
        };
        std::vector<topo_triangle> finer;
        for (const auto &f : faces) {
            const std::uint32_t ab = half(f.a, f.b), bc = half(f.b, f.c), ca = half(f.c, f.a);
            finer.insert(finer.end(), {{f.a, ab, ca}, {f.b, bc, ab}, {f.c, ca, bc}, {ab, bc, ca}});
        }
        faces = finer;
    }
    for (const auto &p : points)
        s.points.push_back({middle[0] + radius * p[0], middle[1] + radius * p[1], middle[2] + radius * p[2]});
    for (const auto &f : faces)
        s.faces.push_back({first + f.a, first + f.b, first + f.c});
}

// downward, and slower toward the pool, whose surface is at height 0 and rests
topo_metres velocity(const topo_metres &p)
{
    const double near = std::fmin(std::fmax(p[1] / 0.3, 0), 1);
    return {0, -1.5 * near * near * (3 - 2 * near), 0};
}

Colour mean(const Colour &a, const Colour &b) { return {(a[0] + b[0]) / 2, (a[1] + b[1]) / 2, (a[2] + b[2]) / 2}; }

// what happened to the vertices happens to their colours
void carry(std::map<std::uint32_t, Colour> &colours, const std::vector<topo_event> &events)
{
    for (const topo_event &e : events) {
        if (e.kind == TOPO_SPLIT)
            colours[e.c] = mean(colours[e.a], colours[e.b]);
        if (e.kind == TOPO_COLLAPSED)
            colours[e.a] = mean(colours[e.a], colours[e.b]);
        if (e.kind == TOPO_PINCHED)
            colours[e.b] = colours[e.a];
    }
}

void write(const std::string &name, topo_tracker &surface, const std::map<std::uint32_t, Colour> &colours)
{
    std::FILE *out = std::fopen(name.c_str(), "w");
    if (!out)
        throw std::runtime_error("cannot write " + name);
    std::map<std::uint32_t, std::size_t> numbers;
    for (const topo_vertex &v : surface.vertices()) {
        const topo_metres p = surface.grid.metres(v.x, v.y, v.z);
        const Colour &c = colours.at(v.id);
        std::fprintf(out, "v %.6f %.6f %.6f %.3f %.3f %.3f\n", p[0], p[1], p[2], c[0], c[1], c[2]);
        numbers.emplace(v.id, numbers.size() + 1);
    }
    for (const topo_face &f : surface.faces())
        std::fprintf(out, "f %zu %zu %zu\n", numbers.at(f.a), numbers.at(f.b), numbers.at(f.c));
    std::fclose(out);
}

} // namespace

int main(int count, char **words)
try {
    const std::string folder = count > 1 ? words[1] : ".";
    const int frames = count > 2 ? std::atoi(words[2]) : 30;
    const double dt = 0.02, fine = 0.09, coarse = 0.22;
    Surface start;
    add_box(start, {-1, -0.6, -1}, {2, 0.6, 2});
    add_ball(start, {0.03, 0.5, 0.02}, 0.35, 3);
    topo_tracker surface(start.points.data(), start.points.size(), start.faces.data(), start.faces.size(), {1e-5});
    std::map<std::uint32_t, Colour> colours;
    for (const topo_vertex &v : surface.vertices())
        colours[v.id] = v.y > 0 ? Colour{0.9, 0.2, 0.1} : Colour{0.1, 0.3, 0.9};
    for (int frame = 0; frame <= frames; ++frame) {
        for (const topo_vertex &v : surface.vertices()) {
            topo_metres p = surface.grid.metres(v.x, v.y, v.z);
            const topo_metres by = velocity(p);
            for (int i = 0; i < 3; ++i)
                p[i] += dt * by[i];
            surface.toward(v, p);
        }
        const topo_way way = surface.step();
        const topo_edits collapsed = surface.collapse(fine / 2), split = surface.split(coarse), zipped = surface.zip(fine / 2), pinched = surface.pinch();
        carry(colours, surface.events());
        surface.forget();
        char name[32];
        std::snprintf(name, sizeof name, "/frame_%03d.obj", frame);
        write(folder + name, surface, colours);
        const auto n = [](std::uint64_t number) { return static_cast<unsigned long long>(number); };
        std::printf("frame %d: way %u, %llu pairs failed; %llu collapsed, %llu split, %llu zipped, %llu pinched\n", frame, way.how, n(way.hits), n(collapsed.done), n(split.done), n(zipped.done), n(pinched.done));
    }
    std::printf("%zu vertices; a coordinate was rounded by at most %g m\n", surface.vertices().size(), surface.grid.rounded);
    return 0;
} catch (const std::exception &why) {
    std::fprintf(stderr, "%s\n", why.what());
    return 1;
}
