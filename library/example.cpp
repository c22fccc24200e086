// A tetrahedron is moved, pushed against its solid vertex, and read back; what the tracker tells goes to standard output as a log file.
//
//     c++ -std=c++17 -O2 example.cpp out/libtopo.a -o example && ./example
#include "topo.h"

#include <cstdio>
#include <cstdlib>
#include <string>
#include <vector>

namespace {

void must(std::uint32_t code, const char *what, const topo_fault &fault)
{
    if (code != TOPO_DONE) {
        std::fprintf(stderr, "%s: code %u, why %u at %u %u %u\n", what, code, fault.why, fault.a, fault.b, fault.c);
        std::exit(1);
    }
}

// A tracker, freed at its end. It is not copied.
class Tracker {
public:
    Tracker(const std::vector<topo_point> &points, const std::vector<topo_triangle> &faces)
    {
        must(topo_new(points.data(), points.size(), faces.data(), faces.size(), &t, &fault), "new", fault);
    }
    Tracker(const Tracker &) = delete;
    Tracker &operator=(const Tracker &) = delete;
    ~Tracker() { topo_free(&t); }

    void shift(std::uint32_t vertex, int x, int y, int z) { must(topo_shift(&t, vertex, x, y, z, &fault), "shift", fault); }
    void step() { must(topo_step(&t, &way, &fault), "step", fault); }
    void split(std::uint32_t over) { must(topo_split(&t, over, &edits, &fault), "split", fault); }
    void solid(std::uint32_t vertex) { must(topo_solid(&t, vertex, &fault), "solid", fault); }
    void open() { must(topo_open(&t, &fault), "open", fault); }
    void close() { must(topo_close(&t, &kept, &fault), "close", fault); }
    void begin_log() { must(topo_begin_log(&t), "begin_log", {}); }
    void end_log() { must(topo_end_log(&t), "end_log", {}); }

    // The code of a call that may be refused.
    std::uint32_t try_shift(std::uint32_t vertex, int x, int y, int z) { return topo_shift(&t, vertex, x, y, z, &fault); }

    std::vector<topo_vertex> vertices()
    {
        std::size_t size = 0;
        std::vector<topo_vertex> rows;
        while (topo_points(&t, rows.data(), rows.size(), &size) == TOPO_RANGE)
            rows.resize(size);
        return rows;
    }

    std::vector<topo_face> faces()
    {
        std::size_t size = 0;
        std::vector<topo_face> rows;
        while (topo_faces(&t, rows.data(), rows.size(), &size) == TOPO_RANGE)
            rows.resize(size);
        return rows;
    }

    // What was told since the last call.
    std::string log()
    {
        std::size_t size = 0;
        std::string text;
        while (topo_log(&t, text.data(), text.size(), &size) == TOPO_RANGE)
            text.resize(size);
        return text;
    }

    topo_fault fault{0, 0, 0, 0};
    topo_way way{0, 0, 0};
    topo_edits edits{0, 0};
    std::uint32_t kept = TOPO_NO_GROUP;

private:
    topo t TOPO_NONE;
};

} // namespace

int main()
{
    const std::vector<topo_point> points{{0, 0, 0}, {40, 0, 0}, {0, 40, 0}, {0, 0, 40}};
    const std::vector<topo_triangle> faces{{1, 3, 2}, {1, 2, 4}, {2, 3, 4}, {1, 4, 3}};

    // without its last face it is not closed, and no tracker is made
    topo none TOPO_NONE;
    topo_fault fault{0, 0, 0, 0};
    const std::uint32_t code = topo_new(points.data(), points.size(), faces.data(), faces.size() - 1, &none, &fault);
    std::fprintf(stderr, "three faces: code %u, why %u, from %u to %u\n", code, fault.why, fault.a, fault.b);

    Tracker tracker(points, faces);
    tracker.begin_log();
    for (std::uint32_t v = 1; v <= 4; ++v)
        tracker.shift(v, 1, 2, 3);
    tracker.step();
    tracker.split(45);
    std::fputs(tracker.log().c_str(), stdout);

    // vertex 4 is solid, and the group is kept or taken back as its step goes
    tracker.solid(4);
    tracker.open();
    tracker.shift(1, -3, -3, 0);
    tracker.step();
    tracker.close();
    tracker.end_log();
    std::fputs(tracker.log().c_str(), stdout);

    const std::uint32_t refused = tracker.try_shift(4, 1, 0, 0);
    std::fprintf(stderr, "a solid vertex: code %u, why %u, vertex %u\n", refused, tracker.fault.why, tracker.fault.a);
    for (const topo_vertex &v : tracker.vertices())
        std::fprintf(stderr, "vertex %u at %d %d %d\n", v.id, v.x, v.y, v.z);
    for (const topo_face &f : tracker.faces())
        std::fprintf(stderr, "face %u: %u %u %u\n", f.id, f.a, f.b, f.c);
    return 0;
}
