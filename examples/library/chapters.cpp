// A long run in chapters: each has an OBJ file of the surface as it begins, and a log of its own that the program takes beside that file. Ids go on from
// chapter to chapter, so that what the caller knows by an id stays good: where edits have left gaps, the log begins with the ids of the file's rows.
// Writes start0.obj, log0.txt, end0.obj and so on into a folder.
//
//     c++ -std=c++17 -O2 -I library examples/library/chapters.cpp library/out/libtopo.a -o chapters && mkdir -p run && ./chapters run
//     topo replay run/start2.obj run/log2.txt run/again --large && cmp run/end2.obj run/again-000001.obj
#include "topo.hpp"

#include <cstdio>
#include <fstream>
#include <map>

namespace {

// The surface in grid units, its vertices by their places, as the program writes a mesh.
void write(topo_tracker &surface, const std::string &name)
{
    std::ofstream out(name);
    std::map<std::uint32_t, std::size_t> place;
    for (const topo_vertex &v : surface.vertices()) {
        place.emplace(v.id, place.size() + 1);
        out << "v " << v.x << " " << v.y << " " << v.z << "\n";
    }
    for (const topo_face &f : surface.faces())
        out << "f " << place[f.a] << " " << place[f.b] << " " << place[f.c] << "\n";
}

// A box that is drawn out along x, one end held, and its edges kept about as long as at first.
void go_on(topo_tracker &surface, int steps)
{
    for (int k = 0; k < steps; ++k) {
        for (const topo_vertex &v : surface.vertices())
            if (v.x > 0)
                surface.shift(v.id, {v.x / 20.0, -v.y / 50.0, 0});
        surface.step();
        surface.split(700);
        surface.collapse(250);
        surface.flip();
    }
}

} // namespace

int main(int words, char **word)
{
    if (words != 2) {
        std::fprintf(stderr, "usage: chapters FOLDER\n");
        return 2;
    }
    const std::vector<topo_metres> corners{{0, 0, 0}, {400, 0, 0}, {0, 400, 0}, {400, 400, 0}, {0, 0, 400}, {400, 0, 400}, {0, 400, 400}, {400, 400, 400}};
    const std::vector<topo_triangle> sides{{1, 3, 4}, {1, 4, 2}, {5, 6, 8}, {5, 8, 7}, {1, 2, 6}, {1, 6, 5}, {3, 7, 8}, {3, 8, 4}, {1, 5, 7}, {1, 7, 3}, {2, 4, 8}, {2, 8, 6}};
    topo_tracker surface(corners.data(), corners.size(), sides.data(), sides.size());
    for (const std::uint32_t held : {1, 3, 5, 7})
        surface.solid(held);
    for (int chapter = 0; chapter < 3; ++chapter) {
        const auto named = [&](const char *what, const char *ending) { return std::string(word[1]) + "/" + what + std::to_string(chapter) + ending; };
        surface.begin_log();
        write(surface, named("start", ".obj"));
        std::ofstream log(named("log", ".txt"));
        for (int part = 0; part < 4; ++part) {
            go_on(surface, 2);
            log << surface.log();
        }
        const std::uint32_t number = surface.save();
        write(surface, named("end", ".obj"));
        surface.end_log();
        log << surface.log();
        const topo_counted counts = surface.counts();
        std::fprintf(stderr, "chapter %d: mesh %u has %u vertices, the next is %u\n", chapter, number, counts.vertices, counts.next_vertex);
    }
    return 0;
}
