// Worked cases of the class for C++: what it refuses of units, numbers and settings, what it asks and reads by ids, and that no memory for a log loses
// none of it. Prints how many hold, or which do not.
#include "topo.hpp"

#include <cstdio>
#include <cstdlib>
#include <limits>
#include <new>

// how many more blocks operator new makes before it fails, while it is to fail
static long left = -1;

void *operator new(std::size_t size)
{
    if (left == 0)
        throw std::bad_alloc();
    left -= left > 0;
    if (void *made = std::malloc(size ? size : 1))
        return made;
    throw std::bad_alloc();
}

void operator delete(void *old) noexcept { std::free(old); }
void operator delete(void *old, std::size_t) noexcept { std::free(old); }

namespace {

int held = 0, failed = 0;

void is(const char *what, bool so)
{
    ++(so ? held : failed);
    if (!so)
        std::printf("%s: it is not\n", what);
}

// whether a call throws just this
template <class Error, class Call> bool throws(Call call)
{
    try {
        call();
    } catch (const Error &) {
        return true;
    } catch (...) {
    }
    return false;
}

// whether a call ends with this code, and at a refusal with this reason and place
template <class Call> bool ends(Call call, std::uint32_t code, std::uint32_t why = 0, std::uint32_t a = 0)
{
    try {
        call();
    } catch (const topo_error &error) {
        return error.code == code && error.fault.why == why && error.fault.a == a;
    }
    return false;
}

const topo_metres four[] = {{0, 0, 0}, {4, 0, 0}, {0, 4, 0}, {0, 0, 4}};
const topo_triangle sides[] = {{1, 3, 2}, {1, 2, 4}, {2, 3, 4}, {1, 4, 3}};

topo_tracker tetrahedron(const topo_grid &grid) { return topo_tracker(four, 4, sides, 4, grid); }

void grids()
{
    const double infinite = std::numeric_limits<double>::infinity(), none = std::numeric_limits<double>::quiet_NaN();
    for (const double unit : {0.0, -0.0, -1.0, infinite, -infinite, none}) {
        const topo_grid grid{unit};
        is("a unit that is none makes no tracker", throws<std::invalid_argument>([&] { tetrahedron(grid); }));
        is("nor one that goes on", throws<std::invalid_argument>([&] { topo_tracker({}, {}, {}, topo_counted{0, 0, 0, 1, 1, 0}, grid); }));
        is("nor a point", throws<std::invalid_argument>([&] { grid.metres(1, 2, 3); }));
        is("nor a length", throws<std::invalid_argument>([&] { grid.length(1); }));
        topo_tracker surface = tetrahedron({1});
        surface.grid.unit = unit;
        is("nor a shift, when it comes later", throws<std::invalid_argument>([&] { surface.shift(1, {0, 0, 1}); }));
    }
    is("an origin that is none", throws<std::invalid_argument>([&] { tetrahedron({1, {0, none, 0}}); }));
    topo_tracker surface = tetrahedron({0.1});
    is("whole numbers of units are not rounded", surface.grid.rounded < 1e-12);
    for (const double length : {-1.0, none, infinite, 1e12})
        is("a length that is none", throws<std::out_of_range>([&] { surface.split(length); }));
    surface.split(1000.04);
    is("a length is not counted", surface.grid.rounded < 1e-12);
    surface.shift(1, {0.03, 0, 0});
    is("a shift is", std::fabs(surface.grid.rounded - 0.03) < 1e-12);
    for (const double by : {none, infinite, 1e12})
        is("a shift that is none", throws<std::out_of_range>([&] { surface.shift(1, {by, 0, 0}); }));
}

void settings()
{
    topo_tracker surface = tetrahedron({0.1});
    surface.set(10, 100, true, 27);
    surface.set(0, 0, false, 0);
    for (const long long beyond : {-1LL, 11LL, 256LL, 262LL, 1LL << 32, (1LL << 32) + 6})
        is("a depth that is none", ends([&] { surface.set(beyond, 3, 1, 6); }, TOPO_RANGE));
    is("passes that are none", ends([&] { surface.set(6, 259, 1, 6); }, TOPO_RANGE));
    is("zones that are none", ends([&] { surface.set(6, 3, 2, 6); }, TOPO_RANGE));
    is("zones beyond eight bits", ends([&] { surface.set(6, 3, 256, 6); }, TOPO_RANGE));
    is("halvings that are none", ends([&] { surface.set(6, 3, 1, 262); }, TOPO_RANGE));
}

void shifts()
{
    topo_tracker surface = tetrahedron({0.1});
    surface.shift_each({});
    surface.shift_each({{1, {0, 0, -0.5}}, {2, {0.5, 0, 0}}});
    is("they are taken", surface.step().how == TOPO_WHOLE);
    const std::vector<topo_vertex> rows = surface.vertices();
    is("each by its own", rows[0].z == -5 && rows[1].x == 45 && rows[2].y == 40);
    is("a vertex that does not live", ends([&] { surface.shift_each({{1, {0, 0, 1}}, {9, {0, 0, 1}}}); }, TOPO_REFUSED, TOPO_NO_VERTEX, 9));
    is("an id that is none", ends([&] { surface.shift_each({{0, {0, 0, 1}}}); }, TOPO_RANGE));
    surface.solid(2);
    is("a solid vertex", ends([&] { surface.shift_each({{2, {0, 0, 1}}}); }, TOPO_REFUSED, TOPO_SOLID, 2));
}

void edits()
{
    topo_tracker surface = tetrahedron({0.1});
    is("no edit", surface.edit_each({}).empty());
    const std::vector<topo_answered> answers = surface.edit_each({{TOPO_SPLIT, 2, 1, 0, 0}, {TOPO_PINCHED, 4, 0, 0, 0}, {TOPO_SPLIT, 2, 3, 0, 0}});
    is("three answers", answers.size() == 3 && answers[1].why == TOPO_ONE_FAN);
    is("of two splits", answers[0].why == 0 && answers[0].a == 5 && answers[0].x == 20 && answers[2].why == 0 && answers[2].a == 6);
    is("a kind that is none", ends([&] { surface.edit({TOPO_MOVED, 1, 2, 0, 0}); }, TOPO_RANGE));
    is("one end twice", ends([&] { surface.edit({TOPO_SPLIT, 1, 1, 0, 0}); }, TOPO_RANGE));
    is("no group is open", surface.undo() == TOPO_NO_GROUP);
    surface.open();
    const topo_answered split = surface.edit({TOPO_SPLIT, 1, 3, 0, 0});
    is("an edit in a group", split.why == 0 && split.a == 7);
    is("its star", surface.star(7).size() == 4);
    const std::vector<topo_component> components = surface.components();
    is("one component, with its volume", components.size() == 1 && components[0].vertex == 1 && components[0].euler == 2 && std::fabs(surface.volume(components[0]) - 64000 / 6.0 * 1e-3) < 1e-9);
    const std::vector<topo_face> beside = surface.beside(7, 1);
    is("the faces beside an edge of it", beside.size() == 2 && beside[0].id < beside[1].id);
    is("the first refused ends a list", surface.edit_each({{TOPO_FLIPPED, 1, 77, 0, 0}, {TOPO_SPLIT, 1, 4, 0, 0}}).size() == 1);
    is("it is taken back", surface.undo() == TOPO_TAKEN_BACK);
    is("and its vertex is gone", surface.star(7).empty() && surface.beside(1, 7).empty() && surface.counts().next_vertex == 7);
    surface.open();
    is("in a group nothing is numbered anew", ends([&] { surface.renumber(); }, TOPO_GROUPED));
    surface.undo(), surface.collapse(2.1), surface.renumber();
    is("ids are those of the places then", surface.vertices().back().id == surface.vertices().size() && surface.counts().lines == 0);
    surface.begin_log();
    is("a mesh in a log", surface.save() == 1);
    surface.end_log();
    const std::string numbers = std::to_string(surface.counts().vertices) + " " + std::to_string(surface.counts().faces) + "\n";
    is("which is whole", surface.log() == "topo log 2\nmesh 0 " + numbers + "mesh 1 " + numbers + "end\n");
    surface.split(1);
    surface.begin_log();
    is("ids that are not dense are told first", surface.log().rfind("topo log 3\nmesh 0 ", 0) == 0);
    surface.open();
    is("a log does not end in a group", ends([&] { surface.end_log(); }, TOPO_GROUPED));
    is("in a group the component goes", surface.drop(1).why == 0 && surface.components().empty());
    is("and then there is no edge", surface.drop(1).why == TOPO_NO_EDGE);
}

void tables()
{
    topo_tracker surface = tetrahedron({0.1});
    const topo_edits fitted = surface.fit_by({-2, 0, 0}, 2, {3, 1, 1}, {{0.1, 10}, {0.1, 10}, {0.1, 4.5}});
    is("two edges are long in the last cell", fitted.done == 2 && fitted.refused == 0);
    is("as their lines tell", surface.log() == "pass fit\nsplit 2 3 5 20 20 0\nsplit 2 4 6 20 0 20\n");
    is("a band of one length", ends([&] { surface.fit_by({0, 0, 0}, 2, {2, 1, 1}, {{1, 2}, {2, 2}}); }, TOPO_REFUSED, TOPO_NO_BAND, 1));
    is("fewer bands than cells", ends([&] { surface.fit_by({0, 0, 0}, 2, {2, 1, 1}, {{1, 2}}); }, TOPO_REFUSED, TOPO_MISCOUNTED));
    is("cells of no side", ends([&] { surface.fit_by({0, 0, 0}, 0.04, {1, 1, 1}, {{1, 2}}); }, TOPO_REFUSED, TOPO_NO_SIDE));
    is("a length below zero", throws<std::out_of_range>([&] { surface.fit_by({0, 0, 0}, 2, {1, 1, 1}, {{-1, 2}}); }));
}

void logs()
{
    topo_tracker surface = tetrahedron({0.01});
    for (long n = 0; n < 8; ++n) {
        surface.split(1);
        left = n;
        std::string text;
        const bool lost = throws<std::bad_alloc>([&] { text = surface.log(); });
        left = -1;
        if (lost)
            text = surface.log();
        is("the log is told whole, if not the first time", text.rfind("pass split 100\n", 0) == 0 && surface.log().empty());
        is("want of memory is told", n > 0 || lost);
    }
}

} // namespace

int main()
{
    grids();
    settings();
    shifts();
    edits();
    tables();
    logs();
    std::printf("%d hold, %d do not\n", held, failed);
    return failed != 0;
}
