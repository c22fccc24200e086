// Small cases of library/improve.hpp and merge.hpp: each guard by a mesh at which it alone holds an edit back, and which the same passes
// change without it; smoothing and repair; bodies that become one; non-manifold edges that are taken out. Prints how many hold, or which
// do not.
#include "improve.hpp"
#include "merge.hpp"
#include "shapes.hpp"

#include <cstdio>
#include <functional>

namespace {

int held = 0, failed = 0;

void is(const char *what, bool so)
{
    ++(so ? held : failed);
    if (!so)
        std::printf("%s: it is not\n", what);
}

// A tracker, on a grid of thousandths.
topo_tracker tracked(const Shape &shape)
{
    std::vector<topo_triangle> faces;
    for (const Corners &f : shape.faces)
        faces.push_back({std::uint32_t(f[0] + 1), std::uint32_t(f[1] + 1), std::uint32_t(f[2] + 1)});
    return topo_tracker(shape.points.data(), shape.points.size(), faces.data(), faces.size(), topo_grid{0.001});
}
double volume(topo_tracker &t)
{
    Mesh m;
    m.read(t);
    double six = 0;
    for (const Corners &f : m.faces)
        six += dot(m.points[f[0]], cross(m.points[f[1]], m.points[f[2]]));
    return six / 6 * 1e-9;
}
struct Counts { long components, euler, crowded, folds; };
Counts counts(topo_tracker &t)
{
    Mesh m;
    m.read(t);
    std::vector<int> up(m.id.size());
    for (std::size_t i = 0; i < up.size(); ++i)
        up[i] = int(i);
    const auto root = [&](int i) {
        while (up[i] != i)
            i = up[i];
        return i;
    };
    for (const Corners &f : m.faces)
        up[root(f[0])] = root(f[1]), up[root(f[1])] = root(f[2]);
    Counts c{0, long(m.id.size() + m.faces.size()) - long(m.edges.size() + m.crowded.size()), long(m.crowded.size()), 0};
    for (int i = 0; i < int(up.size()); ++i)
        c.components += root(i) == i;
    for (const Mesh::Edge &e : m.edges)
        c.folds += cosine(m.normal(e.left), m.normal(e.right)) < -0.5;
    return c;
}

// All guards open, with a mean edge of 100: lengths want nothing, and nothing is held back.
Improving open_guards()
{
    Improving g{100};
    g.min_edge_length = g.min_triangle_angle = g.collapse_min_angle = 0, g.max_triangle_angle = 180, g.max_edge_length = 1e3;
    g.flip_rounds = g.collapse_rounds = 0, g.rim_max_shift = 0, g.restore_volume = false;
    g.max_volume_change = g.edge_flip_max_volume_change = 1e9;
    g.edge_flip_min_cosine = g.collapse_max_turn = g.collapse_min_cosine = g.fold_cosine = -2;
    return g;
}
using Change = std::function<void(Improving &)>;
enum class Pass { flip, collapse, cap };
// How many edits a pass does with open guards but for these changes.
long done(const Shape &shape, Pass pass, const Change &change)
{
    topo_tracker t = tracked(shape);
    Improving g = open_guards();
    change(g);
    g.flip_rounds = pass == Pass::flip, g.collapse_rounds = pass == Pass::collapse;
    Improver improver(t, g);
    improver.improve();
    return improver.told.flips + improver.told.collapses + improver.told.caps;
}
// A guard holds back all that the pass does without it.
void holds(const char *what, const Shape &shape, Pass pass, const Change &wanted, const Change &guard)
{
    const auto both = [&](Improving &g) { wanted(g), guard(g); };
    is(what, done(shape, pass, wanted) > 0 && done(shape, pass, both) == 0);
}

// Two faces a b c and b a d above a point, of which the edge from a to b is the longer diagonal; b and the heights of c and d are given.
Shape roof(double b, double c, double z)
{
    return {{{-200, 0, 0}, {b, 0, 0}, {0, c, z}, {0, -c, z}, {0, 0, -300}},
        {{0, 1, 2}, {1, 0, 3}, {2, 1, 4}, {0, 2, 4}, {3, 0, 4}, {1, 3, 4}}};
}
// Six faces around a vertex that was pushed over the rim, above a point: one face lies upside down.
Shape overhang()
{
    Shape s{{{150, 0, 5}, {0, 0, -300}}, {}};
    for (const auto &[x, y] : {std::pair(87, -50), {87, 50}, {0, 100}, {-87, 50}, {-87, -50}, {0, -100}})
        s.points.push_back({double(x), double(y), 0});
    for (int i = 0; i < 6; ++i)
        s.faces.push_back({0, 2 + i, 2 + (i + 1) % 6}), s.faces.push_back({1, 2 + (i + 1) % 6, 2 + i});
    return s;
}
// Two bodies that hang together by a neck of three edges, of the given size.
Shape neck(double size)
{
    Shape s;
    const double ring[] = {200, size, 200};
    s.points.push_back({0, 0, -150});
    for (int k = 0; k < 3; ++k)
        for (const auto &[x, y] : {std::pair(1.0, 0.0), {-0.5, 0.866}, {-0.5, -0.866}})
            s.points.push_back({ring[k] * x, ring[k] * y, 100.0 * k});
    s.points.push_back({0, 0, 350});
    for (int i = 0; i < 3; ++i) {
        const int j = (i + 1) % 3;
        s.faces.push_back({0, 1 + j, 1 + i}), s.faces.push_back({10, 7 + i, 7 + j});
        for (int k : {1, 4})
            s.faces.push_back({k + i, k + j, k + 3 + i}), s.faces.push_back({k + j, k + 3 + j, k + 3 + i});
    }
    return s;
}
// A bar along x with a groove along its top, by its corners in the plane across: of the groove's sides, from the right rim to the left.
Shape groove(const std::vector<std::pair<double, double>> &sides)
{
    Shape s;
    std::vector<std::pair<double, double>> ring{{-170, -200}, {0, -200}, {170, -200}};
    ring.insert(ring.end(), sides.begin(), sides.end());
    const int size = static_cast<int>(ring.size()), last = 5 * size;
    for (int k = 0; k < 6; ++k)
        for (const auto &[y, z] : ring)
            s.points.push_back({100.0 * k, y, z});
    s.points.push_back({0, 0, -100}), s.points.push_back({500, 0, -100});
    for (int i = 0; i < size; ++i) {
        const int j = (i + 1) % size;
        for (int k = 0; k < last; k += size)
            s.faces.push_back({k + i, k + j, k + size + j}), s.faces.push_back({k + i, k + size + j, k + size + i});
        s.faces.push_back({last + size, j, i}), s.faces.push_back({last + size + 1, last + i, last + j});
    }
    return s;
}
Shape box(double x, double y, double z, const Point &low)
{ // with a grid of squares of side 100 on each side
    return Contour([=](const Point &p) {
        const Point q = p - low;
        return std::max({std::fabs(q[0] - x / 2) - x / 2, std::fabs(q[1] - y / 2) - y / 2, std::fabs(q[2] - z / 2) - z / 2});
    }, low - Point{130.1, 130.2, 130.3}, low + Point{x + 130, y + 130, z + 130}, 100).made;
}

void flips()
{
    const Change none = [](Improving &) {};
    is("a flip that makes the least angle greater is done", done(roof(200, 100, 0), Pass::flip, none) == 1);
    is("one that does not is not wanted", done(roof(200, 210, 0), Pass::flip, none) == 0);
    holds("flip: a bend of the two faces", roof(200, 100, -30), Pass::flip, none, [](Improving &g) { g.edge_flip_min_cosine = 0.9; });
    holds("flip: a bend of the two new faces", roof(60, 100, -22), Pass::flip, none, [](Improving &g) { g.edge_flip_min_cosine = 0.9; });
    const Change bend = [](Improving &g) { g.edge_flip_min_cosine = 0.9; };
    is("flip: faces that bend less are let through", done(roof(60, 100, -10), Pass::flip, bend) == 1);
    holds("flip: volume", roof(200, 100, -5), Pass::flip, none, [](Improving &g) { g.edge_flip_max_volume_change = 1.0 / 600; });
}

void collapses()
{
    const Shape round = ball({0, 0, 0}, 171, 100); // 80 faces
    const Change all = [](Improving &g) { g.min_edge_length = 10; };
    holds("collapse: volume", round, Pass::collapse, all, [](Improving &g) { g.max_volume_change = 1.0 / 60; });
    holds("collapse: the least angle", round, Pass::collapse, all, [](Improving &g) { g.collapse_min_angle = 60; });
    holds("collapse: a face that turns", round, Pass::collapse, all, [](Improving &g) { g.collapse_max_turn = 0.99999; });
    holds("collapse: a bend", round, Pass::collapse, all, [](Improving &g) { g.collapse_min_cosine = 0.999; });
    holds("collapse: an edge that becomes long", round, Pass::collapse, all, [](Improving &g) { g.max_edge_length = 1.2; });
    holds("collapse: of no edge as long as that", round, Pass::collapse, all, [](Improving &g) { g.min_edge_length = 0.5; });
    const Change needles = [](Improving &g) { g.min_triangle_angle = 70, g.needle_max_length = 10; };
    holds("collapse: a needle's angle", round, Pass::collapse, needles, [](Improving &g) { g.min_triangle_angle = 15; });
    holds("collapse: a needle's length", round, Pass::collapse, needles, [](Improving &g) { g.needle_max_length = 0.5; });
    const auto by_volume = [](const Improving &from) {
        const Change change = [&](Improving &g) { g.min_edge_length = 0.9, g.max_volume_change = from.max_volume_change; };
        return done(ball({0, 0, 0}, 600, 100), Pass::collapse, change);
    };
    is("collapse: of more volume along normals", by_volume(Improving{100}) == 0 && by_volume(moving_along_normals(100)) > 0);
    const Shape flap = overhang();
    const Change mend = [](Improving &g) { g.fold_cosine = -0.5; };
    holds("collapse: beside a fold", flap, Pass::collapse, mend, [](Improving &g) { g.fold_cosine = -2; });
    topo_tracker t = tracked(flap);
    is("there is a fold to mend", counts(t).folds > 0);
    const Change small = [](Improving &g) { g.min_edge_length = 0.6; };
    is("a ring of three edges is left, which would become a non-manifold edge", done(neck(30), Pass::collapse, small) == 0);
    topo_tracker solid = tracked(round);
    for (std::uint32_t v = 1; v <= 42; ++v)
        solid.solid(v);
    Improving g = open_guards();
    g.min_edge_length = 10, g.collapse_rounds = 1;
    Improver still(solid, g);
    still.improve();
    is("no edge between two solid vertices is asked", still.told.collapses == 0 && still.told.collapses_refused == 0);
}

void caps()
{
    const Change wanted = [](Improving &g) { g.max_triangle_angle = 130; };
    holds("cap: the angle", roof(200, 40, 0), Pass::cap, wanted, [](Improving &g) { g.max_triangle_angle = 160; });
    holds("cap: the length", roof(200, 40, 0), Pass::cap, wanted, [](Improving &g) { g.cap_min_length = 5; });
}

void volumes()
{
    for (const double most : {0.1, 0.0}) {
        topo_tracker t = tracked(roof(200, 100, -5));
        Improving g = open_guards();
        g.flip_rounds = 1, g.restore_volume = true, g.restore_max_shift = most;
        Improver improver(t, g);
        const double before = volume(t);
        improver.improve();
        const double flipped = volume(t);
        t.step();
        const double after = volume(t);
        is("a flip changes the volume", std::fabs(flipped - before) > 1e4);
        if (most > 0)
            is("which is given back", std::fabs(after - before) < 0.05 * std::fabs(flipped - before));
        else
            is("by no greater shifts than it may", after == flipped);
    }
}

void rims()
{
    // a wedge: its rim, of 100, is as sharp as the edge across from it, of 20, is near
    const Shape wedge{{{0, -50, 0}, {0, 50, 0}, {87, 0, 10}, {87, 0, -10}}, {{0, 1, 2}, {1, 0, 3}, {0, 2, 3}, {1, 3, 2}}};
    const auto drawn = [&](const Change &change, bool solid, double &kept) {
        topo_tracker t = tracked(wedge);
        for (const std::uint32_t v : {1, 2})
            if (solid)
                t.solid(v);
        Improving g = open_guards();
        g.rim_max_shift = 0.1, change(g);
        const double before = volume(t);
        Improver(t, g).improve();
        t.step();
        kept = volume(t) / before;
        Mesh m;
        m.read(t);
        return m.points[0][0] / 1e3;
    };
    double kept = 0, lost = 0, none = 0;
    const Change back = [](Improving &g) { g.restore_volume = true; };
    const double by = drawn(back, false, kept);
    is("a sharp rim is drawn in, by no more than it may", 3 < by && by <= 10);
    is("and its volume given back", drawn([](Improving &) {}, false, lost) == by && lost < 0.97 && std::fabs(kept - 1) < 0.01);
    is("a blunt one is not", drawn([](Improving &g) { g.rim_cosine = -0.99; }, false, none) == 0 && none == 1);
    is("nor one between solid vertices", drawn(back, true, none) == 0);
}

void slides()
{
    Shape s = ball({0, 0, 0}, 300, 60);
    for (std::size_t i = 0; i < s.points.size(); ++i)
        for (int a = 0; a < 3; ++a)
            s.points[i][a] += 8 * std::sin(double(37 * i + 11 * a));
    const auto six = [](const Shape &of) {
        double sum = 0;
        for (const Corners &f : of.faces)
            sum += dot(of.points[f[0]], cross(of.points[f[1]], of.points[f[2]]));
        return sum;
    };
    const auto mean = [](const Shape &of) {
        double sum = 0;
        for (const Corners &f : of.faces)
            sum += least_angle(of.points[f[0]], of.points[f[1]], of.points[f[2]]) / of.faces.size();
        return sum;
    };
    Shape smooth = s;
    for (int i = 0; i < 10; ++i)
        slide(smooth.points, smooth.faces, 0.5);
    is("sliding keeps the volume", std::fabs(six(smooth) / six(s) - 1) < 1e-12);
    is("sliding makes the least angles greater", mean(smooth) > mean(s) + 1);
    const Shape cube{
        {{0, 0, 0}, {100, 0, 0}, {0, 100, 0}, {100, 100, 0}, {0, 0, 100}, {100, 0, 100}, {0, 100, 100}, {100, 100, 100}},
        {{0, 2, 3}, {0, 3, 1}, {4, 5, 7}, {4, 7, 6}, {0, 1, 5}, {0, 5, 4}, {2, 6, 7}, {2, 7, 3}, {0, 4, 6}, {0, 6, 2}, {1, 3, 7},
            {1, 7, 5}}};
    Shape same = cube, moved = cube, solid = cube;
    slide(same.points, same.faces, 0.5);
    slide(moved.points, moved.faces, 0.5, -2);
    const std::vector<char> all(8, 1);
    slide(solid.points, solid.faces, 0.5, -2, &all);
    is("a corner stays where it is", same.points == cube.points && moved.points != cube.points);
    is("a solid vertex stays where it is", solid.points == cube.points);
}

void necks()
{
    const auto cut = [](double size, double under) {
        topo_tracker t = tracked(neck(size));
        Improving g = open_guards();
        g.min_edge_length = under, g.allow_topology_changes = true;
        Improver improver(t, g);
        improver.improve();
        const Counts c = counts(t);
        return c.crowded == 0 && c.euler == 2 * c.components ? c.components : 0;
    };
    is("a neck of three short edges is cut", cut(20, 0.5) == 2);
    is("a wider one is not", cut(60, 0.5) == 1);
}

void merges()
{
    const double h = 60;
    const auto bodies = [&](int count, double gap) {
        Shape s;
        for (int i = 0; i < count; ++i)
            s.add(ball({(i & 1) * (600 + gap) + i, (i / 2 & 1) * (600 + gap) + 2.0 * i, (i / 4 & 1) * (600 + gap) + 1.5 * i}, 300, h));
        return s;
    };
    const auto after = [&](const Shape &s, double average, int calls, Merged &told) {
        topo_tracker t = tracked(s);
        for (int i = 0; i < calls; ++i)
            told = topo_mesh::merge(t, Merging{average});
        return counts(t);
    };
    const auto are = [](const Counts &c, long components, long euler) {
        return c.components == components && c.euler == euler && c.crowded == 0;
    };
    Merged told;
    is("two balls become one body", are(after(bodies(2, 0.5 * h), h, 1, told), 1, 2) && told.seeds == 1);
    is("two balls that are farther stay two", are(after(bodies(2, 2 * h), h, 1, told), 2, 4) && told.seeds == 0);
    is("eight balls become one body with five holes", are(after(bodies(8, 0.5 * h), h, 1, told), 1, -8) && told.seeds == 12);
    for (const double gap : {20, 50, 100})
        for (const double shift : {0, 30, 70}) {
            Shape slabs = box(800, 800, 400, {0, 0, 0});
            slabs.add(box(800, 800, 400, {shift, 0.6 * shift, 400 + gap}));
            const Counts c = after(slabs, 100, 1, told);
            is("two slabs become one body, with no fold, in one call", are(c, 1, 2) && c.folds == 0 && told.seeds == 1);
        }
    // the normals of its sides have a cosine of 0.1
    topo_tracker open = tracked(groove({{170, 63}, {70, 63}, {0, 0}, {-70, 63}, {-170, 63}}));
    is("a groove whose sides hardly face each other is left", topo_mesh::merge(open, Merging{100}).folds_closed == 0);
    const double before = volume(open);
    const Merged along = topo_mesh::merge(open, merging_along_normals(100));
    is("and closed along normals", along.folds_closed > 3 && along.seeds == 0 && are(counts(open), 1, 2) && volume(open) > before);
    Shape under = groove({{170, 110}, {20, 110}, {70, 90}, {0, 0}, {-70, 90}, {-20, 110}, {-170, 110}});
    for (const int k : {0, 50}) // no lips at its ends
        under.points[k + 4][1] = 90, under.points[k + 8][1] = -90;
    topo_tracker lips = tracked(under);
    const Merged filled = topo_mesh::merge(lips, Merging{100});
    is("one below lips, which would turn over, is filled", filled.filled > 3 && are(counts(lips), 1, 2));
    topo_tracker t = tracked(bodies(2, 0.3 * h));
    for (int i = 0; i < 3; ++i)
        t.zip(1.2 * h), t.pinch();
    const long crowded = counts(t).crowded;
    const Merged mended = topo_mesh::mend(t, Merging{h});
    is("a zip pass leaves non-manifold edges, and mending none", crowded > 0 && counts(t).crowded == 0 && mended.crowded_left == 0);
}

} // namespace

int main()
{
    flips();
    collapses();
    caps();
    volumes();
    rims();
    slides();
    necks();
    merges();
    std::printf("%d held, %d failed\n", held, failed);
    return failed ? 1 : 0;
}
