// merge.hpp: joins two sheets of a tracker's surface that face each other across a thin gap, and mends non-manifold edges, by single
// edits. C++17. It is no part of what is proved: the tracker decides of each edit whether it is safe, so the surface stays closed and
// free of self-intersections.
//
//     topo_mesh::merge(tracker, {0.01});                  // a mean edge of one centimetre; after each step
//     topo_mesh::merge(tracker, {0.01}, improver.mesh_left());        // the same, where an Improver has read the surface
//
// A pass of zips joins two sheets by many tunnels beside one another and leaves the walls between them: the two sheets stay, as a sieve.
// Here there is one tunnel, and its walls are taken away:
// 1. Seed. One zip of the nearest two edges that face each other through the gap; then the four walls of the tunnel are collapsed, one
//    edge each, so that its two rims are one. That rim is a fold: each of its edges has a face of either sheet, and the two face each
//    other, as pages of a book at its back.
// 2. Grow. At a fold's edge ab, with the faces abc and bad, ab is flipped to cd, and cd is collapsed: the fold goes on by one triangle of
//    each sheet, the nearest first. Where cd is an edge already, it is only collapsed. Faces that come to lie on one another go with the
//    collapse. Where the collapse would turn a face over, ab is flipped alone, which fills the fold's back.
// 3. Pinch. Where the hole's rim meets itself or another hole's, its vertex has two fans, and is parted: the holes become one.
// Each of these is tried in a group, looked at, and taken back where it is refused or would leave a non-manifold edge. It ends, since each
// collapse that is kept leaves fewer faces, each flip alone makes an edge that was never made so before, and what is not kept is tried but
// twice.
#ifndef TOPO_MERGE_HPP
#define TOPO_MERGE_HPP

#include "mesh.hpp"

#include <cmath>
#include <cstdint>
#include <map>
#include <queue>
#include <set>
#include <tuple>
#include <unordered_map>
#include <utility>
#include <vector>

namespace topo_mesh {
// Lengths are fractions of average_edge_length, and cosines are between normals.
struct Merging {
    double average_edge_length;         // h, in the caller's unit
    double merge_proximity = 1.25;      // sheets are joined across gaps up to this. It has to exceed what a gap closes in one step, or the
                                       // sheets get between one another's vertices before they are joined; across a wider gap the rim of a
                                        // seed is no fold, and does not grow
    double fold_reach = 1.8;           // in the fold of faces abc and bad, c may be as far from d: farther than merge_proximity, since the
                                        // sheets' vertices may be up to h apart sideways
    double facing = -0.5;               // the two edges of a seed bound faces whose mean normals have at most this cosine
    double folded = -0.2;               // and the two faces of a fold this
    double fill_min_angle = 2;          // in degrees: a flip alone leaves no lesser one
    int apart = 4;                      // a seed's edges are more than so many edges apart along the surface
    int mend_rounds = 20;               // of mend
};

// For a surface that moves along its normals, as one that grows. The groove between two bodies opens while they grow, and its bottom is to
// move faster than the vertices there do, which go along the mean of their faces' normals. Were it closed only as far as its sides face
// each other, it would fall behind, and its sides would meet above it: a bubble.
inline Merging merging_along_normals(double average_edge_length)
{
    Merging by{average_edge_length};
    by.folded = 0.3;
    return by;
}

// What was done, and what was tried and taken back, by reason.
struct Merged {
    long seeds = 0, folds_closed = 0, pinches = 0, mended = 0;
    long filled = 0;                                             // folds at which a face would turn over, flipped alone
    long turning = 0;                                            // and those that were left
    long undone_refused = 0, undone_crowded = 0, undone_no_fewer = 0;
    long crowded_left = 0;                                       // of mend: non-manifold edges that are left
};

class Merger {
public:
    Merger(topo_tracker &tracker, const Merging &by)
        : tracker(tracker), by(by), h(by.average_edge_length / tracker.grid.unit), gap(by.merge_proximity * h), reach(by.fold_reach * h)
    {
    }
    Merged told; // since the merger was made

    // The surface is read for it, or `mesh` is the surface as it is, as Improver::mesh_left has it.
    void merge()
    {
        Mesh mesh;
        mesh.read(tracker), merge(mesh);
    }
    void merge(const Mesh &mesh)
    {
        near.clear(), tried.clear(), filled.clear(); // the surface may have moved since an earlier call
        std::vector<Point> normals; // of the faces, of length 1, or 0 where a face has no area
        for (int f = 0; f < static_cast<int>(mesh.faces.size()); ++f) {
            const Point n = mesh.normal(f);
            const double size = norm(n);
            normals.push_back((size > 0 ? 1 / size : 0) * n);
        }
        for (const Mesh::Edge &e : mesh.edges) // folds that an earlier call left; what may be one is looked at exactly
            if (dot(normals[e.left], normals[e.right]) <= by.folded + 1e-9) {
                const Point &c = mesh.points[e.c], &d = mesh.points[e.d];
                if (is_fold(mesh.points[e.a], mesh.points[e.b], c, d))
                    queue.push({norm(c - d), mesh.id[e.a], mesh.id[e.b]});
            }
        const std::vector<std::pair<Side, Side>> pairs = facing_sides(mesh, normals);
        if (queue.empty() && pairs.empty()) // as in most steps
            return;
        at.clear();
        for (std::size_t i = 0; i < mesh.id.size(); ++i)
            at[mesh.id[i]] = mesh.points[i];
        grow();
        for (const Match &m : matches(pairs)) {
            if (seed(m.a, m.b, m.e, m.f))
                grow();
        }
    }
    // Takes non-manifold edges out, by collapses that leave fewer of them, and pinches. In each second round one that leaves as many is
    // kept too. It ends, since each leaves fewer faces. Some may be left: told.crowded_left.
    void mend()
    {
        Mesh mesh;
        for (int k = 0; k < by.mend_rounds; ++k) {
            mesh.read(tracker);
            read_points();
            std::vector<Pair> edges;
            for (const auto &e : mesh.crowded)
                edges.push_back({mesh.id[e[0]], mesh.id[e[1]]});
            bool any = false;
            for (const Pair &e : edges)
                any |= is_crowded(e) && mend_at(e, k % 2);
            any |= pinch_fans();
            if (edges.empty() || (!any && k % 2))
                break;
        }
        mesh.read(tracker);
        told.crowded_left = static_cast<long>(mesh.crowded.size());
    }

private:
    using Id = std::uint32_t;
    using Pair = std::pair<Id, Id>;
    struct Ring { Id a, b, c, d; };  // an edge and the corners opposite it: faces a b c and b a d
    struct Match { double far; Id a, b, e, f; };
    struct Fold {
        double far;
        Id a, b;
        bool operator<(const Fold &o) const { return std::tie(far, a, b) > std::tie(o.far, o.a, o.b); }
    };

    topo_tracker &tracker;
    const Merging by;
    const double h, gap, reach;            // in grid units
    std::unordered_map<Id, Point> at;      // where each vertex stands
    std::priority_queue<Fold> queue;       // the nearest first
    std::map<Pair, int> tried;             // how often closing a fold over this edge was refused
    std::set<Pair> filled;                 // edges that a flip alone made
    std::unordered_map<Id, std::set<Id>> near; // in a call, the vertices within `apart` edges of one, as long as nothing is joined

    // ---- what the surface is around a place ----

    void read_points()
    {
        at.clear();
        for (const topo_vertex &v : tracker.vertices())
            at[v.id] = {double(v.x), double(v.y), double(v.z)};
    }
    std::set<Id> around(Id v)
    {
        std::set<Id> s;
        for (const topo_face &f : tracker.star(v))
            s.insert({f.a, f.b, f.c});
        return s.erase(v), s;
    }
    // Whether an edge has just two faces, which run opposite ways.
    bool ring(Id a, Id b, Ring &r)
    {
        const std::vector<topo_face> faces = tracker.beside(a, b);
        r = {a, b, 0, 0};
        for (const topo_face &f : faces)
            for (const auto &k : {std::array<Id, 3>{f.a, f.b, f.c}, {f.b, f.c, f.a}, {f.c, f.a, f.b}}) {
                if (k[0] == a && k[1] == b)
                    r.c = k[2];
                if (k[0] == b && k[1] == a)
                    r.d = k[2];
            }
        return faces.size() == 2 && r.c && r.d && r.c != r.d;
    }
    // 2 where an edge at v is non-manifold, else 1 where its faces are more than one fan, else 0.
    int state(Id v)
    {
        std::map<Id, int> sides;
        std::map<Id, Id> up;
        const auto root = [&](Id i) {
            while (up[i] != i)
                i = up[i];
            return i;
        };
        for (const topo_face &f : tracker.star(v)) {
            const Id p = f.a == v ? f.b : f.b == v ? f.c : f.a, q = f.a == v ? f.c : f.b == v ? f.a : f.b;
            ++sides[p], ++sides[q], up.try_emplace(p, p), up.try_emplace(q, q);
            up[root(p)] = root(q);
        }
        std::set<Id> roots;
        for (const auto &[other, count] : sides) {
            if (count > 2)
                return 2;
            roots.insert(root(other));
        }
        return roots.size() > 1;
    }

    // ---- edits in a group ----

    // The answer of the last edit that was asked: a list ends at the first that is refused, since a group is open.
    topo_answered ask(const std::vector<topo_asked> &list) { return tracker.edit_each(list).back(); }
    topo_answered ask(Id kind, Id a, Id b, Id c = 0, Id d = 0) { return tracker.edit({kind, a, b, c, d}); }
    bool undo(long &count) { return tracker.undo(), ++count, false; }
    // In an open group: collapses an edge after a list of edits, and pinches what is left where it has two fans. `left` gets the vertices
    // around which folds may be new. Where it is false the group has to be taken back, and `why` counts that.
    bool collapse(std::vector<topo_asked> list, Id a, Id b, std::vector<Id> &left, long *&why)
    {
        list.push_back({TOPO_COLLAPSED, a, b, 0, 0});
        const topo_answered r = ask(list);
        why = &told.undone_refused;
        if (r.why)
            return false;
        at[r.a] = {double(r.x), double(r.y), double(r.z)}, left.push_back(r.a);
        const int is = state(r.a);
        if (is == 2)
            return why = &told.undone_crowded, false;
        if (is == 1) {
            if (ask(TOPO_PINCHED, r.a, 0).why)
                return false;
            read_points(); // the copies are new
            ++told.pinches;
            for (const Id v : around(r.a)) // the copies' neighbours
                left.push_back(v);
        }
        return true;
    }

    // ---- grow ----

    // Whether the two faces at an edge face each other, and are near.
    bool is_fold(const Ring &r) { return is_fold(at[r.a], at[r.b], at[r.c], at[r.d]); }
    bool is_fold(const Point &a, const Point &b, const Point &c, const Point &d) const
    {
        if (norm(c - d) > reach)
            return false;
        const Point n = area_vector(a, b, c), m = area_vector(b, a, d);
        const double over = dot(n, d - a), size = norm(n), other = norm(m);
        if (!(size > 0) || !(other > 0) || cosine(n, m) > by.folded || over <= 0)
            return false;
        return std::min(over / size, dot(m, c - a) / other) <= gap;
    }
    void push(const Ring &r)
    {
        if (is_fold(r))
            queue.push({norm(at[r.c] - at[r.d]), r.a, r.b});
    }
    template <class T> static void only_once(std::vector<T> &them)
    {
        std::sort(them.begin(), them.end());
        them.erase(std::unique(them.begin(), them.end()), them.end());
    }
    // The folds at the edges of a vertex and of its neighbours.
    void push_around(Id v)
    {
        if (!at.count(v))
            return;
        std::vector<Id> near{v};
        for (const topo_face &f : tracker.star(v))
            near.insert(near.end(), {f.a, f.b, f.c});
        only_once(near);
        std::vector<std::array<Id, 4>> sides; // of a face: an edge, whether it runs back, and the corner opposite it
        for (const Id w : near)
            for (const topo_face &f : tracker.star(w))
                for (const auto &k : {std::array<Id, 3>{f.a, f.b, f.c}, {f.b, f.c, f.a}, {f.c, f.a, f.b}})
                    if (k[0] == w || k[1] == w)
                        sides.push_back({std::min(k[0], k[1]), std::max(k[0], k[1]), k[0] > k[1], k[2]});
        only_once(sides);
        for (auto it = sides.begin(); it != sides.end();) {
            const std::array<Id, 4> forth = *it, back = ++it == sides.end() ? forth : *it;
            const auto same = [&] { return it != sides.end() && (*it)[0] == forth[0] && (*it)[1] == forth[1]; };
            int count = 1;
            for (; same(); ++it)
                ++count;
            if (count == 2 && !forth[2] && back[2] && forth[3] != back[3])
                push({forth[0], forth[1], forth[3], back[3]});
        }
    }
    // Whether faces that stay would turn over, were c and d to go to their middle.
    bool turns(Id c, Id d)
    {
        const Point mid = 0.5 * (at[c] + at[d]);
        for (const Id v : {c, d})
            for (const topo_face &f : tracker.star(v)) {
                const Id k[3] = {f.a, f.b, f.c};
                if (std::count(k, k + 3, c) && std::count(k, k + 3, d))
                    continue;
                Point p[3];
                for (int i = 0; i < 3; ++i)
                    p[i] = k[i] == v ? mid : at[k[i]];
                const Point before = area_vector(at[k[0]], at[k[1]], at[k[2]]), after = area_vector(p[0], p[1], p[2]);
                if (norm(before) > 0 && cosine(before, after) < 0.1)
                    return true;
            }
        return false;
    }
    void close_fold(const Ring &r)
    {
        int &refused = tried[std::minmax(r.c, r.d)];
        if (refused > 1)
            return;
        if (turns(r.c, r.d))
            return fill_fold(r, refused);
        const Point c = at[r.c], d = at[r.d];
        std::vector<topo_asked> list;
        if (!around(r.c).count(r.d))
            list.push_back({TOPO_FLIPPED, r.a, r.b, 0, 0});
        std::vector<Id> left;
        long *why = nullptr;
        const long pinches = told.pinches;
        tracker.open();
        if (!collapse(list, r.c, r.d, left, why)) {
            undo(*why), told.pinches = pinches;
            at[r.c] = c, at[r.d] = d, ++refused;
            return;
        }
        tracker.close(), ++told.folds_closed;
        for (const Id v : left)
            push_around(v);
    }
    // Flips the edge alone, once for each pair of c and d.
    void fill_fold(const Ring &r, int &refused)
    {
        const bool flat = std::min(least_angle(at[r.a], at[r.d], at[r.c]), least_angle(at[r.d], at[r.b], at[r.c])) < by.fill_min_angle;
        if (flat || !filled.insert(std::minmax(r.c, r.d)).second || around(r.c).count(r.d) || ask(TOPO_FLIPPED, r.a, r.b).why) {
            ++refused, ++told.turning;
            return;
        }
        ++told.filled;
        for (const Id v : {r.a, r.b, r.c, r.d})
            push_around(v);
    }
    void grow()
    {
        while (!queue.empty()) {
            const Fold f = queue.top();
            queue.pop();
            Ring r;
            if (ring(f.a, f.b, r) && is_fold(r))
                close_fold(r);
        }
    }

    // ---- seed ----

    const std::set<Id> &vertices_near(Id v)
    {
        std::set<Id> &seen = near[v];
        std::vector<Id> rim{v};
        if (!seen.insert(v).second)
            return seen;
        for (int k = 0; k < by.apart; ++k) {
            std::vector<Id> next;
            for (const Id u : rim)
                for (const Id w : around(u))
                    if (seen.insert(w).second)
                        next.push_back(w);
            rim.swap(next);
        }
        return seen;
    }
    bool seed(Id a, Id b, Id e, Id f)
    {
        Ring r, s;
        if (!ring(a, b, r) || !ring(e, f, s))
            return false;
        for (const Id v : {a, b})
            if (const std::set<Id> &its = vertices_near(v); its.count(e) || its.count(f))
                return false;
        const Id p[4] = {b, r.c, a, r.d}, q[4] = {f, s.d, e, s.c}; // the rims of the tunnel, as the zip joins them
        std::vector<std::pair<Id, Point>> stood;
        for (int i = 0; i < 4; ++i)
            stood.push_back({p[i], at[p[i]]}), stood.push_back({q[i], at[q[i]]});
        std::vector<Id> left;
        long *why = &told.undone_refused;
        const long pinches = told.pinches;
        tracker.open();
        const topo_answered zipped = ask(TOPO_ZIPPED, a, b, e, f);
        bool good = !zipped.why;
        for (int i = 0; good && i < 4; ++i)
            good = collapse({}, p[i], q[(i + zipped.b) % 4], left, why);
        if (!good) {
            undo(*why);
            if (told.pinches > pinches) // the copies are gone
                told.pinches = pinches, read_points();
            for (const auto &[v, point] : stood)
                at[v] = point;
            return false;
        }
        tracker.close(), near.clear(), ++told.seeds;
        for (const Id v : left)
            push_around(v);
        return true;
    }
    struct Side { Point mid, normal; Id a, b; };
    // Whether each lies on the outer side of the other, near by.
    bool face_each_other(const Side &s, const Side &u) const
    {
        if (dot(s.normal, u.normal) > by.facing)
            return false;
        const Point d = u.mid - s.mid;
        return dot(d, d) <= gap * gap && dot(d, s.normal) > 0 && dot(d, u.normal) < 0;
    }
    // Sides of a cell, as wide as the gap. Of two sides that face each other one is turned to either end of an axis, by `apart_by` in all at
    // least, and so to one end by half of that: `ways` has a bit for each end to which a side is turned so, and `others` the same bit where one
    // is turned from it so far that the two may face each other.
    struct Cell { std::uint64_t key = 0; int first = -1; unsigned ways = 0, others = 0; };
    // The pairs of edges that face each other across a gap, of the surface as it was when the call began. Near most edges no face is turned the
    // other way, so that nothing has to be compared there.
    std::vector<std::pair<Side, Side>> facing_sides(const Mesh &mesh, const std::vector<Point> &normals) const
    {
        const double apart_by = std::sqrt(std::max(0.0, 2 - 2 * by.facing) / 3) - 1e-6;
        std::vector<Side> sides;
        std::vector<int> next; // the next side of the same cell
        sides.reserve(mesh.edges.size()), next.reserve(mesh.edges.size());
        int bits = 1;
        while (mesh.edges.size() >> (bits - 1))
            ++bits;
        std::vector<Cell> table(std::size_t{1} << bits);
        std::vector<std::uint64_t> keys;
        const auto cell = [&](std::uint64_t key) -> Cell & {
            std::size_t i = (key * 0x9E3779B97F4A7C15) >> (64 - bits);
            while (table[i].first >= 0 && table[i].key != key)
                i = (i + 1) & (table.size() - 1);
            return table[i];
        };
        // 21 bits for each axis: cells of one key are next to each other or far apart, and no two about one place have the same
        const std::uint64_t low = (1 << 21) - 1;
        const auto key_of = [&](const Point &p) {
            const auto in = [&](int axis) { return static_cast<std::uint64_t>(static_cast<std::int64_t>(std::floor(p[axis] / gap))) & low; };
            return in(2) << 42 | in(1) << 21 | in(0);
        };
        for (const Mesh::Edge &e : mesh.edges) {
            const Point &n = normals[e.left], &m = normals[e.right], sum = n + m;
            const double size = norm(sum);
            if (!(dot(n, n) > 0) || !(dot(m, m) > 0) || !(size > 0))
                continue;
            sides.push_back({0.5 * (mesh.points[e.a] + mesh.points[e.b]), (1 / size) * sum, mesh.id[e.a], mesh.id[e.b]});
            const Side &s = sides.back();
            const std::uint64_t key = key_of(s.mid);
            Cell &in = cell(key);
            if (in.first < 0)
                in.key = key, keys.push_back(key);
            next.push_back(in.first), in.first = static_cast<int>(sides.size()) - 1;
            for (int axis = 0; axis < 3; ++axis) {
                const double x = s.normal[axis];
                in.ways |= (x >= apart_by / 2) << (2 * axis) | (-x >= apart_by / 2) << (2 * axis + 1);
                in.others |= (x <= 1 - apart_by) << (2 * axis) | (-x <= 1 - apart_by) << (2 * axis + 1);
            }
        }
        std::vector<std::pair<Side, Side>> found;
        const auto compare = [&](const Cell &one, const Cell &other) {
            if (!(one.ways & other.others) && !(other.ways & one.others))
                return;
            for (int i = one.first; i >= 0; i = next[i])
                for (int j = &one == &other ? next[i] : other.first; j >= 0; j = next[j]) {
                    const Side &s = sides[i], &u = sides[j];
                    if (face_each_other(s, u)) // the first is that of the lesser x, as in merge.py
                        found.push_back(std::tie(s.mid[0], s.a, s.b) < std::tie(u.mid[0], u.a, u.b) ? std::pair(s, u) : std::pair(u, s));
                }
        };
        for (const std::uint64_t key : keys) {
            const Cell &one = cell(key);
            compare(one, one);
            for (int k = 14; k < 27; ++k) { // of its neighbours the half that come behind it
                const std::uint64_t x = key + k % 3 - 1, y = (key >> 21) + k / 3 % 3 - 1, z = (key >> 42) + k / 9 - 1;
                if (const Cell &other = cell((z & low) << 42 | (y & low) << 21 | (x & low)); other.first >= 0)
                    compare(one, other);
            }
        }
        return found;
    }
    bool stand(const Side &s) const { return at.count(s.a) && at.count(s.b); }
    Match match(const Side &s, const Side &u)
    {
        const Point &a = at[s.a], &b = at[s.b], &e = at[u.a], &f = at[u.b];
        return {norm(u.mid - s.mid) + std::min(norm(a - e) + norm(b - f), norm(a - f) + norm(b - e)), s.a, s.b, u.a, u.b};
    }
    // Those whose ends still stand, the nearest first.
    std::vector<Match> matches(const std::vector<std::pair<Side, Side>> &pairs)
    {
        std::vector<Match> found;
        for (const auto &[s, u] : pairs)
            if (stand(s) && stand(u))
                found.push_back(match(s, u));
        const auto by_far = [](const Match &p, const Match &q) {
            return std::tie(p.far, p.a, p.b, p.e, p.f) < std::tie(q.far, q.a, q.b, q.e, q.f);
        };
        std::sort(found.begin(), found.end(), by_far);
        return found;
    }

    // ---- mend ----

    bool is_crowded(const Pair &e) { return tracker.beside(e.first, e.second).size() > 2; }
    int crowd(const std::set<Pair> &edges)
    {
        int count = 0;
        for (const Pair &e : edges)
            count += is_crowded(e);
        return count;
    }
    std::set<Pair> edges_at(Id a, Id b)
    {
        std::set<Pair> s;
        for (const Id v : {a, b})
            for (const topo_face &f : tracker.star(v))
                s.insert(std::minmax(f.a, f.b)), s.insert(std::minmax(f.b, f.c)), s.insert(std::minmax(f.c, f.a));
        return s;
    }
    // Collapses the edge where that leaves fewer non-manifold edges than there were and `more`.
    bool mend_by(const Pair &e, int more)
    {
        const std::set<Pair> was = edges_at(e.first, e.second);
        const int before = crowd(was);
        tracker.open();
        const topo_answered r = ask(TOPO_COLLAPSED, e.first, e.second);
        if (r.why)
            return undo(told.undone_refused);
        std::set<Pair> now = edges_at(r.a, r.a);
        for (const Pair &w : was)
            if (w.first != e.first && w.first != e.second && w.second != e.first && w.second != e.second)
                now.insert(w);
        if (crowd(now) >= before + more)
            return undo(told.undone_no_fewer);
        tracker.close(), ++told.mended;
        at[r.a] = {double(r.x), double(r.y), double(r.z)};
        return true;
    }
    // By itself, or else by the shortest edge around it.
    bool mend_at(const Pair &e, int more)
    {
        if (mend_by(e, more))
            return true;
        std::vector<std::pair<double, Pair>> others;
        for (const Pair &q : edges_at(e.first, e.second))
            if (const double far = norm(at[q.first] - at[q.second]); far < reach)
                others.push_back({far, q});
        std::sort(others.begin(), others.end());
        return std::any_of(others.begin(), others.end(), [&](const std::pair<double, Pair> &q) { return mend_by(q.second, more); });
    }
    bool pinch_fans()
    {
        bool any = false;
        for (const topo_vertex &v : tracker.vertices())
            if (state(v.id) == 1 && !ask(TOPO_PINCHED, v.id, 0).why)
                any = true, ++told.pinches;
        return any;
    }
};

// Joins the sheets that face each other across thin gaps, and tells what was done.
inline Merged merge(topo_tracker &tracker, const Merging &by)
{
    Merger merger(tracker, by);
    return merger.merge(), merger.told;
}
// The same of a surface of which the rows are at hand.
inline Merged merge(topo_tracker &tracker, const Merging &by, const Mesh &mesh)
{
    Merger merger(tracker, by);
    return merger.merge(mesh), merger.told;
}
// Takes non-manifold edges out, and tells what was done.
inline Merged mend(topo_tracker &tracker, const Merging &by)
{
    Merger merger(tracker, by);
    return merger.mend(), merger.told;
}
} // namespace topo_mesh

#endif
