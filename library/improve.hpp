// improve.hpp: keeps the mesh of a tracker good while a flow carries it: splits, collapses and flips under guards, repair of folds, and a
// smoothing that keeps the volume. C++17. It is no part of what is proved: what is good for the shape is decided here, and whether an edit
// is safe is decided by the tracker, so the surface stays closed and free of self-intersections whatever is asked.
//
//     topo_mesh::Improver improver(tracker, {0.01});     // a mean edge of one centimetre
//     each step:
//         targets = where the flow takes the points;
//         topo_mesh::slide(targets, faces, 0.2);          // smoothing, over the targets
//         tracker.toward(...) each; tracker.step();
//         improver.improve();
//
// A round reads points and faces, lists the edits that pass the guards, best first, such that none touches what another's guards looked
// at, and asks them in one call. Names that El Topo has too (min_edge_length, max_edge_length, max_volume_change, min_triangle_angle,
// max_triangle_angle, allow_topology_changes) mean what they mean there, with lengths and volumes as fractions of average_edge_length and
// its cube.
#ifndef TOPO_IMPROVE_HPP
#define TOPO_IMPROVE_HPP

#include "mesh.hpp"

#include <cmath>
#include <cstdint>
#include <unordered_map>
#include <vector>

namespace topo_mesh {
// Cosines are between normals of two faces, or of one face before and after. Angles are in degrees.
struct Improving {
    double average_edge_length;                    // h, in the caller's unit; lengths and volumes below are fractions of it
    double min_edge_length = 0.5;                  // shorter edges are collapsed, where the guards let them be
    double max_edge_length = 1.5;                  // longer edges are split; a collapse leaves none
    double max_volume_change = 1.0 / 60;           // of a collapse, in h^3
    double min_triangle_angle = 15;                // the edge opposite a lesser angle is collapsed, if below needle_max_length
    double max_triangle_angle = 130;               // the edge opposite a greater angle is split, if above cap_min_length
    double needle_max_length = 1, cap_min_length = 1;
    double edge_flip_min_cosine = 0.9;             // a flip's two faces bend no more than this, as they are and as they would be
    double edge_flip_max_volume_change = 1.0 / 600;
    double collapse_min_angle = 10;                // least angle after a collapse, or no less than it was
    double collapse_max_turn = 0.5;                // no face turns by more than this cosine
    double collapse_min_cosine = 0;                // no two faces at the edge bend more after a collapse, or no more than they did
    double fold_cosine = -0.5;                     // beside an edge that bends by more, edges are collapsed where that bends less,
                                                   // whatever max_volume_change and the two guards above say
    double rim_cosine = -0.6;                      // an edge that bends by more is a rim that grows sharp, and is drawn in with the next
    double rim_max_shift = 0.1;                    // step, by at most so many h
    int collapse_rounds = 2, flip_rounds = 2;      // in one call
    bool allow_topology_changes = false;           // whether a neck of three short edges is cut
    bool restore_volume = true;                    // what edits took of the volume is asked back, where it was taken, with the next step,
    double restore_max_shift = 0.1;                // by shifts of at most so many h
};

// For a surface that moves along its normals, as one that grows or flows by its curvature: it swallows its creases and necks, and so an
// edge is collapsed there though that changes more of the volume, and bends more, and no crease is drawn in.
inline Improving moving_along_normals(double average_edge_length)
{
    Improving by{average_edge_length};
    by.max_volume_change = 0.1, by.collapse_min_cosine = -2, by.rim_max_shift = 0;
    return by;
}

// How many edits were done, refused by the tracker, and held back by the guards.
struct Improved {
    long splits = 0, splits_refused = 0, caps = 0, caps_refused = 0;
    long collapses = 0, collapses_refused = 0, collapses_held = 0;
    long flips = 0, flips_refused = 0, flips_held = 0;
    long necks = 0, necks_undone = 0;
};

class Improver {
public:
    Improver(topo_tracker &tracker, const Improving &by) : tracker(tracker), by(by), h(by.average_edge_length / tracker.grid.unit) {}

    // What is to follow each step. Throws what the tracker throws.
    void improve()
    {
        fresh = false;
        split_long();
        split_caps();
        for (int i = 0; i < by.collapse_rounds && collapse_short(); ++i) {}
        if (by.allow_topology_changes)
            cut_necks();
        for (int i = 0; i < by.flip_rounds && flip(); ++i) {}
        if (by.rim_max_shift > 0)
            draw_in_rims();
        if (by.restore_volume)
            give_back();
    }
    // The surface as it is right after `improve`, for who looks at it next; mostly it is read already.
    const Mesh &mesh_left() { return read(), mesh; }
    Improved told; // since the improver was made

private:
    using Edge = Mesh::Edge;
    struct Wish { double worth; int edge; double volume; };

    topo_tracker &tracker;
    const Improving by;
    const double h; // in grid units, as all lengths here
    Mesh mesh;
    bool fresh = false; // whether the mesh is that of the tracker
    std::vector<char> folded;                       // of a face: whether an edge of it is a fold
    std::unordered_map<std::uint32_t, double> won;  // six times the volume, by vertex

    void split_long()
    {
        const topo_edits edits = tracker.split(by.max_edge_length * by.average_edge_length);
        told.splits += edits.done, told.splits_refused += edits.refused;
    }
    // Splits the edge opposite an angle above max_triangle_angle.
    void split_caps()
    {
        if (by.max_triangle_angle >= 180)
            return;
        read();
        std::vector<Wish> wishes, chosen;
        for (int i = 0; i < count(); ++i) {
            const Edge &e = mesh.edges[i];
            const double wide = std::max(angle(at(e.c), at(e.a), at(e.b)), angle(at(e.d), at(e.a), at(e.b)));
            if (wide > by.max_triangle_angle && length(e) > by.cap_min_length)
                wishes.push_back({wide, i, 0});
        }
        std::vector<char> held(mesh.faces.size(), 0);
        for (const Wish &w : best_first(wishes)) {
            const Edge &e = mesh.edges[w.edge];
            if (!held[e.left] && !held[e.right])
                chosen.push_back(w), held[e.left] = held[e.right] = 1;
        }
        ask(TOPO_SPLIT, chosen, told.caps, told.caps_refused);
    }
    // A round of flips, of edges at which the least angle of the two faces rises; whether one was done.
    bool flip()
    {
        read();
        std::vector<Wish> wishes, chosen;
        for (int i = 0; i < count(); ++i) {
            double rise = 0, volume = 0;
            if (!wants_flip(mesh.edges[i], rise))
                continue;
            if (may_flip(mesh.edges[i], volume))
                wishes.push_back({rise, i, volume});
            else
                ++told.flips_held;
        }
        std::vector<char> held(mesh.id.size(), 0);
        for (const Wish &w : best_first(wishes)) {
            const Edge &e = mesh.edges[w.edge];
            if (held[e.a] || held[e.b] || held[e.c] || held[e.d])
                continue;
            held[e.a] = held[e.b] = held[e.c] = held[e.d] = 1, chosen.push_back(w);
        }
        const long before = told.flips;
        const std::vector<topo_answered> answers = ask(TOPO_FLIPPED, chosen, told.flips, told.flips_refused);
        for (std::size_t i = 0; i < chosen.size(); ++i)
            if (const Edge &e = mesh.edges[chosen[i].edge]; !answers[i].why)
                for (const int v : {e.a, e.b, e.c, e.d})
                    won[mesh.id[v]] += chosen[i].volume / 4;
        return told.flips > before;
    }
    // A round of collapses: of short edges, of those opposite a small angle, and of those beside a fold; whether one was done.
    bool collapse_short()
    {
        read();
        find_folds();
        std::vector<Wish> wishes, chosen;
        for (int i = 0; i < count(); ++i) {
            Wish w{0, i, 0};
            if (wants_collapse(mesh.edges[i], w))
                wishes.push_back(w);
        }
        // none of two edits moves a vertex that the other's guards looked at
        std::vector<char> moves(mesh.id.size(), 0), seen(mesh.id.size(), 0);
        for (const Wish &w : best_first(wishes)) {
            const Edge &e = mesh.edges[w.edge];
            std::vector<int> ring;
            for (const int v : {e.a, e.b})
                for (int k = mesh.first[v]; k < mesh.first[v + 1]; ++k)
                    ring.insert(ring.end(), mesh.faces[mesh.star[k]].begin(), mesh.faces[mesh.star[k]].end());
            if (seen[e.a] || seen[e.b] || std::any_of(ring.begin(), ring.end(), [&](int r) { return moves[r]; }))
                continue;
            for (const int r : ring)
                seen[r] = 1;
            moves[e.a] = moves[e.b] = 1, chosen.push_back(w);
        }
        const long before = told.collapses;
        const std::vector<topo_answered> answers = ask(TOPO_COLLAPSED, chosen, told.collapses, told.collapses_refused);
        for (std::size_t i = 0; i < chosen.size(); ++i) {
            if (answers[i].why)
                continue;
            const Edge &e = mesh.edges[chosen[i].edge];
            const std::uint32_t kept = answers[i].a, gone = kept == mesh.id[e.a] ? mesh.id[e.b] : mesh.id[e.a];
            const auto more = won.find(gone);
            won[kept] += chosen[i].volume + (more == won.end() ? 0 : more->second);
        }
        return told.collapses > before;
    }
    // Cuts each neck of three edges that are no face, where one of them is below min_edge_length and none above max_edge_length: collapses
    // that edge, and the two that are then one, and parts the vertex that is left. It is taken back where that is refused or leaves a
    // non-manifold edge.
    void cut_necks()
    {
        read();
        std::vector<Corners> necks;
        std::vector<char> held(mesh.id.size(), 0);
        for (const Edge &e : mesh.edges) {
            if (length(e) >= by.min_edge_length || held[e.a] || held[e.b])
                continue;
            for (int k = mesh.first[e.a]; k < mesh.first[e.a + 1]; ++k)
                for (const int v : mesh.faces[mesh.star[k]])
                    if (is_ring(e, v) && !held[e.a] && !held[v])
                        held[e.a] = held[e.b] = held[v] = 1, necks.push_back({e.a, e.b, v});
        }
        for (const Corners &n : necks)
            ++(cut(mesh.id[n[0]], mesh.id[n[1]], mesh.id[n[2]]) ? told.necks : told.necks_undone), fresh = false;
    }
    // A sheet that a flow thins gets a rim as sharp as it is thin, since the faces at the rim are no smaller than others. Where it is
    // sharp the ends of its edges are asked to go inward, toward the middle between the corners on both sides, as surface tension
    // would draw them: by at most 0.3 of the least height of the faces there, so that none turns over. The volume that this takes
    // goes to the neighbours that stay, and so the rim grows thick.
    void draw_in_rims()
    {
        read();
        std::vector<Point> inward(mesh.id.size(), Point{0, 0, 0});
        std::vector<char> sharp(mesh.id.size(), 0);
        for (const Edge &e : mesh.edges) {
            if (cosine(mesh.normal(e.left), mesh.normal(e.right)) >= by.rim_cosine)
                continue;
            const Point along = at(e.b) - at(e.a), to = 0.5 * (at(e.c) + at(e.d)) - 0.5 * (at(e.a) + at(e.b));
            const double size = dot(along, along);
            const Point across = to - ((size > 0 ? dot(to, along) / size : 0) * along);
            const double far = norm(across);
            for (const int v : {e.a, e.b})
                sharp[v] = 1, inward[v] = inward[v] + ((far > 0 ? 1 / far : 0) * across);
        }
        std::vector<std::pair<std::uint32_t, Point>> shifts;
        for (int i = 0; i < static_cast<int>(mesh.id.size()); ++i) {
            const double size = norm(inward[i]);
            if (!(size > 0) || mesh.solid[i])
                continue;
            double far = by.rim_max_shift * h;
            Point n{0, 0, 0};
            std::vector<int> ring; // each twice
            for (int k = mesh.first[i]; k < mesh.first[i + 1]; ++k) {
                const Corners &f = mesh.faces[mesh.star[k]];
                const Point area = mesh.normal(mesh.star[k]);
                double longest = 0;
                for (int s = 0; s < 3; ++s) {
                    longest = std::max(longest, norm(at(f[s]) - at(f[(s + 1) % 3])));
                    if (!sharp[f[s]])
                        ring.push_back(f[s]);
                }
                n = n + area, far = std::min(far, 0.3 * norm(area) / longest);
            }
            const Point shift = (far / size) * inward[i];
            const double lost = dot(shift, n);
            for (const int v : ring)
                won[mesh.id[v]] += lost / static_cast<double>(ring.size());
            shifts.push_back({mesh.id[i], tracker.grid.unit * shift});
        }
        tracker.shift_each(shifts);
    }
    // Asks back what the edits won or took of the volume since it was last asked: of each vertex where it was, along its area vector.
    void give_back()
    {
        read();
        std::vector<std::pair<std::uint32_t, Point>> shifts;
        for (int i = 0; i < static_cast<int>(mesh.id.size()); ++i) {
            const auto mine = won.find(mesh.id[i]);
            if (mine == won.end() || mesh.solid[i])
                continue;
            Point n{0, 0, 0};
            for (int k = mesh.first[i]; k < mesh.first[i + 1]; ++k)
                n = n + mesh.normal(mesh.star[k]);
            const double size = norm(n), most = by.restore_max_shift * h;
            if (size < 0.05 * h * h) // a vertex of so thin a place has no normal
                continue;
            const double far = std::clamp(-mine->second / size, -most, most) / size;
            shifts.push_back({mesh.id[i], far * tracker.grid.unit * n});
        }
        won.clear();
        tracker.shift_each(shifts);
    }

    const Point &at(int row) const { return mesh.points[row]; }
    int count() const { return static_cast<int>(mesh.edges.size()); }
    double length(const Edge &e) const { return norm(at(e.a) - at(e.b)) / h; }
    void read()
    {
        if (!fresh)
            mesh.read(tracker), fresh = true;
    }
    static const std::vector<Wish> &best_first(std::vector<Wish> &wishes)
    {
        const auto better = [](const Wish &p, const Wish &q) { return p.worth != q.worth ? p.worth > q.worth : p.edge < q.edge; };
        std::sort(wishes.begin(), wishes.end(), better);
        return wishes;
    }
    std::vector<topo_answered> ask(std::uint32_t kind, const std::vector<Wish> &chosen, long &done, long &refused)
    {
        std::vector<topo_asked> asked;
        for (const Wish &w : chosen)
            asked.push_back({kind, mesh.id[mesh.edges[w.edge].a], mesh.id[mesh.edges[w.edge].b], 0, 0});
        const std::vector<topo_answered> answers = tracker.edit_each(asked);
        for (const topo_answered &a : answers)
            ++(a.why ? refused : done), fresh = fresh && a.why;
        return answers;
    }
    // Whether the edge and v are a ring of three edges, none of them long, which is no face.
    bool is_ring(const Edge &e, int v) const
    {
        const bool apart = v != e.a && v != e.b && v != e.c && v != e.d;
        return apart && mesh.joined(e.b, v) && is_near(e.a, v) && is_near(e.b, v);
    }
    bool is_near(int p, int q) const { return norm(at(p) - at(q)) <= by.max_edge_length * h; }
    bool cut(std::uint32_t a, std::uint32_t b, std::uint32_t c)
    {
        tracker.open();
        topo_answered left = tracker.edit({TOPO_COLLAPSED, a, b, 0, 0});
        if (!left.why)
            left = tracker.edit({TOPO_COLLAPSED, left.a, c, 0, 0});
        const std::uint32_t vertex = left.a;
        if (!left.why)
            left = tracker.edit({TOPO_PINCHED, vertex, 0, 0, 0});
        bool good = !left.why;
        for (const topo_face &f : good ? tracker.star(vertex) : std::vector<topo_face>())
            for (const std::uint32_t v : {f.a, f.b, f.c})
                good = good && (v == vertex || tracker.beside(vertex, v).size() == 2);
        return good ? tracker.close() == TOPO_KEPT : (tracker.undo(), false);
    }
    void find_folds()
    {
        folded.assign(mesh.faces.size(), 0);
        for (const Edge &e : mesh.edges)
            if (cosine(mesh.normal(e.left), mesh.normal(e.right)) < by.fold_cosine)
                folded[e.left] = folded[e.right] = 1;
    }

    // ---- the guards of a flip: the faces a d c and d b c are to stand for a b c and b a d ----
    bool wants_flip(const Edge &e, double &rise) const
    {
        const Point &a = at(e.a), &b = at(e.b), &c = at(e.c), &d = at(e.d);
        rise = std::min(least_angle(a, d, c), least_angle(d, b, c)) - std::min(least_angle(a, b, c), least_angle(b, a, d));
        return rise > 1e-9 && e.c != e.d && !mesh.joined(e.c, e.d);
    }
    bool may_flip(const Edge &e, double &volume) const
    {
        const Point &a = at(e.a), &b = at(e.b), &c = at(e.c), &d = at(e.d);
        volume = dot(d - a, area_vector(a, b, c));
        return cosine(area_vector(a, b, c), area_vector(b, a, d)) >= by.edge_flip_min_cosine
            && cosine(area_vector(a, d, c), area_vector(d, b, c)) >= by.edge_flip_min_cosine
            && std::fabs(volume) <= 6 * by.edge_flip_max_volume_change * h * h * h;
    }

    // ---- the guards of a collapse ----
    bool wants_collapse(const Edge &e, Wish &w)
    {
        const double size = length(e);
        const bool small = std::min(angle(at(e.c), at(e.a), at(e.b)), angle(at(e.d), at(e.a), at(e.b))) < by.min_triangle_angle;
        const bool brief = size < by.min_edge_length || (small && size < by.needle_max_length);
        if ((folded[e.left] || folded[e.right]) && size < by.max_edge_length && may_collapse(e, w.volume, loose())) {
            const double gain = worst_cosine(e, true) - worst_cosine(e, false);
            if (gain > 0.1)
                return w.worth = 10 * gain - size, true;
        }
        if (!brief)
            return false;
        w.worth = -size;
        const bool may = may_collapse(e, w.volume, by);
        told.collapses_held += !may;
        return may;
    }
    // What is still asked of a collapse that takes a fold away.
    Improving loose() const
    {
        Improving l = by;
        l.max_volume_change = 1e99, l.collapse_max_turn = l.collapse_min_cosine = -2;
        l.collapse_min_angle = std::min(by.collapse_min_angle, 5.0);
        return l;
    }
    // Where the tracker puts the vertex that is left.
    Point target(const Edge &e) const
    {
        const Point &a = at(e.a), &b = at(e.b);
        if (mesh.solid[e.a] || mesh.solid[e.b])
            return mesh.solid[e.a] ? a : b;
        return {std::floor((a[0] + b[0]) / 2), std::floor((a[1] + b[1]) / 2), std::floor((a[2] + b[2]) / 2)};
    }
    // Whether the edge passes the guards; `volume` is set to six times what its collapse wins.
    bool may_collapse(const Edge &e, double &volume, const Improving &limits) const
    {
        if (mesh.solid[e.a] && mesh.solid[e.b])
            return false;
        const Point mid = target(e);
        double was = 180, is = 180;
        volume = 0;
        for (const int v : {e.a, e.b})
            for (int k = mesh.first[v]; k < mesh.first[v + 1]; ++k) {
                const Corners &f = mesh.faces[mesh.star[k]];
                std::array<Point, 3> p{at(f[0]), at(f[1]), at(f[2])};
                const Point before = area_vector(p[0], p[1], p[2]);
                was = std::min(was, least_angle(p[0], p[1], p[2]));
                const bool goes = mesh.star[k] == e.left || mesh.star[k] == e.right;
                if (v == e.a || !goes)
                    volume -= dot(p[0] - mid, before); // of the tetrahedron between the face and what stands for it
                if (goes)
                    continue;
                for (int i = 0; i < 3; ++i) {
                    if (f[i] == v)
                        p[i] = mid;
                    else if (f[i] != e.c && f[i] != e.d && mesh.joined(e.a, f[i]) && mesh.joined(e.b, f[i]))
                        return false; // a ring of three edges, which would become a non-manifold edge
                }
                is = std::min(is, least_angle(p[0], p[1], p[2]));
                if (cosine(before, area_vector(p[0], p[1], p[2])) < limits.collapse_max_turn)
                    return false;
                for (const Point &q : p)
                    if (norm(q - mid) > limits.max_edge_length * h)
                        return false;
            }
        if (std::fabs(volume) > 6 * limits.max_volume_change * h * h * h || is < std::min(limits.collapse_min_angle, was))
            return false;
        return limits.collapse_min_cosine < -1 || worst_cosine(e, true) >= std::min(limits.collapse_min_cosine, worst_cosine(e, false));
    }
    // The least cosine between two neighbours, of which one is at the edge: as it is, or as it would be after the collapse.
    double worst_cosine(const Edge &e, bool after) const
    {
        const Point mid = target(e);
        struct Face { int from; Corners corners; Point normal; };
        std::vector<Face> ring;
        for (const int v : {e.a, e.b})
            for (int k = mesh.first[v]; k < mesh.first[v + 1]; ++k) {
                const int from = mesh.star[k];
                if ((from == e.left || from == e.right) && (after || v == e.b))
                    continue;
                Corners f = mesh.faces[from];
                std::array<Point, 3> p;
                for (int i = 0; i < 3; ++i) {
                    p[i] = after && f[i] == v ? mid : at(f[i]);
                    f[i] = after && f[i] == e.b ? e.a : f[i];
                }
                ring.push_back({from, f, area_vector(p[0], p[1], p[2])});
            }
        double worst = 1;
        for (const Face &f : ring)
            for (int s = 0; s < 3; ++s) {
                const int p = f.corners[s], q = f.corners[(s + 1) % 3];
                bool inner = false;
                for (const Face &g : ring)
                    for (int r = 0; r < 3; ++r)
                        if (g.corners[r] == q && g.corners[(r + 1) % 3] == p)
                            inner = true, worst = std::min(worst, cosine(f.normal, g.normal));
                if (!inner)
                    worst = std::min(worst, cosine(f.normal, mesh.normal(mesh.beside(p, q, f.from))));
            }
        return worst;
    }
};

// Smoothing. Vertices slide toward the mean of the middles of their faces, by area: one at a time, in the plane across the summed area of
// their faces as these are by then, and by at most a fifth of the shortest edge. As the volume is linear in each vertex, with that sum as
// its gradient, the volume stays, but for rounding. A vertex with a face that turns from the sum by more than `flat` stays, and so does a
// solid one. It goes over where the vertices are to be, the targets of a step, by row; `faces` are rows of targets.
inline void slide(
    std::vector<Point> &x, const std::vector<Corners> &faces, double weight, double flat = 0.7, const std::vector<char> *solid = nullptr)
{
    std::vector<int> first, star;
    std::vector<Point> areas;
    stars(x.size(), faces, first, star);
    for (std::size_t i = 0; i < x.size(); ++i) {
        Point sum{0, 0, 0}, n{0, 0, 0};
        double all = 0, near = 1e99, turn = 1;
        areas.clear();
        for (int k = first[i]; k < first[i + 1]; ++k) {
            const Corners &f = faces[star[k]];
            areas.push_back(area_vector(x[f[0]], x[f[1]], x[f[2]]));
            const double a = norm(areas.back());
            sum = sum + (a / 3) * (x[f[0]] + x[f[1]] + x[f[2]]), all += a, n = n + areas.back();
            for (const int v : f)
                if (v != static_cast<int>(i))
                    near = std::min(near, norm(x[v] - x[i]));
        }
        for (const Point &m : areas)
            turn = std::min(turn, cosine(m, n));
        if (!(all > 0) || turn < flat || (solid && (*solid)[i]))
            continue;
        Point d = (1 / all) * sum - x[i];
        d = d - (dot(d, n) / dot(n, n)) * n;
        const double far = norm(d), most = 0.2 * near;
        x[i] = x[i] + (weight * (far > most ? most / far : 1)) * d;
    }
}
} // namespace topo_mesh

#endif
