// flow.hpp: what the flows share: the words of a run, its steps, and its figures. README.md says what the columns are.
#ifndef FLOW_HPP
#define FLOW_HPP

#include "improve.hpp"
#include "merge.hpp"
#include "shapes.hpp"

#include <cstdio>
#include <ctime>
#include <fstream>
#include <memory>
#include <numeric>
#include <string>

inline double seconds() { return double(std::clock()) / CLOCKS_PER_SEC; }

// of each point a number of its body: points that a chain of faces joins have one
inline std::vector<int> body_labels(std::size_t points, const std::vector<Corners> &faces)
{
    std::vector<int> up(points);
    std::iota(up.begin(), up.end(), 0);
    const auto root = [&](int i) {
        while (up[i] != i)
            i = up[i] = up[up[i]];
        return i;
    };
    for (const Corners &f : faces)
        up[root(f[0])] = root(f[1]), up[root(f[1])] = root(f[2]);
    std::vector<int> label(points);
    for (std::size_t i = 0; i < points; ++i)
        label[i] = root(int(i));
    return label;
}

// FOLDER and then NAME=NUMBER, each in the place of the number that the flow has.
struct Words {
    std::string folder;
    std::map<std::string, double> given;
    Words(int count, char **words) : folder(count > 1 ? words[1] : "")
    {
        for (int i = 2; i < count; ++i) {
            const std::string word = words[i];
            const std::size_t at = word.find('=');
            if (at == std::string::npos)
                throw std::invalid_argument(word + ": it is no NAME=NUMBER");
            given[word.substr(0, at)] = std::stod(word.substr(at + 1));
        }
        if (folder.empty())
            throw std::invalid_argument("usage: FLOW FOLDER [NAME=NUMBER ...]");
    }
    double operator()(const char *name, double otherwise) const { return given.count(name) ? given.at(name) : otherwise; }
};

// From a point to a triangle (Ericson, Real-Time Collision Detection).
inline double distance(const Point &p, const Point &a, const Point &b, const Point &c)
{
    const Point ab = b - a, ac = c - a, ap = p - a, bp = p - b, cp = p - c;
    const double d1 = dot(ab, ap), d2 = dot(ac, ap), d3 = dot(ab, bp), d4 = dot(ac, bp), d5 = dot(ab, cp), d6 = dot(ac, cp);
    const double va = d3 * d6 - d5 * d4, vb = d5 * d2 - d1 * d6, vc = d1 * d4 - d3 * d2;
    if (d1 <= 0 && d2 <= 0)
        return norm(ap);
    if (d3 >= 0 && d4 <= d3)
        return norm(bp);
    if (vc <= 0 && d1 >= 0 && d3 <= 0)
        return norm(ap - (d1 / (d1 - d3)) * ab);
    if (d6 >= 0 && d5 <= d6)
        return norm(cp);
    if (vb <= 0 && d2 >= 0 && d6 <= 0)
        return norm(ap - (d2 / (d2 - d6)) * ac);
    if (va <= 0 && d4 - d3 >= 0 && d5 - d6 >= 0)
        return norm(bp - ((d4 - d3) / (d4 - d3 + d5 - d6)) * (c - b));
    return norm(ap - (vb / (va + vb + vc)) * ab - (vc / (va + vb + vc)) * ac);
}
// Of some points the greatest distance to a surface.
inline double farthest(const std::vector<Point> &from, const std::vector<Point> &points, const std::vector<Corners> &faces)
{
    double worst = 0;
    for (const Point &p : from) {
        double best = 1e99;
        for (const Corners &f : faces)
            if (const Point &a = points[f[0]], &b = points[f[1]], &c = points[f[2]];
                norm(p - a) - std::max(norm(b - a), norm(c - a)) < best)
                best = std::min(best, distance(p, a, b, c));
        worst = std::max(worst, best);
    }
    return worst;
}

class Run {
public:
    const double h;
    std::unique_ptr<topo_tracker> tracker;
    std::unique_ptr<Improver> improver;
    Mesh mesh;                 // rows, in grid units
    std::vector<Point> points; // by row, in metres
    double exact = 0;          // the volume that the flow would leave, where it is known
    Improving improving;
    Merging merging;           // where merge_proximity is 0, no sheets are merged
    double smoothing;
    long steps = 0, least_steps = 0, fold_steps = 0, ways[5] = {}, components = 0, euler = 0;
    double volume = 0, first_volume = 0, least_ever = 180;
    Merged merged;

    Run(const Words &words, const Shape &shape, double h) : Run(words, shape, h, Improving{h}, Merging{h}) {}
    Run(const Words &words, const Shape &shape, double h, const Improving &by, const Merging &join_by)
        : h(h), improving(by), merging(join_by), smoothing(words("smooth", 0.2)), folder(words.folder), log_kept(words("log", 0) != 0)
    {
        improving.allow_topology_changes = words("part", 0) != 0;
        merging.merge_proximity = words("merge", 0), plain = words("plain", 0) != 0;
        csv = std::fopen((folder + "/steps.csv").c_str(), "w");
        if (!csv)
            throw std::runtime_error(folder + ": there is no such folder");
        std::fputs("step,time,way,times,vertices,faces,volume,exact,area,least,mean,below5,folds,non_manifold,components,euler,"
                   "split,collapse,flip,zip,pinch,refused,seconds_flow,seconds_step,seconds_improve,seconds_merge\n",
            csv);
        begin(shape);
        tell(0, {0, 0, 0});
        first_volume = volume, last = seconds();
    }
    ~Run() { std::fclose(csv); }
    // A step: `to` is where the flow takes each point, by row. Behind it come the edits.
    void advance(std::vector<Point> to, double time)
    {
        ++steps;
        if (smoothing > 0)
            slide(to, mesh.faces, smoothing);
        std::vector<std::pair<std::uint32_t, Point>> shifts;
        for (std::size_t i = 0; i < to.size(); ++i)
            shifts.push_back({mesh.id[i], to[i] - points[i]});
        spent[0] = until();
        tracker->shift_each(shifts);
        const topo_way way = tracker->step();
        ++ways[way.how], spent[1] = until();
        const Improved before = improver->told;
        if (plain)
            pass();
        else
            improver->improve();
        refused = refusals(improver->told) - refusals(before), spent[2] = until();
        if (merging.merge_proximity > 0)
            join();
        spent[3] = until();
        tally();
        tell(time, way);
        last = seconds();
    }
    // The surface as it is, in metres, beside the figures.
    void write(const char *name) const
    {
        std::ofstream out(folder + "/" + name);
        out.precision(9);
        for (const Point &p : points)
            out << "v " << p[0] << " " << p[1] << " " << p[2] << "\n";
        for (const Corners &f : mesh.faces)
            out << "f " << f[0] + 1 << " " << f[1] + 1 << " " << f[2] + 1 << "\n";
    }
    // What came of the run, and what the flow adds to that.
    void end(const char *more = "")
    {
        end_log(), write("last.obj");
        const Improved &i = improver->told;
        char text[1000];
        std::snprintf(text, sizeof text,
            "steps %ld: whole %ld, impulse %ld, zones %ld, halved %ld, zero %ld\nvolume %.9f, at the start %.9f: %+.3f %%\n"
            "components %ld, Euler number %ld, faces %zu\n"
            "least angle ever %.2f, steps with one below 5 degrees %ld, steps with folds %ld\n"
            "splits %ld and %ld of caps, collapses %ld, flips %ld; refused %ld, %ld, %ld, %ld; held back %ld, %ld; necks %ld\n"
            "merged: seeds %ld, folds closed %ld, filled %ld, pinches %ld; taken back: refused %ld, crowded %ld; left: turning %ld\n%s",
            steps, ways[0], ways[1], ways[2], ways[3], ways[4], volume, first_volume, 100 * (volume / first_volume - 1), components, euler,
            mesh.faces.size(), least_ever, least_steps, fold_steps, i.splits, i.caps, i.collapses, i.flips, i.splits_refused,
            i.caps_refused, i.collapses_refused, i.flips_refused, i.collapses_held, i.flips_held, i.necks, merged.seeds,
            merged.folds_closed, merged.filled, merged.pinches, merged.undone_refused, merged.undone_crowded, merged.turning, more);
        std::fputs(text, stdout);
        std::ofstream(folder + "/summary.txt") << text;
    }

private:
    const std::string folder;
    const bool log_kept;
    bool plain = false; // whether the tracker's own passes, by lengths alone, stand for the guarded ones
    std::FILE *csv = nullptr;
    std::ofstream log;
    std::size_t log_size = 0, chapter = 0;
    double spent[4] = {}, last = 0;
    long refused = 0, done[11] = {};

    double until()
    {
        const double now = seconds(), took = now - last;
        return last = now, took;
    }
    static long refusals(const Improved &i) { return i.splits_refused + i.caps_refused + i.collapses_refused + i.flips_refused; }
    void begin(const Shape &shape)
    {
        std::vector<topo_triangle> faces;
        for (const Corners &f : shape.faces)
            faces.push_back({std::uint32_t(f[0] + 1), std::uint32_t(f[1] + 1), std::uint32_t(f[2] + 1)});
        const topo_grid grid{h * 1e-5};
        tracker = std::make_unique<topo_tracker>(shape.points.data(), shape.points.size(), faces.data(), faces.size(), grid);
        improver = std::make_unique<Improver>(*tracker, improving);
        read();
        begin_log();
    }
    void read()
    {
        mesh.read(*tracker);
        points.clear();
        for (const Point &p : mesh.points)
            points.push_back(tracker->grid.unit * p);
    }
    // A log and the mesh that it begins with, as the program reads them.
    void begin_log()
    {
        if (!log_kept)
            return;
        tracker->renumber(), tracker->begin_log(), read();
        log.open(folder + "/log" + std::to_string(chapter++) + ".txt"), log_size = 0;
        write_rows("start");
    }
    void end_log()
    {
        if (!log.is_open())
            return;
        tracker->save(), tracker->end_log();
        log << tracker->log(), log.close();
        write_rows("stop");
    }
    // The surface in grid units.
    void write_rows(const char *name) const
    {
        std::ofstream out(folder + "/" + name + std::to_string(chapter - 1) + ".obj");
        for (const Point &p : mesh.points)
            out << "v " << long(p[0]) << " " << long(p[1]) << " " << long(p[2]) << "\n";
        for (const Corners &f : mesh.faces)
            out << "f " << f[0] + 1 << " " << f[1] + 1 << " " << f[2] + 1 << "\n";
    }
    void pass()
    {
        const topo_edits split = tracker->split(1.5 * h), collapse = tracker->collapse(0.5 * h), flip = tracker->flip();
        Improved &told = improver->told;
        told.splits += split.done, told.splits_refused += split.refused, told.collapses += collapse.done;
        told.collapses_refused += collapse.refused, told.flips += flip.done, told.flips_refused += flip.refused;
    }
    void join()
    {
        const Merged m = plain ? merge(*tracker, merging) : merge(*tracker, merging, improver->mesh_left());
        merged.seeds += m.seeds, merged.folds_closed += m.folds_closed, merged.pinches += m.pinches, merged.turning += m.turning;
        merged.filled += m.filled;
        merged.undone_refused += m.undone_refused, merged.undone_crowded += m.undone_crowded;
        refused += m.undone_refused;
    }
    // Counts the edits that stand, group by group, and takes the log.
    void tally()
    {
        std::vector<std::array<long, 11>> open{{}};
        for (const topo_event &e : tracker->events()) {
            if (e.kind == TOPO_OPENED)
                open.push_back({});
            else if (e.kind == TOPO_GROUP_KEPT || e.kind == TOPO_GROUP_UNDONE) {
                const auto inner = open.back();
                open.pop_back();
                for (int i = 0; i < 11 && e.kind == TOPO_GROUP_KEPT; ++i)
                    open.back()[i] += inner[i];
            } else if (e.kind < 11)
                ++open.back()[e.kind];
        }
        std::copy(open[0].begin(), open[0].end(), done);
        if (!log_kept)
            return tracker->forget();
        const std::string text = tracker->log();
        log << text, log_size += text.size();
    }
    void tell(double time, const topo_way &way)
    {
        read();
        double area = 0, least = 180, mean = 0;
        long below = 0, folds = 0;
        volume = 0;
        std::vector<int> up(points.size());
        std::iota(up.begin(), up.end(), 0);
        const auto root = [&](int i) {
            while (up[i] != i)
                i = up[i] = up[up[i]];
            return i;
        };
        for (const Corners &f : mesh.faces) {
            const Point &a = points[f[0]], &b = points[f[1]], &c = points[f[2]];
            const double angle = least_angle(a, b, c);
            area += norm(area_vector(a, b, c)) / 2, volume += dot(a, cross(b, c)) / 6;
            least = std::min(least, angle), mean += angle / mesh.faces.size(), below += angle < 5;
            up[root(f[0])] = root(f[1]), up[root(f[1])] = root(f[2]);
        }
        for (const Mesh::Edge &e : mesh.edges)
            folds += cosine(mesh.normal(e.left), mesh.normal(e.right)) < -0.9;
        components = 0;
        for (int i = 0; i < int(up.size()); ++i)
            components += root(i) == i;
        euler = long(points.size()) - long(mesh.edges.size() + mesh.crowded.size()) + long(mesh.faces.size());
        least_ever = std::min(least_ever, least), least_steps += below > 0, fold_steps += folds > 0;
        std::fprintf(csv, "%ld,%.6f,%u,%u,%zu,%zu,%.9f,%.9f,%.6f,%.3f,%.3f,%ld,%ld,%zu,%ld,%ld,", steps, time, way.how,
            way.times, points.size(), mesh.faces.size(), volume, exact, area, least, mean, below, folds, mesh.crowded.size(), components,
            euler);
        std::fprintf(csv, "%ld,%ld,%ld,%ld,%ld,%ld,%.4f,%.4f,%.4f,%.4f\n", done[TOPO_SPLIT], done[TOPO_COLLAPSED], done[TOPO_FLIPPED],
            done[TOPO_ZIPPED], done[TOPO_PINCHED], refused, spent[0], spent[1], spent[2], spent[3]);
        std::fflush(csv);
        if (log_size > 60000000) // a log of standard scale is no longer than 64 MiB: another begins
            end_log(), begin_log();
    }
};

// A flow by a field of velocities: each point is carried by the classical Runge-Kutta method.
template <class Field> Point carried(const Field &field, const Point &p, double t, double dt)
{
    const Point a = field(p, t), b = field(p + (dt / 2) * a, t + dt / 2);
    const Point c = field(p + (dt / 2) * b, t + dt / 2), d = field(p + dt * c, t + dt);
    return p + (dt / 6) * (a + 2.0 * b + 2.0 * c + d);
}
// Half an edge a step at most. `middle` is a time at which a step ends and the surface is written, or 0.
template <class Field> void follow(Run &run, const Field &field, double end, double longest, double middle, long most)
{
    for (double t = 0; t < end - 1e-12 && run.steps < most;) {
        double fast = 1e-12;
        for (const Point &p : run.points)
            fast = std::max(fast, norm(field(p, t)));
        double dt = std::min({longest, 0.5 * run.h / fast, end - t});
        if (middle > t + 1e-12)
            dt = std::min(dt, middle - t);
        std::vector<Point> to;
        for (const Point &p : run.points)
            to.push_back(carried(field, p, t, dt));
        run.advance(to, t += dt);
        if (middle > 0 && std::fabs(t - middle) < 1e-9)
            run.write("middle.obj");
    }
}

#endif
