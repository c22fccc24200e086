// The same calls of improve.hpp and merge.hpp as twins.py makes of their twins in Python: reads a mesh of whole points, and writes the log
// of so many rounds of a mode, which is `flow`, `merge`, `improve and merge`, `merge along normals` or `mend`.
#include "improve.hpp"
#include "merge.hpp"

#include <cstdio>
#include <cstdlib>
#include <string>

using namespace topo_mesh;

int main(int count, char **words)
{
    if (count != 3)
        return 2;
    std::vector<Point> points;
    std::vector<topo_triangle> faces;
    char kind;
    double x, y, z;
    while (std::scanf(" %c %lf %lf %lf", &kind, &x, &y, &z) == 4) {
        if (kind == 'v')
            points.push_back({x, y, z});
        else
            faces.push_back({std::uint32_t(x), std::uint32_t(y), std::uint32_t(z)});
    }
    topo_tracker tracker(points.data(), points.size(), faces.data(), faces.size());
    Improver improver(tracker, {1000});
    const std::string mode = words[1];
    for (int round = std::atoi(words[2]); round > 0; --round) {
        if (mode == "flow") {
            Mesh mesh;
            mesh.read(tracker);
            std::vector<Point> to;
            for (const Point &p : mesh.points)
                to.push_back({p[0] + 0.0937 * p[1], p[1] - 0.0411 * p[2], p[2] + 0.0193 * p[0]});
            slide(to, mesh.faces, 0.2);
            std::vector<std::pair<std::uint32_t, Point>> shifts;
            for (std::size_t i = 0; i < to.size(); ++i)
                shifts.push_back({mesh.id[i], to[i] - mesh.points[i]});
            tracker.shift_each(shifts);
            tracker.step();
            improver.improve();
        } else if (mode == "merge") {
            merge(tracker, {1000});
        } else if (mode == "improve and merge") {
            improver.improve();
            merge(tracker, {1000}, improver.mesh_left());
        } else if (mode == "merge along normals") {
            merge(tracker, merging_along_normals(1000));
        } else {
            tracker.zip(1000), tracker.pinch();
            mend(tracker, {1000});
        }
    }
    std::fputs(tracker.log().c_str(), stdout);
}
