// shapes.hpp: surfaces to begin with: balls, and what a function of the place is below zero in.
#ifndef SHAPES_HPP
#define SHAPES_HPP

#include "mesh.hpp"

#include <cmath>
#include <functional>
#include <map>
#include <unordered_map>
#include <vector>

using namespace topo_mesh;

struct Shape {
    std::vector<Point> points;
    std::vector<Corners> faces;
    void add(const Shape &other)
    {
        const int n = static_cast<int>(points.size());
        points.insert(points.end(), other.points.begin(), other.points.end());
        for (const Corners &f : other.faces)
            faces.push_back({f[0] + n, f[1] + n, f[2] + n});
    }
};

inline Point unit(const Point &a) { return norm(a) > 0 ? (1 / norm(a)) * a : Point{0, 0, 0}; }

// An icosahedron drawn onto the ball, each edge cut so often that the mean edge is about h.
inline Shape ball(const Point &middle, double radius, double h)
{
    const int n = std::max(1, static_cast<int>(std::lround(1.17 * radius / h)));
    const double g = (1 + std::sqrt(5.0)) / 2;
    const Point p[] = {{-1, g, 0}, {1, g, 0}, {-1, -g, 0}, {1, -g, 0}, {0, -1, g}, {0, 1, g}, {0, -1, -g}, {0, 1, -g}, {g, 0, -1},
        {g, 0, 1}, {-g, 0, -1}, {-g, 0, 1}};
    const Corners sides[] = {{0, 11, 5}, {0, 5, 1}, {0, 1, 7}, {0, 7, 10}, {0, 10, 11}, {1, 5, 9}, {5, 11, 4}, {11, 10, 2}, {10, 7, 6},
        {7, 1, 8}, {3, 9, 4}, {3, 4, 2}, {3, 2, 6}, {3, 6, 8}, {3, 8, 9}, {4, 9, 5}, {2, 4, 11}, {6, 2, 10}, {8, 6, 7}, {9, 8, 1}};
    Shape made;
    std::map<std::array<long, 3>, int> seen; // neighbours share the points of an edge
    for (const Corners &s : sides) {
        const Point a = p[s[0]], b = (1.0 / n) * (p[s[1]] - a), c = (1.0 / n) * (p[s[2]] - a);
        const auto at = [&](int i, int j) {
            const Point u = unit(a + double(i) * b + double(j) * c);
            const auto key = std::array<long, 3>{std::lround(u[0] * 1e7), std::lround(u[1] * 1e7), std::lround(u[2] * 1e7)};
            const auto found = seen.try_emplace(key, static_cast<int>(made.points.size()));
            if (found.second)
                made.points.push_back(middle + radius * u);
            return found.first->second;
        };
        for (int i = 0; i < n; ++i)
            for (int j = 0; i + j < n; ++j) {
                made.faces.push_back({at(i, j), at(i + 1, j), at(i, j + 1)});
                if (i + j + 1 < n)
                    made.faces.push_back({at(i + 1, j), at(i + 1, j + 1), at(i, j + 1)});
            }
    }
    return made;
}

// Dual contouring of f < 0 on cells of side h from `low` to `high`, which no part of the shape leaves: a vertex in each cell that the
// surface goes through, where the planes at its crossings meet best, so that sharp edges stay, and a square around each crossed edge.
class Contour {
public:
    Contour(std::function<double(const Point &)> f, const Point &low, const Point &high, double h) : f(std::move(f)), low(low), h(h)
    {
        for (int a = 0; a < 3; ++a)
            n[a] = static_cast<int>(std::ceil((high[a] - low[a]) / h)) + 1;
        for (int k = 0; k <= n[2]; ++k)
            for (int j = 0; j <= n[1]; ++j)
                for (int i = 0; i <= n[0]; ++i)
                    value.push_back(this->f(at({i, j, k})));
        for (int k = 1; k < n[2]; ++k)
            for (int j = 1; j < n[1]; ++j)
                for (int i = 1; i < n[0]; ++i)
                    for (int axis = 0; axis < 3; ++axis)
                        square({i, j, k}, axis);
    }
    Shape made;

private:
    std::function<double(const Point &)> f;
    const Point low;
    const double h;
    int n[3];
    std::vector<double> value;
    std::unordered_map<long, int> vertex_in;

    Point at(const Corners &q) const { return {low[0] + q[0] * h, low[1] + q[1] * h, low[2] + q[2] * h}; }
    long node(const Corners &q) const { return (static_cast<long>(q[2]) * (n[1] + 1) + q[1]) * (n[0] + 1) + q[0]; }
    bool inside(const Corners &q) const { return value[node(q)] < 0; }
    Point gradient(const Point &p) const
    {
        Point g;
        for (int a = 0; a < 3; ++a) {
            Point q = p, r = p;
            q[a] += 1e-6, r[a] -= 1e-6, g[a] = f(q) - f(r);
        }
        return unit(g);
    }
    Point crossing(Point p, Point q) const
    {
        const bool in = f(p) < 0;
        for (int i = 0; i < 40; ++i) {
            const Point mid = 0.5 * (p + q);
            ((f(mid) < 0) == in ? p : q) = mid;
        }
        return 0.5 * (p + q);
    }
    int vertex(const Corners &cell)
    {
        const auto found = vertex_in.try_emplace(node(cell), static_cast<int>(made.points.size()));
        if (!found.second)
            return found.first->second;
        std::vector<Point> points, normals;
        Point mean{0, 0, 0};
        for (int axis = 0; axis < 3; ++axis)
            for (int s = 0; s < 4; ++s) {
                Corners a = cell, b;
                a[(axis + 1) % 3] += s & 1, a[(axis + 2) % 3] += s >> 1, b = a, ++b[axis];
                if (inside(a) == inside(b))
                    continue;
                points.push_back(crossing(at(a), at(b))), normals.push_back(gradient(points.back()));
                mean = mean + points.back();
            }
        mean = (1.0 / points.size()) * mean;
        double m[3][4] = {{0.02, 0, 0, 0}, {0, 0.02, 0, 0}, {0, 0, 0.02, 0}}; // a little toward the mean
        for (std::size_t i = 0; i < points.size(); ++i)
            for (int r = 0; r < 3; ++r) {
                for (int c = 0; c < 3; ++c)
                    m[r][c] += normals[i][r] * normals[i][c];
                m[r][3] += normals[i][r] * dot(normals[i], points[i] - mean);
            }
        for (int c = 0; c < 3; ++c)
            for (int r = 0; r < 3; ++r)
                if (const double w = m[r][c] / m[c][c]; r != c)
                    for (int d = c; d < 4; ++d)
                        m[r][d] -= w * m[c][d];
        Point x;
        for (int r = 0; r < 3; ++r)
            x[r] = std::clamp(mean[r] + m[r][3] / m[r][r], at(cell)[r] + 0.02 * h, at(cell)[r] + 0.98 * h);
        made.points.push_back(x);
        return found.first->second;
    }
    // The four cells around the edge from a node along an axis, as two faces.
    void square(const Corners &a, int axis)
    {
        Corners b = a;
        ++b[axis];
        if (inside(a) == inside(b))
            return;
        int q[4];
        const int du[] = {-1, 0, 0, -1}, dw[] = {-1, -1, 0, 0};
        for (int s = 0; s < 4; ++s) {
            Corners cell = a;
            cell[(axis + 1) % 3] += du[s], cell[(axis + 2) % 3] += dw[s], q[s] = vertex(cell);
        }
        if (!inside(a))
            std::swap(q[1], q[3]);
        const auto far = [&](int i, int j) { return norm(made.points[q[i]] - made.points[q[j]]); };
        const int k = far(0, 2) <= far(1, 3) ? 0 : 1; // the shorter diagonal
        made.faces.push_back({q[k], q[k + 1], q[k + 2]}), made.faces.push_back({q[k], q[k + 2], q[(k + 3) % 4]});
    }
};

#endif
