// A dumbbell under mean curvature flow: its neck becomes thin, and parts, and each half becomes a ball.
#include "flow.hpp"

static double joined(double a, double b, double k) // the lesser, smoothly
{
    const double h = std::clamp(0.5 + 0.5 * (b - a) / k, 0.0, 1.0);
    return b + (a - b) * h - k * h * (1 - h);
}
static double dumbbell(const Point &p)
{
    const double left = norm(p - Point{-0.4, 0, 0}) - 0.2, right = norm(p - Point{0.4, 0, 0}) - 0.2;
    return joined(joined(left, right, 0.03), std::max(std::hypot(p[1], p[2]) - 0.08, std::fabs(p[0]) - 0.4), 0.06);
}
// The flow's velocity by cotangents, and how long a step is stable for each vertex.
static std::vector<Point> velocities(const Run &run, std::vector<double> &stable)
{
    std::vector<Point> v(run.points.size(), Point{0, 0, 0});
    std::vector<double> area(v.size(), 0), sum(v.size(), 0);
    for (const Corners &f : run.mesh.faces)
        for (int i = 0; i < 3; ++i) {
            const int p = f[(i + 1) % 3], q = f[(i + 2) % 3];
            const Point a = run.points[p] - run.points[f[i]], b = run.points[q] - run.points[f[i]];
            const double twice = norm(cross(a, b)), cot = std::clamp(dot(a, b) / std::max(twice, 1e-300), -3.0, 30.0) / 2;
            v[p] = v[p] + cot * (run.points[q] - run.points[p]), v[q] = v[q] + cot * (run.points[p] - run.points[q]);
            sum[p] += std::fabs(cot), sum[q] += std::fabs(cot), area[f[i]] += twice / 6;
        }
    stable.assign(v.size(), 0);
    for (std::size_t i = 0; i < v.size(); ++i)
        if (area[i] > 0)
            v[i] = (1 / area[i]) * v[i], stable[i] = 0.5 * area[i] / std::max(sum[i], 1e-300);
    return v;
}

int main(int count, char **words)
try {
    Words word(count, words);
    word.given.try_emplace("part", 1);
    const double h = word("h", 0.03), dt = 0.15 * h * h;
    Run run(word, Contour(dumbbell, {-0.6503, -0.2507, -0.2509}, {0.65, 0.25, 0.25}, h).made, h,
        moving_along_normals(h), merging_along_normals(h));
    run.write("first.obj");
    long most = long(word("steps", 400)), parted = -1;
    for (long s = 1; s <= most && !run.points.empty(); ++s) {
        std::vector<double> stable;
        const std::vector<Point> v = velocities(run, stable);
        std::vector<Point> to = run.points;
        for (std::size_t i = 0; i < to.size(); ++i) {
            const Point d = std::min(dt, stable[i]) * v[i];
            to[i] = to[i] + std::min(1.0, 0.4 * h / std::max(norm(d), 1e-300)) * d;
        }
        run.advance(to, s * dt);
        if (parted < 0 && run.components > 1)
            parted = s, most = std::min(most, s + long(word("after", 40))), run.write("middle.obj");
    }
    char text[100];
    std::snprintf(text, sizeof text, "parted at step %ld, time %.6f\n", parted, parted * dt);
    run.end(text);
} catch (const std::exception &why) {
    std::fprintf(stderr, "%s\n", why.what());
    return 1;
}
