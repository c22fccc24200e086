// Balls grow along their normals, meet, and become one body.
#include "flow.hpp"

static const double pi = 3.14159265358979323846;

// Of each vertex, by the angles of its faces there.
static std::vector<Point> normals(const Run &run)
{
    std::vector<Point> n(run.points.size(), Point{0, 0, 0});
    for (const Corners &f : run.mesh.faces) {
        const Point u = unit(area_vector(run.points[f[0]], run.points[f[1]], run.points[f[2]]));
        for (int i = 0; i < 3; ++i)
            n[f[i]] = n[f[i]] + angle(run.points[f[i]], run.points[f[(i + 1) % 3]], run.points[f[(i + 2) % 3]]) * u;
    }
    for (Point &u : n)
        u = unit(u);
    return n;
}

int main(int count, char **words)
try {
    Words word(count, words);
    word.given.try_emplace("merge", 1.25);
    word.given.try_emplace("smooth", 0.3);
    const double h = word("h", 0.02), radius = word("radius", 0.2), gap = word("gap", 0.1), apart = 2 * radius + gap;
    const int balls = int(word("balls", 2));
    Shape shape;
    std::vector<Point> middles;
    for (int i = 0; i < balls; ++i) { // a row of two, or the corners of a cube; not quite, so that no two are mirrored in the grid
        middles.push_back({(i & 1) * apart + 0.0013 * i, (i >> 1 & 1) * apart + 0.0017 * i, (i >> 2 & 1) * apart + 0.0009 * i});
        shape.add(ball(middles.back(), radius, h));
    }
    Run run(word, shape, h, moving_along_normals(h), merging_along_normals(h));
    run.write("first.obj");
    const long steps = long(word("steps", 10));
    double r = radius;
    long inside = 0, joined = -1;
    for (long s = 1; s <= steps; ++s) {
        const std::vector<Point> n = normals(run);
        std::vector<Point> to;
        for (std::size_t i = 0; i < n.size(); ++i)
            to.push_back(run.points[i] + (h / 2) * n[i]);
        r += h / 2;
        if (const double far = norm(middles.back() - middles[0]); balls == 2) // the lens of both is counted once
            run.exact = 8 * pi / 3 * r * r * r - (2 * r > far ? pi * (4 * r + far) * (2 * r - far) * (2 * r - far) / 12 : 0);
        run.advance(to, s * h / 2);
        if (run.components > 1)
            joined = -1;
        else if (joined < 0)
            joined = s;
        if (2 * s == steps)
            run.write("middle.obj");
    }
    for (const Corners &f : run.mesh.faces) { // faces deeper than h inside the union of the balls
        const Point p = (1.0 / 3) * (run.points[f[0]] + run.points[f[1]] + run.points[f[2]]);
        double depth = -1e99;
        for (const Point &m : middles)
            depth = std::max(depth, r - norm(p - m));
        inside += depth > h;
    }
    char text[200];
    const std::string since = joined < 0 ? "not one component at the end" : "one component from step " + std::to_string(joined) + " on";
    const std::string known = run.exact > 0 ? "; exact volume " + std::to_string(run.exact) : "";
    std::snprintf(text, sizeof text, "%s%s; faces deeper than h inside the union %ld\n", since.c_str(), known.c_str(), inside);
    run.end(text);
} catch (const std::exception &why) {
    std::fprintf(stderr, "%s\n", why.what());
    return 1;
}
