// A ball is drawn out to a thin sheet by two vortices, and back: Enright's deformation (Enright, Fedkiw, Ferziger and Mitchell 2002;
// LeVeque 1996).
#include "flow.hpp"

static const Point middle{0.35, 0.35, 0.35};
static const double radius = 0.15, pi = 3.14159265358979323846;

static Point field(const Point &p, double t)
{
    const auto square = [](double a) { return a * a; };
    const double x = pi * p[0], y = pi * p[1], z = pi * p[2], c = std::cos(pi * t / 3);
    return c * Point{2 * square(std::sin(x)) * std::sin(2 * y) * std::sin(2 * z), -std::sin(2 * x) * square(std::sin(y)) * std::sin(2 * z),
        -std::sin(2 * x) * std::sin(2 * y) * square(std::sin(z))};
}

int main(int count, char **words)
try {
    const Words word(count, words);
    const double h = word("h", 0.025);
    Run run(word, ball(middle, radius, h), h);
    run.exact = run.first_volume;
    run.write("first.obj");
    follow(run, field, word("end", 3), 0.02, 1.5, long(word("steps", 1e9)));
    // how far the end is from the ball, both ways
    std::vector<Point> places = run.points, sphere;
    for (const Corners &f : run.mesh.faces)
        places.push_back((1.0 / 3) * (run.points[f[0]] + run.points[f[1]] + run.points[f[2]]));
    double off = 0;
    for (const Point &p : places)
        off = std::max(off, std::fabs(norm(p - middle) - radius));
    for (int i = 0; i < 5000; ++i) {
        const double z = 1 - (2 * i + 1) / 5000.0, s = std::sqrt(1 - z * z), a = i * pi * (3 - std::sqrt(5.0));
        sphere.push_back(middle + radius * Point{s * std::cos(a), s * std::sin(a), z});
    }
    const double back = farthest(sphere, run.points, run.mesh.faces);
    char text[200];
    std::snprintf(text, sizeof text, "from the surface to the sphere at most %.3f h, from the sphere to the surface %.3f h\n", off / h,
        back / h);
    run.end(text);
} catch (const std::exception &why) {
    std::fprintf(stderr, "%s\n", why.what());
    return 1;
}
