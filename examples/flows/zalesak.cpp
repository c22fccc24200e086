// A slotted ball is turned once about an axis beside it: Zalesak's test (Zalesak 1979; in space Enright et al. 2002).
#include "flow.hpp"

static const double pi = 3.14159265358979323846;

static Point field(const Point &p, double) { return {2 * pi * (0.5 - p[1]), 2 * pi * (p[0] - 0.5), 0}; }
// Below zero inside a ball of radius 0.15 with a slot 0.05 wide and 0.25 deep.
static double slotted(const Point &p)
{
    const double ball = norm(p - Point{0.5, 0.75, 0.5}) - 0.15, x = std::fabs(p[0] - 0.5) - 0.025, y = p[1] - 0.85;
    return std::max(ball, -(x > 0 && y > 0 ? std::hypot(x, y) : std::max(x, y)));
}

int main(int count, char **words)
try {
    const Words word(count, words);
    const double h = word("h", 0.02);
    const Shape shape = Contour(slotted, {0.3301, 0.5803, 0.3307}, {0.67, 0.92, 0.67}, h).made;
    Run run(word, shape, h);
    run.exact = run.first_volume;
    const std::vector<Point> points = run.points;
    const std::vector<Corners> faces = run.mesh.faces;
    run.write("first.obj");
    follow(run, field, word("end", 1), 1, 0.5, long(word("steps", 1e9)));
    char text[200];
    const double there = farthest(points, run.points, run.mesh.faces), back = farthest(run.points, points, faces);
    std::snprintf(text, sizeof text, "from the start to the end at most %.4f h, from the end to the start %.4f h\n", there / h, back / h);
    run.end(text);
} catch (const std::exception &why) {
    std::fprintf(stderr, "%s\n", why.what());
    return 1;
}
