// A block of droplets: each body is carried as a whole toward the middle, and what has met moves as one.
#include "flow.hpp"

#include <random>

int main(int count, char **words)
try {
    Words word(count, words);
    word.given.try_emplace("merge", 1.25);
    word.given.try_emplace("smooth", 0);
    const double h = word("h", 0.01), radius = 3 * h / 1.17, apart = word("apart", 2.8) * radius;
    const int row = int(word("row", 3));
    std::mt19937 random(5);
    const auto jitter = [&] { return (random() / 4294967296.0 - 0.5) / 5; };
    Shape shape;
    for (int i = 0; i < row * row * row; ++i) {
        const int at[3] = {i % row, i / row % row, i / row / row};
        Point middle;
        for (int a = 0; a < 3; ++a)
            middle[a] = apart * (at[a] + jitter() - (row - 1) / 2.0);
        shape.add(ball(middle, radius * (1 + 0.8 * jitter()), h));
    }
    Run run(word, shape, h);
    run.exact = run.first_volume;
    run.write("first.obj");
    const long steps = long(word("steps", 24));
    for (long s = 1; s <= steps; ++s) {
        const std::vector<int> label = body_labels(run.points.size(), run.mesh.faces);
        std::map<int, std::pair<Point, double>> bodies; // four times six volumes, with the point that they weigh
        for (const Corners &f : run.mesh.faces) {
            const Point &a = run.points[f[0]], &b = run.points[f[1]], &c = run.points[f[2]];
            const double part = dot(a, cross(b, c));
            auto &body = bodies.try_emplace(label[f[0]], Point{0, 0, 0}, 0.0).first->second;
            body.first = body.first + part * (a + b + c), body.second += 4 * part;
        }
        double fast = 1e-12;
        for (auto &[first, body] : bodies)
            body.first = (-1 / std::max(body.second, 1e-18)) * body.first, fast = std::max(fast, norm(body.first));
        std::vector<Point> to = run.points;
        for (std::size_t i = 0; i < to.size(); ++i)
            to[i] = to[i] + std::min(1.0, 0.5 * h / fast) * bodies[label[i]].first;
        run.advance(to, double(s));
        if (2 * s == steps)
            run.write("middle.obj");
    }
    run.end();
} catch (const std::exception &why) {
    std::fprintf(stderr, "%s\n", why.what());
    return 1;
}
