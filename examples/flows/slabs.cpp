// Nine pairs of slabs that face each other, three gaps by three shifts sideways: at rest, or each upper one comes down on its lower one.
#include "flow.hpp"

int main(int count, char **words)
try {
    Words word(count, words);
    word.given.try_emplace("merge", 1.25);
    word.given.try_emplace("smooth", 0);
    const double h = word("h", 0.01), side = 8 * h, thick = 4 * h, speed = word("speed", 0) * h, above = speed > 0 ? 2 * h : 0;
    struct Pair { Point low; double gap, shift; };
    std::vector<Pair> pairs;
    Shape shape;
    const auto slab = [&](const Point &low) {
        const auto inside = [&](const Point &p) {
            const Point q = p - low;
            const double x = std::fabs(q[0] - side / 2), y = std::fabs(q[1] - side / 2), z = std::fabs(q[2] - thick / 2);
            return std::max({x - side / 2, y - side / 2, z - thick / 2});
        };
        const Point margin{1.301 * h, 1.302 * h, 1.303 * h}, size{side, side, thick};
        shape.add(Contour(inside, low - margin, low + size + margin, h).made);
    };
    for (const double gap : {0.2, 0.5, 1.0})
        for (const double shift : {0.0, 0.3, 0.7}) {
            const double k = double(pairs.size());
            pairs.push_back({{14 * h * (int(k) % 3) + 0.0013 * k * h, 14 * h * (int(k) / 3), 0}, gap * h, shift * h});
            slab(pairs.back().low);
            slab(pairs.back().low + Point{pairs.back().shift, 0.6 * pairs.back().shift, thick + pairs.back().gap + above});
        }
    Run run(word, shape, h);
    run.exact = run.first_volume;
    run.write("first.obj");
    const auto pair_of = [&](const Point &p) { // by the place
        return int(std::floor((p[1] + 3 * h) / (14 * h))) * 3 + int(std::floor((p[0] + 3 * h) / (14 * h)));
    };
    const long steps = long(word("steps", speed > 0 ? 12 : 2));
    for (long s = 1; s <= steps; ++s) {
        const std::vector<int> label = body_labels(run.points.size(), run.mesh.faces);
        std::map<int, double> lowest; // of each body: an upper slab is one that reaches no lower than the top of its lower one
        for (std::size_t i = 0; i < run.points.size(); ++i) {
            double &low = lowest.try_emplace(label[i], 1e99).first->second;
            low = std::min(low, run.points[i][2]);
        }
        std::vector<Point> to = run.points;
        for (std::size_t i = 0; i < to.size(); ++i)
            if (lowest[label[i]] > thick / 2)
                to[i][2] -= speed;
        run.advance(to, double(s));
    }
    long between = 0; // faces where the two slabs of a pair have become one, farther than h from its sides
    std::vector<long> by(pairs.size(), 0);
    for (const Corners &f : run.mesh.faces) {
        const Point p = (1.0 / 3) * (run.points[f[0]] + run.points[f[1]] + run.points[f[2]]);
        const Pair &at = pairs[pair_of(p)];
        const Point q = p - at.low;
        const bool within = q[0] > h + at.shift && q[0] < side - h && q[1] > h + at.shift && q[1] < side - h;
        if (within && q[2] > 2 * h && q[2] < thick + at.gap + 2 * h)
            ++between, ++by[pair_of(p)];
    }
    std::string text = "faces between the slabs of a pair " + std::to_string(between) + ":";
    for (const long b : by)
        text += " " + std::to_string(b);
    run.end((text + "\n").c_str());
} catch (const std::exception &why) {
    std::fprintf(stderr, "%s\n", why.what());
    return 1;
}
