// A ball in a field without sources, the curl of a sum of waves (after Bridson, Hourihan and Nordenstam 2007): it is stretched and folded
// ever thinner.
#include "flow.hpp"

#include <random>

static const double pi = 3.14159265358979323846;

struct Waves {
    struct Wave { Point across, along; double phase; }; // the wave's vector, the direction of its potential
    std::vector<Wave> waves;
    Waves(unsigned seed, int count, double low, double high)
    {
        std::mt19937 random(seed);
        // uniform numbers made from whole ones, so that they are the same everywhere
        const auto part = [&] { return random() / 4294967296.0; };
        const auto direction = [&] {
            const double z = 2 * part() - 1, a = 2 * pi * part(), s = std::sqrt(1 - z * z);
            return Point{s * std::cos(a), s * std::sin(a), z};
        };
        for (int i = 0; i < count; ++i) {
            const double size = low + (high - low) * part();
            const Point k = size * direction(), a = direction();
            waves.push_back({k, a, 2 * pi * part()});
        }
    }
    Point operator()(const Point &p, double t) const
    {
        Point v{0, 0, 0};
        for (const Wave &w : waves)
            v = v + (std::cos(dot(w.across, p) + w.phase + 0.5 * t) / norm(w.across)) * cross(w.across, w.along);
        return (1 / std::sqrt(double(waves.size()))) * v;
    }
};

int main(int count, char **words)
try {
    const Words word(count, words);
    const double h = word("h", 0.02);
    Run run(word, ball({0, 0, 0}, word("radius", 0.15), h), h);
    run.exact = run.first_volume;
    run.write("first.obj");
    follow(run, Waves(unsigned(word("seed", 7)), 12, word("low", 5), word("high", 12)), 1e9, 1e9, 0, long(word("steps", 100)));
    run.end();
} catch (const std::exception &why) {
    std::fprintf(stderr, "%s\n", why.what());
    return 1;
}
