#include "lists.h"

#include <cmath>
#include <utility>

namespace {

constexpr size_t lists_a_row = 50;
constexpr int32_t radius = 30000;

class Random {
public:
    explicit Random(uint64_t seed) : state(seed) {}

    // splitmix64
    uint64_t next() {
        uint64_t z = state += 0x9e3779b97f4a7c15;
        z = (z ^ (z >> 30)) * 0xbf58476d1ce4e5b9;
        z = (z ^ (z >> 27)) * 0x94d049bb133111eb;
        return z ^ (z >> 31);
    }

    int32_t between(int32_t low, int32_t high) { return low + int32_t(next() % uint64_t(high - low + 1)); }

private:
    uint64_t state;
};

struct Touch {
    int32_t x, y, z;
};

double size(const Touch &t) {
    return std::sqrt(double(t.x) * t.x + double(t.y) * t.y + double(t.z) * t.z);
}

Touch in_ball(Random &random) {
    for (;;) {
        const Touch t{random.between(-radius, radius), random.between(-radius, radius), random.between(-radius, radius)};
        if (size(t) <= radius) return t;
    }
}

Touch on_sphere(Random &random) {
    for (;;) {
        const Touch t = in_ball(random);
        const double s = size(t);
        // A short one has too few directions.
        if (s < radius / 2) continue;
        return {int32_t(std::lround(t.x / s * radius)), int32_t(std::lround(t.y / s * radius)), int32_t(std::lround(t.z / s * radius))};
    }
}

List flat_numbers(const std::vector<Touch> &touches) {
    List list;
    for (const Touch &t : touches) list.insert(list.end(), {t.x, t.y, t.z});
    return list;
}

Row random_row(std::string key, std::string name, size_t touches, Touch (*make)(Random &), uint64_t seed) {
    Row row{std::move(key), std::move(name), touches, {}};
    Random random(seed);
    for (size_t i = 0; i < lists_a_row; i++) {
        std::vector<Touch> list;
        while (list.size() < touches) list.push_back(make(random));
        row.lists.push_back(flat_numbers(list));
    }
    return row;
}

// The lattice of side³ places, in another order for each list.
Row lattice_row(std::string key, std::string name, int32_t side, uint64_t seed) {
    Row row{std::move(key), std::move(name), size_t(side) * side * side, {}};
    Random random(seed);
    const int32_t gap = 2 * 15000 / (side - 1);
    for (size_t i = 0; i < lists_a_row; i++) {
        std::vector<Touch> list;
        for (int32_t x = 0; x < side; x++)
            for (int32_t y = 0; y < side; y++)
                for (int32_t z = 0; z < side; z++) list.push_back({x * gap - 15000, y * gap - 15000, z * gap - 15000});
        for (size_t j = list.size() - 1; j > 0; j--) std::swap(list[j], list[size_t(random.between(0, int32_t(j)))]);
        row.lists.push_back(flat_numbers(list));
    }
    return row;
}

Row sphere_row(size_t touches) {
    const std::string n = std::to_string(touches);
    return random_row("sphere" + n, n + " on a sphere", touches, on_sphere, 1000 + touches);
}

} // namespace

std::vector<Row> rows() {
    return {random_row("ball64", "64 in a ball", 64, in_ball, 1), sphere_row(64), lattice_row("lattice64", "64 of a cube lattice", 4, 2),
            random_row("ball8", "8 in a ball", 8, in_ball, 3), lattice_row("cube8", "8 cube corners", 2, 4)};
}

std::vector<Row> growth() {
    return {sphere_row(8), sphere_row(16), sphere_row(32), sphere_row(64)};
}
