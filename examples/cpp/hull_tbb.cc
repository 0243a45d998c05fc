// The corners of the least convex region round points that four threads look through: each keeps what may be one of them.
#include <algorithm>
#include <cstdint>
#include <cstdio>
#include <oneapi/tbb/concurrent_vector.h>
#include <thread>
#include <vector>

struct point {
    std::int64_t x, y;
};

using points_of = tbb::concurrent_vector<point>;

static point random_point(std::uint64_t seed) {
    seed = (seed + 1) * 0x9e3779b97f4a7c15;
    seed = (seed ^ seed >> 31) * 0xbf58476d1ce4e5b9;
    return {static_cast<std::int64_t>(seed >> 44), static_cast<std::int64_t>(seed >> 12 & 0xfffff)};
}

// How far a point stands to the left of the way from one to the other.
static std::int64_t left_of(const point &from, const point &to, const point &one) {
    return (to.x - from.x) * (one.y - from.y) - (to.y - from.y) * (one.x - from.x);
}

// The corners from one to the other, of those to the left of the way there.
static void walk(const points_of &points, const point &from, const point &to, points_of &corners) {
    points_of left;
    for (const point &one : points)
        if (left_of(from, to, one) > 0) left.push_back(one);
    if (left.empty()) {
        corners.push_back(to);
        return;
    }
    const auto further = [&](const point &a, const point &b) { return left_of(from, to, a) < left_of(from, to, b); };
    const point corner = *std::max_element(left.begin(), left.end(), further);
    walk(left, from, corner, corners);
    walk(left, corner, to, corners);
}

int main() {
    points_of points, corners;
    std::vector<std::thread> threads;
    for (std::uint64_t k = 0; k < 4; ++k)
        threads.emplace_back([&points, k] {
            for (std::uint64_t number = k; number < 20000; number += 4) points.push_back(random_point(number));
        });
    for (std::thread &thread : threads) thread.join();
    const auto before = [](const point &a, const point &b) { return a.x != b.x ? a.x < b.x : a.y < b.y; };
    const point first = *std::min_element(points.begin(), points.end(), before);
    const point last = *std::max_element(points.begin(), points.end(), before);
    walk(points, first, last, corners);
    walk(points, last, first, corners);
    std::int64_t area = 0;
    for (std::size_t k = 1; k < corners.size(); ++k)
        area += corners[k - 1].y * corners[k].x - corners[k - 1].x * corners[k].y;
    area += corners.back().y * corners.front().x - corners.back().x * corners.front().y;
    std::printf("%zu corners, twice the area is %lld\n", corners.size(), static_cast<long long>(area));
}
