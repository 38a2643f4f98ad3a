// What each way of listing takes and gives.
#pragma once

#include <cstddef>
#include <cstdint>
#include <utility>
#include <vector>

namespace others {

struct Point {
    double x, y;
};

// Vertices of an open path of lines.
using Path = std::vector<Point>;

// Indices of the segments that meet, one of each path.
using Pair = std::pair<std::uint32_t, std::uint32_t>;

// The pairs that meet. A way that finds out where they meet adds a point for each, or two for a piece in common.
struct Rows {
    std::vector<Pair> pairs;
    std::vector<Point> points;

    void clear() {
        pairs.clear();
        points.clear();
    }

    void add(std::size_t first, std::size_t second) {
        pairs.emplace_back(static_cast<std::uint32_t>(first), static_cast<std::uint32_t>(second));
    }
};

// Lists the pairs of two paths. All that it needs besides the vertices it makes itself, each time.
using Way = void (*)(const Path& first, const Path& second, Rows& rows);

void cgal_plain(const Path& first, const Path& second, Rows& rows);
void cgal_exact(const Path& first, const Path& second, Rows& rows);
void cgal_points(const Path& first, const Path& second, Rows& rows);
void cgal_boxes(const Path& first, const Path& second, Rows& rows);
void geos_pairs(const Path& first, const Path& second, Rows& rows);
void geos_index(const Path& first, const Path& second, Rows& rows);
void geos_noder(const Path& first, const Path& second, Rows& rows);
void ours_full(const Path& first, const Path& second, Rows& rows);
void ours_boxed(const Path& first, const Path& second, Rows& rows);

}  // namespace others
