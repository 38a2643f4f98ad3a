// What both kernels of CGAL do alike.
#pragma once

#include <vector>

#include "others.h"

namespace others {

template <class Kernel>
std::vector<typename Kernel::Segment_2> segments(const Path& path) {
    std::vector<typename Kernel::Segment_2> all;
    all.reserve(path.size());
    for (std::size_t i = 0; i + 1 < path.size(); ++i) {
        const Point &from = path[i], &to = path[i + 1];
        all.emplace_back(typename Kernel::Point_2(from.x, from.y), typename Kernel::Point_2(to.x, to.y));
    }
    return all;
}

// Asks of each pair, in order, whether it meets.
template <class Kernel>
void all_pairs(const Path& first, const Path& second, Rows& rows) {
    const auto v = segments<Kernel>(first), u = segments<Kernel>(second);
    for (std::size_t i = 0; i < v.size(); ++i) {
        for (std::size_t j = 0; j < u.size(); ++j) {
            if (CGAL::do_intersect(v[i], u[j])) {
                rows.add(i, j);
            }
        }
    }
}

}  // namespace others
