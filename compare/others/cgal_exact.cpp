// CGAL with exact tests: of all pairs, with the points where they meet, and of the pairs whose boxes meet.
#include <CGAL/Exact_predicates_inexact_constructions_kernel.h>
#include <CGAL/box_intersection_d.h>
#include <CGAL/intersections.h>

#include "cgal.h"

namespace others {

namespace {

using Kernel = CGAL::Exact_predicates_inexact_constructions_kernel;
using Segment = Kernel::Segment_2;
using Box = CGAL::Box_intersection_d::Box_with_handle_d<double, 2, const Segment*>;

Point plain(const Kernel::Point_2& point) {
    return {point.x(), point.y()};
}

std::vector<Box> boxes(const std::vector<Segment>& segments) {
    std::vector<Box> all;
    all.reserve(segments.size());
    for (const Segment& segment : segments) {
        all.emplace_back(segment.bbox(), &segment);
    }
    return all;
}

}  // namespace

void cgal_exact(const Path& first, const Path& second, Rows& rows) {
    all_pairs<Kernel>(first, second, rows);
}

void cgal_points(const Path& first, const Path& second, Rows& rows) {
    const auto v = segments<Kernel>(first), u = segments<Kernel>(second);
    for (std::size_t i = 0; i < v.size(); ++i) {
        for (std::size_t j = 0; j < u.size(); ++j) {
            const auto met = CGAL::intersection(v[i], u[j]);
            if (!met) {
                continue;
            }
            rows.add(i, j);
            if (const auto* point = boost::get<Kernel::Point_2>(&*met)) {
                rows.points.push_back(plain(*point));
            } else if (const auto* piece = boost::get<Segment>(&*met)) {
                rows.points.push_back(plain(piece->source()));
                rows.points.push_back(plain(piece->target()));
            }
        }
    }
}

void cgal_boxes(const Path& first, const Path& second, Rows& rows) {
    const auto v = segments<Kernel>(first), u = segments<Kernel>(second);
    auto v_boxes = boxes(v), u_boxes = boxes(u);
    CGAL::box_intersection_d(v_boxes.begin(), v_boxes.end(), u_boxes.begin(), u_boxes.end(),
                             [&](const Box& a, const Box& b) {
                                 if (CGAL::do_intersect(*a.handle(), *b.handle())) {
                                     rows.add(a.handle() - v.data(), b.handle() - u.data());
                                 }
                             });
}

}  // namespace others
