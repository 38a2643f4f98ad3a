// GEOS's intersector of two segments: on all pairs, and on those that its indices find.
#include <geos/algorithm/LineIntersector.h>
#include <geos/geom/Coordinate.h>
#include <geos/geom/CoordinateArraySequence.h>
#include <geos/noding/BasicSegmentString.h>
#include <geos/noding/MCIndexNoder.h>
#include <geos/noding/MCIndexSegmentSetMutualIntersector.h>
#include <geos/noding/SegmentIntersector.h>

#include "others.h"

namespace others {

namespace {

using geos::algorithm::LineIntersector;
using geos::geom::Coordinate;
using geos::noding::SegmentString;

std::vector<Coordinate> coordinates(const Path& path) {
    std::vector<Coordinate> all;
    all.reserve(path.size());
    for (const Point& point : path) {
        all.emplace_back(point.x, point.y);
    }
    return all;
}

void add(const LineIntersector& met, std::size_t first, std::size_t second, Rows& rows) {
    rows.add(first, second);
    for (std::size_t k = 0; k < met.getIntersectionNum(); ++k) {
        const Coordinate& point = met.getIntersection(k);
        rows.points.push_back({point.x, point.y});
    }
}

// A path as the indices take it.
struct String {
    explicit String(const Path& path) : points(coordinates(path)), string(&points, nullptr) {}

    geos::geom::CoordinateArraySequence points;
    geos::noding::BasicSegmentString string;
};

// Looks at the pairs that an index finds, and lists those of both paths, the first path's segment first.
class Lister : public geos::noding::SegmentIntersector {
public:
    Lister(const SegmentString* first_path, Rows& all) : first(first_path), rows(all) {}

    void processIntersections(SegmentString* e0, std::size_t i0, SegmentString* e1, std::size_t i1) override {
        if (e0 == e1 && i0 == i1) {
            return;
        }
        met.computeIntersection(e0->getCoordinate(i0), e0->getCoordinate(i0 + 1), e1->getCoordinate(i1),
                                e1->getCoordinate(i1 + 1));
        if (met.hasIntersection() && e0 != e1) {
            e0 == first ? add(met, i0, i1, rows) : add(met, i1, i0, rows);
        }
    }

private:
    const SegmentString* first;
    Rows& rows;
    LineIntersector met;
};

}  // namespace

void geos_pairs(const Path& first, const Path& second, Rows& rows) {
    const auto v = coordinates(first), u = coordinates(second);
    LineIntersector met;
    for (std::size_t i = 0; i + 1 < v.size(); ++i) {
        for (std::size_t j = 0; j + 1 < u.size(); ++j) {
            met.computeIntersection(v[i], v[i + 1], u[j], u[j + 1]);
            if (met.hasIntersection()) {
                add(met, i, j, rows);
            }
        }
    }
}

void geos_index(const Path& first, const Path& second, Rows& rows) {
    String v(first), u(second);
    Lister lister(&v.string, rows);
    SegmentString::ConstVect base{&v.string}, other{&u.string};
    geos::noding::MCIndexSegmentSetMutualIntersector index;
    index.setSegmentIntersector(&lister);
    index.setBaseSegments(&base);
    index.process(&other);
}

void geos_noder(const Path& first, const Path& second, Rows& rows) {
    String v(first), u(second);
    Lister lister(&v.string, rows);
    std::vector<SegmentString*> both{&v.string, &u.string};
    geos::noding::MCIndexNoder noder(&lister);
    noder.computeNodes(&both);
}

}  // namespace others
