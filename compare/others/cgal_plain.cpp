// CGAL's test of two segments in plain doubles, on all pairs.
#include <CGAL/Simple_cartesian.h>

#include "cgal.h"

namespace others {

void cgal_plain(const Path& first, const Path& second, Rows& rows) {
    all_pairs<CGAL::Simple_cartesian<double>>(first, second, rows);
}

}  // namespace others
