// Our own listings in the same driver: the full one, and the boxed one. Memory for rows is grown when a call says that they do not
// fit, and kept for the next round, as the others keep their lists.
#include <cstdio>
#include <cstdlib>

#include "../../include/vonjekona.h"
#include "others.h"

namespace others {

namespace {

constexpr double EPSILON = 1e-5;
constexpr std::size_t NUMBERS = 4, INDICES = 3, POINTS = 4, FIRST_ROWS = 4096;

// x, y, bulge and trace of each vertex.
std::vector<double> numbers(const Path& path) {
    std::vector<double> all;
    all.reserve(path.size() * NUMBERS);
    for (const Point& point : path) {
        all.insert(all.end(), {point.x, point.y, 0.0, 0.0});
    }
    return all;
}

// What is lent to a call: whole numbers and points of rows, the index of boxes, and the counts.
struct Lent {
    std::vector<std::uint64_t> indices = std::vector<std::uint64_t>(FIRST_ROWS * INDICES);
    std::vector<double> points = std::vector<double>(FIRST_ROWS * POINTS);
    std::vector<double> boxes;
    std::uint64_t counts[2] = {0, 0};

    void grow() {
        indices.resize(indices.size() * 2);
        points.resize(points.size() * 2);
    }
};

// Asks until the rows fit, and adds them.
template <class Call>
void listed(Lent& lent, Call call, Rows& rows) {
    std::uint64_t answer = call(lent);
    while (VJ_IS_REFUSED(answer) && VJ_NUMBER(answer) == 8) {
        lent.grow();
        answer = call(lent);
    }
    if (answer != 0) {
        std::fprintf(stderr, "ours: refused, %llx\n", static_cast<unsigned long long>(answer));
        std::exit(EXIT_FAILURE);
    }
    for (std::size_t row = 0; row < lent.counts[0]; ++row) {
        const std::uint64_t* index = &lent.indices[row * INDICES];
        const double* point = &lent.points[row * POINTS];
        rows.add(index[0], index[1]);
        rows.points.push_back({point[0], point[1]});
    }
}

}  // namespace

void ours_full(const Path& first, const Path& second, Rows& rows) {
    static Lent lent;
    const auto v = numbers(first), u = numbers(second);
    listed(
        lent,
        [&](Lent& to) {
            return vj_mutual(v.data(), v.size(), false, u.data(), u.size(), false, EPSILON, to.indices.data(),
                             to.indices.size(), to.points.data(), to.points.size(), to.counts, 2);
        },
        rows);
}

void ours_boxed(const Path& first, const Path& second, Rows& rows) {
    static Lent lent;
    const auto v = numbers(first), u = numbers(second);
    lent.boxes.resize(VJ_BOXES_NEEDED(first.size() - 1) + VJ_BOXES_NEEDED(second.size() - 1));
    listed(
        lent,
        [&](Lent& to) {
            return vj_mutual_boxed(v.data(), v.size(), false, u.data(), u.size(), false, EPSILON, to.boxes.data(),
                                   to.boxes.size(), to.indices.data(), to.indices.size(), to.points.data(),
                                   to.points.size(), to.counts, 2);
        },
        rows);
}

}  // namespace others
