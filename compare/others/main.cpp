// Nanoseconds of processor time a pair for other programs' listings and ours: `others FOLDER`, with the files that `compare bench layouts`
// writes. Layouts with arcs are passed over.
#include <time.h>

#include <algorithm>
#include <cstdio>
#include <cstdlib>
#include <filesystem>
#include <fstream>
#include <iterator>
#include <limits>
#include <optional>
#include <string>
#include <system_error>

#include "others.h"

namespace others {

namespace {

namespace fs = std::filesystem;

struct Named {
    const char* name;
    Way way;
};

// The exact test is the judge of the others.
constexpr std::size_t JUDGE = 1;
constexpr Named WAYS[] = {
    {"CGAL do_intersect on all pairs, plain doubles", cgal_plain},
    {"CGAL do_intersect on all pairs, exact tests", cgal_exact},
    {"CGAL intersection on all pairs, exact tests", cgal_points},
    {"CGAL box_intersection_d, do_intersect, exact tests", cgal_boxes},
    {"GEOS LineIntersector on all pairs", geos_pairs},
    {"GEOS LineIntersector, index of one path", geos_index},
    {"GEOS LineIntersector, noder of both paths", geos_noder},
    {"ours, full listing", ours_full},
    {"ours, boxed listing", ours_boxed},
};
constexpr std::size_t COUNT = std::size(WAYS);

// Rounds as in `compare bench`: at least so many, and more while there is time; in a round, at least so many pairs.
constexpr int ROUNDS = 5;
constexpr double SPENT = 250e6 * COUNT;
constexpr std::size_t A_ROUND = 1 << 17;

// Nanoseconds of this thread.
double now() {
    timespec time;
    clock_gettime(CLOCK_THREAD_CPUTIME_ID, &time);
    return 1e9 * static_cast<double>(time.tv_sec) + static_cast<double>(time.tv_nsec);
}

// None if the path has an arc.
std::optional<Path> read(const fs::path& file) {
    std::ifstream text(file);
    Path path;
    double bulge;
    for (Point at; text >> at.x >> at.y >> bulge; path.push_back(at)) {
        if (bulge != 0) {
            return std::nullopt;
        }
    }
    if (!text.eof() || path.size() < 2) {
        std::fprintf(stderr, "%s: no path\n", file.c_str());
        std::exit(EXIT_FAILURE);
    }
    return path;
}

std::vector<Pair> sorted(Rows& rows) {
    std::sort(rows.pairs.begin(), rows.pairs.end());
    return rows.pairs;
}

// How many pairs are in one of the lists only.
std::size_t difference(const std::vector<Pair>& a, const std::vector<Pair>& b) {
    std::vector<Pair> only;
    std::set_symmetric_difference(a.begin(), a.end(), b.begin(), b.end(), std::back_inserter(only));
    return only.size();
}

void print(const std::string& name, const Path& first, const Path& second) {
    const std::size_t pairs = (first.size() - 1) * (second.size() - 1);
    const std::size_t times = std::max<std::size_t>(A_ROUND / pairs, 1);
    Rows rows[COUNT];
    double least[COUNT];
    std::fill(least, least + COUNT, std::numeric_limits<double>::infinity());
    const double start = now();
    for (int round = 0; round < ROUNDS || now() - start < SPENT; ++round) {
        for (std::size_t way = 0; way < COUNT; ++way) {
            const double begin = now();
            for (std::size_t time = 0; time < times; ++time) {
                rows[way].clear();
                WAYS[way].way(first, second, rows[way]);
            }
            least[way] = std::min(least[way], (now() - begin) / static_cast<double>(times));
        }
    }
    std::printf("%-62s %9s %8s %8s %8s\n", name.c_str(), "on", "meet", "differ", "ns");
    const std::vector<Pair> judged = sorted(rows[JUDGE]);
    for (std::size_t way = 0; way < COUNT; ++way) {
        const std::size_t other = difference(sorted(rows[way]), judged);
        std::printf("%-62s %9zu %8zu %8zu %8.2f\n", WAYS[way].name, pairs, rows[way].pairs.size(), other,
                    least[way] / static_cast<double>(pairs));
    }
}

}  // namespace

}  // namespace others

int main(int count, char** words) {
    using namespace others;
    if (count != 2) {
        std::fprintf(stderr, "usage: others FOLDER\n");
        return EXIT_FAILURE;
    }
    std::vector<fs::path> files;
    std::error_code failed;
    for (const auto& entry : fs::directory_iterator(words[1], failed)) {
        if (entry.path().extension() == ".first") {
            files.push_back(entry.path());
        }
    }
    std::sort(files.begin(), files.end());
    std::size_t layouts = 0;
    for (fs::path file : files) {
        const auto first = read(file), second = read(file.replace_extension(".second"));
        if (first && second) {
            print(file.stem(), *first, *second);
            ++layouts;
        }
    }
    if (layouts == 0) {
        std::fprintf(stderr, "%s: no layout of lines\n", words[1]);
        return EXIT_FAILURE;
    }
    return EXIT_SUCCESS;
}
