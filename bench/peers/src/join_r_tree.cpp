// A join of two tables of boxes by Boost's R-tree: that of the second table is packed at once, which goes back to S. Leutenegger, M. Lopez and
// J. Edgington, 1997, and asked for the boxes that meet each box of the first.
// usage: join_r_tree read|build|join ONE.csv OTHER.csv
#define BOOST_ALLOW_DEPRECATED_HEADERS // Boost asks for one of its own headers by an old name
#include <boost/geometry.hpp>
#include <boost/geometry/index/rtree.hpp>
#include <iterator>
#include <string_view>

#include "boxes.hpp"

namespace geometry = boost::geometry;
namespace trees = boost::geometry::index;
using Corner = geometry::model::point<double, 2, geometry::cs::cartesian>;
using Bounds = geometry::model::box<Corner>;
using Kept = std::pair<Bounds, u32>; // with the place in the table
using Tree = trees::rtree<Kept, trees::rstar<16>>;

static Bounds bounds_of(const Box& box) {
    return Bounds(Corner(box.point[0], box.point[1]), Corner(box.point[2], box.point[3]));
}

static Tree pack(const std::vector<Box>& boxes) {
    std::vector<Kept> kept;
    for (u32 i = 0; i < boxes.size(); i++) kept.push_back({bounds_of(boxes[i]), i});
    return Tree(kept.begin(), kept.end());
}

int main(int count, char** words) {
    std::string_view task = count == 4 ? words[1] : "";
    if (task != "read" && task != "build" && task != "join") {
        std::fprintf(stderr, "usage: %s read|build|join ONE.csv OTHER.csv\n", words[0]);
        return 2;
    }
    std::vector<Box> one = read_boxes(words[2]), other = read_boxes(words[3]);
    if (task == "read") _exit(0);
    Tree tree = pack(other);
    if (task == "build") _exit(0);
    Pairs told;
    std::vector<Kept> found;
    std::vector<const Box*> partners;
    for (const Box& box : one) {
        found.clear();
        partners.clear();
        tree.query(trees::intersects(bounds_of(box)), std::back_inserter(found));
        for (const Kept& kept : found) partners.push_back(&other[kept.second]);
        told.add(box, partners);
    }
    told.end();
    _exit(0);
}
