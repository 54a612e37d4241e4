// A join of two tables of boxes by a plane sweep: both sorted by their low x and scanned forward (T. Brinkhoff, H.-P. Kriegel, B. Seeger, 1993).
// usage: join_sweep read|join ONE.csv OTHER.csv
#include <string_view>

#include "boxes.hpp"

using Pair = std::pair<u32, u32>; // places in both tables

static std::vector<u32> by_low_x(const std::vector<Box>& boxes) {
    std::vector<u32> places(boxes.size());
    for (u32 i = 0; i < places.size(); i++) places[i] = i;
    std::sort(places.begin(), places.end(), [&](u32 a, u32 b) { return boxes[a].point[0] < boxes[b].point[0]; });
    return places;
}

static std::vector<Box> in_order(const std::vector<Box>& boxes, const std::vector<u32>& places) {
    std::vector<Box> sorted(boxes.size());
    for (size_t i = 0; i < places.size(); i++) sorted[i] = boxes[places[i]];
    return sorted;
}

static bool meet_in_y(const Box& a, const Box& b) { return a.point[1] <= b.point[3] && b.point[1] <= a.point[3]; }

// The boxes of a table, from a place on, that meet a box whose low x comes before theirs.
template <class OnPlace> static void scan(const Box& box, const std::vector<Box>& others, size_t from, OnPlace on_place) {
    for (size_t i = from; i < others.size() && others[i].point[0] <= box.point[2]; i++)
        if (meet_in_y(box, others[i])) on_place(i);
}

static std::vector<Pair> sweep(const std::vector<Box>& one, const std::vector<Box>& other) {
    std::vector<u32> place = by_low_x(one), other_place = by_low_x(other);
    std::vector<Box> a = in_order(one, place), b = in_order(other, other_place);
    std::vector<Pair> pairs;
    size_t i = 0, j = 0;
    while (i < a.size() && j < b.size()) {
        if (a[i].point[0] <= b[j].point[0]) {
            scan(a[i], b, j, [&](size_t k) { pairs.push_back({place[i], other_place[k]}); });
            i++;
        } else {
            scan(b[j], a, i, [&](size_t k) { pairs.push_back({place[k], other_place[j]}); });
            j++;
        }
    }
    std::sort(pairs.begin(), pairs.end()); // they come by x, and are told by the places of the first table
    return pairs;
}

int main(int count, char** words) {
    std::string_view task = count == 4 ? words[1] : "";
    if (task != "read" && task != "join") {
        std::fprintf(stderr, "usage: %s read|join ONE.csv OTHER.csv\n", words[0]);
        return 2;
    }
    std::vector<Box> one = read_boxes(words[2]), other = read_boxes(words[3]);
    if (task == "read") _exit(0);
    std::vector<Pair> pairs = sweep(one, other);
    Pairs told;
    std::vector<const Box*> partners;
    size_t at = 0;
    for (u32 i = 0; i < one.size(); i++) {
        partners.clear();
        while (at < pairs.size() && pairs[at].first == i) partners.push_back(&other[pairs[at++].second]);
        told.add(one[i], partners);
    }
    told.end();
    _exit(0);
}
