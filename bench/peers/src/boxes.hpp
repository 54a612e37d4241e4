// Boxes of two dimensions, as rows of four coordinates, and the pairs of a join, written as phq writes them: the boxes of the first table in
// Z-order and with each one those of the second, in Z-order.
#pragma once
#include "replies.hpp"
#include "rows.hpp"

using Box = Row<4>; // the low corner and then the high one

inline std::vector<Box> read_boxes(const char* path) {
    std::vector<Box> boxes = read_rows<4>(path);
    std::sort(boxes.begin(), boxes.end(), [](const Box& a, const Box& b) { return z_less<4>(a.point, b.point); });
    return boxes;
}

class Pairs {
    Replies replies_;
    u64 count_ = 0;

  public:
    // The partners of one box, in no order.
    void add(const Box& box, std::vector<const Box*>& partners) {
        std::sort(partners.begin(), partners.end(), [](const Box* a, const Box* b) { return z_less<4>(a->point, b->point); });
        for (const Box* partner : partners) replies_.pair<4>(box, *partner);
        count_ += partners.size();
    }
    void end() {
        replies_.line("end", count_);
        replies_.write();
    }
};
