// An index over any store that is sorted by Morton codes (as the UB-tree is: R. Bayer, 1997).
// A window is read in Z-order; where a row is outside of it, the read goes on at the next code that is inside (H. Tropf, H. Herzog, 1981).
#pragma once
#include "morton.hpp"

template <int D, class Store> class ZOrderIndex {
    static constexpr int STEPS = 4; // how many rows are passed before the next code is looked up
    Store store_;

    template <class Spot> void go_to(Spot& spot, const Code<D>& code) {
        for (int i = 0; i < STEPS; i++) {
            if (spot.is_end() || !(spot.key() < code)) return;
            spot.go_on();
        }
        if (!spot.is_end() && spot.key() < code) spot = store_.from(code);
    }
    template <class OnRow> void each_inside(const Point<D>& low, const Point<D>& high, OnRow on_row) {
        if (is_reversed<D>(low, high)) return;
        const Code<D> last = code_of<D>(high);
        auto spot = store_.from(code_of<D>(low));
        while (!spot.is_end() && !(last < spot.key())) {
            const Row<D>& row = spot.value();
            if (is_inside<D>(row.point, low, high)) {
                on_row(row);
                spot.go_on();
                continue;
            }
            Point<D> next;
            if (!next_inside<D>(row.point, low, high, next)) return;
            spot.go_on();
            go_to(spot, code_of<D>(next));
        }
    }
    // A side that is sure to have the nearest so many rows, from the distances of the neighbours in Z-order.
    u32 sure_side(const Point<D>& middle, u64 wanted, std::vector<Hit<D>>& hits) {
        Nearest<D> nearest(hits, wanted);
        store_.around(code_of<D>(middle), wanted,
                      [&](const Row<D>& row) { nearest.offer({distance_between<D>(row.point, middle), row.point, row.value}); });
        if (!nearest.is_full()) return LAST;
        u32 side = side_of(nearest.farthest());
        return (u128)side * side < nearest.farthest() && side != LAST ? side + 1 : side;
    }

  public:
    u64 count() { return store_.size(); }
    void clear() { store_.clear(); }
    bool get(const Point<D>& p, u64& value) {
        Row<D>* row = store_.find(code_of<D>(p));
        if (row) value = row->value;
        return row;
    }
    bool put(const Point<D>& p, u64 value, u64& old) {
        Row<D>* row = store_.insert(code_of<D>(p), Row<D>{p, value});
        if (!row) return true;
        old = row->value;
        row->value = value;
        return false;
    }
    bool del(const Point<D>& p, u64& value) {
        Row<D> was;
        if (!store_.erase(code_of<D>(p), was)) return false;
        value = was.value;
        return true;
    }
    void window(const Point<D>& low, const Point<D>& high, std::vector<Row<D>>& rows) {
        rows.clear();
        each_inside(low, high, [&](const Row<D>& row) { rows.push_back(row); });
    }
    void within(const Point<D>& middle, u128 radius, std::vector<Hit<D>>& hits) {
        hits.clear();
        Point<D> low, high;
        corners_about<D>(middle, side_of(radius), low, high);
        each_inside(low, high, [&](const Row<D>& row) {
            u128 distance = distance_between<D>(row.point, middle);
            if (distance <= radius) hits.push_back({distance, row.point, row.value});
        });
    }
    // Windows that grow, up to the one that is sure to have them all.
    void near(const Point<D>& middle, u64 wanted, std::vector<Hit<D>>& hits) {
        hits.clear();
        if (wanted == 0 || store_.size() == 0) return;
        u32 most = sure_side(middle, wanted, hits);
        for (u32 side = most / 8 + 1;; side = side > LAST / 2 ? LAST : side * 2) {
            side = std::min(side, most);
            Point<D> low, high;
            corners_about<D>(middle, side, low, high);
            Nearest<D> nearest(hits, wanted);
            each_inside(low, high, [&](const Row<D>& row) {
                u128 distance = distance_between<D>(row.point, middle);
                if (nearest.may_take(distance)) nearest.offer({distance, row.point, row.value});
            });
            if (side == most || (nearest.is_full() && nearest.farthest() <= (u128)side * side)) return nearest.sort();
        }
    }
};
