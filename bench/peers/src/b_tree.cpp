// A B+-tree of Morton codes, which is what a database without an index of its own for points can offer (R. Bayer, 1997).
// Windows skip what is not inside; the nearest are found by windows that grow.
#include "b_plus_tree.hpp"
#include "slot.hpp"
#include "z_order_index.hpp"

template <int D> class TreeStore {
    using Tree = BPlusTree<Code<D>, Row<D>>;
    Tree tree_;

  public:
    size_t size() const { return tree_.size(); }
    void clear() { tree_.clear(); }
    typename Tree::Spot from(const Code<D>& code) { return tree_.from(code); }
    Row<D>* find(const Code<D>& code) { return tree_.find(code); }
    Row<D>* insert(const Code<D>& code, const Row<D>& row) { return tree_.insert(code, row); }
    bool erase(const Code<D>& code, Row<D>& was) { return tree_.erase(code, was); }
    // Up to so many rows from a place on, and as many before it.
    template <class OnRow> void around(const Code<D>& code, u64 count, OnRow on_row) {
        auto on = tree_.from(code), back = on;
        if (on.is_end()) {
            back = tree_.last();
            if (!back.is_end()) on_row(back.value());
        }
        for (u64 i = 0; i < count && !on.is_end(); i++, on.go_on()) on_row(on.value());
        for (u64 i = 0; i < count && !back.is_end(); i++) {
            back.go_back();
            if (!back.is_end()) on_row(back.value());
        }
    }
};

template <int D> using TreeIndex = ZOrderIndex<D, TreeStore<D>>;

std::unique_ptr<Slot> open_slot(u32 dims, u64 most_rows) { return open_slot_of_some<TreeIndex>(dims, most_rows); }
