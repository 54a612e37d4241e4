// No index at all: lines are read and answered as if the table were empty.
// What it takes is what the text of a script and of short replies costs the peers.
#include "slot.hpp"

template <int D> class NoIndex {
  public:
    u64 count() { return 0; }
    void clear() {}
    bool get(const Point<D>&, u64&) { return false; }
    bool put(const Point<D>&, u64, u64&) { return true; }
    bool del(const Point<D>&, u64&) { return false; }
    void window(const Point<D>&, const Point<D>&, std::vector<Row<D>>& rows) { rows.clear(); }
    void within(const Point<D>&, u128, std::vector<Hit<D>>& hits) { hits.clear(); }
    void near(const Point<D>&, u64, std::vector<Hit<D>>& hits) { hits.clear(); }
};

std::unique_ptr<Slot> open_slot(u32 dims, u64 most_rows) { return open_slot_of_some<NoIndex>(dims, most_rows); }
