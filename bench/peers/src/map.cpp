#include "map_store.hpp"
#include "slot.hpp"

std::unique_ptr<Slot> open_slot(u32 dims, u64 most_rows) { return open_slot_of_some<MapIndex>(dims, most_rows); }
