// The plain PH-tree as a program: the same structure as that of phq, written without packing and without proofs.
#include "ph_tree.hpp"

#include "slot.hpp"

std::unique_ptr<Slot> open_slot(u32 dims, u64 most_rows) { return open_slot_of_some<PhTree>(dims, most_rows); }
