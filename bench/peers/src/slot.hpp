// A slot of points, whatever index it keeps them by: it answers commands as docs/manual.md says.
// An index has `count`, `clear`, `get`, `put` (true where the row is new), `del`, `window`, `within` and `near`. A window and a ball are listed
// in Z-order, the nearest rows by distance and then in Z-order.
#pragma once
#include <memory>

#include "replies.hpp"
#include "script.hpp"

class Slot {
  public:
    virtual ~Slot() = default;
    virtual bool answer(const Command& command, Replies& replies) = 0; // false: refused
};

// Each program has one of its own, by the index that it tries.
std::unique_ptr<Slot> open_slot(u32 dims, u64 most_rows);

template <int D, class Index> class SlotOf final : public Slot {
    Index index_;
    u64 most_rows_;
    std::vector<Row<D>> rows_;
    std::vector<Hit<D>> hits_;

    static Point<D> point(const u32* coordinates) {
        Point<D> p;
        for (int i = 0; i < D; i++) p[i] = coordinates[i];
        return p;
    }
    bool put(const Point<D>& p, u64 value, Replies& replies) {
        u64 old = 0;
        if (index_.count() >= most_rows_ && !index_.get(p, old)) {
            replies.line("error full");
            return false;
        }
        if (index_.put(p, value, old)) replies.line("new");
        else replies.line("old", old);
        return true;
    }
    void move(const Point<D>& from, const Point<D>& to, Replies& replies) {
        u64 value = 0, other = 0;
        if (from == to) {
            if (index_.get(from, value)) return replies.line("moved");
        } else if (index_.get(to, other)) {
            if (index_.get(from, value)) return replies.line("taken");
        } else if (index_.del(from, value)) {
            index_.put(to, value, other);
            return replies.line("moved");
        }
        replies.line("none");
    }
    void list_rows(Replies& replies) {
        for (const Row<D>& row : rows_) replies.row<D>(row);
        replies.line("end", rows_.size());
    }
    void list_hits(Replies& replies) {
        for (const Hit<D>& hit : hits_) replies.hit<D>(hit);
        replies.line("end", hits_.size());
    }

  public:
    explicit SlotOf(u64 most_rows) : most_rows_(most_rows) {}
    bool answer(const Command& command, Replies& replies) override {
        Point<D> one = point(command.one);
        u64 value = 0;
        switch (command.kind) {
        case Kind::Put: return put(one, (u64)command.number, replies);
        case Kind::Get:
            if (index_.get(one, value)) replies.line("value", value);
            else replies.line("none");
            break;
        case Kind::Del:
            if (index_.del(one, value)) replies.line("gone", value);
            else replies.line("none");
            break;
        case Kind::Move: move(one, point(command.other), replies); break;
        case Kind::Count: replies.line("count", index_.count()); break;
        case Kind::Clear:
            index_.clear();
            replies.line("cleared");
            break;
        case Kind::Window:
            index_.window(one, point(command.other), rows_);
            list_rows(replies);
            break;
        case Kind::Near:
            index_.near(one, (u64)command.number, hits_);
            list_hits(replies);
            break;
        case Kind::Within:
            index_.within(one, command.number, hits_);
            list_hits(replies);
            break;
        default: break;
        }
        return true;
    }
};

// A slot of so many dimensions, of those that are named.
template <template <int> class Index, int D, int... OTHERS> std::unique_ptr<Slot> open_slot_of(u32 dims, u64 most_rows) {
    if (dims == D) return std::make_unique<SlotOf<D, Index<D>>>(most_rows);
    if constexpr (sizeof...(OTHERS) > 0) return open_slot_of<Index, OTHERS...>(dims, most_rows);
    give_up("this program has not so many dimensions");
}

// Some numbers of dimensions from 1 to 16, for the compiler takes long for each.
template <template <int> class Index> std::unique_ptr<Slot> open_slot_of_some(u32 dims, u64 most_rows) {
    return open_slot_of<Index, 1, 2, 3, 4, 6, 8, 12, 16>(dims, most_rows);
}
