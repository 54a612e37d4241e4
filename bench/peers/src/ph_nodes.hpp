// The nodes of the plain PH-tree, in two forms: by a bitmap of all addresses where it fits in a word, and above that by a sorted list of those that
// are there. The entries of a node stand in the order of their addresses (T. Zäschke, C. Zimmerli, M. C. Norrie, 2014).
#pragma once
#include <cstring>
#include <type_traits>

#include "points.hpp"

// A row with its value, or a node with its common prefix and a link to it.
template <int D> struct Entry {
    Point<D> key;
    u64 word;
};

inline int ones(u64 x) { // without an instruction for it the compiler's own is a call
    x -= x >> 1 & 0x5555555555555555ull;
    x = (x & 0x3333333333333333ull) + (x >> 2 & 0x3333333333333333ull);
    x = (x + (x >> 4)) & 0x0f0f0f0f0f0f0f0full;
    return (int)(x * 0x0101010101010101ull >> 56);
}

struct OnesOfByte {
    u8 of[256];
    constexpr OnesOfByte() : of() {
        for (int byte = 1; byte < 256; byte++) of[byte] = (u8)(of[byte >> 1] + (byte & 1));
    }
};
inline constexpr OnesOfByte ONES{};

// A set of addresses of at most six bits, as a bitmap.
template <int D> class AddressSet {
    using Word = std::conditional_t<(D <= 3), u8, std::conditional_t<D == 4, u16, std::conditional_t<D == 5, u32, u64>>>;
    Word word_ = 0;

  public:
    bool has(u32 address) const { return word_ >> address & 1; }
    void add(u32 address) { word_ |= (Word)((Word)1 << address); }
    void drop(u32 address) { word_ &= (Word)~((Word)1 << address); }
    u32 below(u32 address) const { // how many of its addresses are
        u64 less = word_ & (((u64)1 << address) - 1);
        if constexpr (D <= 3) return ONES.of[less];
        else return (u32)ones(less);
    }
    template <class OnAddress> void each(OnAddress on_address) const {
        for (u64 left = word_; left; left &= left - 1) on_address((u32)__builtin_ctzll(left));
    }
};

template <int D> class BitmapNode {
    AddressSet<D> there_, nodes_;
    u16 count_ = 0;
    u8 size_ = 0;
    static constexpr int ROOMS[] = {2, 3, 4, 6, 8, 12, 16, 24, 32, 48, 64};
    static constexpr int SIZES = 11;
    static size_t bytes(int size) { return start() + sizeof(Entry<D>) * ROOMS[size]; }
    static constexpr size_t start() { return (sizeof(BitmapNode) + 7) / 8 * 8; }

  public:
    Entry<D>* entries() { return (Entry<D>*)((char*)this + start()); }
    const Entry<D>* entries() const { return (const Entry<D>*)((const char*)this + start()); }
    u32 count() const { return count_; }
    // Whether an address is there, and at which place it stands or would.
    bool find(u32 address, u32& place) const {
        place = there_.below(address);
        return there_.has(address);
    }
    bool is_node(u32 address, u32) const { return nodes_.has(address); }
    void set_node(u32 address, u32, bool yes) {
        if (yes) nodes_.add(address);
        else nodes_.drop(address);
    }
    template <class OnEntry> void each(OnEntry on_entry) const {
        const Entry<D>* entry = entries();
        there_.each([&](u32 address) { on_entry(address, *entry++, nodes_.has(address)); });
    }
    // The entries whose addresses have all bits of one and no bit outside of the other.
    template <class OnEntry> void each_between(u32 all_of, u32 none_but, OnEntry on_entry) const {
        if (D < 6 || count_ <= 24) {
            return each([&](u32 address, const Entry<D>& entry, bool is_node) {
                if ((address & all_of) == all_of && (address & none_but) == address) on_entry(entry, is_node);
            });
        }
        for (u32 address = all_of;; address = (((address | ~none_but) + 1) & none_but) | all_of) {
            if (there_.has(address)) on_entry(entries()[there_.below(address)], nodes_.has(address));
            if (address >= none_but) return;
        }
    }

    // Blocks by their size, cut from slabs, with a list of the free ones of each.
    class Store {
        void* free_[SIZES] = {};
        std::vector<char*> slabs_;
        char* at_ = nullptr;
        size_t left_ = 0;
        static constexpr size_t SLAB = 1 << 18;

        BitmapNode* take(int size) {
            void* block = free_[size];
            if (block) {
                std::memcpy(&free_[size], block, sizeof(void*));
            } else {
                if (left_ < bytes(size)) {
                    left_ = std::max(bytes(size), SLAB);
                    at_ = (char*)std::malloc(left_);
                    if (!at_) give_up("no memory");
                    slabs_.push_back(at_);
                }
                block = at_;
                at_ += bytes(size);
                left_ -= bytes(size);
            }
            BitmapNode* node = new (block) BitmapNode;
            node->size_ = (u8)size;
            return node;
        }
        BitmapNode* resize(BitmapNode* node, int size) {
            BitmapNode* to = take(size);
            to->there_ = node->there_;
            to->nodes_ = node->nodes_;
            to->count_ = node->count_;
            std::memcpy((void*)to->entries(), node->entries(), sizeof(Entry<D>) * node->count_);
            give(node);
            return to;
        }

      public:
        BitmapNode* make() { return take(0); }
        void give(BitmapNode* node) {
            int size = node->size_;
            std::memcpy((void*)node, &free_[size], sizeof(void*));
            free_[size] = node;
        }
        void clear() {
            for (char* slab : slabs_) std::free(slab);
            slabs_.clear();
            std::fill(std::begin(free_), std::end(free_), nullptr);
            at_ = nullptr;
            left_ = 0;
        }
        BitmapNode* insert(BitmapNode* node, u32 address, u32 place, const Entry<D>& entry, bool is_node) {
            if (node->count_ == ROOMS[node->size_]) node = resize(node, node->size_ + 1);
            Entry<D>* entries = node->entries();
            std::memmove((void*)(entries + place + 1), entries + place, sizeof(Entry<D>) * (node->count_ - place));
            entries[place] = entry;
            node->there_.add(address);
            if (is_node) node->nodes_.add(address);
            node->count_++;
            return node;
        }
        BitmapNode* erase(BitmapNode* node, u32 address, u32 place) {
            Entry<D>* entries = node->entries();
            node->there_.drop(address);
            node->nodes_.drop(address);
            node->count_--;
            std::memmove((void*)(entries + place), entries + place + 1, sizeof(Entry<D>) * (node->count_ - place));
            bool is_roomy = node->size_ >= 2 && node->count_ <= ROOMS[node->size_ - 2];
            return is_roomy ? resize(node, node->size_ - 1) : node;
        }
    };
};

template <int D> class SortedNode {
    u32 count_ = 0, room_ = 0;
    static constexpr size_t OF_ENTRY = sizeof(Entry<D>) + sizeof(u16) + sizeof(u8);

  public:
    Entry<D>* entries() { return (Entry<D>*)(this + 1); }
    const Entry<D>* entries() const { return (const Entry<D>*)(this + 1); }
    u16* addresses() { return (u16*)(entries() + room_); }
    const u16* addresses() const { return (const u16*)(entries() + room_); }
    u8* nodes() { return (u8*)(addresses() + room_); }
    const u8* nodes() const { return (const u8*)(addresses() + room_); }
    u32 count() const { return count_; }
    bool find(u32 address, u32& place) const {
        const u16* end = addresses() + count_;
        const u16* at = std::lower_bound(addresses(), end, (u16)address);
        place = (u32)(at - addresses());
        return at < end && *at == address;
    }
    bool is_node(u32, u32 place) const { return nodes()[place]; }
    void set_node(u32, u32 place, bool yes) { nodes()[place] = yes; }
    template <class OnEntry> void each(OnEntry on_entry) const {
        for (u32 i = 0; i < count_; i++) on_entry((u32)addresses()[i], entries()[i], (bool)nodes()[i]);
    }
    template <class OnEntry> void each_between(u32 all_of, u32 none_but, OnEntry on_entry) const {
        each([&](u32 address, const Entry<D>& entry, bool is_node) {
            if ((address & all_of) == all_of && (address & none_but) == address) on_entry(entry, is_node);
        });
    }

    class Store {
        static SortedNode* take(u32 room) {
            void* block = std::malloc(sizeof(SortedNode) + room * OF_ENTRY);
            if (!block) give_up("no memory");
            SortedNode* node = new (block) SortedNode;
            node->room_ = room;
            return node;
        }
        static SortedNode* resize(SortedNode* node, u32 room) {
            SortedNode* to = take(room);
            u32 count = to->count_ = node->count_;
            std::memcpy((void*)to->entries(), node->entries(), count * sizeof(Entry<D>));
            std::memcpy(to->addresses(), node->addresses(), count * sizeof(u16));
            std::memcpy(to->nodes(), node->nodes(), count);
            std::free(node);
            return to;
        }
        static void shift(SortedNode* node, u32 to, u32 from, u32 count) {
            std::memmove((void*)(node->entries() + to), node->entries() + from, count * sizeof(Entry<D>));
            std::memmove(node->addresses() + to, node->addresses() + from, count * sizeof(u16));
            std::memmove(node->nodes() + to, node->nodes() + from, count);
        }

      public:
        SortedNode* make() { return take(2); }
        void give(SortedNode* node) { std::free(node); }
        void clear() {}
        SortedNode* insert(SortedNode* node, u32 address, u32 place, const Entry<D>& entry, bool is_node) {
            if (node->count_ == node->room_) node = resize(node, node->room_ < 4 ? node->room_ + 1 : node->room_ + node->room_ / 4);
            shift(node, place + 1, place, node->count_ - place);
            node->entries()[place] = entry;
            node->addresses()[place] = (u16)address;
            node->nodes()[place] = is_node;
            node->count_++;
            return node;
        }
        SortedNode* erase(SortedNode* node, u32, u32 place) {
            node->count_--;
            shift(node, place, place + 1, node->count_ - place);
            return node->room_ > 4 && node->count_ <= node->room_ / 2 ? resize(node, node->room_ * 3 / 4) : node;
        }
    };
};

template <int D> using NodeOf = std::conditional_t<(D <= 6), BitmapNode<D>, SortedNode<D>>;
