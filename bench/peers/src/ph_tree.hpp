// A plain PH-tree (T. Zäschke, C. Zimmerli, M. C. Norrie, 2014): a node splits its part of the space in all dimensions at one place of the bits.
// Each entry keeps its whole point, so nothing is packed. The nearest are found best first (G. R. Hjaltason, H. Samet, 1995).
#pragma once
#include "ph_nodes.hpp"

template <int D> class PhTree {
    using Node = NodeOf<D>;
    // A link is the address of a node, with the place at which it splits in the top byte.
    typename Node::Store store_;
    u64 root_ = 0;
    u64 size_ = 0;
    struct ToDo {
        u128 distance;
        u64 link;
        bool operator<(const ToDo& other) const { return distance > other.distance; }
    };
    std::vector<ToDo> to_do_;

    static Node* node_of(u64 link) { return (Node*)(link & 0x00ffffffffffffffull); }
    static u32 place_of(u64 link) { return (u32)(link >> 56); }
    static u64 link_to(Node* node, u32 place) { return (u64)node | (u64)place << 56; }
    static u32 address_of(const Point<D>& p, u32 place) {
        u32 address = 0;
        for (int i = 0; i < D; i++) address = address << 1 | (p[i] >> place & 1);
        return address;
    }
    static u32 bits_up_to(u32 place) { return place == 31 ? LAST : ((u32)2 << place) - 1; }
    static u32 difference(const Point<D>& p, const Point<D>& q) {
        u32 bits = 0;
        for (int i = 0; i < D; i++) bits |= p[i] ^ q[i];
        return bits;
    }
    // Puts a node between a node and one of its entries, with that entry and a new row.
    void split(Entry<D>& entry, bool is_node, u32 place, const Entry<D>& row) {
        u32 old_address = address_of(entry.key, place), new_address = address_of(row.key, place);
        Node* node = store_.insert(store_.make(), old_address, 0, entry, is_node);
        node = store_.insert(node, new_address, new_address > old_address, row, false);
        for (int i = 0; i < D; i++) entry.key[i] = row.key[i] & ~bits_up_to(place);
        entry.word = link_to(node, place);
    }

    struct Window {
        const Point<D>&low, &high;
        std::vector<Row<D>>& rows;
    };
    static void list_all(u64 link, std::vector<Row<D>>& rows) {
        node_of(link)->each([&](u32, const Entry<D>& entry, bool is_node) {
            if (is_node) list_all(entry.word, rows);
            else rows.push_back({entry.key, entry.word});
        });
    }
    static void look(const Entry<D>& entry, bool is_node, const Window& window) {
        if (!is_node) {
            if (is_inside<D>(entry.key, window.low, window.high)) window.rows.push_back({entry.key, entry.word});
            return;
        }
        u32 free = bits_up_to(place_of(entry.word));
        bool meets = true, lies_in = true;
        for (int i = 0; i < D; i++) {
            u32 least = entry.key[i], most = entry.key[i] | free;
            meets &= (least <= window.high[i]) & (most >= window.low[i]);
            lies_in &= (least >= window.low[i]) & (most <= window.high[i]);
        }
        if (lies_in) list_all(entry.word, window.rows);
        else if (meets) walk(entry.word, entry.key, window);
    }
    static void walk(u64 link, const Point<D>& prefix, const Window& window) {
        u32 all_of = 0, none_but = 0;
        for (int i = 0; i < D; i++) {
            u32 middle = prefix[i] | (u32)1 << place_of(link);
            all_of = all_of << 1 | (window.low[i] >= middle);
            none_but = none_but << 1 | (window.high[i] >= middle);
        }
        node_of(link)->each_between(all_of, none_but, [&](const Entry<D>& entry, bool is_node) { look(entry, is_node, window); });
    }
    static u128 least_distance(const Entry<D>& entry, const Point<D>& middle) {
        u32 free = bits_up_to(place_of(entry.word));
        u128 sum = 0;
        for (int i = 0; i < D; i++) {
            u32 low = entry.key[i], high = entry.key[i] | free;
            u64 x = middle[i] < low ? low - middle[i] : middle[i] > high ? middle[i] - high : 0;
            sum += x * x;
        }
        return sum;
    }
    static void list_ball(u64 link, const Point<D>& middle, u128 radius, std::vector<Hit<D>>& hits) {
        node_of(link)->each([&](u32, const Entry<D>& entry, bool is_node) {
            if (is_node) {
                if (least_distance(entry, middle) <= radius) list_ball(entry.word, middle, radius, hits);
                return;
            }
            u128 distance = distance_between<D>(entry.key, middle);
            if (distance <= radius) hits.push_back({distance, entry.key, entry.word});
        });
    }

  public:
    PhTree() = default;
    PhTree(const PhTree&) = delete;
    u64 count() { return size_; }
    void clear() {
        if (root_) free_all(root_);
        store_.clear();
        root_ = size_ = 0;
    }
    bool get(const Point<D>& p, u64& value) {
        for (u64 link = root_; link;) {
            Node* node = node_of(link);
            u32 address = address_of(p, place_of(link)), at;
            if (!node->find(address, at)) return false;
            const Entry<D>& entry = node->entries()[at];
            if (node->is_node(address, at)) {
                link = entry.word;
                continue;
            }
            value = entry.word;
            return entry.key == p;
        }
        return false;
    }
    bool put(const Point<D>& p, u64 value, u64& old) {
        if (!root_) root_ = link_to(store_.make(), 31);
        for (u64* link = &root_;;) {
            Node* node = node_of(*link);
            u32 place = place_of(*link), address = address_of(p, place), at;
            if (!node->find(address, at)) {
                *link = link_to(store_.insert(node, address, at, Entry<D>{p, value}, false), place);
                size_++;
                return true;
            }
            Entry<D>& entry = node->entries()[at];
            bool is_node = node->is_node(address, at);
            u32 differing = difference(entry.key, p);
            if (is_node) differing &= ~bits_up_to(place_of(entry.word));
            if (differing) {
                split(entry, is_node, 31 - (u32)__builtin_clz(differing), Entry<D>{p, value});
                node->set_node(address, at, true);
                size_++;
                return true;
            }
            if (!is_node) {
                old = entry.word;
                entry.word = value;
                return false;
            }
            link = &entry.word;
        }
    }
    bool del(const Point<D>& p, u64& value) {
        Node* above = nullptr; // the node that has the link, and where
        u32 above_address = 0, above_at = 0;
        for (u64* link = &root_; *link;) {
            Node* node = node_of(*link);
            u32 place = place_of(*link), address = address_of(p, place), at;
            if (!node->find(address, at)) return false;
            Entry<D>& entry = node->entries()[at];
            if (node->is_node(address, at)) {
                above = node, above_address = address, above_at = at;
                link = &entry.word;
                continue;
            }
            if (entry.key != p) return false;
            value = entry.word;
            size_--;
            if (above && node->count() == 2) {
                lift(above, above_address, above_at, node, at);
            } else {
                *link = link_to(store_.erase(node, address, at), place);
            }
            return true;
        }
        return false;
    }
    void window(const Point<D>& low, const Point<D>& high, std::vector<Row<D>>& rows) {
        rows.clear();
        if (root_ && !is_reversed<D>(low, high)) walk(root_, Point<D>{}, Window{low, high, rows});
    }
    void within(const Point<D>& middle, u128 radius, std::vector<Hit<D>>& hits) {
        hits.clear();
        if (root_) list_ball(root_, middle, radius, hits);
    }
    void near(const Point<D>& middle, u64 wanted, std::vector<Hit<D>>& hits) {
        Nearest<D> nearest(hits, wanted);
        if (wanted == 0 || !root_) return;
        to_do_.assign(1, ToDo{0, root_});
        while (!to_do_.empty() && nearest.may_take(to_do_.front().distance)) {
            u64 link = to_do_.front().link;
            std::pop_heap(to_do_.begin(), to_do_.end());
            to_do_.pop_back();
            node_of(link)->each([&](u32, const Entry<D>& entry, bool is_node) {
                u128 distance = is_node ? least_distance(entry, middle) : distance_between<D>(entry.key, middle);
                if (!nearest.may_take(distance)) return;
                if (!is_node) return nearest.offer({distance, entry.key, entry.word});
                to_do_.push_back({distance, entry.word});
                std::push_heap(to_do_.begin(), to_do_.end());
            });
        }
        nearest.sort();
    }

  private:
    // A node of two entries loses one; the other one takes its place.
    void lift(Node* above, u32 address, u32 at, Node* node, u32 lost) {
        bool is_node = false;
        u32 place = 0;
        node->each([&](u32, const Entry<D>&, bool yes) {
            if (place++ != lost) is_node = yes;
        });
        above->entries()[at] = node->entries()[1 - lost];
        above->set_node(address, at, is_node);
        store_.give(node);
    }
    void free_all(u64 link) {
        node_of(link)->each([&](u32, const Entry<D>& entry, bool is_node) {
            if (is_node) free_all(entry.word);
        });
        store_.give(node_of(link));
    }
};
