// A B+-tree (R. Bayer, E. McCreight, 1972; with linked leaves, D. Comer, 1979): keys and rows in leaves of sorted arrays.
// Inner nodes keep the first key of each part. A leaf or an inner node goes only once it is empty.
#pragma once
#include <cstring>

#include "points.hpp"

template <class Key, class Value> class BPlusTree {
    static constexpr int ROOM = 64;
    static constexpr int HIGHEST = 16;
    struct Leaf {
        Key keys[ROOM];
        Value values[ROOM];
        int count = 0;
        Leaf* next = nullptr;
        Leaf* before = nullptr;
    };
    struct Inner {
        Key keys[ROOM];
        void* parts[ROOM];
        int count = 0;
    };
    // The inner nodes on the way to a leaf, by their height above it, and the place that was taken in each.
    struct Way {
        Inner* nodes[HIGHEST];
        int places[HIGHEST];
        Leaf* leaf;
    };
    void* root_ = nullptr;
    int height_ = 0;
    Leaf* first_ = nullptr;
    size_t size_ = 0;

    static int first_above(const Key* keys, int count, const Key& key) {
        int low = 0;
        while (count > 0) {
            int half = count / 2;
            if (key < keys[low + half]) count = half;
            else low += half + 1, count -= half + 1;
        }
        return low;
    }
    static int first_not_below(const Key* keys, int count, const Key& key) {
        int low = 0;
        while (count > 0) {
            int half = count / 2;
            if (keys[low + half] < key) low += half + 1, count -= half + 1;
            else count = half;
        }
        return low;
    }
    static bool is_at(const Leaf* leaf, int i, const Key& key) { return i < leaf->count && !(key < leaf->keys[i]); }
    static void shift(Leaf* leaf, int from, int by) {
        int count = leaf->count - from;
        std::memmove(leaf->keys + from + by, leaf->keys + from, sizeof(Key) * count);
        std::memmove(leaf->values + from + by, leaf->values + from, sizeof(Value) * count);
        leaf->count += by;
    }
    static void shift(Inner* node, int from, int by) {
        int count = node->count - from;
        std::memmove(node->keys + from + by, node->keys + from, sizeof(Key) * count);
        std::memmove(node->parts + from + by, node->parts + from, sizeof(void*) * count);
        node->count += by;
    }
    Leaf* leaf_of(const Key& key) const {
        void* at = root_;
        for (int height = height_; height > 0; height--) {
            Inner* node = (Inner*)at;
            int i = first_above(node->keys, node->count, key);
            at = node->parts[i > 0 ? i - 1 : 0];
        }
        return (Leaf*)at;
    }
    Way way_to(const Key& key) const {
        Way way;
        void* at = root_;
        for (int height = height_; height > 0; height--) {
            Inner* node = (Inner*)at;
            int i = first_above(node->keys, node->count, key);
            way.nodes[height] = node;
            way.places[height] = i > 0 ? i - 1 : 0;
            at = node->parts[way.places[height]];
        }
        way.leaf = (Leaf*)at;
        return way;
    }
    // Parts a full leaf. One that is filled in rising order stays full.
    static Leaf* part(Leaf* leaf, int at) {
        Leaf* more = new Leaf;
        int kept = !leaf->next && at == ROOM ? ROOM : ROOM / 2;
        more->count = ROOM - kept;
        std::memcpy(more->keys, leaf->keys + kept, sizeof(Key) * more->count);
        std::memcpy(more->values, leaf->values + kept, sizeof(Value) * more->count);
        leaf->count = kept;
        more->next = leaf->next;
        more->before = leaf;
        if (more->next) more->next->before = more;
        leaf->next = more;
        return more;
    }
    static Inner* part(Inner* node) {
        Inner* more = new Inner;
        int kept = ROOM / 2;
        more->count = ROOM - kept;
        std::memcpy(more->keys, node->keys + kept, sizeof(Key) * more->count);
        std::memcpy(more->parts, node->parts + kept, sizeof(void*) * more->count);
        node->count = kept;
        return more;
    }
    void grow(void* left, const Key& left_key, void* right, const Key& right_key) {
        Inner* root = new Inner;
        root->count = 2;
        root->keys[0] = left_key, root->parts[0] = left;
        root->keys[1] = right_key, root->parts[1] = right;
        root_ = root;
        height_++;
    }
    // Puts a new part beside the one that the way has taken, and parts the inner nodes that are full.
    void add_part(const Way& way, void* left, Key left_key, void* right, Key right_key) {
        for (int height = 1; height <= height_; height++) {
            Inner* node = way.nodes[height];
            int at = way.places[height] + 1;
            Inner* more = node->count == ROOM ? part(node) : nullptr;
            Inner* to = node;
            if (more && at > node->count) to = more, at -= node->count;
            shift(to, at, 1);
            to->keys[at] = right_key;
            to->parts[at] = right;
            if (!more) return;
            left = node, left_key = node->keys[0];
            right = more, right_key = more->keys[0];
        }
        grow(left, left_key, right, right_key);
    }
    void drop_leaf(const Way& way) {
        Leaf* leaf = way.leaf;
        (leaf->before ? leaf->before->next : first_) = leaf->next;
        if (leaf->next) leaf->next->before = leaf->before;
        delete leaf;
        for (int height = 1; height <= height_; height++) {
            Inner* node = way.nodes[height];
            shift(node, way.places[height] + 1, -1);
            if (node->count > 0) return;
            delete node;
        }
        root_ = nullptr;
        height_ = 0;
    }
    static void free_all(void* at, int height) {
        if (!at) return;
        if (height == 0) {
            delete (Leaf*)at;
            return;
        }
        Inner* node = (Inner*)at;
        for (int i = 0; i < node->count; i++) free_all(node->parts[i], height - 1);
        delete node;
    }

  public:
    // A place of the tree, or its end.
    struct Spot {
        Leaf* leaf = nullptr;
        int at = 0;
        bool is_end() const { return !leaf; }
        const Key& key() const { return leaf->keys[at]; }
        Value& value() const { return leaf->values[at]; }
        void settle() {
            if (leaf && at == leaf->count) leaf = leaf->next, at = 0;
        }
        void go_on() {
            at++;
            settle();
        }
        void go_back() {
            if (at > 0) at--;
            else if ((leaf = leaf->before)) at = leaf->count - 1;
        }
    };
    BPlusTree() = default;
    BPlusTree(const BPlusTree&) = delete;
    ~BPlusTree() { free_all(root_, height_); }
    size_t size() const { return size_; }
    void clear() {
        free_all(root_, height_);
        root_ = nullptr, first_ = nullptr, height_ = 0, size_ = 0;
    }
    Spot last() const {
        void* at = root_;
        for (int height = height_; height > 0; height--) at = ((Inner*)at)->parts[((Inner*)at)->count - 1];
        Leaf* leaf = (Leaf*)at;
        return Spot{leaf, leaf ? leaf->count - 1 : 0};
    }
    Spot from(const Key& key) const {
        if (!root_) return Spot{};
        Leaf* leaf = leaf_of(key);
        Spot spot{leaf, first_not_below(leaf->keys, leaf->count, key)};
        spot.settle();
        return spot;
    }
    Value* find(const Key& key) const {
        if (!root_) return nullptr;
        Leaf* leaf = leaf_of(key);
        int i = first_not_below(leaf->keys, leaf->count, key);
        return is_at(leaf, i, key) ? &leaf->values[i] : nullptr;
    }
    // What stands at the key; where nothing does, the value is put there and null is answered.
    Value* insert(const Key& key, const Value& value) {
        if (!root_) root_ = first_ = new Leaf;
        Way way = way_to(key);
        Leaf* leaf = way.leaf;
        int i = first_not_below(leaf->keys, leaf->count, key);
        if (is_at(leaf, i, key)) return &leaf->values[i];
        size_++;
        for (int height = height_; height > 0; height--)
            if (key < way.nodes[height]->keys[0]) way.nodes[height]->keys[0] = key;
        Leaf* more = leaf->count == ROOM ? part(leaf, i) : nullptr;
        Leaf* to = leaf;
        if (more && i >= leaf->count && (i > leaf->count || more->count == 0)) to = more, i -= leaf->count;
        shift(to, i, 1);
        to->keys[i] = key;
        to->values[i] = value;
        if (more) add_part(way, leaf, leaf->keys[0], more, more->keys[0]);
        return nullptr;
    }
    bool erase(const Key& key, Value& was) {
        if (!root_) return false;
        Way way = way_to(key);
        Leaf* leaf = way.leaf;
        int i = first_not_below(leaf->keys, leaf->count, key);
        if (!is_at(leaf, i, key)) return false;
        was = leaf->values[i];
        size_--;
        shift(leaf, i + 1, -1);
        if (leaf->count == 0) drop_leaf(way);
        return true;
    }
};
