// The library's std::map by Morton codes, a red-black tree (R. Bayer, 1972; L. Guibas, R. Sedgewick, 1978): what is at hand without any index.
// Windows and the nearest are found as in the B+-tree of the same codes.
#pragma once
#include <map>

#include "z_order_index.hpp"

template <int D> class MapStore {
    using Map = std::map<Code<D>, Row<D>>;
    Map map_;

  public:
    struct Spot {
        typename Map::iterator at;
        Map* map;
        bool is_end() const { return at == map->end(); }
        const Code<D>& key() const { return at->first; }
        Row<D>& value() const { return at->second; }
        void go_on() { ++at; }
    };
    size_t size() const { return map_.size(); }
    void clear() { map_.clear(); }
    Spot from(const Code<D>& code) { return {map_.lower_bound(code), &map_}; }
    Row<D>* find(const Code<D>& code) {
        auto at = map_.find(code);
        return at == map_.end() ? nullptr : &at->second;
    }
    Row<D>* insert(const Code<D>& code, const Row<D>& row) {
        auto [at, is_new] = map_.try_emplace(code, row);
        return is_new ? nullptr : &at->second;
    }
    bool erase(const Code<D>& code, Row<D>& was) {
        auto at = map_.find(code);
        if (at == map_.end()) return false;
        was = at->second;
        map_.erase(at);
        return true;
    }
    // Up to so many rows from a place on, and as many before it.
    template <class OnRow> void around(const Code<D>& code, u64 count, OnRow on_row) {
        auto on = map_.lower_bound(code), back = on;
        for (u64 i = 0; i < count && on != map_.end(); i++, ++on) on_row(on->second);
        for (u64 i = 0; i < count && back != map_.begin(); i++) on_row((--back)->second);
    }
};

template <int D> using MapIndex = ZOrderIndex<D, MapStore<D>>;
