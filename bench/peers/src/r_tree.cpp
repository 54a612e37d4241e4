// Boost's R-tree with its R*-tree splits (N. Beckmann, H.-P. Kriegel, R. Schneider, B. Seeger, 1990), rows put one by one, 16 in a node.
// Coordinates are doubles there: each one and each difference of two is exact, and no extent overflows.
#define BOOST_ALLOW_DEPRECATED_HEADERS // Boost asks for one of its own headers by an old name
#include <boost/geometry.hpp>
#include <boost/geometry/index/rtree.hpp>
#include <cstring>

#include "slot.hpp"

namespace geometry = boost::geometry;
namespace trees = boost::geometry::index;

template <int D> class RTree {
    using Corner = geometry::model::point<double, D, geometry::cs::cartesian>;
    using Box = geometry::model::box<Corner>;
    struct Kept {
        Corner at;
        mutable u64 value;
    };
    struct CornerOf {
        using result_type = const Corner&;
        const Corner& operator()(const Kept& kept) const { return kept.at; }
    };
    struct IsSame {
        bool operator()(const Kept& a, const Kept& b) const { return std::memcmp(&a.at, &b.at, sizeof(Corner)) == 0; }
    };
    trees::rtree<Kept, trees::rstar<16>, CornerOf, IsSame> tree_;

    template <int I = 0> static void write(Corner& corner, const Point<D>& p) {
        if constexpr (I < D) {
            geometry::set<I>(corner, (double)p[I]);
            write<I + 1>(corner, p);
        }
    }
    template <int I = 0> static void read(const Corner& corner, Point<D>& p) {
        if constexpr (I < D) {
            p[I] = (u32)(i64)geometry::get<I>(corner);
            read<I + 1>(corner, p);
        }
    }
    static Corner corner_of(const Point<D>& p) {
        Corner corner;
        write(corner, p);
        return corner;
    }
    // An output iterator that hands on what it is given.
    template <class OnKept> struct HandOn {
        OnKept* on_kept;
        HandOn& operator*() { return *this; }
        HandOn& operator++() { return *this; }
        HandOn operator++(int) { return *this; }
        HandOn& operator=(const Kept& kept) {
            (*on_kept)(kept);
            return *this;
        }
    };
    template <class Question, class OnKept> void ask(const Question& question, OnKept on_kept) {
        tree_.query(question, HandOn<OnKept>{&on_kept});
    }
    const Kept* find(const Point<D>& p) {
        const Kept* found = nullptr;
        ask(trees::intersects(corner_of(p)), [&](const Kept& kept) { found = &kept; });
        return found;
    }
    template <class OnRow> void each_inside(const Point<D>& low, const Point<D>& high, OnRow on_row) {
        if (is_reversed<D>(low, high)) return;
        ask(trees::intersects(Box(corner_of(low), corner_of(high))), [&](const Kept& kept) {
            Row<D> row;
            read(kept.at, row.point);
            row.value = kept.value;
            on_row(row);
        });
    }

  public:
    u64 count() { return tree_.size(); }
    void clear() { tree_.clear(); }
    bool get(const Point<D>& p, u64& value) {
        const Kept* kept = find(p);
        if (kept) value = kept->value;
        return kept;
    }
    bool put(const Point<D>& p, u64 value, u64& old) {
        if (const Kept* kept = find(p)) {
            old = kept->value;
            kept->value = value;
            return false;
        }
        tree_.insert(Kept{corner_of(p), value});
        return true;
    }
    bool del(const Point<D>& p, u64& value) {
        const Kept* kept = find(p);
        if (!kept) return false;
        value = kept->value;
        tree_.remove(Kept{corner_of(p), 0});
        return true;
    }
    void window(const Point<D>& low, const Point<D>& high, std::vector<Row<D>>& rows) {
        rows.clear();
        each_inside(low, high, [&](const Row<D>& row) { rows.push_back(row); });
        std::sort(rows.begin(), rows.end(), [](auto& a, auto& b) { return z_less<D>(a.point, b.point); });
    }
    void within(const Point<D>& middle, u128 radius, std::vector<Hit<D>>& hits) {
        hits.clear();
        Point<D> low, high;
        corners_about<D>(middle, side_of(radius), low, high);
        each_inside(low, high, [&](const Row<D>& row) {
            u128 distance = distance_between<D>(row.point, middle);
            if (distance <= radius) hits.push_back({distance, row.point, row.value});
        });
        std::sort(hits.begin(), hits.end(), [](auto& a, auto& b) { return z_less<D>(a.point, b.point); });
    }
    // The tree measures in doubles, so a few more rows are asked for. Where the last of them is not clearly farther than the last one wanted,
    // the ball is read exactly.
    void near(const Point<D>& middle, u64 wanted, std::vector<Hit<D>>& hits) {
        hits.clear();
        if (wanted == 0 || tree_.empty()) return;
        u64 asked = std::min<u64>(wanted + 4, tree_.size());
        ask(trees::nearest(corner_of(middle), (unsigned)asked), [&](const Kept& kept) {
            Hit<D> hit;
            read(kept.at, hit.point);
            hit.distance = distance_between<D>(hit.point, middle);
            hit.value = kept.value;
            hits.push_back(hit);
        });
        std::sort(hits.begin(), hits.end(), hit_less<D>);
        if (asked < tree_.size()) {
            u128 last_wanted = hits[wanted - 1].distance;
            if (hits.back().distance <= last_wanted + (last_wanted >> 40)) {
                within(middle, last_wanted, hits);
                std::sort(hits.begin(), hits.end(), hit_less<D>);
            }
        }
        if (hits.size() > wanted) hits.resize(wanted);
    }
};

// The compiler takes twenty seconds for each number of dimensions.
std::unique_ptr<Slot> open_slot(u32 dims, u64 most_rows) { return open_slot_of<RTree, 2, 3, 8>(dims, most_rows); }
