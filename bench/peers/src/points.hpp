// Points, rows and hits: their Z-order, windows and squared distances.
// Z-order is compared by the dimension whose coordinates differ at the highest bit (T. M. Chan, 2002), so no code is made for it.
#pragma once
#include <algorithm>
#include <array>
#include <cmath>
#include <cstdint>
#include <cstdio>
#include <cstdlib>
#include <vector>

using u8 = std::uint8_t;
using u16 = std::uint16_t;
using u32 = std::uint32_t;
using u64 = std::uint64_t;
using i64 = std::int64_t;
using u128 = unsigned __int128;

constexpr int MOST_DIMS = 16;
constexpr u32 LAST = 0xffffffffu;

[[noreturn]] inline void give_up(const char* why) {
    std::fprintf(stderr, "peer: %s\n", why);
    std::exit(70);
}

// A coordinate is kept with 2^31 added to it, so that the order is that of unsigned numbers.
template <int D> using Point = std::array<u32, D>;

inline i64 told(u32 kept) { return (i64)kept - ((i64)1 << 31); }

template <int D> struct Row {
    Point<D> point;
    u64 value;
};

template <int D> struct Hit {
    u128 distance;
    Point<D> point;
    u64 value;
};

template <int D> bool z_less(const Point<D>& p, const Point<D>& q) {
    u32 most = 0;
    int at = 0;
    for (int i = 0; i < D; i++) {
        u32 x = p[i] ^ q[i];
        if (most < x && most < (most ^ x)) {
            most = x;
            at = i;
        }
    }
    return p[at] < q[at];
}

template <int D> bool is_inside(const Point<D>& p, const Point<D>& low, const Point<D>& high) {
    bool yes = true;
    for (int i = 0; i < D; i++) yes &= (p[i] >= low[i]) & (p[i] <= high[i]);
    return yes;
}

template <int D> bool is_reversed(const Point<D>& low, const Point<D>& high) {
    for (int i = 0; i < D; i++)
        if (low[i] > high[i]) return true;
    return false;
}

template <int D> u128 distance_between(const Point<D>& p, const Point<D>& q) {
    u128 sum = 0;
    for (int i = 0; i < D; i++) {
        u64 x = p[i] < q[i] ? q[i] - p[i] : p[i] - q[i];
        sum += x * x;
    }
    return sum;
}

template <int D> bool hit_less(const Hit<D>& a, const Hit<D>& b) {
    return a.distance != b.distance ? a.distance < b.distance : z_less<D>(a.point, b.point);
}

// The greatest side whose square is no more than this, but no side is longer than the space.
inline u32 side_of(u128 square) {
    if (square >= (u128)1 << 64) return LAST;
    u64 x = (u64)square;
    u64 side = (u64)std::sqrt((long double)x);
    while ((u128)side * side > x) side--;
    while ((u128)(side + 1) * (side + 1) <= x) side++;
    return side > LAST ? LAST : (u32)side;
}

// The corners of the window that goes so far from a point to all sides.
template <int D> void corners_about(const Point<D>& middle, u32 side, Point<D>& low, Point<D>& high) {
    for (int i = 0; i < D; i++) {
        low[i] = middle[i] < side ? 0 : middle[i] - side;
        high[i] = middle[i] > LAST - side ? LAST : middle[i] + side;
    }
}

// The nearest so many of the hits that it is given, by distance and then in Z-order. It keeps them as a heap.
template <int D> class Nearest {
    std::vector<Hit<D>>& hits_;
    u64 wanted_;

  public:
    Nearest(std::vector<Hit<D>>& into, u64 wanted) : hits_(into), wanted_(wanted) { hits_.clear(); }
    bool is_full() const { return hits_.size() >= wanted_; }
    const u128& farthest() const { return hits_.front().distance; }
    bool may_take(const u128& distance) const { return !is_full() || distance <= farthest(); }
    void offer(const Hit<D>& hit) {
        if (!is_full()) {
            hits_.push_back(hit);
            std::push_heap(hits_.begin(), hits_.end(), hit_less<D>);
        } else if (hit_less<D>(hit, hits_.front())) {
            std::pop_heap(hits_.begin(), hits_.end(), hit_less<D>);
            hits_.back() = hit;
            std::push_heap(hits_.begin(), hits_.end(), hit_less<D>);
        }
    }
    void sort() { std::sort_heap(hits_.begin(), hits_.end(), hit_less<D>); }
};
