// Morton codes (G. M. Morton, 1966): the bits of all coordinates of a point, those of one place side by side.
// `next_inside` finds where a window goes on in their order (H. Tropf, H. Herzog, 1981, who call it BIGMIN).
#pragma once
#include <type_traits>

#include "points.hpp"

// A code is made of parts: so many bits of each coordinate, such that a part fits in a word.
template <int D> constexpr int PART_BITS = D <= 8 ? 8 : 4;
template <int D> constexpr int PARTS = 32 / PART_BITS<D>;

// The bits of a byte with room for the other dimensions between them.
template <int D> struct Spread {
    u64 of[1 << PART_BITS<D>];
    constexpr Spread() : of() {
        for (int byte = 0; byte < 1 << PART_BITS<D>; byte++) {
            u64 x = 0;
            for (int i = 0; i < PART_BITS<D>; i++)
                if (byte >> i & 1) x |= (u64)1 << (i * D);
            of[byte] = x;
        }
    }
};
template <int D> inline constexpr Spread<D> SPREAD{};

template <int D> u64 part_of_code(const Point<D>& p, int part) {
    constexpr int BITS = PART_BITS<D>;
    u64 x = 0;
    for (int i = 0; i < D; i++) x |= SPREAD<D>.of[(p[i] >> (BITS * part)) & ((1 << BITS) - 1)] << (D - 1 - i);
    return x;
}

// A code of more than 128 bits: a part in each word, the highest first.
template <int N> struct WideCode {
    u64 words[N];
    friend bool operator<(const WideCode& a, const WideCode& b) {
        for (int i = 0; i < N - 1; i++)
            if (a.words[i] != b.words[i]) return a.words[i] < b.words[i];
        return a.words[N - 1] < b.words[N - 1];
    }
};

template <int D> struct CodeType {
    using type = std::conditional_t<D == 1, u32,
                 std::conditional_t<D == 2, u64,
                 std::conditional_t<(D <= 4), u128, WideCode<PARTS<D>>>>>;
};
template <int D> using Code = typename CodeType<D>::type;

template <int D> Code<D> code_of(const Point<D>& p) {
    if constexpr (D == 1) {
        return p[0];
    } else if constexpr (D <= 4) {
        Code<D> code = 0;
        for (int part = PARTS<D> - 1; part >= 0; part--) code = (code << (PART_BITS<D> * D)) | part_of_code<D>(p, part);
        return code;
    } else {
        Code<D> code;
        for (int i = 0; i < PARTS<D>; i++) code.words[i] = part_of_code<D>(p, PARTS<D> - 1 - i);
        return code;
    }
}

// The first point of a window behind p in Z-order, for a p outside of it; false where there is none.
template <int D> bool next_inside(const Point<D>& p, Point<D> low, Point<D> high, Point<D>& next) {
    u32 differing = 0;
    for (int i = 0; i < D; i++) differing |= (p[i] ^ low[i]) | (p[i] ^ high[i]);
    if (differing == 0) return false;
    bool found = false;
    for (int place = 31 - __builtin_clz(differing); place >= 0; place--) {
        u32 bit = (u32)1 << place;
        for (int i = 0; i < D; i++) {
            bool of_p = p[i] & bit, of_low = low[i] & bit, of_high = high[i] & bit;
            if (!of_p && of_low) {
                next = low;
                return true;
            }
            if (of_p && !of_high) return found;
            if (!of_p && of_high) {
                next = low;
                next[i] = (low[i] | bit) & ~(bit - 1);
                found = true;
                high[i] = (high[i] & ~bit) | (bit - 1);
            } else if (of_p && !of_low) {
                low[i] = (low[i] | bit) & ~(bit - 1);
            }
        }
    }
    return found;
}
