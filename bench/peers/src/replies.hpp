// The lines of replies, gathered in 64 KiB and written before more of the script is read, as phq writes its own.
#pragma once
#include <cstring>
#include <unistd.h>

#include "points.hpp"

class Replies {
    static constexpr size_t ROOM = 1 << 16;
    static constexpr size_t LONGEST = 512; // more than a hit of 16 dimensions has
    std::vector<char> bytes_ = std::vector<char>(ROOM);
    size_t used_ = 0;

    void make_room() {
        if (used_ + LONGEST > ROOM) write();
    }
    void text(const char* from, size_t count) {
        std::memcpy(bytes_.data() + used_, from, count);
        used_ += count;
    }
    template <size_t N> void text(const char (&words)[N]) { text(words, N - 1); }
    void put(char c) { bytes_[used_++] = c; }

    void number(u64 x) {
        static const char PAIRS[] =
            "00010203040506070809101112131415161718192021222324252627282930313233343536373839404142434445464748495051525354555657"
            "585960616263646566676869707172737475767778798081828384858687888990919293949596979899";
        char digits[20];
        int at = 20;
        while (x >= 100) {
            at -= 2;
            std::memcpy(digits + at, PAIRS + 2 * (x % 100), 2);
            x /= 100;
        }
        if (x >= 10) {
            at -= 2;
            std::memcpy(digits + at, PAIRS + 2 * x, 2);
        } else {
            digits[--at] = (char)('0' + x);
        }
        text(digits + at, 20 - at);
    }
    void number(u128 x) {
        const u64 TEN_19 = 10000000000000000000ull;
        if (x < (u128)1 << 64) return number((u64)x);
        u64 low = (u64)(x % TEN_19);
        number(x / TEN_19);
        char digits[19];
        for (int i = 18; i >= 0; i--) {
            digits[i] = (char)('0' + low % 10);
            low /= 10;
        }
        text(digits, 19);
    }
    void coordinate(u32 kept) {
        i64 x = told(kept);
        put(' ');
        if (x < 0) put('-');
        number((u64)(x < 0 ? -x : x));
    }
    template <int D> void end_row(const Point<D>& point, u64 value) {
        for (u32 kept : point) coordinate(kept);
        put(' ');
        number(value);
        put('\n');
    }

  public:
    void write() {
        size_t at = 0;
        while (at < used_) {
            ssize_t count = ::write(1, bytes_.data() + at, used_ - at);
            if (count <= 0) _exit(4);
            at += (size_t)count;
        }
        used_ = 0;
    }
    template <size_t N> void line(const char (&words)[N]) {
        make_room();
        text(words);
        put('\n');
    }
    template <size_t N> void line(const char (&words)[N], u64 x) {
        make_room();
        text(words);
        put(' ');
        number(x);
        put('\n');
    }
    template <int D> void row(const Row<D>& row) {
        make_room();
        text("row");
        end_row<D>(row.point, row.value);
    }
    template <int D> void hit(const Hit<D>& hit) {
        make_room();
        text("hit ");
        number(hit.distance);
        end_row<D>(hit.point, hit.value);
    }
    template <int D> void pair(const Row<D>& one, const Row<D>& other) {
        make_room();
        text("pair");
        for (u32 kept : one.point) coordinate(kept);
        put(' ');
        number(one.value);
        end_row<D>(other.point, other.value);
    }
};
