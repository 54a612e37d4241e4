// An index in the process that asks it: embed INDEX DIMS ROWS
// Puts random points, looks up, lists windows, finds the nearest and takes rows out, and prints for each of these how many calls there were, the processor time of
// one in nanoseconds, and a sum of what they answered, which is the same for all indexes. Points and corners are made before the time is taken.
#include <phtree.h>

#include <cstring>
#include <ctime>

#include "map_store.hpp"
#include "ph_tree.hpp"

constexpr u64 NEAREST = 10;
constexpr size_t PAGE = 64; // rows

static u64 state = 88172645463325252ull;

static u64 draw() {
    u64 x = state += 0x9e3779b97f4a7c15ull;
    x = (x ^ (x >> 30)) * 0xbf58476d1ce4e5b9ull;
    x = (x ^ (x >> 27)) * 0x94d049bb133111ebull;
    return x ^ (x >> 31);
}

// The library by its header, with the numbers as it takes them.
template <int D> class Library {
    ph_tree tree_{};
    std::vector<u64> distances_ = std::vector<u64>(2 * NEAREST), values_ = std::vector<u64>(PAGE);
    std::vector<i64> points_ = std::vector<i64>(PAGE * D);

    static void check(u32 answer) {
        if (answer >= PH_NO_TREE) give_up("the library refuses a call");
    }

  public:
    using At = std::array<i64, D>;
    static At at(const Point<D>& p) {
        At to;
        for (int i = 0; i < D; i++) to[i] = told(p[i]);
        return to;
    }
    Library() { check(ph_open(&tree_, D, 32, ~(u64)0)); }
    ~Library() { ph_close(&tree_); }
    u64 put(const At& p, u64 value) {
        u64 old = 0;
        u32 answer = ph_put(&tree_, p.data(), D, value, &old);
        check(answer);
        return answer == PH_REPLACED;
    }
    u64 get(const At& p) {
        u64 value = 0;
        check(ph_get(&tree_, p.data(), D, &value));
        return value;
    }
    u64 remove(const At& p) {
        u64 value = 0;
        check(ph_remove(&tree_, p.data(), D, &value));
        return value;
    }
    u64 window(const At& low, const At& high) {
        u64 sum = 0;
        size_t count = 0, length = 0;
        u32 more = 1;
        At last{};
        while (more) {
            check(ph_window(&tree_, low.data(), D, high.data(), D, last.data(), length, points_.data(), points_.size(), values_.data(), values_.size(), &count, &more));
            for (size_t i = 0; i < count; i++) sum += values_[i];
            if (!more) break;
            std::memcpy(last.data(), points_.data() + (count - 1) * D, sizeof last);
            length = D;
        }
        return sum;
    }
    u64 near(const At& middle) {
        u64 sum = 0;
        size_t count = 0;
        check(ph_nearest(&tree_, middle.data(), D, points_.data(), points_.size(), values_.data(), NEAREST, distances_.data(), distances_.size(), &count));
        for (size_t i = 0; i < count; i++) sum += values_[i];
        return sum;
    }
};

// A peer, as its index has it.
template <int D, class Index> class Peer {
    Index index_;
    std::vector<Row<D>> rows_;
    std::vector<Hit<D>> hits_;

  public:
    using At = Point<D>;
    static At at(const Point<D>& p) { return p; }
    ~Peer() { index_.clear(); }
    u64 put(const At& p, u64 value) {
        u64 old = 0;
        return !index_.put(p, value, old);
    }
    u64 get(const At& p) {
        u64 value = 0;
        return index_.get(p, value) ? value : 0;
    }
    u64 remove(const At& p) {
        u64 value = 0;
        index_.del(p, value);
        return value;
    }
    u64 window(const At& low, const At& high) {
        u64 sum = 0;
        index_.window(low, high, rows_);
        for (const Row<D>& row : rows_) sum += row.value;
        return sum;
    }
    u64 near(const At& middle) {
        u64 sum = 0;
        index_.near(middle, NEAREST, hits_);
        for (const Hit<D>& hit : hits_) sum += hit.value;
        return sum;
    }
};

template <class Index> struct Questions {
    std::vector<typename Index::At> puts, gets, removals, lows, highs, middles;
};

template <int D> Point<D> draw_point() {
    Point<D> p;
    for (u32& x : p) x = (u32)(draw() >> 32);
    return p;
}

template <int D, class Index> Questions<Index> draw_questions(size_t rows) {
    Questions<Index> q;
    std::vector<Point<D>> stored(rows);
    size_t listings = std::min<size_t>(rows, D >= 6 ? 200 : 10000), calls = std::min<size_t>(rows / 2, 100000);
    double side = std::min(1.0, std::pow(10.0 / (double)rows, 1.0 / D));
    for (Point<D>& p : stored) p = draw_point<D>();
    for (const Point<D>& p : stored) q.puts.push_back(Index::at(p));
    for (size_t i = 0; i < calls; i++) q.gets.push_back(Index::at(i % 2 ? stored[draw() % rows] : draw_point<D>()));
    for (size_t i = 0; i < listings; i++) {
        Point<D> low = draw_point<D>(), high;
        u32 reach = (u32)(side * 4294967295.0);
        for (int k = 0; k < D; k++) {
            low[k] = (u32)((double)low[k] * (1.0 - side));
            high[k] = low[k] + reach;
        }
        q.lows.push_back(Index::at(low));
        q.highs.push_back(Index::at(high));
        q.middles.push_back(Index::at(draw_point<D>()));
    }
    for (size_t i = rows; i-- > rows - calls;) { // some rows, each once
        std::swap(stored[i], stored[draw() % (i + 1)]);
        q.removals.push_back(Index::at(stored[i]));
    }
    return q;
}

template <class Index> [[gnu::noinline]] u64 phase_put(Index& index, const Questions<Index>& q) {
    u64 sum = 0;
    for (size_t i = 0; i < q.puts.size(); i++) sum += index.put(q.puts[i], i);
    return sum;
}

template <class Index> [[gnu::noinline]] u64 phase_get(Index& index, const Questions<Index>& q) {
    u64 sum = 0;
    for (const auto& p : q.gets) sum += index.get(p);
    return sum;
}

template <class Index> [[gnu::noinline]] u64 phase_window(Index& index, const Questions<Index>& q) {
    u64 sum = 0;
    for (size_t i = 0; i < q.lows.size(); i++) sum += index.window(q.lows[i], q.highs[i]);
    return sum;
}

template <class Index> [[gnu::noinline]] u64 phase_near(Index& index, const Questions<Index>& q) {
    u64 sum = 0;
    for (const auto& p : q.middles) sum += index.near(p);
    return sum;
}

template <class Index> [[gnu::noinline]] u64 phase_remove(Index& index, const Questions<Index>& q) {
    u64 sum = 0;
    for (const auto& p : q.removals) sum += index.remove(p);
    return sum;
}

// Where the last phase is over, before the index is let go.
[[gnu::noinline]] void phase_end() { asm volatile(""); }

static double now() {
    timespec t;
    clock_gettime(CLOCK_PROCESS_CPUTIME_ID, &t);
    return (double)t.tv_sec * 1e9 + (double)t.tv_nsec;
}

template <class Phase> void measure(const char* name, size_t calls, Phase phase) {
    double start = now();
    u64 sum = phase();
    double took = now() - start;
    std::printf("%s %zu %.1f %llu\n", name, calls, took / (double)calls, (unsigned long long)sum);
}

template <int D, class Index> void run(size_t rows) {
    Questions<Index> q = draw_questions<D, Index>(rows);
    Index index;
    measure("put", q.puts.size(), [&] { return phase_put(index, q); });
    measure("get", q.gets.size(), [&] { return phase_get(index, q); });
    measure("window", q.lows.size(), [&] { return phase_window(index, q); });
    measure("near", q.middles.size(), [&] { return phase_near(index, q); });
    measure("remove", q.removals.size(), [&] { return phase_remove(index, q); });
    phase_end();
}

template <int D> void run_index(const char* name, size_t rows) {
    if (!std::strcmp(name, "library")) return run<D, Library<D>>(rows);
    if (!std::strcmp(name, "ph_tree")) return run<D, Peer<D, PhTree<D>>>(rows);
    if constexpr (D == 2) {
        if (!std::strcmp(name, "map")) return run<D, Peer<D, MapIndex<D>>>(rows);
    }
    give_up("there is no such index");
}

int main(int count, char** words) {
    if (count != 4) give_up("usage: embed INDEX DIMS ROWS");
    size_t rows = std::strtoul(words[3], nullptr, 10);
    switch (std::atoi(words[2])) {
    case 2: run_index<2>(words[1], rows); break;
    case 3: run_index<3>(words[1], rows); break;
    case 8: run_index<8>(words[1], rows); break;
    default: give_up("2, 3 or 8 dimensions");
    }
}
