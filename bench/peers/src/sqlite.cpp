// SQLite's R*Tree module in memory, 1 to 4 of the 5 dimensions that it can have, all in one transaction: a table rtree_i32 with the value beside the coordinates.
// In one or two dimensions the row's number is its Morton code, so that a point is found by it; else by a window of one point.
#include <sqlite3.h>
#include <string>

#include "morton.hpp"
#include "slot.hpp"

template <int D> class SqliteTable {
    sqlite3* base_ = nullptr;
    sqlite3_stmt *find_ = nullptr, *put_ = nullptr, *set_ = nullptr, *del_ = nullptr, *list_ = nullptr;
    u64 size_ = 0;
    u32 last_side_ = 0; // that of the last window that was enough for the nearest
    static constexpr bool IS_CODED = D <= 2;

    [[noreturn]] void fail() { give_up(sqlite3_errmsg(base_)); }
    void run(const std::string& text) {
        if (sqlite3_exec(base_, text.c_str(), nullptr, nullptr, nullptr) != SQLITE_OK) fail();
    }
    sqlite3_stmt* prepare(const std::string& text) {
        sqlite3_stmt* made = nullptr;
        if (sqlite3_prepare_v3(base_, text.c_str(), -1, SQLITE_PREPARE_PERSISTENT, &made, nullptr) != SQLITE_OK) fail();
        return made;
    }
    void finish(sqlite3_stmt* made) {
        if (sqlite3_step(made) != SQLITE_DONE) fail();
        sqlite3_reset(made);
    }
    static i64 number_of(const Point<D>& p) {
        if constexpr (IS_CODED) return (i64)((u64)code_of<D>(p) ^ ((u64)1 << 63));
        else return 0;
    }
    void open() {
        if (sqlite3_open(":memory:", &base_) != SQLITE_OK) fail();
        run("pragma journal_mode=off; pragma synchronous=off; pragma temp_store=memory; pragma locking_mode=exclusive;");
        std::string columns, values, window, point, lows;
        for (int i = 0; i < D; i++) {
            std::string low = "low" + std::to_string(i), high = "high" + std::to_string(i), given = "?" + std::to_string(i + 1);
            std::string both = i > 0 ? " and " : "";
            columns += "," + low + "," + high;
            values += "," + given + "," + given;
            window += both + high + ">=" + given + " and " + low + "<=?" + std::to_string(D + i + 1);
            point += both + low + "=" + given;
            lows += low + ",";
        }
        run("create virtual table rows using rtree_i32(id" + columns + ",+value)");
        std::string value = "?" + std::to_string(D + 1), number = IS_CODED ? "?" + std::to_string(D + 2) : "null";
        find_ = prepare("select id,value from rows where " + (IS_CODED ? "id=?1" : point));
        put_ = prepare("insert into rows values(" + number + values + "," + value + ")");
        set_ = prepare("update rows set value=?1 where id=?2");
        del_ = prepare("delete from rows where id=?1");
        list_ = prepare("select " + lows + "value from rows where " + window);
        run("begin");
        size_ = 0;
    }
    void close() {
        for (sqlite3_stmt* made : {find_, put_, set_, del_, list_}) sqlite3_finalize(made);
        sqlite3_close(base_);
    }
    bool find(const Point<D>& p, i64& number, u64& value) {
        if (IS_CODED) sqlite3_bind_int64(find_, 1, number_of(p));
        else
            for (int i = 0; i < D; i++) sqlite3_bind_int64(find_, i + 1, told(p[i]));
        bool found = sqlite3_step(find_) == SQLITE_ROW;
        if (found) {
            number = sqlite3_column_int64(find_, 0);
            value = (u64)sqlite3_column_int64(find_, 1);
        }
        sqlite3_reset(find_);
        return found;
    }
    template <class OnRow> void each_inside(const Point<D>& low, const Point<D>& high, OnRow on_row) {
        for (int i = 0; i < D; i++) {
            sqlite3_bind_int64(list_, i + 1, told(low[i]));
            sqlite3_bind_int64(list_, D + i + 1, told(high[i]));
        }
        Row<D> row;
        while (sqlite3_step(list_) == SQLITE_ROW) {
            for (int i = 0; i < D; i++) row.point[i] = (u32)(sqlite3_column_int64(list_, i) + ((i64)1 << 31));
            row.value = (u64)sqlite3_column_int64(list_, D);
            on_row(row);
        }
        sqlite3_reset(list_);
    }
    u32 first_side(u64 wanted) const {
        if (last_side_ > 0) return last_side_;
        return (u32)std::min((double)LAST, 2147483648.0 * std::pow((double)wanted / (double)size_, 1.0 / D) + 1);
    }

  public:
    SqliteTable() { open(); }
    SqliteTable(const SqliteTable&) = delete;
    ~SqliteTable() { close(); }
    u64 count() { return size_; }
    void clear() {
        close();
        open();
    }
    bool get(const Point<D>& p, u64& value) {
        i64 number;
        return find(p, number, value);
    }
    bool put(const Point<D>& p, u64 value, u64& old) {
        i64 number;
        if (find(p, number, old)) {
            sqlite3_bind_int64(set_, 1, (i64)value);
            sqlite3_bind_int64(set_, 2, number);
            finish(set_);
            return false;
        }
        for (int i = 0; i < D; i++) sqlite3_bind_int64(put_, i + 1, told(p[i]));
        sqlite3_bind_int64(put_, D + 1, (i64)value);
        if (IS_CODED) sqlite3_bind_int64(put_, D + 2, number_of(p));
        finish(put_);
        size_++;
        return true;
    }
    bool del(const Point<D>& p, u64& value) {
        i64 number;
        if (!find(p, number, value)) return false;
        sqlite3_bind_int64(del_, 1, number);
        finish(del_);
        size_--;
        return true;
    }
    void window(const Point<D>& low, const Point<D>& high, std::vector<Row<D>>& rows) {
        rows.clear();
        each_inside(low, high, [&](const Row<D>& row) { rows.push_back(row); });
        std::sort(rows.begin(), rows.end(), [](auto& a, auto& b) { return z_less<D>(a.point, b.point); });
    }
    void within(const Point<D>& middle, u128 radius, std::vector<Hit<D>>& hits) {
        hits.clear();
        Point<D> low, high;
        corners_about<D>(middle, side_of(radius), low, high);
        each_inside(low, high, [&](const Row<D>& row) {
            u128 distance = distance_between<D>(row.point, middle);
            if (distance <= radius) hits.push_back({distance, row.point, row.value});
        });
        std::sort(hits.begin(), hits.end(), [](auto& a, auto& b) { return z_less<D>(a.point, b.point); });
    }
    // The module has no search for the nearest: windows that grow, from the side that was enough the last time.
    void near(const Point<D>& middle, u64 wanted, std::vector<Hit<D>>& hits) {
        hits.clear();
        if (wanted == 0 || size_ == 0) return;
        bool has_grown = false;
        for (u32 side = first_side(wanted);; side = side > LAST / 2 ? LAST : side * 2, has_grown = true) {
            Point<D> low, high;
            corners_about<D>(middle, side, low, high);
            Nearest<D> nearest(hits, wanted);
            u64 seen = 0;
            each_inside(low, high, [&](const Row<D>& row) {
                seen++;
                u128 distance = distance_between<D>(row.point, middle);
                if (nearest.may_take(distance)) nearest.offer({distance, row.point, row.value});
            });
            if (side < LAST && !(nearest.is_full() && nearest.farthest() <= (u128)side * side)) continue;
            last_side_ = !has_grown && seen > 8 * wanted + 32 ? side / 2 + 1 : side;
            return nearest.sort();
        }
    }
};

std::unique_ptr<Slot> open_slot(u32 dims, u64 most_rows) { return open_slot_of<SqliteTable, 1, 2, 3, 4>(dims, most_rows); }
