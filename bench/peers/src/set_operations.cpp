// Union, common rows and difference of two tables of points of two dimensions by the library's merges of sorted arrays of Morton codes and values.
// What is common, or in both, is told with the value of the first table, as phq tells it.
// usage: set_operations read|sort|union|common|minus ONE.csv OTHER.csv [RESULT.csv]
#include <string_view>
#include <unistd.h>

#include "morton.hpp"
#include "rows.hpp"

struct Coded {
    u64 code, value;
    friend bool operator<(const Coded& a, const Coded& b) { return a.code < b.code; }
};
using Table = std::vector<Coded>;

static Table sorted(const std::vector<Row<2>>& rows) {
    Table table;
    table.reserve(rows.size());
    for (const Row<2>& row : rows) table.push_back({code_of<2>(row.point), row.value});
    std::sort(table.begin(), table.end());
    return table;
}

static Table combine(std::string_view task, const Table& one, const Table& other) {
    Table result(one.size() + (task == "union" ? other.size() : 0));
    auto end = task == "union"  ? std::set_union(one.begin(), one.end(), other.begin(), other.end(), result.begin())
             : task == "common" ? std::set_intersection(one.begin(), one.end(), other.begin(), other.end(), result.begin())
                                : std::set_difference(one.begin(), one.end(), other.begin(), other.end(), result.begin());
    result.resize((size_t)(end - result.begin()));
    return result;
}

// Every second bit of a code, from this one on: the first dimension has the higher one of each two.
static u32 coordinate(u64 code, int first) {
    u32 x = 0;
    for (int i = 0; i < 32; i++) x |= (u32)(code >> (2 * i + first) & 1) << i;
    return x;
}

static void write(const Table& table, const char* path) {
    std::FILE* file = std::fopen(path, "wb");
    if (!file) give_up("the result cannot be written");
    for (const Coded& row : table)
        std::fprintf(file, "%ld,%ld,%lu\n", (long)told(coordinate(row.code, 1)), (long)told(coordinate(row.code, 0)), (unsigned long)row.value);
    std::fclose(file);
}

int main(int count, char** words) {
    std::string_view task = count == 4 || count == 5 ? words[1] : "";
    bool combines = task == "union" || task == "common" || task == "minus";
    if (!combines && task != "read" && task != "sort") {
        std::fprintf(stderr, "usage: %s read|sort|union|common|minus ONE.csv OTHER.csv [RESULT.csv]\n", words[0]);
        return 2;
    }
    std::vector<Row<2>> rows = read_rows<2>(words[2]), others = read_rows<2>(words[3]);
    if (task == "read") _exit(0);
    Table one = sorted(rows), other = sorted(others);
    if (task == "sort") _exit(0);
    Table result = combine(task, one, other);
    std::printf("result %zu\n", result.size());
    if (count == 5) write(result, words[4]);
    std::fflush(stdout);
    _exit(0);
}
