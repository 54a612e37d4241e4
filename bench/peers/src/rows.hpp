// Rows of comma-separated text: how the programs about two tables read theirs, as phq imports them.
#pragma once
#include <string>

#include "points.hpp"

template <int D> std::vector<Row<D>> read_rows(const char* path) {
    std::FILE* file = std::fopen(path, "rb");
    if (!file) give_up("a table cannot be read");
    std::string text;
    static char piece[1 << 16];
    while (size_t count = std::fread(piece, 1, sizeof piece, file)) text.append(piece, count);
    std::fclose(file);
    std::vector<Row<D>> rows;
    const char *at = text.data(), *end = at + text.size();
    while (at < end) {
        i64 numbers[D + 1];
        for (i64& number : numbers) {
            bool minus = at < end && *at == '-';
            if (minus) at++;
            u64 x = 0;
            while (at < end && *at >= '0' && *at <= '9') x = x * 10 + (u64)(*at++ - '0');
            number = minus ? -(i64)x : (i64)x;
            at++; // the comma or the line feed
        }
        Row<D> row;
        for (int i = 0; i < D; i++) row.point[i] = (u32)(numbers[i] + ((i64)1 << 31));
        row.value = (u64)numbers[D];
        rows.push_back(row);
    }
    return rows;
}
