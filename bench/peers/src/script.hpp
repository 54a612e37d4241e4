// The lines of a script and the commands about one slot of points that they stand for, with the refusals of docs/manual.md.
// A line is read in one pass over its bytes.
#pragma once
#include <cstring>
#include <unistd.h>

#include "points.hpp"

enum class Kind : u8 {
    Nothing, Open, Put, Get, Del, Move, Count, Clear, Window, Near, Within,
    LongLine, WrongWord, WrongCount, WrongNumber, WrongName, WrongDims, WrongRange
};

struct Command {
    Kind kind;
    u32 dims;            // of `open`
    u32 one[MOST_DIMS];  // coordinates, as `Point` keeps them
    u32 other[MOST_DIMS];
    u128 number;         // a value, how many rows, a squared radius or the most rows
};

// Reads commands. It remembers how many dimensions the slot has.
class Reader {
    u32 dims_ = 2;
    void read_open(const char* at, const char* end, Command& command);

  public:
    void read(const char* line, size_t size, Command& command);
};

// Hands each line of standard input on, and says before each read that it is about to wait. A read has 4,096 bytes at most, as those of phq.
template <class OnLine, class BeforeRead> void each_line(OnLine on_line, BeforeRead before_read) {
    constexpr size_t PIECE = 4096;
    std::vector<char> bytes(2 * PIECE);
    size_t have = 0;
    for (;;) {
        if (bytes.size() - have < PIECE) bytes.resize(have + PIECE);
        before_read();
        ssize_t count = ::read(0, bytes.data() + have, PIECE);
        if (count < 0) give_up("the script cannot be read");
        if (count == 0) break;
        have += (size_t)count;
        size_t at = 0;
        while (const char* feed = (const char*)std::memchr(bytes.data() + at, '\n', have - at)) {
            size_t size = (size_t)(feed - (bytes.data() + at));
            on_line(bytes.data() + at, size);
            at += size + 1;
        }
        std::memmove(bytes.data(), bytes.data() + at, have - at);
        have -= at;
    }
    if (have > 0) on_line(bytes.data(), have);
}
