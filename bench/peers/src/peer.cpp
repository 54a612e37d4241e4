// A program that answers scripts about one slot of points as phq does, by another index: the one of the file that it is linked with.
// usage: PEER run <SCRIPT
#include "slot.hpp"

static bool refuse(Kind kind, Replies& replies) {
    switch (kind) {
    case Kind::LongLine: replies.line("error long"); return true;
    case Kind::WrongWord: replies.line("error word"); return true;
    case Kind::WrongCount: replies.line("error count"); return true;
    case Kind::WrongNumber: replies.line("error number"); return true;
    case Kind::WrongName: replies.line("error name"); return true;
    case Kind::WrongDims: replies.line("error dims"); return true;
    case Kind::WrongRange: replies.line("error range"); return true;
    default: return false;
    }
}

int main(int count, char** words) {
    if (count != 2 || std::strcmp(words[1], "run") != 0) {
        std::fprintf(stderr, "usage: %s run <SCRIPT\n", words[0]);
        return 2;
    }
    Replies replies;
    Reader reader;
    Command command;
    bool refused = false;
    std::unique_ptr<Slot> slot = open_slot(2, ~(u64)0);
    each_line(
        [&](const char* line, size_t size) {
            reader.read(line, size, command);
            if (command.kind == Kind::Nothing) return;
            if (command.kind == Kind::Open) {
                slot.reset();
                slot = open_slot(command.dims, (u64)command.number);
                replies.line("opened");
            } else if (refuse(command.kind, replies) || !slot->answer(command, replies)) {
                refused = true;
            }
        },
        [&] { replies.write(); });
    replies.write();
    _exit(refused ? 1 : 0); // the index is not taken apart
}
