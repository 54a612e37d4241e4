// Reads a line of a script as a command, or as the refusal that the manual gives for it.
#include "script.hpp"

#include <string_view>

namespace {

constexpr size_t LONGEST_LINE = 4096;
constexpr u64 HALF = (u64)1 << 31;

struct Form {
    std::string_view word;
    Kind kind;
    u32 points;  // how many points stand behind the word
    bool number; // whether a number stands behind them
    u128 most;   // what it is at most
};

constexpr Form FORMS[] = {
    {"put", Kind::Put, 1, true, ~(u64)0}, {"get", Kind::Get, 1, false, 0}, {"window", Kind::Window, 2, false, 0},
    {"near", Kind::Near, 1, true, LAST}, {"within", Kind::Within, 1, true, ~(u128)0}, {"move", Kind::Move, 2, false, 0},
    {"del", Kind::Del, 1, false, 0}, {"count", Kind::Count, 0, false, 0}, {"clear", Kind::Clear, 0, false, 0},
};

constexpr std::string_view OTHERS[] = {"cursor", "page", "overlap", "inside", "covers", "save", "load", "import", "export", "stats",
                                       "use", "same", "join", "union", "common", "minus", "keep", "back"};

bool is_blank(char c) { return c == ' ' || c == '\t'; }

void skip_blanks(const char*& at, const char* end) {
    while (at < end && is_blank(*at)) at++;
}

std::string_view take_word(const char*& at, const char* end) {
    const char* start = at;
    while (at < end && !is_blank(*at)) at++;
    return {start, (size_t)(at - start)};
}

struct Number {
    bool is_number, is_negative, is_wide; // wide: 2^128 or more
    u128 size;
};

u128 wide_size(const char* digit, const char* end, bool& is_wide) {
    u128 x = 0;
    for (; digit < end; digit++) {
        u32 d = (u32)(*digit - '0');
        is_wide |= x > (~(u128)0 - d) / 10;
        x = x * 10 + d;
    }
    return x;
}

// The number at this place, which is no blank, and goes behind its word.
Number take_number(const char*& at, const char* end) {
    bool minus = *at == '-';
    if (minus || *at == '+') at++;
    const char* first = at;
    u64 x = 0;
    for (; at < end; at++) {
        u32 d = (u32)(u8)*at - '0';
        if (d > 9) break;
        x = x * 10 + d;
    }
    if (at == first || (at < end && !is_blank(*at))) {
        take_word(at, end);
        return {false, false, false, 0};
    }
    Number number{true, minus, false, x};
    if (at - first > 19) number.size = wide_size(first, at, number.is_wide);
    number.is_negative = minus && (number.is_wide || number.size != 0);
    return number;
}

bool is_natural(const Number& x, u128 most) { return x.is_number && !x.is_negative && !x.is_wide && x.size <= most; }

// The coordinate as it is kept; false where it has more than 32 bits.
bool keep(const Number& x, u32& kept) {
    u64 size = (u64)x.size;
    if (x.is_wide || x.size > HALF || (size == HALF && !x.is_negative)) return false;
    kept = (u32)(x.is_negative ? HALF - size : HALF + size);
    return true;
}

const Form* form_of(std::string_view word) {
    for (const Form& form : FORMS)
        if (form.word == word) return &form;
    for (std::string_view other : OTHERS)
        if (other == word) give_up("a command that the peers do not have");
    return nullptr;
}

// Reads the words behind the first one. All are looked at, for the causes of a refusal have an order.
Kind read_form(const Form& form, u32 dims, const char* at, const char* end, Command& command) {
    u32 coordinates = form.points * dims, wanted = coordinates + form.number, count = 0;
    bool numbers = true, range = true;
    for (;; count++) {
        skip_blanks(at, end);
        if (at == end) break;
        if (count >= wanted) return Kind::WrongCount;
        Number x = take_number(at, end);
        if (count < coordinates) {
            numbers &= x.is_number;
            range &= keep(x, count < dims ? command.one[count] : command.other[count - dims]);
        } else {
            numbers &= is_natural(x, form.most);
            command.number = x.size;
        }
    }
    return count != wanted ? Kind::WrongCount : !numbers ? Kind::WrongNumber : !range ? Kind::WrongRange : form.kind;
}

} // namespace

void Reader::read_open(const char* at, const char* end, Command& command) {
    std::string_view words[4];
    int count = 0;
    for (;; count++) {
        skip_blanks(at, end);
        if (at == end) break;
        std::string_view word = take_word(at, end);
        if (count < 4) words[count] = word;
    }
    command.kind = Kind::WrongCount;
    if (count != 2 && count != 4) return;
    auto number = [](std::string_view word) {
        const char* start = word.data();
        return take_number(start, start + word.size());
    };
    Number dims = number(words[1]), most{true, false, false, ~(u64)0};
    if (count == 4) most = number(words[3]);
    command.kind = Kind::WrongNumber;
    if (!is_natural(dims, LAST) || !is_natural(most, ~(u64)0)) return;
    if (words[0] == "boxes" || words[2] == "bits") give_up("boxes or a width, which the peers do not have");
    command.kind = Kind::WrongName;
    if (words[0] != "points" || (count == 4 && words[2] != "max")) return;
    command.kind = Kind::WrongDims;
    if (dims.size < 1 || dims.size > MOST_DIMS) return;
    command.kind = Kind::Open;
    command.dims = dims_ = (u32)dims.size;
    command.number = most.size;
}

void Reader::read(const char* line, size_t size, Command& command) {
    command.kind = Kind::LongLine;
    if (size > LONGEST_LINE) return;
    const char *at = line, *end = line + size;
    if (at < end && end[-1] == '\r') end--;
    skip_blanks(at, end);
    command.kind = Kind::Nothing;
    if (at == end || *at == '#') return;
    std::string_view word = take_word(at, end);
    if (word == "open") return read_open(at, end, command);
    const Form* form = form_of(word);
    command.kind = form ? read_form(*form, dims_, at, end, command) : Kind::WrongWord;
}
