// A label packed in two words: five bits for the count of each name, names 0 to 11 in the lower word and the others in the
// upper one. A label has at most 31 actions, so a count needs no more.
#pragma once

#include <cstdint>

constexpr unsigned MOST_NAMES = 24;
constexpr unsigned MOST_ACTIONS = 31;
constexpr unsigned NAMES_OF_A_WORD = 12;
constexpr unsigned BITS_OF_A_COUNT = 5;
constexpr uint64_t ONE_COUNT = 31;

struct Label {
    uint64_t lower;
    uint64_t upper;
};

constexpr Label TAU = {0, 0};

// Each word for itself: with the bits that a word has to spare, nothing is carried from the lower one to the upper one.
constexpr Label operator+(Label x, Label y) { return {x.lower + y.lower, x.upper + y.upper}; }
constexpr Label operator-(Label x, Label y) { return {x.lower - y.lower, x.upper - y.upper}; }
constexpr Label operator&(Label x, Label y) { return {x.lower & y.lower, x.upper & y.upper}; }
constexpr Label operator|(Label x, Label y) { return {x.lower | y.lower, x.upper | y.upper}; }
constexpr Label operator^(Label x, Label y) { return {x.lower ^ y.lower, x.upper ^ y.upper}; }
constexpr Label operator~(Label x) { return {~x.lower, ~x.upper}; }

constexpr bool operator==(Label x, Label y) { return ((x.lower ^ y.lower) | (x.upper ^ y.upper)) == 0; }
constexpr bool operator!=(Label x, Label y) { return !(x == y); }

// The upper word decides first. Two numbers of 128 bits are compared without a branch.
constexpr unsigned __int128 number_of(Label x) { return (unsigned __int128){x.upper} << 64 | x.lower; }
constexpr bool operator<(Label x, Label y) { return number_of(x) < number_of(y); }
constexpr bool operator<=(Label x, Label y) { return number_of(x) <= number_of(y); }

constexpr bool is_in_upper_word(unsigned name) { return name >= NAMES_OF_A_WORD; }

// The place of a name's count in its word.
constexpr unsigned shift_of(unsigned name) {
    return BITS_OF_A_COUNT * (is_in_upper_word(name) ? name - NAMES_OF_A_WORD : name);
}

constexpr Label times(uint64_t count, unsigned name) {
    uint64_t word = count << shift_of(name);
    return is_in_upper_word(name) ? Label{0, word} : Label{word, 0};
}

constexpr Label single(unsigned name) { return times(1, name); }

// The first name of a label that is not tau.
inline unsigned first_name(Label label) {
    return label.lower != 0 ? __builtin_ctzll(label.lower) / BITS_OF_A_COUNT
                            : __builtin_ctzll(label.upper) / BITS_OF_A_COUNT + NAMES_OF_A_WORD;
}

// 32 is 1 modulo 31, so a word and the count of its actions leave the same rest.
inline unsigned actions_of(Label label) {
    unsigned rest = (label.lower + label.upper) % 31;
    return rest == 0 && label != TAU ? 31 : rest;
}
