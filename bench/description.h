// A description in memory, and its reader. All peers share it, so that they differ in how they hold sets and in nothing else.
#pragma once

#include "labels.h"

#include <array>
#include <cstddef>
#include <cstdint>
#include <string_view>

constexpr unsigned MOST_EQUATIONS = 16;
constexpr unsigned MOST_TERMS = 96;
constexpr unsigned MOST_RULES = 8;
constexpr unsigned MOST_LABELS_OF_A_LIST = 32;
constexpr size_t MOST_BYTES = 8192;

enum class Kind : uint8_t {
    act, tau, delta, ref, sum, cond, choice, ifelse, seq, merge, lmerge, sync, block, hide, rename, comm, allow
};

// The labels of a list that a term or the order has. Block and hide: those of the names. Rename: from and to, pair after pair.
// Comm: a left label and that of the right name, rule after rule.
struct List {
    const Label *first;
    const Label *last;
    const Label *begin() const { return first; }
    const Label *end() const { return last; }
    size_t size() const { return last - first; }
};

// `first` is also the name of an act and the equation of a ref.
struct Term {
    Kind kind;
    bool is_multi_action; // built of act, tau, delta and sync only: a sync that is has the product alone
    uint8_t first;
    uint8_t second;
    List list;
};

struct Description {
    unsigned name_count;
    unsigned term_count;
    unsigned equation_count;
    uint8_t root;
    bool has_order;
    List order;
    std::array<std::string_view, MOST_NAMES> names;
    std::array<Term, MOST_TERMS> terms;
    std::array<uint8_t, MOST_EQUATIONS> bodies;
    // A list over its maximum is read to its end, too. There is room, as a label takes two bytes of text or more.
    std::array<Label, MOST_BYTES / 2> labels;

    // Left as it comes: what is not read is not used either, and clearing it would cost more than reading a small description.
    Description() {}
    // The lists point into the labels.
    Description(const Description &) = delete;
};

// Why a description is refused, by number. 6 is not in use.
enum class Reason : uint8_t { none, too_long, form, name, range, list, too_large = 7 };

struct Refusal {
    Reason reason;
    unsigned line;
    unsigned column;
};

// Reads a description and checks every line. The reason is none if it is well-formed; if not, nothing is promised of what was
// read.
Refusal read_description(std::string_view text, Description &description);
