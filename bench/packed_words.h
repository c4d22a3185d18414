// What peers (b) and (c) do with packed labels.
#pragma once

#include "description.h"

// One action of each name of a word.
constexpr uint64_t ONES = 0x0084210842108421;

constexpr Label in_both_words(uint64_t word) { return {word, word}; }

// Whether a label has at least the count that `part` has, of every name: if it has, no count borrows from what is above it when
// the part is taken away.
inline bool lies_inside(Label part, Label label) {
    Label borrows = label ^ part ^ (label - part);
    return (borrows & in_both_words(ONES << BITS_OF_A_COUNT)) == TAU;
}

// The names that occur in a word, with all the bits of their counts. With 15 more than its lower four bits have, a count that
// is not 0 has its highest bit.
inline uint64_t names_of(uint64_t word) {
    uint64_t highest = ((word & 15 * ONES) + 15 * ONES) | word;
    return (highest >> 4 & ONES) * ONE_COUNT;
}

inline Label names_of(Label label) { return {names_of(label.lower), names_of(label.upper)}; }

// How many names these are, if all of them have all their bits.
inline unsigned number_of_names(Label names) { return actions_of(names & in_both_words(ONES)); }

// Counts that move from one word to other places in it, or to places in the other word.
class Moves {
    unsigned count;
    uint8_t from[NAMES_OF_A_WORD];
    uint8_t to[NAMES_OF_A_WORD];

  public:
    void clear() { count = 0; }

    void add(unsigned from_name, unsigned to_name) {
        from[count] = shift_of(from_name);
        to[count++] = shift_of(to_name);
    }

    uint64_t operator()(uint64_t word) const {
        uint64_t moved = 0;
        for (unsigned i = 0; i < count; ++i) {
            moved += (word >> from[i] & ONE_COUNT) << to[i];
        }
        return moved;
    }
};

inline bool lists_names(Kind kind) { return kind == Kind::block || kind == Kind::hide || kind == Kind::rename; }

// The names that a block, a hide or a rename lists.
class ListedNames {
    Label counts; // all the bits of theirs
    // Of a rename: from each word into each.
    Moves lower_to_lower;
    Moves lower_to_upper;
    Moves upper_to_lower;
    Moves upper_to_upper;

  public:
    void prepare(const Term &term) {
        counts = TAU;
        if (term.kind == Kind::rename) {
            prepare_pairs(term.list);
            return;
        }
        for (const Label &name : term.list) {
            counts = counts | names_of(name);
        }
    }

    bool occur_in(Label label) const { return (label & counts) != TAU; }

    Label hidden_in(Label label) const { return label & ~counts; }

    Label renamed_in(Label label) const {
        Label moved = {lower_to_lower(label.lower) + upper_to_lower(label.upper),
                       lower_to_upper(label.lower) + upper_to_upper(label.upper)};
        return (label & ~counts) + moved;
    }

  private:
    void prepare_pairs(List pairs) {
        for (Moves *moves : {&lower_to_lower, &lower_to_upper, &upper_to_lower, &upper_to_upper}) {
            moves->clear();
        }
        for (const Label *pair = pairs.begin(); pair < pairs.end(); pair += 2) {
            counts = counts | names_of(pair[0]);
            unsigned from = first_name(pair[0]);
            unsigned to = first_name(pair[1]);
            moves_between(from, to).add(from, to);
        }
    }

    Moves &moves_between(unsigned from, unsigned to) {
        if (is_in_upper_word(from)) {
            return is_in_upper_word(to) ? upper_to_upper : upper_to_lower;
        }
        return is_in_upper_word(to) ? lower_to_upper : lower_to_lower;
    }
};
