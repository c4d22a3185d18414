// What a peer works out, the limits that it keeps, and the text of it. Shared by all peers.
#pragma once

#include "description.h"

#include <vector>

constexpr size_t MOST_LABELS_OF_A_SET = 1024;
constexpr size_t MOST_LABELS_OF_ALL_SETS = 2048;

struct Answer {
    bool is_too_large; // refusal 7
    unsigned rounds;
    std::vector<Label> labels; // the root's set, ascending, not yet cut to the order

    static Answer too_large() { return {true, 0, {}}; }
};

// Both write a text from the start of an area and give its length. If it does not fit, nothing is written and 0 is given.
size_t write_refusal(Refusal refusal, uint8_t *area, size_t area_length);
size_t write_answer(const Description &description, Answer answer, uint8_t *area, size_t area_length);
