// The peers. Each has the signature of the call and does the same, with every description and every length of the text area.
#pragma once

#include "answer.h"

#include <utility>

size_t alphabet_by_bags(const uint8_t *description, size_t length, uint8_t *text, size_t text_length);
size_t alphabet_by_words(const uint8_t *description, size_t length, uint8_t *text, size_t text_length);
size_t alphabet_by_vectors(const uint8_t *description, size_t length, uint8_t *text, size_t text_length);

// Reads, works out by `Rounds` and writes.
template <class Rounds> size_t text_by(const uint8_t *description, size_t length, uint8_t *text, size_t text_length) {
    Description d;
    Refusal refusal = read_description({reinterpret_cast<const char *>(description), length}, d);
    if (refusal.reason != Reason::none) {
        return write_refusal(refusal, text, text_length);
    }
    Answer answer = Rounds(d).answer();
    if (answer.is_too_large) {
        return write_refusal({Reason::too_large, 0, 0}, text, text_length);
    }
    return write_answer(d, std::move(answer), text, text_length);
}
