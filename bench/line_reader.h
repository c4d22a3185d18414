// What every line of a description is made of: a key, separators, numbers and words. A function that takes something tells
// whether it is there, and if it is not, the line lacks its form. What else is wrong with a line is noted, since that counts
// only where the form is right to the end.
#pragma once

#include "description.h"
#include "words.h"

#include <cstring>

class LineReader {
    const char *at;
    // Behind the last LF. A line without one is refused like a line that is missing, so the bytes that follow are left out. As
    // nothing in a line is taken across its LF, there is always a byte to look at.
    const char *last;
    unsigned line = 1;
    unsigned faults = 0; // a bit for each reason

  public:
    explicit LineReader(std::string_view text) : at(text.data()), last(text.data() + text.size()) {
        while (last != at && last[-1] != '\n') {
            --last;
        }
    }

    const char *place() const { return at; }

    void note(bool is_fault, Reason reason) { faults |= unsigned{is_fault} << unsigned(reason); }
    bool has_faults() const { return faults != 0; }

    // To be asked behind each line, with whether it had its form.
    bool passes(bool has_form) {
        note(!has_form, Reason::form);
        line += !has_faults();
        return !has_faults();
    }

    // Of the line that did not pass: the smallest number counts.
    Reason reason() const { return Reason(__builtin_ctz(faults)); }
    unsigned line_number() const { return line; }

    // Not to be called where a line may be missing.
    bool take(char byte) {
        if (*at != byte) {
            return false;
        }
        ++at;
        return true;
    }

    template <size_t SIZE> bool take(const char (&bytes)[SIZE]) {
        constexpr size_t length = SIZE - 1;
        if (size_t(last - at) < length || memcmp(at, bytes, length) != 0) {
            return false;
        }
        at += length;
        return true;
    }

    // One or two digits. A third is left standing, and no separator is a digit.
    bool take_number(unsigned &value) {
        value = digit();
        if (value > 9) {
            return false;
        }
        ++at;
        unsigned second = digit();
        if (second > 9) {
            return true;
        }
        ++at;
        bool leads_with_zero = value == 0;
        value = 10 * value + second;
        return !leads_with_zero;
    }

    // The letters and digits from here on, maybe none. A ninth is left standing, and no separator is one of them.
    Word take_word() {
        Word bytes = next_bytes();
        Word others = other_bytes(bytes);
        at += others == 0 ? MOST_LETTERS : __builtin_ctzll(others) / 8;
        return bytes & below_lowest(others);
    }

  private:
    unsigned digit() const { return unsigned(*at) - '0'; }

    Word next_bytes() const {
        Word bytes = 0;
        if (last - at >= ptrdiff_t(sizeof bytes)) {
            memcpy(&bytes, at, sizeof bytes);
        } else {
            memcpy(&bytes, at, last - at);
        }
        return bytes;
    }
};
