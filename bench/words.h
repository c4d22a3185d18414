// Words of letters and digits, packed so that one comparison is enough, and a table that finds them.
#pragma once

#include <cstdint>
#include <string_view>

// Up to eight bytes of a text, the first in the lowest place; 0 is the word without a letter.
using Word = uint64_t;

constexpr unsigned MOST_LETTERS = sizeof(Word);
static_assert(__BYTE_ORDER__ == __ORDER_LITTLE_ENDIAN__, "a word is loaded as it stands in the text");

constexpr Word packed(std::string_view letters) {
    Word word = 0;
    for (unsigned i = 0; i < letters.size(); ++i) {
        word |= Word{uint8_t(letters[i])} << 8 * i;
    }
    return word;
}

constexpr Word in_each_byte(uint8_t byte) { return Word{0x0101010101010101} * byte; }

constexpr Word HIGH_BITS = in_each_byte(0x80);

// The high bit of each byte that is neither a lower-case letter nor a digit. Eight bytes are looked at together: what is added
// sets the high bit of a byte from a bound on, and carries nothing into the next byte.
constexpr Word other_bytes(Word bytes) {
    Word low = bytes & ~HIGH_BITS;
    Word letters = (low + in_each_byte(0x80 - 'a')) & ~(low + in_each_byte(0x7F - 'z'));
    Word digits = (low + in_each_byte(0x80 - '0')) & ~(low + in_each_byte(0x7F - '9'));
    return (~(letters | digits) | bytes) & HIGH_BITS;
}

// All bits of the bytes below the lowest of these high bits; all bits where there is none.
constexpr Word below_lowest(Word high_bits) { return ((high_bits & -high_bits) >> 7) - 1; }

// Numbers words from 0 on, in the order in which they are added. A word is searched from the place that its letters give to the
// next free one. Half of the places are always free, so that this is near.
template <unsigned MOST, unsigned PLACE_BITS> class WordTable {
    static constexpr unsigned PLACES = 1 << PLACE_BITS;
    static_assert(2 * MOST <= PLACES);

    Word words[MOST] = {};
    uint8_t numbers[PLACES] = {};
    unsigned count = 0;

  public:
    static constexpr unsigned NOT_THERE = MOST;

    constexpr WordTable() {
        for (uint8_t &number : numbers) {
            number = NOT_THERE;
        }
    }

    constexpr unsigned find(Word word) const { return numbers[place_of(word)]; }

    constexpr void add(Word word) {
        numbers[place_of(word)] = count;
        words[count++] = word;
    }

  private:
    constexpr unsigned place_of(Word word) const {
        // All letters have a part in the highest bits of the product.
        unsigned place = word * 0x9E3779B97F4A7C15 >> (64 - PLACE_BITS);
        while (numbers[place] != NOT_THERE && words[numbers[place]] != word) {
            place = (place + 1) % PLACES;
        }
        return place;
    }
};
