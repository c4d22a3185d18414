#include "timing.h"

#include "peers.h"
#include "rimecutter.h"

#include <algorithm>
#include <chrono>
#include <stdexcept>
#include <string_view>

namespace {

using Alphabet = size_t (*)(const uint8_t *, size_t, uint8_t *, size_t);
using Clock = std::chrono::steady_clock;

constexpr Alphabet ANSWERS[CONTENDERS] = {rimecutter_alphabet, alphabet_by_bags, alphabet_by_words, alphabet_by_vectors};
constexpr const char *NAMES[CONTENDERS] = {"the call", "peer (a)", "peer (b)", "peer (c)"};

// A time is taken over as many answers as fill this, or the clock would be a part of it.
constexpr double SECONDS_OF_A_TURN = 200e-6;

// A first answer that was quicker than this says little: an emulator translates the code when it is first run. One that took
// longer than this is not waited for again.
constexpr double SECONDS_TO_TRUST = 50e-3;
constexpr double SECONDS_NOT_TO_REPEAT = 2;

// Turns are taken until they have had this long together, but never fewer or more of them than these.
constexpr double SECONDS_OF_AN_ENTRY = 0.4;
constexpr unsigned FEWEST_TURNS = 2;
constexpr unsigned MOST_TURNS = 25;

uint8_t text[RIMECUTTER_TEXT_MAX];

std::string_view text_of(unsigned contender, const std::string &description) {
    auto bytes = reinterpret_cast<const uint8_t *>(description.data());
    size_t length = ANSWERS[contender](bytes, description.size(), text, sizeof text);
    return {reinterpret_cast<const char *>(text), length};
}

double seconds_of(unsigned contender, const std::string &description, unsigned answers) {
    auto start = Clock::now();
    for (unsigned i = 0; i < answers; ++i) {
        text_of(contender, description);
    }
    return std::chrono::duration<double>(Clock::now() - start).count();
}

// The times of the first answers, whose texts are compared.
Times first_times(const Entry &entry) {
    Times times;
    std::string due;
    for (unsigned contender = 0; contender < CONTENDERS; ++contender) {
        auto start = Clock::now();
        std::string_view printed = text_of(contender, entry.description);
        times[contender] = std::chrono::duration<double>(Clock::now() - start).count();
        if (contender == CALL) {
            due = printed;
        } else if (printed != due) {
            throw std::runtime_error(entry.name + ": " + NAMES[contender] + " prints another text than the call");
        }
    }
    return times;
}

unsigned answers_of_a_turn(unsigned contender, const std::string &description, double first_time) {
    if (first_time > SECONDS_NOT_TO_REPEAT) {
        return 0;
    }
    if (first_time > SECONDS_TO_TRUST) {
        return 1;
    }
    return unsigned(SECONDS_OF_A_TURN / seconds_of(contender, description, 1)) + 1;
}

// One turn of each contender. Gives the seconds that they took together.
double take_turns(const std::string &description, const std::array<unsigned, CONTENDERS> &answers, Times &least) {
    double spent = 0;
    for (unsigned contender = 0; contender < CONTENDERS; ++contender) {
        if (least[contender] < SECONDS_TO_TRUST) {
            // Untimed: what the contender before left to be tidied up in memory is not this one's to pay for.
            text_of(contender, description);
        }
        if (answers[contender] > 0) {
            double seconds = seconds_of(contender, description, answers[contender]);
            spent += seconds;
            least[contender] = std::min(least[contender], seconds / answers[contender]);
        }
    }
    return spent;
}

} // namespace

Times times_of(const Entry &entry) {
    Times least = first_times(entry);
    std::array<unsigned, CONTENDERS> answers;
    for (unsigned contender = 0; contender < CONTENDERS; ++contender) {
        answers[contender] = answers_of_a_turn(contender, entry.description, least[contender]);
    }
    double spent = 0;
    for (unsigned turn = 0; turn < FEWEST_TURNS || (turn < MOST_TURNS && spent < SECONDS_OF_AN_ENTRY); ++turn) {
        spent += take_turns(entry.description, answers, least);
    }
    return least;
}
