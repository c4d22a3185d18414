// Times of the call and of its peers on one description.
#pragma once

#include "corpus.h"

#include <array>
#include <cstddef>
#include <cstdint>

constexpr unsigned CONTENDERS = 4; // the call, then peers (a), (b) and (c)
constexpr unsigned CALL = 0;
constexpr unsigned PEER_B = 2;

// The seconds that each contender takes for one description.
using Times = std::array<double, CONTENDERS>;

// Lets all of them answer in turn, again and again, and takes the least time of each: what else the machine does can only add
// to a time. Throws where a peer's text is not the call's, with the entry's name.
Times times_of(const Entry &entry);
