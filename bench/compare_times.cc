// Times the call against its peers over the corpus and prints the table of ratios.
//
// usage: compare_times EXAMPLES WORST RECORDS CLASSES
#include "corpus.h"
#include "timing.h"

#include <algorithm>
#include <cstdio>
#include <exception>
#include <stdexcept>

namespace {

constexpr const char *UNIT_EXAMPLE = "dies-16-start-done-busy";
constexpr size_t RECORDS_TAKEN = 300;

// What the call's ratio to each peer should be at least.
constexpr double AIMS[CONTENDERS] = {0, 10, 1, 1};

// Of one entry: the call's time in units of peer (b)'s for the example, and the time of each peer in units of the call's.
using Ratios = std::array<double, CONTENDERS>;

struct Measured {
    std::string name;
    Ratios ratios;
};

Ratios ratios_of(const Times &times, double unit) {
    Ratios ratios{times[CALL] / unit};
    for (unsigned peer = CALL + 1; peer < CONTENDERS; ++peer) {
        ratios[peer] = times[peer] / times[CALL];
    }
    return ratios;
}

double unit_time(const Group &examples) {
    for (const Entry &entry : examples.entries) {
        if (entry.name == UNIT_EXAMPLE) {
            return times_of(entry)[PEER_B];
        }
    }
    throw std::runtime_error(std::string("there is no example ") + UNIT_EXAMPLE);
}

std::vector<double> column(const std::vector<Measured> &entries, unsigned contender) {
    std::vector<double> values;
    for (const Measured &entry : entries) {
        values.push_back(entry.ratios[contender]);
    }
    std::sort(values.begin(), values.end());
    return values;
}

void print_row(const std::string &name, const Ratios &ratios) {
    std::printf("| %-36s | %8.3f | %8.2f | %8.2f | %8.2f |\n", name.c_str(), ratios[0], ratios[1], ratios[2], ratios[3]);
}

// One entry has one row. Of more there are two: the medians, and in each column the value that speaks most against the call.
void print_group(const std::string &name, const std::vector<Measured> &entries) {
    if (entries.size() == 1) {
        print_row(name, entries[0].ratios);
        return;
    }
    Ratios median;
    Ratios hardest;
    for (unsigned contender = 0; contender < CONTENDERS; ++contender) {
        std::vector<double> values = column(entries, contender);
        median[contender] = values[values.size() / 2];
        hardest[contender] = contender == CALL ? values.back() : values.front();
    }
    std::string title = name + ", " + std::to_string(entries.size());
    print_row(title + ": median", median);
    print_row(title + ": against the call", hardest);
}

std::vector<Measured> measure(const Group &group, double unit) {
    std::vector<Measured> entries;
    for (const Entry &entry : group.entries) {
        entries.push_back({entry.name, ratios_of(times_of(entry), unit)});
    }
    return entries;
}

void print_least(const std::vector<Measured> &entries) {
    for (unsigned peer = CALL + 1; peer < CONTENDERS; ++peer) {
        auto less = [=](const Measured &x, const Measured &y) { return x.ratios[peer] < y.ratios[peer]; };
        auto least = std::min_element(entries.begin(), entries.end(), less);
        std::printf("(%c) comes nearest to the call, or is furthest ahead, on %s: %.2f\n", 'a' + peer - 1, least->name.c_str(),
                    least->ratios[peer]);
    }
}

// On how many entries the call does as well as it should beside each peer.
void print_reached(const std::string &name, const std::vector<Measured> &entries) {
    size_t reached[CONTENDERS] = {};
    for (const Measured &entry : entries) {
        for (unsigned peer = CALL + 1; peer < CONTENDERS; ++peer) {
            reached[peer] += entry.ratios[peer] >= AIMS[peer];
        }
    }
    std::printf("%s, %zu: 10 times as fast as (a) on %zu, as fast as (b) on %zu, as fast as (c) on %zu\n", name.c_str(), entries.size(),
                reached[1], reached[2], reached[3]);
}

void compare(char **paths) {
    std::vector<Group> groups = {read_examples(paths[0]), read_well_formed(paths[2], paths[3], RECORDS_TAKEN)};
    double unit = unit_time(groups[0]);
    size_t others = groups.size();
    for (Group &group : read_worst(paths[1])) {
        groups.push_back(std::move(group));
    }
    std::printf("| %-36s | %8s | %8s | %8s | %8s |\n", "descriptions", "call/(b)", "(a)/call", "(b)/call", "(c)/call");
    std::printf("|---|---|---|---|---|\n");
    std::vector<Measured> all;
    std::vector<std::vector<Measured>> measured(others + 1);
    for (size_t i = 0; i < groups.size(); ++i) {
        std::vector<Measured> entries = measure(groups[i], unit);
        print_group(groups[i].name, entries);
        std::fflush(stdout);
        all.insert(all.end(), entries.begin(), entries.end());
        std::vector<Measured> &kind = measured[std::min(i, others)];
        kind.insert(kind.end(), entries.begin(), entries.end());
    }
    std::printf("\n");
    for (size_t i = 0; i <= others; ++i) {
        print_reached(i < others ? groups[i].name : "worst", measured[i]);
    }
    print_least(all);
}

} // namespace

int main(int count, char **arguments) {
    if (count != 5) {
        std::fprintf(stderr, "usage: compare_times EXAMPLES WORST RECORDS CLASSES\n");
        return 2;
    }
    try {
        compare(arguments + 1);
    } catch (const std::exception &fault) {
        std::fprintf(stderr, "compare_times: %s\n", fault.what());
        return 1;
    }
    return 0;
}
