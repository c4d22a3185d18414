// The descriptions that the call and its peers are timed on.
#pragma once

#include <string>
#include <vector>

struct Entry {
    std::string name;
    std::string description;
};

struct Group {
    std::string name;
    std::vector<Entry> entries;
};

// All examples, those that are refused among them.
Group read_examples(const std::string &folder);

// The first records of the class `well-formed` among the generator's, which come with a file that names their classes.
Group read_well_formed(const std::string &records_path, const std::string &classes_path, size_t most);

// Each of the worst descriptions, a group of its own.
std::vector<Group> read_worst(const std::string &folder);
