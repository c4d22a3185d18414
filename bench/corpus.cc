#include "corpus.h"

#include <algorithm>
#include <filesystem>
#include <fstream>
#include <iterator>
#include <stdexcept>

namespace {

namespace fs = std::filesystem;

std::ifstream opened(const fs::path &path) {
    std::ifstream stream(path, std::ios::binary);
    if (!stream) {
        throw std::runtime_error("cannot read " + path.string());
    }
    return stream;
}

std::string content_of(const fs::path &path) {
    std::ifstream stream = opened(path);
    return {std::istreambuf_iterator<char>(stream), {}};
}

// The descriptions of a folder, by name.
std::vector<fs::path> descriptions_in(const fs::path &folder) {
    std::vector<fs::path> paths;
    for (const auto &file : fs::directory_iterator(folder)) {
        if (file.path().extension() == ".txt") {
            paths.push_back(file.path());
        }
    }
    std::sort(paths.begin(), paths.end());
    return paths;
}

std::string next_record(std::istream &records) {
    size_t length = 0;
    records >> length;
    records.get();
    std::string record(length, '\0');
    records.read(record.data(), length);
    if (!records) {
        throw std::runtime_error("the generator's records end too early");
    }
    return record;
}

} // namespace

Group read_examples(const std::string &folder) {
    Group group{"examples", {}};
    for (const fs::path &path : descriptions_in(folder)) {
        group.entries.push_back({path.stem(), content_of(path)});
    }
    return group;
}

Group read_well_formed(const std::string &records_path, const std::string &classes_path, size_t most) {
    Group group{"well-formed", {}};
    std::ifstream records = opened(records_path);
    std::ifstream classes = opened(classes_path);
    std::string name;
    for (size_t number = 1; group.entries.size() < most && std::getline(classes, name); ++number) {
        std::string record = next_record(records);
        if (name == "well-formed") {
            group.entries.push_back({"record " + std::to_string(number), std::move(record)});
        }
    }
    return group;
}

std::vector<Group> read_worst(const std::string &folder) {
    std::vector<Group> groups;
    for (const fs::path &path : descriptions_in(folder)) {
        groups.push_back({path.stem(), {{path.stem(), content_of(path)}}});
    }
    return groups;
}
