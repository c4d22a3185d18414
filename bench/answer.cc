#include "answer.h"

#include <algorithm>
#include <cstring>

namespace {

struct Writer {
    uint8_t *at;

    void put(std::string_view bytes) {
        memcpy(at, bytes.data(), bytes.size());
        at += bytes.size();
    }
    void put(char byte) { *at++ = byte; }
    void replace_last(char byte) { at[-1] = byte; }
};

// Counts what a writer would write.
struct Counter {
    size_t length = 0;

    void put(std::string_view bytes) { length += bytes.size(); }
    void put(char) { ++length; }
    void replace_last(char) {}
};

template <class Out> void put_number(Out &out, unsigned value) {
    char digits[10];
    char *first = digits + sizeof digits;
    do {
        *--first = '0' + value % 10;
        value /= 10;
    } while (value != 0);
    out.put({first, size_t(digits + sizeof digits - first)});
}

template <class Out> void put_line(Out &out, std::string_view key, unsigned value) {
    out.put(key);
    put_number(out, value);
    out.put('\n');
}

// Those of one word, whose names these are.
template <class Out> void put_parts(Out &out, const std::string_view *name, uint64_t word) {
    for (; word != 0; word >>= BITS_OF_A_COUNT) {
        if (unsigned count = word & ONE_COUNT) {
            out.put(*name);
            out.put(':');
            put_number(out, count);
            out.put('.');
        }
        ++name;
    }
}

template <class Out> void put_label(Out &out, const Description &d, Label label) {
    out.put("label=");
    if (label == TAU) {
        out.put("tau.");
    }
    put_parts(out, d.names.data(), label.lower);
    put_parts(out, d.names.data() + NAMES_OF_A_WORD, label.upper);
    // The last part has no dot behind it, but the end of the line.
    out.replace_last('\n');
}

constexpr size_t LONGEST_REFUSAL = sizeof "answer=refused\nreason=7\nline=130\ncolumn=8192\n";
constexpr size_t LONGEST_HEAD = sizeof "answer=ok\nrounds=2049\nlabels=1024\n";

// With all names. At most three counts of 31 actions have a second digit.
size_t longest_label(const Description &d) { return sizeof "label=" + d.name_count * sizeof "namename:1" + 3; }

// Puts a text that is no longer than `longest`. It is counted before only where the area might be too short for it.
template <class Text> size_t write_if_it_fits(Text put_text, size_t longest, uint8_t *area, size_t area_length) {
    if (area_length < longest) {
        Counter counter;
        put_text(counter);
        if (area_length < counter.length) {
            return 0;
        }
    }
    Writer writer{area};
    put_text(writer);
    return writer.at - area;
}

void cut(const Description &d, std::vector<Label> &labels) {
    if (!d.has_order) {
        return;
    }
    auto is_cut = [&](Label label) { return label != TAU && !std::binary_search(d.order.begin(), d.order.end(), label); };
    labels.erase(std::remove_if(labels.begin(), labels.end(), is_cut), labels.end());
}

} // namespace

size_t write_refusal(Refusal refusal, uint8_t *area, size_t area_length) {
    auto put_refusal = [=](auto &out) {
        out.put("answer=refused\n");
        put_line(out, "reason=", unsigned(refusal.reason));
        put_line(out, "line=", refusal.line);
        put_line(out, "column=", refusal.column);
    };
    return write_if_it_fits(put_refusal, LONGEST_REFUSAL, area, area_length);
}

size_t write_answer(const Description &d, Answer answer, uint8_t *area, size_t area_length) {
    cut(d, answer.labels);
    auto put_answer = [&](auto &out) {
        out.put("answer=ok\n");
        put_line(out, "rounds=", answer.rounds);
        put_line(out, "labels=", answer.labels.size());
        for (Label label : answer.labels) {
            put_label(out, d, label);
        }
    };
    return write_if_it_fits(put_answer, LONGEST_HEAD + answer.labels.size() * longest_label(d), area, area_length);
}
