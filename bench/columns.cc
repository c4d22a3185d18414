#include "columns.h"

#include "words.h"

#include <algorithm>
#include <utility>

namespace {

enum class Due { names, name, equations, terms, term, equation, root, order, nothing };

Due due_at(unsigned number, const Description &d) {
    const unsigned one = 1;
    // Pointers, as a count is not known before its line is read.
    const std::pair<Due, const unsigned *> lines[] = {
        {Due::names, &one},         {Due::name, &d.name_count},         {Due::equations, &one}, {Due::terms, &one},
        {Due::term, &d.term_count}, {Due::equation, &d.equation_count}, {Due::root, &one},      {Due::order, &one},
    };
    for (auto [due, count] : lines) {
        if (number <= *count) {
            return due;
        }
        number -= *count;
    }
    return Due::nothing;
}

// Capitals, which no line has, stand for parts: `Walk` says for which.
struct Shape {
    Due due;
    std::string_view line;
};

constexpr Shape SHAPES[] = {
    {Due::names, "names=N\n"},
    {Due::name, "name=A\n"},
    {Due::equations, "equations=N\n"},
    {Due::terms, "terms=N\n"},
    {Due::term, "term=act A\n"},
    {Due::term, "term=tau\n"},
    {Due::term, "term=delta\n"},
    {Due::term, "term=ref N\n"},
    {Due::term, "term=sum N\n"},
    {Due::term, "term=cond N\n"},
    {Due::term, "term=choice N N\n"},
    {Due::term, "term=ifelse N N\n"},
    {Due::term, "term=seq N N\n"},
    {Due::term, "term=merge N N\n"},
    {Due::term, "term=lmerge N N\n"},
    {Due::term, "term=sync N N\n"},
    {Due::term, "term=block N I\n"},
    {Due::term, "term=hide N I\n"},
    {Due::term, "term=rename N P\n"},
    {Due::term, "term=comm N R\n"},
    {Due::term, "term=allow N none\n"},
    {Due::term, "term=allow N S\n"},
    {Due::equation, "equation=N\n"},
    {Due::root, "root=N\n"},
    {Due::order, "order=all\n"},
    {Due::order, "order=none\n"},
    {Due::order, "order=S\n"},
};

// Goes along a line as far as it has one shape. No separator is a letter or a digit, so there is only one way to go.
class Walk {
    std::string_view line;
    size_t at = 0;

  public:
    explicit Walk(std::string_view line) : line(line) {}

    size_t length_with(std::string_view shape) {
        go(shape);
        return at;
    }

  private:
    bool go(std::string_view shape) {
        return std::all_of(shape.begin(), shape.end(), [this](char part) { return go_part(part); });
    }

    bool go_part(char part) {
        switch (part) {
        case 'N':
            return go_number();
        case 'A': // a name
            return go_name();
        case 'L': // a label
            return go_joined("A:N", '.');
        case 'I': // LIST
            return go_joined("A", ',');
        case 'P': // PAIRS
            return go_joined("A>A", ',');
        case 'R': // RULES
            return go_joined("L>A", ',');
        case 'S': // LABELS
            return go_joined("L", ',');
        default:
            return go_byte(part, part);
        }
    }

    bool go_joined(std::string_view shape, char separator) {
        do {
            if (!go(shape)) {
                return false;
            }
        } while (go_byte(separator, separator));
        return true;
    }

    bool go_number() {
        if (go_byte('0', '0')) {
            return true;
        }
        if (!go_byte('1', '9')) {
            return false;
        }
        go_byte('0', '9');
        return true;
    }

    bool go_name() {
        if (!go_byte('a', 'z')) {
            return false;
        }
        unsigned letters = 1;
        while (letters < MOST_LETTERS && (go_byte('a', 'z') || go_byte('0', '9'))) {
            ++letters;
        }
        return true;
    }

    bool go_byte(char least, char most) {
        bool is_there = at < line.size() && least <= line[at] && line[at] <= most;
        at += is_there;
        return is_there;
    }
};

// What stands from a place on, up to the next of these separators or the end.
std::string_view piece(std::string_view text, size_t at, std::string_view separators) {
    return text.substr(at, text.find_first_of(separators, at) - at);
}

bool is_digit(char byte) { return '0' <= byte && byte <= '9'; }

unsigned value_of(std::string_view digits) {
    unsigned value = 0;
    for (char digit : digits) {
        value = 10 * value + (digit - '0');
    }
    return value;
}

// Places count from 0. That of a form is asked for where the form is wrong or a count is out of range, and the others where the
// form is right and there is such a fault.
class RefusedLine {
    unsigned number;
    Due due;
    std::string_view line;
    const Description &d;

  public:
    RefusedLine(unsigned number, std::string_view line, const Description &d)
        : number(number), due(due_at(number, d)), line(line), d(d) {}

    size_t place_of(Reason reason) const {
        switch (reason) {
        case Reason::name:
            return place_of_name();
        case Reason::range:
            return place_of_number();
        case Reason::list:
            return place_of_entry();
        default:
            return place_of_form();
        }
    }

  private:
    size_t place_of_value() const { return line.find('=') + 1; }

    size_t place_of_form() const {
        size_t longest = 0;
        for (const Shape &shape : SHAPES) {
            if (shape.due == due) {
                longest = std::max(longest, Walk(line).length_with(shape.line));
            }
        }
        // A line that has its form to the end has a count out of range.
        bool has_form = longest != 0 && line[longest - 1] == '\n';
        return has_form ? place_of_value() : longest;
    }

    size_t place_of_name() const {
        if (due == Due::name) {
            return place_of_value();
        }
        // Behind the key and the kind, all words that begin with a letter are names.
        size_t at = due == Due::term ? line.find(' ') + 1 : place_of_value();
        std::string_view word = piece(line, at, " :.>,\n");
        while (is_digit(word[0]) || number_of(word) < d.name_count) {
            at += word.size() + 1;
            word = piece(line, at, " :.>,\n");
        }
        return at;
    }

    size_t place_of_number() const {
        if (due != Due::term) {
            return place_of_value();
        }
        // A ref has one number. All others are those of terms, and the first comes behind the kind.
        size_t at = line.find(' ') + 1;
        std::string_view first = piece(line, at, " \n");
        bool is_first = kind() == Kind::ref || value_of(first) >= term();
        return is_first ? at : at + first.size() + 1;
    }

    size_t place_of_entry() const {
        bool has_rules = due == Due::term && kind() == Kind::comm;
        // A list of names or pairs that ascends is never too long.
        unsigned most = has_rules ? MOST_RULES : MOST_LABELS_OF_A_LIST;
        size_t at = line.find_last_of(" =") + 1;
        Label before = TAU;
        for (unsigned entries = 1; entries <= most; ++entries) {
            std::string_view entry = piece(line, at, ",\n");
            Label left;
            if (!take_label(piece(entry, 0, ">"), has_rules ? 2 : 1, left) || left <= before) {
                return at;
            }
            before = left;
            at += entry.size() + 1;
        }
        return at;
    }

    // Tells whether nothing is wrong with a label. A name without a count is taken for one action, so that lists of names and
    // pairs ascend as labels do.
    bool take_label(std::string_view parts, unsigned least_actions, Label &label) const {
        label = TAU;
        unsigned actions = 0;
        bool is_right = true;
        for (size_t at = 0; at < parts.size();) {
            std::string_view part = piece(parts, at, ".");
            std::string_view name = piece(part, 0, ":");
            unsigned count = name == part ? 1 : value_of(part.substr(name.size() + 1));
            unsigned n = number_of(name);
            // All names before are smaller if their label is below one action of this name.
            is_right = is_right && count != 0 && label < single(n);
            actions += count;
            label = label + times(count, n);
            at += part.size() + 1;
        }
        return is_right && least_actions <= actions && actions <= MOST_ACTIONS;
    }

    // The number of names for one that is not known.
    unsigned number_of(std::string_view name) const {
        auto last = d.names.begin() + d.name_count;
        return std::find(d.names.begin(), last, name) - d.names.begin();
    }

    // Of a line that is due as a term. Four other lines come before the first.
    unsigned term() const { return number - d.name_count - 4; }
    Kind kind() const { return d.terms[term()].kind; }
};

// With its LF, if there is one.
std::string_view line_around(size_t place, std::string_view text) {
    size_t first = text.substr(0, place).find_last_of('\n') + 1;
    size_t lf = text.find('\n', first);
    return text.substr(first, lf == text.npos ? lf : lf + 1 - first);
}

} // namespace

unsigned column_of(Reason reason, unsigned line, std::string_view text, size_t taken, const Description &description) {
    size_t place = reason == Reason::form ? taken : taken - 1;
    return RefusedLine(line, line_around(place, text), description).place_of(reason) + 1;
}
