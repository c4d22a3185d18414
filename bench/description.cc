#include "description.h"

#include "columns.h"
#include "list_reader.h"

namespace {

constexpr std::string_view KIND_WORDS[] = {"act",   "tau",    "delta", "ref",   "sum",  "cond",   "choice", "ifelse", "seq",
                                           "merge", "lmerge", "sync",  "block", "hide", "rename", "comm",   "allow"};

using KindTable = WordTable<std::size(KIND_WORDS), 6>;

constexpr KindTable table_of_kinds() {
    KindTable table;
    for (std::string_view word : KIND_WORDS) {
        table.add(packed(word));
    }
    return table;
}

constexpr KindTable KINDS = table_of_kinds();

// The lines in the order in which they are due. Reading ends at the first that does not pass.
class DescriptionReader : ListReader {
    std::string_view text;
    Description &d;

  public:
    DescriptionReader(std::string_view text, Description &description)
        : ListReader(text, description.labels.data()), text(text), d(description) {}

    Refusal read() {
        bool is_read = read_names() && read_terms() && read_bodies() && passes(take_body("root=", d.root)) &&
                       passes(take_order()) && passes(taken() == text.size());
        return is_read ? Refusal{Reason::none, 0, 0} : refusal();
    }

  private:
    Refusal refusal() const { return {reason(), line_number(), column_of(reason(), line_number(), text, taken(), d)}; }

    size_t taken() const { return place() - text.data(); }

    bool read_names() {
        bool is_read = passes(take_count("names=", 1, MOST_NAMES, d.name_count));
        for (unsigned n = 0; is_read && n < d.name_count; ++n) {
            is_read = passes(take("name=") && take_new_name(d.names[n]) && take('\n'));
        }
        return is_read;
    }

    bool read_terms() {
        bool is_read = passes(take_count("equations=", 0, MOST_EQUATIONS, d.equation_count)) &&
                       passes(take_count("terms=", 1, MOST_TERMS, d.term_count));
        for (unsigned t = 0; is_read && t < d.term_count; ++t) {
            is_read = passes(take("term=") && take_kind(d.terms[t].kind) && take_parts(d.terms[t], t));
        }
        return is_read;
    }

    bool read_bodies() {
        bool is_read = true;
        for (unsigned e = 0; is_read && e < d.equation_count; ++e) {
            is_read = passes(take_body("equation=", d.bodies[e]));
        }
        return is_read;
    }

    template <size_t SIZE> bool take_count(const char (&key)[SIZE], unsigned least, unsigned most, unsigned &count) {
        return take(key) && take_number(count) && least <= count && count <= most && take('\n');
    }

    template <size_t SIZE> bool take_body(const char (&key)[SIZE], uint8_t &term) {
        return take(key) && take_number_below(d.term_count, term) && take('\n');
    }

    bool take_number_below(unsigned limit, uint8_t &value) {
        unsigned number;
        if (!take_number(number)) {
            return false;
        }
        note(number >= limit, Reason::range);
        value = number;
        return true;
    }

    bool take_kind(Kind &kind) {
        unsigned number = KINDS.find(take_word());
        kind = Kind(number);
        return number != KindTable::NOT_THERE;
    }

    // What follows the kind of term t, with the end of the line.
    bool take_parts(Term &term, unsigned t) {
        term.is_multi_action = term.kind <= Kind::delta;
        switch (term.kind) {
        case Kind::tau:
        case Kind::delta:
            return take('\n');
        case Kind::act:
            return take(' ') && take_action(term.first) && take('\n');
        case Kind::ref:
            return take(' ') && take_number_below(d.equation_count, term.first) && take('\n');
        case Kind::sum:
        case Kind::cond:
            return take(' ') && take_number_below(t, term.first) && take('\n');
        default:
            return take(' ') && take_number_below(t, term.first) && take(' ') &&
                   (term.kind < Kind::block ? take_second(term, t) : take_list(term));
        }
    }

    bool take_action(uint8_t &name) {
        unsigned n;
        bool has_form = take_name(n);
        name = n;
        return has_form;
    }

    bool take_second(Term &term, unsigned t) {
        if (!take_number_below(t, term.second)) {
            return false;
        }
        // With an operand out of range there is no term to look at.
        if (term.kind == Kind::sync && !has_faults()) {
            term.is_multi_action = d.terms[term.first].is_multi_action && d.terms[term.second].is_multi_action;
        }
        return take('\n');
    }

    bool take_list(Term &term) {
        switch (term.kind) {
        case Kind::rename:
            return take_pairs(term.list);
        case Kind::comm:
            return take_rules(term.list);
        case Kind::allow:
            return take_labels(term.list);
        default:
            return take_names(term.list);
        }
    }

    bool take_order() {
        if (!take("order=")) {
            return false;
        }
        d.has_order = !take("all\n");
        return !d.has_order || take_labels(d.order);
    }
};

} // namespace

Refusal read_description(std::string_view text, Description &description) {
    if (text.size() > MOST_BYTES) {
        return {Reason::too_long, 0, 0};
    }
    return DescriptionReader(text, description).read();
}
