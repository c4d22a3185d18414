// Peer (b): a label is packed in two words and a set is a std::set of such labels.
#include "ordered_sets.h"
#include "packed_words.h"
#include "peers.h"

namespace {

struct WordRule {
    Label left;
    Label right;

    bool apply(Label &rest, Label &sum) const {
        if (!lies_inside(left, rest)) {
            return false;
        }
        rest = rest - left;
        sum = sum - left + right;
        return true;
    }

    void undo(Label &rest, Label &sum) const {
        rest = rest + left;
        sum = sum - right + left;
    }
};

class PackedWords {
  public:
    using Bag = Label;

    explicit PackedWords(const Description &description) : d(description), lists(description.term_count) {
        for (unsigned t = 0; t < d.term_count; ++t) {
            prepare(d.terms[t], lists[t]);
        }
    }

    Label act(unsigned name) const { return single(name); }
    Label tau() const { return TAU; }
    unsigned actions(Label x) const { return actions_of(x); }
    Label join(Label x, Label y) const { return x + y; }
    Label number(Label x) const { return x; }

    bool passes(unsigned t, Label x) const {
        const Term &term = d.terms[t];
        if (term.kind == Kind::block) {
            return !lists[t].names[0].occur_in(x);
        }
        return x == TAU || std::binary_search(term.list.begin(), term.list.end(), x);
    }

    Label mapped(unsigned t, Label x) const {
        const ListedNames &names = lists[t].names[0];
        return d.terms[t].kind == Kind::hide ? names.hidden_in(x) : names.renamed_in(x);
    }

    const std::vector<WordRule> &rules(unsigned t) const { return lists[t].rules; }

  private:
    struct Lists {
        std::vector<ListedNames> names; // one, where there are some
        std::vector<WordRule> rules;
    };

    const Description &d;
    std::vector<Lists> lists;

    static void prepare(const Term &term, Lists &l) {
        if (lists_names(term.kind)) {
            l.names.emplace_back().prepare(term);
        } else if (term.kind == Kind::comm) {
            for (const Label *rule = term.list.begin(); rule < term.list.end(); rule += 2) {
                l.rules.push_back({rule[0], rule[1]});
            }
        }
    }
};

} // namespace

size_t alphabet_by_words(const uint8_t *description, size_t length, uint8_t *text, size_t text_length) {
    return text_by<OrderedSets<PackedWords>>(description, length, text, text_length);
}
