// Peer (a): a label is a multiset of names and a set is an ordered set of them, as in mCRL2's process library. Names are
// compared by where they are kept and not letter by letter, which is the quicker of the two.
#include "ordered_sets.h"
#include "peers.h"

#include <map>
#include <string>

namespace {

using Name = const std::string *;

class BagsOfNames {
  public:
    using Bag = std::multiset<Name>;

    struct Rule {
        Bag left;
        Name right;

        bool apply(Bag &rest, Bag &sum) const {
            if (!std::includes(rest.begin(), rest.end(), left.begin(), left.end())) {
                return false;
            }
            for (Name name : left) {
                rest.erase(rest.find(name));
                sum.erase(sum.find(name));
            }
            sum.insert(right);
            return true;
        }

        void undo(Bag &rest, Bag &sum) const {
            sum.erase(sum.find(right));
            sum.insert(left.begin(), left.end());
            rest.insert(left.begin(), left.end());
        }
    };

    explicit BagsOfNames(const Description &d) : names(d.names.begin(), d.names.begin() + d.name_count), lists(d.term_count) {
        for (unsigned t = 0; t < d.term_count; ++t) {
            if (d.terms[t].kind >= Kind::block) {
                prepare(d.terms[t], lists[t]);
            }
        }
    }

    Bag act(unsigned name) const { return {&names[name]}; }
    Bag tau() const { return {}; }
    unsigned actions(const Bag &x) const { return x.size(); }

    Bag join(const Bag &x, const Bag &y) const {
        Bag sum = x;
        sum.insert(y.begin(), y.end());
        return sum;
    }

    bool passes(unsigned t, const Bag &x) const {
        const Lists &l = lists[t];
        if (l.kind == Kind::allow) {
            return x.empty() || l.allowed.count(x) != 0;
        }
        return std::none_of(x.begin(), x.end(), [&](Name name) { return l.names.count(name) != 0; });
    }

    Bag mapped(unsigned t, const Bag &x) const {
        const Lists &l = lists[t];
        Bag result;
        for (Name name : x) {
            if (l.names.count(name) == 0) {
                auto pair = l.renaming.find(name);
                result.insert(result.end(), pair == l.renaming.end() ? name : pair->second);
            }
        }
        return result;
    }

    const std::vector<Rule> &rules(unsigned t) const { return lists[t].rules; }

    Label number(const Bag &x) const {
        Label sum = TAU;
        for (Name name : x) {
            sum = sum + single(name - names.data());
        }
        return sum;
    }

  private:
    // The list of a term, in the form that its kind needs.
    struct Lists {
        Kind kind;
        std::set<Name> names;
        std::map<Name, Name> renaming;
        std::vector<Rule> rules;
        std::set<Bag> allowed;
    };

    std::vector<std::string> names;
    std::vector<Lists> lists;

    void prepare(const Term &term, Lists &l) const {
        l.kind = term.kind;
        for (const Label *label = term.list.begin(); label < term.list.end(); ++label) {
            switch (term.kind) {
            case Kind::rename:
                l.renaming[name(label[0])] = name(label[1]);
                ++label;
                break;
            case Kind::comm:
                l.rules.push_back({bag(label[0]), name(label[1])});
                ++label;
                break;
            case Kind::allow:
                l.allowed.insert(bag(*label));
                break;
            default:
                l.names.insert(name(*label));
            }
        }
    }

    // The first of a label.
    Name name(Label label) const { return &names[first_name(label)]; }

    Bag bag(Label label) const {
        Bag result;
        for (; label != TAU; label = label - single(first_name(label))) {
            result.insert(name(label));
        }
        return result;
    }
};

} // namespace

size_t alphabet_by_bags(const uint8_t *description, size_t length, uint8_t *text, size_t text_length) {
    return text_by<OrderedSets<BagsOfNames>>(description, length, text, text_length);
}
