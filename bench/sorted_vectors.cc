// Peer (c): as fast as it could be written by hand with sorted vectors. Sets only grow from round to round, so each term is
// given the labels that are new in its operands, and only terms with such an operand are looked at.
#include "choices.h"
#include "packed_words.h"
#include "peers.h"
#include "runs.h"

#include <algorithm>

namespace {

static_assert(MOST_TERMS <= 128, "a set of terms is one number");
using TermSet = unsigned __int128;

constexpr TermSet only(unsigned t) { return TermSet{1} << t; }

unsigned lowest(TermSet terms) {
    uint64_t low = uint64_t(terms);
    return low != 0 ? __builtin_ctzll(low) : 64 + __builtin_ctzll(uint64_t(terms >> 64));
}

struct GrowingSet {
    std::vector<Label> all;   // with what is new
    std::vector<Label> fresh; // what is new in this round
    std::vector<Label> read;  // of a ref: what it reads in the next round
    unsigned most_actions;
    TermSet users;   // the terms that have this one as an operand
    TermSet readers; // the refs to equations that have it as body
};

// Kept from call to call, so that a call allocates next to nothing.
struct Workspace {
    GrowingSet sets[MOST_TERMS];
    ListedNames names[MOST_TERMS];
    RuleOrder rules[MOST_TERMS];
    RunMerger merger;
    Choices choices;
    std::vector<Label> scratch;
};

class SortedVectors {
    const Description &d;
    Workspace &w;
    TermSet due;
    TermSet due_next = 0;
    TermSet grown = 0;
    TermSet bodies = 0;
    size_t labels_together = 0;

    static Workspace &workspace() {
        static Workspace the_workspace;
        return the_workspace;
    }

  public:
    explicit SortedVectors(const Description &description) : d(description), w(workspace()), due(only(d.term_count) - 1) {
        for (unsigned t = 0; t < d.term_count; ++t) {
            w.sets[t].all.clear();
            w.sets[t].fresh.clear();
            w.sets[t].read.clear();
            w.sets[t].most_actions = 0;
            w.sets[t].users = w.sets[t].readers = 0;
            note_operands(t);
            if (d.terms[t].kind == Kind::comm) {
                w.rules[t].prepare(d.terms[t].list);
            } else if (lists_names(d.terms[t].kind)) {
                w.names[t].prepare(d.terms[t]);
            }
        }
        note_bodies();
    }

    Answer answer() {
        for (unsigned round = 1;; ++round) {
            if (!work_out_round()) {
                return Answer::too_large();
            }
            if ((grown & bodies) == 0) {
                return {false, round, w.sets[d.root].all};
            }
            hand_on();
        }
    }

  private:
    void note_operands(unsigned t) {
        const Term &term = d.terms[t];
        if (term.kind >= Kind::sum) {
            w.sets[term.first].users |= only(t);
        }
        if (term.kind >= Kind::choice && term.kind <= Kind::sync) {
            w.sets[term.second].users |= only(t);
        }
    }

    void note_bodies() {
        for (unsigned e = 0; e < d.equation_count; ++e) {
            bodies |= only(d.bodies[e]);
        }
        for (unsigned t = 0; t < d.term_count; ++t) {
            if (d.terms[t].kind == Kind::ref) {
                w.sets[d.bodies[d.terms[t].first]].readers |= only(t);
            }
        }
    }

    bool work_out_round() {
        for (; due != 0; due &= due - 1) {
            unsigned t = lowest(due);
            if (!work_out(t)) {
                return false;
            }
            if (!w.sets[t].fresh.empty()) {
                if (!keep(w.sets[t])) {
                    return false;
                }
                grown |= only(t);
                due |= w.sets[t].users;
                due_next |= w.sets[t].readers;
            }
        }
        return true;
    }

    bool keep(GrowingSet &set) {
        labels_together += set.fresh.size();
        add_new(set.fresh, set.all);
        for (const Label &label : set.fresh) {
            set.most_actions = std::max(set.most_actions, actions_of(label));
        }
        return set.all.size() <= MOST_LABELS_OF_A_SET && labels_together <= MOST_LABELS_OF_ALL_SETS;
    }

    // What is new goes to the refs, and is no longer new.
    void hand_on() {
        for (TermSet refs = due_next; refs != 0; refs &= refs - 1) {
            unsigned t = lowest(refs);
            w.sets[t].read = w.sets[d.bodies[d.terms[t].first]].fresh;
        }
        for (; grown != 0; grown &= grown - 1) {
            w.sets[lowest(grown)].fresh.clear();
        }
        due = due_next;
        due_next = 0;
    }

    // Puts the labels that are new in the term's set. False where there are too many of them.
    bool work_out(unsigned t) {
        const Term &term = d.terms[t];
        GrowingSet &set = w.sets[t];
        switch (term.kind) {
        case Kind::act:
            set.fresh.assign(1, single(term.first));
            return true;
        case Kind::tau:
            set.fresh.assign(1, TAU);
            return true;
        case Kind::delta:
            return true;
        case Kind::ref:
            std::swap(set.fresh, set.read);
            set.read.clear();
            return true;
        case Kind::sum:
        case Kind::cond:
            set.fresh = w.sets[term.first].fresh;
            return true;
        default:
            return term.kind < Kind::block ? add_both(term, set) : add_images(t, w.sets[term.first], set);
        }
    }

    bool add_both(const Term &term, GrowingSet &set) {
        const GrowingSet &left = w.sets[term.first];
        const GrowingSet &right = w.sets[term.second];
        w.merger.start();
        if (!term.is_multi_action && !(take_fresh(left) && take_fresh(right))) {
            return false;
        }
        if (term.kind >= Kind::merge && !take_product(left, right)) {
            return false;
        }
        leave_out(w.merger.result(), set.all, set.fresh);
        return true;
    }

    bool take_fresh(const GrowingSet &set) { return set.fresh.empty() || w.merger.take(set.fresh); }

    // Every sum with a label that is new on either side.
    bool take_product(const GrowingSet &left, const GrowingSet &right) {
        if (left.all.empty() || right.all.empty()) {
            return true;
        }
        if (left.most_actions + right.most_actions > MOST_ACTIONS) {
            return false;
        }
        if (&left == &right) {
            return take_square(left);
        }
        if (left.fresh.size() == left.all.size()) {
            return take_sums(left.all, right.all);
        }
        if (!take_sums(left.fresh, right.all)) {
            return false;
        }
        if (right.fresh.empty()) {
            return true;
        }
        leave_out(left.all, left.fresh, w.scratch);
        return take_sums(w.scratch, right.fresh);
    }

    // Of two labels that are both new, each sum is made once.
    bool take_square(const GrowingSet &set) {
        if (set.fresh.size() < set.all.size()) {
            return take_sums(set.fresh, set.all);
        }
        for (size_t i = 0; i < set.all.size(); ++i) {
            if (!take_shifted(set.all[i], Run(&set.all[i], set.all.size() - i))) {
                return false;
            }
        }
        return true;
    }

    bool take_sums(Run x, Run y) {
        if (y.count < x.count) {
            std::swap(x, y);
        }
        for (Label label : x) {
            if (!take_shifted(label, y)) {
                return false;
            }
        }
        return true;
    }

    // A run stays ascending when one label is added to all of it.
    bool take_shifted(Label label, Run run) {
        std::transform(run.begin(), run.end(), w.merger.room(), [=](Label other) { return label + other; });
        return w.merger.take(run.count);
    }

    bool add_images(unsigned t, const GrowingSet &operand, GrowingSet &set) {
        const Term &term = d.terms[t];
        const std::vector<Label> &from = operand.fresh;
        switch (term.kind) {
        case Kind::block:
            keep_if(from, set, [&](Label label) { return !w.names[t].occur_in(label); });
            return true;
        case Kind::hide:
            add_mapped(from, set, [&](Label label) { return w.names[t].hidden_in(label); });
            return true;
        case Kind::rename:
            add_mapped(from, set, [&](Label label) { return w.names[t].renamed_in(label); });
            return true;
        case Kind::allow:
            keep_if(from, set, [&](Label label) {
                return label == TAU || std::binary_search(term.list.begin(), term.list.end(), label);
            });
            return true;
        default:
            return add_communication(t, operand, set);
        }
    }

    // A label that is new in the operand and passes is new here.
    template <class Test> static void keep_if(const std::vector<Label> &from, GrowingSet &set, Test test) {
        set.fresh.clear();
        std::copy_if(from.begin(), from.end(), std::back_inserter(set.fresh), test);
    }

    template <class Map> void add_mapped(const std::vector<Label> &from, GrowingSet &set, Map map) {
        w.scratch.resize(from.size());
        std::transform(from.begin(), from.end(), w.scratch.begin(), map);
        std::sort(w.scratch.begin(), w.scratch.end());
        w.scratch.erase(std::unique(w.scratch.begin(), w.scratch.end()), w.scratch.end());
        leave_out(w.scratch, set.all, set.fresh);
    }

    // The labels themselves, and what the rules make of those that are new.
    bool add_communication(unsigned t, const GrowingSet &operand, GrowingSet &set) {
        w.merger.start();
        if (!take_fresh(operand) || !w.choices.take_results(w.rules[t], operand.fresh, operand.all, w.merger)) {
            return false;
        }
        leave_out(w.merger.result(), set.all, set.fresh);
        return true;
    }
};

} // namespace

size_t alphabet_by_vectors(const uint8_t *description, size_t length, uint8_t *text, size_t text_length) {
    return text_by<SortedVectors>(description, length, text, text_length);
}
