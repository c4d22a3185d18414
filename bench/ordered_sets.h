// The rounds over std::set, for any representation of a label. Peers (a) and (b) are this with bags of names and with words.
//
// A representation `Form` has
//   Form(description), which prepares the lists of the terms;
//   Form::Bag, with an order; act(name) and tau();
//   join(x, y), their sum, and actions(x), how many actions there are in it;
//   passes(t, x), whether block or allow of term t keeps x;
//   mapped(t, x), what hide or rename of term t makes of x;
//   rules(t), each with apply(rest, sum), which takes the left side out of both and adds the right side to the sum, where the
//   left side lies inside the rest, and undo(rest, sum);
//   number(x), the packed label.
#pragma once

#include "answer.h"

#include <algorithm>
#include <set>
#include <utility>

template <class Form> class OrderedSets {
    using Bag = typename Form::Bag;
    using Set = std::set<Bag>;

    const Description &d;
    Form form;
    std::vector<Set> sets;
    // Whether a term's set grew in this round, and whether an equation's did in the round before. Sets only grow, so a set
    // that has as many labels as before is the same.
    std::vector<bool> grew;
    std::vector<bool> equation_grew;
    size_t labels_together = 0;

  public:
    explicit OrderedSets(const Description &description)
        : d(description), form(description), sets(d.term_count), grew(d.term_count), equation_grew(d.equation_count) {}

    Answer answer() {
        for (unsigned round = 1;; ++round) {
            if (!work_out_round(round == 1)) {
                return Answer::too_large();
            }
            if (!note_equations()) {
                return {false, round, numbers(sets[d.root])};
            }
        }
    }

  private:
    // Every term whose operands changed, from the equation sets of the round before. False where a limit is passed.
    bool work_out_round(bool is_first) {
        auto read = sets_read();
        for (unsigned t = 0; t < d.term_count; ++t) {
            grew[t] = false;
            if (d.terms[t].kind != Kind::ref && (is_first || operand_grew(d.terms[t]))) {
                Set set;
                if (!work_out(t, set) || !keep(t, std::move(set))) {
                    return false;
                }
            } else if (!read.empty() && read.back().first == t) {
                if (!keep(t, std::move(read.back().second))) {
                    return false;
                }
                read.pop_back();
            }
        }
        return true;
    }

    // What the refs read, the last first: taken before anything of this round is worked out, so it is of the round before.
    std::vector<std::pair<unsigned, Set>> sets_read() {
        std::vector<std::pair<unsigned, Set>> read;
        for (unsigned t = d.term_count; t-- > 0;) {
            if (d.terms[t].kind == Kind::ref && equation_grew[d.terms[t].first]) {
                read.emplace_back(t, sets[d.bodies[d.terms[t].first]]);
            }
        }
        return read;
    }

    bool operand_grew(const Term &term) const {
        bool has_second = term.kind >= Kind::choice && term.kind <= Kind::sync;
        return term.kind >= Kind::sum && (grew[term.first] || (has_second && grew[term.second]));
    }

    bool keep(unsigned t, Set set) {
        grew[t] = set.size() != sets[t].size();
        labels_together += set.size() - sets[t].size();
        sets[t] = std::move(set);
        return sets[t].size() <= MOST_LABELS_OF_A_SET && labels_together <= MOST_LABELS_OF_ALL_SETS;
    }

    bool note_equations() {
        for (unsigned e = 0; e < d.equation_count; ++e) {
            equation_grew[e] = grew[d.bodies[e]];
        }
        return std::find(equation_grew.begin(), equation_grew.end(), true) != equation_grew.end();
    }

    bool work_out(unsigned t, Set &set) {
        const Term &term = d.terms[t];
        switch (term.kind) {
        case Kind::act:
            set.insert(form.act(term.first));
            return true;
        case Kind::tau:
            set.insert(form.tau());
            return true;
        case Kind::delta:
        case Kind::ref:
            return true;
        case Kind::merge:
        case Kind::lmerge:
        case Kind::sync:
            if (!term.is_multi_action) {
                unite(term, set);
            }
            return add_product(sets[term.first], sets[term.second], set);
        case Kind::choice:
        case Kind::ifelse:
        case Kind::seq:
            unite(term, set);
            return true;
        default:
            return add_images(t, sets[term.first], set);
        }
    }

    void unite(const Term &term, Set &set) {
        set = sets[term.first];
        set.insert(sets[term.second].begin(), sets[term.second].end());
    }

    bool add_product(const Set &left, const Set &right, Set &set) {
        for (const Bag &x : left) {
            for (const Bag &y : right) {
                if (form.actions(x) + form.actions(y) > MOST_ACTIONS) {
                    return false;
                }
                set.insert(form.join(x, y));
            }
            if (set.size() > MOST_LABELS_OF_A_SET) {
                return false;
            }
        }
        return true;
    }

    bool add_images(unsigned t, const Set &from, Set &set) {
        switch (d.terms[t].kind) {
        case Kind::block:
        case Kind::allow:
            std::copy_if(from.begin(), from.end(), std::inserter(set, set.end()),
                         [&](const Bag &x) { return form.passes(t, x); });
            return true;
        case Kind::hide:
        case Kind::rename:
            for (const Bag &x : from) {
                set.insert(form.mapped(t, x));
            }
            return true;
        case Kind::comm:
            return add_communication(t, from, set);
        default:
            set = from;
            return true;
        }
    }

    bool add_communication(unsigned t, const Set &from, Set &set) {
        set = from;
        const auto &rules = form.rules(t);
        for (const Bag &x : from) {
            Bag rest = x;
            Bag sum = x;
            if (!add_choices(rules.begin(), rules.end(), rest, sum, from, set)) {
                return false;
            }
        }
        return true;
    }

    // Every choice of disjoint parts of what is left, those of a rule before those of the next, so that none is made twice. A
    // choice that comes to a label of the operand is not followed: of that label all is left, so all that follows from the
    // choice follows from it.
    template <class Rule> bool add_choices(Rule rule, Rule end, Bag &rest, Bag &sum, const Set &from, Set &set) {
        for (; rule != end; ++rule) {
            if (!rule->apply(rest, sum)) {
                continue;
            }
            if (from.count(sum) == 0) {
                set.insert(sum);
                if (set.size() > MOST_LABELS_OF_A_SET || !add_choices(rule, end, rest, sum, from, set)) {
                    return false;
                }
            }
            rule->undo(rest, sum);
        }
        return true;
    }

    std::vector<Label> numbers(const Set &set) const {
        std::vector<Label> result;
        for (const Bag &x : set) {
            result.push_back(form.number(x));
        }
        std::sort(result.begin(), result.end());
        return result;
    }
};
