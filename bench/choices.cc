#include "choices.h"

#include "packed_words.h"

#include <algorithm>

namespace {

// Looks for ascending values in an ascending run, each from where the search before ended, by steps that double.
template <class Value> class Seeker {
    const Value *at;
    const Value *end;

  public:
    Seeker(const Value *first, size_t count) : at(first), end(first + count) {}

    bool finds(Value value) {
        ptrdiff_t step = 1;
        for (; step < end - at && at[step] < value; step *= 2) {
            at += step;
        }
        at = std::lower_bound(at, at + std::min(step + 1, end - at), value);
        return at != end && *at == value;
    }
};

} // namespace

// From the last rule to the first: each time one that adds as few names as can be to those that are looked for behind it, and
// of these one with which most other rules would add none. Until a rule has its place, `later` holds its own names.
void RuleOrder::prepare(List list) {
    count = list.size() / 2;
    for (unsigned i = 0; i < count; ++i) {
        rules[i] = {list.first[2 * i], list.first[2 * i + 1], names_of(list.first[2 * i])};
    }
    Label looked_for = TAU;
    for (unsigned open = count; open > 0; --open) {
        auto cost = [=](const Rule &rule) {
            Label names = looked_for | rule.later;
            auto adds_none = [=](const Rule &other) { return (other.later & ~names) == TAU; };
            int names_added = number_of_names(names & ~looked_for);
            return names_added * int(MOST_RULES) - int(std::count_if(rules, rules + open, adds_none));
        };
        auto is_better = [=](const Rule &x, const Rule &y) { return cost(x) < cost(y); };
        Rule &last = rules[open - 1];
        std::swap(*std::min_element(rules, rules + open, is_better), last);
        looked_for = looked_for | std::exchange(last.later, looked_for);
    }
}

bool Choices::take_results(const RuleOrder &rules, Run fresh, Run operand, RunMerger &merger) {
    std::vector<Choice> &choices = generations[0];
    choices.clear();
    for (Label label : fresh) {
        auto fits = [=](const RuleOrder::Rule &rule) { return lies_inside(rule.left, label); };
        if (std::any_of(rules.begin(), rules.end(), fits)) {
            choices.push_back({label, label});
        }
    }
    for (const RuleOrder::Rule &rule : rules) {
        if (choices.empty()) {
            return true;
        }
        if (!apply(rule, operand, merger)) {
            return false;
        }
        forget_all_but(rule.later);
    }
    return true;
}

bool Choices::apply(const RuleOrder::Rule &rule, Run operand, RunMerger &merger) {
    unsigned number = 0;
    do {
        ++number;
        if (!take_generation(rule, number, operand, merger)) {
            return false;
        }
    } while (!generations[number].empty());
    while (--number > 0) {
        add_new(generations[number], generations[number - 1]);
    }
    return true;
}

// What comes to a label of the operand need not be followed, since that label has all of itself left; nor need what was chosen
// before, as that was followed.
bool Choices::take_generation(const RuleOrder::Rule &rule, unsigned number, Run operand, RunMerger &merger) {
    const std::vector<Choice> &known = generations[0];
    std::vector<Choice> &made = generations[number];
    Label change = rule.right - rule.left;
    Seeker<Label> in_operand(operand.labels, operand.count);
    Seeker<Choice> in_known(known.data(), known.size());
    size_t count = 0;
    made.clear();
    for (const Choice &before : generations[number - 1]) {
        if (!lies_inside(rule.left, before.left)) {
            continue;
        }
        Choice choice = {before.label + change, before.left - rule.left};
        if (in_operand.finds(choice.label) || in_known.finds(choice)) {
            continue;
        }
        made.push_back(choice);
        if (count == 0 || merger.room()[count - 1] != choice.label) {
            if (count == MOST_LABELS_OF_A_SET) {
                return false;
            }
            merger.room()[count++] = choice.label;
        }
    }
    return count == 0 || merger.take(count);
}

// Choices that come to one label, and differ in what no later rule looks for, become one.
void Choices::forget_all_but(Label names) {
    std::vector<Choice> &choices = generations[0];
    for (Choice &choice : choices) {
        choice.left = choice.left & names;
    }
    auto end = choices.end();
    for (auto first = choices.begin(); first != end;) {
        auto last = std::find_if(first, end, [=](const Choice &choice) { return choice.label != first->label; });
        if (!std::is_sorted(first, last)) {
            std::sort(first, last);
        }
        first = last;
    }
    choices.erase(std::unique(choices.begin(), end), end);
}
