// What the rules of a comm make of many labels at once: a part of peer (c).
#pragma once

#include "runs.h"

// The rules of a comm in the order in which they are gone through. Any order will do, but it decides how much has to be known
// of what is left of a label: how often the names occur in it that later rules look for.
class RuleOrder {
  public:
    struct Rule {
        Label left;
        Label right;
        Label later; // the names in left sides behind this one, with all the bits of their counts
    };

    void prepare(List list);
    const Rule *begin() const { return rules; }
    const Rule *end() const { return rules + count; }

  private:
    Rule rules[MOST_RULES];
    unsigned count;
};

// Disjoint parts of a label that were chosen: what the label came to by it, and what is left of it. A rule changes all choices
// that it can be applied to by the same amount, so that they stay ascending.
struct Choice {
    Label label;
    Label left;

    bool operator<(const Choice &other) const { return label != other.label ? label < other.label : left < other.left; }
    bool operator==(const Choice &other) const { return label == other.label && left == other.left; }
};

class Choices {
    static constexpr unsigned MOST_PARTS = MOST_ACTIONS / 2;

    // What was chosen before a rule, and what comes of it when the rule is applied once, twice and so on.
    std::vector<Choice> generations[MOST_PARTS + 2];

  public:
    // Puts into the merger what the rules make of labels that are new in the operand. False where there is too much of it.
    bool take_results(const RuleOrder &rules, Run fresh, Run operand, RunMerger &merger);

  private:
    bool apply(const RuleOrder::Rule &rule, Run operand, RunMerger &merger);
    bool take_generation(const RuleOrder::Rule &rule, unsigned number, Run operand, RunMerger &merger);
    void forget_all_but(Label names);
};
