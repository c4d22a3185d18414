// The names, labels and lists of a description.
#pragma once

#include "line_reader.h"

class ListReader : public LineReader {
    using NameTable = WordTable<MOST_NAMES, 6>;
    static_assert(shift_of(NameTable::NOT_THERE) < 64, "a label with an unknown name is read on");

    NameTable names;
    Label *free_place; // where the next label of a list goes

  public:
    ListReader(std::string_view text, Label *first_place) : LineReader(text), free_place(first_place) {}

    // Adds a name to those that are known, of which there are at most MOST_NAMES.
    bool take_new_name(std::string_view &name) {
        const char *first = place();
        Word word = take_word();
        name = {first, size_t(place() - first)};
        note(is_reserved(word) || names.find(word) != NameTable::NOT_THERE, Reason::name);
        names.add(word);
        return is_name(word);
    }

    bool take_name(unsigned &n) {
        Word word = take_word();
        n = names.find(word);
        note(n == NameTable::NOT_THERE, Reason::name);
        return is_name(word);
    }

    // A list comes with the end of its line.
    bool take_names(List &list) {
        return take_entries(list, MOST_NAMES, [this](Label &name) { return take_single(name) && put(name); });
    }

    bool take_pairs(List &list) {
        return take_entries(list, 2 * MOST_NAMES, [this](Label &from) {
            Label to;
            return take_single(from) && take('>') && take_single(to) && put(from) && put(to);
        });
    }

    bool take_rules(List &list) {
        return take_entries(list, 2 * MOST_RULES, [this](Label &left) {
            Label right;
            return take_label(left, 2) && take('>') && take_single(right) && put(left) && put(right);
        });
    }

    bool take_labels(List &list) {
        // No label begins like this, as its first name has a count.
        if (take("none\n")) {
            list = {free_place, free_place};
            return true;
        }
        return take_entries(list, MOST_LABELS_OF_A_LIST, [this](Label &label) { return take_label(label, 1) && put(label); });
    }

  private:
    // None of them is ever known, so that they are unknown names where one is used.
    static bool is_reserved(Word word) { return word == packed("tau") || word == packed("none") || word == packed("all"); }

    // The first letter is in the lowest byte. The digits are below the letters, and so is the 0 of no letter.
    static bool is_name(Word word) { return uint8_t(word) >= 'a'; }

    bool put(Label label) {
        *free_place++ = label;
        return true;
    }

    // Each entry puts its labels and gives the one by which the entries ascend, names as labels of one action.
    template <class Entry> bool take_entries(List &list, size_t most_labels, Entry entry) {
        list.first = free_place;
        Label before = TAU;
        do {
            Label key;
            if (!entry(key)) {
                return false;
            }
            note(key <= before, Reason::list);
            before = key;
        } while (take(','));
        list.last = free_place;
        note(list.size() > most_labels, Reason::list);
        return take('\n');
    }

    bool take_single(Label &label) {
        unsigned n;
        bool has_form = take_name(n);
        label = single(n);
        return has_form;
    }

    // The compiler would not inline it, and the place in the text would go through memory for each label: long lists take a
    // quarter less like this.
    [[gnu::always_inline]] bool take_label(Label &label, unsigned least_actions) {
        Label sum = TAU;
        unsigned actions = 0;
        unsigned least_name = 0;
        do {
            unsigned n;
            unsigned count;
            if (!(take_name(n) && take(':') && take_number(count))) {
                return false;
            }
            note(n < least_name || count == 0, Reason::list);
            least_name = n + 1;
            actions += count;
            sum = sum + times(count, n);
        } while (take('.'));
        note(actions < least_actions || actions > MOST_ACTIONS, Reason::list);
        label = sum;
        return true;
    }
};
