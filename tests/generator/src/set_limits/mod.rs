//! Both sides of each limit of the sets.

mod sized;

use crate::draft::{doubled, Draft, GROWING};
use crate::lists::{self, Lists};
use crate::names;
use crate::random::Random;
use crate::well_formed::order;
use sized::Sized;

/// 1,023 to 1,026 labels in one set, far under 2,048 in all.
pub fn labels_of_one_set(random: &mut Random) -> Vec<u8> {
    let size = random.within(1_023..=1_026);
    let has_tau = random.chance(50);
    let size_with_tau = size + usize::from(!has_tau);
    let sides: Vec<usize> = (12..=85)
        .filter(|side| size_with_tau % side == 0 && (12..=85).contains(&(size_with_tau / side)))
        .collect();
    let side = random.pick(&sides);
    let mut sized = Sized::new(random);
    let left = sized.set_of(random, side, has_tau);
    let has_tau_too = has_tau && random.chance(50);
    let right = sized.set_of(random, size_with_tau / side, has_tau_too);
    let top = sized.merge(random, left, right);
    assert_eq!(top.size(), size, "the size that was asked for");
    assert!(sized.together() < 2_000, "the other limit is far");
    let mut draft = sized.draft;
    if random.chance(30) {
        draft.bodies.push(top.term);
    }
    draft.root = if random.chance(70) { top.term } else { left.term };
    draft.order = mostly_short(random, &draft.names);
    draft.bytes()
}

/// 2,046 to 2,050 labels in all sets together, none of them near 1,024.
pub fn labels_of_all_sets(random: &mut Random) -> Vec<u8> {
    let together = random.within(2_046..=2_050);
    let mut sized = Sized::new(random);
    let has_tau = random.chance(50);
    let size = random.within(100..=500);
    sized.set_of(random, size, has_tau);
    while sized.together() < together {
        let room = together - sized.together();
        let mut fitting = sized.nodes.clone();
        fitting.retain(|node| node.size() <= room);
        fitting.sort_by_key(|node| std::cmp::Reverse(node.size()));
        let chosen = random.pick(&fitting[..fitting.len().min(3)]);
        sized.copy(random, chosen);
    }
    assert!(sized.draft.terms.len() <= 96, "the number of terms");
    if random.chance(50) {
        sized.make_bodies();
    }
    let mut draft = sized.draft;
    draft.root = random.below(draft.terms.len());
    draft.order = mostly_short(random, &draft.names);
    draft.bytes()
}

/// A set of a thousand labels is seldom listed whole: that would make the
/// texts long and show nothing new.
fn mostly_short(random: &mut Random, names: &[String]) -> String {
    if random.chance(10) {
        String::from("all")
    } else {
        Lists::new(names, &[]).labels(random, 32)
    }
}

/// A label with 30 to 33 actions, or with many more, in a term that may be
/// used, wrapped, or not used at all.
pub fn actions_of_a_label(random: &mut Random) -> Vec<u8> {
    let actions = if random.chance(85) { random.within(30..=33) } else { random.within(34..=62) };
    let names = random.within(1..=12);
    let first = random.within(actions.saturating_sub(31).max(1)..=31.min(actions - 1));
    let mut draft = Draft::with_letters(names);
    // Half of the records use the last names only, whose numbers are large.
    let used = if random.chance(50) { names } else { names.min(2) };
    let mut left = add_label(random, &mut draft, used, first);
    if random.chance(30) {
        left = draft.one("sum", left);
    }
    let right = add_label(random, &mut draft, used, actions - first);
    let top = draft.two(random.pick(GROWING), left, right);
    draft.root = match random.below(6) {
        0 => draft.with_list("hide", top, "a"),
        1 => draft.with_list("block", top, "a"),
        2 => draft.with_list("allow", top, "none"),
        3 => left,
        _ => top,
    };
    draft.order = order(random, &draft.names, &[]);
    draft.bytes()
}

/// A multi-action with so many actions of the last `used` names.
fn add_label(random: &mut Random, draft: &mut Draft, used: usize, actions: usize) -> usize {
    let mut label = vec![0; draft.names.len() - used];
    label.extend(lists::label(random, used, actions..=actions));
    draft.multi_action(&label)
}

/// Several equations with one large body: the equations add nothing to the
/// labels of all sets, however many they are.
pub fn shared_bodies(random: &mut Random) -> Vec<u8> {
    let mut sized = Sized::new(random);
    let size = random.within(150..=1_000);
    let has_tau = random.chance(50);
    let top = sized.set_of(random, size, has_tau);
    let mut draft = sized.draft;
    let references = random.within(0..=3);
    for _ in 0..references {
        draft.one("ref", random.below(16));
    }
    draft.bodies = vec![top.term; 16];
    if random.chance(30) {
        draft.bodies[random.below(16)] = draft.root;
    }
    draft.order = mostly_short(random, &draft.names);
    draft.bytes()
}

/// Dies that each give one of several reports, merged by doubling, with
/// communication or a filter on top: small ones and such as pass a limit.
pub fn dies(random: &mut Random) -> Vec<u8> {
    let reports = random.within(1..=5);
    let dies = random.within(2..=[33, 33, 18, 11, 8][reports - 1]);
    let mut draft = Draft::with_letters(reports + 2);
    let one_of_them = draft.one_of_the_first(reports);
    let die = draft.one("ref", 0);
    let body = draft.two("seq", one_of_them, die);
    draft.bodies.push(body);
    let top = doubled(die, dies, &mut |left, right| draft.side_by_side(random, left, right));
    match random.below(4) {
        0 => {
            let list = Lists::new(&draft.names, &[]).rules(random, 3);
            draft.with_list("comm", top, &list);
        }
        1 => {
            // A stripe that closes on all its dies or on one less.
            let report = draft.names[0].clone();
            let closed = draft.names[reports].clone();
            let on = random.within(2.max(dies - 1).min(31)..=dies.clamp(2, 31));
            draft.with_list("comm", top, &format!("{}:{}>{}", report, on, closed));
        }
        2 => {
            let list = Lists::new(&draft.names, &[]).plain_names(random);
            draft.with_list("block", top, &list);
        }
        _ => (),
    }
    draft.order = mostly_short(random, &draft.names);
    draft.bytes()
}

/// Some 970 labels, most of them with all of 24 names, and these of the greatest
/// length: texts that are nearly as long as any.
pub fn longest_texts(random: &mut Random) -> Vec<u8> {
    let mut draft = Draft::new(names::long(24));
    let acts: Vec<usize> = (0..24).map(|name| draft.act(name)).collect();
    let all = acts[1..].iter().fold(acts[0], |all, act| draft.two("sync", all, *act));
    // With one more of some names, and with up to three more of the first six.
    let mut long = all;
    for act in &acts[..random.within(11..=15)] {
        let one_more = draft.two("sync", all, *act);
        long = draft.two("choice", long, one_more);
    }
    let one = acts[1..6].iter().fold(acts[0], |any, act| draft.two("choice", any, *act));
    let two = draft.side_by_side(random, one, one);
    let three = draft.side_by_side(random, two, one);
    draft.side_by_side(random, long, three);
    draft.bytes()
}
