//! Records of other classes whose names are spread over up to 24: others, which
//! nothing uses, stand between them. The names keep their order, and so do all
//! labels; but most labels have names on both sides of 11 and 12 then.

use crate::columns;
use crate::communication;
use crate::exact_kinds;
use crate::names;
use crate::random::Random;
use crate::recursion;
use crate::set_limits;
use crate::sync_operands;
use crate::well_formed;

/// How a record is made, and how often.
type Sort = (fn(&mut Random) -> Vec<u8>, usize);

const SORTS: &[Sort] = &[
    (well_formed::record, 45),
    (recursion::record, 14),
    (communication::record, 18),
    (recursion::turning, 2),
    (set_limits::actions_of_a_label, 6),
    (sync_operands::record, 5),
    (exact_kinds::record, 5),
    (columns::record, 5),
];

const AT_LIMITS: &[Sort] = &[
    (set_limits::labels_of_one_set, 45),
    (set_limits::labels_of_all_sets, 45),
    (set_limits::shared_bodies, 10),
];

pub fn record(random: &mut Random) -> Vec<u8> {
    one_of(random, SORTS)
}

/// Both sides of each limit of the sets.
pub fn at_limits(random: &mut Random) -> Vec<u8> {
    one_of(random, AT_LIMITS)
}

fn one_of(random: &mut Random, sorts: &[Sort]) -> Vec<u8> {
    let record = random.weighted(sorts)(random);
    let own = own_names(&record).len();
    let count = names::count(random).max(own);
    let above = count.saturating_sub(12);
    let (least, most) = (own.saturating_sub(12), own.min(above));
    // Mostly there are some on both sides, where that can be.
    let upper = if own > 1 && above > 0 && random.chance(75) {
        random.within(least.max(1)..=most.min(own - 1))
    } else {
        random.within(least..=most)
    };
    spread(random, &record, upper, count)
}

/// The record with so many names in all. Of its own so many are from 12 on.
pub fn spread(random: &mut Random, record: &[u8], upper: usize, count: usize) -> Vec<u8> {
    let own = own_names(record);
    let places = places(random, own.len() - upper, upper, count);
    let is_long = random.chance(20);
    let mut text = format!("names={}\n", count).into_bytes();
    for place in 0..count {
        match places.iter().position(|other| *other == place) {
            Some(at) => text.extend_from_slice(own[at]),
            None if is_long => text.extend(format!("name=u{:07}\n", place).bytes()),
            None => text.extend(format!("name=u{}\n", place).bytes()),
        }
    }
    let head = record.split_inclusive(|byte| *byte == b'\n').take(own.len() + 1);
    text.extend_from_slice(&record[head.map(<[u8]>::len).sum()..]);
    text
}

/// The lines behind the first that give names.
fn own_names(record: &[u8]) -> Vec<&[u8]> {
    let lines = record.split_inclusive(|byte| *byte == b'\n').skip(1);
    lines.take_while(|line| line.starts_with(b"name=")).collect()
}

/// So many places up to 11 and so many from 12 on, ascending; mostly 11 and 12
/// are among them.
fn places(random: &mut Random, lower: usize, upper: usize, count: usize) -> Vec<usize> {
    let mut places = random.several_below(count.min(12), lower);
    if let Some(last) = places.last_mut().filter(|_| count > 12 && random.chance(70)) {
        *last = 11;
    }
    let above = random.several_below(count.saturating_sub(12), upper);
    let first = places.len();
    places.extend(above.iter().map(|place| place + 12));
    if let Some(place) = places.get_mut(first).filter(|_| random.chance(70)) {
        *place = 12;
    }
    places
}
