//! Random tables, about half of them with classes and two thirds with penalties, words and ceilings. Alphabets are small, so that words
//! have many readings. And random lists of readings with faces for a sheet.
pub mod classes;
pub mod lists;
pub mod penalties;

use crate::query;
use crate::random::Random;
use crate::sheet::Faces;
use crate::table::{Arc, Table};
use penalties::Share;

/// The letter of ways into a corner, which no other arc has and few words have.
const WAY_IN: u16 = 4;

/// What a random table is drawn from.
#[derive(Clone, Copy, Debug)]
struct Plan {
    states: usize,
    /// So many states are a corner, which at most one arc leads to from the rest.
    corner: usize,
    letters: usize,
    arcs: usize,
    /// One letter in so many is 0.
    blank: usize,
    /// So many classes are defined.
    classes: usize,
    /// Where there are classes, one arc in so many has one.
    classed: usize,
    penalties: Option<Share>,
}

fn plan(random: &mut Random) -> Plan {
    let states = match random.below(8) {
        0 => 1,
        1..=4 => random.within(2, 4),
        5..=6 => random.within(4, 9),
        _ => random.within(10, 40),
    };
    Plan {
        states,
        corner: if random.one_in(2) {
            random.within(1, 3).min(states - 1)
        } else {
            0
        },
        letters: random.within(1, 3),
        arcs: random.below(3 * states + 3),
        blank: random.within(2, 4),
        classes: match random.below(6) {
            0..=2 => 0,
            3 | 4 => random.within(1, 3),
            _ => random.within(4, 8),
        },
        classed: random.within(1, 5),
        penalties: penalties::share(random),
    }
}

fn letter(random: &mut Random, plan: Plan) -> u16 {
    if random.one_in(plan.blank) {
        0
    } else {
        random.within(1, plan.letters) as u16
    }
}

/// Some of these states in any order.
fn some(random: &mut Random, states: &[u16], least: usize) -> Vec<u16> {
    let mut some = states.to_vec();
    random.shuffle(&mut some);
    some.truncate(random.within(least, states.len()));
    some
}

/// A letter on a side that the task reads, so that the arc is not idle.
fn wake(random: &mut Random, task: u32, arc: &mut Arc, letter: u16) {
    match query::sides(task) {
        Some((true, true)) if random.one_in(2) => arc.lower = letter,
        Some((false, _)) => arc.lower = letter,
        _ => arc.upper = letter,
    }
}

fn is_blank(task: u32, arc: &Arc) -> bool {
    match task {
        query::SYNTHESIS => arc.upper == 0,
        query::ANALYSIS => arc.lower == 0,
        _ => arc.upper == 0 && arc.lower == 0,
    }
}

/// Arcs between any states, but none into the corner, which is the front of the order, from the rest. With `falling` those of the rest
/// that read nothing for the task lead up the order, so that none of them are in a cycle.
fn arcs(random: &mut Random, task: u32, plan: Plan, order: &[u16], falling: bool) -> Vec<Arc> {
    let mut arcs = Vec::new();
    for _ in 0..plan.arcs {
        let from = random.below(order.len());
        let in_corner = from < plan.corner;
        let to = random.within(if in_corner { 0 } else { plan.corner }, order.len() - 1);
        let (upper, lower) = (letter(random, plan), letter(random, plan));
        let mut arc = Arc::new(order[from], upper, lower, order[to]);
        if falling && !in_corner && is_blank(task, &arc) && from >= to {
            let letter = random.within(1, plan.letters) as u16;
            wake(random, task, &mut arc, letter);
        }
        arcs.push(arc);
    }
    arcs
}

/// Arcs that read and write nothing, round some states.
fn ring(states: &[u16]) -> impl Iterator<Item = Arc> {
    let next = states.iter().cycle().skip(1);
    states.iter().zip(next).map(|(a, b)| Arc::new(*a, 0, 0, *b))
}

/// Arcs by rising source, none twice, with penalties; those of one source in any order, or by their letters.
fn listed(random: &mut Random, plan: Plan, mut arcs: Vec<Arc>) -> Vec<Arc> {
    arcs.sort();
    arcs.dedup_by_key(|arc| arc.bare());
    penalties::put(random, plan.penalties, &mut arcs);
    if random.one_in(2) {
        reorder(random, &mut arcs);
    }
    arcs
}

/// Puts the arcs of each source in any order.
pub fn reorder(random: &mut Random, arcs: &mut [Arc]) {
    random.shuffle(arcs);
    arcs.sort_by_key(|arc| arc.source);
}

/// A table that keeps the rules. With `falling` arcs lead from the initial states to no cycle that reads nothing for the task; without,
/// they may, in any part or in the corner alone.
pub fn table(random: &mut Random, task: u32, falling: bool) -> Table {
    let plan = plan(random);
    drawn(random, plan, task, falling)
}

fn drawn(random: &mut Random, plan: Plan, task: u32, falling: bool) -> Table {
    let mut order: Vec<u16> = (0..plan.states as u16).collect();
    random.shuffle(&mut order);
    let (corner, rest) = order.split_at(plan.corner);
    let initials = if random.one_in(3) {
        some(random, rest, 1)
    } else {
        vec![*random.pick(rest)]
    };
    let mut terminals = some(random, &order, 0);
    terminals.sort();
    let way_in = !falling && !corner.is_empty() && random.one_in(2);
    let mut arcs = arcs(random, task, plan, &order, falling || way_in);
    let classes = classes::some(random, plan.classes);
    classes::put(random, &classes, &mut arcs, plan.classed);
    if random.one_in(2) {
        arcs.extend(ring(corner));
    }
    if way_in {
        let mut arc = Arc::new(*random.pick(rest), 0, 0, *random.pick(corner));
        wake(random, task, &mut arc, WAY_IN);
        arcs.push(arc);
    }
    Table {
        states: plan.states as u16,
        classes,
        initials,
        terminals,
        arcs: listed(random, plan, arcs),
    }
}

/// A table that keeps the rules, with many arcs that read and write nothing between few states, any of them: there are cycles of several
/// lengths, and several of one.
pub fn knotted(random: &mut Random, task: u32) -> Table {
    let plan = plan(random);
    let plan = Plan {
        states: random.within(3, 6),
        corner: plan.corner.min(2),
        arcs: random.below(7),
        ..plan
    };
    let mut table = drawn(random, plan, task, false);
    let states: Vec<u16> = (0..table.states).collect();
    let few = some(random, &states, 3);
    for _ in 0..random.within(3, 12) {
        let (source, target) = (*random.pick(&few), *random.pick(&few));
        if source != target || random.one_in(8) {
            table.arcs.push(Arc::new(source, 0, 0, target));
        }
    }
    table.arcs = listed(random, plan, table.arcs);
    table
}

/// Words for a task, and a ceiling that keeps the limit.
#[derive(Clone, Debug, Default)]
pub struct Asked {
    pub upper: Vec<u8>,
    pub lower: Vec<u8>,
    pub ceiling: u32,
}

/// The words of a walk of at most so many arcs, which so are passed on at least one path, and its sum of penalties.
fn walked(random: &mut Random, table: &Table, most: usize) -> Asked {
    let mut walked = Asked::default();
    let mut state = *random.pick(&table.initials);
    for _ in 0..random.within(0, most) {
        let arcs = table.arcs_of(state);
        if arcs.is_empty() {
            break;
        }
        let arcs = table.plain_arcs(*random.pick(arcs));
        let arc = *random.pick(&arcs);
        let letter = |letter: u16| (letter != 0).then_some(letter as u8);
        walked.upper.extend(letter(arc.upper));
        walked.lower.extend(letter(arc.lower));
        walked.ceiling += u32::from(arc.penalty);
        state = arc.target;
    }
    walked
}

fn word(random: &mut Random, most: usize) -> Vec<u8> {
    (0..random.within(0, most))
        .map(|_| random.within(1, 3) as u8)
        .collect()
}

/// Words for a task that keep the rules, most of them passed by some path, and a ceiling, often about that path's sum.
pub fn asked(random: &mut Random, table: &Table, task: u32) -> Asked {
    let most = *random.pick(&[3, 6, 10, 20, 64]);
    let mut asked = walked(random, table, most);
    if random.one_in(4) {
        (asked.upper, asked.lower) = (word(random, most), word(random, most));
    }
    let Asked {
        upper,
        lower,
        ceiling,
    } = &mut asked;
    if random.one_in(6) && !lower.is_empty() {
        let at = random.below(lower.len()); // another letter of a class, perhaps
        lower[at] = random.within(1, 4) as u8;
    }
    let (reads_upper, reads_lower) = query::sides(task).expect("a task");
    upper.truncate(if reads_upper { 64 } else { 0 });
    lower.truncate(if reads_lower { 64 } else { 0 });
    *ceiling = penalties::ceiling(random, *ceiling);
    asked
}

/// The words alone.
pub fn words(random: &mut Random, table: &Table, task: u32) -> (Vec<u8>, Vec<u8>) {
    let Asked { upper, lower, .. } = asked(random, table, task);
    (upper, lower)
}

/// Faces that keep the rules.
pub fn faces(random: &mut Random) -> Faces {
    let mut printable: Vec<u8> = (33..=126).collect();
    random.shuffle(&mut printable);
    std::array::from_fn(|k| printable[k])
}

/// The letters of a reading, about so many as fill lines.
fn reading(random: &mut Random, longest: usize) -> Vec<u8> {
    let length = match random.below(6) {
        0 => 0,
        1 => random.within(1, 9),
        2 => *random.pick(&[65, 66, 67, 131, 132, 133]),
        _ => random.below(longest + 1),
    };
    (0..length).map(|_| random.within(1, 63) as u8).collect()
}

/// A list of readings that keeps the rules: mostly few, or many short ones, or a long one.
pub fn readings(random: &mut Random) -> Vec<Vec<u8>> {
    let (count, longest) = match random.below(100) {
        0 => (random.within(900, 1_000), 3),
        1 => (random.within(1, 2), 65_535),
        2..=9 => (random.within(90, 110), 9),
        _ => (random.below(12), 200),
    };
    (0..count).map(|_| reading(random, longest)).collect()
}
