//! Random penalties of arcs, and ceilings for a search.
use crate::query::MOST_CEILING;
use crate::random::Random;
use crate::table::Arc;

/// Ceilings at the limit, beside it, and such that would be low ones if they were cut short.
pub const EDGES: [u32; 10] = [
    99_999,
    100_000,
    100_001,
    65_536,
    131_072,
    1 << 20,
    (1 << 24) + 5,
    1 << 31,
    u32::MAX - 1,
    u32::MAX,
];

/// Penalties on one arc in so many, from 1 to the highest one. A table has none, few small ones, or many of any size.
#[derive(Clone, Copy, Debug)]
pub struct Share {
    one_in: usize,
    most: usize,
}

pub fn share(random: &mut Random) -> Option<Share> {
    match random.below(6) {
        0 | 1 => None,
        2 => Some(Share { one_in: 4, most: 3 }),
        3 | 4 => Some(Share { one_in: 2, most: 9 }),
        _ => Some(Share {
            one_in: random.within(1, 3),
            most: 255,
        }),
    }
}

/// Puts penalties on some arcs.
pub fn put(random: &mut Random, share: Option<Share>, arcs: &mut [Arc]) {
    let Some(share) = share else {
        return;
    };
    for arc in arcs {
        if random.one_in(share.one_in) {
            let any = random.within(1, share.most);
            arc.penalty = *random.pick(&[any, any, share.most]) as u16;
        }
    }
}

/// A ceiling that keeps the limit: none, low, about a sum, or the highest.
pub fn ceiling(random: &mut Random, sum: u32) -> u32 {
    let ceiling = match random.below(9) {
        0 => 0,
        1 => random.within(1, 9) as u32,
        2 | 3 => sum,
        4 => sum + 1,
        5 => sum.saturating_sub(1),
        6 => random.below(sum as usize + 1) as u32,
        7 => random.below(4_000) as u32,
        _ => MOST_CEILING,
    };
    ceiling.min(MOST_CEILING)
}
