//! One look at every arc: its limits, its order, and the end of its source's arcs. Nothing here branches on what an arc holds.
use super::check::Arc;
use super::fault;

const _: () = assert!(
    cfg!(target_endian = "little"),
    "an arc's source is its lowest lane"
);

/// What all arcs have in common.
pub struct Seen {
    /// States, letters and penalties are within their limits.
    pub within: bool,
    /// No letter is a class.
    pub plain: bool,
    /// From arc to arc the source rises, or stays and the lower letter rises. So it is in letter trees, and then no arc stands twice.
    pub rising: bool,
}

/// The top bit of each lane.
const TOPS: u64 = 0x8000_8000_8000_8000;

/// In the lanes of the letters the bit that those within their limits have where they are classes.
const CLASS: u64 = 64 << 16 | 64 << 32;

/// The highest penalty.
const fn penalty<const FAULT: u8>() -> u16 {
    if FAULT == fault::PENALTY_256 {
        u16::MAX
    } else {
        255
    }
}

/// An arc without its penalty as one number: target, lower, upper, source from the highest lane down.
#[inline(always)]
pub fn lanes([source, upper, lower, target, _]: &Arc) -> u64 {
    // SAFETY: both types are eight bytes of any value.
    unsafe { std::mem::transmute([*source, *upper, *lower, *target]) }
}

/// The source above the lower letter.
fn key(lanes: u64) -> u64 {
    lanes << 48 | lanes << 16 >> 48
}

/// By arithmetic on whole arcs. A lane over its limit sets its top bit when the rest of its range is added.
#[inline(always)]
pub fn portable<const FAULT: u8>(arcs: &[Arc], states: u16, ends: &mut [u16; 257]) -> Seen {
    from::<FAULT>(arcs, 0, states, ends)
}

/// The arcs from one on.
#[inline(always)]
fn from<const FAULT: u8>(arcs: &[Arc], begin: usize, states: u16, ends: &mut [u16; 257]) -> Seen {
    let (state, letter) = (0x8000 - u64::from(states), 0x8000 - 72);
    let rest = state | letter << 16 | letter << 32 | state << 48;
    let (done, left) = arcs.split_at(begin);
    let mut before = done.last().map_or(u64::MAX, |arc| key(lanes(arc)));
    let (mut over, mut any, mut rising) = (0, 0, u64::MAX);
    let mut penalties = 0; // all their bits
    for (k, arc) in left.iter().enumerate() {
        penalties |= arc[4];
        let arc = lanes(arc);
        over |= arc | arc.wrapping_add(rest);
        any |= arc;
        rising &= before.wrapping_sub(key(arc)); // below 0 where it rises
        before = key(arc);
        ends[(arc & 255) as usize + 1] = (begin + k) as u16 + 1;
    }
    Seen {
        within: over & TOPS == 0 && penalties <= penalty::<FAULT>(),
        plain: any & CLASS == 0,
        rising: rising >> 63 == 1,
    }
}

/// Four arcs at once, with instructions that every x86-64 has.
#[cfg(target_arch = "x86_64")]
#[inline(always)]
pub fn vector<const FAULT: u8>(arcs: &[Arc], states: u16, ends: &mut [u16; 257]) -> Seen {
    use std::arch::x86_64::*;
    const FIRST: i32 = 0b00_10; // of an arc's first lanes the lower letter, then the source above it
    const SECOND: i32 = 0b01_11; // the same of the next arc, whose source is the second lane here
    let (fours, rest) = arcs.as_chunks::<4>();
    // SAFETY: the intrinsics are in the base set, and each load is of eight cells within two arcs.
    let (within, plain, rising) = unsafe {
        let (state, most) = (states as i16 - 1, penalty::<FAULT>() as i16);
        // Of two arcs the first eight cells, and the last eight.
        let heads = _mm_setr_epi16(state, 71, 71, state, most, state, 71, 71);
        let tails = _mm_setr_epi16(71, state, most, state, 71, 71, state, most);
        let mut over = _mm_setzero_si128();
        let mut any = _mm_setzero_si128();
        let mut rising = _mm_set1_epi32(-1);
        let mut before = _mm_set1_epi32(-1);
        for (k, four) in fours.iter().enumerate() {
            let cells = four.as_flattened().as_ptr();
            let low = _mm_loadu_si128(cells.cast());
            let high = _mm_loadu_si128(cells.add(10).cast());
            let low_tail = _mm_loadu_si128(cells.add(2).cast());
            let high_tail = _mm_loadu_si128(cells.add(12).cast());
            over = _mm_or_si128(over, _mm_subs_epu16(low, heads));
            over = _mm_or_si128(over, _mm_subs_epu16(high, heads));
            over = _mm_or_si128(over, _mm_subs_epu16(low_tail, tails));
            over = _mm_or_si128(over, _mm_subs_epu16(high_tail, tails));
            any = _mm_or_si128(any, _mm_or_si128(low, high));
            let low = _mm_shufflehi_epi16::<SECOND>(_mm_shufflelo_epi16::<FIRST>(low));
            let high = _mm_shufflehi_epi16::<SECOND>(_mm_shufflelo_epi16::<FIRST>(high));
            let keys = _mm_castps_si128(_mm_shuffle_ps::<0b10_00_10_00>(
                _mm_castsi128_ps(low),
                _mm_castsi128_ps(high),
            ));
            let one_back = _mm_or_si128(_mm_slli_si128::<4>(keys), _mm_srli_si128::<12>(before));
            rising = _mm_and_si128(rising, _mm_cmpgt_epi32(keys, one_back));
            before = keys;
            for (j, arc) in four.iter().enumerate() {
                ends[(arc[0] as usize & 255) + 1] = (4 * k + j) as u16 + 1;
            }
        }
        let any = _mm_and_si128(any, _mm_setr_epi16(0, 64, 64, 0, 0, 0, 64, 64));
        let none = |lanes| _mm_movemask_epi8(_mm_cmpeq_epi16(lanes, _mm_setzero_si128()));
        (
            none(over) == 0xFFFF,
            none(any) == 0xFFFF,
            _mm_movemask_epi8(rising) == 0xFFFF,
        )
    };
    let tail = from::<FAULT>(arcs, arcs.len() - rest.len(), states, ends);
    Seen {
        within: within && tail.within,
        plain: plain && tail.plain,
        rising: rising && tail.rising,
    }
}

#[cfg(not(target_arch = "x86_64"))]
pub use portable as vector;
