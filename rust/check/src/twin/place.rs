//! Refusal 21: is the run with its used frames a place in a search?
use super::fault;
use super::search::{Frame, Search};
use crate::answer::Run;

/// A frame without its sum as two numbers: the next arc above the state, and the lower count above the upper one.
#[inline(always)]
fn halves(frame: &Frame) -> (u64, u64) {
    let [state, next, up, low, _] = frame.map(u64::from);
    (next << 32 | state, low << 32 | up)
}

impl<const UP: bool, const LOW: bool, const FAULT: u8> Search<'_, UP, LOW, FAULT> {
    #[inline(always)]
    pub fn place_holds(&self, run: &Run, frames: &[Frame]) -> bool {
        let (started, depth) = (run.started as usize, run.depth as usize);
        if started > self.view.initials.len() || depth > self.room(frames) {
            return false;
        }
        let Some((bottom, above)) = frames[..depth].split_first() else {
            return true;
        };
        if started == 0 {
            return false;
        }
        let state = u32::from(self.view.initials[started - 1]);
        let is_new = (bottom[0], bottom[2], bottom[3], bottom[4]) == (state, 0, 0, 0);
        is_new && self.chain_holds(bottom, above)
    }

    /// Each frame is what the arc just tried in the one below makes, and its next arc is one of its state's or one past the last.
    #[inline(always)]
    fn chain_holds(&self, bottom: &Frame, above: &[Frame]) -> bool {
        let (mut below, mut counts) = halves(bottom);
        let mut spare = self.ceiling;
        let (mut first, mut end) = self.range(below as u32);
        for frame in above {
            let next = (below >> 32) as u32;
            if next <= first || next > end {
                return false;
            }
            // SAFETY: above its state's first arc and at most at its end, which is at most the number of arcs.
            let arc = unsafe { self.view.arcs.get_unchecked(next as usize - 1) };
            if !self.fits(arc, counts as u32, (counts >> 32) as u32, spare) {
                return false;
            }
            spare -= u32::from(arc[4]);
            counts += u64::from(arc[1] != 0) + (u64::from(arc[2] != 0) << 32);
            let (head, passed) = halves(frame);
            let sum_holds = frame[4] == self.ceiling - spare || FAULT == fault::SUM_TRUSTED;
            if head as u32 != u32::from(arc[3]) || passed != counts || !sum_holds {
                return false;
            }
            below = head;
            (first, end) = self.range(below as u32);
        }
        let next = (below >> 32) as u32;
        first <= next && next <= end
    }
}
