//! The steps of a call. The sides that are read are constants, so that each task has code of its own.
use super::check::{Arc, View};
use super::{classes, fault};
use crate::answer::{Answer, Run};
use crate::engine::Next;
use readings::limits::{FRAME_CELLS, MOST_CEILING};

/// State, next arc, letters passed above and below, sum of penalties.
pub type Frame = [u32; FRAME_CELLS];

pub struct Search<'a, const UP: bool, const LOW: bool, const FAULT: u8> {
    pub view: &'a View<'a>,
    /// The words with zeros after them: no letter of an arc is compared with a 0.
    upper: [u8; 128],
    lower: [u8; 128],
    upper_length: u32,
    lower_length: u32,
    pub ceiling: u32,
}

fn padded(word: &[u8]) -> [u8; 128] {
    let mut letters = [0; 128];
    letters[..word.len()].copy_from_slice(word);
    letters
}

impl<'a, const UP: bool, const LOW: bool, const FAULT: u8> Search<'a, UP, LOW, FAULT> {
    #[inline(always)]
    pub fn new(view: &'a View<'a>, call: &Next) -> Self {
        Search {
            view,
            upper: padded(call.upper),
            lower: padded(call.lower),
            upper_length: call.upper.len() as u32,
            lower_length: call.lower.len() as u32,
            ceiling: call.run.ceiling,
        }
    }

    /// The frames that may be used.
    #[inline(always)]
    pub fn room(&self, frames: &[Frame]) -> usize {
        frames.len().min(33_024)
    }

    /// The numbers of a state's first arc and of the one after its last.
    #[inline(always)]
    pub fn range(&self, state: u32) -> (u32, u32) {
        let at = state as usize & 255;
        (self.view.first[at].into(), self.view.first[at + 1].into())
    }

    /// Whether an arc fits by its letters and by what the ceiling has left above a sum.
    #[inline(always)]
    pub fn fits(&self, arc: &Arc, up: u32, low: u32, spare: u32) -> bool {
        let penalty = u32::from(arc[4]) + u32::from(FAULT == fault::CEILING_MISSED && arc[4] != 0);
        self.letters_fit(arc, up, low) && penalty <= spare
    }

    #[inline(always)]
    fn letters_fit(&self, arc: &Arc, up: u32, low: u32) -> bool {
        let above = u16::from(self.upper[up as usize & 127]);
        let below = u16::from(self.lower[low as usize & 127]);
        if classes::is_of_class(arc) {
            return self.class_fits(arc, above, below);
        }
        (!UP || arc[1] == 0 || arc[1] == above) && (!LOW || arc[2] == 0 || arc[2] == below)
    }

    /// The next letter is in an arc's class, and the same one in every word that is read.
    #[inline(always)]
    fn class_fits(&self, arc: &Arc, above: u16, below: u16) -> bool {
        let mut letters = classes::letters(&self.view.classes, arc);
        if FAULT == fault::NOUGHT_IN_CLASS {
            letters |= 1;
        }
        let has = |letter: u16| letters >> letter & 1 == 1;
        let alike = !UP || !LOW || above == below || FAULT == fault::UNLIKE_IN_CLASS;
        (!UP || has(above)) && (!LOW || has(below)) && alike
    }

    #[inline(always)]
    fn accepts(&self, state: u16, up: u32, low: u32) -> bool {
        let read = (!UP || up == self.upper_length) && (!LOW || low == self.lower_length);
        (read || FAULT == fault::UNREAD) && self.view.terminals.binary_search(&state).is_ok()
    }

    /// The letters that the arcs just tried in some frames write.
    #[inline(never)]
    fn gather(&self, frames: &[Frame], output: &mut [u8]) -> usize {
        if UP && LOW {
            return 0;
        }
        let side = if UP { 2 } else { 1 };
        let space = output.len();
        let mut letters = output.iter_mut();
        for frame in frames {
            // SAFETY: a place in the search: each of these frames has tried an arc.
            let arc = unsafe { self.view.arcs.get_unchecked(frame[1] as usize - 1) };
            let letter = match classes::is_of_class(arc) {
                true => self.letter_read(arc, frame),
                false => arc[side],
            };
            if letter != 0
                && let Some(place) = letters.next()
            {
                *place = letter as u8;
            }
        }
        space - letters.len()
    }

    /// The letter that an arc of a class has read after a frame.
    #[inline(always)]
    fn letter_read(&self, arc: &Arc, frame: &Frame) -> u16 {
        let (word, at) = match UP {
            true => (&self.upper, frame[2]),
            false => (&self.lower, frame[3]),
        };
        match FAULT {
            fault::CLASS_UNWRITTEN => 0,
            fault::CLASS_WRITTEN => arc[1],
            _ => word[at as usize & 127].into(),
        }
    }

    #[inline(always)]
    pub fn call(&self, call: Next) -> Answer {
        let Next {
            run,
            stack,
            allowance,
            output,
            ..
        } = call;
        let frames = stack.as_chunks_mut::<FRAME_CELLS>().0;
        if !self.place_holds(run, frames) {
            return Answer::refused(21, 0);
        }
        if FAULT == fault::CEILING_AFTER_PLACE && self.ceiling > MOST_CEILING {
            return Answer::refused(39, 0);
        }
        let mut steps = 0;
        loop {
            if run.depth != 0 {
                let answer = self.descend(run, frames, allowance, &mut steps, output);
                if let Some(answer) = answer {
                    return answer;
                }
            }
            // At depth 0: the end, the allowance, the next initial state.
            if FAULT == fault::ALLOWANCE_FIRST && steps == allowance {
                return Answer::paused(steps);
            }
            let Some(&state) = self.view.initials.get(run.started as usize) else {
                return Answer::ended(steps);
            };
            if steps == allowance {
                return Answer::paused(steps);
            }
            if frames.is_empty() {
                return Answer::refused(22, steps);
            }
            frames[0] = [state.into(), self.range(state.into()).0, 0, 0, 0];
            run.started += 1;
            run.depth = 1;
            steps += 1;
            if self.accepts(state, 0, 0) {
                return Answer::found(steps, 0);
            }
        }
    }

    /// Steps from a top frame on, until there is an answer or no frame is left.
    #[inline(always)]
    fn descend(
        &self,
        run: &mut Run,
        frames: &mut [Frame],
        allowance: u32,
        steps: &mut u32,
        output: &mut [u8],
    ) -> Option<Answer> {
        let arcs = self.view.arcs;
        let room = self.room(frames);
        let mut depth = run.depth as usize;
        let mut made = *steps;
        let [mut state, mut next, mut up, mut low, sum] = frames[depth - 1];
        let mut spare = match FAULT {
            fault::SUM_LOST => self.ceiling,
            _ => self.ceiling.wrapping_sub(sum),
        };
        let answer = loop {
            // Arcs that do not fit, as far as the allowance goes.
            let end = self.range(state).1;
            let stop = end.min(next.saturating_add(allowance - made));
            let rest = &arcs[next as usize..stop as usize];
            let skipped = rest.iter().position(|arc| self.fits(arc, up, low, spare));
            let Some(skipped) = skipped else {
                made += stop - next;
                frames[depth - 1][1] = stop;
                if made == allowance {
                    break Some(Answer::paused(made));
                }
                made += 1;
                depth -= 1;
                if depth == 0 {
                    break None;
                }
                let sum;
                [state, next, up, low, sum] = frames[depth - 1];
                spare = self.ceiling.wrapping_sub(sum);
                continue;
            };
            made += skipped as u32;
            next += skipped as u32;
            frames[depth - 1][1] = next + u32::from(FAULT == fault::TRIED_EARLY);
            let arc = &arcs[next as usize];
            if depth == room {
                break Some(Answer::refused(22, made));
            }
            let target = arc[3];
            let longer_up = up + u32::from(arc[1] != 0);
            let longer_low = low + u32::from(arc[2] != 0);
            let accepts = self.accepts(target, longer_up, longer_low);
            if accepts {
                let length = if UP && LOW {
                    0
                } else if UP {
                    longer_low
                } else {
                    longer_up
                };
                if length as usize > output.len() {
                    break Some(Answer::refused(23, made));
                }
            }
            next += 1;
            frames[depth - 1][1] = next;
            if FAULT == fault::DROPPED_EARLY && next == end {
                depth -= 1;
            }
            (state, up, low) = (target.into(), longer_up, longer_low);
            if FAULT != fault::UNSUMMED {
                spare -= u32::from(arc[4]);
            }
            next = self.range(state).0;
            frames[depth] = [state, next, up, low, self.ceiling.wrapping_sub(spare)];
            depth += 1;
            made += 1;
            if accepts {
                let count = self.gather(&frames[..depth - 1], output);
                break Some(Answer::found(made, count));
            }
        };
        run.depth = depth as u32;
        *steps = made;
        answer
    }
}
