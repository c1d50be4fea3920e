//! The library behind a boundary that cuts one value of its calls: the faults that wide values are to show.
use readings_check::answer::{Answer, Run, Started};
use readings_check::engine::{Engine, Next, Sheet, Sheets, Start, Texts, Trees};
use readings_check::library::Library;
use std::borrow::Cow;

/// A value that passes the boundary: the length of what is lent, named after it; its cells; a number; what is told.
#[derive(Clone, Copy, Debug, PartialEq, Eq)]
pub enum Part {
    ReadText,
    ReadTable,
    ReadCells,
    ReadLength,

    WriteTable,
    WriteCells,
    WriteText,
    WriteLength,

    ListWords,
    ListTable,
    ListCells,
    ListLength,

    StartTable,
    StartCells,
    StartTask,
    StartCeiling,
    StartUpper,
    StartLower,
    StartRun,
    StartLength,

    NextTable,
    NextCells,
    NextUpper,
    NextLower,
    NextTask,
    NextStarted,
    NextDepth,
    NextCeiling,
    NextRun,
    NextStack,
    NextFrames,
    NextAllowance,
    NextOutput,
    NextSteps,
    NextLength,
    // Of run and stack, what the call leaves there.
    LeftStarted,
    LeftDepth,
    LeftFrames,

    SheetReadings,
    SheetEnded,
    SheetText,
    SheetLength,
}

/// What becomes of a value.
#[derive(Clone, Copy, Debug)]
pub enum Cut {
    /// So many of its low bits are left.
    Low(u32),
    /// Its remainder by this.
    Rest(usize),
    /// It is this at most.
    Most(usize),
    /// A text that is longer than this is refused.
    Refused(usize),
}

impl Cut {
    fn of(self, value: usize) -> usize {
        match self {
            Cut::Low(bits) => value % (1 << bits),
            Cut::Rest(by) => value % by,
            Cut::Most(most) => value.min(most),
            Cut::Refused(_) => value,
        }
    }
}

/// The library, with a fault or with none.
#[derive(Clone, Copy, Debug)]
pub struct Boundary {
    pub fault: Option<(Part, Cut)>,
}

/// The library as it is.
pub const SOUND: Boundary = Boundary { fault: None };

impl Boundary {
    fn length(&self, part: Part, value: usize) -> usize {
        match self.fault {
            Some((faulty, cut)) if faulty == part => cut.of(value),
            _ => value,
        }
    }

    fn number(&self, part: Part, value: u32) -> u32 {
        self.length(part, value as usize) as u32
    }

    fn run(&self, part: Part, run: Run) -> Run {
        Run {
            task: self.number(part, run.task),
            started: self.number(part, run.started),
            depth: self.number(part, run.depth),
            ceiling: self.number(part, run.ceiling),
        }
    }

    fn front<'a, T>(&self, part: Part, slice: &'a [T]) -> &'a [T] {
        &slice[..self.length(part, slice.len())]
    }

    fn front_mut<'a, T>(&self, part: Part, slice: &'a mut [T]) -> &'a mut [T] {
        let length = self.length(part, slice.len());
        &mut slice[..length]
    }

    /// Cells, each cut; a copy only where they are.
    fn cells<'a>(&self, part: Part, cells: &'a [u16]) -> Cow<'a, [u16]> {
        match self.fault {
            Some((faulty, cut)) if faulty == part => {
                let narrow = cells.iter().map(|c| cut.of(usize::from(*c)) as u16);
                Cow::Owned(narrow.collect())
            }
            _ => Cow::Borrowed(cells),
        }
    }

    /// The same in their place.
    fn cut_cells(&self, part: Part, cells: &mut [u16]) {
        if let Cow::Owned(narrow) = self.cells(part, cells) {
            cells.copy_from_slice(&narrow);
        }
    }

    fn frames(&self, part: Part, stack: &mut [u32]) {
        if self.fault.is_some_and(|(faulty, _)| faulty == part) {
            for cell in stack {
                *cell = self.number(part, *cell);
            }
        }
    }
}

impl Texts for Boundary {
    fn read(&self, text: &[u8], table: &mut [u16]) -> Answer {
        if let Some((Part::ReadText, Cut::Refused(most))) = self.fault
            && text.len() > most
        {
            return Answer::refused(3, 0);
        }
        let table = self.front_mut(Part::ReadTable, table);
        let mut answer = Library.read(self.front(Part::ReadText, text), table);
        self.cut_cells(Part::ReadCells, table);
        answer.length = self.number(Part::ReadLength, answer.length);
        answer
    }

    fn write(&self, table: &[u16], text: &mut [u8]) -> Answer {
        let table = self.cells(Part::WriteCells, self.front(Part::WriteTable, table));
        let mut answer = Library.write(&table, self.front_mut(Part::WriteText, text));
        answer.length = self.number(Part::WriteLength, answer.length);
        answer
    }
}

impl Trees for Boundary {
    fn tree(&self, words: &[u8], table: &mut [u16]) -> Answer {
        let table = self.front_mut(Part::ListTable, table);
        let mut answer = Library.tree(self.front(Part::ListWords, words), table);
        self.cut_cells(Part::ListCells, table);
        answer.length = self.number(Part::ListLength, answer.length);
        answer
    }
}

impl Engine for Boundary {
    fn start(&self, start: Start, run: &mut Run) -> Started {
        let table = self.front(Part::StartTable, start.table);
        let narrow = Start {
            table: &self.cells(Part::StartCells, table),
            task: self.number(Part::StartTask, start.task),
            ceiling: self.number(Part::StartCeiling, start.ceiling),
            upper: self.front(Part::StartUpper, start.upper),
            lower: self.front(Part::StartLower, start.lower),
        };
        let mut started = Library.start(narrow, run);
        *run = self.run(Part::StartRun, *run);
        started.answer.length = self.number(Part::StartLength, started.answer.length);
        started
    }

    fn next(&self, call: Next) -> Answer {
        let run = call.run;
        let stack = self.front_mut(Part::NextStack, call.stack);
        self.frames(Part::NextFrames, stack);
        let given = *run;
        run.task = self.number(Part::NextTask, given.task);
        run.started = self.number(Part::NextStarted, given.started);
        run.depth = self.number(Part::NextDepth, given.depth);
        run.ceiling = self.number(Part::NextCeiling, given.ceiling);
        let handed = *run;
        let table = self.front(Part::NextTable, call.table);
        let mut answer = Library.next(Next {
            table: &self.cells(Part::NextCells, table),
            upper: self.front(Part::NextUpper, call.upper),
            lower: self.front(Part::NextLower, call.lower),
            run,
            stack,
            allowance: self.number(Part::NextAllowance, call.allowance),
            output: self.front_mut(Part::NextOutput, call.output),
        });
        answer.steps = self.number(Part::NextSteps, answer.steps);
        answer.length = self.number(Part::NextLength, answer.length);
        if *run == handed {
            *run = given;
        } else {
            run.started = self.number(Part::LeftStarted, run.started);
            run.depth = self.number(Part::LeftDepth, run.depth);
        }
        *run = self.run(Part::NextRun, *run);
        self.frames(Part::LeftFrames, stack);
        answer
    }
}

impl Sheets for Boundary {
    fn sheet(&self, sheet: Sheet, destination: &mut [u8]) -> Answer {
        let narrow = Sheet {
            readings: self.front(Part::SheetReadings, sheet.readings),
            ended: self.number(Part::SheetEnded, sheet.ended),
            ..sheet
        };
        let mut answer = Library.sheet(narrow, self.front_mut(Part::SheetText, destination));
        answer.length = self.number(Part::SheetLength, answer.length);
        answer
    }
}
