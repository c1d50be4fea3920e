//! A table of states, classes and arcs, and its loaded form, a list of cells.
use crate::rules;
use readings::limits::{ARC_CELLS, CLASS_LETTERS};

/// What stands on an arc for class 0; class k is k more.
pub const FIRST_CLASS: u16 = 64;

/// The letters of classes 0 to 7; a class without letters is not defined.
pub type Classes = [Vec<u16>; 8];

#[derive(Clone, Copy, Debug, PartialEq, Eq, PartialOrd, Ord)]
pub struct Arc {
    pub source: u16,
    pub upper: u16,
    pub lower: u16,
    pub target: u16,
    pub penalty: u16,
}

#[derive(Clone, Debug, Default, PartialEq, Eq)]
pub struct Table {
    pub states: u16,
    pub classes: Classes,
    pub initials: Vec<u16>,
    pub terminals: Vec<u16>,
    pub arcs: Vec<Arc>,
}

impl Arc {
    /// An arc without a penalty.
    pub fn new(source: u16, upper: u16, lower: u16, target: u16) -> Arc {
        Arc {
            source,
            upper,
            lower,
            target,
            penalty: 0,
        }
    }

    /// The same with a penalty.
    pub fn with_penalty(self, penalty: u16) -> Arc {
        Arc { penalty, ..self }
    }

    /// The same without its penalty: what two arcs are compared by.
    pub fn bare(self) -> Arc {
        self.with_penalty(0)
    }

    /// An arc of a class.
    pub fn of_class(source: u16, class: u16, target: u16) -> Arc {
        let letter = FIRST_CLASS + class;
        Arc::new(source, letter, letter, target)
    }

    /// No side has a class.
    pub fn is_plain(&self) -> bool {
        self.upper < FIRST_CLASS && self.lower < FIRST_CLASS
    }

    /// The same with one letter on both sides.
    pub fn with_letter(self, letter: u16) -> Arc {
        Arc {
            upper: letter,
            lower: letter,
            ..self
        }
    }

    /// The same with its letters exchanged.
    pub fn inverse(self) -> Arc {
        Arc {
            upper: self.lower,
            lower: self.upper,
            ..self
        }
    }

    pub fn cells(&self) -> [u16; ARC_CELLS] {
        [
            self.source,
            self.upper,
            self.lower,
            self.target,
            self.penalty,
        ]
    }
}

/// The letters of the class that a letter of an arc means, as far as it is defined.
pub fn class(classes: &Classes, letter: u16) -> Option<&[u16]> {
    let number = letter.checked_sub(FIRST_CLASS)?;
    let letters = classes.get(usize::from(number))?;
    (!letters.is_empty()).then_some(letters)
}

/// The cells of the classes: a row for each, its letters filled up with 0.
pub fn class_cells(classes: &Classes) -> Vec<u16> {
    let row = |letters: &Vec<u16>| {
        let mut row = letters.clone();
        row.resize(CLASS_LETTERS, 0);
        row
    };
    classes.iter().flat_map(row).collect()
}

impl Table {
    /// The four counts, the rows of the eight classes, the initial states, the terminal states, then five
    /// cells an arc.
    pub fn cells(&self) -> Vec<u16> {
        let mut cells = vec![
            self.states,
            self.initials.len() as u16,
            self.terminals.len() as u16,
            self.arcs.len() as u16,
        ];
        cells.extend(class_cells(&self.classes));
        cells.extend(&self.initials);
        cells.extend(&self.terminals);
        for arc in &self.arcs {
            cells.extend(arc.cells());
        }
        cells
    }

    /// The table at the front of some cells; none where they are too few or it breaks a rule (20).
    pub fn loaded(cells: &[u16]) -> Option<Table> {
        let mut rest = cells.iter().copied();
        let mut cell = || rest.next();
        let (states, initials, terminals, arcs) = (cell()?, cell()?, cell()?, cell()?);
        let mut fault = rules::counts(states, initials, terminals, arcs);
        let mut table = Table {
            states,
            ..Table::default()
        };
        for letters in &mut table.classes {
            let row: Option<Vec<u16>> = (0..CLASS_LETTERS).map(|_| cell()).collect();
            *letters = unfilled(row?);
            fault = fault.or(rules::letters(letters));
        }
        for _ in 0..initials {
            let state = cell()?;
            fault = fault.or(rules::initial(states, &table.initials, state));
            table.initials.push(state);
        }
        for _ in 0..terminals {
            let state = cell()?;
            fault = fault.or(rules::terminal(states, &table.terminals, state));
            table.terminals.push(state);
        }
        for _ in 0..arcs {
            let arc = Arc::new(cell()?, cell()?, cell()?, cell()?).with_penalty(cell()?);
            fault = fault.or_else(|| rules::arc(&table, arc, rules::ORDER));
            fault = fault.or(rules::penalty(arc.penalty));
            table.arcs.push(arc);
        }
        fault.is_none().then_some(table)
    }

    /// The same with the letters of each arc exchanged; arcs keep their numbers.
    pub fn inverse(&self) -> Table {
        Table {
            arcs: self.arcs.iter().map(|arc| arc.inverse()).collect(),
            ..self.clone()
        }
    }

    /// The arcs without a class that an arc stands for, by rising letter: itself where it has none.
    pub fn plain_arcs(&self, arc: Arc) -> Vec<Arc> {
        match class(&self.classes, arc.upper) {
            None => vec![arc],
            Some(letters) => letters.iter().map(|x| arc.with_letter(*x)).collect(),
        }
    }

    /// How many arcs have a source below a state: the number of its first arc.
    pub fn first_arc(&self, state: u16) -> usize {
        self.arcs.partition_point(|arc| arc.source < state)
    }

    /// The arcs of a state, by rising number.
    pub fn arcs_of(&self, state: u16) -> &[Arc] {
        let end = self.arcs.partition_point(|arc| arc.source <= state);
        &self.arcs[self.first_arc(state)..end]
    }

    pub fn is_terminal(&self, state: u16) -> bool {
        self.terminals.contains(&state)
    }
}

/// A row without the zeros at its end. A 0 before a letter stays, and breaks a rule.
fn unfilled(mut row: Vec<u16>) -> Vec<u16> {
    while row.last() == Some(&0) {
        row.pop();
    }
    row
}
