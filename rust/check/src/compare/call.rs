//! One call for a reading: the answer, the run, and every cell that was lent.
use super::{RUN_GUARD, same};
use crate::answer::{Answer, Run};
use crate::engine::{Engine, Next};
use crate::lent::Lent;
use crate::model::Model;
use std::fmt;

/// What a call is handed; afterwards, what it left.
#[derive(Clone, Debug)]
pub struct Call {
    pub table: Vec<u16>,
    pub upper: Vec<u8>,
    pub lower: Vec<u8>,
    pub run: Run,
    pub stack: Vec<u32>,
    pub allowance: u32,
    pub output: Vec<u8>,
}

impl Call {
    pub fn lend(&mut self) -> Next<'_> {
        Next {
            table: &self.table,
            upper: &self.upper,
            lower: &self.lower,
            run: &mut self.run,
            stack: &mut self.stack,
            allowance: self.allowance,
            output: &mut self.output,
        }
    }
}

/// For a report: stack and output by their lengths, which with the seed and the case are enough.
impl fmt::Display for Call {
    fn fmt(&self, f: &mut fmt::Formatter) -> fmt::Result {
        let Call {
            table,
            upper,
            lower,
            run,
            stack,
            allowance,
            output,
        } = self;
        let (cells, letters) = (stack.len(), output.len());
        write!(f, "table {table:?}, words {upper:?} and {lower:?}")?;
        write!(f, ", {run:?}, {cells} cells of stack")?;
        write!(f, ", allowance {allowance}, {letters} letters of output")
    }
}

/// Makes a call with the model, with the engine, and compares. The call holds then what was left.
pub fn compare(engine: &impl Engine, call: &mut Call) -> Result<Answer, String> {
    let before = call.clone();
    let expected = Model.next(call.lend());
    check(engine, &before, call, expected)
        .map_err(|difference| format!("{difference}, in a call on {before}"))?;
    Ok(expected)
}

fn check(
    engine: &impl Engine,
    before: &Call,
    after: &Call,
    expected: Answer,
) -> Result<(), String> {
    let mut table = Lent::new(&before.table, 0xABCD);
    let mut upper = Lent::new(&before.upper, 0xAB);
    let mut lower = Lent::new(&before.lower, 0xAB);
    let mut run = Lent::new(&[before.run], RUN_GUARD);
    let mut stack = Lent::new(&before.stack, 0xABCD_EF01);
    let mut output = Lent::new(&before.output, 0xAB);
    let answer = engine.next(Next {
        table: table.lend(),
        upper: upper.lend(),
        lower: lower.lend(),
        run: &mut run.lend()[0],
        stack: stack.lend(),
        allowance: before.allowance,
        output: output.lend(),
    });
    same("answer", answer, expected)?;
    run.expect("run", &[after.run])?;
    stack.expect("stack", &after.stack)?;
    output.expect("output", &after.output)?;
    table.expect("table", &before.table)?;
    upper.expect("upper word", &before.upper)?;
    lower.expect("lower word", &before.lower)
}
