//! Full reckoning: each query works everything out afresh and keeps nothing for the next one.
//!
//! Within one query a cell that finished is not worked out again, since it would finish alike; without that, a
//! grid of sums would cost more than can be measured. It reports no runs: they depend on the past, which it
//! does not keep. So its transcript is that of the others without the lines that begin with `ran`.

use crate::cells::{CELLS, Cell};
use crate::engine::{CIRCLE, Engine, Fault, NINTH_ASK, Ran};
use crate::language::{Language, Step};
use crate::refusal::Refusal;
use crate::traces::Pairs;
use crate::values::Value;

/// A workbook that remembers inputs and definitions alone. The rest serves one query and is blank before the
/// next; it is kept so that a query need not make it.
pub struct Reckoning<L: Language> {
    inputs: Box<[L::Value; CELLS]>,
    language: L,
    defined: [bool; CELLS],
    // what has finished in this query, and the cells that have a value there
    finished: Box<[Option<L::Value>; CELLS]>,
    order: Vec<Cell>,
    // the cells being worked out
    path: Vec<Cell>,
    on_path: [bool; CELLS],
}

impl<L: Language> Reckoning<L> {
    fn forget_query(&mut self) {
        for cell in self.order.drain(..) {
            self.finished[cell.index()] = None;
        }
        for cell in self.path.drain(..) {
            self.on_path[cell.index()] = false;
        }
    }

    fn value(&mut self, cell: Cell) -> Result<L::Value, Fault> {
        if !self.defined[cell.index()] {
            return Ok(self.inputs[cell.index()]);
        }
        if let Some(value) = self.finished[cell.index()] {
            return Ok(value);
        }
        self.path.push(cell);
        self.on_path[cell.index()] = true;
        let value = self.run(cell)?;
        self.path.pop();
        self.on_path[cell.index()] = false;
        self.finished[cell.index()] = Some(value);
        self.order.push(cell);
        Ok(value)
    }

    fn run(&mut self, cell: Cell) -> Result<L::Value, Fault> {
        let mut pairs = Pairs::new();
        loop {
            let wanted = match self.language.step(cell, pairs.answers()) {
                Step::Ask(wanted) => wanted,
                Step::Give(value) => return Ok(value),
                Step::Fault(fault) => return Err(Fault::of_language(fault, cell)),
            };
            if pairs.is_full() {
                return Err(Fault::of_engine(NINTH_ASK, wanted, cell));
            }
            if self.on_path[wanted.index()] {
                return Err(Fault::of_engine(CIRCLE, wanted, cell));
            }
            let value = self.value(wanted)?;
            pairs.push(wanted, value);
        }
    }
}

impl<L: Language> Engine for Reckoning<L> {
    type Value = L::Value;

    fn new() -> Reckoning<L> {
        Reckoning {
            inputs: Box::new([L::Value::BLANK; CELLS]),
            language: L::default(),
            defined: [false; CELLS],
            finished: Box::new([None; CELLS]),
            order: Vec::with_capacity(CELLS),
            path: Vec::with_capacity(CELLS),
            on_path: [false; CELLS],
        }
    }

    fn is_defined(&self, cell: Cell) -> bool {
        self.defined[cell.index()]
    }

    fn edit(&mut self, cell: Cell, value: L::Value) -> Result<(), Refusal> {
        if self.is_defined(cell) {
            return Err(Refusal::DefinedCell);
        }
        self.inputs[cell.index()] = value;
        Ok(())
    }

    fn define(&mut self, cell: Cell, text: &[u8]) -> Result<(), Refusal> {
        self.language.place(cell, text)?;
        self.defined[cell.index()] = true;
        Ok(())
    }

    fn clear(&mut self, cell: Cell) -> Result<(), Refusal> {
        if !self.is_defined(cell) {
            return Err(Refusal::UndefinedCell);
        }
        self.language.remove(cell);
        self.defined[cell.index()] = false;
        self.inputs[cell.index()] = L::Value::BLANK;
        Ok(())
    }

    fn query(&mut self, cell: Cell) -> Result<L::Value, Fault> {
        self.forget_query();
        self.value(cell)
    }

    fn report(&self) -> &[Ran] {
        &[]
    }

    fn chain(&self) -> &[Cell] {
        &self.path
    }
}
