//! The twin of the proved engine in plain Rust: the suspending scheduler with traces.

use crate::cells::{CELLS, Cell};
use crate::engine::{CIRCLE, Engine, Fault, NINTH_ASK, Ran};
use crate::language::{Language, Step};
use crate::refusal::Refusal;
use crate::traces::{Asked, Pairs, Plan, Traces};
use crate::values::Value;

// What is known of one cell.
#[derive(Clone, Copy)]
struct Record {
    defined: bool,
    on_path: bool,
    // the touch that put the cell in doubt
    cause: Option<Cell>,
    // the asks of the last finishing
    asked: Asked,
}

impl Record {
    const INPUT: Record = Record { defined: false, on_path: false, cause: None, asked: Asked::NONE };

    fn is_calm(&self) -> bool {
        self.defined && self.cause.is_none()
    }
}

// Whether a cell is known to reach the touched one.
#[derive(Clone, Copy, PartialEq, Eq)]
enum Reach {
    Unknown,
    No,
    Yes,
}

/// A workbook with D traces for each cell.
pub struct Workbook<L: Language, const D: usize> {
    store: Box<[L::Value; CELLS]>,
    language: L,
    traces: Traces<L::Value, D>,
    records: Box<[Record; CELLS]>,
    path: Vec<Cell>,
    report: Vec<Ran>,
}

impl<L: Language, const D: usize> Workbook<L, D> {
    // Every defined cell that is not in doubt and reaches the touched cell has it as its cause from now on. Each
    // record is opened once, so that the work is linear in cells and asks.
    fn touch(&mut self, touched: Cell) {
        let mut known = [Reach::Unknown; CELLS];
        for cell in Cell::all() {
            if self.records[cell.index()].is_calm() {
                self.mark(cell, touched, &mut known);
            }
        }
    }

    // Marks a cell that is not in doubt if it reaches the touched one. What it asked for is not in doubt either.
    fn mark(&mut self, cell: Cell, touched: Cell, known: &mut [Reach; CELLS]) -> bool {
        match known[cell.index()] {
            Reach::Yes => return true,
            Reach::No => return false,
            Reach::Unknown => {}
        }
        let asked = self.records[cell.index()].asked;
        let reaches = asked.as_slice().iter().any(|&next| next == touched || self.mark(next, touched, known));
        if reaches {
            self.records[cell.index()].cause = Some(touched);
            known[cell.index()] = Reach::Yes;
        } else {
            known[cell.index()] = Reach::No;
        }
        reaches
    }

    // Brings a cell up to date.
    fn settle(&mut self, cell: Cell) -> Result<L::Value, Fault> {
        let Some(cause) = self.records[cell.index()].cause else {
            return Ok(self.store[cell.index()]);
        };
        self.path.push(cell);
        self.records[cell.index()].on_path = true;
        let mut pairs = Pairs::new();
        let value = match self.check(cell, &mut pairs)? {
            Some(kept) => kept,
            None => {
                let given = self.run(cell, &mut pairs)?;
                self.traces.record(cell, &pairs, given);
                self.report.push(Ran { cell, cause });
                given
            }
        };
        self.path.pop();
        self.store[cell.index()] = value;
        self.records[cell.index()] =
            Record { defined: true, on_path: false, cause: None, asked: pairs.asked() };
        Ok(value)
    }

    // Follows the plan for a cell in doubt, to the result of a trace that fits if there is one.
    fn check(&mut self, cell: Cell, pairs: &mut Pairs<L::Value>) -> Result<Option<L::Value>, Fault> {
        loop {
            match self.traces.plan(cell, pairs) {
                Plan::Keep(result) => return Ok(Some(result)),
                Plan::Next(wanted) => self.ask(cell, wanted, pairs)?,
                Plan::Run => return Ok(None),
            }
        }
    }

    // Carries out the task of a cell, which starts with no answers.
    fn run(&mut self, cell: Cell, pairs: &mut Pairs<L::Value>) -> Result<L::Value, Fault> {
        pairs.clear();
        loop {
            match self.language.step(cell, pairs.answers()) {
                Step::Ask(wanted) => self.ask(cell, wanted, pairs)?,
                Step::Give(value) => return Ok(value),
                Step::Fault(fault) => return Err(Fault::of_language(fault, cell)),
            }
        }
    }

    fn ask(&mut self, cell: Cell, wanted: Cell, pairs: &mut Pairs<L::Value>) -> Result<(), Fault> {
        if pairs.is_full() {
            return Err(Fault::of_engine(NINTH_ASK, wanted, cell));
        }
        if self.records[wanted.index()].on_path {
            return Err(Fault::of_engine(CIRCLE, wanted, cell));
        }
        let value = self.settle(wanted)?;
        pairs.push(wanted, value);
        Ok(())
    }
}

impl<L: Language, const D: usize> Engine for Workbook<L, D> {
    type Value = L::Value;

    fn new() -> Workbook<L, D> {
        Workbook {
            store: Box::new([L::Value::BLANK; CELLS]),
            language: L::default(),
            traces: Traces::new(),
            records: Box::new([Record::INPUT; CELLS]),
            path: Vec::with_capacity(CELLS),
            report: Vec::with_capacity(CELLS),
        }
    }

    fn is_defined(&self, cell: Cell) -> bool {
        self.records[cell.index()].defined
    }

    fn edit(&mut self, cell: Cell, value: L::Value) -> Result<(), Refusal> {
        if self.is_defined(cell) {
            return Err(Refusal::DefinedCell);
        }
        if self.store[cell.index()] != value {
            self.store[cell.index()] = value;
            self.touch(cell);
        }
        Ok(())
    }

    fn define(&mut self, cell: Cell, text: &[u8]) -> Result<(), Refusal> {
        self.language.place(cell, text)?;
        self.traces.forget(cell);
        self.records[cell.index()] = Record { defined: true, cause: Some(cell), ..Record::INPUT };
        self.touch(cell);
        Ok(())
    }

    fn clear(&mut self, cell: Cell) -> Result<(), Refusal> {
        if !self.is_defined(cell) {
            return Err(Refusal::UndefinedCell);
        }
        self.language.remove(cell);
        self.traces.forget(cell);
        self.records[cell.index()] = Record::INPUT;
        self.store[cell.index()] = L::Value::BLANK;
        self.touch(cell);
        Ok(())
    }

    fn query(&mut self, cell: Cell) -> Result<L::Value, Fault> {
        self.path.clear();
        self.report.clear();
        let answer = self.settle(cell);
        if answer.is_err() {
            for &cell in &self.path {
                self.records[cell.index()].on_path = false;
            }
        }
        answer
    }

    fn report(&self) -> &[Ran] {
        &self.report
    }

    fn chain(&self) -> &[Cell] {
        &self.path
    }
}
