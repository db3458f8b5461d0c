//! Pairs, traces, and the rebuilder that keeps D traces of each cell.

use crate::cells::{CELLS, Cell};
use crate::values::Value;

/// The most asks of one task.
pub const ASKS: usize = 8;

/// The cells that a task asked for, in their order.
#[derive(Clone, Copy)]
pub struct Asked {
    cells: [Cell; ASKS],
    len: u8,
}

impl Asked {
    pub const NONE: Asked = Asked { cells: [Cell::FIRST; ASKS], len: 0 };

    pub fn as_slice(&self) -> &[Cell] {
        &self.cells[..self.len as usize]
    }
}

/// The cells asked for so far, and their answers.
#[derive(Clone, Copy)]
pub struct Pairs<V> {
    asked: Asked,
    values: [V; ASKS],
}

impl<V: Value> Pairs<V> {
    pub fn new() -> Pairs<V> {
        Pairs { asked: Asked::NONE, values: [V::BLANK; ASKS] }
    }

    pub fn asked(&self) -> Asked {
        self.asked
    }

    pub fn answers(&self) -> &[V] {
        &self.values[..self.asked.len as usize]
    }

    pub fn is_full(&self) -> bool {
        self.asked.len as usize == ASKS
    }

    pub fn clear(&mut self) {
        self.asked.len = 0;
    }

    /// One more pair; the caller has seen that there is room.
    pub fn push(&mut self, cell: Cell, value: V) {
        let place = self.asked.len as usize;
        self.asked.cells[place] = cell;
        self.values[place] = value;
        self.asked.len += 1;
    }

    fn begins_with(&self, front: &Pairs<V>) -> bool {
        self.asked.as_slice().starts_with(front.asked.as_slice())
            && self.answers().starts_with(front.answers())
    }
}

/// What to do with a cell in doubt.
pub enum Plan<V> {
    Keep(V),
    Next(Cell),
    Run,
}

#[derive(Clone, Copy)]
struct Trace<V> {
    pairs: Pairs<V>,
    result: V,
}

// The traces of one cell: a ring in which each trace stands before the one that is next older.
#[derive(Clone, Copy)]
struct Ring<V, const D: usize> {
    traces: [Trace<V>; D],
    newest: u8,
    count: u8,
}

impl<V: Value, const D: usize> Ring<V, D> {
    fn new() -> Ring<V, D> {
        let none = Trace { pairs: Pairs::new(), result: V::BLANK };
        Ring { traces: [none; D], newest: 0, count: 0 }
    }

    fn plan(&self, pairs: &Pairs<V>) -> Plan<V> {
        let mut plan = Plan::Run;
        for age in 0..self.count {
            let trace = &self.traces[(self.newest + age) as usize % D];
            if !trace.pairs.begins_with(pairs) {
                continue;
            }
            match trace.pairs.asked.as_slice().get(pairs.asked.len as usize) {
                None => return Plan::Keep(trace.result),
                Some(&next) => {
                    if let Plan::Run = plan {
                        plan = Plan::Next(next);
                    }
                }
            }
        }
        plan
    }

    fn record(&mut self, pairs: &Pairs<V>, result: V) {
        let newest = if self.newest == 0 { D - 1 } else { self.newest as usize - 1 };
        self.traces[newest] = Trace { pairs: *pairs, result };
        self.newest = newest as u8;
        if (self.count as usize) < D {
            self.count += 1;
        }
    }
}

/// At most D traces for each cell: dirty bits at depth 0, verifying traces at 1, constructive traces at 4.
pub struct Traces<V, const D: usize>(Vec<Ring<V, D>>);

impl<V: Value, const D: usize> Traces<V, D> {
    pub fn new() -> Traces<V, D> {
        Traces(vec![Ring::new(); CELLS])
    }

    pub fn plan(&self, cell: Cell, pairs: &Pairs<V>) -> Plan<V> {
        if D == 0 {
            return Plan::Run;
        }
        self.0[cell.index()].plan(pairs)
    }

    pub fn record(&mut self, cell: Cell, pairs: &Pairs<V>, result: V) {
        if D > 0 {
            self.0[cell.index()].record(pairs, result);
        }
    }

    pub fn forget(&mut self, cell: Cell) {
        if D > 0 {
            self.0[cell.index()].count = 0;
        }
    }
}
