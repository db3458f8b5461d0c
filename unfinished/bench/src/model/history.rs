//! The history of a workbook, and what it says of the present.

use super::{Halt, Kind, Value};
use std::collections::HashMap;

/// A fault, with the path at which it came up.
#[derive(Clone, PartialEq, Eq, Debug)]
pub struct Fault {
    pub number: u8,
    pub mark: usize,
    pub chain: Vec<u8>,
}

/// One finishing of a cell: what it asked for and was answered, and its value.
#[derive(Clone, PartialEq, Eq, Debug)]
struct Finishing {
    cell: u8,
    asks: Vec<(u8, Value)>,
    value: Value,
}

enum Event {
    Touched(u8),
    Defined(u8),
    // first finishings in their order, and the cells that ran
    Queried { log: Vec<Finishing>, ran: Vec<u8> },
}

pub struct Book {
    kind: Kind,
    depth: usize,
    inputs: HashMap<u8, Value>,
    texts: HashMap<u8, Vec<u8>>,
    past: Vec<Event>,
}

// Working out afresh, from inputs and definitions alone.
struct Afresh<'a> {
    book: &'a Book,
    path: Vec<u8>,
    log: Vec<Finishing>,
    fault: Option<Fault>,
    // a finished cell is worked out again at each ask until this many finishings; from then on it is looked up
    patience: usize,
}

impl Afresh<'_> {
    fn value(&mut self, cell: u8) -> Option<Value> {
        let Some(text) = self.book.texts.get(&cell) else {
            return Some(self.book.input(cell));
        };
        let known = self.log.iter().find(|f| f.cell == cell).cloned();
        if let (Some(finishing), 0) = (&known, self.patience) {
            return Some(finishing.value.clone());
        }
        self.path.push(cell);
        let mut asks = Vec::new();
        let given = self.book.kind.work(text, &mut |wanted| self.ask(wanted, &mut asks));
        let value = match given {
            Ok(value) => value,
            Err(Halt::Below) => return None,
            Err(Halt::Own(number, mark)) => {
                self.fault = Some(Fault { number, mark, chain: self.path.clone() });
                return None;
            }
        };
        self.path.pop();
        self.patience = self.patience.saturating_sub(1);
        let finishing = Finishing { cell, asks, value: value.clone() };
        match known {
            Some(first) => assert_eq!(first, finishing, "a cell finishes alike each time"),
            None => self.log.push(finishing),
        }
        Some(value)
    }

    fn ask(&mut self, wanted: u8, asks: &mut Vec<(u8, Value)>) -> Result<Value, Halt> {
        if asks.len() == 8 {
            return Err(Halt::Own(17, wanted as usize));
        }
        if self.path.contains(&wanted) {
            return Err(Halt::Own(16, wanted as usize));
        }
        let value = self.value(wanted).ok_or(Halt::Below)?;
        asks.push((wanted, value.clone()));
        Ok(value)
    }
}

impl Book {
    pub fn new(kind: Kind, depth: usize) -> Book {
        Book { kind, depth, inputs: HashMap::new(), texts: HashMap::new(), past: Vec::new() }
    }

    fn input(&self, cell: u8) -> Value {
        self.inputs.get(&cell).cloned().unwrap_or(self.kind.blank())
    }

    pub fn edit(&mut self, cell: u8, bytes: &[u8]) -> Result<(), String> {
        if self.texts.contains_key(&cell) {
            return Err("2".into());
        }
        let value = self.kind.read(bytes).map_err(|number| number.to_string())?;
        if self.input(cell) != value {
            self.inputs.insert(cell, value);
            self.past.push(Event::Touched(cell));
        }
        Ok(())
    }

    pub fn define(&mut self, cell: u8, text: &[u8]) -> Result<(), String> {
        if !(1..=48).contains(&text.len()) {
            return Err("5".into());
        }
        if let Some(place) = self.kind.misfit(text) {
            return Err(format!("6 {place}"));
        }
        self.texts.insert(cell, text.to_vec());
        self.past.push(Event::Defined(cell));
        self.past.push(Event::Touched(cell));
        Ok(())
    }

    pub fn clear(&mut self, cell: u8) -> Result<(), String> {
        self.texts.remove(&cell).ok_or("4")?;
        self.inputs.remove(&cell);
        self.past.push(Event::Touched(cell));
        Ok(())
    }

    /// The value or the fault, and the runs with their causes.
    pub fn query(&mut self, cell: u8) -> (Result<Value, Fault>, Vec<(u8, u8)>) {
        let (outcome, log) = self.afresh(cell);
        let mut runs = Vec::new();
        for finishing in &log {
            if let Some(cause) = self.cause(finishing.cell)
                && !self.kept(finishing.cell).iter().any(|trace| self.fits(trace))
            {
                runs.push((finishing.cell, cause));
            }
        }
        let ran = runs.iter().map(|&(cell, _)| cell).collect();
        self.past.push(Event::Queried { log, ran });
        (outcome, runs)
    }

    fn afresh(&self, cell: u8) -> (Result<Value, Fault>, Vec<Finishing>) {
        let mut work = Afresh { book: self, path: Vec::new(), log: Vec::new(), fault: None, patience: 2_000 };
        let value = work.value(cell);
        let outcome = value.ok_or_else(|| work.fault.expect("what has no value has a fault"));
        (outcome, work.log)
    }

    // The place in the past of the cell's present definition.
    fn definition(&self, cell: u8, upto: usize) -> Option<usize> {
        self.past[..upto].iter().rposition(|event| matches!(event, Event::Defined(c) if *c == cell))
    }

    // The last query before `upto` that finished the cell since its definition.
    fn last_finishing(&self, cell: u8, upto: usize) -> Option<(usize, &Finishing)> {
        let since = self.definition(cell, upto)?;
        (since..upto).rev().find_map(|at| match &self.past[at] {
            Event::Queried { log, .. } => log.iter().find(|f| f.cell == cell).map(|f| (at, f)),
            _ => None,
        })
    }

    // Whether the cell had a definition just before `upto`: a clear is a touch that ends one.
    fn was_defined(&self, cell: u8, upto: usize) -> bool {
        let Some(since) = self.definition(cell, upto) else {
            return false;
        };
        // the definition's own touch follows it; another touch of a defined cell is a clear or comes with a
        // new definition
        !self.past[(since + 2).min(upto)..upto].iter().any(|e| matches!(e, Event::Touched(c) if *c == cell))
    }

    // What the cell reached just before `upto`.
    fn reach(&self, cell: u8, upto: usize) -> Vec<u8> {
        let mut reached = Vec::new();
        let mut open = vec![cell];
        while let Some(next) = open.pop() {
            if !self.was_defined(next, upto) {
                continue;
            }
            let Some((_, finishing)) = self.last_finishing(next, upto) else {
                continue;
            };
            for &(asked, _) in &finishing.asks {
                if !reached.contains(&asked) {
                    reached.push(asked);
                    open.push(asked);
                }
            }
        }
        reached
    }

    // The cause of a defined cell's doubt, if it is in doubt.
    fn cause(&self, cell: u8) -> Option<u8> {
        let now = self.past.len();
        let Some((at, _)) = self.last_finishing(cell, now) else {
            return Some(cell);
        };
        let reached = self.reach(cell, at + 1);
        self.past[at..].iter().find_map(|event| match event {
            Event::Touched(c) if reached.contains(c) => Some(*c),
            _ => None,
        })
    }

    // The kept traces of a defined cell, newest first.
    fn kept(&self, cell: u8) -> Vec<&Finishing> {
        let since = self.definition(cell, self.past.len()).expect("only defined cells finish");
        let runs = self.past[since..].iter().rev().filter_map(|event| match event {
            Event::Queried { log, ran } if ran.contains(&cell) => log.iter().find(|f| f.cell == cell),
            _ => None,
        });
        runs.take(self.depth).collect()
    }

    fn fits(&self, trace: &Finishing) -> bool {
        trace.asks.iter().all(|(cell, value)| self.afresh(*cell).0.as_ref() == Ok(value))
    }
}
