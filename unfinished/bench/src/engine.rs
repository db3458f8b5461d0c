//! The calls of a workbook, as every engine in this package offers them.

use crate::cells::Cell;
use crate::language::LanguageFault;
use crate::refusal::Refusal;
use crate::values::Value;

pub const CIRCLE: u8 = 16;
pub const NINTH_ASK: u8 = 17;

/// A fault of a query: its number and mark, and the cell that it came up at. The chain is the engine's to tell.
#[derive(Clone, Copy, PartialEq, Eq, Debug)]
pub struct Fault {
    pub number: u8,
    pub mark: u16,
    pub cell: Cell,
}

impl Fault {
    pub fn of_language(fault: LanguageFault, cell: Cell) -> Fault {
        Fault { number: fault.number, mark: fault.mark, cell }
    }

    pub fn of_engine(number: u8, asked: Cell, cell: Cell) -> Fault {
        Fault { number, mark: u16::from(asked.0), cell }
    }
}

/// A reported run: the cell whose task ran, and the cause of its doubt.
#[derive(Clone, Copy, PartialEq, Eq, Debug)]
pub struct Ran {
    pub cell: Cell,
    pub cause: Cell,
}

pub trait Engine {
    type Value: Value;

    /// A workbook of blank inputs.
    fn new() -> Self;

    fn is_defined(&self, cell: Cell) -> bool;

    fn edit(&mut self, cell: Cell, value: Self::Value) -> Result<(), Refusal>;

    fn define(&mut self, cell: Cell, text: &[u8]) -> Result<(), Refusal>;

    fn clear(&mut self, cell: Cell) -> Result<(), Refusal>;

    fn query(&mut self, cell: Cell) -> Result<Self::Value, Fault>;

    /// The runs of the last query.
    fn report(&self) -> &[Ran];

    /// The chain of the last query, if it faulted.
    fn chain(&self) -> &[Cell];
}
