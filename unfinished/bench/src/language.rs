//! What the engines see of a language, and the memory for its definitions.
//!
//! A step takes a cell and the answers so far and changes nothing. The proved engine keeps the text of a
//! definition and reads it anew at each step, and these languages do the same, so that like is compared with
//! like: no tree and no suspended task is kept between steps.

use crate::cells::{CELLS, Cell};
use crate::refusal::Refusal;
use crate::values::Value;

/// The most bytes that a definition has.
pub const TEXT: usize = 48;

/// A fault of a language.
#[derive(Clone, Copy, PartialEq, Eq, Debug)]
pub struct LanguageFault {
    pub number: u8,
    pub mark: u16,
}

/// What a task does next.
#[derive(Clone, Copy, PartialEq, Eq, Debug)]
pub enum Step<V> {
    Ask(Cell),
    Give(V),
    Fault(LanguageFault),
}

pub trait Language: Default {
    type Value: Value;

    /// The step of a defined cell after these answers.
    fn step(&self, cell: Cell, answers: &[Self::Value]) -> Step<Self::Value>;

    /// Gives a cell the definition that the text stands for.
    fn place(&mut self, cell: Cell, text: &[u8]) -> Result<(), Refusal>;

    fn remove(&mut self, cell: Cell);
}

#[derive(Clone, Copy)]
struct Definition {
    bytes: [u8; TEXT],
    len: u8,
}

/// The text of each cell; empty where it has none.
pub struct Texts(Box<[Definition; CELLS]>);

impl Default for Texts {
    fn default() -> Texts {
        let none = Definition { bytes: [0; TEXT], len: 0 };
        Texts(Box::new([none; CELLS]))
    }
}

impl Texts {
    pub fn get(&self, cell: Cell) -> &[u8] {
        let text = &self.0[cell.index()];
        &text.bytes[..text.len as usize]
    }

    /// Holds a text of at most 48 bytes.
    pub fn put(&mut self, cell: Cell, text: &[u8]) {
        let place = &mut self.0[cell.index()];
        place.bytes[..text.len()].copy_from_slice(text);
        place.len = text.len() as u8;
    }

    pub fn remove(&mut self, cell: Cell) {
        self.0[cell.index()].len = 0;
    }
}

/// A rule of every language: a definition has 1 to 48 bytes.
pub fn check_length(text: &[u8]) -> Result<(), Refusal> {
    if text.is_empty() || text.len() > TEXT {
        return Err(Refusal::TextLength);
    }
    Ok(())
}
