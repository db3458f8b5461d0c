//! Cells and their names.

/// How many cells a workbook has.
pub const CELLS: usize = 256;

const ROWS: u8 = 16;

/// A cell, by its number.
#[derive(Clone, Copy, PartialEq, Eq, Debug)]
pub struct Cell(pub u8);

impl Cell {
    pub const FIRST: Cell = Cell(0);

    /// Every cell, in the order of the numbers.
    pub fn all() -> impl Iterator<Item = Cell> {
        (0..=u8::MAX).map(Cell)
    }

    pub fn index(self) -> usize {
        self.0 as usize
    }

    /// The longest name at the front of the bytes, and how many bytes it has.
    pub fn read(bytes: &[u8]) -> Option<(Cell, usize)> {
        match *bytes {
            [column @ b'A'..=b'P', b'1', digit @ b'0'..=b'6', ..] => {
                Some((Cell((column - b'A') * ROWS + digit - b'0' + 9), 3))
            }
            [column @ b'A'..=b'P', digit @ b'1'..=b'9', ..] => {
                Some((Cell((column - b'A') * ROWS + digit - b'1'), 2))
            }
            _ => None,
        }
    }

    /// The cell whose name this is.
    pub fn named(bytes: &[u8]) -> Option<Cell> {
        match Cell::read(bytes) {
            Some((cell, len)) if len == bytes.len() => Some(cell),
            _ => None,
        }
    }

    pub fn write(self, out: &mut Vec<u8>) {
        let column = b'A' + self.0 / ROWS;
        let row = self.0 % ROWS + 1;
        if row < 10 {
            out.extend_from_slice(&[column, b'0' + row]);
        } else {
            out.extend_from_slice(&[column, b'1', b'0' + row - 10]);
        }
    }
}
