//! The formula language over whole numbers.

use crate::cells::Cell;
use crate::language::{Language, LanguageFault, Step, Texts, check_length};
use crate::refusal::Refusal;
use crate::values::{LIMIT, Value, Whole};
use std::slice::Iter;

const BEYOND_LIMITS: u8 = 11;
const DIVISOR_ZERO: u8 = 12;
const NO_SUCH_CELL: u8 = 13;

/// A formula for each cell.
#[derive(Default)]
pub struct Sheet(Texts);

impl Language for Sheet {
    type Value = Whole;

    fn step(&self, cell: Cell, answers: &[Whole]) -> Step<Whole> {
        let mut work = Work { text: self.0.get(cell), at: 0, answers: answers.iter() };
        match work.formula() {
            Ok(number) => Step::Give(Whole::new(number).unwrap_or(Whole::BLANK)),
            Err(step) => step,
        }
    }

    fn place(&mut self, cell: Cell, text: &[u8]) -> Result<(), Refusal> {
        check_length(text)?;
        let mut check = Check { text, at: 0 };
        if check.formula().is_err() || check.at < text.len() {
            return Err(Refusal::NotInLanguage(check.at as u8));
        }
        self.0.put(cell, text);
        Ok(())
    }

    fn remove(&mut self, cell: Cell) {
        self.0.remove(cell);
    }
}

// Reads a text that may be no formula. Where a reading fails, `at` is the length of the longest beginning that
// also begins a formula.
struct Check<'a> {
    text: &'a [u8],
    at: usize,
}

struct Misfit;

impl Check<'_> {
    fn peek(&self) -> Option<u8> {
        self.text.get(self.at).copied()
    }

    fn word(&mut self, word: &[u8]) -> Result<(), Misfit> {
        for &byte in word {
            if self.peek() != Some(byte) {
                return Err(Misfit);
            }
            self.at += 1;
        }
        Ok(())
    }

    fn formula(&mut self) -> Result<(), Misfit> {
        self.term()?;
        while let Some(b'+' | b'-') = self.peek() {
            self.at += 1;
            self.term()?;
        }
        Ok(())
    }

    fn term(&mut self) -> Result<(), Misfit> {
        self.factor()?;
        while let Some(b'*' | b'/' | b'%') = self.peek() {
            self.at += 1;
            self.factor()?;
        }
        Ok(())
    }

    fn factor(&mut self) -> Result<(), Misfit> {
        match self.peek() {
            Some(b'-') => {
                self.at += 1;
                self.factor()
            }
            Some(b'(') => self.group(b"("),
            Some(b'a') => self.group(b"at("),
            Some(b'i') => self.choice(),
            Some(b's') => self.sum(),
            Some(b'0') => {
                self.at += 1;
                Ok(())
            }
            Some(b'1'..=b'9') => self.number(),
            _ => self.name().map(|_| ()),
        }
    }

    fn group(&mut self, opening: &[u8]) -> Result<(), Misfit> {
        self.word(opening)?;
        self.formula()?;
        self.word(b")")
    }

    fn choice(&mut self) -> Result<(), Misfit> {
        self.word(b"if(")?;
        self.formula()?;
        self.word(b",")?;
        self.formula()?;
        self.word(b",")?;
        self.formula()?;
        self.word(b")")
    }

    fn sum(&mut self) -> Result<(), Misfit> {
        self.word(b"sum(")?;
        let first = self.name()?;
        self.word(b",")?;
        match self.peek() {
            Some(digit @ b'1'..=b'8') if first.0.checked_add(digit - b'1').is_some() => self.at += 1,
            _ => return Err(Misfit),
        }
        self.word(b")")
    }

    fn number(&mut self) -> Result<(), Misfit> {
        let mut number = 0;
        while let Some(digit @ b'0'..=b'9') = self.peek() {
            number = number * 10 + i64::from(digit - b'0');
            if number > LIMIT {
                return Err(Misfit);
            }
            self.at += 1;
        }
        Ok(())
    }

    fn name(&mut self) -> Result<Cell, Misfit> {
        match Cell::read(&self.text[self.at..]) {
            Some((cell, len)) => {
                self.at += len;
                Ok(cell)
            }
            None => {
                if let Some(b'A'..=b'P') = self.peek() {
                    self.at += 1;
                }
                Err(Misfit)
            }
        }
    }
}

// Works out a text that is known to be a formula, and stops where its step is known.
struct Work<'a> {
    text: &'a [u8],
    at: usize,
    answers: Iter<'a, Whole>,
}

type Worked = Result<i64, Step<Whole>>;

fn fault(number: u8, mark: usize) -> Worked {
    Err(Step::Fault(LanguageFault { number, mark: mark as u16 }))
}

fn hold(number: i64, mark: usize) -> Worked {
    if number.abs() > LIMIT {
        return fault(BEYOND_LIMITS, mark);
    }
    Ok(number)
}

impl Work<'_> {
    // The byte at the place, and 0 past the end.
    fn peek(&self) -> u8 {
        self.text.get(self.at).copied().unwrap_or(0)
    }

    fn next(&mut self) -> u8 {
        let byte = self.peek();
        self.at += 1;
        byte
    }

    fn formula(&mut self) -> Worked {
        let mut left = self.term()?;
        loop {
            let mark = self.at;
            match self.peek() {
                b'+' => {
                    self.at += 1;
                    left = hold(left + self.term()?, mark)?;
                }
                b'-' => {
                    self.at += 1;
                    left = hold(left - self.term()?, mark)?;
                }
                _ => return Ok(left),
            }
        }
    }

    // Inlined, since the three readers call each other at every byte or two.
    #[inline(always)]
    fn term(&mut self) -> Worked {
        let mut left = self.factor()?;
        loop {
            let mark = self.at;
            let operator = self.peek();
            if !matches!(operator, b'*' | b'/' | b'%') {
                return Ok(left);
            }
            self.at += 1;
            let right = self.factor()?;
            left = match (operator, right) {
                (b'*', _) => hold(left * right, mark)?,
                (_, 0) => return fault(DIVISOR_ZERO, mark),
                (b'/', _) => left / right,
                _ => left % right,
            };
        }
    }

    fn factor(&mut self) -> Worked {
        match self.peek() {
            b'-' => {
                self.at += 1;
                Ok(-self.factor()?)
            }
            b'(' => {
                self.at += 1;
                let value = self.formula()?;
                self.at += 1;
                Ok(value)
            }
            b'i' => self.choice(),
            b'a' => self.lookup(),
            b's' => self.sum(),
            b'0'..=b'9' => Ok(self.number()),
            _ => {
                let cell = self.name();
                self.ask(cell)
            }
        }
    }

    fn number(&mut self) -> i64 {
        let mut number = 0;
        while let digit @ b'0'..=b'9' = self.peek() {
            number = number * 10 + i64::from(digit - b'0');
            self.at += 1;
        }
        number
    }

    fn name(&mut self) -> Cell {
        match self.text.get(self.at..).and_then(Cell::read) {
            Some((cell, len)) => {
                self.at += len;
                cell
            }
            None => Cell::FIRST,
        }
    }

    fn ask(&mut self, cell: Cell) -> Worked {
        match self.answers.next() {
            Some(answer) => Ok(answer.number()),
            None => Err(Step::Ask(cell)),
        }
    }

    fn choice(&mut self) -> Worked {
        self.at += b"if(".len();
        let test = self.formula()?;
        self.at += 1;
        if test != 0 {
            let value = self.formula()?;
            self.at += 1;
            self.skip_part();
            Ok(value)
        } else {
            self.skip_part();
            let value = self.formula()?;
            self.at += 1;
            Ok(value)
        }
    }

    // Goes past a part of `if` that is not worked out, and past the byte that ends it.
    fn skip_part(&mut self) {
        let mut open = 0;
        while self.at < self.text.len() {
            match self.next() {
                b'(' => open += 1,
                b',' | b')' if open == 0 => return,
                b')' => open -= 1,
                _ => {}
            }
        }
    }

    fn lookup(&mut self) -> Worked {
        let mark = self.at;
        self.at += b"at(".len();
        let number = self.formula()?;
        self.at += 1;
        match u8::try_from(number) {
            Ok(number) => self.ask(Cell(number)),
            Err(_) => fault(NO_SUCH_CELL, mark),
        }
    }

    fn sum(&mut self) -> Worked {
        let mark = self.at;
        self.at += b"sum(".len();
        let Cell(first) = self.name();
        self.at += 1;
        let count = self.next().wrapping_sub(b'0');
        self.at += 1;
        let mut total = 0;
        for i in 0..count {
            total += self.ask(Cell(first.wrapping_add(i)))?;
        }
        hold(total, mark)
    }
}
