//! The fragment language over texts.

use crate::cells::Cell;
use crate::language::{Language, LanguageFault, Step, Texts, check_length};
use crate::refusal::Refusal;
use crate::values::{Text, Value};

const TOO_LONG: u8 = 14;

/// A fragment for each cell.
#[derive(Default)]
pub struct Fragment(Texts);

// A part of a fragment.
#[derive(Clone, Copy)]
enum Item {
    Plain(u8),
    Insert(Cell),
    Choice { tested: Cell, filled: Cell, empty: Cell },
}

impl Language for Fragment {
    type Value = Text;

    fn step(&self, cell: Cell, answers: &[Text]) -> Step<Text> {
        run(self.0.get(cell), answers)
    }

    fn place(&mut self, cell: Cell, text: &[u8]) -> Result<(), Refusal> {
        check_length(text)?;
        let mut at = 0;
        while at < text.len() {
            (_, at) = item_at(text, at).map_err(|place| Refusal::NotInLanguage(place as u8))?;
        }
        self.0.put(cell, text);
        Ok(())
    }

    fn remove(&mut self, cell: Cell) {
        self.0.remove(cell);
    }
}

// The item at a place and the place that follows, or the length of the longest beginning that also begins a
// fragment.
fn item_at(text: &[u8], at: usize) -> Result<(Item, usize), usize> {
    match text[at] {
        b'{' => braces_at(text, at + 1),
        byte @ b' '..=b'~' if byte != b'}' => Ok((Item::Plain(byte), at + 1)),
        _ => Err(at),
    }
}

fn braces_at(text: &[u8], at: usize) -> Result<(Item, usize), usize> {
    let (tested, at) = name_at(text, at)?;
    match text.get(at) {
        Some(b'}') => return Ok((Item::Insert(tested), at + 1)),
        Some(b'?') => {}
        _ => return Err(at),
    }
    let (filled, at) = name_at(text, at + 1)?;
    if text.get(at) != Some(&b':') {
        return Err(at);
    }
    let (empty, at) = name_at(text, at + 1)?;
    if text.get(at) != Some(&b'}') {
        return Err(at);
    }
    Ok((Item::Choice { tested, filled, empty }, at + 1))
}

fn name_at(text: &[u8], at: usize) -> Result<(Cell, usize), usize> {
    match Cell::read(&text[at..]) {
        Some((cell, len)) => Ok((cell, at + len)),
        None => match text.get(at) {
            Some(b'A'..=b'P') => Err(at + 1),
            _ => Err(at),
        },
    }
}

// The step of a text that is known to be a fragment.
fn run(text: &[u8], answers: &[Text]) -> Step<Text> {
    let mut made = Text::BLANK;
    let mut answers = answers.iter();
    let mut at = 0;
    while at < text.len() {
        let Ok((item, next)) = item_at(text, at) else {
            return Step::Give(Text::BLANK);
        };
        let grown = match item {
            Item::Plain(byte) => made.push(byte),
            Item::Insert(cell) => match answers.next() {
                Some(answer) => made.append(answer.as_slice()),
                None => return Step::Ask(cell),
            },
            Item::Choice { tested, filled, empty } => {
                let Some(test) = answers.next() else {
                    return Step::Ask(tested);
                };
                match answers.next() {
                    Some(answer) => made.append(answer.as_slice()),
                    None => return Step::Ask(if test.is_empty() { empty } else { filled }),
                }
            }
        };
        if grown.is_none() {
            return Step::Fault(LanguageFault { number: TOO_LONG, mark: at as u16 });
        }
        at = next;
    }
    Step::Give(made)
}
