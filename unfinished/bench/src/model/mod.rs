//! A model of the whole: slow, and written from the definitions alone.
//!
//! It keeps the history of the calls and finds doubt, causes, kept traces and reports by looking back over it,
//! where an engine keeps marks and records. It shares no code with the engines: names, values, grammar and
//! meaning are done here a second time and in another way.

mod fragments;
mod grammar;
mod history;
mod sheets;

use history::{Book, Fault};
use std::collections::HashMap;
use std::fmt::Write;
use std::sync::LazyLock;

/// A value of either kind.
#[derive(Clone, PartialEq, Eq, Debug)]
pub enum Value {
    Number(i64),
    Bytes(Vec<u8>),
}

/// Why a task ends without a value: the answer to its ask is a fault, or it faults itself.
pub enum Halt {
    Below,
    Own(u8, usize),
}

/// Answers the asks of a task.
pub type Asker<'a> = dyn FnMut(u8) -> Result<Value, Halt> + 'a;

#[derive(Clone, Copy, PartialEq, Eq, Debug)]
pub enum Kind {
    Sheet,
    Text,
}

impl Kind {
    fn blank(self) -> Value {
        match self {
            Kind::Sheet => Value::Number(0),
            Kind::Text => Value::Bytes(Vec::new()),
        }
    }

    // The value that is written so, or the number of the refusal.
    fn read(self, bytes: &[u8]) -> Result<Value, u32> {
        match self {
            Kind::Sheet => {
                let number: i64 = std::str::from_utf8(bytes).ok().and_then(|s| s.parse().ok()).ok_or(7u32)?;
                let written_so = number.to_string().as_bytes() == bytes;
                if written_so && number.abs() <= 1_000_000_000 { Ok(Value::Number(number)) } else { Err(7) }
            }
            Kind::Text => {
                let short = bytes.len() <= 32;
                if short && bytes.iter().all(|b| (32..127).contains(b)) {
                    Ok(Value::Bytes(bytes.to_vec()))
                } else {
                    Err(8)
                }
            }
        }
    }

    /// The place where a text leaves the language, if it does.
    fn misfit(self, text: &[u8]) -> Option<usize> {
        grammar::misfit(self, text)
    }

    /// Carries out the task of a legal text.
    pub fn work(self, text: &[u8], ask: &mut Asker) -> Result<Value, Halt> {
        match self {
            Kind::Sheet => sheets::work(text, 0, ask).map(Value::Number),
            Kind::Text => fragments::work(text, ask).map(Value::Bytes),
        }
    }
}

/// The name of a cell.
pub fn name(cell: u8) -> String {
    format!("{}{}", (b'A' + cell / 16) as char, cell % 16 + 1)
}

/// The cell of a name.
pub fn cell_named(bytes: &[u8]) -> Option<u8> {
    static NAMES: LazyLock<HashMap<Vec<u8>, u8>> =
        LazyLock::new(|| (0..=255).map(|cell| (name(cell).into_bytes(), cell)).collect());
    NAMES.get(bytes).copied()
}

/// What a whole script prints.
pub fn transcript(script: &[u8]) -> Vec<u8> {
    if script.len() > 60_000 {
        return b"no 21\n".to_vec();
    }
    let mut lines: Vec<&[u8]> = script.split(|&b| b == 10).collect();
    // bytes behind the last byte 10 are a line only if there are some
    if lines.last().is_some_and(|last| last.is_empty()) {
        lines.pop();
    }
    let opening = lines.first().copied().and_then(|first| std::str::from_utf8(first).ok());
    let (kind, depth) = match opening {
        Some("sheet 0") => (Kind::Sheet, 0),
        Some("sheet 1") => (Kind::Sheet, 1),
        Some("sheet 4") => (Kind::Sheet, 4),
        Some("text 0") => (Kind::Text, 0),
        Some("text 1") => (Kind::Text, 1),
        Some("text 4") => (Kind::Text, 4),
        _ => return b"no 20\n".to_vec(),
    };
    let mut book = Book::new(kind, depth);
    let mut out = b"ok\n".to_vec();
    for line in &lines[1..] {
        match answer(&mut book, line) {
            Ok(printed) => out.extend(printed),
            Err(refusal) => out.extend(format!("no {refusal}\n").bytes()),
        }
    }
    out
}

fn answer(book: &mut Book, line: &[u8]) -> Result<Vec<u8>, String> {
    if line.len() > 64 {
        return Err("18".into());
    }
    let fields: Vec<&[u8]> = line.splitn(3, |&b| b == b' ').collect();
    let cell = fields.get(1).and_then(|field| cell_named(field));
    let done = match (&fields[..], cell) {
        ([b"get", _], Some(cell)) => return Ok(query(book, cell)),
        ([b"clear", _], Some(cell)) => book.clear(cell),
        ([b"set", _, value], Some(cell)) => book.edit(cell, value),
        ([b"def", _, text], Some(cell)) => book.define(cell, text),
        _ => Err("19".into()),
    };
    done.map(|()| b"ok\n".to_vec())
}

fn query(book: &mut Book, cell: u8) -> Vec<u8> {
    let (outcome, runs) = book.query(cell);
    let mut out = name(cell).into_bytes();
    match outcome {
        Ok(Value::Number(number)) => out.extend(format!(" = {number}").bytes()),
        Ok(Value::Bytes(bytes)) => {
            out.extend(b" = ");
            out.extend(bytes);
        }
        Err(Fault { number, mark, chain }) => {
            let at = *chain.last().expect("a chain has the queried cell");
            let names: Vec<String> = chain.iter().map(|&c| name(c)).collect();
            out.extend(format!(" ! {number} at {} {mark} : {}", name(at), names.join(" ")).bytes());
        }
    }
    let mut lines = String::from("\n");
    for (cell, cause) in runs {
        writeln!(lines, "ran {} for {}", name(cell), name(cause))
            .expect("a string takes all that is written");
    }
    out.extend(lines.bytes());
    out
}
