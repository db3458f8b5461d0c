//! Scripts and their transcripts, over any engine.

use crate::cells::Cell;
use crate::engine::{Engine, Fault, Ran};
use crate::refusal::Refusal;
use crate::values::{Value, write_number};

/// The most bytes of a script, and of one of its lines.
pub const SCRIPT: usize = 60_000;
pub const LINE: usize = 64;

#[derive(Clone, Copy, PartialEq, Eq, Debug)]
pub enum Kind {
    Sheet,
    Text,
}

/// What the first line of a script says.
#[derive(Clone, Copy, PartialEq, Eq, Debug)]
pub struct Opening {
    pub kind: Kind,
    pub depth: u8,
}

enum Line<'a> {
    Set(Cell, &'a [u8]),
    Def(Cell, &'a [u8]),
    Clear(Cell),
    Get(Cell),
}

// The first line, and what follows it.
fn cut_line(bytes: &[u8]) -> (&[u8], &[u8]) {
    match bytes.iter().position(|&byte| byte == b'\n') {
        Some(end) => (&bytes[..end], &bytes[end + 1..]),
        None => (bytes, &[]),
    }
}

/// The opening of a script, and the lines behind it.
pub fn open(script: &[u8]) -> Result<(Opening, &[u8]), Refusal> {
    if script.len() > SCRIPT {
        return Err(Refusal::ScriptTooLong);
    }
    let (first, rest) = cut_line(script);
    let (kind, depth) = match first {
        [b's', b'h', b'e', b'e', b't', b' ', depth] => (Kind::Sheet, depth),
        [b't', b'e', b'x', b't', b' ', depth] => (Kind::Text, depth),
        _ => return Err(Refusal::BadFirstLine),
    };
    match depth {
        b'0' | b'1' | b'4' => Ok((Opening { kind, depth: depth - b'0' }, rest)),
        _ => Err(Refusal::BadFirstLine),
    }
}

fn read_line(line: &[u8]) -> Result<Line<'_>, Refusal> {
    if line.len() > LINE {
        return Err(Refusal::LineTooLong);
    }
    let found = match line {
        [b's', b'e', b't', b' ', rest @ ..] => name_and_rest(rest).map(|(cell, rest)| Line::Set(cell, rest)),
        [b'd', b'e', b'f', b' ', rest @ ..] => name_and_rest(rest).map(|(cell, rest)| Line::Def(cell, rest)),
        [b'g', b'e', b't', b' ', name @ ..] => Cell::named(name).map(Line::Get),
        [b'c', b'l', b'e', b'a', b'r', b' ', name @ ..] => Cell::named(name).map(Line::Clear),
        _ => None,
    };
    found.ok_or(Refusal::UnknownLine)
}

fn name_and_rest(bytes: &[u8]) -> Option<(Cell, &[u8])> {
    let (cell, len) = Cell::read(bytes)?;
    match bytes[len..] {
        [b' ', ref rest @ ..] => Some((cell, rest)),
        _ => None,
    }
}

/// Prints the answers to the lines.
pub fn answer_lines<E: Engine>(lines: &[u8], out: &mut Vec<u8>) {
    let mut engine = E::new();
    let mut rest = lines;
    while !rest.is_empty() {
        let line;
        (line, rest) = cut_line(rest);
        if let Err(refusal) = answer_line(&mut engine, line, out) {
            write_refusal(refusal, out);
        }
    }
}

fn answer_line<E: Engine>(engine: &mut E, line: &[u8], out: &mut Vec<u8>) -> Result<(), Refusal> {
    match read_line(line)? {
        Line::Set(cell, bytes) => edit(engine, cell, bytes)?,
        Line::Def(cell, text) => engine.define(cell, text)?,
        Line::Clear(cell) => engine.clear(cell)?,
        Line::Get(cell) => {
            write_answer(engine, cell, out);
            return Ok(());
        }
    }
    write_ok(out);
    Ok(())
}

// A defined cell is refused before bytes that are no value.
fn edit<E: Engine>(engine: &mut E, cell: Cell, bytes: &[u8]) -> Result<(), Refusal> {
    if engine.is_defined(cell) {
        return Err(Refusal::DefinedCell);
    }
    engine.edit(cell, E::Value::read(bytes)?)
}

pub fn write_ok(out: &mut Vec<u8>) {
    out.extend_from_slice(b"ok\n");
}

pub fn write_refusal(refusal: Refusal, out: &mut Vec<u8>) {
    out.extend_from_slice(b"no ");
    write_number(u32::from(refusal.number()), out);
    if let Refusal::NotInLanguage(place) = refusal {
        out.push(b' ');
        write_number(u32::from(place), out);
    }
    out.push(b'\n');
}

fn write_answer<E: Engine>(engine: &mut E, cell: Cell, out: &mut Vec<u8>) {
    cell.write(out);
    match engine.query(cell) {
        Ok(value) => {
            out.extend_from_slice(b" = ");
            value.write(out);
        }
        Err(fault) => write_fault(fault, engine.chain(), out),
    }
    out.push(b'\n');
    for &run in engine.report() {
        write_run(run, out);
    }
}

fn write_fault(fault: Fault, chain: &[Cell], out: &mut Vec<u8>) {
    out.extend_from_slice(b" ! ");
    write_number(u32::from(fault.number), out);
    out.extend_from_slice(b" at ");
    fault.cell.write(out);
    out.push(b' ');
    write_number(u32::from(fault.mark), out);
    out.extend_from_slice(b" :");
    for &cell in chain {
        out.push(b' ');
        cell.write(out);
    }
}

fn write_run(run: Ran, out: &mut Vec<u8>) {
    out.extend_from_slice(b"ran ");
    run.cell.write(out);
    out.extend_from_slice(b" for ");
    run.cause.write(out);
    out.push(b'\n');
}
