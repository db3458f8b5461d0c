//! What a legal formula means: it is taken apart at its last operator, from the outside in.

use super::{Asker, Halt, Value, cell_named};

const LIMIT: i64 = 1_000_000_000;

fn hold(number: i64, mark: usize) -> Result<i64, Halt> {
    if number.abs() <= LIMIT { Ok(number) } else { Err(Halt::Own(11, mark)) }
}

fn answer(ask: &mut Asker, cell: u8) -> Result<i64, Halt> {
    match ask(cell)? {
        Value::Number(number) => Ok(number),
        Value::Bytes(_) => unreachable!("a sheet holds numbers"),
    }
}

// The places of the bytes that stand in no parentheses.
fn outside(text: &[u8]) -> Vec<usize> {
    let mut depth = 0;
    let mut places = Vec::new();
    for (at, &byte) in text.iter().enumerate() {
        if byte == b')' {
            depth -= 1;
        }
        if depth == 0 {
            places.push(at);
        }
        if byte == b'(' {
            depth += 1;
        }
    }
    places
}

// The last of these operators that stands between two operands.
fn last_operator(text: &[u8], operators: &[u8]) -> Option<usize> {
    let between = |at: usize| at > 0 && !b"+-*/%".contains(&text[at - 1]);
    outside(text).into_iter().rev().find(|&at| operators.contains(&text[at]) && between(at))
}

/// The value of a formula whose first byte stands at place `from` of its definition.
pub fn work(text: &[u8], from: usize, ask: &mut Asker) -> Result<i64, Halt> {
    let operator = last_operator(text, b"+-").or_else(|| last_operator(text, b"*/%"));
    if let Some(at) = operator {
        let left = work(&text[..at], from, ask)?;
        let right = work(&text[at + 1..], from + at + 1, ask)?;
        return operate(text[at], from + at, left, right);
    }
    match text[0] {
        b'-' => Ok(-work(&text[1..], from + 1, ask)?),
        b'(' => work(&text[1..text.len() - 1], from + 1, ask),
        b'i' => choose(text, from, ask),
        b'a' => {
            let number = work(&text[3..text.len() - 1], from + 3, ask)?;
            let cell = u8::try_from(number).map_err(|_| Halt::Own(13, from))?;
            answer(ask, cell)
        }
        b's' => add_up(text, from, ask),
        b'0'..=b'9' => Ok(std::str::from_utf8(text).expect("digits").parse().expect("a number")),
        _ => answer(ask, cell_named(text).expect("a name")),
    }
}

fn operate(operator: u8, mark: usize, left: i64, right: i64) -> Result<i64, Halt> {
    match operator {
        b'+' => hold(left + right, mark),
        b'-' => hold(left - right, mark),
        b'*' => hold(left * right, mark),
        _ if right == 0 => Err(Halt::Own(12, mark)),
        b'/' => hold(left.signum() * right.signum() * (left.abs() / right.abs()), mark),
        _ => hold(left.signum() * (left.abs() % right.abs()), mark),
    }
}

fn choose(text: &[u8], from: usize, ask: &mut Asker) -> Result<i64, Halt> {
    let inner = &text[3..text.len() - 1];
    let commas: Vec<usize> = outside(inner).into_iter().filter(|&at| inner[at] == b',').collect();
    let (one, two) = (commas[0], commas[1]);
    if work(&inner[..one], from + 3, ask)? != 0 {
        work(&inner[one + 1..two], from + 4 + one, ask)
    } else {
        work(&inner[two + 1..], from + 4 + two, ask)
    }
}

fn add_up(text: &[u8], from: usize, ask: &mut Asker) -> Result<i64, Halt> {
    let comma = text.iter().position(|&b| b == b',').expect("a sum has a comma");
    let first = cell_named(&text[4..comma]).expect("a name");
    let count = text[comma + 1] - b'0';
    let mut total = 0;
    for i in 0..count {
        total += answer(ask, first + i)?;
    }
    hold(total, from)
}
