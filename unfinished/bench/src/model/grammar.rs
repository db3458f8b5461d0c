//! Both grammars as rules, and the place where a text leaves them: all that could still follow is tracked byte
//! by byte, so the place is by its definition the longest beginning that also begins a legal text.

use super::{Kind, name};
use std::collections::HashSet;

#[derive(Clone, PartialEq, Eq, Hash, Debug)]
enum Symbol {
    Byte(u8),
    Formula,
    MoreTerms,
    Term,
    MoreFactors,
    Factor,
    // more digits of a number that is this much so far
    Digits(u64),
    Name,
    SumParts,
    Fragment,
    BehindName,
}

use Symbol::*;

fn word(text: &str) -> Vec<Symbol> {
    text.bytes().map(Byte).collect()
}

fn mixed(parts: &[&[Symbol]]) -> Vec<Symbol> {
    parts.concat()
}

// What a symbol may be replaced by; none for a byte.
fn rules(symbol: &Symbol) -> Vec<Vec<Symbol>> {
    match symbol {
        Byte(_) => Vec::new(),
        Formula => vec![vec![Term, MoreTerms]],
        MoreTerms => vec![vec![], vec![Byte(b'+'), Term, MoreTerms], vec![Byte(b'-'), Term, MoreTerms]],
        Term => vec![vec![Factor, MoreFactors]],
        MoreFactors => {
            let mut all: Vec<_> = b"*/%".iter().map(|&b| vec![Byte(b), Factor, MoreFactors]).collect();
            all.push(Vec::new());
            all
        }
        Factor => factors(),
        Digits(number) => {
            let mut all = vec![Vec::new()];
            for digit in 0..10 {
                let more = number * 10 + digit;
                if more <= 1_000_000_000 {
                    all.push(vec![Byte(b'0' + digit as u8), Digits(more)]);
                }
            }
            all
        }
        Name => (0..=255).map(|cell| word(&name(cell))).collect(),
        SumParts => sums(),
        Fragment => items(),
        BehindName => {
            vec![vec![Byte(b'}')], vec![Byte(b'?'), Name, Byte(b':'), Name, Byte(b'}')]]
        }
    }
}

fn factors() -> Vec<Vec<Symbol>> {
    let comma = [Formula, Byte(b',')];
    let mut all = vec![
        vec![Name],
        vec![Byte(b'-'), Factor],
        vec![Byte(b'('), Formula, Byte(b')')],
        mixed(&[&word("if("), &comma, &comma, &[Formula, Byte(b')')]]),
        mixed(&[&word("at("), &[Formula, Byte(b')')]]),
        mixed(&[&word("sum("), &[SumParts]]),
        vec![Byte(b'0')],
    ];
    for digit in 1..10 {
        all.push(vec![Byte(b'0' + digit as u8), Digits(digit)]);
    }
    all
}

fn sums() -> Vec<Vec<Symbol>> {
    let mut all = Vec::new();
    for cell in 0..=255u8 {
        for count in 1..=8 {
            if cell as usize + count <= 256 {
                all.push(word(&format!("{},{count})", name(cell))));
            }
        }
    }
    all
}

fn items() -> Vec<Vec<Symbol>> {
    let mut all = vec![Vec::new(), vec![Byte(b'{'), Name, BehindName, Fragment]];
    for byte in 32..127 {
        if byte != b'{' && byte != b'}' {
            all.push(vec![Byte(byte), Fragment]);
        }
    }
    all
}

// Each state is what must still follow, the next symbol last.
type State = Vec<Symbol>;

// All states that a state may become without a byte read, with a byte in front or nothing left.
fn opened(states: HashSet<State>) -> HashSet<State> {
    let mut done = HashSet::new();
    let mut open: Vec<State> = states.into_iter().collect();
    let mut seen: HashSet<State> = open.iter().cloned().collect();
    while let Some(state) = open.pop() {
        match state.last() {
            None | Some(Byte(_)) => {
                done.insert(state);
            }
            Some(symbol) => {
                for rule in rules(symbol) {
                    let mut next = state[..state.len() - 1].to_vec();
                    next.extend(rule.into_iter().rev());
                    if seen.insert(next.clone()) {
                        open.push(next);
                    }
                }
            }
        }
    }
    done
}

/// The place where a text leaves the language, or none for a legal text.
pub fn misfit(kind: Kind, text: &[u8]) -> Option<usize> {
    let start = match kind {
        Kind::Sheet => Formula,
        Kind::Text => Fragment,
    };
    let mut states = opened(HashSet::from([vec![start]]));
    for (at, &byte) in text.iter().enumerate() {
        let mut after = HashSet::new();
        for mut state in states {
            if state.pop() == Some(Byte(byte)) {
                after.insert(state);
            }
        }
        if after.is_empty() {
            return Some(at);
        }
        states = opened(after);
    }
    if states.contains(&Vec::new()) { None } else { Some(text.len()) }
}
