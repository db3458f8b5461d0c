//! The engines by their names, each as one call from a script to its transcript.

use crate::fragment::Fragment;
use crate::full::Reckoning;
use crate::model;
use crate::proved;
use crate::script::{Kind, Opening, answer_lines, open, write_ok, write_refusal};
use crate::sheet::Sheet;
use crate::twin::Workbook;

#[derive(Clone, Copy, PartialEq, Eq, Debug)]
pub enum Which {
    Twin,
    Full,
    Model,
    Proved,
}

impl Which {
    pub fn named(name: &str) -> Option<Which> {
        match name {
            "twin" => Some(Which::Twin),
            "full" => Some(Which::Full),
            "model" => Some(Which::Model),
            "proved" if proved::LINKED => Some(Which::Proved),
            _ => None,
        }
    }

    pub fn name(self) -> &'static str {
        match self {
            Which::Twin => "twin",
            Which::Full => "full",
            Which::Model => "model",
            Which::Proved => "proved",
        }
    }

    /// Puts the transcript of a script behind what is printed already.
    pub fn run(self, script: &[u8], out: &mut Vec<u8>) {
        match self {
            Which::Twin => run_over(script, out, answer_by_twin),
            Which::Full => run_over(script, out, answer_by_full),
            Which::Model => out.extend_from_slice(&model::transcript(script)),
            Which::Proved => proved::run(script, out),
        }
    }
}

fn run_over(script: &[u8], out: &mut Vec<u8>, answer: fn(Opening, &[u8], &mut Vec<u8>)) {
    match open(script) {
        Ok((opening, lines)) => {
            write_ok(out);
            answer(opening, lines, out);
        }
        Err(refusal) => write_refusal(refusal, out),
    }
}

fn answer_by_twin(opening: Opening, lines: &[u8], out: &mut Vec<u8>) {
    let answer: fn(&[u8], &mut Vec<u8>) = match (opening.kind, opening.depth) {
        (Kind::Sheet, 0) => answer_lines::<Workbook<Sheet, 0>>,
        (Kind::Sheet, 1) => answer_lines::<Workbook<Sheet, 1>>,
        (Kind::Sheet, _) => answer_lines::<Workbook<Sheet, 4>>,
        (Kind::Text, 0) => answer_lines::<Workbook<Fragment, 0>>,
        (Kind::Text, 1) => answer_lines::<Workbook<Fragment, 1>>,
        (Kind::Text, _) => answer_lines::<Workbook<Fragment, 4>>,
    };
    answer(lines, out);
}

fn answer_by_full(opening: Opening, lines: &[u8], out: &mut Vec<u8>) {
    match opening.kind {
        Kind::Sheet => answer_lines::<Reckoning<Sheet>>(lines, out),
        Kind::Text => answer_lines::<Reckoning<Fragment>>(lines, out),
    }
}
