//! The workloads: each is a script with a body that is repeated.

use crate::cells::Cell;
use std::fmt::Display;

/// How many cells a workload is measured at.
pub const SIZES: [usize; 3] = [16, 64, 256];

pub const DEPTHS: [usize; 3] = [0, 1, 4];

/// Writes the lines of a script.
pub struct Lines(Vec<u8>);

impl Lines {
    fn put(&mut self, line: String) {
        self.0.extend_from_slice(line.as_bytes());
        self.0.push(b'\n');
    }

    fn set(&mut self, cell: usize, value: impl Display) {
        self.put(format!("set {} {value}", name(cell)));
    }

    fn get(&mut self, cell: usize) {
        self.put(format!("get {}", name(cell)));
    }

    // Defines a cell; `#` stands for the names of the other cells, in their order.
    fn def(&mut self, cell: usize, text: &str, others: &[usize]) {
        let mut others = others.iter();
        let mut written = String::new();
        for byte in text.chars() {
            match byte {
                '#' => written.push_str(&name(*others.next().expect("a cell for each #"))),
                _ => written.push(byte),
            }
        }
        self.put(format!("def {} {written}", name(cell)));
    }
}

fn name(cell: usize) -> String {
    let mut out = Vec::new();
    Cell(cell as u8).write(&mut out);
    String::from_utf8(out).expect("a name is plain")
}

/// A workload: the kind of its values, its setup, and one round of its body.
pub struct Workload {
    pub name: &'static str,
    pub kind: &'static str,
    /// The depth that it is measured at.
    pub depth: usize,
    /// What one operation is.
    pub operation: &'static str,
    setup: fn(&mut Lines, usize),
    round: fn(&mut Lines, usize, usize),
    /// How many rounds the smaller batch has; the larger one has twice as many.
    pub rounds: usize,
}

impl Workload {
    /// The script with so many rounds.
    pub fn script(&self, cells: usize, depth: usize, rounds: usize) -> Vec<u8> {
        let mut lines = Lines(format!("{} {depth}\n", self.kind).into_bytes());
        (self.setup)(&mut lines, cells);
        for i in 0..rounds {
            (self.round)(&mut lines, cells, i);
        }
        lines.0
    }

    pub fn named(name: &str) -> Option<&'static Workload> {
        ALL.iter().find(|workload| workload.name == name)
    }
}

// Each cell asks for the one before it, and all are settled.
fn chain(lines: &mut Lines, cells: usize) {
    lines.set(0, 0);
    for cell in 1..cells {
        lines.def(cell, "#+1", &[cell - 1]);
    }
    lines.get(cells - 1);
}

fn fan(lines: &mut Lines, cells: usize) {
    lines.set(0, 0);
    for cell in 1..cells {
        lines.def(cell, "#+1", &[0]);
    }
    get_all(lines, cells);
}

fn get_all(lines: &mut Lines, cells: usize) {
    for cell in 1..cells {
        lines.get(cell);
    }
}

// A square in which each cell adds up its upper and its left neighbour.
fn grid(lines: &mut Lines, cells: usize) {
    let side = cells.isqrt();
    lines.set(0, 0);
    for cell in 1..cells {
        let (row, column) = (cell / side, cell % side);
        match (row, column) {
            (0, _) => lines.def(cell, "#", &[cell - 1]),
            (_, 0) => lines.def(cell, "#", &[cell - side]),
            _ => lines.def(cell, "#+#", &[cell - side, cell - 1]),
        }
    }
    lines.get(cells - 1);
}

// A tree of sums: each cell adds up the two below it, and half of the cells are inputs.
fn tree(lines: &mut Lines, cells: usize) {
    for cell in 0..cells / 2 - 1 {
        lines.def(cell, "#+#", &[2 * cell + 1, 2 * cell + 2]);
    }
    lines.get(0);
}

// Layers of eight cells, each of which takes the mean of the whole layer below it.
fn layers(lines: &mut Lines, cells: usize) {
    for cell in 0..8 {
        lines.set(cell, 0);
    }
    for cell in 8..cells {
        lines.def(cell, "sum(#,8)/8", &[cell / 8 * 8 - 8]);
    }
    get_top_layer(lines, cells);
}

fn get_top_layer(lines: &mut Lines, cells: usize) {
    for cell in cells - 8..cells {
        lines.get(cell);
    }
}

// A chain whose first formula gives 0 whatever the input is.
fn damped(lines: &mut Lines, cells: usize) {
    lines.set(0, 1);
    lines.def(1, "#*0", &[0]);
    for cell in 2..cells {
        lines.def(cell, "#+1", &[cell - 1]);
    }
    lines.get(cells - 1);
}

fn text_chain(lines: &mut Lines, cells: usize) {
    lines.set(0, "line 0");
    for cell in 1..cells {
        lines.def(cell, "{#}", &[cell - 1]);
    }
    lines.get(cells - 1);
}

fn text_choices(lines: &mut Lines, cells: usize) {
    lines.set(0, "on");
    for cell in 1..cells {
        lines.def(cell, "{#?#:#}", &[0, cell - 1, 0]);
    }
    lines.get(cells - 1);
}

// A new value at the foot, and a query at the top.
fn renew(lines: &mut Lines, cells: usize, i: usize) {
    lines.set(0, i + 1);
    lines.get(cells - 1);
}

/// All workloads.
pub const ALL: [Workload; 16] = [
    Workload {
        name: "chain",
        kind: "sheet",
        depth: 1,
        operation: "a new value at the foot of a chain, a query at its top",
        setup: chain,
        round: renew,
        rounds: 20,
    },
    Workload {
        name: "fan",
        kind: "sheet",
        depth: 1,
        operation: "a new value of the input that all others ask for, a query of each",
        setup: fan,
        round: |lines, cells, i| {
            lines.set(0, i + 1);
            get_all(lines, cells);
        },
        rounds: 12,
    },
    Workload {
        name: "grid",
        kind: "sheet",
        depth: 1,
        operation: "a new value in the corner of a grid of sums, a query in the other",
        setup: grid,
        round: |lines, cells, i| {
            // the corner holds 155,117,520 times the input
            lines.set(0, i % 6 + 1);
            lines.get(cells - 1);
        },
        rounds: 20,
    },
    Workload {
        name: "tree",
        kind: "sheet",
        depth: 1,
        operation: "a new value at one leaf of a tree of sums, a query at its root",
        setup: tree,
        round: |lines, cells, i| {
            lines.set(cells - 2, i + 1);
            lines.get(0);
        },
        rounds: 20,
    },
    Workload {
        name: "layers",
        kind: "sheet",
        depth: 1,
        operation: "a new value below layers of eight means of eight, a query of each on top",
        setup: layers,
        round: |lines, cells, i| {
            lines.set(3, 8 * (i + 1));
            get_top_layer(lines, cells);
        },
        rounds: 20,
    },
    Workload {
        name: "equal edit",
        kind: "sheet",
        depth: 1,
        operation: "an edit to an equal value at the foot of a chain, a query at its top",
        setup: chain,
        round: |lines, cells, _| {
            lines.set(0, 0);
            lines.get(cells - 1);
        },
        rounds: 400,
    },
    Workload {
        name: "equal result",
        kind: "sheet",
        depth: 1,
        operation: "a new value whose first formula gives the old result, a query at the top",
        setup: damped,
        round: |lines, cells, i| {
            lines.set(0, i + 2);
            lines.get(cells - 1);
        },
        rounds: 20,
    },
    Workload {
        name: "to and fro 0",
        kind: "sheet",
        depth: 0,
        operation: "a chain's foot goes to its other value and back, with a query each time",
        setup: chain,
        round: to_and_fro,
        rounds: 20,
    },
    Workload {
        name: "to and fro 1",
        kind: "sheet",
        depth: 1,
        operation: "the same at depth 1",
        setup: chain,
        round: to_and_fro,
        rounds: 20,
    },
    Workload {
        name: "to and fro 4",
        kind: "sheet",
        depth: 4,
        operation: "the same at depth 4",
        setup: chain,
        round: to_and_fro,
        rounds: 20,
    },
    Workload {
        name: "settled",
        kind: "sheet",
        depth: 1,
        operation: "a query of a settled cell",
        setup: chain,
        round: |lines, cells, _| lines.get(cells - 1),
        rounds: 1_000,
    },
    Workload {
        name: "touches",
        kind: "sheet",
        depth: 1,
        operation: "an edit that everything hangs on, and no query",
        setup: chain,
        round: |lines, _, i| lines.set(0, i % 9 + 1),
        rounds: 400,
    },
    Workload {
        name: "redefine",
        kind: "sheet",
        depth: 1,
        operation: "a new definition at the foot of a chain, a query at its top",
        setup: chain,
        round: |lines, cells, i| {
            lines.def(1, if i % 2 == 0 { "#+2" } else { "#+1" }, &[0]);
            lines.get(cells - 1);
        },
        rounds: 20,
    },
    Workload {
        name: "text chain",
        kind: "text",
        depth: 1,
        operation: "a new text at the foot of a chain, a query at its top",
        setup: text_chain,
        round: |lines, cells, i| {
            lines.set(0, format!("line {}", i + 1));
            lines.get(cells - 1);
        },
        rounds: 20,
    },
    Workload {
        name: "text choices",
        kind: "text",
        depth: 4,
        operation: "the text that all choices hang on goes to and fro, a query at the top each time",
        setup: text_choices,
        round: |lines, cells, _| {
            for value in ["off", "on"] {
                lines.set(0, value);
                lines.get(cells - 1);
            }
        },
        rounds: 20,
    },
    Workload {
        name: "bad lines",
        kind: "sheet",
        depth: 1,
        operation: "a value and a definition that are refused",
        setup: chain,
        round: |lines, cells, _| {
            lines.set(0, "007");
            lines.def(cells - 1, "if(1)", &[]);
        },
        rounds: 400,
    },
];

fn to_and_fro(lines: &mut Lines, cells: usize, _: usize) {
    for value in [1, 0] {
        lines.set(0, value);
        lines.get(cells - 1);
    }
}
