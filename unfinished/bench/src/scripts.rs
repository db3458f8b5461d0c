//! Random scripts: both kinds, all depths, good and bad lines, circles, deep chains, refusals and faults.

use crate::cells::Cell;
use crate::random::Random;
use crate::script::Kind;

const DEPTHS: [u8; 3] = [b'0', b'1', b'4'];

/// A random script.
pub fn script(random: &mut Random) -> Vec<u8> {
    let kind = random.pick(&[Kind::Sheet, Kind::Text]);
    let mut writer = Writer { kind, pool: pool(random), script: Vec::new() };
    writer.opening(random);
    if random.chance(1, 12) {
        writer.long_chain(random);
    }
    let lines = random.pick(&[5, 20, 60, 120]);
    for _ in 0..lines {
        writer.line(random);
    }
    if random.chance(1, 6) {
        writer.script.pop();
    }
    writer.script
}

// The cells that a script is about. Few cells meet often; neighbours serve `sum` and `at`.
fn pool(random: &mut Random) -> Vec<Cell> {
    let size = random.pick(&[3, 5, 8, 12]);
    let start = random.below(256) as u8;
    let next_to_each_other = random.chance(1, 2);
    (0..size)
        .map(|i| if next_to_each_other { Cell(start.wrapping_add(i)) } else { Cell(random.below(256) as u8) })
        .collect()
}

fn name(cell: Cell) -> String {
    let mut out = Vec::new();
    cell.write(&mut out);
    String::from_utf8(out).expect("a name is plain")
}

struct Writer {
    kind: Kind,
    pool: Vec<Cell>,
    script: Vec<u8>,
}

impl Writer {
    fn put(&mut self, line: &[u8]) {
        self.script.extend_from_slice(line);
        self.script.push(b'\n');
    }

    fn opening(&mut self, random: &mut Random) {
        if random.chance(1, 60) {
            let bad = random.pick(&[
                "",
                "sheet",
                "sheet 2",
                "text 4 ",
                " text 1",
                "sheet 1\r",
                "Text 0",
                "sheet  1",
            ]);
            self.put(bad.as_bytes());
            return;
        }
        let mut line = match self.kind {
            Kind::Sheet => b"sheet ".to_vec(),
            Kind::Text => b"text ".to_vec(),
        };
        line.push(random.pick(&DEPTHS));
        self.put(&line);
    }

    fn cell(&mut self, random: &mut Random) -> String {
        if random.chance(1, 40) {
            return random.pick(&["A0", "A17", "Q1", "a1", "A01", "P", "", "A1A"]).to_string();
        }
        name(random.pick(&self.pool))
    }

    // A chain through many cells, closed to a circle now and then.
    fn long_chain(&mut self, random: &mut Random) {
        let length = random.pick(&[20, 100, 255]);
        for i in 0..length {
            let (upper, lower) = (name(Cell(i as u8)), name(Cell(i as u8 + 1)));
            let text = match self.kind {
                Kind::Sheet => random.pick(&["#+1", "#", "-#", "if(#,#,3)", "#%7"]).replace('#', &lower),
                Kind::Text => random.pick(&["{#}", "{#?#:A1}"]).replace('#', &lower),
            };
            self.put(format!("def {upper} {text}").as_bytes());
        }
        let last = name(Cell(length as u8));
        if random.chance(1, 3) {
            let text = match self.kind {
                Kind::Sheet => format!("def {last} {}", name(Cell(random.below(length) as u8))),
                Kind::Text => format!("def {last} {{{}}}", name(Cell(random.below(length) as u8))),
            };
            self.put(text.as_bytes());
        }
        self.put(format!("get {}", name(Cell(random.below(length) as u8))).as_bytes());
        self.put(format!("set {last} 1").as_bytes());
        self.put(b"get A1");
        self.pool.extend([Cell(0), Cell(1), Cell(length as u8 - 1), Cell(length as u8)]);
    }

    fn line(&mut self, random: &mut Random) {
        let cell = self.cell(random);
        let line = match random.below(100) {
            0..30 => {
                let value = self.value(random);
                [format!("set {cell} ").as_bytes(), &value].concat()
            }
            30..55 => {
                let text = self.text(random);
                [format!("def {cell} ").as_bytes(), &text].concat()
            }
            55..60 => format!("clear {cell}").into_bytes(),
            60..97 => format!("get {cell}").into_bytes(),
            _ => odd_line(random, &cell),
        };
        self.put(&line);
    }

    fn value(&mut self, random: &mut Random) -> Vec<u8> {
        if random.chance(1, 15) {
            return odd_bytes(random);
        }
        match self.kind {
            Kind::Sheet => number(random).into_bytes(),
            Kind::Text => {
                let len = random.pick(&[0, 0, 1, 1, 2, 8, 15, 16, 17, 31, 32]);
                (0..len).map(|_| random.pick(b"ab")).collect()
            }
        }
    }

    fn text(&mut self, random: &mut Random) -> Vec<u8> {
        let mut text = match self.kind {
            _ if random.chance(1, 10) => self.many_asks(random),
            Kind::Sheet => self.formula(random, 3).into_bytes(),
            Kind::Text => self.fragment(random),
        };
        if random.chance(1, 10) {
            spoil(random, &mut text);
        }
        text
    }

    // Eight asks or nine of two cells, in many orders.
    fn many_asks(&mut self, random: &mut Random) -> Vec<u8> {
        let (often, seldom) = (self.known(random), self.known(random));
        let asks = (0..8 + random.below(2)).map(|_| if random.chance(1, 4) { &seldom } else { &often });
        match self.kind {
            Kind::Sheet => asks.map(String::as_str).collect::<Vec<_>>().join(random.pick(&["+", "-", "*"])),
            Kind::Text => asks.map(|name| format!("{{{name}}}")).collect(),
        }
        .into_bytes()
    }

    fn known(&mut self, random: &mut Random) -> String {
        name(random.pick(&self.pool))
    }

    fn formula(&mut self, random: &mut Random, size: usize) -> String {
        let shape = if size == 0 { random.below(4) } else { random.below(16) };
        match shape {
            0 => number(random).replace('-', ""),
            1..=4 => self.known(random),
            5 => format!("-{}", self.factor(random, size - 1)),
            6 => format!("({})", self.formula(random, size - 1)),
            7..=8 => {
                let (a, b, c) =
                    (self.formula(random, size - 1), self.formula(random, 0), self.formula(random, 0));
                format!("if({a},{b},{c})")
            }
            9 => format!("at({})", self.at_part(random)),
            10 => self.sum(random),
            _ => {
                let operator = random.pick(&["+", "-", "*", "/", "%"]);
                format!("{}{operator}{}", self.formula(random, size - 1), self.factor(random, size - 1))
            }
        }
    }

    fn factor(&mut self, random: &mut Random, size: usize) -> String {
        if random.chance(1, 3) {
            return self.formula(random, size);
        }
        self.known(random)
    }

    fn at_part(&mut self, random: &mut Random) -> String {
        match random.below(4) {
            0 => self.known(random),
            1 => random.pick(&["256", "0-1", "255", "0", "1000000000"]).to_string(),
            _ => {
                let near = random.pick(&self.pool);
                format!("{}+{}", near.0, self.known(random))
            }
        }
    }

    fn sum(&mut self, random: &mut Random) -> String {
        let first = random.pick(&self.pool);
        let room = (256 - first.index()).min(8);
        format!("sum({},{})", name(first), 1 + random.below(room))
    }

    fn fragment(&mut self, random: &mut Random) -> Vec<u8> {
        let items = random.pick(&[1, 2, 2, 3, 4, 9]);
        let mut text = String::new();
        for _ in 0..items {
            match random.below(5) {
                0 => text.push(random.pick(&['x', ' ', '~', '?', ':', '1'])),
                1 => text.push_str(random.pick(&["abcdefgh", "0123456789abcde", "--"])),
                2..=3 => text.push_str(&format!("{{{}}}", self.known(random))),
                _ => {
                    let (a, b, c) = (self.known(random), self.known(random), self.known(random));
                    text.push_str(&format!("{{{a}?{b}:{c}}}"));
                }
            }
        }
        text.into_bytes()
    }
}

fn number(random: &mut Random) -> String {
    match random.below(12) {
        0 => random.pick(&["1000000000", "-1000000000", "999999999", "31623", "-31623"]).to_string(),
        1 => format!("-{}", 1 + random.below(9)),
        2 => random.below(300).to_string(),
        _ => random.below(4).to_string(),
    }
}

// Bytes that are no value for the most part.
fn odd_bytes(random: &mut Random) -> Vec<u8> {
    let choices: [&[u8]; 14] = [
        b"",
        b"-0",
        b"007",
        b"+5",
        b"1 ",
        b" 1",
        b"1000000001",
        b"-1000000001",
        b"--1",
        b"9999999999999999999999",
        b"caf\xc3\xa9",
        b"tab\there",
        b"\x7f",
        b"012345678901234567890123456789012",
    ];
    random.pick(&choices).to_vec()
}

// Changes, drops, adds or doubles a byte, or cuts the text off.
fn spoil(random: &mut Random, text: &mut Vec<u8>) {
    let odd = random.pick(b"()+-*/%,0123456789ABPQaifstum{}?: \x00\x7f\xff~");
    let at = random.below(text.len() + 1);
    match random.below(5) {
        0 => text.insert(at, odd),
        1 => text.truncate(at),
        2 if at < text.len() => text[at] = odd,
        3 if at < text.len() => drop(text.remove(at)),
        _ => text.push(odd),
    }
}

fn odd_line(random: &mut Random, cell: &str) -> Vec<u8> {
    match random.below(12) {
        0 => Vec::new(),
        1 => format!("set {cell}").into_bytes(),
        2 => format!("def {cell}").into_bytes(),
        3 => format!("get {cell} ").into_bytes(),
        4 => format!("clear  {cell}").into_bytes(),
        5 => format!("put {cell} 5").into_bytes(),
        6 => format!("get {cell}\r").into_bytes(),
        7 => vec![b'x'; 64 + random.below(3)],
        8 => format!("set {cell} {}", "1".repeat(50 + random.below(12))).into_bytes(),
        9 => format!("def {cell} {}1", "1+".repeat(20 + random.below(8))).into_bytes(),
        10 => b"get \xff\xfe".to_vec(),
        _ => b"sheet 1".to_vec(),
    }
}
