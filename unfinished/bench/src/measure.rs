//! What an operation costs: two batches, one with twice the rounds, are run, and the difference
//! counts. What starting, making a workbook and setting up cost falls away.

use crate::engines::Which;
use crate::proved;
use crate::workloads::{self, Workload};
use std::env;
use std::fs;
use std::path::{Path, PathBuf};
use std::process::Command;
use std::time::Instant;

// The same for every batch, so that the buffer's own cost falls away too.
const OUTPUT: usize = 1 << 20;

// How many times a script is run for its wall time, of which the shortest counts.
const RUNS: usize = 60;

/// Runs a script once, as callgrind counts it.
pub fn run_once(engine: Which, script: &[u8]) -> usize {
    let mut out = Vec::with_capacity(OUTPUT);
    engine.run(script, &mut out);
    out.len()
}

// The script in a file of its own, so that making it is not counted.
fn script_file(workload: &Workload, cells: usize, rounds: usize) -> Result<PathBuf, String> {
    let folder = Path::new(env!("CARGO_MANIFEST_DIR")).join("target/scripts");
    let name = format!("{}-{cells}-{rounds}.in", workload.name.replace(' ', "-"));
    let place = folder.join(name);
    fs::create_dir_all(&folder)
        .and_then(|()| fs::write(&place, workload.script(cells, workload.depth, rounds)))
        .map_err(|error| format!("{}: {error}", place.display()))?;
    Ok(place)
}

// The instructions of one run of a script.
fn instructions(engine: Which, script: &Path) -> Result<u64, String> {
    let program = env::current_exe().map_err(|error| error.to_string())?;
    let output = Command::new("valgrind")
        .args(["--tool=callgrind", "--callgrind-out-file=/dev/null"])
        .arg(program)
        .args(["run-file", engine.name()])
        .arg(script)
        .output()
        .map_err(|error| format!("valgrind: {error}"))?;
    let said = String::from_utf8_lossy(&output.stderr);
    said.lines()
        .find_map(|line| line.split("Collected :").nth(1))
        .and_then(|count| count.trim().parse().ok())
        .ok_or_else(|| format!("callgrind did not count: {said}"))
}

// The nanoseconds of one run of a script.
fn nanoseconds(engine: Which, script: &[u8]) -> u64 {
    let mut out = Vec::with_capacity(OUTPUT);
    let mut shortest = u64::MAX;
    for _ in 0..RUNS {
        out.clear();
        let start = Instant::now();
        engine.run(script, &mut out);
        shortest = shortest.min(start.elapsed().as_nanos() as u64);
    }
    shortest
}

#[derive(Clone, Copy)]
enum Unit {
    Instructions,
    Nanoseconds,
}

impl Unit {
    fn name(self) -> &'static str {
        match self {
            Unit::Instructions => "instructions",
            Unit::Nanoseconds => "ns",
        }
    }

    fn of_batch(
        self,
        engine: Which,
        workload: &Workload,
        cells: usize,
        rounds: usize,
    ) -> Result<u64, String> {
        match self {
            Unit::Instructions => instructions(engine, &script_file(workload, cells, rounds)?),
            Unit::Nanoseconds => Ok(nanoseconds(engine, &workload.script(cells, workload.depth, rounds))),
        }
    }

    // What one operation costs.
    fn each(self, engine: Which, workload: &Workload, cells: usize) -> Result<f64, String> {
        let small = self.of_batch(engine, workload, cells, workload.rounds)?;
        let large = self.of_batch(engine, workload, cells, 2 * workload.rounds)?;
        Ok((large as f64 - small as f64) / workload.rounds as f64)
    }
}

// What one workload costs at one number of cells.
struct Row {
    twin: f64,
    proved: Option<f64>,
    full: f64,
}

fn measure(unit: Unit, workload: &Workload, cells: usize) -> Result<Row, String> {
    let proved = if proved::LINKED { Some(unit.each(Which::Proved, workload, cells)?) } else { None };
    Ok(Row {
        twin: unit.each(Which::Twin, workload, cells)?,
        proved,
        full: unit.each(Which::Full, workload, cells)?,
    })
}

fn shown(figure: Option<f64>, digits: usize) -> String {
    figure.map_or("-".to_string(), |figure| format!("{figure:.digits$}"))
}

// Growth is against the row above, which has a quarter of the cells.
fn print_row(workload: &Workload, cells: usize, row: &Row, above: Option<&Row>) {
    let ratio = row.proved.map(|proved| proved / row.twin);
    let growth = above.map(|above| row.twin / above.twin);
    let growth_proved = above.and_then(|above| Some(row.proved? / above.proved?));
    println!(
        "| {} | {cells} | {:.0} | {} | {:.0} | {} | {} | {} |",
        workload.name,
        row.twin,
        shown(row.proved, 0),
        row.full,
        shown(ratio, 2),
        shown(growth, 1),
        shown(growth_proved, 1),
    );
}

fn print_rows(unit: Unit, workload: &Workload) -> Result<(), String> {
    let mut above = None;
    for cells in workloads::SIZES {
        let row = measure(unit, workload, cells)?;
        print_row(workload, cells, &row, above.as_ref());
        above = Some(row);
    }
    Ok(())
}

fn print_table(unit: Unit, only: Option<&str>) -> Result<(), String> {
    println!(
        "| Workload | Cells | Twin, {} | Proved | Full | Proved : twin | Growth, twin | Growth, proved |",
        unit.name()
    );
    println!("|---|---|---|---|---|---|---|---|");
    for workload in &workloads::ALL {
        if only.is_none_or(|only| only == workload.name) {
            print_rows(unit, workload)?;
        }
    }
    Ok(())
}

/// Prints the instructions that an operation takes, for every workload or for one.
pub fn print_instructions(only: Option<&str>) -> Result<(), String> {
    print_table(Unit::Instructions, only)
}

/// Prints the wall time that an operation takes.
pub fn print_times(only: Option<&str>) -> Result<(), String> {
    print_table(Unit::Nanoseconds, only)
}

/// Prints what each workload does.
pub fn print_workloads() -> Result<(), String> {
    println!("| Workload | First line | One operation |");
    println!("|---|---|---|");
    for workload in &workloads::ALL {
        println!("| {} | `{} {}` | {} |", workload.name, workload.kind, workload.depth, workload.operation);
    }
    Ok(())
}
