//! Benchmarks and differential tests of the recalculation engine against plain Rust.
//!
//!     bench diff [SCRIPTS [SEED]]                        compares the engines: cases/, workloads, random scripts
//!     bench diff-folder FOLDER                           compares them on NAME.in and NAME.out of a folder
//!     bench table [WORKLOAD]                             instructions per operation, by callgrind
//!     bench times [WORKLOAD]                             wall time per operation
//!     bench workloads                                    what each workload does
//!     bench script WORKLOAD CELLS DEPTH ROUNDS           prints the script of a workload
//!     bench run-one ENGINE WORKLOAD CELLS DEPTH ROUNDS   runs a workload once and prints the transcript's length
//!     bench run-file ENGINE FILE                         runs a script once and prints the transcript's length
//!     bench transcript ENGINE                            standard input to standard output

#![deny(unsafe_code)]

mod cells;
mod differ;
mod engine;
mod engines;
mod fragment;
mod full;
mod language;
mod measure;
mod model;
mod proved;
mod random;
mod refusal;
mod script;
mod scripts;
mod sheet;
mod traces;
mod twin;
mod values;
mod workloads;

use engines::Which;
use std::env;
use std::fs;
use std::io::{self, Read, Write};
use std::path::Path;
use std::process::ExitCode;
use workloads::Workload;

const RANDOM_SCRIPTS: usize = 5_000;

fn main() -> ExitCode {
    let arguments: Vec<String> = env::args().skip(1).collect();
    let words: Vec<&str> = arguments.iter().map(String::as_str).collect();
    match command(&words) {
        Ok(()) => ExitCode::SUCCESS,
        Err(message) => {
            eprintln!("{message}");
            ExitCode::FAILURE
        }
    }
}

fn command(words: &[&str]) -> Result<(), String> {
    match *words {
        ["diff"] => diff(RANDOM_SCRIPTS, None),
        ["diff", count] => diff(number(count)?, None),
        ["diff", count, seed] => diff(number(count)?, Some(number(seed)? as u64)),
        ["diff-folder", folder] => agreed(differ::stored_scripts(Path::new(folder))?),
        ["table"] => measure::print_instructions(None),
        ["table", only] => measure::print_instructions(Some(only)),
        ["times"] => measure::print_times(None),
        ["times", only] => measure::print_times(Some(only)),
        ["workloads"] => measure::print_workloads(),
        ["script", workload, cells, depth, rounds] => print(&script_of(workload, cells, depth, rounds)?),
        ["run-one", engine, workload, cells, depth, rounds] => {
            run(engine, &script_of(workload, cells, depth, rounds)?)
        }

        ["run-file", engine, file] => {
            let script = fs::read(file).map_err(|error| format!("{file}: {error}"))?;
            run(engine, &script)
        }
        ["transcript", engine] => transcript(engine),
        _ => Err("see the head of src/main.rs for the forms".to_string()),
    }
}

fn number(word: &str) -> Result<usize, String> {
    word.parse().map_err(|_| format!("{word} is no number"))
}

fn engine_named(name: &str) -> Result<Which, String> {
    Which::named(name).ok_or(format!("no engine {name}"))
}

fn script_of(workload: &str, cells: &str, depth: &str, rounds: &str) -> Result<Vec<u8>, String> {
    let workload = Workload::named(workload).ok_or(format!("no workload {workload}"))?;
    Ok(workload.script(number(cells)?, number(depth)?, number(rounds)?))
}

fn diff(count: usize, seed: Option<u64>) -> Result<(), String> {
    let cases = differ::stored_scripts(&Path::new(env!("CARGO_MANIFEST_DIR")).join("cases"))?;
    let workloads = differ::workload_scripts()?;
    let random = differ::random_scripts(count, seed)?;
    agreed(cases + workloads + random)
}

fn agreed(count: usize) -> Result<(), String> {
    println!("{count} scripts, no difference");
    Ok(())
}

fn run(engine: &str, script: &[u8]) -> Result<(), String> {
    let printed = measure::run_once(engine_named(engine)?, script);
    println!("{printed}");
    Ok(())
}

fn print(bytes: &[u8]) -> Result<(), String> {
    io::stdout().write_all(bytes).map_err(|error| error.to_string())
}

fn transcript(engine: &str) -> Result<(), String> {
    let engine = engine_named(engine)?;
    let mut script = Vec::new();
    io::stdin().read_to_end(&mut script).map_err(|error| error.to_string())?;
    let mut out = Vec::new();
    engine.run(&script, &mut out);
    print(&out)
}
