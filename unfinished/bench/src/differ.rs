//! The differential test: the engines print the same on every script.

use crate::engines::Which;
use crate::proved;
use crate::random::Random;
use crate::scripts;
use crate::workloads;
use std::fs;
use std::path::{Path, PathBuf};

const SEED: u64 = 20_260_131;

// A script on which an engine prints something else than it should.
fn difference(label: &str, engine: Which) -> Result<(), String> {
    Err(format!("{label}: {} differs", engine.name()))
}

fn transcript(engine: Which, script: &[u8]) -> Vec<u8> {
    let mut out = Vec::with_capacity(1 << 16);
    engine.run(script, &mut out);
    out
}

/// A transcript without its reported runs: what full reckoning can know.
fn without_runs(transcript: &[u8]) -> Vec<u8> {
    let lines = transcript.split_inclusive(|&byte| byte == b'\n');
    lines.filter(|line| !line.starts_with(b"ran ")).flatten().copied().collect()
}

// Compares every engine with what is expected of the script.
fn compare(label: &str, script: &[u8], expected: &[u8]) -> Result<(), String> {
    let mut engines = vec![Which::Twin];
    if proved::LINKED {
        engines.push(Which::Proved);
    }
    for engine in engines {
        if transcript(engine, script) != expected {
            return difference(label, engine);
        }
    }
    if transcript(Which::Full, script) != without_runs(expected) {
        return difference(label, Which::Full);
    }
    Ok(())
}

fn compare_with_model(label: &str, script: &[u8]) -> Result<(), String> {
    let expected = transcript(Which::Model, script);
    compare(label, script, &expected)
}

/// Compares all engines on random scripts; answers how many there were.
pub fn random_scripts(count: usize, seed: Option<u64>) -> Result<usize, String> {
    let mut random = Random::new(seed.unwrap_or(SEED));
    for i in 0..count {
        let script = scripts::script(&mut random);
        if let Err(difference) = compare_with_model(&format!("random script {i}"), &script) {
            let place = std::env::temp_dir().join("bench-difference.in");
            if fs::write(&place, &script).is_ok() {
                eprintln!("the script is in {}", place.display());
            }
            return Err(difference);
        }
    }
    Ok(count)
}

/// Compares all engines on the workloads at every size and depth, with few rounds.
pub fn workload_scripts() -> Result<usize, String> {
    let mut count = 0;
    for workload in &workloads::ALL {
        for cells in workloads::SIZES {
            for depth in workloads::DEPTHS {
                let label = format!("{} of {cells} cells at depth {depth}", workload.name);
                compare_with_model(&label, &workload.script(cells, depth, 2))?;
                count += 1;
            }
        }
    }
    Ok(count)
}

// The scripts of a folder.
fn inputs(folder: &Path) -> Result<Vec<PathBuf>, String> {
    let entries = fs::read_dir(folder).map_err(|error| format!("{}: {error}", folder.display()))?;
    let mut inputs: Vec<PathBuf> = entries
        .filter_map(|entry| entry.ok().map(|entry| entry.path()))
        .filter(|path| path.extension().is_some_and(|extension| extension == "in"))
        .collect();
    inputs.sort();
    Ok(inputs)
}

/// Compares all engines and the model with the outputs stored beside the scripts of a folder.
pub fn stored_scripts(folder: &Path) -> Result<usize, String> {
    let inputs = inputs(folder)?;
    for path in &inputs {
        let label = path.display().to_string();
        let read = |path: &Path| fs::read(path).map_err(|error| format!("{label}: {error}"));
        let script = read(path)?;
        let expected = read(&path.with_extension("out"))?;
        compare(&label, &script, &expected)?;
        if transcript(Which::Model, &script) != expected {
            difference(&label, Which::Model)?;
        }
    }
    Ok(inputs.len())
}
