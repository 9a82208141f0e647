//! compare [SAMPLES [SEED [CASES]]]: reads packets by the library and by an implementation of its own, on random and
//! damaged inputs, and compares all answers and areas.
//!
//! The implementation follows the pages of docs/ and shares nothing with the library. SAMPLES is a folder whose
//! graph files are seeds among the random graphs. The same seed gives the same cases. The status is 0 if nothing
//! differs and every sort of answer was met.

mod answer;
mod cases;
mod encode;
mod faults;
mod graph;
mod library;
mod own;
mod packets;
mod plan;
mod random;
mod report;
mod rows;
#[cfg(test)]
mod samples;
mod shapes;
mod turns;
mod walk;

use std::process::ExitCode;

use cases::{Case, Cases, MARGIN};
use report::Report;

const SEED: u64 = 1;
const CASES: usize = 300_000;

fn main() -> ExitCode {
    match wanted(&std::env::args().skip(1).collect::<Vec<_>>()) {
        Ok((files, seed, count)) => run(&files, seed, count),
        Err(why) => {
            eprintln!("{why}\nusage: compare [SAMPLES [SEED [CASES]]]");
            ExitCode::FAILURE
        }
    }
}

/// Reads the command line: a folder of graph files, a seed, and how many calls to try. Each may be left out.
fn wanted(words: &[String]) -> Result<(Vec<Vec<u8>>, u64, usize), String> {
    if words.len() > 3 {
        return Err("too many words".to_string());
    }
    let files = words
        .first()
        .map_or(Ok(Vec::new()), |folder| graph_files(folder))?;
    let seed = words.get(1).map_or(Ok(SEED), |word| {
        word.parse().map_err(|_| format!("{word} is no seed"))
    })?;
    let count = words.get(2).map_or(Ok(CASES), |word| {
        word.parse().map_err(|_| format!("{word} is no number"))
    })?;
    Ok((files, seed, count))
}

/// The contents of a folder's graph files, by their names' order.
fn graph_files(folder: &str) -> Result<Vec<Vec<u8>>, String> {
    let cannot = |why: std::io::Error| format!("cannot read {folder}: {why}");
    let mut paths = Vec::new();
    for entry in std::fs::read_dir(folder).map_err(cannot)? {
        let path = entry.map_err(cannot)?.path();
        if path
            .extension()
            .is_some_and(|extension| extension == "graph")
        {
            paths.push(path);
        }
    }
    paths.sort();
    paths
        .iter()
        .map(|path| std::fs::read(path).map_err(cannot))
        .collect()
}

fn run(files: &[Vec<u8>], seed: u64, count: usize) -> ExitCode {
    let mut cases = Cases::new(seed, files);
    let mut report = Report::default();
    for _ in 0..count {
        compare(&cases.next(), &mut report);
    }
    if report.print(seed) {
        ExitCode::SUCCESS
    } else {
        ExitCode::FAILURE
    }
}

/// Makes both calls of a case. Areas are compared with the bytes around them.
fn compare(case: &Case, report: &mut Report) {
    let mut rooms = [case.room.clone(), case.room.clone()];
    let area = MARGIN..case.room.len() - MARGIN;
    let told = library::read(
        &case.graph,
        &case.plan,
        &case.packet,
        &mut rooms[0][area.clone()],
    );
    let (right, notes) = own::answer(&case.graph, &case.plan, &case.packet, &mut rooms[1][area]);
    report.count(right, notes);
    let what = if notes.torn {
        "the turns of this program are not its walk"
    } else if told != right {
        "the answers differ"
    } else if rooms[0] != rooms[1] {
        "the areas differ"
    } else {
        return;
    };
    report.differ(case, what, [told, right], [&rooms[0], &rooms[1]]);
}
