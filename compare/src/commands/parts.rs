//! The second table of `compare bench`: find alone, labels and kinds, beside the original's.
//!
//! The port exports none of them. Its test programs call them in as many rounds as their list says
//! before they compare the last answer: what a run with many rounds takes longer than a run with
//! one is the time of the calls. The original's are called as often, board by board, too.

use super::groups::two_arrow_cells_in_a_block;
use crate::generate::boards::Decided;
use crate::lists::{finds, groups};
use crate::original::{Access, Original};
use crate::processor::{processor_time, Whose};
use crate::progress::Outcome;
use crate::quota::Known;
use std::fs::{self, File};
use std::hint::black_box;
use std::path::{Path, PathBuf};
use std::process::{self, Command};
use std::time::Duration;

/// Of so many tries the shortest counts.
const TRIES: usize = 3;

struct Part {
    name: &'static str,
    program: &'static str,
    /// So many calls on each board of 32 by 32, more on smaller ones.
    calls: usize,
    has: fn(&Decided, &Access) -> bool,
    /// The program's list for a board and a number of rounds.
    list: fn(usize, &Known) -> Vec<u8>,
    /// The time of this many calls of the original's function.
    original: fn(usize, &mut Access) -> Duration,
}

const PARTS: [Part; 3] = [
    Part {
        name: "find",
        program: "find_replay",
        calls: 100,
        has: |_, _| true,
        list: |rounds, (board, reason)| finds::timed(rounds, board, reason.as_ref()),
        original: find,
    },
    Part {
        name: "labels",
        program: "groups_replay",
        calls: 500,
        has: |_, _| true,
        list: |rounds, (board, _)| groups::timed([rounds, 1], board),
        original: labels,
    },
    Part {
        name: "kinds",
        program: "groups_replay",
        calls: 250,
        // the original computes them there only
        has: |board, access| !two_arrow_cells_in_a_block(&board.puzzle, &access.cells()),
        list: |rounds, (board, _)| groups::timed([1, rounds], board),
        original: kinds,
    },
];

pub fn run(boards_by_side: &[(usize, Vec<Known>)]) -> Outcome {
    println!();
    println!("parts, the same: on each board many calls, the best of {TRIES} tries");
    println!("find: find_inconsistency; the port's find, on a board that is decided");
    println!("labels: compute_board_info_simple; the port's blocks and potential groups");
    println!("kinds: compute_board_info_detailed, where no block has two arrow cells");
    let folder = programs();
    for part in PARTS {
        let program = folder.join(part.program);
        if !program.is_file() {
            println!(
                "{} is not there: run `rt ci` and `.ci/built`",
                program.display()
            );
            return Ok(());
        }
    }
    println!("    size    part  original      ours     ratio");
    for (side, boards) in boards_by_side {
        for part in PARTS {
            println!("{}", row(&part, *side, boards, &folder)?);
        }
    }
    Ok(())
}

/// The folder of the port's programs.
fn programs() -> PathBuf {
    let built = concat!(env!("CARGO_MANIFEST_DIR"), "/../target/bin");
    std::env::var_os("EVOLMINO_PROGRAMS").map_or_else(|| built.into(), PathBuf::from)
}

fn row(part: &Part, side: usize, boards: &[Known], folder: &Path) -> Result<String, String> {
    let calls = part.calls * 1_024 / (side * side);
    let mut original = Duration::ZERO;
    let mut ours = Duration::ZERO;
    let mut timed = 0;
    for known in boards {
        let mut access = Original::after(&known.0.puzzle, &known.0.decisions).access;
        if !(part.has)(&known.0, &access) {
            continue;
        }
        timed += calls;
        let program = folder.join(part.program);
        let once = (part.list)(1, known);
        let often = (part.list)(1 + calls, known);
        let mut best = [Duration::MAX; 3];
        for _ in 0..TRIES {
            let times = [
                (part.original)(calls, &mut access),
                time_of_run(&program, &once)?,
                time_of_run(&program, &often)?,
            ];
            for (best, time) in best.iter_mut().zip(times) {
                *best = (*best).min(time);
            }
        }
        original += best[0];
        ours += best[2].saturating_sub(best[1]);
    }
    let microseconds = |time: Duration| time.as_secs_f64() * 1e6 / timed as f64;
    let (original, ours) = (microseconds(original), microseconds(ours));
    let size = format!("{side} x {side}");
    let ratio = ours / original;
    let name = part.name;
    Ok(format!(
        "{size:>8}{name:>8}{original:>10.2}{ours:>10.2}{ratio:>10.2}"
    ))
}

/// The time of a run of a program with a list on standard input. It must find no difference.
fn time_of_run(program: &Path, list: &[u8]) -> Result<Duration, String> {
    let path = std::env::temp_dir().join(format!("compare-{}.list", process::id()));
    let shown = |error: std::io::Error| format!("{}: {error}", path.display());
    fs::write(&path, list).map_err(shown)?;
    let mut command = Command::new(program);
    command.stdin(File::open(&path).map_err(shown)?);
    let start = processor_time(Whose::Children);
    let output = command.output();
    let time = processor_time(Whose::Children) - start;
    fs::remove_file(&path).map_err(shown)?;
    let output = output.map_err(|error| format!("{}: {error}", program.display()))?;
    let printed = String::from_utf8_lossy(&output.stdout);
    if output.status.success() && printed.ends_with(" 0 differ\n") {
        Ok(time)
    } else {
        Err(format!("{} printed {printed}", program.display()))
    }
}

fn time_of(calls: usize, mut call: impl FnMut()) -> Duration {
    call();
    let start = processor_time(Whose::Own);
    for _ in 0..calls {
        call();
    }
    processor_time(Whose::Own) - start
}

fn find(calls: usize, access: &mut Access) -> Duration {
    time_of(calls, || {
        black_box(access.find_inconsistency());
    })
}

fn labels(calls: usize, access: &mut Access) -> Duration {
    time_of(calls, || {
        black_box(access.simple());
    })
}

fn kinds(calls: usize, access: &mut Access) -> Duration {
    let simple = access.simple();
    time_of(calls, || {
        black_box(access.detailed(&simple));
    })
}
