//! Compares the Rust original of the Evolmino constraint with a literal reading of documents 01 and 02,
//! writes fixed lists of answers, and measures. See README.md.

mod answers;
mod commands;
mod generate;
mod guarded;
mod host;
mod lent;
mod lists;
mod options;
mod original;
mod package_board;
mod processor;
mod progress;
mod quota;
mod random;
mod reading;
mod shrink;
mod tally;

#[cfg(not(original))]
#[allow(dead_code)]
mod absent;

// The original's text names the crates `cspuz_rs` and `cspuz_core` and its own `crate::util`.
// Here all three are this crate, with the stand-ins at its root.
#[cfg(original)]
extern crate self as cspuz_core;
#[cfg(original)]
extern crate self as cspuz_rs;
#[cfg(original)]
#[allow(dead_code)]
mod standins;
#[cfg(original)]
use standins::{custom_constraints, graph, serializer, solver};

// clippy's advice on the original's text is not for us.
#[cfg(original)]
#[allow(dead_code, clippy::all)]
mod util {
    include!(env!("EVOLMINO_UTIL_RS"));
}

#[cfg(original)]
#[allow(dead_code, clippy::all)]
mod evolmino {
    include!(env!("EVOLMINO_RS"));
    include!("access.rs");
}

use options::Options;
use progress::Outcome;
use std::io::Read;
use std::process::ExitCode;

const USAGE: &str = "\
compare records|finds|calls|groups|small|all [--seed N] [--count N]
compare lists FOLDER [--seed N]
compare certify PATH [--seed N]
compare program PATH [--seed N] [--count N]
compare bench|steps|touches [--seed N] [--count ROUNDS]
compare host [--seed N] [--count N]
compare constraint [--seed N] [--count N]
compare fuzz|finished|clauses|shades|turn|certain|join|file|sizes|verdict|board|soak|unique [--seed N] [--count N]
compare reason < INPUT
compare original";

const NOT_AT_HAND: &str =
    "the original is not at hand: name a checkout of it, or a folder with its two files, \
                           in EVOLMINO_ORIGINAL and build again";

fn main() -> ExitCode {
    let outcome = options::read(std::env::args().skip(1)).and_then(|options| run(&options));
    match outcome {
        Ok(()) => ExitCode::SUCCESS,
        Err(message) => {
            println!("{message}");
            ExitCode::FAILURE
        }
    }
}

fn run(options: &Options) -> Outcome {
    let seed = options.seed;
    let count = |default: usize| options.count.unwrap_or(default);
    let path = || options.path.as_deref().ok_or(USAGE);
    match options.command.as_str() {
        "records" => commands::records::run(seed, count(20_000)),
        "small" => commands::small::run(seed, count(1_000)),
        "all" => all(seed, count(100_000)),
        "program" => commands::program::run(seed, count(2_000), path()?),
        "reason" => reason(),
        "fuzz" => commands::fuzz::run(seed, count(1_000_000)),
        "finished" => commands::finished::run(seed, count(1_000)),
        "clauses" => commands::clauses::run(seed, count(2_000)),
        "shades" => commands::shades::run(seed, count(20_000)),
        "turn" => commands::turn::run(seed, count(10_000)),
        "certain" => commands::certain::run(seed, count(1_000)),
        "certify" => commands::certify::run(seed, path()?),
        "steps" => commands::steps::run(seed, count(20)),
        "join" => commands::join::run(seed, count(10_000)),
        "file" => commands::file::run(seed, count(10_000)),
        "sizes" => commands::sizes::run(seed, count(2_000)),
        "verdict" => commands::verdict::run(seed, count(100_000)),
        "board" => commands::board::run(seed, count(100_000)),
        "soak" => commands::soak::run(seed, count(1_000_000)),
        "touches" => commands::touches::run(seed, count(200)),
        "unique" => commands::unique::run(seed, count(500)),
        "finds" | "calls" | "groups" | "lists" | "bench" | "host" | "constraint" | "original"
            if !original::AT_HAND =>
        {
            Err(NOT_AT_HAND.to_string())
        }
        "original" => {
            println!("semiexp/cspuz_core, commit {}", original::COMMIT);
            Ok(())
        }
        "finds" => commands::finds::run(seed, count(100_000)),
        "calls" => commands::calls::run(seed, count(20_000)),
        "groups" => commands::groups::run(seed, count(50_000)),
        "lists" => lists::run(seed, path()?),
        "bench" => commands::bench::run(seed, count(200)),
        "host" => commands::host::run(seed, count(100_000)),
        #[cfg(feature = "host")]
        "constraint" => commands::constraint::run(seed, count(20_000)),
        #[cfg(not(feature = "host"))]
        "constraint" => Err(host::MISSING.to_string()),
        _ => Err(USAGE.to_string()),
    }
}

/// All comparisons, in numbers that take about the same time.
fn all(seed: u64, count: usize) -> Outcome {
    commands::records::run(seed, count)?;
    commands::small::run(seed, count.div_ceil(100))?;
    if !original::AT_HAND {
        println!("{NOT_AT_HAND}; the rest was left out");
        return Ok(());
    }
    commands::finds::run(seed, count)?;
    commands::calls::run(seed, count.div_ceil(4))?;
    commands::groups::run(seed, count)
}

/// What the program `reason` prints, by the reading.
fn reason() -> Outcome {
    let mut input = Vec::new();
    let read = std::io::stdin().read_to_end(&mut input);
    read.map_err(|error| format!("standard input: {error}"))?;
    print!("{}", reading::program::reason(&input));
    Ok(())
}
