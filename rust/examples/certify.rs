//! Makes a certificate that a leaf has one solution only, with the SAT solver CaDiCaL (`apt-get install cadical`), and writes it to a file.
//!
//!     cargo run --example certify [CERTIFICATE [RECORD [EDITION [CELL:LOWEST:HIGHEST ..]]]]
//!
//! RECORD is the file of a record. Without it the leaf is a sample, and without CERTIFICATE that file is `sample.certificate` in the folder
//! for temporary files. `verify` takes the same words.

mod leaf;

use evolmino::{MakerError, Solver};
use leaf::{board, ended, Named};
use std::error::Error;
use std::fs;
use std::process::ExitCode;
use std::time::Instant;

fn main() -> ExitCode {
    ended(certify())
}

fn certify() -> Result<(), Box<dyn Error>> {
    let named = Named::from_command_line()?;
    let start = Instant::now();
    let certificate = match named.leaf().certify(&Solver::cadical()) {
        Err(MakerError::NotUnique(boards)) => {
            let [one, another] = boards.map(|cells| board(&cells, named.width()));
            return Err(format!("more than one solution:\n{one}and\n{another}").into());
        }
        certified => certified?,
    };
    let taken = start.elapsed();
    let path = named.certificate.display();
    fs::write(&named.certificate, certificate.bytes())
        .map_err(|error| format!("{path}: {error}"))?;
    let counts = certificate.counts();
    println!(
        "{path}: {} steps with {} literals and {} hints in {} bytes, made and accepted in {taken:.1?}",
        counts.steps,
        counts.literals,
        counts.hints,
        certificate.bytes().len()
    );
    Ok(())
}
