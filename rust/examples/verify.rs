//! Asks the proved library whether a certificate shows that a leaf has one solution only, and prints that solution. No solver is needed.
//!
//!     cargo run --example verify [CERTIFICATE [RECORD [EDITION [CELL:LOWEST:HIGHEST ..]]]]
//!
//! It takes the words of `certify`.

mod leaf;

use evolmino::Certificate;
use leaf::{board, ended, Named};
use std::error::Error;
use std::fs;
use std::process::ExitCode;
use std::time::Instant;

fn main() -> ExitCode {
    ended(verify())
}

fn verify() -> Result<(), Box<dyn Error>> {
    let named = Named::from_command_line()?;
    let path = named.certificate.display();
    let bytes = fs::read(&named.certificate).map_err(|error| format!("{path}: {error}"))?;
    let start = Instant::now();
    let answer = named.leaf().unique(&bytes);
    let taken = start.elapsed();
    answer.map_err(|refusal| format!("{path}: {refusal}"))?;
    let solution = Certificate::from_bytes(bytes).solution();
    println!("accepted in {taken:.1?}: the only solution is");
    print!("{}", board(&solution.unwrap_or_default(), named.width()));
    Ok(())
}
