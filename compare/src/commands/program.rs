//! `compare program PATH`: a built program `reason`, run on fixed and on random input.

use crate::answers::of_host;
use crate::generate::hosts::{any_host_input, HostInput};
use crate::lists::inputs::fixed_inputs;
use crate::original::AT_HAND;
use crate::progress::{hexadecimal, repeatedly, Outcome};
use crate::random::Random;
use crate::reading::program::reason;
use std::io::Write;
use std::process::{Command, Stdio};
use std::thread::sleep;
use std::time::Duration;

/// Longer input is refused.
pub const LONGEST: usize = 8_192;

pub fn run(seed: u64, count: usize, program: &str) -> Outcome {
    let mut seen = Seen::default();
    for input in fixed_inputs() {
        seen.compare(program, &input, input.len())?;
    }
    // a pipe hands over what is in it: the first part comes in a read of its own
    for input in fixed_inputs().iter().filter(|input| input.len() > 1) {
        for first in [1, input.len() / 2, input.len() - 1] {
            seen.compare(program, input, first)?;
        }
    }
    println!("program: fixed inputs, {}", seen.line());

    let mut seen = Seen::default();
    repeatedly("program", seed, count, |random| {
        let input = any_input(random);
        seen.compare(program, &input, input.len())
    })?;
    println!("program: {count} random inputs, {}", seen.line());
    Ok(())
}

/// How often the program said what.
#[derive(Default)]
struct Seen {
    none: usize,
    reasons: usize,
    /// By their number.
    refused: [usize; 13],
}

impl Seen {
    /// Runs the program on the input, of which so many bytes come first.
    fn compare(&mut self, program: &str, input: &[u8], first: usize) -> Outcome {
        let expected = expected(input)?;
        let printed = printed(program, input.split_at(first))?;
        if printed != expected.as_bytes() {
            return Err(format!(
                "input {}\nprints\n{}and not\n{expected}",
                hexadecimal(input),
                String::from_utf8_lossy(&printed)
            ));
        }
        match expected.trim_end().strip_prefix("refused ") {
            Some(number) => self.refused[number.parse::<usize>().expect("it is a number")] += 1,
            None if expected == "none\n" => self.none += 1,
            None => self.reasons += 1,
        }
        Ok(())
    }

    fn line(&self) -> String {
        let numbers = self.refused.iter().enumerate();
        let refused: Vec<String> = numbers
            .filter(|&(_, &times)| times > 0)
            .map(|(number, times)| format!("{times} refused {number}"))
            .collect();
        let (none, reasons) = (self.none, self.reasons);
        format!("{none} none, {reasons} reasons, {}", refused.join(", "))
    }
}

/// What the program must print, by the reading. Where it finds, the original must find the same.
pub fn expected(input: &[u8]) -> Result<String, String> {
    let text = reason(input);
    if AT_HAND && !text.starts_with("refused") {
        let record = 2 + usize::from(input[0]) * 256 + usize::from(input[1]);
        let host_input = HostInput {
            record: input[2..record].to_vec(),
            decisions: input[record..].to_vec(),
            output: usize::from(u16::MAX),
        };
        of_host(&host_input, &mut vec![0; host_input.output])?;
    }
    Ok(text)
}

/// An input that says this length for the record.
pub fn joined(length: usize, record: &[u8], decisions: &[u8]) -> Vec<u8> {
    [&[(length >> 8) as u8, length as u8], record, decisions].concat()
}

/// A host call's record and decisions as the program reads them, sometimes with a wrong length.
pub fn any_input(random: &mut Random) -> Vec<u8> {
    let HostInput {
        record, decisions, ..
    } = any_host_input(random);
    let length = match random.below(20) {
        0 => record.len() + random.below(400),
        1 => random.below(record.len() + 1),
        _ => record.len(),
    };
    let mut input = joined(length, &record, &decisions);
    match random.below(40) {
        0 => input.truncate(random.below(input.len())),
        1 => input.resize(LONGEST, 0),
        2 => input.resize(LONGEST + 1, 0),
        3 => input.resize(LONGEST + random.between(2, 100_000), 0),
        _ => {}
    }
    input
}

/// What the program prints for input that comes in two parts.
fn printed(program: &str, (first, rest): (&[u8], &[u8])) -> Result<Vec<u8>, String> {
    let failed = |error: std::io::Error| format!("{program}: {error}");
    let mut child = Command::new(program)
        .stdin(Stdio::piped())
        .stdout(Stdio::piped())
        .spawn()
        .map_err(failed)?;
    // the program may stop reading at its limit, and what it prints counts all the same
    let mut stdin = child.stdin.take().expect("it is piped");
    let _ = stdin.write_all(first);
    if !rest.is_empty() {
        sleep(Duration::from_millis(2));
        let _ = stdin.write_all(rest);
    }
    drop(stdin);
    let output = child.wait_with_output().map_err(failed)?;
    match output.status.success() {
        true => Ok(output.stdout),
        false => Err(format!("{program}: {}", output.status)),
    }
}
