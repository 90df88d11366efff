//! The linked calls in an edition and with sizes, made on any input and compared with the reading; what they
//! said is counted.

use crate::answers::host_facts;
use crate::generate::boards::Decided;
use crate::generate::hosts::HostInput;
use crate::guarded::{self, Due, Room};
use crate::host::{WithCalls, MISSING, WITH_CALLS};
use crate::progress::{hexadecimal, Outcome};
use crate::random::Random;
use crate::reading::certain::{searched_with, Answer};
use crate::reading::host::{found_with, judged_with, literal_bytes};
use crate::reading::leaf::Opening;
use crate::reading::reasons::{most_literals, Reason};
use crate::reading::record::encode;
use crate::reading::{Edition, Refusal};
use crate::tally::Tally;

/// The largest number of a refusal.
const LAST: usize = 22;

/// What a call is made with.
#[derive(Clone)]
pub struct Input {
    pub host: HostInput,
    pub edition: u32,
    pub sizes: Vec<u8>,
}

impl Input {
    pub fn opening(&self) -> Opening<'_> {
        Opening {
            record: &self.host.record,
            edition: self.edition,
            sizes: &self.sizes,
        }
    }
}

/// A good record, decisions of different cells and an output that is long enough for each call.
pub fn good_input(board: &Decided, edition: u32, sizes: Vec<u8>) -> Input {
    let size = board.puzzle.size;
    Input {
        host: HostInput {
            record: encode(&board.puzzle),
            decisions: literal_bytes(&board.decisions),
            output: (2 * most_literals(size)).max(8 + size.cells()),
        },
        edition,
        sizes,
    }
}

/// What the calls said.
#[derive(Default)]
pub struct Counts {
    /// None and each reason, in edition 1 and in edition 2.
    found: [[usize; Tally::WITH_SIZES]; 2],
    /// Leaves that are not finished, and those that are, with a sized cell that is square.
    finished: [[usize; 2]; 2],
    /// Cells told, no such board, and spent, of leaves with sizes.
    certain: [[usize; 3]; 2],
    /// By refusal number, of find, finished and certain.
    refused: [[usize; LAST + 1]; 3],
}

impl Counts {
    /// The refusals that a call can give.
    const REFUSALS: [&'static [usize]; 3] = [
        &[1, 2, 3, 4, 5, 7, 9, 11, 12, 16, 22],
        &[1, 2, 3, 4, 5, 7, 9, 12, 16, 22],
        &[1, 2, 3, 4, 5, 7, 9, 11, 12, 16, 22],
    ];

    fn refuse(&mut self, call: usize, refusal: Refusal) {
        self.refused[call][usize::from(refusal.number())] += 1;
    }

    /// Whether each call gave all its refusals and no other, each reason was met in each edition that has
    /// it, and each verdict.
    pub fn met_all(&self) -> bool {
        let refusals = self.refused.iter().zip(Counts::REFUSALS);
        let refused = refusals.into_iter().all(|(counts, listed)| {
            (0..=LAST).all(|number| (counts[number] > 0) == listed.contains(&number))
        });
        let reasons = Edition::BOTH.iter().zip(&self.found);
        let found = reasons.into_iter().all(|(&edition, counts)| {
            let exists = |column: usize| column != 5 || edition == Edition::ExactlyOne;
            (0..counts.len()).all(|column| (counts[column] > 0) == exists(column))
        });
        let told = self.certain.iter().flatten().all(|&count| count > 0);
        let judged = self.finished.iter().flatten().all(|&count| count > 0);
        refused && found && told && judged
    }

    pub fn lines(&self) -> String {
        let numbers = |call: usize| -> Vec<(usize, usize)> {
            let counts = self.refused[call].iter().copied().enumerate();
            counts.filter(|&(_, count)| count > 0).collect()
        };
        format!(
            "sizes: none, reasons 1, 2, 3, 4(a), 4(b), 5 low, 5 high in editions 1 and 2: {:?}\n\
             sizes: with a sized square not finished, finished: {:?}; cells told, no such board, spent: {:?}\n\
             sizes: refused, by number: find {:?}, finished {:?}, certain {:?}",
            self.found,
            self.finished,
            self.certain,
            numbers(0),
            numbers(1),
            numbers(2)
        )
    }
}

/// Makes the calls and compares them with the reading.
pub struct Checker {
    pub calls: WithCalls,
    pub counts: Counts,
}

impl Checker {
    pub fn new() -> Result<Checker, String> {
        Ok(Checker {
            calls: WITH_CALLS.ok_or(MISSING)?,
            counts: Counts::default(),
        })
    }

    /// The three calls on the same input, with outputs that are about as long for each as they are for
    /// find.
    pub fn all_three(&mut self, random: &mut Random, input: &Input, budget: u64) -> Outcome {
        let _ = self.find(random, input)?;
        let _ = self.finished(random, input)?;
        let mut host = input.host.clone();
        host.output = host.output / 6 + random.pick(&[8, 8, 8, 8, 7, 9]);
        let input = Input {
            host,
            ..input.clone()
        };
        let _ = self.certain(random, &input, budget)?;
        Ok(())
    }

    pub fn find(
        &mut self,
        random: &mut Random,
        input: &Input,
    ) -> Result<Result<Option<Reason>, Refusal>, String> {
        let HostInput {
            decisions, output, ..
        } = &input.host;
        let expected = found_with(input.opening(), decisions, *output);
        let bytes = match &expected {
            Ok(Some(reason)) => literal_bytes(&reason.literals),
            _ => Vec::new(),
        };
        let number = expected.as_ref().map(|_| bytes.len() as i32 / 2);
        let call = self.calls.find;
        check(random, "find", input, number, &bytes, call)?;
        match &expected {
            Err(refusal) => self.counts.refuse(0, *refusal),
            Ok(reason) => {
                let column = Tally::column(reason.as_ref());
                self.counts.found[input.edition as usize - 1][column] += 1;
            }
        }
        Ok(expected)
    }

    pub fn finished(
        &mut self,
        random: &mut Random,
        input: &Input,
    ) -> Result<Result<bool, Refusal>, String> {
        let expected = judged_with(input.opening(), &input.host.decisions);
        let number = expected.as_ref().map(|&yes| i32::from(yes));
        let call = self.calls.finished;
        check(random, "finished", input, number, &[], |leaf, d, _| {
            call(leaf, d)
        })?;
        match expected {
            Err(refusal) => self.counts.refuse(1, refusal),
            Ok(yes) if has_sized_square(input) => {
                self.counts.finished[input.edition as usize - 1][usize::from(yes)] += 1;
            }
            Ok(_) => {}
        }
        Ok(expected)
    }

    pub fn certain(
        &mut self,
        random: &mut Random,
        input: &Input,
        budget: u64,
    ) -> Result<Result<Answer, Refusal>, String> {
        let HostInput {
            decisions, output, ..
        } = &input.host;
        let expected = searched_with(input.opening(), decisions, budget, *output);
        let bytes = expected.as_ref().map_or(Vec::new(), Answer::bytes);
        let number = expected.as_ref().map(Answer::number);
        let call = self.calls.certain;
        let name = format!("certain within {budget}");
        check(random, &name, input, number, &bytes, |leaf, d, output| {
            call(leaf, d, budget, output)
        })?;
        match &expected {
            Err(refusal) => self.counts.refuse(2, *refusal),
            Ok(answer) if !input.sizes.is_empty() => {
                let number = answer.number() as usize;
                self.counts.certain[input.edition as usize - 1][number] += 1;
            }
            Ok(_) => {}
        }
        Ok(expected)
    }
}

/// Makes a call and compares what it does; about some outputs there are guard bytes.
fn check(
    random: &mut Random,
    name: &str,
    input: &Input,
    number: Result<i32, &Refusal>,
    bytes: &[u8],
    call: impl FnOnce(Opening, &[u8], &mut [u8]) -> i32,
) -> Outcome {
    let due = match number {
        Err(refusal) => Due::refused(*refusal),
        Ok(number) => Due {
            number,
            front: bytes,
        },
    };
    let Input {
        host,
        edition,
        sizes,
    } = input;
    let room = Room {
        length: host.output,
        guard: random.pick(&[0, 0, 1, 64]),
        salt: random.below(256),
    };
    let lent: [&[u8]; 3] = [&host.record, sizes, &host.decisions];
    let done = guarded::compare(lent, room, due, |[record, sizes, decisions], output| {
        let opening = Opening {
            record,
            edition: *edition,
            sizes,
        };
        call(opening, decisions, output)
    });
    done.map_err(|what| {
        let shown = hexadecimal(&sizes[..sizes.len().min(60)]);
        format!(
            "{}, edition {edition}, sizes {shown} of {} bytes\n{name} {what}",
            host_facts(host),
            sizes.len()
        )
    })
}

/// Whether a sized cell of accepted input is square.
fn has_sized_square(input: &Input) -> bool {
    let leaf = input.opening().leaf().expect("it is accepted");
    let is_square = |range: u16| {
        let square = [0x80 + (range >> 8) as u8, range as u8];
        input.host.decisions.chunks(2).any(|two| two == square)
    };
    leaf.sizes.iter().any(|range| is_square(range.cell as u16))
}
