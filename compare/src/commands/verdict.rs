//! `compare verdict`: the linked calls on random boards, in both editions, without sizes and with them, and on
//! their eight turned images (document 02 §13). A board has a reason exactly when each of its images has
//! one. The library turns the record, and the reading decisions and sizes. What is given is held against
//! the reading, which tells its kind; counted is how often it is another reason on the image.

use super::sized_calls::Input;
use crate::generate::boards::board_of_size;
use crate::generate::hosts::HostInput;
use crate::generate::puzzles::{any_size, strip};
use crate::generate::sizes::{any_sizes, as_read, as_written, size_bytes};
use crate::host::{TurnCall, WithCalls, MISSING, TURN_CALL, WITH_CALLS};
use crate::progress::{hexadecimal, leaf_facts, repeatedly, Outcome};
use crate::random::Random;
use crate::reading::grid::Size;
use crate::reading::host::{found_with, literal_bytes};
use crate::reading::leaf::Leaf;
use crate::reading::reasons::{most_literals, Reason, Which};
use crate::reading::record::encode;
use crate::reading::sizes::Range;
use crate::reading::turn::{turned_cell, turned_decisions, turned_sizes, TURNINGS};
use crate::reading::{Edition, Literal};
use crate::shrink::shrunk;
use crate::tally::Tally;
use std::collections::HashSet;
use std::fmt::Display;

/// A leaf with its standing decisions.
struct Standing {
    leaf: Leaf,
    decisions: Vec<Literal>,
}

pub fn run(seed: u64, count: usize) -> Outcome {
    let calls = Calls {
        turn: TURN_CALL.ok_or(MISSING)?,
        with: WITH_CALLS.ok_or(MISSING)?,
    };
    let mut counts = Counts::default();
    repeatedly("verdict", seed, count, |random| {
        let board = any_standing(random);
        let seen = calls.seen(&board).map_err(|_| calls.smallest(&board))?;
        counts.add(&board, &seen);
        Ok(())
    })?;
    counts.print();
    match counts.met_all() {
        true => Ok(()),
        false => Err("not every case was met: more boards are needed".to_string()),
    }
}

/// Mostly small and middle grids, few of them square.
fn any_standing(random: &mut Random) -> Standing {
    let size = match random.below(200) {
        0 => any_size(random),
        1..=10 => strip(random),
        _ => Size {
            height: random.between(3, 10),
            width: random.between(3, 10),
        },
    };
    let board = board_of_size(random, size);
    let sizes = match random.percent(60) {
        true => as_read(&any_sizes(random, &board)),
        false => Vec::new(),
    };
    let leaf = Leaf {
        puzzle: board.puzzle,
        edition: random.pick(&Edition::BOTH),
        sizes,
    };
    Standing {
        leaf,
        decisions: board.decisions,
    }
}

impl Standing {
    fn size(&self) -> Size {
        self.leaf.puzzle.size
    }

    /// What the calls take, with this record.
    fn input(&self, record: Vec<u8>, sizes: &[Range], decisions: &[Literal]) -> Input {
        Input {
            host: HostInput {
                record,
                decisions: literal_bytes(decisions),
                output: 2 * most_literals(self.size()),
            },
            edition: self.leaf.edition.number().into(),
            sizes: size_bytes(&as_written(sizes)),
        }
    }

    fn upright(&self) -> Input {
        let record = encode(&self.leaf.puzzle);
        self.input(record, &self.leaf.sizes, &self.decisions)
    }

    /// The image whose turned record this is: each decision and size is at its turned cell.
    fn image(&self, k: u32, record: Vec<u8>) -> Input {
        let sizes = turned_sizes(k, self.size(), &self.leaf.sizes);
        let decisions = turned_decisions(k, self.size(), &self.decisions);
        self.input(record, &sizes, &decisions)
    }

    /// Whether the turned sizes rise in another order than the sizes.
    fn reorders(&self, k: u32) -> bool {
        let cells = self.leaf.sizes.iter().map(|range| range.cell);
        !cells
            .map(|cell| turned_cell(k, self.size(), cell))
            .is_sorted()
    }
}

/// The linked calls.
#[derive(Clone, Copy)]
struct Calls {
    turn: TurnCall,
    with: WithCalls,
}

/// What is given on a board and on its images, by turning.
struct Seen {
    reason: Option<Reason>,
    images: Vec<Image>,
}

struct Image {
    record: Vec<u8>,
    reason: Option<Reason>,
    /// Not those of the board at their turned cells, their order aside.
    other_literals: bool,
}

impl Calls {
    /// The same verdict on a board and on each of its images; then whether what is given on each is what the
    /// reading gives.
    fn seen(self, board: &Standing) -> Result<Seen, String> {
        let upright = board.upright();
        let here = self.given(&upright)?;
        let mut given = Vec::new();
        for k in TURNINGS {
            let record = self.turned(&upright.host.record, k)?;
            let image = board.image(k, record);
            let there = self.given(&image).map_err(|what| of_image(k, what))?;
            if here.is_empty() != there.is_empty() {
                let [here, there] = [&here, &there].map(|bytes| verdict(bytes));
                return Err(of_image(k, format!("{there}; and of the board, {here}")));
            }
            given.push((image, there));
        }
        let reason = as_by_reading(&upright, &here)?;
        let mut images = Vec::new();
        for (k, (image, there)) in TURNINGS.zip(given) {
            let other = as_by_reading(&image, &there).map_err(|what| of_image(k, what))?;
            images.push(Image {
                record: image.host.record,
                other_literals: other_literals(k, board.size(), &reason, &other)
                    .map_err(|what| of_image(k, what))?,
                reason: other,
            });
        }
        Ok(Seen { reason, images })
    }

    fn turned(self, record: &[u8], k: u32) -> Result<Vec<u8>, String> {
        let mut output = vec![0; record.len()];
        match (self.turn)(record, k, &mut output) {
            number if number == record.len() as i32 => Ok(output),
            number => Err(of_image(k, format!("turn returns {number}"))),
        }
    }

    /// The bytes of the literals that are given, no byte for none.
    fn given(self, input: &Input) -> Result<Vec<u8>, String> {
        let mut output = vec![0; input.host.output];
        let number = (self.with.find)(input.opening(), &input.host.decisions, &mut output);
        let literals = usize::try_from(number).map_err(|_| format!("refused by {}", -number))?;
        output.truncate(2 * literals);
        Ok(output)
    }

    /// What differs, with the fewest sizes and decisions with which something does.
    fn smallest(self, board: &Standing) -> String {
        let with = |sizes: &[Range], decisions: &[Literal]| Standing {
            leaf: Leaf {
                sizes: sizes.to_vec(),
                ..board.leaf.clone()
            },
            decisions: decisions.to_vec(),
        };
        let what =
            |sizes: &[Range], decisions: &[Literal]| self.seen(&with(sizes, decisions)).err();
        let sizes = shrunk(&board.leaf.sizes, |sizes| {
            what(sizes, &board.decisions).is_some()
        });
        let decisions = shrunk(&board.decisions, |decisions| {
            what(&sizes, decisions).is_some()
        });
        let smallest = with(&sizes, &decisions);
        format!(
            "{}\n{}",
            leaf_facts(&smallest.leaf, &decisions),
            what(&sizes, &decisions).expect("something differs")
        )
    }
}

fn of_image(k: u32, what: String) -> String {
    format!("of the image in turning {k}, {what}")
}

fn verdict(given: &[u8]) -> String {
    match given.len() / 2 {
        0 => "none is given".to_string(),
        literals => format!("a reason of {literals} literals is given"),
    }
}

/// The reading's reason on a board, if it has the literals that are given there.
fn as_by_reading(input: &Input, given: &[u8]) -> Result<Option<Reason>, String> {
    let read = found_with(input.opening(), &input.host.decisions, input.host.output);
    let reason = read.map_err(|refusal| format!("the reading's refusal is {refusal:?}"))?;
    let literals = reason.as_ref().map_or(&[][..], |reason| &reason.literals);
    match literal_bytes(literals) == given {
        true => Ok(reason),
        false => Err(format!(
            "{} is given, and the reading has {reason:?}",
            hexadecimal(given)
        )),
    }
}

/// Whether the literals on an image are other ones than on the board. Each of reasons 1 to 5 applies on both or
/// on neither, and the first that applies is given. Of several 1, 2 or 5 the rows tell which comes first,
/// and so it may be another one; 3 and 4 go by arrows, whose order is kept, and so it is the same pair.
fn other_literals(
    k: u32,
    size: Size,
    here: &Option<Reason>,
    there: &Option<Reason>,
) -> Result<bool, String> {
    let (Some(reason), Some(other)) = (here, there) else {
        return Ok(false);
    };
    let differ = set(turned_decisions(k, size, &reason.literals)) != set(other.literals.clone());
    let as_it_must = match (reason.which, other.which) {
        (Which::FiveLow | Which::FiveHigh, Which::FiveLow | Which::FiveHigh) => true,
        (Which::One, Which::One) | (Which::Two, Which::Two) => true,
        (one, another) => one == another && !differ,
    };
    match as_it_must {
        true => Ok(differ),
        false => Err(format!("{other:?} is given; and of the board, {reason:?}")),
    }
}

/// By cell, each once.
fn set(mut literals: Vec<Literal>) -> Vec<Literal> {
    literals.sort();
    literals.dedup();
    literals
}

/// None and each reason, in the tally's order.
type Columns = [usize; Tally::WITH_SIZES];

#[derive(Default)]
struct Counts {
    /// Boards in editions 1 and 2, each without sizes and with them.
    boards: [[Columns; 2]; 2],
    /// Boards with undecided cells and full ones, each without a reason and with one.
    full: [[usize; 2]; 2],
    /// Boards whose eight images have eight different records.
    asymmetric: usize,
    /// By turning: images, those with another record than the board, and those with their sizes in another
    /// order.
    images: [[usize; 3]; TURNINGS.end as usize],
    /// Images in turnings 1 to 7, by what is given on the board: all, those with a reason of another kind,
    /// and those with other literals.
    turned: [[usize; 3]; Tally::WITH_SIZES],
}

impl Counts {
    fn add(&mut self, board: &Standing, seen: &Seen) {
        let column = Tally::column(seen.reason.as_ref());
        let edition = usize::from(board.leaf.edition.number()) - 1;
        let sized = usize::from(!board.leaf.sizes.is_empty());
        let full = usize::from(board.decisions.len() == board.size().cells());
        self.boards[edition][sized][column] += 1;
        self.full[full][column.min(1)] += 1;
        let records: HashSet<&[u8]> = seen.images.iter().map(|image| &*image.record).collect();
        self.asymmetric += usize::from(records.len() == seen.images.len());
        for (k, image) in seen.images.iter().enumerate() {
            let other_record = image.record != seen.images[0].record;
            let reordered = board.reorders(k as u32);
            add(&mut self.images[k], [true, other_record, reordered]);
            if k > 0 {
                let other_kind = Tally::column(image.reason.as_ref()) != column;
                let met = [true, other_kind, image.other_literals];
                add(&mut self.turned[column], met);
            }
        }
    }

    /// None and each reason where there is one, full and other boards of either verdict, and each turning; and
    /// that images are other boards, other reasons of 1, 2 and 5, and of 5 either side for the other.
    fn met_all(&self) -> bool {
        let exists = |edition: usize, sized: usize, column: usize| match column {
            5 => edition == 0,
            6 | 7 => sized == 1,
            _ => true,
        };
        let boards = [(0, 0), (0, 1), (1, 0), (1, 1)].into_iter().all(|(e, s)| {
            let mut counts = self.boards[e][s].iter().enumerate();
            counts.all(|(c, &count)| (count > 0) == exists(e, s, c))
        });
        let full = !self.full.as_flattened().contains(&0);
        let images = self.images[0][0] > 0 && !self.images[1..].as_flattened().contains(&0);
        let literals = [1, 2, 6, 7]
            .iter()
            .all(|&column| self.turned[column][2] > 0);
        let sides = [6, 7].iter().all(|&column| self.turned[column][1] > 0);
        boards && full && self.asymmetric > 0 && images && literals && sides
    }

    fn print(&self) {
        println!("{:>26}{}", "boards", in_columns(&Tally::NAMES));
        for (edition, [without, with]) in (1..).zip(&self.boards) {
            println!("   edition {edition}, without sizes{}", in_columns(without));
            println!("      edition {edition}, with sizes{}", in_columns(with));
        }
        let [all, other_kind, other_literals] =
            [0, 1, 2].map(|part| self.turned.map(|counts| counts[part]));
        println!(" images in turnings 1 to 7{}", in_columns(&all));
        println!("           of another kind{}", in_columns(&other_kind));
        println!("       with other literals{}", in_columns(&other_literals));
        println!(
            "verdict: full boards without a reason and with one {:?}, others {:?}; {} boards with eight \
             different images; images by turning, with another record, with reordered sizes: {:?}",
            self.full[1], self.full[0], self.asymmetric, self.images
        );
        let [all, other_kind, other_literals] =
            [all, other_kind, other_literals].map(|columns| columns[1..].iter().sum::<usize>());
        let in_a_hundred = |part: usize| 100.0 * part as f64 / all as f64;
        println!(
            "verdict: of {all} images in turnings 1 to 7 that have a reason {other_kind} have one of another \
             kind, {:.2} in a hundred; {other_literals} have other literals, {:.2} in a hundred",
            in_a_hundred(other_kind),
            in_a_hundred(other_literals)
        );
    }
}

fn add<const N: usize>(counts: &mut [usize; N], met: [bool; N]) {
    for (count, met) in counts.iter_mut().zip(met) {
        *count += usize::from(met);
    }
}

fn in_columns<T: Display>(things: &[T]) -> String {
    things.iter().map(|thing| format!("{thing:>9}")).collect()
}
