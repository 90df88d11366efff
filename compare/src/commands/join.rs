//! `compare join`: the linked call that joins two records, beside the reading: equal and unequal heights,
//! joined widths about the limit, good and damaged records on either side and on both, with outputs of
//! every length about the joined record's and guard bytes about them; three leaves in one row; and each
//! full board of small joined leaves beside its halves, in both editions.

use crate::generate::puzzles::{any_size, each_cell, puzzle, puzzle_of_size, ARROW_STYLES};
use crate::generate::records::damaged;
use crate::generate::small::{decisions, finished_halves, small_halves};
use crate::guarded::{compare, Due, Room};
use crate::host::{FinishedCall, JoinCall, FINISHED_CALL, JOIN_CALL, MISSING};
use crate::progress::{facts, hexadecimal, repeatedly, Outcome};
use crate::random::Random;
use crate::reading::board::Board;
use crate::reading::finished::finished;
use crate::reading::grid::Size;
use crate::reading::host::literal_bytes;
use crate::reading::join::{joined, joined_record, parts};
use crate::reading::record::{decode, encode, Puzzle};
use crate::reading::{Edition, Literal, Refusal};

/// Heights and widths of left and right whose leaves are joined with outputs of every length about the
/// joined record's.
const SIZES: [[(usize, usize); 2]; 22] = [
    [(1, 1), (1, 1)],
    [(1, 2), (1, 1)],
    [(2, 1), (2, 3)],
    [(3, 4), (3, 2)],
    // joined widths of 31, 32 and 33
    [(1, 16), (1, 14)],
    [(1, 1), (1, 30)],
    [(1, 30), (1, 1)],
    [(1, 16), (1, 16)],
    [(1, 1), (1, 31)],
    [(1, 31), (1, 1)],
    [(1, 32), (1, 32)],
    [(32, 1), (32, 1)],
    [(32, 15), (32, 15)],
    [(32, 15), (32, 16)],
    [(32, 30), (32, 1)],
    [(31, 1), (31, 30)],
    [(32, 16), (32, 16)],
    // unequal heights, some of them too wide as well
    [(1, 1), (2, 1)],
    [(32, 1), (31, 30)],
    [(31, 16), (32, 16)],
    [(1, 31), (32, 1)],
    [(2, 32), (1, 32)],
];

/// Outputs are up to so many bytes shorter or longer than the joined record.
const ABOUT: usize = 8;

/// Joined records up to this length are written to outputs of every shorter length.
const SHORT: usize = 64;

/// So many pairs are joined for one whose full boards are all gone through.
const FOR_A_SMALL_ONE: usize = 50;

/// What calls gave.
#[derive(Default)]
struct Given {
    leaves: usize,
    /// By refusal number, for a left record that is refused.
    left: [usize; 6],
    /// The same for a right record that is refused beside a good left one.
    right: [usize; 6],
    /// 18, 19 and 15, of two good records.
    both: [usize; 3],
    /// Both records are refused, by different numbers.
    differing: usize,
    /// A right record is refused that begins with another height than the left one's.
    right_and_unequal: usize,
    /// 18 where the joined width would be above 32 too.
    unequal_and_wide: usize,
}

impl Given {
    /// Counts what was given for two records, by which of them is refused by itself.
    fn add(&mut self, left: &[u8], right: &[u8], leaf: &Result<Vec<u8>, Refusal>) {
        let number = |refusal: Refusal| usize::from(refusal.number());
        match (decode(left), decode(right)) {
            (Err(refusal), other) => {
                self.left[number(refusal)] += 1;
                self.differing += usize::from(other.is_err_and(|other| other != refusal));
            }
            (Ok(left), Err(refusal)) => {
                self.right[number(refusal)] += 1;
                let height = |&first: &u8| usize::from(first >> 3) + 1;
                let unequal = right
                    .first()
                    .is_some_and(|first| height(first) != left.size.height);
                self.right_and_unequal += usize::from(unequal);
            }
            (Ok(left), Ok(right)) => match leaf {
                Ok(_) => self.leaves += 1,
                Err(Refusal::UnequalHeights) => {
                    self.both[0] += 1;
                    let wide = left.size.width + right.size.width > 31;
                    self.unequal_and_wide += usize::from(wide);
                }
                Err(Refusal::TooWide) => self.both[1] += 1,
                Err(_) => self.both[2] += 1,
            },
        }
    }

    /// Whether every refusal was met on each side, and the orders that can be told.
    fn met_all(&self) -> bool {
        let each = |counts: &[usize]| !counts.contains(&0);
        each(&self.left[1..])
            && each(&self.right[1..])
            && each(&self.both)
            && self.leaves > 0
            && self.differing > 0
            && self.right_and_unequal > 0
            && self.unequal_and_wide > 0
    }

    fn line(&self) -> String {
        format!(
            "{} joined; refused 1 to 5 on the left: {:?}, on the right: {:?}, 18, 19, 15: {:?}; \
             {} refused on both sides by different numbers, {} on the right that are of another height, \
             {} by 18 that are too wide",
            self.leaves,
            &self.left[1..],
            &self.right[1..],
            self.both,
            self.differing,
            self.right_and_unequal,
            self.unequal_and_wide
        )
    }
}

#[derive(Default)]
struct Counts {
    given: Given,
    /// Joined leaves 31 and 32 wide.
    wide: [usize; 2],
    /// Three leaves in one row.
    three: usize,
    /// Pairs whose full boards were all gone through, and their boards.
    small: usize,
    boards: usize,
    /// Those with an arrow on each half that are finished, by edition.
    finished: [usize; 2],
}

impl Counts {
    /// Whether leaves of all kinds were met.
    fn met_all(&self) -> bool {
        let [exactly_one, one_or_more] = self.finished;
        self.given.met_all()
            && !self.wide.contains(&0)
            && self.three > 0
            && exactly_one > 0
            && one_or_more > exactly_one
    }
}

pub fn run(seed: u64, count: usize) -> Outcome {
    let call = JOIN_CALL.ok_or(MISSING)?;
    let finished = FINISHED_CALL.ok_or(MISSING)?;
    let mut counts = Counts::default();
    for halves in halves_of_all_sizes(&mut Random::new(seed)) {
        every_length(call, &halves, &mut counts.given)?;
        accepted(call, finished, &halves, &mut counts)?;
    }
    repeatedly("join", seed, count, |random| {
        let halves = any_halves(random);
        accepted(call, finished, &halves, &mut counts)?;
        three_in_a_row(random, call, &halves, &mut counts)?;
        let good = halves.each_ref().map(encode);
        let bad = halves.each_ref().map(|half| damaged(random, half).record);
        for left in [&good[0], &bad[0]] {
            for right in [&good[1], &bad[1]] {
                any_output(random, call, left, right, &mut counts.given)?;
            }
        }
        Ok(())
    })?;
    for edition in Edition::BOTH {
        for halves in finished_halves(&mut Random::new(seed), edition) {
            full_boards(call, finished, &halves, &mut counts)?;
        }
    }
    let small = count.div_ceil(FOR_A_SMALL_ONE);
    repeatedly("join, full boards", seed, small, |random| {
        full_boards(call, finished, &small_halves(random), &mut counts)
    })?;
    if !counts.met_all() {
        return Err("not every case was met: more pairs are needed".to_string());
    }
    println!("join: {count} pairs, {}", counts.given.line());
    println!(
        "join: {:?} leaves 31 and 32 wide, {} of three in a row",
        counts.wide, counts.three
    );
    println!(
        "join: {} small pairs with {} full boards; with an arrow on each half {:?} finished in editions 1 and 2",
        counts.small, counts.boards, counts.finished
    );
    Ok(())
}

/// Leaves of each two sizes with arrows of each style, and the longest records that can be joined: an
/// arrow on each of their cells.
fn halves_of_all_sizes(random: &mut Random) -> Vec<[Puzzle; 2]> {
    let mut pairs = Vec::new();
    for sizes in SIZES {
        for (place, style) in ARROW_STYLES.into_iter().enumerate() {
            let other = ARROW_STYLES[(2 * place + 1) % ARROW_STYLES.len()];
            let [left, right] = sizes.map(|(height, width)| Size { height, width });
            pairs.push([puzzle(random, left, style), puzzle(random, right, other)]);
        }
    }
    let half = |width| Size { height: 32, width };
    pairs.push([15, 16].map(|width| each_cell(random, half(width))));
    pairs
}

/// Two puzzles, mostly of equal height, and many of them just about as wide as can be.
fn any_halves(random: &mut Random) -> [Puzzle; 2] {
    let mut left = any_size(random);
    let mut right = Size {
        height: left.height,
        width: random.between(1, 32),
    };
    match random.below(10) {
        0 => right.height = random.between(1, 32),
        1 => right = any_size(random),
        2..=4 => {
            let both = random.pick(&[31, 32, 32, 33]) - 1;
            left.width = random.between(1, both - 1);
            right.width = both - left.width;
        }
        5 => {}
        _ if left.width < 31 => right.width = random.between(1, 31 - left.width),
        _ => {}
    }
    [left, right].map(|size| puzzle_of_size(random, size))
}

/// With outputs of every length about the joined record's.
fn every_length(call: JoinCall, halves: &[Puzzle; 2], given: &mut Given) -> Outcome {
    let [left, right] = halves.each_ref().map(encode);
    let need = need(&left, &right);
    let shortest = match need {
        0..=SHORT => 0,
        long => long - ABOUT,
    };
    for length in (shortest..=need + ABOUT).chain([0]) {
        let leaf = check(call, &left, &right, length, ABOUT)?;
        given.add(&left, &right, &leaf);
    }
    Ok(())
}

/// Where two leaves can be joined, both the reading and the library take the joined record.
fn accepted(
    call: JoinCall,
    finished: FinishedCall,
    halves: &[Puzzle; 2],
    counts: &mut Counts,
) -> Outcome {
    let [left, right] = halves;
    let Some(record) = leaf(call, &encode(left), &encode(right))? else {
        return Ok(());
    };
    let whole = joined(left, right);
    let width = whole.size.width;
    // with no cell decided, a record that is accepted is not finished
    if decode(&record) != Ok(whole) || finished(&record, &[]) != 0 {
        let record = hexadecimal(&record);
        return Err(format!("joined record {record}: it is not accepted"));
    }
    counts.wide[0] += usize::from(width == 31);
    counts.wide[1] += usize::from(width == 32);
    Ok(())
}

/// A third leaf behind the two, and the second and third behind the first: the same bytes.
fn three_in_a_row(
    random: &mut Random,
    call: JoinCall,
    halves: &[Puzzle; 2],
    counts: &mut Counts,
) -> Outcome {
    let size = Size {
        height: halves[1].size.height,
        width: random.between(1, 4),
    };
    let third = encode(&puzzle_of_size(random, size));
    let [first, second] = halves.each_ref().map(encode);
    let Some(two) = leaf(call, &first, &second)? else {
        return Ok(());
    };
    let Some(three) = leaf(call, &two, &third)? else {
        return Ok(());
    };
    let behind = leaf(call, &second, &third)?.unwrap_or_default();
    if leaf(call, &first, &behind)? != Some(three) {
        let [first, second, third] = [first, second, third].map(|record| hexadecimal(&record));
        return Err(format!(
            "records {first}, {second}, {third}: joined from the left and from the right they differ"
        ));
    }
    counts.three += 1;
    Ok(())
}

/// Every full board of the joined leaf is finished exactly when the column is empty and each half is
/// finished, in both editions; in edition 1 the library says the same of all three.
fn full_boards(
    call: JoinCall,
    finished: FinishedCall,
    halves: &[Puzzle; 2],
    counts: &mut Counts,
) -> Outcome {
    let [left, right] = halves;
    let record = leaf(call, &encode(left), &encode(right))?.expect("small halves can be joined");
    let whole = joined(left, right);
    let arrows = !left.arrows.is_empty() && !right.arrows.is_empty();
    let of_left = verdicts(finished, left, &encode(left))?;
    let of_right = verdicts(finished, right, &encode(right))?;
    let of_whole = verdicts(finished, &whole, &record)?;
    for (number, &verdict) in of_whole.iter().enumerate() {
        let full = decisions(number, whole.size.cells(), 2);
        let parts = parts(left.size, right.size, &full);
        let column_is_empty = parts.column.iter().all(|&value| value == 0);
        let half_of_left = of_left[board_number(&parts.left)];
        let half_of_right = of_right[board_number(&parts.right)];
        for edition in 0..2 {
            let expected = column_is_empty && half_of_left[edition] && half_of_right[edition];
            if verdict[edition] != expected {
                return Err(format!(
                    "{}\nleft {}, right {}, edition {}: finished is {}, and of the parts {expected}",
                    facts(&whole, &full),
                    hexadecimal(&encode(left)),
                    hexadecimal(&encode(right)),
                    edition + 1,
                    verdict[edition]
                ));
            }
            counts.finished[edition] += usize::from(expected && arrows);
        }
    }
    counts.small += 1;
    counts.boards += of_whole.len();
    Ok(())
}

/// Whether each full board of a puzzle, by its number, is finished in edition 1 and in edition 2; the
/// library says the same of edition 1.
fn verdicts(
    finished: FinishedCall,
    puzzle: &Puzzle,
    record: &[u8],
) -> Result<Vec<[bool; 2]>, String> {
    let cells = puzzle.size.cells();
    let mut verdicts = Vec::new();
    for number in 0..1 << cells {
        let full = decisions(number, cells, 2);
        let verdict = Edition::BOTH.map(|edition| is_finished(puzzle, edition, &full));
        let returned = finished(record, &literal_bytes(&full));
        if returned != i32::from(verdict[0]) {
            return Err(format!(
                "{}\nthe library's finished returns {returned}, and the reading says {}",
                facts(puzzle, &full),
                verdict[0]
            ));
        }
        verdicts.push(verdict);
    }
    Ok(verdicts)
}

fn is_finished(puzzle: &Puzzle, edition: Edition, full: &[Literal]) -> bool {
    finished(&Board::after(puzzle, edition, full))
}

/// The number of a full board, whose digits are the cells.
fn board_number(full: &[Literal]) -> usize {
    full.iter()
        .map(|&(cell, value)| usize::from(value) << cell)
        .sum()
}

/// The joined record, in an output of just its length; none where it is refused.
fn leaf(call: JoinCall, left: &[u8], right: &[u8]) -> Result<Option<Vec<u8>>, String> {
    let leaf = check(call, left, right, need(left, right), 0)?;
    Ok(leaf.ok())
}

/// The shortest output that is long enough, or any length where there is nothing to write.
fn need(left: &[u8], right: &[u8]) -> usize {
    let record = joined_record(left, right, usize::MAX);
    record.map_or(SHORT, |record| record.len())
}

/// A call with an output of some length, mostly long enough.
fn any_output(
    random: &mut Random,
    call: JoinCall,
    left: &[u8],
    right: &[u8],
    given: &mut Given,
) -> Outcome {
    let need = need(left, right);
    let length = match random.below(20) {
        0 => random.below(need + 1),
        1 => need.saturating_sub(random.between(1, ABOUT)),
        2..=10 => need + random.below(ABOUT),
        _ => need,
    };
    let guard = random.pick(&[0, 0, 1, 64]);
    given.add(left, right, &check(call, left, right, length, guard)?);
    Ok(())
}

/// What the reading says, if the call says the same and leaves every byte as it should. The output has so
/// many guard bytes before and behind it.
fn check(
    call: JoinCall,
    left: &[u8],
    right: &[u8],
    length: usize,
    guard: usize,
) -> Result<Result<Vec<u8>, Refusal>, String> {
    let expected = joined_record(left, right, length);
    let room = Room {
        length,
        guard,
        salt: length + 59 * left.len(),
    };
    let due = Due::written(&expected);
    let done = compare([left, right], room, due, |[left, right], output| {
        call(left, right, output)
    });
    match done {
        Ok(()) => Ok(expected),
        Err(what) => Err(format!(
            "left {}, right {}, output of {length} bytes\nthe call {what}",
            hexadecimal(left),
            hexadecimal(right)
        )),
    }
}

/// Mutated records joined with the one before, for `compare fuzz`.
pub struct FuzzedJoins {
    call: JoinCall,
    random: Random,
    before: Vec<u8>,
    given: Given,
}

impl FuzzedJoins {
    pub fn new(seed: u64) -> Result<FuzzedJoins, String> {
        Ok(FuzzedJoins {
            call: JOIN_CALL.ok_or(MISSING)?,
            random: Random::new(seed),
            before: Vec::new(),
            given: Given::default(),
        })
    }

    /// The record before on the left, which is often of the same puzzle, and this one on the right.
    pub fn check(&mut self, record: &[u8]) -> Outcome {
        let left = std::mem::replace(&mut self.before, record.to_vec());
        any_output(&mut self.random, self.call, &left, record, &mut self.given)
    }

    pub fn line(&self) -> String {
        format!("join: {}", self.given.line())
    }
}
