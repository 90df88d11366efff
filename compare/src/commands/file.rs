//! `compare file`: the linked calls that read a setter's and a player's file, beside the reading: every cut
//! and every flipped bit of small files, tails of a byte more, outputs of every length, numbers that are no
//! edition; random files, with faults and without; files that differ in solution bits alone; each full
//! board of small leaves as the solution, in both editions; and the package's readers and its writer.

use crate::generate::boards::{full_board, Decided};
use crate::generate::files::{any_contents, faulty, Contents};
use crate::generate::mutations::change;
use crate::generate::puzzles::{each_cell, square};
use crate::generate::small::{decisions, finished_leaves, freely_grown_leaves, small_puzzle};
use crate::guarded::{compare, Due, Room};
use crate::host::{
    FinishedCall, PackageFiles, PlayerFileCall, SetterFileCall, FINISHED_CALL, MISSING,
    PACKAGE_FILES, PLAYER_FILE_CALL, SETTER_FILE_CALL,
};
use crate::progress::{facts, hexadecimal, repeatedly, Outcome};
use crate::random::Random;
use crate::reading::file::{file, player_file, setter_file, solution_bits, Read};
use crate::reading::grid::Size;
use crate::reading::host::literal_bytes;
use crate::reading::record::{decode_head, encode, plain, Puzzle};
use crate::reading::{Edition, Refusal};

/// Heights and widths of small files: tails with each number of filler bits, of one byte and of more.
const SIZES: [(usize, usize); 12] = [
    (1, 1),
    (2, 1),
    (1, 3),
    (2, 2),
    (5, 1),
    (2, 3),
    (1, 7),
    (4, 2),
    (1, 13),
    (2, 7),
    (1, 32),
    (32, 1),
];

/// So many small files with finished solutions for each edition.
const FINISHED: usize = 12;

/// Numbers that are no edition, some of which are one when bits of them are lost.
const NO_EDITIONS: [u32; 10] = [
    0,
    3,
    255,
    256,
    257,
    258,
    1 << 16 | 1,
    1 << 31,
    1 << 31 | 2,
    u32::MAX,
];

/// The editions, and two numbers that are none.
const SOME_EDITIONS: [u32; 4] = [1, 2, 3, 258];

/// Outputs are up to so many bytes longer than what is written.
const ABOUT: usize = 8;

/// So many files are read for one leaf whose full boards are all gone through.
const FOR_A_SMALL_ONE: usize = 50;

#[derive(Clone, Copy)]
struct Calls {
    setter: SetterFileCall,
    player: PlayerFileCall,
}

impl Calls {
    fn linked() -> Result<Calls, String> {
        Ok(Calls {
            setter: SETTER_FILE_CALL.ok_or(MISSING)?,
            player: PLAYER_FILE_CALL.ok_or(MISSING)?,
        })
    }
}

/// What one of the calls gave.
#[derive(Default)]
struct Answers {
    /// By grade.
    accepted: [usize; 8],
    /// By refusal number.
    refused: [usize; 22],
    /// 20 for a tail that is too short, too long, and of the due length with filler that is not zero.
    tails: [usize; 3],
    /// A record's refusal with an output that is too short for any file.
    record_and_output: usize,
    /// 11 with a tail that is refused too.
    output_and_tail: usize,
}

impl Answers {
    fn add(&mut self, file: &[u8], length: usize, answer: &Result<Read, Refusal>) {
        let refusal = match answer {
            Ok(read) => {
                self.accepted[usize::from(read.bytes[0])] += 1;
                return;
            }
            Err(refusal) => *refusal,
        };
        self.refused[usize::from(refusal.number())] += 1;
        match (decode_head(file), refusal) {
            (Err(_), _) => self.record_and_output += usize::from(length == 0),
            (Ok(_), Refusal::OutputShort) => {
                self.output_and_tail += usize::from(player_file(file, 1) == Err(Refusal::Tail));
            }
            (Ok((puzzle, record)), Refusal::Tail) => {
                let due = record + (3 + puzzle.size.cells()).div_ceil(8);
                let which = match file.len() {
                    length if length < due => 0,
                    length if length > due => 1,
                    _ => 2,
                };
                self.tails[which] += 1;
            }
            _ => {}
        }
    }

    fn refused<const N: usize>(&self, numbers: [usize; N]) -> [usize; N] {
        numbers.map(|number| self.refused[number])
    }

    /// Whether files of every grade were accepted, and every refusal that both calls have was met, with the
    /// orders that can be told.
    fn met_all(&self) -> bool {
        let of_both = self.refused([1, 2, 3, 4, 5, 11, 20]);
        let each = |counts: &[usize]| !counts.contains(&0);
        each(&self.accepted)
            && each(&of_both)
            && each(&self.tails)
            && self.record_and_output > 0
            && self.output_and_tail > 0
    }

    fn line(&self) -> String {
        format!(
            "{:?} accepted by grade; refused 1 to 5, 11, 20: {:?}, tails too short, too long, with \
             filler: {:?}; {} records refused with no output, {} by 11 with a wrong tail",
            self.accepted,
            self.refused([1, 2, 3, 4, 5, 11, 20]),
            self.tails,
            self.record_and_output,
            self.output_and_tail
        )
    }
}

/// What calls gave.
#[derive(Default)]
struct Given {
    setter: Answers,
    player: Answers,
    /// Accepted by the setter's call, by edition.
    accepted: [usize; 2],
    /// 20 with a number that is no edition.
    tail_and_edition: usize,
    /// 16 with a solution that is not finished in edition 1.
    edition_and_solution: usize,
    /// Two files that differ in solution bits alone: accepted, and refused by 20.
    pairs: [usize; 2],
}

impl Given {
    fn add_setter(
        &mut self,
        file: &[u8],
        edition: u32,
        length: usize,
        answer: &Result<Read, Refusal>,
    ) {
        self.setter.add(file, length, answer);
        let known = Edition::numbered(edition);
        match (answer, known) {
            (Ok(_), Ok(edition)) => self.accepted[usize::from(edition.number()) - 1] += 1,
            (Err(Refusal::Tail), Err(_)) => self.tail_and_edition += 1,
            (Err(Refusal::Edition), _) => {
                let unfinished = setter_file(file, 1, length) == Err(Refusal::Unfinished);
                self.edition_and_solution += usize::from(unfinished);
            }
            _ => {}
        }
    }

    fn met_all(&self) -> bool {
        let each = |counts: &[usize]| !counts.contains(&0);
        self.setter.met_all()
            && self.player.met_all()
            && each(&self.setter.refused([16, 21]))
            && each(&self.accepted)
            && self.tail_and_edition > 0
            && self.edition_and_solution > 0
            && each(&self.pairs)
    }

    fn print(&self) {
        println!("file: player's: {}", self.player.line());
        println!("file: setter's: {}", self.setter.line());
        println!(
            "file: setter's: refused 16, 21: {:?}; {:?} accepted in editions 1 and 2; {} refused by 20 \
             with no edition, {} by 16 that are not finished; {:?} pairs that differ in solution bits \
             alone, accepted and refused by 20",
            self.setter.refused([16, 21]),
            self.accepted,
            self.tail_and_edition,
            self.edition_and_solution,
            self.pairs
        );
    }
}

#[derive(Default)]
struct Counts {
    given: Given,
    /// Leaves whose full boards were all gone through, and their boards.
    leaves: usize,
    boards: usize,
    /// Those of leaves with an arrow that are finished in edition 1, and in edition 2 alone.
    finished: [usize; 2],
}

pub fn run(seed: u64, count: usize) -> Outcome {
    let calls = Calls::linked()?;
    let package = PACKAGE_FILES.ok_or(MISSING)?;
    let finished = FINISHED_CALL.ok_or(MISSING)?;
    let mut counts = Counts::default();
    for contents in small_contents(&mut Random::new(seed)) {
        every_length(calls, &contents.file(), &mut counts.given)?;
        every_change(calls, &contents.file(), &mut counts.given)?;
        by_package(package, &contents)?;
    }
    for contents in largest_contents(&mut Random::new(seed)) {
        every_length(calls, &contents.file(), &mut counts.given)?;
        by_package(package, &contents)?;
    }
    repeatedly("file", seed, count, |random| {
        let contents = any_contents(random);
        by_package(package, &contents)?;
        for file in [contents.file(), faulty(random, &contents)] {
            any_calls(random, calls, &file, &mut counts.given)?;
            read_by_package(package, &file)?;
            let bits = some_bits(random, &file);
            same_for_players(calls.player, &file, &bits, &mut counts.given)?;
        }
        Ok(())
    })?;
    let mut random = Random::new(seed);
    let finished_leaves = finished_leaves(&mut random, FINISHED);
    for leaf in finished_leaves.iter().chain(&freely_grown(&mut random)) {
        full_boards(calls, finished, &leaf.puzzle, &mut counts)?;
    }
    let small = count.div_ceil(FOR_A_SMALL_ONE);
    repeatedly("file, full boards", seed, small, |random| {
        full_boards(calls, finished, &small_puzzle(random), &mut counts)
    })?;
    if !counts.given.met_all() || counts.finished.contains(&0) {
        return Err("not every case was met: more files are needed".to_string());
    }
    println!("file: {count} files, and as many with a fault");
    counts.given.print();
    println!(
        "file: {} small leaves with {} full boards; with an arrow {:?} finished in edition 1, in edition 2 alone",
        counts.leaves, counts.boards, counts.finished
    );
    Ok(())
}

fn freely_grown(random: &mut Random) -> Vec<Decided> {
    freely_grown_leaves(random, FINISHED)
}

/// Small files: with solutions that are finished in edition 1, or in edition 2 alone, and with any.
fn small_contents(random: &mut Random) -> Vec<Contents> {
    let mut leaves = finished_leaves(random, FINISHED);
    leaves.extend(freely_grown(random));
    for (height, width) in SIZES {
        leaves.push(full_board(random, Size { height, width }));
    }
    leaves
        .iter()
        .map(|leaf| Contents::new(random, leaf))
        .collect()
}

/// Grids of 32 by 32: the longest file, which no solution finishes, and one that no square finishes.
fn largest_contents(random: &mut Random) -> [Contents; 2] {
    let solution: Vec<u8> = (0..1_024).map(|_| random.below(2) as u8).collect();
    let longest = Contents {
        puzzle: each_cell(random, square(32)),
        grade: 7,
        solution,
    };
    let empty = Contents {
        puzzle: plain(32, 32, vec![]),
        grade: 1,
        solution: vec![0; 1_024],
    };
    [longest, empty]
}

/// Each edition and each number that is none, with outputs of every length up to some more than are
/// written.
fn every_length(calls: Calls, file: &[u8], given: &mut Given) -> Outcome {
    for length in 0..=ABOUT {
        check_player(calls.player, file, length, ABOUT, given)?;
    }
    for length in 0..=need(file) + ABOUT {
        for edition in [1, 2].into_iter().chain(NO_EDITIONS) {
            check_setter(calls.setter, file, edition, length, ABOUT, given)?;
        }
    }
    Ok(())
}

/// Every cut, every flipped bit, and tails of one byte more and of two; for each of them every solution
/// bit flipped by itself, and all together.
fn every_change(calls: Calls, file: &[u8], given: &mut Given) -> Outcome {
    let mut changed: Vec<Vec<u8>> = (0..=file.len()).map(|cut| file[..cut].to_vec()).collect();
    changed.extend((0..8 * file.len()).map(|bit| flipped(file, &[bit])));
    for more in [&[0][..], &[1], &[0x80], &[0xFF], &[0, 0], &[0, 1]] {
        changed.push([file, more].concat());
    }
    for file in changed {
        for length in [0, 1, 2] {
            check_player(calls.player, &file, length, 1, given)?;
        }
        let need = need(&file);
        for edition in SOME_EDITIONS {
            for length in [0, need - 1, need, need + 1] {
                check_setter(calls.setter, &file, edition, length, 1, given)?;
            }
        }
        let bits: Vec<usize> = solution_bits(&file).collect();
        for bit in &bits {
            same_for_players(calls.player, &file, &[*bit], given)?;
        }
        same_for_players(calls.player, &file, &bits, given)?;
    }
    Ok(())
}

/// The file with these bits flipped.
fn flipped(file: &[u8], bits: &[usize]) -> Vec<u8> {
    let mut other = file.to_vec();
    for bit in bits {
        other[bit / 8] ^= 0x80 >> (bit % 8);
    }
    other
}

/// Some of a file's solution bits.
fn some_bits(random: &mut Random, file: &[u8]) -> Vec<usize> {
    let percent = random.pick(&[1, 50, 100]);
    solution_bits(file)
        .filter(|_| random.percent(percent))
        .collect()
}

/// Of a file and of the same with these of its solution bits flipped the player's call says the same, and
/// leaves the same bytes.
fn same_for_players(
    call: PlayerFileCall,
    file: &[u8],
    bits: &[usize],
    given: &mut Given,
) -> Outcome {
    if bits.is_empty() {
        return Ok(());
    }
    let other = flipped(file, bits);
    for length in [0, 2] {
        let answer = |file: &[u8]| {
            let mut output = [0xAA; 2];
            (call(file, &mut output[..length]), output)
        };
        if answer(file) != answer(&other) {
            return Err(format!(
                "files {} and {}, output of {length} bytes\nthe player's call tells them apart",
                hexadecimal(file),
                hexadecimal(&other)
            ));
        }
    }
    match player_file(file, 2) {
        Ok(_) => given.pairs[0] += 1,
        Err(_) => given.pairs[1] += 1,
    }
    Ok(())
}

/// The package writes the same file, and reads it as the reading does.
fn by_package(package: PackageFiles, contents: &Contents) -> Outcome {
    let Contents {
        puzzle,
        grade,
        solution,
    } = contents;
    let file = contents.file();
    if (package.written)(&encode(puzzle), *grade, solution) != Some(file.clone()) {
        return Err(format!(
            "{}, grade {grade}, solution {solution:?}\nthe package writes another file than {}",
            facts(puzzle, &[]),
            hexadecimal(&file)
        ));
    }
    read_by_package(package, &file)
}

fn read_by_package(package: PackageFiles, file: &[u8]) -> Outcome {
    let due = |answer: Result<Read, Refusal>| {
        let read = answer.map_err(|refusal| u32::from(refusal.number()))?;
        Ok((file[..read.record].to_vec(), read.bytes))
    };
    let reads_as_due = |edition: Edition| {
        let number = u32::from(edition.number());
        (package.setter)(file, edition) == due(setter_file(file, number, usize::MAX))
    };
    let player = (package.player)(file) == due(player_file(file, usize::MAX));
    if player && Edition::BOTH.into_iter().all(reads_as_due) {
        return Ok(());
    }
    let file = hexadecimal(file);
    Err(format!("file {file}\nthe package reads it otherwise"))
}

/// Every full board as the solution: the setter's call accepts it exactly where it is finished, in both
/// editions, and in edition 1 the call for finished leaves says the same.
fn full_boards(
    calls: Calls,
    finished: FinishedCall,
    puzzle: &Puzzle,
    counts: &mut Counts,
) -> Outcome {
    let record = encode(puzzle);
    let cells = puzzle.size.cells();
    for number in 0..1 << cells {
        let full = decisions(number, cells, 2);
        let solution: Vec<u8> = full.iter().map(|&(_, value)| value).collect();
        let file = file(puzzle, (number % 8) as u8, &solution);
        let given = &mut counts.given;
        let mut accepts = |edition| check_setter(calls.setter, &file, edition, 1 + cells, 0, given);
        let [exactly_one, one_or_more] = [accepts(1)?, accepts(2)?];
        let verdict = finished(&record, &literal_bytes(&full));
        if verdict != i32::from(exactly_one) {
            return Err(format!(
                "{}\nfinished returns {verdict}, but as a solution in edition 1 it is otherwise",
                facts(puzzle, &full)
            ));
        }
        if !puzzle.arrows.is_empty() {
            counts.finished[0] += usize::from(exactly_one);
            counts.finished[1] += usize::from(one_or_more && !exactly_one);
        }
    }
    counts.leaves += 1;
    counts.boards += 1 << cells;
    Ok(())
}

/// The shortest output that is long enough for the setter's call, or any length for a record that is
/// refused.
fn need(file: &[u8]) -> usize {
    decode_head(file).map_or(ABOUT, |(puzzle, _)| 1 + puzzle.size.cells())
}

/// A call of each with outputs of some lengths, mostly long enough, and some edition.
fn any_calls(random: &mut Random, calls: Calls, file: &[u8], given: &mut Given) -> Outcome {
    let mut room = |need: usize| {
        let length = match random.below(20) {
            0 => random.below(need),
            1 => need - 1,
            2..=10 => need + random.below(ABOUT),
            _ => need,
        };
        (length, random.pick(&[0, 0, 1, 64]))
    };
    let (length, guard) = room(1);
    check_player(calls.player, file, length, guard, given)?;
    let (length, guard) = room(need(file));
    let edition = match random.below(20) {
        0 => random.pick(&NO_EDITIONS),
        1 => random.next() as u32,
        _ => random.between(1, 2) as u32,
    };
    check_setter(calls.setter, file, edition, length, guard, given)?;
    Ok(())
}

/// What the reading says of a player's file, if the call says the same and leaves every byte as it should.
/// The output has so many guard bytes before and behind it.
fn check_player(
    call: PlayerFileCall,
    file: &[u8],
    length: usize,
    guard: usize,
    given: &mut Given,
) -> Outcome {
    let expected = player_file(file, length);
    check(file, length, guard, &expected, call).map_err(|what| {
        let file = hexadecimal(file);
        format!("file {file}, output of {length} bytes\nthe player's call {what}")
    })?;
    given.player.add(file, length, &expected);
    Ok(())
}

/// The same of a setter's file; and whether it is accepted.
fn check_setter(
    call: SetterFileCall,
    file: &[u8],
    edition: u32,
    length: usize,
    guard: usize,
    given: &mut Given,
) -> Result<bool, String> {
    let expected = setter_file(file, edition, length);
    let in_edition = |file: &[u8], output: &mut [u8]| call(file, edition, output);
    check(file, length, guard, &expected, in_edition).map_err(|what| {
        let file = hexadecimal(file);
        format!(
            "file {file}, edition {edition}, output of {length} bytes\nthe setter's call {what}"
        )
    })?;
    given.add_setter(file, edition, length, &expected);
    Ok(expected.is_ok())
}

fn check(
    file: &[u8],
    length: usize,
    guard: usize,
    expected: &Result<Read, Refusal>,
    call: impl FnOnce(&[u8], &mut [u8]) -> i32,
) -> Outcome {
    let room = Room {
        length,
        guard,
        salt: length + 59 * file.len(),
    };
    let due = match expected {
        Err(refusal) => Due::refused(*refusal),
        Ok(read) => Due {
            number: read.record as i32,
            front: &read.bytes,
        },
    };
    compare([file], room, due, |[file], output| call(file, output))
}

/// Files of boards, mutated, for `compare fuzz`.
pub struct FuzzedFiles {
    calls: Calls,
    random: Random,
    given: Given,
}

impl FuzzedFiles {
    pub fn new(seed: u64) -> Result<FuzzedFiles, String> {
        Ok(FuzzedFiles {
            calls: Calls::linked()?,
            random: Random::new(seed),
            given: Given::default(),
        })
    }

    /// A file with this board as its solution, in half of the calls changed; and once more with some of
    /// its solution bits flipped.
    pub fn check(&mut self, board: &Decided) -> Outcome {
        let random = &mut self.random;
        let mut file = Contents::new(random, board).file();
        if random.percent(50) {
            change(random, &mut file);
        }
        any_calls(random, self.calls, &file, &mut self.given)?;
        let bits = some_bits(random, &file);
        same_for_players(self.calls.player, &file, &bits, &mut self.given)
    }

    pub fn print(&self) {
        self.given.print();
    }
}
