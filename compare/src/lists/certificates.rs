//! `certificates.list`: certificates that a leaf has one solution only, most of them refused.

use super::{kept, strip, List};
use crate::commands::unique::Input;
use crate::generate::certificates::{Damage, Draft, Step, Tree};
use crate::generate::sizes::{as_written, size_bytes};
use crate::generate::unique::exhausted;
use crate::random::Random;
use crate::reading::certificate::{unique_call, word_bytes, words, TAG};
use crate::reading::leaf::Leaf;
use crate::reading::record::{encode, plain, Code, Puzzle};
use crate::reading::{Edition, Literal};

const FORMAT: [&str; 8] = [
    "The original has no certificates: the answers are the literal reading's.",
    "Entries to the end of the file: u16 record length, the record, u8 edition, u16 length of the",
    "  sizes in bytes, the sizes, u16 length of the certificate in bytes, the certificate, then the",
    "  expected answer, u8: 1, or 256 less the number of the refusal.",
    "A range of the sizes is three u16, a word of a certificate three bytes.",
    "A certificate of more than 8388608 words, which is refused with 23, has no room in a list.",
    "The certificates of 5 by 5 to 12 by 12 were made by a SAT solver and kept, in",
    "  rust/tests/unique.list; those of smaller leaves are a search's, or written by hand.",
];

/// So many leaves with one solution are searched.
const SEARCHED: usize = 5;

/// The words of a certificate that is damaged in every way; longer ones of a search are not taken.
const SHORT: usize = 180;

/// Each refusal is met so often or more.
const OFTEN: usize = 10;

/// What the call can give: of the record, the edition, the sizes, and the certificate.
const REFUSALS: [u8; 15] = [1, 2, 3, 4, 5, 16, 22, 23, 24, 25, 26, 27, 28, 29, 30];

pub fn certificates(seed: u64) -> Result<List, String> {
    let what = "Certificates that a leaf has one solution only.";
    let mut list = List::new("certificates.list", 300_000, seed, what);
    list.lines(&FORMAT);
    let mut random = Random::new(seed);
    let groups: [Vec<Input>; 6] = [
        openings(),
        on_the_row(),
        on_one_cell(),
        every_small_damage(),
        by_search(&mut random),
        by_a_solver(&mut random),
    ];
    let mut met = [0; 256];
    for input in groups.iter().flatten() {
        let answer = unique_call(input.opening(), &input.certificate) as u8;
        met[usize::from(answer)] += 1;
        list.entries += 1;
        list.certificate(input);
        list.u8(answer);
    }
    let seldom = |&&number: &&u8| met[256 - usize::from(number)] < OFTEN;
    match REFUSALS.iter().find(seldom) {
        Some(number) => Err(format!("certificates.list seldom has refusal {number}")),
        None => Ok(list),
    }
}

impl List {
    /// A leaf by its record, edition and sizes, and a certificate.
    fn certificate(&mut self, input: &Input) {
        self.long_bytes(&input.record);
        self.u8(u8::try_from(input.edition).expect("it has one byte"));
        self.long_bytes(&input.sizes);
        self.long_bytes(&input.certificate);
    }
}

/// A leaf and a certificate that it has one solution only.
#[derive(Clone)]
struct Single {
    leaf: Leaf,
    draft: Draft,
}

fn input(single: &Single, certificate: Vec<u8>) -> Input {
    Input {
        record: encode(&single.leaf.puzzle),
        edition: single.leaf.edition.number().into(),
        sizes: size_bytes(&as_written(&single.leaf.sizes)),
        certificate,
    }
}

fn input_of(single: &Single) -> Input {
    input(single, single.draft.bytes())
}

fn input_of_words(single: &Single, words: &[usize]) -> Input {
    input(single, word_bytes(words))
}

/// Each refusal of a leaf, alone and before each that comes after it.
fn openings() -> Vec<Input> {
    let good = input_of(&row());
    let mut records = strip::records();
    records[0].clone_from(&good.record);
    records.push(vec![]);
    let sizes: [&[u8]; 5] = [
        &[],
        &[0, 0, 0, 1, 0, 1, 0, 3, 0, 2, 0, 9],
        &[0, 0, 0, 1],
        &[0, 0, 0, 1, 0, 1, 0],
        &[0, 4, 0, 1, 0, 1],
    ];
    let mut inputs = Vec::new();
    for record in &records {
        for edition in [0, 1, 2, 3, 255] {
            for sizes in sizes {
                for length in [0, 1, good.certificate.len()] {
                    inputs.push(Input {
                        record: record.clone(),
                        edition,
                        sizes: sizes.to_vec(),
                        certificate: good.certificate[..length].to_vec(),
                    });
                }
            }
        }
    }
    inputs
}

/// A clause, and as hints the numbers of steps, of which the claimed solution's is 0.
type Drawn<'a> = (&'a [Literal], &'a [usize]);

fn drawn(puzzle: &Puzzle, solution: &[u8], steps: &[Drawn]) -> Single {
    let mut draft = Draft::claiming(solution);
    draft.steps.extend(steps.iter().map(step));
    Single {
        leaf: Leaf::unsized_in(Edition::ExactlyOne, puzzle),
        draft,
    }
}

fn step(&(clause, hints): &Drawn) -> Step {
    Step {
        clause: clause.to_vec(),
        hints: hints.to_vec(),
    }
}

/// A row of five cells with an arrow along its first four, the first of them given.
fn row() -> Single {
    let mut puzzle = plain(1, 5, vec![vec![0, 1, 2, 3]]);
    puzzle.codes[0] = Code::Given;
    let steps: [Drawn; 5] = [
        // 1: beside cell 0 it would be a block with two arrow cells
        (&[(1, 0)], &[]),
        // 2: so would both of these
        (&[(2, 0), (3, 0)], &[]),
        // 3: its block has no room for two squares
        (&[(2, 0)], &[2]),
        // 4: no other cell is left for the arrow's second square
        (&[(3, 1)], &[1, 3]),
        // 5: cell 4 is left to differ, and cell 3 can't be a block alone
        (&[], &[1, 3, 4, 0]),
    ];
    drawn(&puzzle, &[1, 0, 0, 1, 1], &steps)
}

/// The row with other steps, other claims and other ends.
fn on_the_row() -> Vec<Input> {
    let mut inputs = vec![input_of(&row())];
    inputs.extend(other_steps());
    inputs.extend(other_endings());
    inputs.extend(claims());
    inputs.extend(ends());
    inputs
}

/// One step of the row is another.
fn other_steps() -> Vec<Input> {
    let steps: [(usize, Drawn); 27] = [
        // a literal twice, which is one; both of a cell, of which the later counts
        (1, (&[(1, 0), (1, 0)], &[])),
        (1, (&[(1, 0), (1, 1)], &[])),
        (1, (&[(1, 1), (1, 0)], &[])),
        // as many literals as there are cells, and one more
        (1, (&[(1, 0); 5], &[])),
        (1, (&[(1, 0); 6], &[])),
        // no cell of the leaf, no value
        (1, (&[(5, 0)], &[])),
        (1, (&[(5, 1)], &[])),
        (1, (&[(1, 2)], &[])),
        (1, (&[(1, 0), (32_767, 1)], &[])),
        // of the given cell
        (1, (&[(0, 1)], &[])),
        (1, (&[(0, 0), (1, 0)], &[])),
        // a later step, itself, and not enough
        (3, (&[(2, 0)], &[4])),
        (3, (&[(2, 0)], &[3])),
        (3, (&[(2, 0)], &[5])),
        (3, (&[(2, 0)], &[])),
        // two cells are undecided; a literal is true; more than is needed
        (3, (&[(1, 1)], &[2])),
        (3, (&[(2, 0)], &[2, 2])),
        (3, (&[(2, 0)], &[1, 2])),
        (3, (&[(2, 0)], &[0])),
        // the other order, and one too few
        (4, (&[(3, 1)], &[3, 1])),
        (4, (&[(3, 1)], &[3])),
        (4, (&[(3, 1)], &[1])),
        // the claimed solution leaves more than one cell, or nothing says that it is another
        (5, (&[], &[0])),
        (5, (&[], &[1, 3, 0, 4])),
        (5, (&[], &[1, 3, 4])),
        (5, (&[], &[4, 3, 1, 0])),
        // no step without literals
        (5, (&[(4, 1)], &[1, 3, 4])),
    ];
    let mut inputs = Vec::new();
    for (number, other) in steps {
        let mut row = row();
        row.draft.steps[number] = step(&other);
        inputs.push(input_of(&row));
    }
    inputs
}

/// Cell 4 is decided by a step, and then the claimed solution's is false: as the last hint, and before
/// another. And steps that are left out or there twice.
fn other_endings() -> Vec<Input> {
    let mut longer = row();
    longer.draft.steps[5] = step(&(&[(4, 1)], &[1, 3, 4]));
    let hints: [&[usize]; 6] = [
        &[1, 3, 4, 5, 0],
        &[1, 3, 4, 5],
        &[1, 3, 4, 5, 0, 0],
        &[1, 3, 4, 5, 0, 1],
        &[5, 4, 3, 1, 0],
        &[1, 3, 4, 0, 5],
    ];
    let mut inputs = Vec::new();
    for hints in hints {
        let mut ended = longer.clone();
        ended.draft.steps.push(step(&(&[], hints)));
        inputs.push(input_of(&ended));
    }
    for number in 1..=5 {
        let mut cut = row();
        cut.draft.steps.truncate(number);
        inputs.push(input_of(&cut));
        let mut twice = row();
        let again = twice.draft.steps[number].clone();
        twice.draft.steps.push(again);
        inputs.push(input_of(&twice));
    }
    inputs
}

/// Each cell of the claimed solution turned round; and first steps that claim none: of fewer cells, of
/// more, behind another, with a hint, in another order.
fn claims() -> Vec<Input> {
    let row = row();
    let mut inputs = Vec::new();
    for cell in 0..5 {
        let mut other = row.clone();
        let literal = &mut other.draft.steps[0].clause[cell];
        literal.1 = 1 - literal.1;
        inputs.push(input_of(&other));
    }
    let whole = row.draft.words();
    let mut swapped = whole.clone();
    swapped.swap(1, 2);
    let others = [
        [&[TAG + 4], &whole[2..]].concat(),
        [&[TAG + 6, 0], &whole[1..]].concat(),
        [&[TAG + 1, 1, 0], &whole[..]].concat(),
        [&whole[..6], &[1, 0], &whole[7..]].concat(),
        swapped,
    ];
    inputs.extend(others.iter().map(|words| input_of_words(&row, words)));
    inputs
}

/// Words behind the last step; and steps that run over the end, or are no steps.
fn ends() -> Vec<Input> {
    let row = row();
    let whole = row.draft.words();
    let behind: [&[usize]; 8] = [
        &[0],
        &[TAG],
        &[TAG, 0],
        &[TAG, 1, 0],
        &[TAG + 1, 1, 0],
        &[TAG - 1],
        &[1, 2, 3, 4],
        &[2 * TAG - 1],
    ];
    let over: [&[usize]; 10] = [
        &[0],
        &[TAG - 1],
        &[TAG],
        &[TAG, 1],
        &[TAG, 0],
        &[TAG, TAG - 1],
        &[TAG, 2 * TAG - 1],
        &[TAG + 1, 1],
        &[2 * TAG - 1, 1, 0],
        &[TAG + 1, 1, 0, TAG + 2],
    ];
    let mut inputs = Vec::new();
    for words in behind {
        inputs.push(input_of_words(&row, &[&whole[..], words].concat()));
    }
    for words in over {
        inputs.push(input_of_words(&row, &[&whole[..7], words].concat()));
    }
    inputs
}

/// One cell and no arrow: plain, black and given.
fn on_one_cell() -> Vec<Input> {
    let steps: [&[Drawn]; 5] = [
        &[(&[], &[0])],
        &[(&[], &[])],
        &[(&[], &[0, 0])],
        &[(&[(0, 0)], &[]), (&[], &[1, 0])],
        &[(&[(0, 0)], &[]), (&[], &[0, 1])],
    ];
    let mut inputs = Vec::new();
    for code in [Code::Plain, Code::Black, Code::Given] {
        let mut puzzle = plain(1, 1, vec![]);
        puzzle.codes[0] = code;
        for value in [0, 1] {
            for steps in steps {
                inputs.push(input_of(&drawn(&puzzle, &[value], steps)));
            }
        }
    }
    inputs
}

/// The row's certificate cut at every byte and with every bit flipped.
fn every_small_damage() -> Vec<Input> {
    let row = row();
    let whole = row.draft.bytes();
    let mut inputs = Vec::new();
    for length in 0..whole.len() {
        inputs.push(input(&row, whole[..length].to_vec()));
    }
    for bit in 0..8 * whole.len() {
        let mut flipped = whole.clone();
        flipped[bit / 8] ^= 0x80 >> (bit % 8);
        inputs.push(input(&row, flipped));
    }
    inputs
}

/// Small leaves in both editions, without sizes and with them: certificates of their search trees, also
/// of leaves with more solutions than the claimed one, and damaged ones.
fn by_search(random: &mut Random) -> Vec<Input> {
    let mut inputs = Vec::new();
    let mut singles = 0;
    while singles < SEARCHED {
        let exhausted = exhausted(random);
        let Some(board) = exhausted.boards.first() else {
            continue;
        };
        let tree = Tree::of(&exhausted.leaf);
        for shortened in [false, true] {
            let single = Single {
                draft: tree.draft(&exhausted.leaf, board, shortened),
                leaf: exhausted.leaf.clone(),
            };
            if single.draft.words().len() > SHORT {
                continue;
            }
            inputs.push(input_of(&single));
            if exhausted.boards.len() == 1 && shortened {
                inputs.extend(damaged(random, &single));
                inputs.extend(on_other_leaves(random, &single));
                singles += 1;
            }
        }
    }
    inputs
}

/// All that are kept; with each damage where they are short, and with one of the steps' where they are
/// not.
fn by_a_solver(random: &mut Random) -> Vec<Input> {
    let mut inputs = Vec::new();
    for kept in kept::inputs() {
        let words = words(&kept.certificate).expect("whole words are kept");
        let single = Single {
            leaf: kept.opening().leaf().expect("a leaf is kept"),
            draft: Draft::read(&words),
        };
        inputs.push(kept);
        if words.len() <= SHORT {
            inputs.extend(damaged(random, &single));
            inputs.extend(on_other_leaves(random, &single));
        } else {
            let damage = random.pick(&[Damage::StepOut, Damage::HintOut, Damage::LiteralOut]);
            inputs.push(input(&single, damage.done_to(random, &single.draft)));
        }
    }
    inputs
}

/// With each damage.
fn damaged(random: &mut Random, single: &Single) -> Vec<Input> {
    let done = |damage: &Damage| input(single, damage.done_to(random, &single.draft));
    Damage::ALL[1..].iter().map(done).collect()
}

/// In the other edition, without the last size, with a cell that is no longer black or given.
fn on_other_leaves(random: &mut Random, single: &Single) -> Vec<Input> {
    let mut others = vec![single.clone(); 3];
    others[0].leaf.edition = match single.leaf.edition {
        Edition::ExactlyOne => Edition::OneOrMore,
        Edition::OneOrMore => Edition::ExactlyOne,
    };
    others[1].leaf.sizes.pop();
    let codes = &mut others[2].leaf.puzzle.codes;
    let is_coded = |&cell: &usize| codes[cell] != Code::Plain;
    let coded: Vec<usize> = (0..codes.len()).filter(is_coded).collect();
    if !coded.is_empty() {
        codes[random.pick(&coded)] = Code::Plain;
    }
    others.iter().map(input_of).collect()
}
