//! The port's exported calls, by the package that links them, with the feature `host`.

use crate::reading::certain::Answer;
use crate::reading::clauses::Clause;
use crate::reading::leaf::Opening;
use crate::reading::{Edition, Literal};

/// Record, decisions, output; the literal count or the negated refusal number.
pub type HostCall = fn(&[u8], &[u8], &mut [u8]) -> i32;

/// The host call, if this program was built with it.
#[cfg(feature = "host")]
pub const HOST_CALL: Option<HostCall> = Some(call);
#[cfg(not(feature = "host"))]
pub const HOST_CALL: Option<HostCall> = None;

/// Record, decisions; 1 for a finished leaf, 0 for another, or the negated refusal number.
pub type FinishedCall = fn(&[u8], &[u8]) -> i32;

/// The call that tells whether a leaf is finished, if this program was built with it.
#[cfg(feature = "host")]
pub const FINISHED_CALL: Option<FinishedCall> = Some(finished_call);
#[cfg(not(feature = "host"))]
pub const FINISHED_CALL: Option<FinishedCall> = None;

/// Record, output; the number of bytes written, or the negated refusal number.
pub type ClausesCall = fn(&[u8], &mut [u8]) -> i32;

/// The call that writes the clause sheet, if this program was built with it.
#[cfg(feature = "host")]
pub const CLAUSES_CALL: Option<ClausesCall> = Some(clauses_call);
#[cfg(not(feature = "host"))]
pub const CLAUSES_CALL: Option<ClausesCall> = None;

/// Record; its clauses by the package, or the refusal number.
pub type PackageClauses = fn(&[u8]) -> Result<Vec<Clause>, u32>;

/// The package's clauses of a record, if this program was built with it.
#[cfg(feature = "host")]
pub const PACKAGE_CLAUSES: Option<PackageClauses> = Some(package_clauses);
#[cfg(not(feature = "host"))]
pub const PACKAGE_CLAUSES: Option<PackageClauses> = None;

/// The call for shades, if this program was built with it: record, decisions, output; the number of
/// bytes written, or the negated refusal number.
#[cfg(feature = "host")]
pub const SHADES_CALL: Option<HostCall> = Some(shades_call);
#[cfg(not(feature = "host"))]
pub const SHADES_CALL: Option<HostCall> = None;

/// Of each block its first cell, its size and its cells, or the refusal number.
pub type Blocks = Result<Vec<(usize, usize, Vec<usize>)>, u32>;

/// Record, decisions; the blocks by the package.
pub type PackageBlocks = fn(&[u8], &[Literal]) -> Blocks;

/// The package's blocks of a board, if this program was built with it.
#[cfg(feature = "host")]
pub const PACKAGE_BLOCKS: Option<PackageBlocks> = Some(package_blocks);
#[cfg(not(feature = "host"))]
pub const PACKAGE_BLOCKS: Option<PackageBlocks> = None;

/// Record, turning, output; the number of bytes written, or the negated refusal number.
pub type TurnCall = fn(&[u8], u32, &mut [u8]) -> i32;

/// The call that turns a record, if this program was built with it.
#[cfg(feature = "host")]
pub const TURN_CALL: Option<TurnCall> = Some(turn_call);
#[cfg(not(feature = "host"))]
pub const TURN_CALL: Option<TurnCall> = None;

/// Record, decisions, budget, output; 0 where cells are told, 1 for no such board, 2 for a budget that
/// is spent, or the negated refusal number.
pub type CertainCall = fn(&[u8], &[u8], u64, &mut [u8]) -> i32;

/// The call for cells that are certain, if this program was built with it.
#[cfg(feature = "host")]
pub const CERTAIN_CALL: Option<CertainCall> = Some(certain_call);
#[cfg(not(feature = "host"))]
pub const CERTAIN_CALL: Option<CertainCall> = None;

/// Record, decisions, budget; the answer by the package, or the refusal number.
pub type PackageCertain = fn(&[u8], &[Literal], u64) -> Result<Answer, u32>;

/// The package's two ways, without and with black and given cells decided first, if this program was
/// built with it.
#[cfg(feature = "host")]
pub const PACKAGE_CERTAIN: Option<[PackageCertain; 2]> = Some([
    |record, decisions, budget| package_certain(evolmino::certain, record, decisions, budget),
    |record, decisions, budget| {
        package_certain(evolmino::certain_given_first, record, decisions, budget)
    },
]);
#[cfg(not(feature = "host"))]
pub const PACKAGE_CERTAIN: Option<[PackageCertain; 2]> = None;

/// Left record, right record, output; the number of bytes written, or the negated refusal number.
pub type JoinCall = fn(&[u8], &[u8], &mut [u8]) -> i32;

/// The call that joins two records, if this program was built with it.
#[cfg(feature = "host")]
pub const JOIN_CALL: Option<JoinCall> = Some(join_call);
#[cfg(not(feature = "host"))]
pub const JOIN_CALL: Option<JoinCall> = None;

/// File, number of an edition, output; the record's length, or the negated refusal number.
pub type SetterFileCall = fn(&[u8], u32, &mut [u8]) -> i32;

/// The call that reads a setter's file, if this program was built with it.
#[cfg(feature = "host")]
pub const SETTER_FILE_CALL: Option<SetterFileCall> = Some(setter_file_call);
#[cfg(not(feature = "host"))]
pub const SETTER_FILE_CALL: Option<SetterFileCall> = None;

/// File, output; the record's length, or the negated refusal number.
pub type PlayerFileCall = fn(&[u8], &mut [u8]) -> i32;

/// The call that reads a player's file, if this program was built with it.
#[cfg(feature = "host")]
pub const PLAYER_FILE_CALL: Option<PlayerFileCall> = Some(player_file_call);
#[cfg(not(feature = "host"))]
pub const PLAYER_FILE_CALL: Option<PlayerFileCall> = None;

/// A record with the bytes of its grade and, for setters, of its solution; or the refusal number.
pub type PackageRead = Result<(Vec<u8>, Vec<u8>), u32>;

/// Record, grade, solution; the file, none where they make none.
pub type PackageWritten = fn(&[u8], u8, &[u8]) -> Option<Vec<u8>>;

/// The package's two readers and its writer of files.
#[derive(Clone, Copy)]
pub struct PackageFiles {
    pub setter: fn(&[u8], Edition) -> PackageRead,
    pub player: fn(&[u8]) -> PackageRead,
    pub written: PackageWritten,
}

/// The package's readers and writer, if this program was built with it.
#[cfg(feature = "host")]
pub const PACKAGE_FILES: Option<PackageFiles> = Some(PackageFiles {
    setter: package_setter_file,
    player: package_player_file,
    written: package_written,
});
#[cfg(not(feature = "host"))]
pub const PACKAGE_FILES: Option<PackageFiles> = None;

/// The calls in an edition and with sizes: what is opened, decisions and, where there is one, a budget
/// and an output; each returns what the call without returns.
#[derive(Clone, Copy)]
pub struct WithCalls {
    pub find: fn(Opening, &[u8], &mut [u8]) -> i32,
    pub finished: fn(Opening, &[u8]) -> i32,
    pub certain: fn(Opening, &[u8], u64, &mut [u8]) -> i32,
}

/// These calls, if this program was built with them.
#[cfg(feature = "host")]
pub const WITH_CALLS: Option<WithCalls> = Some(WithCalls {
    find: |opening, decisions, output| number(leaf(opening).find_bytes(decisions, output)),
    finished: |opening, decisions| number(leaf(opening).finished_bytes(decisions).map(usize::from)),
    certain: |opening, decisions, budget, output| {
        number(leaf(opening).certain_bytes(decisions, budget, output))
    },
});
#[cfg(not(feature = "host"))]
pub const WITH_CALLS: Option<WithCalls> = None;

/// What the package's leaf says of decisions of different cells, or the refusal number.
#[derive(Debug, PartialEq, Eq)]
pub struct OfLeaf {
    pub find: Result<Option<Vec<Literal>>, u32>,
    pub finished: Result<bool, u32>,
    /// Without and with black and given cells decided first.
    pub certain: [Result<Answer, u32>; 2],
    pub blocks: Blocks,
    /// What its constraint finds behind the decisions, behind the first half of them when the others are
    /// taken back, and when they are made again.
    pub constraint: Result<[Option<Vec<Literal>>; 3], u32>,
}

/// Record, edition, ranges, decisions, budget.
pub type PackageLeaf = fn(&[u8], u32, &[[u16; 3]], &[Literal], u64) -> OfLeaf;

/// The package's leaf, if this program was built with it.
#[cfg(feature = "host")]
pub const PACKAGE_LEAF: Option<PackageLeaf> = Some(package_leaf);
#[cfg(not(feature = "host"))]
pub const PACKAGE_LEAF: Option<PackageLeaf> = None;

/// What is opened, and a certificate; 1 where it is accepted, or the negated refusal number.
pub type UniqueCall = fn(Opening, &[u8]) -> i32;

/// The call that checks a certificate, if this program was built with it.
#[cfg(feature = "host")]
pub const UNIQUE_CALL: Option<UniqueCall> = Some(unique_call);
#[cfg(not(feature = "host"))]
pub const UNIQUE_CALL: Option<UniqueCall> = None;

/// What the package's maker makes of a leaf: a certificate, or two finished boards, or none.
#[derive(Debug, PartialEq, Eq)]
#[cfg_attr(not(feature = "host"), allow(dead_code))]
pub enum Made {
    Certificate(Vec<u8>),
    Two([Vec<u8>; 2]),
    NoBoard,
}

/// What is opened; what is made of it, or what went wrong.
pub type PackageMaker = fn(Opening) -> Result<Made, String>;

/// The package's maker, if this program was built with it and the SAT solver is at hand.
#[cfg(feature = "host")]
pub fn package_maker() -> Option<PackageMaker> {
    evolmino::Solver::cadical().at_hand().then_some(made)
}
#[cfg(not(feature = "host"))]
pub fn package_maker() -> Option<PackageMaker> {
    None
}

pub const MISSING: &str = "the host call is not linked: build with --features host, \
                           with libhost.a in the folder that EVOLMINO_HOST names";

#[cfg(feature = "host")]
fn call(record: &[u8], decisions: &[u8], output: &mut [u8]) -> i32 {
    number(evolmino::find_bytes(record, decisions, output))
}

#[cfg(feature = "host")]
fn finished_call(record: &[u8], decisions: &[u8]) -> i32 {
    number(evolmino::finished_bytes(record, decisions).map(usize::from))
}

#[cfg(feature = "host")]
fn clauses_call(record: &[u8], output: &mut [u8]) -> i32 {
    number(evolmino::clauses_bytes(record, output))
}

#[cfg(feature = "host")]
fn package_clauses(record: &[u8]) -> Result<Vec<Clause>, u32> {
    let literal = |(index, value)| (index, u8::from(value));
    let clause = |clause: Vec<_>| clause.into_iter().map(literal).collect();
    let clauses = evolmino::clauses(record).map_err(|refusal| refusal.number())?;
    Ok(clauses.into_iter().map(clause).collect())
}

#[cfg(feature = "host")]
fn shades_call(record: &[u8], decisions: &[u8], output: &mut [u8]) -> i32 {
    number(evolmino::shades_bytes(record, decisions, output))
}

#[cfg(feature = "host")]
fn package_blocks(record: &[u8], decisions: &[Literal]) -> Blocks {
    listed(evolmino::blocks(record, &packaged(decisions)))
}

#[cfg(feature = "host")]
fn listed(blocks: Result<evolmino::Blocks, evolmino::Refusal>) -> Blocks {
    let blocks = blocks.map_err(|refusal| refusal.number())?;
    let block = |block: evolmino::Block| (block.first, block.size, block.cells);
    Ok(blocks.map(block).collect())
}

/// Decisions as the package takes them.
#[cfg(feature = "host")]
fn packaged(decisions: &[Literal]) -> Vec<evolmino::Literal> {
    let literal = |&(index, value): &Literal| (index, value == 1);
    decisions.iter().map(literal).collect()
}

#[cfg(feature = "host")]
fn turn_call(record: &[u8], k: u32, output: &mut [u8]) -> i32 {
    number(evolmino::turn_bytes(record, k, output))
}

#[cfg(feature = "host")]
fn certain_call(record: &[u8], decisions: &[u8], budget: u64, output: &mut [u8]) -> i32 {
    number(evolmino::certain_bytes(record, decisions, budget, output))
}

#[cfg(feature = "host")]
type Way = fn(&[u8], &[evolmino::Literal], u64) -> Result<evolmino::Certain, evolmino::Refusal>;

#[cfg(feature = "host")]
fn package_certain(
    way: Way,
    record: &[u8],
    decisions: &[Literal],
    budget: u64,
) -> Result<Answer, u32> {
    answered(way(record, &packaged(decisions), budget))
}

#[cfg(feature = "host")]
pub fn answered(answer: Result<evolmino::Certain, evolmino::Refusal>) -> Result<Answer, u32> {
    use crate::reading::certain::{Certain, Fact};
    let fact = |fact: evolmino::Fact| match fact {
        evolmino::Fact::Empty => Fact::Empty,
        evolmino::Fact::Square => Fact::Square,
        evolmino::Fact::Open => Fact::Open,
    };
    let answer = answer.map_err(|refusal| refusal.number())?;
    let steps = answer.steps();
    let certain = match answer {
        evolmino::Certain::Cells { cells, .. } => {
            Certain::Cells(cells.into_iter().map(fact).collect())
        }
        evolmino::Certain::NoBoard { .. } => Certain::NoBoard,
        evolmino::Certain::Spent { .. } => Certain::Spent,
    };
    Ok(Answer { certain, steps })
}

#[cfg(feature = "host")]
fn join_call(left: &[u8], right: &[u8], output: &mut [u8]) -> i32 {
    number(evolmino::join_bytes(left, right, output))
}

/// The number that an exported call returned.
#[cfg(feature = "host")]
fn number(answer: Result<usize, evolmino::Refusal>) -> i32 {
    match answer {
        Ok(number) => number as i32,
        Err(refusal) => -(refusal.number() as i32),
    }
}

#[cfg(feature = "host")]
fn setter_file_call(file: &[u8], edition: u32, output: &mut [u8]) -> i32 {
    number(evolmino::setter_file_bytes(file, edition, output))
}

#[cfg(feature = "host")]
fn player_file_call(file: &[u8], output: &mut [u8]) -> i32 {
    number(evolmino::player_file_bytes(file, output))
}

#[cfg(feature = "host")]
fn package_setter_file(file: &[u8], edition: Edition) -> PackageRead {
    let edition = match edition {
        Edition::ExactlyOne => evolmino::Edition::ExactlyOne,
        Edition::OneOrMore => evolmino::Edition::OneOrMore,
    };
    let read = evolmino::setter_file(file, edition).map_err(|refusal| refusal.number())?;
    let cells = read.solution.iter().map(|&square| u8::from(square));
    let bytes = [read.grade].into_iter().chain(cells).collect();
    Ok((read.record.to_vec(), bytes))
}

#[cfg(feature = "host")]
fn package_player_file(file: &[u8]) -> PackageRead {
    let read = evolmino::player_file(file).map_err(|refusal| refusal.number())?;
    Ok((read.record.to_vec(), vec![read.grade]))
}

#[cfg(feature = "host")]
fn package_written(record: &[u8], grade: u8, solution: &[u8]) -> Option<Vec<u8>> {
    let solution: Vec<bool> = solution.iter().map(|&cell| cell == 1).collect();
    evolmino::write_file(record, grade, &solution).ok()
}

#[cfg(feature = "host")]
fn leaf<'a>(opening: Opening<'a>) -> evolmino::Leaf<'a> {
    evolmino::Leaf::new(opening.record)
        .edition(opening.edition)
        .sizes_bytes(opening.sizes)
}

#[cfg(feature = "host")]
pub fn package_sizes(ranges: &[[u16; 3]]) -> Vec<evolmino::Size> {
    let size = |&[cell, lowest, highest]: &[u16; 3]| (usize::from(cell), lowest, highest);
    ranges.iter().map(size).collect()
}

#[cfg(feature = "host")]
fn package_leaf(
    record: &[u8],
    edition: u32,
    ranges: &[[u16; 3]],
    decisions: &[Literal],
    budget: u64,
) -> OfLeaf {
    let sizes = package_sizes(ranges);
    let leaf = evolmino::Leaf::new(record).edition(edition).sizes(&sizes);
    let decisions = packaged(decisions);
    OfLeaf {
        find: leaf
            .find(&decisions)
            .map(unpackaged)
            .map_err(|refusal| refusal.number()),
        finished: leaf
            .finished(&decisions)
            .map_err(|refusal| refusal.number()),
        certain: [
            answered(leaf.certain(&decisions, budget)),
            answered(leaf.certain_given_first(&decisions, budget)),
        ],
        blocks: listed(leaf.blocks(&decisions)),
        constraint: leaf
            .constraint()
            .map(|constraint| found_by(constraint, &decisions).map(unpackaged))
            .map_err(|refusal| refusal.number()),
    }
}

/// What a constraint finds behind decisions, behind the first half of them, and behind all of them again.
#[cfg(feature = "host")]
fn found_by(
    mut constraint: evolmino::Constraint,
    decisions: &[evolmino::Literal],
) -> [Option<Vec<evolmino::Literal>>; 3] {
    let (half, rest) = decisions.split_at(decisions.len() / 2);
    for &(index, value) in half {
        constraint.notify(index, value);
    }
    let mut found = || {
        for &(index, value) in rest {
            constraint.notify(index, value);
        }
        let all = constraint.find_inconsistency();
        for _ in rest {
            constraint.undo();
        }
        [all, constraint.find_inconsistency()]
    };
    let [all, first_half] = found();
    let [again, _] = found();
    [all, first_half, again]
}

/// A reason as the reading has it.
#[cfg(feature = "host")]
pub fn unpackaged(reason: Option<Vec<evolmino::Literal>>) -> Option<Vec<Literal>> {
    let literal = |(index, value)| (index, u8::from(value));
    reason.map(|literals| literals.into_iter().map(literal).collect())
}

#[cfg(feature = "host")]
fn unique_call(opening: Opening, certificate: &[u8]) -> i32 {
    number(leaf(opening).unique(certificate).map(|()| 1))
}

#[cfg(feature = "host")]
fn made(opening: Opening) -> Result<Made, String> {
    use evolmino::MakerError;
    let values = |board: Vec<bool>| board.into_iter().map(u8::from).collect();
    match leaf(opening).certify(&evolmino::Solver::cadical()) {
        Ok(certificate) => Ok(Made::Certificate(certificate.bytes().to_vec())),
        Err(MakerError::NotUnique(boards)) => Ok(Made::Two(boards.map(values))),
        Err(MakerError::NoSolution) => Ok(Made::NoBoard),
        Err(error) => Err(error.to_string()),
    }
}
