//! A call, made so that every byte beside what is lent to it that it reads or writes can be seen.

use crate::answers::host_facts;
use crate::generate::hosts::HostInput;
use crate::progress::Outcome;
use crate::random::Random;
use crate::reading::Refusal;

/// What a call must do: the number that it returns, and what it writes to the output's front, mostly bytes.
pub struct Due<'a, T = u8> {
    pub number: i32,
    pub front: &'a [T],
}

impl<'a> Due<'a> {
    /// So many bytes are written, and their number is returned; or a refusal.
    pub fn written(bytes: &'a Result<Vec<u8>, Refusal>) -> Due<'a> {
        match bytes {
            Err(refusal) => Due::refused(*refusal),
            Ok(bytes) => Due {
                number: bytes.len() as i32,
                front: bytes,
            },
        }
    }

    /// The refusal's number, negated, and nothing written.
    pub fn refused(refusal: Refusal) -> Due<'static> {
        Due {
            number: -i32::from(refusal.number()),
            front: &[],
        }
    }
}

/// Makes a call for a record, decisions and an output, and compares what it does; about some outputs there
/// are guard bytes.
pub fn check(
    random: &mut Random,
    name: &str,
    input: &HostInput,
    due: Due,
    call: impl FnOnce(&[u8], &[u8], &mut [u8]) -> i32,
) -> Outcome {
    let room = Room {
        length: input.output,
        guard: random.pick(&[0, 0, 1, 64]),
        salt: random.below(256),
    };
    let lent: [&[u8]; 2] = [&input.record, &input.decisions];
    let done = compare(lent, room, due, |[record, decisions], output| {
        call(record, decisions, output)
    });
    done.map_err(|what| format!("{}\n{name} {what}", host_facts(input)))
}

/// An output: its length, so many guard bytes before and behind it, and what its bytes begin with.
#[derive(Clone, Copy)]
pub struct Room {
    pub length: usize,
    pub guard: usize,
    pub salt: usize,
}

/// Makes a call on bytes that are lent to be read, and an output, and says what it does otherwise than is
/// due. All of them lie in boxes of their length, for a memory checker; the guard bytes are in the
/// output's box.
pub fn compare<const N: usize>(
    lent: [&[u8]; N],
    room: Room,
    due: Due,
    call: impl FnOnce([&[u8]; N], &mut [u8]) -> i32,
) -> Outcome {
    let Room {
        length,
        guard,
        salt,
    } = room;
    let boxes: [Box<[u8]>; N] = lent.map(|bytes| bytes.into());
    let filled = |place: usize| (37 * place + salt) as u8;
    lend(length, guard, filled, due, |output| {
        call(boxes.each_ref().map(|bytes| &**bytes), output)
    })?;
    if boxes.iter().zip(lent).any(|(left, lent)| **left != *lent) {
        return Err("changes what it is to read".to_string());
    }
    Ok(())
}

/// Makes a call on an output of so many places, with so many more before and behind it in the same box,
/// all of them filled by their number; and gives what it returns, if it does just what is due.
pub fn lend<T: Copy + PartialEq>(
    length: usize,
    guard: usize,
    filled: impl Fn(usize) -> T,
    due: Due<T>,
    call: impl FnOnce(&mut [T]) -> i32,
) -> Result<i32, String> {
    let before: Vec<T> = (0..length + 2 * guard).map(filled).collect();
    let mut after = before.clone();
    after[guard..guard + due.front.len()].copy_from_slice(due.front);
    let mut output: Box<[T]> = before.into();
    let returned = call(&mut output[guard..guard + length]);
    if returned != due.number {
        Err(format!("returns {returned} and not {}", due.number))
    } else if *output != *after {
        Err("leaves something else in or about the output".to_string())
    } else {
        Ok(returned)
    }
}
