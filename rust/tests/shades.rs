//! Blocks, their first cells and their sizes, and the refusals of the call that tells them.

mod records;

use evolmino::{blocks, shades_bytes, Block, Literal, Problem, ProblemCell, Record, Refusal};
use records::S;

fn open(height: usize, width: usize) -> Record {
    Record::new(&Problem {
        cells: vec![vec![ProblemCell::Empty; width]; height],
        arrows: vec![],
    })
    .unwrap()
}

fn all(record: &[u8], decisions: &[Literal]) -> Result<Vec<Block>, Refusal> {
    Ok(blocks(record, decisions)?.collect())
}

fn block(cells: &[usize]) -> Block {
    Block {
        first: cells[0],
        size: cells.len(),
        cells: cells.to_vec(),
    }
}

#[test]
fn strip() {
    assert_eq!(all(&S, &[]), Ok(vec![]));
    // An undecided cell joins no squares, and an empty one neither.
    assert_eq!(
        all(&S, &[(0, true), (2, true)]),
        Ok(vec![block(&[0]), block(&[2])])
    );
    assert_eq!(
        all(&S, &[(1, false), (2, true), (0, true)]),
        Ok(vec![block(&[0]), block(&[2])])
    );
    assert_eq!(all(&S, &[(2, true), (1, true)]), Ok(vec![block(&[1, 2])]));
}

#[test]
fn a_ring_is_one_block() {
    let ring = [0, 1, 2, 3, 5, 6, 7, 8];
    let squares: Vec<Literal> = ring.iter().map(|&cell| (cell, true)).collect();
    assert_eq!(all(open(3, 3).bytes(), &squares), Ok(vec![block(&ring)]));
}

#[test]
fn the_largest_grid() {
    let record = open(32, 32);
    let board: Vec<Literal> = (0..1024)
        .map(|cell| (cell, (cell / 32 + cell) % 2 == 0))
        .collect();
    let chess = all(record.bytes(), &board).unwrap();
    assert_eq!(chess.len(), 512);
    assert!(chess.iter().all(|block| block.size == 1));
    let full: Vec<Literal> = (0..1024).map(|cell| (cell, true)).collect();
    let cells: Vec<usize> = (0..1024).collect();
    assert_eq!(all(record.bytes(), &full), Ok(vec![block(&cells)]));
}

#[test]
fn bytes_and_what_stands_behind_them() {
    let mut output = [0xFF; 14];
    let squares = [0x80, 0x01, 0x80, 0x02];
    assert_eq!(shades_bytes(&S, &squares, &mut output), Ok(12));
    assert_eq!(output[..12], [0, 0, 0, 0, 0, 1, 0, 2, 0, 1, 0, 2]);
    assert_eq!(output[12..], [0xFF; 2]);
    // A first cell and a size above 255.
    let mut output = [0xFF; 4096];
    let record = open(32, 32);
    let squares: Vec<u8> = (512u16..1024)
        .flat_map(|cell| (32_768 + cell).to_be_bytes())
        .collect();
    assert_eq!(
        shades_bytes(record.bytes(), &squares, &mut output),
        Ok(4096)
    );
    assert!(output[..2048].iter().all(|&byte| byte == 0));
    assert!(output[2048..].chunks(4).all(|four| four == [2, 0, 2, 0]));
}

#[test]
fn refusals() {
    let mut output = [0xFF; 12];
    let mut call = |record: &[u8], decisions: &[u8], length: usize| {
        let answer = shades_bytes(record, decisions, &mut output[..length]);
        assert_eq!(output, [0xFF; 12]);
        answer
    };
    assert_eq!(call(&S[..6], &[0x80], 0), Err(Refusal::RecordEnds));
    // A short output comes before the decisions.
    assert_eq!(call(&S, &[0x80], 11), Err(Refusal::OutputShort));
    assert_eq!(call(&S, &[0x84, 0x00, 0x80], 12), Err(Refusal::Decision));
    assert_eq!(call(&S, &[0x80, 0x03], 12), Err(Refusal::Index));
    assert_eq!(
        call(&S, &[0x80, 0x01, 0x00, 0x01, 0x80], 12),
        Err(Refusal::Decided)
    );
    assert_eq!(call(&S, &[0x80, 0x00, 0x80], 12), Err(Refusal::Decision));
    assert_eq!(all(&S, &[(0, true), (4000, true)]), Err(Refusal::Index));
}
