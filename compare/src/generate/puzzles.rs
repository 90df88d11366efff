//! Random puzzles of all sizes, with arrows of several styles.

use crate::random::Random;
use crate::reading::grid::{Size, OFFSETS};
use crate::reading::record::{plain, Code, Puzzle};

/// Mostly small grids, some strips, some up to 32 by 32.
pub fn any_size(random: &mut Random) -> Size {
    match random.below(100) {
        0..=14 => size_up_to(random, 4),
        15..=49 => size_up_to(random, 7),
        50..=79 => size_up_to(random, 12),
        80..=87 => strip(random),
        88..=97 => size_up_to(random, 32),
        _ => square(32),
    }
}

pub fn size_up_to(random: &mut Random, limit: usize) -> Size {
    Size {
        height: random.between(1, limit),
        width: random.between(1, limit),
    }
}

pub fn square(side: usize) -> Size {
    Size {
        height: side,
        width: side,
    }
}

/// One row or one column.
pub fn strip(random: &mut Random) -> Size {
    let length = random.between(1, 32);
    let (height, width) = if random.percent(50) {
        (1, length)
    } else {
        (length, 1)
    };
    Size { height, width }
}

#[derive(Clone, Copy, Debug)]
pub enum Arrows {
    None,
    SingleCells,
    Straight,
    Walks,
    /// One long snake or spiral over the whole grid, perhaps cut into pieces.
    Snake,
    /// Few arrows with much room about them.
    Sparse,
    /// About as many and as long as published puzzles have.
    Usual,
}

pub const ARROW_STYLES: [Arrows; 7] = [
    Arrows::None,
    Arrows::SingleCells,
    Arrows::Straight,
    Arrows::Walks,
    Arrows::Snake,
    Arrows::Sparse,
    Arrows::Usual,
];

pub fn any_puzzle(random: &mut Random) -> Puzzle {
    let size = any_size(random);
    puzzle_of_size(random, size)
}

pub fn puzzle_of_size(random: &mut Random, size: Size) -> Puzzle {
    let style = random.pick(&ARROW_STYLES);
    puzzle(random, size, style)
}

pub fn puzzle(random: &mut Random, size: Size, style: Arrows) -> Puzzle {
    Puzzle {
        size,
        codes: codes(random, size),
        arrows: arrows(random, size, style),
    }
}

/// Each cell an arrow, in any order.
pub fn each_cell(random: &mut Random, size: Size) -> Puzzle {
    let mut arrows: Vec<Vec<usize>> = (0..size.cells()).map(|cell| vec![cell]).collect();
    random.shuffle(&mut arrows);
    plain(size.height, size.width, arrows)
}

/// Adds up to two short arrows, which may take cells that are used already.
pub fn add_short_arrows(random: &mut Random, puzzle: &mut Puzzle) {
    for _ in 0..random.below(3) {
        let mut cell = random.below(puzzle.size.cells());
        let mut arrow = vec![cell];
        for _ in 0..random.below(4) {
            let beside: Vec<usize> = puzzle.size.neighbours(cell).collect();
            cell = *beside.get(random.below(4)).unwrap_or(&cell);
            if cell != arrow[arrow.len() - 1] {
                arrow.push(cell);
            }
        }
        puzzle.arrows.push(arrow);
    }
}

fn codes(random: &mut Random, size: Size) -> Vec<Code> {
    let coded = random.pick(&[0, 10, 30, 100]);
    let code = |_| match random.percent(coded) {
        false => Code::Plain,
        true => random.pick(&[Code::Plain, Code::Black, Code::Given]),
    };
    (0..size.cells()).map(code).collect()
}

fn arrows(random: &mut Random, size: Size, style: Arrows) -> Vec<Vec<usize>> {
    let cells = size.cells();
    match style {
        Arrows::None => Vec::new(),
        Arrows::SingleCells => {
            let wanted = random.pick(&[1, cells / 4, cells]);
            walks(random, size, wanted, |_| 1, false)
        }
        Arrows::Straight => {
            let longest = size.height.max(size.width);
            let wanted = random.between(1, longest);
            walks(random, size, wanted, |r| r.between(1, longest), true)
        }
        Arrows::Walks => {
            let wanted = random.between(1, 1 + cells / 8);
            walks(random, size, wanted, |r| r.between(1, cells.min(40)), false)
        }
        Arrows::Snake => snakes(random, size),
        Arrows::Sparse => {
            let wanted = random.between(1, 3);
            walks(random, size, wanted, |r| r.between(2, 12), false)
        }
        Arrows::Usual => walks(random, size, 1 + cells / 16, |r| r.between(3, 9), false),
    }
}

/// So many self-avoiding walks from random cells, each as long as it gets.
fn walks(
    random: &mut Random,
    size: Size,
    wanted: usize,
    length: impl Fn(&mut Random) -> usize,
    straight: bool,
) -> Vec<Vec<usize>> {
    let mut used = vec![false; size.cells()];
    let mut starts: Vec<usize> = (0..size.cells()).collect();
    random.shuffle(&mut starts);
    let mut arrows = Vec::new();
    for start in starts {
        if arrows.len() == wanted {
            break;
        }
        if !used[start] {
            let length = length(random);
            arrows.push(walk(random, size, start, length, straight, &mut used));
        }
    }
    arrows
}

fn walk(
    random: &mut Random,
    size: Size,
    start: usize,
    length: usize,
    straight: bool,
    used: &mut [bool],
) -> Vec<usize> {
    let direction = random.pick(&OFFSETS);
    let mut arrow = vec![start];
    used[start] = true;
    while arrow.len() < length {
        let head = arrow[arrow.len() - 1];
        let mut steps: Vec<usize> = size.neighbours(head).filter(|&c| !used[c]).collect();
        if straight {
            steps.retain(|&cell| size.moved(head, direction) == Some(cell));
        }
        if steps.is_empty() {
            break;
        }
        let next = random.pick(&steps);
        used[next] = true;
        arrow.push(next);
    }
    arrow
}

/// A line over all cells, in one piece or cut at random places.
fn snakes(random: &mut Random, size: Size) -> Vec<Vec<usize>> {
    let mut line = if random.percent(70) {
        rows_to_and_fro(size)
    } else {
        spiral(size)
    };
    if random.percent(50) {
        line.reverse();
    }
    match random.below(3) {
        0 => vec![line],
        1 => {
            let piece = random.between(1, line.len());
            line.chunks(piece).map(|cells| cells.to_vec()).collect()
        }
        _ => {
            let kept = random.between(1, line.len());
            vec![line[..kept].to_vec()]
        }
    }
}

pub fn rows_to_and_fro(size: Size) -> Vec<usize> {
    let mut line = Vec::new();
    for row in 0..size.height {
        let mut cells: Vec<usize> = (row * size.width..(row + 1) * size.width).collect();
        if row % 2 == 1 {
            cells.reverse();
        }
        line.extend(cells);
    }
    line
}

/// Right, down, left and up about the grid, to its middle.
pub fn spiral(size: Size) -> Vec<usize> {
    wind(size, |_| true)
}

/// A spiral that leaves a wall between its turns.
pub fn walled_spiral(size: Size) -> Vec<usize> {
    wind(size, |touched| touched == 1)
}

/// Winds to the middle over new cells; `wide` is asked how many cells of the line a cell touches.
fn wind(size: Size, wide: impl Fn(usize) -> bool) -> Vec<usize> {
    let turns = [(0, 1), (1, 0), (0, -1), (-1, 0)];
    let mut visited = vec![false; size.cells()];
    let mut line = vec![0];
    visited[0] = true;
    let mut turn = 0;
    loop {
        let head = line[line.len() - 1];
        let touched = |cell| size.neighbours(cell).filter(|&c| visited[c]).count();
        let new = |&cell: &usize| !visited[cell] && wide(touched(cell));
        let step = |offset| size.moved(head, offset).filter(new);
        let next = match (step(turns[turn % 4]), step(turns[(turn + 1) % 4])) {
            (Some(ahead), _) => ahead,
            (None, Some(turned)) => {
                turn += 1;
                turned
            }
            (None, None) => return line,
        };
        visited[next] = true;
        line.push(next);
    }
}
