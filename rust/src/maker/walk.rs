//! A walk from board to board near those that satisfy the clauses. A solver's run takes longer than many of its steps, and each board on the
//! way that satisfies all clauses known so far gives another one.

use super::grounds::Grounds;
use crate::host::{Literal, Refusal};

/// A walk ends behind so many steps without a new clause, or so many new clauses.
const STEPS: usize = 2_000;
const CLAUSES: usize = 200;

/// In so many of a hundred steps any cell of a clause changes, in the others the one that spoils fewest clauses.
const ANY: usize = 30;

/// Clauses, and for each literal those that have it.
pub(super) struct Clauses {
    pub(super) all: Vec<Vec<Literal>>,
    /// By cell, for empty and for square.
    having: Vec<[Vec<usize>; 2]>,
}

impl Clauses {
    pub(super) fn new(cells: usize) -> Clauses {
        Clauses {
            all: Vec::new(),
            having: vec![[Vec::new(), Vec::new()]; cells],
        }
    }

    /// A clause whose literals are different.
    pub(super) fn push(&mut self, clause: Vec<Literal>) {
        for &(cell, value) in &clause {
            self.having[cell][usize::from(value)].push(self.all.len());
        }
        self.all.push(clause);
    }
}

/// The board that the walk is at.
struct At<'a> {
    board: &'a mut [bool],
    /// For each clause how many of its literals agree, and the exclusive or of their cells: where one agrees, its cell.
    agreeing: Vec<(usize, usize)>,
    /// The clauses of which none does, and for each clause its place among them.
    spoilt: Vec<usize>,
    place: Vec<usize>,
    /// For each cell how many clauses agree by it alone.
    holds: Vec<usize>,
}

/// Walks from a board on and adds the clauses met. The board is then one that has no reason, if the answer is yes, or any.
pub(super) fn walk(
    grounds: &mut Grounds,
    clauses: &mut Clauses,
    board: &mut [bool],
    random: &mut Random,
) -> Result<bool, Refusal> {
    let mut at = At {
        holds: vec![0; board.len()],
        board,
        agreeing: Vec::new(),
        spoilt: Vec::new(),
        place: Vec::new(),
    };
    let known = clauses.all.len();
    at.take_in(clauses);
    let mut left = STEPS;
    while left > 0 {
        left -= 1;
        if at.spoilt.is_empty() {
            let against = grounds.against(at.board)?;
            if against.is_empty() {
                return Ok(true);
            }
            against.into_iter().for_each(|clause| clauses.push(clause));
            at.take_in(clauses);
            if clauses.all.len() >= known + CLAUSES {
                break;
            }
            left = STEPS;
        }
        let clause = at.spoilt[random.below(at.spoilt.len())];
        let Some(cell) = at.choice(clauses, clause, random) else {
            break;
        };
        at.change(clauses, cell);
    }
    Ok(false)
}

impl At<'_> {
    /// Looks at the clauses that are new.
    fn take_in(&mut self, clauses: &Clauses) {
        for number in self.agreeing.len()..clauses.all.len() {
            self.agreeing.push((0, 0));
            self.place.push(0);
            self.spoil(number);
            for &(cell, value) in &clauses.all[number] {
                if self.board[cell] == value {
                    self.agrees(number, cell);
                }
            }
        }
    }

    /// A cell of a spoilt clause; none where it has none.
    fn choice(&self, clauses: &Clauses, clause: usize, random: &mut Random) -> Option<usize> {
        let literals = &clauses.all[clause];
        if random.below(100) < ANY && !literals.is_empty() {
            return Some(literals[random.below(literals.len())].0);
        }
        let cells = literals.iter().map(|&(cell, _)| cell);
        cells.min_by_key(|&cell| self.holds[cell])
    }

    fn change(&mut self, clauses: &Clauses, cell: usize) {
        let value = usize::from(self.board[cell]);
        self.board[cell] = value == 0;
        for &clause in &clauses.having[cell][1 - value] {
            self.agrees(clause, cell);
        }
        for &clause in &clauses.having[cell][value] {
            self.disagrees(clause, cell);
        }
    }

    /// A clause's literal of a cell agrees now.
    fn agrees(&mut self, clause: usize, cell: usize) {
        let (count, cells) = &mut self.agreeing[clause];
        let other = *cells;
        *count += 1;
        *cells ^= cell;
        match *count {
            1 => {
                self.holds[cell] += 1;
                self.mend(clause);
            }
            2 => self.holds[other] -= 1,
            _ => {}
        }
    }

    /// It doesn't any more.
    fn disagrees(&mut self, clause: usize, cell: usize) {
        let (count, cells) = &mut self.agreeing[clause];
        *count -= 1;
        *cells ^= cell;
        match *count {
            0 => {
                self.holds[cell] -= 1;
                self.spoil(clause);
            }
            1 => self.holds[*cells] += 1,
            _ => {}
        }
    }

    fn spoil(&mut self, clause: usize) {
        self.place[clause] = self.spoilt.len();
        self.spoilt.push(clause);
    }

    fn mend(&mut self, clause: usize) {
        let place = self.place[clause];
        self.spoilt.swap_remove(place);
        if let Some(&moved) = self.spoilt.get(place) {
            self.place[moved] = place;
        }
    }
}

/// The same numbers each time (splitmix64).
pub(super) struct Random {
    state: u64,
}

impl Random {
    pub(super) fn new() -> Random {
        Random { state: 1 }
    }

    /// A number below a limit that is not 0.
    fn below(&mut self, limit: usize) -> usize {
        self.state = self.state.wrapping_add(0x9E37_79B9_7F4A_7C15);
        let mut mixed = self.state;
        mixed = (mixed ^ (mixed >> 30)).wrapping_mul(0xBF58_476D_1CE4_E5B9);
        mixed = (mixed ^ (mixed >> 27)).wrapping_mul(0x94D0_49BB_1331_11EB);
        ((mixed ^ (mixed >> 31)) % limit as u64) as usize
    }
}
