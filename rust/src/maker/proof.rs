//! From a solver's proof to the steps of a certificate: each clause that is needed, with its hints.

use crate::host::Literal;

/// A literal as a number: twice the cell, and one more for a square. Its other value differs in the last bit.
type Code = usize;

fn code((cell, value): Literal) -> Code {
    2 * cell + usize::from(value)
}

/// A clause by its number: those that stand at the front, then those of the proof.
type Number = usize;

/// The clauses that are needed for the one without literals, which is the last; each with the numbers of its hints, in the order in which
/// they decide cells, the last one clashing. A clause of the front has none.
pub(super) struct Needed {
    pub(super) number: Number,
    pub(super) hints: Vec<Number>,
}

/// Goes through the proof from its end, and takes what is used. `Err` is the number of a clause of the proof that does not follow from those
/// before it by unit propagation.
pub(super) fn needed(
    cells: usize,
    front: usize,
    clauses: &[Vec<Literal>],
) -> Result<Vec<Needed>, Number> {
    let mut search = Search::new(cells, clauses);
    let mut needed = Vec::new();
    // The proof has a clause of no literals, or what stands there comes to a clash without one.
    let is_end = |&number: &Number| clauses[number].is_empty();
    let end = (front..clauses.len()).find(is_end).unwrap_or(clauses.len());
    needed.push(Needed {
        number: end,
        hints: search.refuted(end, &[]).ok_or(end)?,
    });
    for number in (0..end).rev() {
        if !search.is_used[number] {
            continue;
        }
        let hints = match number < front {
            true => Vec::new(),
            false => search.refuted(number, &clauses[number]).ok_or(number)?,
        };
        needed.push(Needed { number, hints });
    }
    needed.reverse();
    Ok(needed)
}

/// Unit propagation over clauses below a number that falls, with clauses that are used already before others.
struct Search {
    clauses: Vec<Vec<Code>>,
    is_used: Vec<bool>,
    /// Clauses of one literal or none.
    units: Vec<Number>,
    /// By literal, the clauses that have it among their first two: used ones, and others.
    watches: [Vec<Vec<Number>>; 2],
    is_true: Vec<bool>,
    /// By cell, the clause that decided it; none for an assumption.
    decided_by: Vec<Option<Number>>,
    /// The literals that are true, in the order in which they became so.
    trail: Vec<Code>,
}

const USED: usize = 0;
const OTHERS: usize = 1;

impl Search {
    fn new(cells: usize, clauses: &[Vec<Literal>]) -> Search {
        let clauses: Vec<Vec<Code>> = clauses
            .iter()
            .map(|clause| clause.iter().copied().map(code).collect())
            .collect();
        let mut watches = [vec![Vec::new(); 2 * cells], vec![Vec::new(); 2 * cells]];
        let mut units = Vec::new();
        for (number, clause) in clauses.iter().enumerate() {
            match clause[..] {
                [] | [_] => units.push(number),
                [first, second, ..] => {
                    watches[OTHERS][first].push(number);
                    watches[OTHERS][second].push(number);
                }
            }
        }
        Search {
            is_used: vec![false; clauses.len()],
            clauses,
            units,
            watches,
            is_true: vec![false; 2 * cells],
            decided_by: vec![None; cells],
            trail: Vec::new(),
        }
    }

    /// The hints by which a clause follows from those below its number, which are used from then on.
    fn refuted(&mut self, number: Number, clause: &[Literal]) -> Option<Vec<Number>> {
        for code in self.trail.drain(..) {
            self.is_true[code] = false;
        }
        for &literal in clause {
            if !self.is_true[code(literal) ^ 1] {
                self.set(code(literal) ^ 1, None);
            }
        }
        let clash = self.clash(number)?;
        let hints = self.traced(clash);
        for &hint in &hints {
            self.is_used[hint] = true;
        }
        Some(hints)
    }

    fn set(&mut self, code: Code, by: Option<Number>) {
        self.is_true[code] = true;
        self.decided_by[code / 2] = by;
        self.trail.push(code);
    }

    /// A clause below the number that is false behind what the others decide.
    fn clash(&mut self, number: Number) -> Option<Number> {
        for used in [true, false] {
            for place in 0..self.units.len() {
                let unit = self.units[place];
                if unit >= number || self.is_used[unit] != used {
                    continue;
                }
                match self.clauses[unit].first() {
                    Some(&code) if self.is_true[code] => {}
                    Some(&code) if !self.is_true[code ^ 1] => self.set(code, Some(unit)),
                    _ => return Some(unit),
                }
            }
        }
        let mut seen = [0; 2];
        loop {
            // One of the others only where all that are used have nothing more to say.
            let kind = match self.trail.len() {
                end if seen[USED] < end => USED,
                end if seen[OTHERS] < end => OTHERS,
                _ => return None,
            };
            let falsified = self.trail[seen[kind]] ^ 1;
            seen[kind] += 1;
            if let Some(clash) = self.visit(kind, falsified, number) {
                return Some(clash);
            }
        }
    }

    /// Looks at the clauses of a kind that watch a literal which is false now. Those that are used by now go over to their kind.
    fn visit(&mut self, kind: usize, falsified: Code, number: Number) -> Option<Number> {
        let watching = std::mem::take(&mut self.watches[kind][falsified]);
        let mut clash = None;
        for looked_at in watching {
            // Behind a clash all are kept as they are.
            let watch = match clash {
                None => self.look(looked_at, falsified, number),
                Some(_) => Watch::Kept,
            };
            let kind = match self.is_used[looked_at] {
                true => USED,
                false => OTHERS,
            };
            match watch {
                Watch::Gone => {}
                Watch::Moved(code) => self.watches[kind][code].push(looked_at),
                Watch::Kept => self.watches[kind][falsified].push(looked_at),
                Watch::Clash => {
                    self.watches[kind][falsified].push(looked_at);
                    clash = Some(looked_at);
                }
            }
        }
        clash
    }

    fn look(&mut self, looked_at: Number, falsified: Code, number: Number) -> Watch {
        if looked_at >= number {
            return Watch::Gone;
        }
        let clause = &mut self.clauses[looked_at];
        if clause[0] == falsified {
            clause.swap(0, 1);
        }
        let first = clause[0];
        if self.is_true[first] {
            return Watch::Kept;
        }
        for place in 2..clause.len() {
            let code = clause[place];
            if !self.is_true[code ^ 1] {
                clause.swap(1, place);
                return Watch::Moved(code);
            }
        }
        if self.is_true[first ^ 1] {
            return Watch::Clash;
        }
        self.set(first, Some(looked_at));
        Watch::Kept
    }

    /// The clauses that a clash comes from, in the order in which they decided cells, and then itself.
    fn traced(&self, clash: Number) -> Vec<Number> {
        let mut is_wanted = vec![false; self.decided_by.len()];
        let mut hints = vec![clash];
        for &code in &self.clauses[clash] {
            is_wanted[code / 2] = true;
        }
        for &decided in self.trail.iter().rev() {
            let by = self.decided_by[decided / 2];
            if let Some(by) = by.filter(|_| is_wanted[decided / 2]) {
                hints.push(by);
                for &code in &self.clauses[by] {
                    is_wanted[code / 2] = true;
                }
            }
        }
        hints.reverse();
        hints
    }
}

enum Watch {
    Kept,
    /// It watches another literal.
    Moved(Code),
    /// It is not below the number.
    Gone,
    Clash,
}

#[cfg(test)]
mod tests {
    use super::*;

    /// Clauses by numbers as DIMACS has them: cells from 1 on, negated for empty.
    fn clauses(lists: &[&[i32]]) -> Vec<Vec<Literal>> {
        let literal = |&number: &i32| (number.unsigned_abs() as usize - 1, number > 0);
        lists
            .iter()
            .map(|list| list.iter().map(literal).collect())
            .collect()
    }

    /// The numbers and hints of what is needed.
    fn taken(front: usize, lists: &[&[i32]]) -> Result<Vec<(Number, Vec<Number>)>, Number> {
        let needed = needed(3, front, &clauses(lists))?;
        Ok(needed.into_iter().map(|it| (it.number, it.hints)).collect())
    }

    #[test]
    fn hints_in_their_order() {
        // The fifth clause is of the proof and unused, as is the third of the front.
        let lists: [&[i32]; 8] = [
            &[1, 2],
            &[-1, 2],
            &[3, 1],
            &[-2],
            &[1, -3, 2],
            &[2],
            &[],
            &[1],
        ];
        let front = 4;
        let steps = taken(front, &lists).unwrap();
        assert_eq!(steps.last().unwrap().0, 6);
        assert!(steps.iter().all(|(number, _)| ![2, 4, 7].contains(number)));
        for (number, hints) in steps {
            assert_eq!(hints.is_empty(), number < front);
            assert!(hints.iter().all(|&hint| hint < number));
        }
    }

    #[test]
    fn what_does_not_follow() {
        assert_eq!(taken(1, &[&[1, 2], &[]]), Err(1));
        // Cell 0 is no square, which the proof doesn't say.
        assert_eq!(taken(2, &[&[1, 2], &[-1, -2], &[1], &[-1], &[]]), Err(3));
        // Nothing is said behind the front, and its clauses clash at once; or one of them has no literals.
        assert!(taken(2, &[&[1], &[-1]]).is_ok());
        assert_eq!(taken(2, &[&[1], &[]]), Ok(vec![(1, vec![]), (2, vec![1])]));
    }
}
