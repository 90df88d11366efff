//! The steps of a certificate before they are written, made shorter and fewer.

use super::grounds::{Cells, Grounds};
use crate::host::{Literal, Refusal};

/// A step: a clause, and as hints the numbers of earlier steps. The first one is the claimed solution's.
#[derive(Clone, Debug)]
pub(super) struct Draft {
    pub(super) clause: Vec<Literal>,
    pub(super) hints: Vec<usize>,
}

/// So often the steps are gone through again. Mostly nothing changes after the second time.
const ROUNDS: usize = 8;

/// The same steps without literals, hints and steps that no other needs.
pub(super) fn tidied(grounds: &mut Grounds, mut steps: Vec<Draft>) -> Result<Vec<Draft>, Refusal> {
    for _ in 0..ROUNDS {
        let before = size(&steps);
        for number in 1..steps.len() {
            steps[number] = replayed(grounds.base(), &steps, number);
        }
        steps = used(steps);
        if size(&steps) == before {
            break;
        }
    }
    merge(grounds, &mut steps)?;
    Ok(used(steps))
}

/// The number of words.
fn size(steps: &[Draft]) -> usize {
    let words = |step: &Draft| 2 + step.clause.len() + step.hints.len();
    steps.iter().map(words).sum()
}

/// What a clause comes to under cells.
enum Look {
    Clash,
    Unit(Literal),
    /// It decides nothing.
    Other,
}

fn look(cells: &Cells, clause: &[Literal]) -> Look {
    let mut open = None;
    for &(cell, value) in clause {
        match cells[cell] {
            Some(decided) if decided == value => return Look::Other,
            None if open.is_none_or(|open| open == (cell, value)) => open = Some((cell, value)),
            None => return Look::Other,
            Some(_) => {}
        }
    }
    open.map_or(Look::Clash, Look::Unit)
}

/// The cells that the leaf decides, with each literal of a clause false.
fn assumed(base: &Cells, clause: &[Literal]) -> Cells {
    let mut cells = base.clone();
    for &(cell, value) in clause {
        cells[cell] = Some(!value);
    }
    cells
}

/// A step with those hints only that its clash comes from, and those literals. One without a clash stays as it is.
fn replayed(base: &Cells, steps: &[Draft], number: usize) -> Draft {
    let step = &steps[number];
    let mut cells = assumed(base, &step.clause);
    // Each hint that decided a cell, with the cell.
    let mut followed: Vec<(usize, usize)> = Vec::new();
    for &hint in &step.hints {
        match look(&cells, &steps[hint].clause) {
            Look::Other => {}
            Look::Unit((cell, value)) => {
                cells[cell] = Some(value);
                followed.push((hint, cell));
            }
            Look::Clash => return traced(steps, step, followed, hint),
        }
    }
    step.clone()
}

/// From the clash back.
fn traced(steps: &[Draft], step: &Draft, followed: Vec<(usize, usize)>, clash: usize) -> Draft {
    let mut wanted: Vec<usize> = cells_of(&steps[clash]);
    let mut hints = vec![clash];
    for (hint, cell) in followed.into_iter().rev() {
        if wanted.contains(&cell) {
            hints.push(hint);
            wanted.extend(cells_of(&steps[hint]));
        }
    }
    hints.reverse();
    let clause = step.clause.iter().copied();
    Draft {
        clause: clause.filter(|(cell, _)| wanted.contains(cell)).collect(),
        hints,
    }
}

fn cells_of(step: &Draft) -> Vec<usize> {
    step.clause.iter().map(|&(cell, _)| cell).collect()
}

/// The steps that the first one without literals behind the solution's needs, and that of the solution.
fn used(steps: Vec<Draft>) -> Vec<Draft> {
    let is_end = |step: &Draft| step.clause.is_empty();
    let end = 1 + steps[1..]
        .iter()
        .position(is_end)
        .unwrap_or(steps.len() - 2);
    let mut is_used = vec![false; steps.len()];
    (is_used[0], is_used[end]) = (true, true);
    // Hints are earlier.
    for number in (1..=end).rev() {
        if is_used[number] {
            let hints = steps[number].hints.iter();
            hints.for_each(|&hint| is_used[hint] = true);
        }
    }
    let mut new_number = vec![0; steps.len()];
    let mut kept: Vec<Draft> = Vec::new();
    for (number, mut step) in steps.into_iter().enumerate() {
        if is_used[number] {
            new_number[number] = kept.len();
            step.hints
                .iter_mut()
                .for_each(|hint| *hint = new_number[*hint]);
            kept.push(step);
        }
    }
    kept
}

/// A clause that closes by itself and is the last hint of one step, and a hint nowhere else, is left out where that step closes without it.
fn merge(grounds: &mut Grounds, steps: &mut [Draft]) -> Result<(), Refusal> {
    let mut uses = vec![0; steps.len()];
    for &hint in steps.iter().flat_map(|step| &step.hints) {
        uses[hint] += 1;
    }
    for number in 1..steps.len() {
        let Some((&last, others)) = steps[number].hints.split_last() else {
            continue;
        };
        if last == 0 || uses[last] > 1 || !steps[last].hints.is_empty() {
            continue;
        }
        let mut cells = assumed(grounds.base(), &steps[number].clause);
        for &hint in others {
            if let Look::Unit((cell, value)) = look(&cells, &steps[hint].clause) {
                cells[cell] = Some(value);
            }
        }
        if grounds.close(&cells)? {
            steps[number].hints.pop();
        }
    }
    Ok(())
}

#[cfg(test)]
mod tests {
    use super::*;

    fn draft(clause: &[Literal], hints: &[usize]) -> Draft {
        Draft {
            clause: clause.to_vec(),
            hints: hints.to_vec(),
        }
    }

    /// A literal and a hint that are not needed go, and so does a step that is no hint.
    #[test]
    fn shorter_and_fewer() {
        let base = vec![None; 3];
        let mut steps = vec![
            draft(&[(0, true), (1, true), (2, true)], &[]),
            draft(&[(0, false)], &[]),
            draft(&[(0, true), (1, false)], &[]),
            draft(&[(2, false)], &[]),
            draft(&[(1, false), (2, true)], &[3, 1, 2]),
            draft(&[], &[1, 4, 3, 0]),
        ];
        for number in 1..steps.len() {
            steps[number] = replayed(&base, &steps, number);
        }
        assert_eq!(steps[4].clause, [(1, false)]);
        assert_eq!(steps[4].hints, [1, 2]);
        assert_eq!(steps[5].hints, [1, 4, 3, 0]);
        let mut longer = steps.clone();
        longer.insert(3, draft(&[(2, true)], &[1]));
        for hint in longer[4..].iter_mut().flat_map(|step| &mut step.hints) {
            *hint += usize::from(*hint >= 3);
        }
        let kept = used(longer);
        assert_eq!(size(&kept), size(&steps));
        assert_eq!(kept[5].hints, steps[5].hints);
    }
}
