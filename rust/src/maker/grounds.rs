//! Why boards are not finished: clauses that close a step of a certificate by themselves.

use crate::host::{decode, encode, Literal, Refusal, OUTPUT_LIMIT};
use crate::leaf::Leaf;
use crate::record::{arrows_of, cells_of, ProblemCell};

/// The cells of a leaf, of which some are decided.
pub(super) type Cells = Vec<Option<bool>>;

/// A leaf that can be opened, with what the library's check of a step looks at.
pub(super) struct Grounds<'a> {
    leaf: &'a Leaf<'a>,
    /// What the leaf decides: black cells are empty and given ones square.
    base: Cells,
    arrows: Vec<Vec<usize>>,
    output: Vec<u8>,
}

impl<'a> Grounds<'a> {
    pub(super) fn new(leaf: &'a Leaf<'a>) -> Grounds<'a> {
        let (record, _, _) = leaf.parts();
        let decided = |cell: &ProblemCell| match cell {
            ProblemCell::Empty => None,
            ProblemCell::Black => Some(false),
            ProblemCell::Square => Some(true),
        };
        Grounds {
            leaf,
            base: cells_of(record).iter().map(decided).collect(),
            arrows: arrows_of(record),
            output: vec![0; OUTPUT_LIMIT],
        }
    }

    pub(super) fn base(&self) -> &Cells {
        &self.base
    }

    /// A clause without the literals that the leaf makes false, each once; none where it makes one true.
    pub(super) fn left_of(&self, clause: &[Literal]) -> Option<Vec<Literal>> {
        let mut left = Vec::new();
        for &(cell, value) in clause {
            match self.base[cell] {
                Some(decided) if decided == value => return None,
                None if !left.contains(&(cell, value)) => left.push((cell, value)),
                _ => {}
            }
        }
        Some(left)
    }

    /// Whether cells close a step that has no clash.
    pub(super) fn close(&mut self, cells: &Cells) -> Result<bool, Refusal> {
        Ok(self.is_lonely(cells) || self.reason(cells)?.is_some())
    }

    /// Clauses that the board doesn't satisfy, and whose steps close without hints; none for a board that has no reason. Each is as short
    /// as it gets by leaving out one literal after another, and no two have a literal in common.
    pub(super) fn against(&mut self, board: &[bool]) -> Result<Vec<Vec<Literal>>, Refusal> {
        let mut cells: Cells = board.iter().copied().map(Some).collect();
        let mut clauses = Vec::new();
        while let Some(reason) = self.reason(&cells)? {
            let left = self.shortened(&cells, &reason)?;
            // A finished board keeps what the leaf decides, so that these cells stay.
            for &(cell, _) in &left {
                cells[cell] = None;
            }
            let is_last = left.is_empty();
            clauses.push(
                left.into_iter()
                    .map(|(cell, value)| (cell, !value))
                    .collect(),
            );
            if is_last {
                break;
            }
        }
        Ok(clauses)
    }

    /// Some of the decisions of these cells that close on top of the leaf's, and none of which can be spared. They start with a reason's,
    /// and with all where that does not close again: what find says of fewer cells may be nothing.
    fn shortened(&mut self, cells: &Cells, reason: &[Literal]) -> Result<Vec<Literal>, Refusal> {
        let mut kept = self.base.clone();
        for &(cell, value) in reason {
            kept[cell] = Some(value);
        }
        if !self.close(&kept)? {
            kept.clone_from(cells);
        }
        for cell in 0..kept.len() {
            if self.base[cell].is_some() || kept[cell].is_none() {
                continue;
            }
            let spared = kept[cell].take();
            if !self.close(&kept)? {
                kept[cell] = spared;
            }
        }
        let own = (0..kept.len()).filter(|&cell| self.base[cell].is_none());
        Ok(own.filter_map(|cell| Some((cell, kept[cell]?))).collect())
    }

    /// Whether some arrow has fewer than two cells that may be square.
    fn is_lonely(&self, cells: &Cells) -> bool {
        let room = |arrow: &Vec<usize>| {
            let open = arrow.iter().filter(|&&cell| cells[cell] != Some(false));
            open.count()
        };
        self.arrows.iter().any(|arrow| room(arrow) < 2)
    }

    /// Find's reason against the cells.
    fn reason(&mut self, cells: &Cells) -> Result<Option<Vec<Literal>>, Refusal> {
        let decided = (0..)
            .zip(cells)
            .filter_map(|(cell, &value)| encode((cell, value?)));
        let decisions: Vec<u8> = decided.flatten().collect();
        let count = self.leaf.find_bytes(&decisions, &mut self.output)?;
        let literals = self.output[..2 * count].chunks_exact(2).map(decode);
        Ok((count > 0).then(|| literals.collect()))
    }
}
