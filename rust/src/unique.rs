//! Certificates that a leaf has one solution only: the exported call, made safe, and what a certificate holds.

use crate::host::{Literal, Refusal};
use crate::leaf::{of_leaf, Leaf};

extern "C" {
    fn evolmino_unique(
        record: *const u8,
        record_len: usize,
        edition: u32,
        sizes: *const u8,
        sizes_len: usize,
        certificate: *const u8,
        certificate_len: usize,
    ) -> i32;
}

/// What the first word of a step has beyond the number of its literals. Every other word is smaller.
const TAG: usize = 1 << 23;

/// A certificate has at most so many words.
pub(crate) const WORD_LIMIT: usize = TAG;

/// A literal's word is its value × 2^15 and its index.
const VALUE: usize = 1 << 15;

impl Leaf<'_> {
    /// The exported call itself, on bytes: `Ok` only if the certificate's claimed solution is finished on this leaf and no other board
    /// is. This is what is proved, of any bytes, whoever wrote them.
    ///
    /// It refuses the leaf as [`Leaf::accepted`], then [`Refusal::CertificateLength`], [`Refusal::NoSolutionStep`] and
    /// [`Refusal::SolutionUnfinished`]; then in each step, one after another, [`Refusal::StepCut`], [`Refusal::NotALiteral`],
    /// [`Refusal::Hint`] and [`Refusal::NotClosed`]; and last [`Refusal::CertificateEnd`]. A refusal says nothing of the leaf: another
    /// certificate may be accepted. It keeps nothing and takes nothing from the heap.
    ///
    /// ```
    /// use evolmino::{Certificate, Leaf, Literal, Problem, ProblemCell, Record, Refusal};
    ///
    /// // A row of five cells with an arrow along its first four; the first cell is given.
    /// let mut cells = vec![vec![ProblemCell::Empty; 5]];
    /// cells[0][0] = ProblemCell::Square;
    /// let arrows = vec![(0..4).map(|x| (0, x)).collect()];
    /// let record = Record::new(&Problem { cells, arrows }).unwrap();
    /// let leaf = Leaf::new(record.bytes());
    ///
    /// // Clauses, and by their numbers the steps before them that are used, in this order. Number 0 says that the board is not the
    /// // solution.
    /// let steps: [(&[Literal], &[usize]); 5] = [
    ///     (&[(1, false)], &[]),             // 1: beside cell 0 it would be a block with two arrow cells
    ///     (&[(2, false), (3, false)], &[]), // 2: so would both of these
    ///     (&[(2, false)], &[2]),            // 3: its block has no room for two squares
    ///     (&[(3, true)], &[1, 3]),          // 4: no other cell is left for the arrow's second square
    ///     (&[], &[1, 3, 4, 0]),             // cell 4 is left to differ, and cell 3 can't be a block alone
    /// ];
    /// let solution = [true, false, false, true, true];
    /// let certificate = Certificate::new(&solution, steps).unwrap();
    /// assert_eq!(leaf.unique(certificate.bytes()), Ok(()));
    /// assert_eq!(certificate.solution().unwrap(), solution);
    ///
    /// let other = Certificate::new(&[true, false, false, true, false], steps).unwrap();
    /// assert_eq!(leaf.unique(other.bytes()), Err(Refusal::SolutionUnfinished));
    /// ```
    pub fn unique(&self, certificate: &[u8]) -> Result<(), Refusal> {
        of_leaf!(self, evolmino_unique(certificate)).map(|_| ())
    }
}

/// A certificate: any bytes, which [`Leaf::unique`] accepts or refuses. [`Leaf::certify`] makes those that it accepts.
///
/// The bytes are words of three, most significant first. A step is 2^23 + n, n literals (value × 2^15 + index), m, and m hints, each the
/// place of an earlier step's first word. A step's clause says that no finished board but the solution has all its literals false. The first
/// step is the claimed solution's, with the literal of each cell that the solution does not have, and no hints. The last step has no
/// literals.
///
/// A step is accepted where its literals are assumed false on top of black and given cells, each hint's clause in turn leaves one cell to
/// be decided, and then the last hint's clause is false, or find gives a reason, or some arrow has no two cells that may be square.
#[derive(Clone, Debug, PartialEq, Eq, Hash)]
pub struct Certificate {
    bytes: Vec<u8>,
}

/// A step of a certificate.
#[derive(Clone, Debug, PartialEq, Eq, Hash)]
pub struct Step {
    /// Where it starts, in words.
    pub place: usize,
    /// One of these literals agrees with each finished board that isn't the claimed solution.
    pub clause: Vec<Literal>,
    /// Places of earlier steps.
    pub hints: Vec<usize>,
}

impl Certificate {
    /// The certificate of a claimed solution, a cell each in row order, and of steps behind its own: each a clause and the numbers of the
    /// steps that are its hints, where 0 is the solution's step and the others are counted from 1 on. None where it is too long, or a hint
    /// isn't the number of an earlier step.
    ///
    /// Whether it is accepted [`Leaf::unique`] tells.
    pub fn new<C, H>(
        solution: &[bool],
        steps: impl IntoIterator<Item = (C, H)>,
    ) -> Option<Certificate>
    where
        C: AsRef<[Literal]>,
        H: AsRef<[usize]>,
    {
        let claim: Vec<Literal> = solution.iter().map(|&cell| !cell).enumerate().collect();
        let mut words = Words::default();
        words.step(&claim, &[])?;
        for (clause, hints) in steps {
            words.step(clause.as_ref(), hints.as_ref())?;
        }
        Some(Certificate { bytes: words.bytes })
    }

    /// Bytes that are read from elsewhere, whatever they are.
    pub fn from_bytes(bytes: Vec<u8>) -> Certificate {
        Certificate { bytes }
    }

    /// The bytes, as [`Leaf::unique`] takes them.
    pub fn bytes(&self) -> &[u8] {
        &self.bytes
    }

    /// The claimed solution, a cell each in row order; none where there is no such step at the front.
    pub fn solution(&self) -> Option<Vec<bool>> {
        let first = self.steps().next()?;
        let in_order = (0..).zip(&first.clause).all(|(cell, &(at, _))| cell == at);
        let cells = first.clause.iter().map(|&(_, value)| !value);
        (in_order && first.hints.is_empty()).then(|| cells.collect())
    }

    /// The steps in order, the claimed solution's first, up to the first place where no whole step of literals stands.
    pub fn steps(&self) -> impl Iterator<Item = Step> + '_ {
        let mut place = 0;
        std::iter::from_fn(move || {
            let step = self.step(place)?;
            place += 2 + step.clause.len() + step.hints.len();
            Some(step)
        })
    }

    /// How many steps, literals and hints it has.
    pub fn counts(&self) -> Counts {
        let mut counts = Counts::default();
        for step in self.steps() {
            counts.steps += 1;
            counts.literals += step.clause.len();
            counts.hints += step.hints.len();
        }
        counts
    }

    fn step(&self, place: usize) -> Option<Step> {
        let literals = self.word(place)?.checked_sub(TAG)?;
        let middle = place + 1 + literals;
        let hints = self.word(middle)?;
        // Before anything is gathered: the last word is there.
        self.word(middle + hints)?;
        Some(Step {
            place,
            clause: (place + 1..middle)
                .map(|at| self.literal(at))
                .collect::<Option<_>>()?,
            hints: (middle + 1..=middle + hints)
                .map(|at| self.word(at))
                .collect::<Option<_>>()?,
        })
    }

    fn literal(&self, place: usize) -> Option<Literal> {
        let word = self.word(place)?;
        (word < 2 * VALUE).then_some((word % VALUE, word >= VALUE))
    }

    fn word(&self, place: usize) -> Option<usize> {
        let start = place.checked_mul(3)?;
        let bytes = self.bytes.get(start..start.checked_add(3)?)?;
        let byte = |sum: usize, &byte: &u8| 256 * sum + usize::from(byte);
        Some(bytes.iter().fold(0, byte))
    }
}

/// How large a certificate is.
#[derive(Clone, Copy, Debug, Default, PartialEq, Eq, Hash)]
pub struct Counts {
    /// The claimed solution's step among them.
    pub steps: usize,
    /// Of all steps.
    pub literals: usize,
    /// Of all steps.
    pub hints: usize,
}

/// Words as they are written.
#[derive(Default)]
struct Words {
    bytes: Vec<u8>,
    /// The place of each step.
    places: Vec<usize>,
}

impl Words {
    /// None where the words are too many, or one of them has no room.
    fn step(&mut self, clause: &[Literal], hints: &[usize]) -> Option<()> {
        let place = self.bytes.len() / 3;
        if place + 2 + clause.len() + hints.len() > WORD_LIMIT {
            return None;
        }
        self.put(TAG + clause.len());
        for &(index, value) in clause {
            if index >= VALUE {
                return None;
            }
            self.put(usize::from(value) * VALUE + index);
        }
        self.put(hints.len());
        for &hint in hints {
            self.put(*self.places.get(hint)?);
        }
        self.places.push(place);
        Some(())
    }

    fn put(&mut self, word: usize) {
        self.bytes
            .extend([word >> 16, word >> 8, word].map(|part| part as u8));
    }
}

#[cfg(test)]
mod tests {
    use super::Certificate;
    use crate::host::Literal;

    /// A solution of two cells, a step without hints, and the last one.
    fn certificate() -> Certificate {
        let steps: [(&[Literal], &[usize]); 2] = [(&[(1, true)], &[]), (&[], &[0, 1])];
        Certificate::new(&[true, false], steps).unwrap()
    }

    #[test]
    fn words() {
        let bytes = [
            [0x80, 0, 2], // the solution's step: of each cell the other value
            [0, 0, 0],
            [0, 0x80, 1],
            [0, 0, 0],
            [0x80, 0, 1], // cell 1 is square; place 4
            [0, 0x80, 1],
            [0, 0, 0],
            [0x80, 0, 0], // the last step
            [0, 0, 2],
            [0, 0, 0],
            [0, 0, 4],
        ];
        assert_eq!(certificate().bytes(), bytes.concat());
    }

    #[test]
    fn read_back() {
        let certificate = certificate();
        assert_eq!(certificate.solution(), Some(vec![true, false]));
        let counts = certificate.counts();
        assert_eq!((counts.steps, counts.literals, counts.hints), (3, 3, 2));
        let steps: Vec<_> = certificate.steps().collect();
        assert_eq!((steps[2].place, &steps[2].hints[..]), (7, &[0, 4][..]));
        // A later step, and itself.
        let step = |hint: usize| Certificate::new(&[true], [([(0, true)], [hint])]);
        assert!(step(0).is_some() && step(1).is_none() && step(9).is_none());
        assert_eq!(Certificate::new(&[], [([(1 << 15, true)], [])]), None);
    }

    #[test]
    fn any_bytes() {
        let whole = certificate();
        for length in 0..whole.bytes().len() {
            let cut = Certificate::from_bytes(whole.bytes()[..length].to_vec());
            assert!(cut.counts().steps < 3);
            assert_eq!(cut.solution().is_some(), length >= 12);
        }
        for place in 0..whole.bytes().len() {
            for bit in 0..8 {
                let mut bytes = whole.bytes().to_vec();
                bytes[place] ^= 1 << bit;
                let changed = Certificate::from_bytes(bytes);
                let _ = (changed.solution(), changed.counts());
            }
        }
    }
}
