//! Certificates that a leaf has one solution only: those of `unique.list` are accepted, and what is changed in them is refused; the refusals
//! and their order; and the maker, where its SAT solver is at hand.

mod records;
mod unique_list;

use evolmino::{
    Certificate, Leaf, Literal, MakerError, Problem, ProblemCell, Record, Refusal, Solver,
};
use records::S;
use unique_list::{entries, Entry};

impl Entry {
    fn leaf(&self) -> Leaf<'_> {
        Leaf::new(&self.record)
            .edition(self.edition)
            .sizes_bytes(&self.sizes)
    }

    fn side(&self) -> usize {
        usize::from(self.record[0] >> 3) + 1
    }

    /// The certificate as the package reads it.
    fn read(&self) -> Certificate {
        Certificate::from_bytes(self.certificate.clone())
    }
}

#[test]
fn the_list_is_accepted() {
    let entries = entries();
    let leaves = |side: usize, edition: u32, sized: bool| {
        let alike = |entry: &&Entry| {
            (entry.side(), entry.edition, !entry.sizes.is_empty()) == (side, edition, sized)
        };
        entries.iter().filter(alike).count()
    };
    for side in [5, 6, 7, 8, 10, 12] {
        for edition in [1, 2] {
            assert_eq!(
                [false, true].map(|sized| leaves(side, edition, sized)),
                [1, 1]
            );
        }
    }
    for entry in &entries {
        assert_eq!(entry.leaf().unique(&entry.certificate), Ok(()));
        let solution = entry.read().solution().unwrap();
        let board: Vec<Literal> = solution.iter().copied().enumerate().collect();
        assert_eq!(board.len(), entry.side() * entry.side());
        assert_eq!(entry.leaf().finished(&board), Ok(true));
        let words = entry.certificate.len() / 3;
        let counts = entry.read().counts();
        assert_eq!(2 * counts.steps + counts.literals + counts.hints, words);
    }
}

#[test]
fn each_flipped_cell_is_refused() {
    for entry in entries() {
        for cell in 0..entry.side() * entry.side() {
            let mut bytes = entry.certificate.clone();
            // The middle byte of the cell's word has the value.
            bytes[3 * (1 + cell) + 1] ^= 0x80;
            let refused = entry.leaf().unique(&bytes);
            assert_eq!(refused, Err(Refusal::SolutionUnfinished));
        }
    }
}

#[test]
fn each_cut_is_refused() {
    for entry in entries().into_iter().filter(|entry| entry.side() < 7) {
        let bytes = &entry.certificate[..];
        for length in 0..bytes.len() {
            let refused = entry.leaf().unique(&bytes[..length]).unwrap_err();
            let cells = entry.side() * entry.side();
            let due: &[Refusal] = match length {
                _ if length % 3 != 0 => &[Refusal::CertificateLength],
                _ if length < 3 * (cells + 2) => &[Refusal::NoSolutionStep],
                _ => &[Refusal::StepCut, Refusal::CertificateEnd],
            };
            assert!(due.contains(&refused), "{length}: {refused}");
        }
        let longer = [bytes, &[0; 3]].concat();
        assert_eq!(entry.leaf().unique(&longer), Err(Refusal::CertificateEnd));
    }
}

/// On a leaf that may have more solutions no step closes that would not close there by itself.
#[test]
fn without_its_black_and_given_cells() {
    for entry in entries() {
        let side = entry.side();
        let mut plain = entry.record.clone();
        for bit in 21..21 + 2 * side * side {
            plain[bit / 8] &= !(0x80 >> (bit % 8));
        }
        let leaf = Leaf::new(&plain)
            .edition(entry.edition)
            .sizes_bytes(&entry.sizes);
        let refused = leaf.unique(&entry.certificate).unwrap_err();
        assert!(
            [Refusal::Hint, Refusal::NotClosed].contains(&refused),
            "{refused}"
        );
    }
}

type Steps<'a> = Vec<(&'a [Literal], &'a [usize])>;

/// A row of five cells with an arrow along its first four.
fn row(first: ProblemCell) -> Record {
    let mut cells = vec![vec![ProblemCell::Empty; 5]];
    cells[0][0] = first;
    let arrows = vec![(0..4).map(|x| (0, x)).collect()];
    Record::new(&Problem { cells, arrows }).unwrap()
}

/// Blocks of one square and of two, where the first cell is given.
const SOLUTION: [bool; 5] = [true, false, false, true, true];

/// And where the first cell is black.
const OTHER: [bool; 5] = [false, true, false, true, true];

/// The steps for the first cell given, from number 1 on.
fn given_steps() -> Steps<'static> {
    vec![
        (&[(1, false)], &[]),
        (&[(2, false), (3, false)], &[]),
        (&[(2, false)], &[2]),
        (&[(3, true)], &[1, 3]),
        (&[], &[1, 3, 4, 0]),
    ]
}

fn answer(record: &Record, solution: &[bool], steps: Steps) -> Result<(), Refusal> {
    let certificate = Certificate::new(solution, steps).unwrap();
    Leaf::new(record.bytes()).unique(certificate.bytes())
}

/// The answer with one step in the place of another.
fn with(number: usize, clause: &[Literal], hints: &[usize]) -> Result<(), Refusal> {
    let mut steps = given_steps();
    steps[number - 1] = (clause, hints);
    answer(&row(ProblemCell::Square), &SOLUTION, steps)
}

#[test]
fn steps_that_are_refused() {
    let given = row(ProblemCell::Square);
    assert_eq!(answer(&given, &SOLUTION, given_steps()), Ok(()));
    // Cell 5 is off the leaf; six literals are one more than it has cells; of two for one cell the later one counts.
    assert_eq!(with(1, &[(5, false)], &[]), Err(Refusal::NotALiteral));
    assert_eq!(with(1, &[(1, false); 6], &[]), Err(Refusal::NotALiteral));
    assert_eq!(with(1, &[(1, false); 5], &[]), Ok(()));
    let twice = [(1, false), (1, true)];
    assert_eq!(with(1, &twice, &[]), Err(Refusal::NotClosed));
    // Two cells are undecided; the second time a literal is true.
    assert_eq!(with(3, &[(1, true)], &[2]), Err(Refusal::Hint));
    assert_eq!(with(3, &[(2, false)], &[2, 2]), Err(Refusal::Hint));
    // No other cell is empty.
    assert_eq!(with(4, &[(3, true)], &[1]), Err(Refusal::NotClosed));
    assert_eq!(with(5, &[], &[1, 3, 4]), Err(Refusal::NotClosed));
    // False as the last hint, and before another.
    let ending = |hints: &'static [usize]| {
        let mut steps = given_steps();
        steps[4] = (&[(4, true)], &[1, 3, 4]);
        steps.push((&[], hints));
        answer(&given, &SOLUTION, steps)
    };
    assert_eq!(ending(&[1, 3, 4, 5, 0]), Ok(()));
    assert_eq!(ending(&[1, 3, 4, 5, 0, 0]), Err(Refusal::Hint));
    // No step without literals, and one in the midst.
    let mut steps = given_steps();
    steps.truncate(4);
    assert_eq!(
        answer(&given, &SOLUTION, steps),
        Err(Refusal::CertificateEnd)
    );
    let mut steps = given_steps();
    steps.extend(given_steps());
    assert_eq!(
        answer(&given, &SOLUTION, steps),
        Err(Refusal::CertificateEnd)
    );
}

#[test]
fn two_solutions() {
    let both = row(ProblemCell::Empty);
    let leaf = Leaf::new(both.bytes());
    for solution in [SOLUTION, OTHER] {
        let board: Vec<Literal> = solution.into_iter().enumerate().collect();
        assert_eq!(leaf.finished(&board), Ok(true));
    }
    // The steps of the leaf with its first cell black.
    let black_steps: Steps = vec![
        (&[(2, false), (3, false)], &[]),
        (&[(1, false), (2, false)], &[]),
        (&[(1, true), (3, true)], &[]),
        (&[(2, true), (3, true)], &[]),
        (&[(3, true)], &[3, 4, 2]),
        (&[(2, false)], &[1, 5]),
        (&[(1, true)], &[6]),
        (&[], &[5, 6, 7, 0]),
    ];
    let black = row(ProblemCell::Black);
    assert_eq!(answer(&black, &OTHER, black_steps.clone()), Ok(()));
    for solution in [SOLUTION, OTHER] {
        for steps in [given_steps(), black_steps.clone()] {
            let refused = answer(&both, &solution, steps).unwrap_err();
            assert!(
                [Refusal::Hint, Refusal::NotClosed].contains(&refused),
                "{refused}"
            );
        }
    }
}

/// The leaf's refusals come before the certificate's.
#[test]
fn the_order_of_refusals() {
    let given = row(ProblemCell::Square);
    let good = Certificate::new(&SOLUTION, given_steps()).unwrap();
    let leaf = Leaf::new(given.bytes());
    assert_eq!(leaf.unique(good.bytes()), Ok(()));
    for certificate in [good.bytes(), &good.bytes()[1..], &[]] {
        let cut = Leaf::new(&given.bytes()[1..]).edition(3);
        assert!(cut.unique(certificate).unwrap_err().number() <= 5);
        let third = leaf.clone().edition(3).sizes(&[(4, 1, 1)]);
        assert_eq!(third.unique(certificate), Err(Refusal::Edition));
        let sized = leaf.clone().sizes(&[(4, 1, 1)]);
        assert_eq!(sized.unique(certificate), Err(Refusal::Sizes));
    }
    assert_eq!(
        leaf.unique(&good.bytes()[1..]),
        Err(Refusal::CertificateLength)
    );
    assert_eq!(leaf.unique(&[]), Err(Refusal::NoSolutionStep));
    // Sizes that the solution keeps, and sizes that it doesn't.
    let kept = leaf.clone().sizes(&[(3, 2, 2)]);
    assert_eq!(kept.unique(good.bytes()), Ok(()));
    let missed = leaf.sizes(&[(3, 3, 3)]);
    assert_eq!(
        missed.unique(good.bytes()),
        Err(Refusal::SolutionUnfinished)
    );
}

/// The largest number of words, and one more.
#[test]
fn the_longest() {
    let given = row(ProblemCell::Square);
    let leaf = Leaf::new(given.bytes());
    let mut bytes = Certificate::new(&SOLUTION, given_steps())
        .unwrap()
        .bytes()
        .to_vec();
    bytes.resize(3 << 23, 0);
    assert_eq!(leaf.unique(&bytes), Err(Refusal::CertificateEnd));
    bytes.resize((3 << 23) + 3, 0);
    assert_eq!(leaf.unique(&bytes), Err(Refusal::CertificateLength));
}

/// On the largest leaf without an arrow each cell is empty, because no square is reached by one.
#[test]
fn the_largest_leaf() {
    let cells = vec![vec![ProblemCell::Empty; 32]; 32];
    let arrows = Vec::new();
    let record = Record::new(&Problem { cells, arrows }).unwrap();
    let leaf = Leaf::new(record.bytes());
    let steps = |hints: Vec<usize>| {
        let empty = (0..1024).map(|cell| (vec![(cell, false)], vec![]));
        Certificate::new(&[false; 1024], empty.chain([(vec![], hints)])).unwrap()
    };
    let all: Vec<usize> = (1..=1024).chain([0]).collect();
    assert_eq!(leaf.unique(steps(all.clone()).bytes()), Ok(()));
    // Without the last cell's step, that cell is left to differ; without two, nothing follows.
    let one_less = [&all[..1023], &[0]].concat();
    assert_eq!(leaf.unique(steps(one_less).bytes()), Ok(()));
    let two_less = [&all[..1022], &[0]].concat();
    assert_eq!(leaf.unique(steps(two_less).bytes()), Err(Refusal::Hint));
}

/// The maker, if its solver is at hand; without it these tests say so and pass.
fn at_hand() -> Option<Solver> {
    let solver = Solver::cadical();
    let at_hand = solver.at_hand().then_some(solver);
    if at_hand.is_none() {
        println!("cadical is not at hand: nothing is made");
    }
    at_hand
}

#[test]
fn makes_what_is_accepted() {
    let Some(solver) = at_hand() else { return };
    for entry in entries().into_iter().filter(|entry| entry.side() < 10) {
        let made = entry.leaf().certify(&solver).unwrap();
        assert_eq!(made.solution(), entry.read().solution());
        assert_eq!(entry.leaf().unique(made.bytes()), Ok(()));
    }
    // No arrow, so no square; and no cell that is left open.
    for cell in [ProblemCell::Empty, ProblemCell::Black] {
        let cells = vec![vec![cell; 3]; 2];
        let arrows = Vec::new();
        let record = Record::new(&Problem { cells, arrows }).unwrap();
        let made = Leaf::new(record.bytes()).certify(&solver).unwrap();
        assert_eq!(made.solution(), Some(vec![false; 6]));
    }
}

#[test]
fn says_why_nothing_is_made() {
    let Some(solver) = at_hand() else { return };
    let certify = |record: &[u8]| Leaf::new(record).certify(&solver).unwrap_err();
    let both = row(ProblemCell::Empty);
    match certify(both.bytes()) {
        MakerError::NotUnique(mut boards) => {
            boards.sort();
            assert_eq!(boards, [OTHER.to_vec(), SOLUTION.to_vec()]);
        }
        error => panic!("{error}"),
    }
    // Strip S has no room for two blocks; a square is given where no arrow leads; an arrow of one cell.
    assert_eq!(certify(&S), MakerError::NoSolution);
    let record = |cell: ProblemCell, arrows: Vec<Vec<(usize, usize)>>| {
        let cells = vec![vec![cell]];
        Record::new(&Problem { cells, arrows }).unwrap()
    };
    let square = record(ProblemCell::Square, vec![]);
    assert_eq!(certify(square.bytes()), MakerError::NoSolution);
    let short = record(ProblemCell::Empty, vec![vec![(0, 0)]]);
    assert_eq!(certify(short.bytes()), MakerError::NoSolution);
    assert_eq!(certify(&[]), MakerError::Leaf(Refusal::RecordEnds));
    let third = Leaf::new(&S).edition(3).certify(&solver);
    assert_eq!(third, Err(MakerError::Leaf(Refusal::Edition)));
}

#[test]
fn programs_that_are_no_solver() {
    let given = row(ProblemCell::Square);
    let leaf = Leaf::new(given.bytes());
    let none = leaf.certify(&Solver::at("/no/such/program")).unwrap_err();
    assert!(matches!(none, MakerError::NoSolver(_)), "{none}");
    assert!(none.to_string().contains("apt-get install cadical"));
    for program in ["true", "false", "cat", "/"] {
        let error = leaf.certify(&Solver::at(program)).unwrap_err();
        assert!(matches!(error, MakerError::Solver(_)), "{program}: {error}");
    }
}
