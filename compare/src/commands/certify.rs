//! `compare certify PATH`: leaves of 5 by 5 to 12 by 12 that have one solution, and their certificates by
//! the package's maker, in a list that tests read without a SAT solver.

use crate::generate::puzzles::square;
use crate::generate::sizes::{kept_sizes, size_bytes};
use crate::generate::solved::solved_leaf;
use crate::generate::unique::{differing_cell, given};
use crate::host::{package_maker, Made, PackageMaker};
use crate::lists::List;
use crate::progress::Outcome;
use crate::random::Random;
use crate::reading::certificate::unique_call;
use crate::reading::leaf::Opening;
use crate::reading::record::{encode, Code, Puzzle};
use crate::reading::Edition;

const NO_MAKER: &str = "the package's maker is not at hand: build with --features host, \
                        and `apt-get install cadical`";

const SIDES: [usize; 6] = [5, 6, 7, 8, 10, 12];

/// So many of a leaf's black and given cells are tried without.
const TRIES: usize = 40;

const FORMAT: [&str; 4] = [
    "The certificates are the package's, by the SAT solver CaDiCaL; the reading accepts each.",
    "Two leaves without sizes and then two with them, in edition 1 and 2, of each size.",
    "Entries to the end of the file: u16 record length, the record, u8 edition, u16 length of the",
    "  sizes in bytes, the sizes, u16 length of the certificate in bytes, the certificate.",
];

pub fn run(seed: u64, path: &str) -> Outcome {
    let maker = package_maker().ok_or(NO_MAKER)?;
    let mut list = List::passing("Leaves of one solution, each with a certificate.");
    list.line(&format!("Made by `compare certify` with seed {seed}."));
    list.lines(&FORMAT);
    let mut random = Random::new(seed);
    for side in SIDES {
        for sized in [false, true] {
            for edition in Edition::BOTH {
                let leaf = Single::new(&mut random, maker, side, edition, sized)?;
                println!("certify: {}", leaf.line());
                if unique_call(leaf.opening(), &leaf.certificate) != 1 {
                    return Err("the reading refuses the certificate".to_string());
                }
                list.long_bytes(&leaf.record);
                list.u8(edition.number());
                list.long_bytes(&leaf.sizes);
                list.long_bytes(&leaf.certificate);
            }
        }
    }
    std::fs::write(path, list.file()).map_err(|error| format!("{path}: {error}"))
}

/// A leaf with one solution.
struct Single {
    puzzle: Puzzle,
    record: Vec<u8>,
    edition: Edition,
    sizes: Vec<u8>,
    certificate: Vec<u8>,
}

impl Single {
    /// A leaf with a finished board, of which cells are given until it is the only one, and then taken back
    /// where it still is.
    fn new(
        random: &mut Random,
        maker: PackageMaker,
        side: usize,
        edition: Edition,
        sized: bool,
    ) -> Result<Single, String> {
        let solved = solved_leaf(random, square(side), edition);
        let sizes = match sized {
            true => size_bytes(&kept_sizes(random, &solved)),
            false => Vec::new(),
        };
        let mut leaf = Single {
            record: encode(&solved.puzzle),
            puzzle: solved.puzzle,
            edition,
            sizes,
            certificate: Vec::new(),
        };
        let solution: Vec<u8> = solved.decisions.iter().map(|literal| literal.1).collect();
        while let Made::Two([one, another]) = leaf.made(maker)? {
            let cell = differing_cell(random, &one, &another);
            leaf.code(cell, given(solution[cell]));
        }
        let coded = |&cell: &usize| leaf.puzzle.codes[cell] != Code::Plain;
        let mut cells: Vec<usize> = (0..solution.len()).filter(coded).collect();
        random.shuffle(&mut cells);
        for &cell in cells.iter().take(TRIES) {
            leaf.code(cell, Code::Plain);
            if !matches!(leaf.made(maker)?, Made::Certificate(_)) {
                leaf.code(cell, given(solution[cell]));
            }
        }
        match leaf.made(maker)? {
            Made::Certificate(certificate) => leaf.certificate = certificate,
            other => return Err(format!("the maker says {other:?}")),
        }
        Ok(leaf)
    }

    fn code(&mut self, cell: usize, code: Code) {
        self.puzzle.codes[cell] = code;
        self.record = encode(&self.puzzle);
    }

    fn opening(&self) -> Opening<'_> {
        Opening {
            record: &self.record,
            edition: self.edition.number().into(),
            sizes: &self.sizes,
        }
    }

    fn made(&self, maker: PackageMaker) -> Result<Made, String> {
        maker(self.opening())
    }

    fn line(&self) -> String {
        let coded = self
            .puzzle
            .codes
            .iter()
            .filter(|&&code| code != Code::Plain);
        format!(
            "{} by {}, edition {}, {} sizes, {} cells black or given: {} bytes",
            self.puzzle.size.height,
            self.puzzle.size.width,
            self.edition.number(),
            self.sizes.len() / 6,
            coded.count(),
            self.certificate.len()
        )
    }
}
