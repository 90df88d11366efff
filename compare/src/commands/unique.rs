//! `compare unique`: the linked call that checks certificates of one solution, beside the reading's
//! check, on small leaves of which all finished boards are known. Certificates by a search of the
//! reading's and, where its SAT solver is at hand, by the package's maker; on leaves with one solution
//! they are accepted, on others not; and damaged ones. `compare fuzz` makes this call too.

use super::sizes::{any_damage, any_edition};
use crate::generate::certificates::{Damage, Draft, Tree};
use crate::generate::mutations::change;
use crate::generate::sizes::size_bytes;
use crate::generate::unique::{exhausted, finished_boards, Exhausted};
use crate::guarded::{self, Due, Room};
use crate::host::{package_maker, Made, PackageMaker, UniqueCall, MISSING, UNIQUE_CALL};
use crate::progress::{hexadecimal, leaf_facts, repeatedly, Outcome};
use crate::random::Random;
use crate::reading::certificate::{unique_call, words};
use crate::reading::leaf::{Leaf, Opening};
use crate::reading::record::{encode, Code};
use crate::reading::Edition;

/// So many damaged certificates of a leaf.
const DAMAGED: usize = 200;

/// The largest number of a refusal.
const LAST: usize = 30;

/// The refusals that the call can give.
const REFUSALS: [usize; 15] = [1, 2, 3, 4, 5, 16, 22, 23, 24, 25, 26, 27, 28, 29, 30];

pub fn run(seed: u64, count: usize) -> Outcome {
    let mut checker = Checker::new()?;
    let mut leaves = Leaves {
        maker: package_maker(),
        ..Leaves::default()
    };
    repeatedly("unique", seed, count, |random| {
        let exhausted = exhausted(random);
        let drafts = leaves.drafts(random, &mut checker, &exhausted)?;
        for _ in 0..DAMAGED {
            let damage = random.pick(&Damage::ALL);
            let draft = &drafts[random.below(drafts.len())];
            let certificate = damage.done_to(random, draft);
            match random.percent(15) {
                false => leaves.damaged(random, &mut checker, &exhausted, &certificate)?,
                true => leaves.elsewhere(random, &mut checker, &exhausted, certificate)?,
            }
        }
        Ok(())
    })?;
    println!("{}", checker.line());
    println!("{}", leaves.line());
    if !checker.met_all() || !leaves.met_all() {
        return Err("not every case was met: more leaves are needed".to_string());
    }
    Ok(())
}

/// What a call is made with.
#[derive(Clone)]
pub struct Input {
    pub record: Vec<u8>,
    pub edition: u32,
    pub sizes: Vec<u8>,
    pub certificate: Vec<u8>,
}

impl Input {
    pub fn opening(&self) -> Opening<'_> {
        Opening {
            record: &self.record,
            edition: self.edition,
            sizes: &self.sizes,
        }
    }
}

/// Makes the call and compares it with the reading; what it said is counted.
pub struct Checker {
    call: UniqueCall,
    accepted: usize,
    refused: [usize; LAST + 1],
}

impl Checker {
    pub fn new() -> Result<Checker, String> {
        Ok(Checker {
            call: UNIQUE_CALL.ok_or(MISSING)?,
            accepted: 0,
            refused: [0; LAST + 1],
        })
    }

    /// Whether the certificate is accepted.
    pub fn accepts(&mut self, random: &mut Random, input: &Input) -> Result<bool, String> {
        let number = unique_call(input.opening(), &input.certificate);
        let room = Room {
            length: 0,
            guard: 0,
            salt: random.below(256),
        };
        let lent: [&[u8]; 3] = [&input.record, &input.sizes, &input.certificate];
        let due = Due { number, front: &[] };
        let done = guarded::compare(lent, room, due, |[record, sizes, certificate], _| {
            let opening = Opening {
                record,
                edition: input.edition,
                sizes,
            };
            (self.call)(opening, certificate)
        });
        done.map_err(|what| format!("{}\nunique {what}", facts(input)))?;
        match number {
            1 => self.accepted += 1,
            _ => self.refused[number.unsigned_abs() as usize] += 1,
        }
        Ok(number == 1)
    }

    /// Whether certificates were accepted, and each refusal was met and no other.
    fn met_all(&self) -> bool {
        let met = |number: usize| self.refused[number] > 0;
        self.accepted > 0 && (0..=LAST).all(|number| met(number) == REFUSALS.contains(&number))
    }

    pub fn line(&self) -> String {
        let counts = self.refused.iter().copied().enumerate();
        let refused: Vec<(usize, usize)> = counts.filter(|&(_, count)| count > 0).collect();
        format!(
            "unique: {} certificates accepted; refused, by number: {refused:?}",
            self.accepted
        )
    }
}

fn facts(input: &Input) -> String {
    format!(
        "record {}, edition {}, sizes {}, certificate {}",
        hexadecimal(&input.record),
        input.edition,
        hexadecimal(&input.sizes),
        hexadecimal(&input.certificate)
    )
}

/// A certificate for a leaf.
pub fn input(exhausted: &Exhausted, certificate: &[u8]) -> Input {
    Input {
        record: encode(&exhausted.leaf.puzzle),
        edition: exhausted.leaf.edition.number().into(),
        sizes: size_bytes(&exhausted.sizes),
        certificate: certificate.to_vec(),
    }
}

/// Leaves by edition, without sizes and with them.
#[derive(Default)]
struct Leaves {
    maker: Option<PackageMaker>,
    /// With no finished board, with one, with more.
    met: [[[usize; 3]; 2]; 2],
    /// Certificates of the search and of the maker, and the words of the longest.
    by_search: usize,
    by_maker: usize,
    longest: usize,
    /// Certificates that claim one of several solutions.
    of_several: usize,
    /// Damaged ones: all, those that are accepted, and those accepted on another leaf.
    damaged: usize,
    still_accepted: usize,
    elsewhere: usize,
}

impl Leaves {
    /// Certificates of a leaf. Those of one with a single finished board are accepted, all others are
    /// not.
    fn drafts(
        &mut self,
        random: &mut Random,
        checker: &mut Checker,
        exhausted: &Exhausted,
    ) -> Result<Vec<Draft>, String> {
        let Exhausted { leaf, boards, .. } = exhausted;
        let edition = usize::from(leaf.edition == Edition::OneOrMore);
        let sized = usize::from(!leaf.sizes.is_empty());
        self.met[edition][sized][boards.len().min(2)] += 1;
        let wrong = |what: &str| Err(format!("{}\n{what}", leaf_facts(leaf, &[])));
        let tree = Tree::of(leaf);
        let mut searched = tree.boards();
        searched.sort();
        let mut sorted = boards.clone();
        sorted.sort();
        if searched != sorted {
            return wrong("the search finds other boards");
        }
        // with no finished board any is claimed
        let any: Vec<u8> = leaf
            .puzzle
            .codes
            .iter()
            .map(|_| random.below(2) as u8)
            .collect();
        let claims = match boards.len() {
            0 => vec![any],
            _ => boards.iter().take(4).cloned().collect(),
        };
        let mut drafts = Vec::new();
        for claim in &claims {
            for shortened in [false, true] {
                drafts.push(tree.draft(leaf, claim, shortened));
            }
        }
        self.by_search += usize::from(boards.len() == 1);
        self.of_several += usize::from(boards.len() > 1);
        drafts.extend(self.made(exhausted)?);
        for draft in &drafts {
            self.longest = self.longest.max(draft.words().len());
            let accepted = checker.accepts(random, &input(exhausted, &draft.bytes()))?;
            if accepted != (boards.len() == 1) {
                return wrong(&format!("of {} solutions {draft:?}", boards.len()));
            }
        }
        Ok(drafts)
    }

    /// The maker's certificate, exactly where there is one finished board; where there are more it
    /// shows two.
    fn made(&mut self, exhausted: &Exhausted) -> Result<Option<Draft>, String> {
        let Some(maker) = self.maker else {
            return Ok(None);
        };
        let asked = input(exhausted, &[]);
        let made = maker(asked.opening())?;
        let boards = &exhausted.boards;
        match (&made, &boards[..]) {
            (Made::Certificate(bytes), [solution]) => {
                let words = words(bytes).map_err(|refusal| format!("{refusal:?}"))?;
                let draft = Draft::read(&words);
                if draft.solution() == *solution {
                    self.by_maker += 1;
                    return Ok(Some(draft));
                }
            }
            (Made::NoBoard, []) => return Ok(None),
            (Made::Two([one, another]), [_, _, ..])
                if one != another && boards.contains(one) && boards.contains(another) =>
            {
                return Ok(None);
            }
            _ => {}
        }
        let facts = leaf_facts(&exhausted.leaf, &[]);
        Err(format!(
            "{facts}\nthe maker says {made:?}, and there are {} solutions",
            boards.len()
        ))
    }

    /// A damaged certificate is accepted only if it still claims the one finished board.
    fn damaged(
        &mut self,
        random: &mut Random,
        checker: &mut Checker,
        exhausted: &Exhausted,
        certificate: &[u8],
    ) -> Outcome {
        self.damaged += 1;
        let input = input(exhausted, certificate);
        if !checker.accepts(random, &input)? {
            return Ok(());
        }
        self.still_accepted += 1;
        only(&input, &exhausted.boards)
    }

    /// The same on a leaf that differs: in the edition, a cell, the sizes, or in bytes. Where it is
    /// accepted that leaf has one finished board.
    fn elsewhere(
        &mut self,
        random: &mut Random,
        checker: &mut Checker,
        exhausted: &Exhausted,
        certificate: Vec<u8>,
    ) -> Outcome {
        self.damaged += 1;
        let mut other = Input {
            certificate,
            ..input(exhausted, &[])
        };
        match random.below(6) {
            0 => other.edition = any_edition(random),
            1 => change(random, &mut other.record),
            2 => change(random, &mut other.sizes),
            3 => other.sizes = any_damage(random, &exhausted.leaf.puzzle, &exhausted.sizes),
            4 => other.sizes.clear(),
            _ => {
                let mut puzzle = exhausted.leaf.puzzle.clone();
                let cell = random.below(puzzle.codes.len());
                puzzle.codes[cell] = random.pick(&[Code::Plain, Code::Black, Code::Given]);
                other.record = encode(&puzzle);
            }
        }
        if !checker.accepts(random, &other)? {
            return Ok(());
        }
        self.elsewhere += 1;
        let leaf: Leaf = other.opening().leaf().expect("it is accepted");
        only(&other, &finished_boards(&leaf))
    }

    fn met_all(&self) -> bool {
        let met = self.met.iter().flatten().flatten().all(|&count| count > 0);
        let made = self.maker.is_none() || self.by_maker > 0;
        met && made && self.of_several > 0 && self.still_accepted > 0 && self.elsewhere > 0
    }

    fn line(&self) -> String {
        let by_maker = match self.maker {
            Some(_) => format!("{} by the maker", self.by_maker),
            None => "none by the maker, whose SAT solver cadical is not at hand".to_string(),
        };
        format!(
            "unique: leaves with no solution, one and several, without sizes and with, in editions 1 \
             and 2: {:?}\n\
             unique: leaves with one solution certified: {} by search, {by_maker}; {} of several \
             solutions refused; the longest {} words\n\
             unique: {} damaged certificates, {} accepted all the same, {} on another leaf",
            self.met,
            self.by_search,
            self.of_several,
            self.longest,
            self.damaged,
            self.still_accepted,
            self.elsewhere
        )
    }
}

/// The claimed solution of an accepted certificate is the one finished board.
fn only(input: &Input, boards: &[Vec<u8>]) -> Outcome {
    let claimed = words(&input.certificate)
        .map(|words| Draft::read(&words).solution())
        .map_err(|refusal| format!("{refusal:?}"))?;
    match boards {
        [board] if *board == claimed => Ok(()),
        _ => Err(format!(
            "{}\nis accepted for {claimed:?}, and the finished boards are {boards:?}",
            facts(input)
        )),
    }
}

/// So many leaves whose certificates `compare fuzz` changes.
const FUZZED: usize = 30;

/// The call among those of `compare fuzz`, with random numbers of its own.
pub struct FuzzedCertificates {
    checker: Checker,
    random: Random,
    pool: Vec<(Input, Draft)>,
}

impl FuzzedCertificates {
    pub fn new(seed: u64) -> Result<FuzzedCertificates, String> {
        let mut random = Random::new(seed);
        let mut pool = Vec::new();
        while pool.len() < FUZZED {
            let exhausted = exhausted(&mut random);
            if let Some(board) = exhausted.boards.first() {
                let draft = Tree::of(&exhausted.leaf).draft(&exhausted.leaf, board, true);
                pool.push((input(&exhausted, &[]), draft));
            }
        }
        Ok(FuzzedCertificates {
            checker: Checker::new()?,
            random,
            pool,
        })
    }

    /// Now and then a damaged certificate, some with a record, an edition or sizes that are changed too.
    pub fn check(&mut self) -> Outcome {
        let random = &mut self.random;
        if !random.percent(20) {
            return Ok(());
        }
        let (leaf, draft) = &self.pool[random.below(self.pool.len())];
        let mut input = leaf.clone();
        input.certificate = random.pick(&Damage::ALL).done_to(random, draft);
        if random.percent(30) {
            change(random, &mut input.certificate);
        }
        match random.below(12) {
            0 => change(random, &mut input.record),
            1 => change(random, &mut input.sizes),
            2 => input.edition = any_edition(random),
            _ => {}
        }
        self.checker.accepts(random, &input).map(|_| ())
    }

    pub fn line(&self) -> String {
        self.checker.line()
    }
}
