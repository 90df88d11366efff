//! What makes the calls of `compare board` beside the library and the reading: the original, in edition 1 and
//! without sizes, and the package's board.

use crate::answers::{by_original, Answer};
use crate::generate::calls::Call;
use crate::generate::sizes::as_written;
use crate::host::MISSING;
use crate::original::{Original, AT_HAND};
use crate::package_board::{KeptBoard, PACKAGE_BOARD};
use crate::progress::Outcome;
use crate::reading::board::Board;
use crate::reading::leaf::Leaf;
use crate::reading::lent::{Fields, LentCall, Said, SIZE};
use crate::reading::record::encode;
use crate::reading::Edition;

/// What makes the same calls beside the library and the reading.
pub struct Beside {
    original: Option<Original>,
    package: Option<Box<dyn KeptBoard>>,
}

impl Beside {
    /// Of a board that is fresh, or was handed in as these bytes.
    pub fn new(
        leaf: &Leaf,
        by_the_package: bool,
        handed_in: Option<&[u8; SIZE]>,
    ) -> Result<Beside, String> {
        let has_original = leaf.edition == Edition::ExactlyOne && leaf.sizes.is_empty();
        let original = match has_original && AT_HAND {
            true => Original::open(&leaf.puzzle),
            false => None,
        };
        let package = PACKAGE_BOARD.ok_or(MISSING)?;
        let package = match (by_the_package, handed_in) {
            (false, _) => None,
            (true, None) => {
                let record = encode(&leaf.puzzle);
                let edition = u32::from(leaf.edition.number());
                let opened = (package.open)(&record, edition, &as_written(&leaf.sizes));
                Some(opened.map_err(|number| format!("the package refuses a leaf: {number}"))?)
            }
            (true, Some(bytes)) => Some((package.of_bytes)(bytes)),
        };
        Ok(Beside { original, package })
    }

    /// What was compared with the original, and with the package: 0 or 1 each.
    pub fn call(
        &mut self,
        before: &Board,
        after: &Board,
        call: LentCall,
        said: &Said,
    ) -> Result<[usize; 2], String> {
        let mut compared = [0; 2];
        if let Some(original) = &mut self.original {
            compared[0] = usize::from(of_original(before, original, call, said)?);
        }
        if let Some(package) = &mut self.package {
            let said = package.call(call, said);
            said.map_err(|what| format!("{call:?}: {what}"))?;
            if package.hints() != Ok(after.hints()) {
                return Err(format!(
                    "{call:?}: the package has hints {:?}",
                    package.hints()
                ));
            }
            compared[1] = 1;
        }
        Ok(compared)
    }

    /// The package's cells, decisions and bytes, and the original's cells.
    pub fn at_the_end(&mut self, board: &Board, bytes: &[u8; SIZE]) -> Outcome {
        if let Some(original) = &self.original {
            if original.access.cells() != board.cells() {
                return Err("the original has other cells".to_string());
            }
        }
        let Some(package) = &self.package else {
            return Ok(());
        };
        let same = package.cells() == Ok(board.cells())
            && package.decisions() == Ok(board.standing().to_vec())
            && Fields::read(&package.bytes()) == Fields::read(bytes);
        match same {
            true => Ok(()),
            false => Err(format!(
                "the package has cells {:?} and decisions {:?}",
                package.cells(),
                package.decisions()
            )),
        }
    }
}

/// Whether the original has such an answer, which is then the same.
fn of_original(
    before: &Board,
    original: &mut Original,
    call: LentCall,
    said: &Said,
) -> Result<bool, String> {
    let call = match call {
        LentCall::Decide { index, value } => Call::Decide { index, value },
        LentCall::Undo => Call::Undo,
        LentCall::Find { player, buffer } => Call::Find { player, buffer },
        _ => return Ok(false),
    };
    let Some(answer) = by_original(before, original, call) else {
        return Ok(false);
    };
    let same = match (&answer, said) {
        (Answer::Done, Said::Done) => true,
        (Answer::Refused(one), Said::Refused(other)) => one == other,
        (Answer::Found(one), Said::Found(other)) => {
            *one == other.as_ref().map(|reason| reason.literals.clone())
        }
        _ => false,
    };
    match same {
        true => Ok(true),
        false => Err(format!("{call:?}: the original says {answer:?}")),
    }
}
