//! `compare lists`: fixed lists of answers that the port's test programs replay.
//!
//! A list is a head of text lines, each starting with `# `, an empty line, and data: numbers most
//! significant byte first.

mod calls;
mod certificates;
pub mod finds;
pub mod groups;
mod hosts;
pub mod inputs;
pub mod kept;
mod numbers;
mod records;
mod strip;

use crate::generate::boards::Decided;
use crate::original::COMMIT;
use crate::progress::Outcome;
use crate::reading::host::literal_bytes;
use crate::reading::record::encode;
use crate::reading::Literal;
use std::fs;
use std::path::Path;

pub fn run(seed: u64, folder: &str) -> Outcome {
    fs::create_dir_all(folder).map_err(|error| format!("{folder}: {error}"))?;
    let lists = [
        records::records(seed),
        groups::groups(seed)?,
        finds::finds(seed)?,
        calls::call_lists(seed)?,
        hosts::hosts(seed)?,
        inputs::inputs(seed)?,
        certificates::certificates(seed)?,
    ];
    for list in lists {
        list.write(folder)?;
    }
    Ok(())
}

pub struct List {
    name: &'static str,
    /// The file stays below this many bytes.
    limit: usize,
    head: String,
    data: Vec<u8>,
    entries: usize,
}

impl List {
    fn new(name: &'static str, limit: usize, seed: u64, what: &str) -> List {
        let mut list = List {
            name,
            limit,
            head: String::new(),
            data: Vec::new(),
            entries: 0,
        };
        list.line(what);
        list.line(&format!("Made by `compare lists` with seed {seed}."));
        list
    }

    /// A list whose answers are the original's.
    fn of_the_original(name: &'static str, limit: usize, seed: u64, what: &str) -> List {
        let mut list = List::new(name, limit, seed, what);
        list.line(&format!(
            "The answers are the original's, semiexp/cspuz_core commit {COMMIT}."
        ));
        list
    }

    /// A list without a line on how it was made.
    pub fn passing(what: &str) -> List {
        List {
            name: "",
            limit: usize::MAX,
            head: format!("# {what}\n"),
            data: Vec::new(),
            entries: 0,
        }
    }

    /// A line of the head.
    pub fn line(&mut self, text: &str) {
        self.head += &format!("# {text}\n");
    }

    /// Lines of the head.
    pub fn lines(&mut self, texts: &[&str]) {
        for text in texts {
            self.line(text);
        }
    }

    pub fn u8(&mut self, number: u8) {
        self.data.push(number);
    }

    fn u16(&mut self, number: usize) {
        let number = u16::try_from(number).expect("16 bits are enough");
        self.data.extend(number.to_be_bytes());
    }

    fn numbers(&mut self, numbers: &[usize]) {
        for &number in numbers {
            self.u16(number);
        }
    }

    fn bytes(&mut self, bytes: &[u8]) {
        self.data.extend(bytes);
    }

    /// A length and that many bytes.
    pub fn long_bytes(&mut self, bytes: &[u8]) {
        self.u16(bytes.len());
        self.bytes(bytes);
    }

    /// A record, and the decisions made on its board.
    fn board(&mut self, board: &Decided) {
        self.entries += 1;
        self.long_bytes(&encode(&board.puzzle));
        self.literals(&board.decisions);
    }

    /// A count and that many literals.
    fn literals(&mut self, literals: &[Literal]) {
        self.u16(literals.len());
        self.bytes(&literal_bytes(literals));
    }

    /// The head, an empty line and the data.
    pub fn file(&self) -> Vec<u8> {
        let mut file = self.head.clone().into_bytes();
        file.push(b'\n');
        file.extend(&self.data);
        file
    }

    fn write(&self, folder: &str) -> Outcome {
        let file = self.file();
        println!(
            "lists: {} has {} entries in {} bytes",
            self.name,
            self.entries,
            file.len()
        );
        if file.len() >= self.limit {
            return Err(format!("{} reaches {} bytes", self.name, self.limit));
        }
        let path = Path::new(folder).join(self.name);
        fs::write(&path, file).map_err(|error| format!("{}: {error}", path.display()))
    }
}
