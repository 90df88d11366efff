//! What stands in `unique.list`. Its head says how it was made and what its format is. `compare/` takes this file too.

const LIST: &[u8] = include_bytes!("../unique.list");

/// A leaf with one solution, and a certificate of it.
pub struct Entry {
    pub record: Vec<u8>,
    pub edition: u32,
    pub sizes: Vec<u8>,
    pub certificate: Vec<u8>,
}

/// Leaves of 5 by 5 to 12 by 12, the smaller ones first.
pub fn entries() -> Vec<Entry> {
    let head = LIST.windows(2).position(|two| two == b"\n\n");
    let mut rest = &LIST[head.expect("an empty line ends the head") + 2..];
    let mut entries = Vec::new();
    while !rest.is_empty() {
        entries.push(Entry {
            record: taken_long(&mut rest),
            edition: taken(&mut rest, 1)[0].into(),
            sizes: taken_long(&mut rest),
            certificate: taken_long(&mut rest),
        });
    }
    entries
}

fn taken<'a>(rest: &mut &'a [u8], length: usize) -> &'a [u8] {
    let (front, behind) = rest.split_at(length);
    *rest = behind;
    front
}

/// A length and that many bytes.
fn taken_long(rest: &mut &[u8]) -> Vec<u8> {
    let length = taken(rest, 2);
    let length = u16::from_be_bytes([length[0], length[1]]);
    taken(rest, length.into()).to_vec()
}
