//! The check of a rule table in plain Rust, for comparison: as one would write it without proofs,
//! with bounds checks, and with no `unsafe` but for the slice that C hands over.

struct Refusal {
    number: u32,
    place: usize,
}

struct Reader<'a> {
    bytes: &'a [u8],
    offset: usize,
}

impl Reader<'_> {
    fn word(&mut self) -> Result<u32, Refusal> {
        match self.bytes.get(self.offset..self.offset + 4) {
            Some(field) => {
                self.offset += 4;
                Ok(u32::from_be_bytes([field[0], field[1], field[2], field[3]]))
            }
            None => Err(Refusal { number: 1, place: self.offset }),
        }
    }

    /// A word that must be in the range.
    fn word_in(&mut self, least: u32, most: u32) -> Result<u32, Refusal> {
        let place = self.offset;
        let word = self.word()?;
        if word < least || word > most {
            return Err(Refusal { number: 2, place });
        }
        Ok(word)
    }
}

/// Whether each node read so far is a truth node.
struct Nodes {
    truth: [bool; 48],
    count: usize,
}

impl Nodes {
    fn is_truth(&self, node: u32) -> bool {
        (node as usize) < self.count && self.truth[node as usize]
    }

    fn is_reading(&self, node: u32) -> bool {
        (node as usize) < self.count && !self.truth[node as usize]
    }

    fn fits(&self, switches: u32, kind: u32, a: u32, b: u32) -> bool {
        match kind {
            0 => a <= 1 && b == 0,
            1 | 6 | 7 | 8 => self.is_truth(a) && b == 0,
            2..=5 | 9 => self.is_truth(a) && self.is_truth(b),
            10 => a < switches && self.is_truth(b),
            11 | 12 | 22 | 23 => self.is_reading(a) && self.is_reading(b),
            20 => b == 0,
            21 => a < 8 && b == 0,
            24 => a < switches && self.is_reading(b),
            _ => false,
        }
    }
}

fn check(bytes: &[u8]) -> Result<(), Refusal> {
    let mut reader = Reader { bytes, offset: 0 };
    reader.word_in(1, 2)?;
    let switches = reader.word_in(1, 16)?;
    let node_count = reader.word_in(1, 48)?;
    let mut nodes = Nodes { truth: [false; 48], count: 0 };
    for _ in 0..node_count {
        let (kind, a, b) = (reader.word()?, reader.word()?, reader.word()?);
        if !nodes.fits(switches, kind, a, b) {
            return Err(Refusal { number: 3, place: nodes.count });
        }
        nodes.truth[nodes.count] = kind <= 12;
        nodes.count += 1;
    }
    let rules = reader.word_in(0, 16)?;
    for rule in 0..rules {
        let (at, node) = (reader.word()?, reader.word()?);
        if at >= switches || !nodes.is_truth(node) {
            return Err(Refusal { number: 4, place: rule as usize });
        }
    }
    let starts = reader.word_in(8 * switches, 8 * switches)?;
    for _ in 0..starts {
        reader.word()?;
    }
    if reader.offset < bytes.len() {
        return Err(Refusal { number: 1, place: reader.offset });
    }
    Ok(())
}

/// # Safety
///
/// `bytes` points to `length` bytes that can be read.
#[unsafe(no_mangle)]
pub unsafe extern "C" fn plain_table_check(bytes: *const u8, length: usize) -> u32 {
    match check(unsafe { std::slice::from_raw_parts(bytes, length) }) {
        Ok(()) => 0,
        Err(refusal) => refusal.place as u32 * 256 + refusal.number,
    }
}
