//! The listing that document 01 defines, written plainly from its words over the independent implementation.

use crate::reference;

/// The first line of a listing.
pub const HEADER: &str = "entry record word words sections data\n";

/// What the listing program prints for an input.
pub fn listing(input: &[u8]) -> String {
    if input.len() > 65536 {
        return "input over 65536 bytes\n".to_string();
    }
    match reference::validate(input) {
        Err(refusal) => format!("file refused {}\n", refusal.number),
        Ok(d) => {
            let rows: String = (1..=d.entries() as u64).map(|number| row(input, number)).collect();
            format!("{HEADER}{rows}")
        }
    }
}

/// The line of one entry.
fn row(file: &[u8], number: u64) -> String {
    match reference::open(file, number) {
        Ok(e) => format!("{number} {} {} {} {} {}\n", e.record, e.word, e.nword, e.nsec, e.ldata),
        Err(refusal) => format!("{number} refused {}\n", refusal.number),
    }
}
