//! The record of the open file of Q-5 in document 02, and the calls of the independent implementation through one that
//! is lent.

use super::{append, append_batch, entries_of, refuse, update, validate};
use super::{Addition, Batch, Refusal, Update};

/// The fields of a record: those that validating gives, and the running totals of the capacities.
pub const FIELDS: [&str; 44] = [
    "order", "reclen", "kind", "vind", "lind", "flags", "xnext", "nextrec", "nextword", "lex1", "nex", "gex", "aex 1",
    "aex 2", "aex 3", "aex 4", "aex 5", "aex 6", "aex 7", "aex 8", "aex 9", "aex 10", "aex 11", "aex 12", "aex 13",
    "aex 14", "aex 15", "aex 16", "total 1", "total 2", "total 3", "total 4", "total 5", "total 6", "total 7",
    "total 8", "total 9", "total 10", "total 11", "total 12", "total 13", "total 14", "total 15", "total 16",
];

/// The refusals of a file that has no record.
pub const REFUSED: [&str; 12] = [
    "file: 1", "file: 2", "file: 3", "file: 4", "file: 5", "file: 6", "file: 7", "file: 8", "file: 9", "file: 10",
    "file: 11", "file: 29",
];

/// A record of an open file, true or not: a number for each field.
pub type OpenFile = [u64; FIELDS.len()];

/// The record that a file has: what validating gives, and for each extension in use how many entries the extensions up
/// to it hold together; zero past these.
pub fn open_file_of(file: &[u8]) -> Result<OpenFile, Refusal> {
    let d = validate(file)?;
    let mut fields = d.fields();
    fields.extend((1..=d.nex).map(|k| d.together(k)));
    fields.resize(FIELDS.len(), 0);
    Ok(std::array::from_fn(|i| fields[i] as u64))
}

/// Refusal 27: the file is refused, or the record that is lent differs in a field from the one that the file has.
fn test_record(held: &OpenFile, file: &[u8]) -> Result<(), Refusal> {
    match open_file_of(file) {
        Ok(own) => match (0..FIELDS.len()).find(|&i| held[i] != own[i]) {
            Some(i) => refuse(27, FIELDS[i]),
            None => Ok(()),
        },
        Err(refusal) => refuse(27, REFUSED[(refusal.number as usize).min(12) - 1]),
    }
}

/// Makes a record the one that a file has now.
fn renew(held: &mut OpenFile, file: &[u8]) {
    match open_file_of(file) {
        Ok(own) => *held = own,
        Err(refusal) => panic!("a file that was admitted gives {} after a call", refusal.number),
    }
}

/// Appends an entry through a record: refusal 27, then as without it.
pub fn append_to(held: &mut OpenFile, file: &mut [u8], a: &Addition) -> Result<u64, Refusal> {
    test_record(held, file)?;
    let answer = append(file, a);
    renew(held, file);
    answer
}

/// Appends a batch through a record: refusals 26 and 27, also of no entries, then as without it.
pub fn append_batch_to(held: &mut OpenFile, file: &mut [u8], b: &Batch) -> Result<u64, (u64, Refusal)> {
    entries_of(b).map_err(|refusal| (0, refusal))?;
    test_record(held, file).map_err(|refusal| (0, refusal))?;
    let answer = append_batch(file, b);
    renew(held, file);
    answer
}

/// Updates a section through a record: refusal 27, then as without it.
pub fn update_to(held: &mut OpenFile, file: &mut [u8], u: &Update) -> Result<(), Refusal> {
    test_record(held, file)?;
    let answer = update(file, u);
    renew(held, file);
    answer
}
