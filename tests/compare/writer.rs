//! The calls of the independent implementation that write: creation, append, batch and update.

use super::{mex, put, refuse, section, test_enough_lent, test_settings, validate, whole};
use super::{Descriptor, Order, Refusal, Settings, ENTRY_CODE};

/// What an append takes.
#[derive(Clone, Debug, Default)]
pub struct Addition {
    pub version: i32,
    pub index: Vec<u8>,
    pub ids: Vec<i32>,
    pub lengths: Vec<i64>,
    pub sections: Vec<u8>,
    pub data: Vec<u8>,
}

/// What a batch takes: a version and a row of counts for each entry, and all that the entries are given, each kind laid
/// end to end. A row counts index bytes, identifiers, lengths, section bytes and data bytes.
#[derive(Clone, Debug, Default)]
pub struct Batch {
    pub versions: Vec<i32>,
    pub counts: Vec<[u64; 5]>,
    pub index: Vec<u8>,
    pub ids: Vec<i32>,
    pub lengths: Vec<i64>,
    pub sections: Vec<u8>,
    pub data: Vec<u8>,
}

/// What an update takes: an entry, the identifier of a section in it, and the section's new content. A content may have
/// bytes beyond those that are given here, which no call may touch: with them it is larger than any section.
#[derive(Clone, Debug, Default)]
pub struct Update {
    pub entry: u64,
    pub identifier: i32,
    pub content: Vec<u8>,
    pub beyond: u64,
}

/// The ways in which a column of a batch's counts does not use up its lent array: something is left, or lacking.
const NOT_USED_UP: [[&str; 2]; 5] = [
    ["index bytes left", "index bytes lacking"],
    ["identifiers left", "identifiers lacking"],
    ["lengths left", "lengths lacking"],
    ["section bytes left", "section bytes lacking"],
    ["data bytes left", "data bytes lacking"],
];

/// Creates a file: refusals 1 to 8 on the settings, then the first record.
pub fn create(file: &mut [u8], s: &Settings) -> Result<(), Refusal> {
    test_enough_lent(file.len())?;
    let Some(order) = Order::of_setting(s.order) else {
        return refuse(2, "order");
    };
    test_settings(file.len(), s, 0)?;
    file[..4 * s.reclen as usize].fill(0);
    put(file, 0, &order.code());
    let fields =
        [(2, s.reclen), (3, s.kind), (4, s.vind), (5, s.lind), (6, s.flags), (11, 1), (12, s.lex1), (14, s.gex)];
    for (word, value) in fields {
        order.put4(file, word - 1, value as i128);
    }
    order.put8(file, 7 - 1, 1);
    order.put8(file, 9 - 1, 2);
    Ok(())
}

/// Refusals 21 and 22: what is handed to an append.
fn test_addition(d: &Descriptor, a: &Addition) -> Result<(), Refusal> {
    if a.index.len() as i128 != 4 * (d.lind - 3) {
        return refuse(21, "index words");
    }
    if a.ids.len() > 64 {
        return refuse(22, "over 64 identifiers");
    }
    if a.lengths.len() != a.ids.len() {
        return refuse(22, "lengths not as many");
    }
    if (1..a.ids.len()).any(|i| a.ids[..i].contains(&a.ids[i])) {
        return refuse(22, "a repeated identifier");
    }
    if a.lengths.iter().any(|&length| length < 1) {
        return refuse(22, "a length below 1");
    }
    if a.sections.len() as i128 != 4 * sum(&a.lengths) {
        return refuse(22, "section bytes");
    }
    if a.data.len() % 4 != 0 {
        return refuse(22, "data not whole words");
    }
    Ok(())
}

/// The exact sum of lengths.
fn sum(lengths: &[i64]) -> i128 {
    lengths.iter().map(|&length| length as i128).sum()
}

/// Appends an entry: refusals 1 to 11, 29 and 21 to 24, then the writes; answers the new number.
pub fn append(file: &mut [u8], a: &Addition) -> Result<u64, Refusal> {
    let mut d = validate(file)?;
    test_addition(&d, a)?;
    let number = d.entries() + 1;
    let free = d.free();
    let grows = number > d.together(d.nex);
    let mut start = free;
    if grows {
        if d.nex == mex(d.reclen) {
            return refuse(23, "nex is mex");
        }
        let capacity = d.capacity(d.nex + 1);
        if capacity > 16384 {
            return refuse(23, "the new capacity over 16,384");
        }
        let before = whole(free, d.reclen);
        d.nex += 1;
        d.aex.push(before + 1);
        start = (before + d.records(capacity)) * d.reclen;
    }
    let words = entry_words(d.order, number, a);
    let end = start + words.len() as i128 / 4;
    if end > file.len() as i128 / 4 {
        return refuse(24, if grows { "with a new area" } else { "without a new area" });
    }
    file[4 * free as usize..4 * start as usize].fill(0);
    put(file, start, &words);
    let slot = d.slot(number);
    d.order.put8(file, slot, start / d.reclen + 1);
    d.order.put4(file, slot + 2, start % d.reclen + 1);
    put(file, slot + 3, &a.index);
    d.order.put8(file, 7 - 1, number + 1);
    d.order.put8(file, 9 - 1, end / d.reclen + 1);
    d.order.put4(file, 11 - 1, end % d.reclen + 1);
    if grows {
        d.order.put4(file, 13 - 1, d.nex);
        d.order.put8(file, 15 + 2 * (d.nex - 1) - 1, d.aex[(d.nex - 1) as usize]);
    }
    Ok(number as u64)
}

/// The bytes of an appended entry: descriptor without spare room, sections in order, data.
fn entry_words(order: Order, number: i128, a: &Addition) -> Vec<u8> {
    let content = 12 + 5 * a.ids.len() as i128;
    let adata = if a.data.is_empty() { 0 } else { content + sum(&a.lengths) };
    let ldata = a.data.len() as i128 / 4;
    let nword = content - 1 + sum(&a.lengths) + ldata;
    let mut words = ENTRY_CODE.to_vec();
    words.extend(order.bytes4(a.version));
    words.extend(order.bytes4(a.ids.len() as i32));
    for value in [nword, adata, ldata, number] {
        words.extend(order.bytes8(value as i64));
    }
    for &id in &a.ids {
        words.extend(order.bytes4(id));
    }
    for &length in &a.lengths {
        words.extend(order.bytes8(length));
    }
    for i in 0..a.ids.len() {
        words.extend(order.bytes8((content + sum(&a.lengths[..i])) as i64));
    }
    words.extend(&a.sections);
    words.extend(&a.data);
    words
}

impl Batch {
    /// The counts of elements of the lent arrays, in the order of a row.
    pub fn lent(&self) -> [usize; 5] {
        [self.index.len(), self.ids.len(), self.lengths.len(), self.sections.len(), self.data.len()]
    }
}

/// Refusal 26: what is handed to a batch.
fn test_batch(b: &Batch) -> Result<(), Refusal> {
    if b.versions.len() > 64 {
        return refuse(26, "over 64 entries");
    }
    if b.counts.len() != b.versions.len() {
        return refuse(26, "counts and versions not as many");
    }
    for (column, lent) in b.lent().into_iter().enumerate() {
        let counted: i128 = b.counts.iter().map(|row| row[column] as i128).sum();
        let [left, lacking] = NOT_USED_UP[column];
        if counted < lent as i128 {
            return refuse(26, left);
        }
        if counted > lent as i128 {
            return refuse(26, lacking);
        }
    }
    Ok(())
}

/// Takes so many elements off what is left of an array.
fn take<T: Clone>(left: &mut &[T], count: u64) -> Vec<T> {
    let (taken, rest) = left.split_at(count as usize);
    *left = rest;
    taken.to_vec()
}

/// What each entry of a batch is given, its counts off what the entries before it left of each array; or refusal 26.
pub fn entries_of(b: &Batch) -> Result<Vec<Addition>, Refusal> {
    test_batch(b)?;
    let (mut index, mut ids, mut lengths) = (&b.index[..], &b.ids[..], &b.lengths[..]);
    let (mut sections, mut data) = (&b.sections[..], &b.data[..]);
    let entries = b.versions.iter().zip(&b.counts).map(|(&version, row)| Addition {
        version,
        index: take(&mut index, row[0]),
        ids: take(&mut ids, row[1]),
        lengths: take(&mut lengths, row[2]),
        sections: take(&mut sections, row[3]),
        data: take(&mut data, row[4]),
    });
    Ok(entries.collect())
}

/// Appends a batch: refusal 26, then entry after entry up to the first refusal. Answers how many were accepted, and a
/// refusal comes with that number too.
pub fn append_batch(file: &mut [u8], b: &Batch) -> Result<u64, (u64, Refusal)> {
    let mut accepted = 0;
    for a in entries_of(b).map_err(|refusal| (0, refusal))? {
        append(file, &a).map_err(|refusal| (accepted, refusal))?;
        accepted += 1;
    }
    Ok(accepted)
}

impl Update {
    /// The count of bytes of the new content.
    pub fn bytes(&self) -> u64 {
        self.content.len() as u64 + self.beyond
    }
}

/// Refusal 28: the new content of a section that has so many bytes of space.
fn test_content(u: &Update, space: i128) -> Result<(), Refusal> {
    let bytes = u.bytes() as i128;
    if bytes == 0 {
        return refuse(28, "empty");
    }
    if bytes % 4 != 0 {
        return refuse(28, "not whole words");
    }
    if bytes > space {
        return refuse(28, "larger than the space");
    }
    Ok(())
}

/// Updates the first section of an entry with an identifier: the refusals of opening, 20 and 28, then the new words,
/// and zeros in the rest of the section's space.
pub fn update(file: &mut [u8], u: &Update) -> Result<(), Refusal> {
    let space = section(file, u.entry, u.identifier)?;
    test_content(u, space.length)?;
    let at = space.start as usize;
    let (new, rest) = file[at..at + space.length as usize].split_at_mut(u.content.len());
    new.copy_from_slice(&u.content);
    rest.fill(0);
    Ok(())
}
