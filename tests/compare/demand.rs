//! Demand 3 on a series, from the library's answers and files alone: what is read after the calls that change the file
//! is what was read before them and then what the accepted appends were given, numbered on, a section as it was last
//! updated, and the order check passes. A batch counts as its appends, and a call through a record as the one without
//! it, but that the record is then the one that the file has.

use crate::driver::Given;
use crate::reference::{entries_of, Addition, Batch, OpenFile, Update};
use crate::script::{Asked, Call};

/// What an entry holds: version, application index words, what each identifier gives in the order of the sections, and
/// data.
#[derive(Default, PartialEq)]
struct Content {
    version: i32,
    index: Vec<u8>,
    sections: Vec<(i32, Vec<u8>)>,
    data: Vec<u8>,
}

/// The appends that a call made, accepted and refused: of a batch the first refused is the last; 26 and 27 make none.
pub fn appends(call: &Call, fields: &[u64]) -> [u64; 2] {
    match call {
        Call::Append(_) | Call::AppendTo(_) => [(fields[0] == 0) as u64, (fields[0] != 0) as u64],
        Call::AppendBatch(_) | Call::AppendBatchTo(_) => [fields[1], ![0, 26, 27].contains(&fields[0]) as u64],
        _ => [0, 0],
    }
}

/// The updates that a call made, accepted and refused.
pub fn updates(call: &Call, fields: &[u64]) -> [u64; 2] {
    match call {
        Call::Update(_) | Call::UpdateTo(_) => [(fields[0] == 0) as u64, (fields[0] != 0) as u64],
        _ => [0, 0],
    }
}

/// Gives the fault of a series, if there is one; lent is the file that the series began with. A check ends a reading of
/// all entries.
pub fn fault(lent: &[u8], asked: &[Asked], given: &[Given]) -> Option<String> {
    let mut file = lent;
    let (mut wanted, mut read) = (vec![], vec![]);
    let (mut changed, mut record) = (false, None);
    for (asked, given) in asked.iter().zip(given) {
        let fields = &given.fields;
        changed |= asked.call.changes_file() && !matches!(asked.call, Call::Create(_));
        let result = match &asked.call {
            Call::Append(a) | Call::AppendTo(a) => accepted(&mut wanted, a, fields),
            Call::AppendBatch(b) | Call::AppendBatchTo(b) => accepted_of(&mut wanted, b, fields),
            Call::Update(u) | Call::UpdateTo(u) => updated(&mut wanted, u, fields),
            Call::Check => checked(&wanted, std::mem::take(&mut read), fields),
            Call::OpenFileOf => opened(record, fields),
            call => reading(if changed { &mut read } else { &mut wanted }, call, fields, file),
        };
        if let Err(fault) = result {
            return Some(format!("{}: {fault}", asked.call.described()));
        }
        file = given.after.as_deref().unwrap_or(file);
        if given.after.is_some() {
            record = given.held.filter(|_| ![26, 27].contains(&fields[0]));
        }
    }
    None
}

/// Adds what an append was given to the contents, if the append was accepted.
fn accepted(contents: &mut Vec<Content>, a: &Addition, fields: &[u64]) -> Result<(), String> {
    if fields[0] != 0 {
        return Ok(());
    }
    contents.push(content(a).ok_or("accepted with lengths that are not those of its sections")?);
    if fields[1] != contents.len() as u64 {
        return Err("accepted with another number than the next".into());
    }
    Ok(())
}

/// Adds what the accepted entries of a batch were given to the contents.
fn accepted_of(contents: &mut Vec<Content>, b: &Batch, fields: &[u64]) -> Result<(), String> {
    let (refusal, count) = (fields[0], fields[1] as usize);
    let entries = entries_of(b).unwrap_or_default();
    if count > entries.len() {
        return Err("more accepted than its counts cut off".into());
    }
    if refusal == 0 && count < entries.len() {
        return Err("not all accepted, without a refusal".into());
    }
    for a in &entries[..count] {
        contents.push(content(a).ok_or("accepted with lengths that are not those of its sections")?);
    }
    Ok(())
}

/// Puts what an accepted update was given in place of what its identifier gave, with zeros up to the same size.
fn updated(contents: &mut [Content], u: &Update, fields: &[u64]) -> Result<(), String> {
    if fields[0] != 0 {
        return Ok(());
    }
    let place = (u.entry as usize).wrapping_sub(1);
    let entry = contents.get_mut(place).ok_or("accepted for an entry that is not there")?;
    let held = entry.sections.iter_mut().filter(|(id, _)| *id == u.identifier);
    let held: Vec<&mut Vec<u8>> = held.map(|(_, bytes)| bytes).collect();
    if held.is_empty() {
        return Err("accepted for a section that is not there".into());
    }
    for bytes in held {
        let size = bytes.len();
        if u.bytes() == 0 || u.bytes() % 4 != 0 || u.bytes() > size as u64 {
            return Err("accepted with a content that is empty, not whole words, or larger than the space".into());
        }
        bytes.clone_from(&u.content);
        bytes.resize(size, 0);
    }
    Ok(())
}

/// Compares the record of the file with the one that a call through it left, if the last change was such a call.
fn opened(left: Option<OpenFile>, fields: &[u64]) -> Result<(), String> {
    match left {
        Some(left) if fields[0] != 0 || fields[1..] != left => Err("not the record that the last change left".into()),
        _ => Ok(()),
    }
}

/// Compares what was read with what is wanted, and demands that the order check passes.
fn checked(wanted: &[Content], read: Vec<Content>, fields: &[u64]) -> Result<(), String> {
    if fields != [0, 0] {
        return Err("the order check does not pass".into());
    }
    match (0..wanted.len().max(read.len())).find(|&i| wanted.get(i) != read.get(i)) {
        Some(i) => Err(format!("entry {} is not read back as it was given", i + 1)),
        None => Ok(()),
    }
}

/// The content that an append was given, where its lengths cut its section bytes into sections.
fn content(a: &Addition) -> Option<Content> {
    let (mut sections, mut rest) = (vec![], &a.sections[..]);
    for (&id, &length) in a.ids.iter().zip(&a.lengths) {
        let count = usize::try_from(length).ok()?.checked_mul(4)?;
        sections.push((id, rest.get(..count)?.to_vec()));
        rest = &rest[count..];
    }
    Some(Content { version: a.version, index: a.index.clone(), sections, data: a.data.clone() })
}

/// Adds what a reading call gave to the contents: an open begins an entry.
fn reading(contents: &mut Vec<Content>, call: &Call, fields: &[u64], file: &[u8]) -> Result<(), String> {
    if fields[0] != 0 {
        return Err("refused".into());
    }
    if let Call::Open(_) = call {
        contents.push(Content { version: fields[3] as i32, ..Content::default() });
    }
    let part = || {
        let (start, length) = (fields[1] as usize, fields[2] as usize);
        file.get(start..start.wrapping_add(length)).map(<[u8]>::to_vec).ok_or("a part that is not in the file")
    };
    match (call, contents.last_mut()) {
        (Call::IndexWords(_), Some(entry)) => entry.index = part()?,
        (Call::Section(_, id), Some(entry)) => entry.sections.push((*id, part()?)),
        (Call::Data(_), Some(entry)) => entry.data = part()?,
        _ => {}
    }
    Ok(())
}
