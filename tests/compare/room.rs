//! Room for an entry: every place where it could stand, by a search over all positions and records of the file,
//! and what the library's answer must be then. The search is written from 02 and knows no place that an append takes.

use crate::driver::Given;
use crate::reference::{self, entries_of, mex, Addition, Descriptor};
use crate::script::Call;

/// A place for an entry: the position of its first word and, where a new index area is needed, that of the area's.
#[derive(PartialEq)]
struct Place {
    start: i128,
    area: Option<i128>,
}

/// How many entries were searched for: those with a place, and those without by 23 and by 24.
pub type Searched = [usize; 3];

/// The words of the entry that is made of an addition.
fn words_of(a: &Addition) -> i128 {
    11 + 5 * a.ids.len() as i128 + (a.sections.len() + a.data.len()) as i128 / 4
}

/// Says whether the extensions in use are full.
fn is_full(d: &Descriptor) -> bool {
    d.entries() == d.together(d.nex)
}

/// Says whether another extension may be made.
fn may_extend(d: &Descriptor) -> bool {
    d.nex < mex(d.reclen) && d.capacity(d.nex + 1) <= 16384
}

/// Every admissible place for an entry of so many words: each position is tried, and before it each record.
fn places(file: &[u8], d: &Descriptor, nword: i128) -> Vec<Place> {
    let (free, end) = (d.free(), file.len() as i128 / 4);
    let are_free = |first: i128, count: i128| (first..first + count).all(|word| (free..end).contains(&word));
    let starts: Vec<i128> = (0..end).filter(|&start| are_free(start, nword)).collect();
    if !is_full(d) {
        return starts.into_iter().map(|start| Place { start, area: None }).collect();
    }
    if !may_extend(d) {
        return vec![];
    }
    let area_words = d.records(d.capacity(d.nex + 1)) * d.reclen;
    let areas = (0..end / d.reclen).map(|records| records * d.reclen).filter(|&area| are_free(area, area_words));
    let before = |area: i128| starts.iter().filter(move |&&start| area + area_words <= start);
    areas.flat_map(|area| before(area).map(move |&start| Place { start, area: Some(area) })).collect()
}

/// The positions from which an entry of so many words can stand in a file that is admitted.
pub fn starts(file: &[u8], nword: i128) -> Vec<i128> {
    let places = reference::validate(file).map_or(vec![], |d| places(file, &d, nword));
    places.iter().map(|place| place.start).collect()
}

/// Gives the fault of an accepted entry, if there is one: it was appended to one file and stands in another.
fn accepted_fault(file: &[u8], after: &[u8], a: &Addition) -> Option<&'static str> {
    let (Ok(d), Ok(then)) = (reference::validate(file), reference::validate(after)) else {
        return Some("accepted in a file that is refused");
    };
    let Ok(entry) = reference::open(after, d.xnext as u64) else {
        return Some("accepted, and its entry does not open");
    };
    let area = is_full(&d).then(|| then.aex.get(d.nex as usize).map_or(-1, |record| (record - 1) * d.reclen));
    let place = Place { start: (entry.record - 1) * d.reclen + entry.word - 1, area };
    let places = places(file, &d, words_of(a));
    if !places.contains(&place) {
        return Some("stored at a place that is not admissible");
    }
    let end = place.start + entry.nword;
    places.iter().any(|other| other.start + words_of(a) < end).then_some("an admissible place ends earlier")
}

/// Gives the fault of an entry that a file has no room for by an answer of 23 or 24, if there is one.
fn refused_fault(file: &[u8], a: &Addition, refusal: u64) -> Option<&'static str> {
    let Ok(d) = reference::validate(file) else {
        return Some("no room in a file that is refused");
    };
    if !places(file, &d, words_of(a)).is_empty() {
        return Some("no room, and there is an admissible place");
    }
    let unextendable = is_full(&d) && !may_extend(&d);
    (unextendable != (refusal == 23)).then_some("no room by the other of 23 and 24")
}

/// Gives the fault in what the library answers to an append or a batch of a file, if there is one, and counts the
/// entries that were searched for. The entries of a batch come in turn, by the independent append.
pub fn fault(before: &[u8], call: &Call, given: &Given, searched: &mut Searched) -> Option<&'static str> {
    let (refusal, after) = (given.fields[0], given.after.as_deref()?);
    let (entries, accepted) = match call {
        Call::Append(a) | Call::AppendTo(a) => (vec![a.clone()], (refusal == 0) as usize),
        Call::AppendBatch(b) | Call::AppendBatchTo(b) => (entries_of(b).unwrap_or_default(), given.fields[1] as usize),
        _ => return None,
    };
    let mut file = before.to_vec();
    for a in entries.iter().take(accepted) {
        searched[0] += 1;
        let fault = accepted_fault(&file, after, a);
        if fault.is_some() || reference::append(&mut file, a).is_err() {
            return fault.or(Some("accepted, and the independent append refuses it"));
        }
    }
    let number @ (23 | 24) = refusal else {
        return None;
    };
    searched[number as usize - 22] += 1;
    entries.get(accepted).map_or(Some("no room for an entry that is not there"), |a| refused_fault(after, a, number))
}
