//! The table call × refusal: which cells documents 01 and 02 admit, which were seen in each order, and by which part of
//! a refusal's sentence.

use crate::reference::{Order, FIELDS, REFUSED};
use crate::script::{Asked, CALLS};
use std::collections::BTreeMap;

/// The refusals that each call admits, in the order of CALLS: first to last, both included; 0 is acceptance.
const ADMITTED: [&[(u32, u32)]; 15] = [
    &[(0, 8)],
    &[(0, 11), (29, 29)],
    &[(0, 12), (29, 29)],
    &[(0, 19), (29, 29)],
    &[(0, 19), (29, 29)],
    &[(0, 20), (29, 29)],
    &[(0, 19), (29, 29)],
    &[(0, 11), (13, 19), (25, 25), (29, 29)],
    &[(0, 11), (21, 24), (29, 29)],
    &[(0, 11), (21, 24), (26, 26), (29, 29)],
    &[(0, 20), (28, 29)],
    &[(0, 11), (29, 29)],
    &[(0, 0), (21, 24), (27, 27)],
    &[(0, 0), (21, 24), (26, 27)],
    &[(0, 0), (12, 20), (27, 28)],
];

/// The calls that append a batch, those that update, and those that take a record, by their places in CALLS.
const BATCHES: [usize; 2] = [9, 13];
const UPDATES: [usize; 2] = [10, 14];
const THROUGH: [usize; 3] = [12, 13, 14];

/// The parts of the refusals' sentences in 01 and 02: each must have been the reason of a refusal at least once in each
/// order.
const WAYS: [(u32, &[&str]); 30] = [
    (1, &["fewer than 64 bytes"]),
    (2, &["code", "order"]),
    (3, &["reclen"]),
    (4, &["over 2^30 bytes", "not whole records"]),
    (5, &["kind"]),
    (6, &["vind", "lind"]),
    (7, &["flags"]),
    (8, &["lex1", "gex", "nex", "a capacity over 16,384"]),
    (9, &["xnext below 1", "one of n and nex is 0", "n above the capacities", "n needs fewer extensions"]),
    (10, &["nextrec", "nextword", "free past the lent words"]),
    (
        11,
        &[
            "an area before record 2",
            "an area before the end of the one before",
            "the last area past the next free position",
        ],
    ),
    (12, &["number 0", "above the last"]),
    (13, &["record", "word", "start + 11 past the next free position"]),
    (14, &["entry code"]),
    (15, &["nsec", "nword below the descriptor", "the entry past the next free position"]),
    (16, &["xnum"]),
    (17, &["ldata below 0", "data before the content", "data past the entry"]),
    (18, &["length below 1", "section before the content", "section past the entry"]),
    (19, &["two sections", "a section and the data"]),
    (20, &["no such identifier"]),
    (21, &["index words"]),
    (
        22,
        &[
            "over 64 identifiers",
            "lengths not as many",
            "a repeated identifier",
            "a length below 1",
            "section bytes",
            "data not whole words",
        ],
    ),
    (23, &["nex is mex", "the new capacity over 16,384"]),
    (24, &["with a new area", "without a new area"]),
    (
        25,
        &[
            "the first before its area's end",
            "before the end of the entry before",
            "the last past the next area's start",
        ],
    ),
    (
        26,
        &[
            "over 64 entries",
            "counts and versions not as many",
            "index bytes left",
            "index bytes lacking",
            "identifiers left",
            "identifiers lacking",
            "lengths left",
            "lengths lacking",
            "section bytes left",
            "section bytes lacking",
            "data bytes left",
            "data bytes lacking",
        ],
    ),
    (27, &REFUSED),
    (27, &FIELDS),
    (28, &["empty", "not whole words", "larger than the space"]),
    (29, &["in a place of an address", "past the places of addresses"]),
];

/// The places in a batch at which an entry may be refused: each way of 21 to 24 must have ended a batch at each of them
/// in each order, through a record and without it.
const PLACES: [&str; 3] = ["first", "between", "last"];

/// The kinds of contents that an update may be given: each refusal that is tested before the content must have met each
/// of them in each order, through a record and without it.
const CONTENTS: [&str; 4] = ["empty", "not whole words", "more than any section has", "other words"];

/// How often something was seen in each order, by the order's number.
type Seen = [usize; 2];

/// How often each cell, each way of a call's refusal, each way at a place in a batch, and each refusal of an update by
/// a kind of content was seen; a call is known by its place in CALLS.
#[derive(Default)]
pub struct Table {
    cells: BTreeMap<(usize, u32), Seen>,
    ways: BTreeMap<(usize, u32, &'static str), Seen>,
    places: BTreeMap<(usize, u32, &'static str, usize), Seen>,
    contents: BTreeMap<(usize, u32, usize), Seen>,
}

/// Things that must have been seen in each order, under a title.
struct Row {
    title: String,
    things: Vec<(&'static str, Seen)>,
}

/// 0 and the refusals, in the order of their numbers.
fn refusals() -> impl Iterator<Item = u32> {
    0..=29
}

/// Every way of some refusals, with the number of its refusal.
fn ways_of(first: u32, last: u32) -> impl Iterator<Item = (u32, &'static str)> {
    let rows = WAYS.into_iter().filter(move |&(refusal, _)| (first..=last).contains(&refusal));
    rows.flat_map(|(refusal, ways)| ways.iter().map(move |&way| (refusal, way)))
}

/// The refusals of an update that are tested before its content.
fn before_content(update: usize) -> impl Iterator<Item = u32> {
    refusals().filter(move |&refusal| ![0, 28].contains(&refusal) && admits(update, refusal))
}

/// Says whether 01 and 02 admit a refusal as a call's answer.
fn admits(call: usize, refusal: u32) -> bool {
    ADMITTED[call].iter().any(|&(first, last)| (first..=last).contains(&refusal))
}

/// How often a thing was seen.
fn seen<K: Ord>(counts: &BTreeMap<K, Seen>, thing: K) -> Seen {
    counts.get(&thing).copied().unwrap_or_default()
}

/// Adds up how often things were seen.
fn sum(all: impl Iterator<Item = Seen>) -> Seen {
    all.fold([0, 0], |[little, big], more| [little + more[0], big + more[1]])
}

impl Table {
    /// Counts an answer in which both sides agree.
    pub fn count(&mut self, asked: &Asked) {
        let (order, call, refusal) = (asked.order as usize, asked.call.number(), asked.answer.refusal);
        self.cells.entry((call, refusal)).or_default()[order] += 1;
        if refusal != 0 {
            self.ways.entry((call, refusal, asked.answer.way)).or_default()[order] += 1;
        }
        if let Some(place) = asked.place() {
            self.places.entry((call, refusal, asked.answer.way, place)).or_default()[order] += 1;
        }
        if let Some(content) = asked.content() {
            self.contents.entry((call, refusal, content)).or_default()[order] += 1;
        }
    }

    /// The ways by any call and those of 27 by each call, the ways at a place in a batch, and the refusals of an update
    /// with a kind of content.
    fn rows(&self) -> Vec<Row> {
        let mut rows = vec![];
        for (refusal, ways) in WAYS {
            let by_any = |way| sum((0..CALLS.len()).map(|call| seen(&self.ways, (call, refusal, way))));
            let things = ways.iter().map(|&way| (way, by_any(way))).collect();
            rows.push(Row { title: refusal.to_string(), things });
        }
        for call in THROUGH {
            let things = ways_of(27, 27).map(|(refusal, way)| (way, seen(&self.ways, (call, refusal, way)))).collect();
            rows.push(Row { title: format!("27 of {}", CALLS[call]), things });
        }
        for (call, (refusal, way)) in BATCHES.into_iter().flat_map(|call| ways_of(21, 24).map(move |way| (call, way))) {
            let at = |place| (PLACES[place], seen(&self.places, (call, refusal, way, place)));
            let things = (0..PLACES.len()).map(at).collect();
            rows.push(Row { title: format!("{refusal} within {}, {way}", CALLS[call]), things });
        }
        for (call, refusal) in UPDATES.into_iter().flat_map(|call| before_content(call).map(move |r| (call, r))) {
            let by = |content| (CONTENTS[content], seen(&self.contents, (call, refusal, content)));
            let things = (0..CONTENTS.len()).map(by).collect();
            rows.push(Row { title: format!("{refusal} of {} by its content", CALLS[call]), things });
        }
        rows
    }

    /// Prints the table, a line for each refusal, with the little order before the big one, and then the rows; a point
    /// stands where nothing is admitted.
    pub fn print(&self) {
        println!("{:>7} {}", "refusal", CALLS.map(|call| format!("{call:>16}")).concat());
        for refusal in refusals() {
            let cells = (0..CALLS.len()).map(|call| match seen(&self.cells, (call, refusal)) {
                [0, 0] if !admits(call, refusal) => format!("{:>16}", "."),
                [little, big] => format!("{:>16}", format!("{little}/{big}")),
            });
            println!("{refusal:>7} {}", cells.collect::<String>());
        }
        for Row { title, things } in self.rows() {
            let things: Vec<String> = things.iter().map(|(thing, [l, b])| format!("{thing} {l}/{b}")).collect();
            println!("{title:>7}: {}", things.join("; "));
        }
    }

    /// The cells that are empty and should not be, and those that are not admitted.
    pub fn wrong_cells(&self) -> Vec<String> {
        let mut wrong = vec![];
        for (call, name) in CALLS.iter().enumerate() {
            for (order, refusal) in Order::BOTH.into_iter().flat_map(|order| refusals().map(move |r| (order, r))) {
                match (admits(call, refusal), seen(&self.cells, (call, refusal))[order as usize]) {
                    (true, 0) => wrong.push(format!("no agreed answer {refusal} of {name}, {}", order.name())),
                    (false, seen) if seen > 0 => wrong.push(format!("{refusal} of {name}, which is not admitted")),
                    _ => {}
                }
            }
        }
        wrong
    }

    /// The things of the rows that were never seen in one of the orders.
    pub fn missing_ways(&self) -> Vec<String> {
        let mut missing = vec![];
        for order in Order::BOTH {
            for Row { title, things } in self.rows() {
                let never = things.iter().filter(|(_, seen)| seen[order as usize] == 0);
                missing.extend(never.map(|(thing, _)| format!("{title}: {thing}, {}", order.name())));
            }
        }
        missing
    }
}
