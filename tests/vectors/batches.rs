//! The cases of batches, in both orders: refusal 26 over bytes that are no file and over file A as created, refusals at
//! every place of a batch, and files made by one batch.

use crate::files::{a_after, additions, bare, created, in_order, named, settings, with4, words};
use crate::lines::{batch, check, data, describe, index, open, records, section};
use crate::reference::{Addition, Batch, Order};

/// What the columns of the counts count.
const COLUMNS: [&str; 5] = ["index", "identifier", "length", "section", "data"];

/// All the cases of one order and then of the other.
pub fn batches() {
    for order in Order::BOTH {
        few_bytes(order);
        versions_and_rows(order);
        columns(order);
        sums(order);
        no_entries(order);
        refused_files(order);
        refused_entries(order);
        file_a(order);
        sweep(order);
        most(order);
    }
}

/// Entries laid end to end.
pub fn laid(entries: &[Addition]) -> Batch {
    let mut b = Batch::default();
    for a in entries {
        let counts = [a.index.len(), a.ids.len(), a.lengths.len(), a.sections.len(), a.data.len()];
        b.versions.push(a.version);
        b.counts.push(counts.map(|count| count as u64));
        b.index.extend(&a.index);
        b.ids.extend(&a.ids);
        b.lengths.extend(&a.lengths);
        b.sections.extend(&a.sections);
        b.data.extend(&a.data);
    }
    b
}

/// So many versions and so many rows of counts, all zero.
pub fn zeros(versions: usize, rows: usize) -> Batch {
    Batch { versions: vec![0; versions], counts: vec![[0; 5]; rows], ..Batch::default() }
}

/// A batch over file A as created; gives the file after it.
fn over_created(order: Order, name: &str, b: &Batch) -> Vec<u8> {
    let mut file = a_after(order, 0);
    batch(&named(order, name), &mut file, 480, b);
    file
}

/// Batches over the first 10 bytes of file A.
fn few_bytes(order: Order) {
    for (name, count) in [("no", 0), ("64", 64), ("65", 65)] {
        let name = named(order, &format!("{name} entries over 10 bytes"));
        batch(&name, &mut a_after(order, 0), 10, &zeros(count, count));
    }
}

/// Rows of counts that are not as many as versions, and too many of both.
fn versions_and_rows(order: Order) {
    over_created(order, "2 versions 1 row", &zeros(2, 1));
    over_created(order, "1 version 2 rows", &zeros(1, 2));
    over_created(order, "1 version no row", &zeros(1, 0));
    over_created(order, "no version 1 row", &zeros(0, 1));
    over_created(order, "65 entries", &zeros(65, 65));
}

/// What append (1) of file A is given, with each of its counts one less and one more.
fn columns(order: Order) {
    let tested = |b: &Batch| {
        let counts = b.counts[0].map(|count| count.to_string()).join(" ");
        over_created(order, &format!("A (1) counts {counts}"), b);
    };
    let right = laid(&additions()[..1]);
    tested(&right);
    for column in 0..5 {
        for other in [right.counts[0][column] - 1, right.counts[0][column] + 1] {
            let mut b = right.clone();
            b.counts[0][column] = other;
            tested(&b);
        }
    }
}

/// Counts whose sums are those of the empty arrays, if they wrap in 64 or 32 bits.
fn sums(order: Order) {
    let tested = |column: usize, name: &str, values: [u64; 2]| {
        let mut b = zeros(2, 2);
        b.counts.iter_mut().zip(values).for_each(|(row, value)| row[column] = value);
        over_created(order, &format!("{} counts {name}", COLUMNS[column]), &b);
    };
    tested(0, "2^63 and 2^63", [1 << 63; 2]);
    tested(4, "2^32 and 0", [1 << 32, 0]);
    for column in 0..5 {
        tested(column, "2^64 - 1 and 1", [u64::MAX, 1]);
    }
}

/// Something left in one array by no entries.
fn no_entries(order: Order) {
    let left = [
        ("4 index bytes", Batch { index: vec![0; 4], ..Batch::default() }),
        ("1 identifier", Batch { ids: vec![7], ..Batch::default() }),
        ("1 length", Batch { lengths: vec![1], ..Batch::default() }),
        ("4 section bytes", Batch { sections: vec![0; 4], ..Batch::default() }),
        ("4 bytes of data", Batch { data: vec![0; 4], ..Batch::default() }),
    ];
    for (name, b) in left {
        over_created(order, &format!("no entries, {name}"), &b);
    }
}

/// Batches over file A as created with reclen 15, and with something after its addresses.
fn refused_files(order: Order) {
    let tested = |name: &str, word, value, b| {
        batch(&named(order, name), &mut with4(a_after(order, 0), word, value), 480, &b);
    };
    tested("reclen 15", 2, 15, laid(&[bare(&[101])]));
    tested("reclen 15, no entries", 2, 15, zeros(0, 0));
    tested("reclen 15, 2 versions 1 row", 2, 15, zeros(2, 1));
    tested("word 20 1", 20, 1, laid(&[bare(&[101])]));
}

/// An entry of one index word with sections of one word.
fn sectioned(ids: &[i32]) -> Addition {
    Addition { ids: ids.to_vec(), lengths: vec![1; ids.len()], sections: vec![0; 4 * ids.len()], ..bare(&[9]) }
}

/// Refusals 21 to 23 by the first entry or a later one, and what the entries before it leave.
fn refused_entries(order: Order) {
    for (name, entries) in [
        ("index counts 4 and 8", vec![bare(&[101]), bare(&[102, 103])]),
        ("identifiers 7, 7 7 and 9", vec![sectioned(&[7]), sectioned(&[7, 7]), sectioned(&[9])]),
    ] {
        let file = over_created(order, name, &laid(&entries));
        describe(&named(order, &format!("after {name}")), &file);
    }
    over_created(order, "index counts 8 and 0", &laid(&[bare(&[101, 102]), bare(&[])]));
    let identifier = Addition { ids: vec![7], ..bare(&[9]) };
    let length = Addition { lengths: vec![1], sections: vec![0; 4], ..bare(&[9]) };
    over_created(order, "an identifier and its length apart", &laid(&[identifier, length]));
    let mut file = created(320, 0, in_order(order, settings(16, 4, 1, 10)));
    batch(&named(order, "reclen 16, 2 entries"), &mut file, 320, &laid(&[bare(&[9]), bare(&[9])]));
}

/// File A by one batch, in five records too, and by an append and a batch.
fn file_a(order: Order) {
    let [first, second, third] = additions();
    let rest = laid(&[second.clone(), third.clone()]);
    let all = laid(&[first, second, third]);
    let mut five = a_after(order, 0);
    batch(&named(order, "P5"), &mut five, 400, &all);
    describe(&named(order, "P5 after the batch"), &five[..400]);
    let file = over_created(order, "A", &all);
    let name = named(order, "A by a batch");
    describe(&name, &file);
    records(&name, &file);
    for entry in 1..=3 {
        open(&format!("{name} {entry}"), &file, entry);
    }
    check(&name, &file);
    let mut file = a_after(order, 1);
    batch(&named(order, "A (2) and (3)"), &mut file, 480, &rest);
    describe(&named(order, "A by an append and a batch"), &file);
}

/// Three entries that differ in all that they are given, and their contents.
fn sweep(order: Order) {
    let entry = |version, index, ids: &[i32], lengths: &[i64], sections: &[i32], data: &[i32]| Addition {
        version,
        index: words(&[index]),
        ids: ids.to_vec(),
        lengths: lengths.to_vec(),
        sections: words(sections),
        data: words(data),
    };
    let entries = [
        entry(-1, 31, &[7], &[1], &[41], &[51]),
        entry(2, 32, &[8, 7], &[1, 2], &[42, 43, 44], &[]),
        entry(3, 33, &[], &[], &[], &[52, 53]),
    ];
    let name = named(order, "a sweep of 3");
    let mut file = created(800, 0, in_order(order, settings(20, 4, 2, 20)));
    batch(&name, &mut file, 800, &laid(&entries));
    describe(&name, &file);
    for number in 1..=3 {
        open(&format!("{name} {number}"), &file, number);
        index(&format!("{name} {number}"), &file, number);
    }
    for (number, identifier) in [(1, 7), (2, 7), (2, 8)] {
        section(&format!("{name} {number} identifier {identifier}"), &file, number, identifier);
    }
    data(&format!("{name} 1"), &file, 1);
    data(&format!("{name} 3"), &file, 3);
    check(&name, &file);
}

/// 64 entries in a file that they fill, and in one of a record less.
fn most(order: Order) {
    let entries = zeros(64, 64);
    for (name, bytes) in [("64 entries in 56 records", 3584), ("64 entries", 3648)] {
        let name = named(order, name);
        let mut file = created(bytes, 0, in_order(order, settings(16, 3, 64, 10)));
        batch(&name, &mut file, bytes, &entries);
        describe(&name, &file);
        open(&format!("{name} 62"), &file, 62);
        open(&format!("{name} 64"), &file, 64);
        check(&name, &file);
    }
}
