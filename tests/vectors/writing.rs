//! The cases of append, and P8 and P9, which need large files.

use crate::files::{a, a_after, bare, created, in_order, named, settings, with4, with8, words};
use crate::lines::{append, describe, extension, open, section, validate};
use crate::reference::{Addition, Order};

/// P8 and P9, in files with room for their index areas.
pub fn limits() {
    let mut file = created(3914 * 88, 0, settings(22, 3, 4096, 20));
    let whole = file.len();
    for (word, value) in [(7, 12289), (9, 1679), (15, 2), (17, 561)] {
        file = with8(file, word, value);
    }
    file = with4(file, 13, 2);
    append("P8 new capacity 16384", &mut file, whole, &bare(&[]));
    describe("P8 nex 3", &file);
    extension("P8 3", &file, 3);
    file = with8(file, 7, 28673);
    validate("P8 nex 3 xnext 28673", &file);
    append("P8 new capacity 32768", &mut file, whole, &bare(&[]));
    file = with8(file, 7, 28674);
    validate("P8 nex 3 xnext 28674", &file);
    validate("P8 nex 4", &with4(file, 13, 4));
    Order::BOTH.into_iter().for_each(entries);
}

/// P9 in an order: 65,536 entries in 16 extensions, each with an area of 268 records.
pub fn p9(order: Order) -> Vec<u8> {
    let empty = with4(created(4289 * 184, 0, in_order(order, settings(46, 3, 4096, 10))), 13, 16);
    let file = with8(with8(empty, 7, 65537), 9, 4290);
    (0..16).fold(file, |file, k| with8(file, 15 + 2 * k, 2 + 268 * k as i64))
}

/// P9, one entry more, and a file that says it has that entry.
fn entries(order: Order) {
    let (name, mut file) = (named(order, "P9"), p9(order));
    let whole = file.len();
    describe(&name, &file);
    extension(&format!("{name} 16"), &file, 16);
    append(&format!("{name} entry 65537"), &mut file, whole, &bare(&[]));
    validate(&format!("{name} xnext 65538"), &with8(file, 7, 65538));
}

/// Appends index bytes and nothing else to file A in an order after so many appends.
fn index_bytes(order: Order, name: &str, count: usize, index: Vec<u8>) {
    let addition = Addition { version: 1, index, ..Addition::default() };
    append(&named(order, name), &mut a_after(order, count), 480, &addition);
}

/// Appends sections to file A in an order after (1).
fn sections_in(order: Order, name: &str, ids: &[i32], lengths: &[i64], bytes: usize) {
    let addition = Addition { ids: ids.to_vec(), lengths: lengths.to_vec(), sections: vec![0; bytes], ..bare(&[9]) };
    append(&named(order, name), &mut a_after(order, 1), 480, &addition);
}

/// Appends sections to file A after (1).
fn sections(name: &str, ids: &[i32], lengths: &[i64], bytes: usize) {
    sections_in(Order::Little, name, ids, lengths, bytes);
}

/// Appends data to the first bytes of file A in an order after so many appends.
fn data(order: Order, name: &str, count: usize, bytes: usize, data: usize) {
    let addition = Addition { data: vec![0; data], ..bare(&[9]) };
    append(&named(order, name), &mut a_after(order, count), bytes, &addition);
}

/// The appends of file A in an order, and one more.
fn appends_of_a(order: Order) {
    let first = Addition { ids: vec![7], lengths: vec![3], sections: vec![0; 12], data: vec![0; 20], ..bare(&[101]) };
    append(&named(order, "A (1)"), &mut a_after(order, 0), 480, &first);
    for (name, count) in [("A (2)", 1), ("A (3)", 2), ("A (4)", 3)] {
        index_bytes(order, name, count, words(&[101 + count as i32]));
    }
}

/// Refusals 21 to 24.
pub fn appending() {
    appends_of_a(Order::Little);
    for (name, bytes) in [("no", 0), ("3", 3), ("4", 4), ("5", 5), ("8", 8)] {
        index_bytes(Order::Little, &format!("{name} index bytes"), 1, vec![0; bytes]);
    }
    identifiers();
    lengths();
    for (name, bytes) in
        [("no", 0), ("1 byte of", 1), ("2 bytes of", 2), ("3 bytes of", 3), ("4 bytes of", 4), ("5 bytes of", 5)]
    {
        data(Order::Little, &format!("{name} data"), 1, 480, bytes);
    }
    many();
    extensions(Order::Little);
    space(Order::Little);
    let mut file = a();
    append("index bytes and lengths", &mut file, 480, &Addition { ids: vec![7], lengths: vec![0], ..bare(&[]) });
    let both = Addition { ids: vec![7], lengths: vec![0], data: vec![0; 40], ..bare(&[0]) };
    append("lengths and space", &mut file, 480, &both);
}

/// Refusals 21 to 24 by files in the big order.
pub fn big_appending() {
    let order = Order::Big;
    appends_of_a(order);
    index_bytes(order, "no index bytes", 1, vec![]);
    index_bytes(order, "5 index bytes", 1, vec![0; 5]);
    sections_in(order, "identifiers 0 -1", &[0, -1], &[1, 1], 8);
    sections_in(order, "identifiers 7 7", &[7, 7], &[1, 1], 8);
    sections_in(order, "length 0", &[7], &[0], 0);
    sections_in(order, "length 1 * 2^32", &[7], &[1 << 32], 4);
    data(order, "3 bytes of data", 1, 480, 3);
    extensions(order);
    space(order);
}

/// Refusal 22 by identifiers and counts.
fn identifiers() {
    sections("identifiers 7 8", &[7, 8], &[1, 1], 8);
    sections("identifiers 7 7", &[7, 7], &[1, 1], 8);
    sections("identifiers 7 8 7", &[7, 8, 7], &[1, 1, 1], 12);
    sections("identifiers 0 -1", &[0, -1], &[1, 1], 8);
    sections("2 identifiers 1 length", &[7, 8], &[2], 8);
    sections("1 identifier 2 lengths", &[7], &[1, 1], 8);
    sections("1 identifier no length", &[7], &[], 0);
    sections("no identifier 1 length", &[], &[1], 4);
}

/// Refusal 22 by lengths, also those whose sum or its fourfold would wrap in 64 bits.
fn lengths() {
    sections("length -1", &[7], &[-1], 0);
    sections("length 0", &[7], &[0], 0);
    sections("length 1", &[7], &[1], 4);
    sections("lengths 2 0", &[7, 8], &[2, 0], 8);
    sections("lengths 3 -1", &[7, 8], &[3, -1], 8);
    for bytes in [8, 11, 12, 13, 16] {
        sections(&format!("length 3 in {bytes} bytes"), &[7], &[3], bytes);
    }
    sections("no sections in 4 bytes", &[], &[], 4);
    let quarter = 1 << 62;
    sections("length 2^63 - 1", &[7], &[i64::MAX], 0);
    sections("lengths 2^63 - 1 2^63 - 1 4", &[7, 8, 9], &[i64::MAX, i64::MAX, 4], 8);
    sections("length 2^62", &[7], &[quarter], 0);
    sections("length 2^62 + 1", &[7], &[quarter + 1], 4);
    sections("four lengths 2^62", &[1, 2, 3, 4], &[quarter; 4], 0);
}

/// Sections of one word that holds their identifier.
fn counted(ids: i32, lengths: usize) -> Addition {
    let (ids, shown): (Vec<i32>, Vec<i32>) = ((1..=ids).collect(), (1..=lengths as i32).collect());
    Addition { ids, lengths: vec![1; lengths], sections: words(&shown), ..bare(&[]) }
}

/// 64 and 65 sections.
fn many() {
    let mut file = created(4096, 0, settings(64, 3, 4, 10));
    append("65 identifiers", &mut file, 4096, &counted(65, 65));
    append("64 identifiers 65 lengths", &mut file, 4096, &counted(64, 65));
    append("65 identifiers 64 lengths", &mut file, 4096, &counted(65, 64));
    append("64 identifiers", &mut file, 4096, &counted(64, 64));
    open("64 sections 1", &file, 1);
    for identifier in [1, 64, 65] {
        section(&format!("64 sections 1 identifier {identifier}"), &file, 1, identifier);
    }
    open("64 sections 1 nsec 65", &with4(file, 128 + 3, 65), 1);
}

/// Refusal 23: reclen 16 has room for one extension and reclen 18 for two, each of one entry.
fn extensions(order: Order) {
    for (reclen, bytes, appends) in [(16, 320, 2), (18, 360, 3)] {
        let mut file = created(bytes, 0, in_order(order, settings(reclen, 4, 1, 10)));
        for k in 1..=appends {
            append(&named(order, &format!("reclen {reclen} ({k})")), &mut file, bytes, &bare(&[9]));
        }
    }
}

/// Refusal 24.
fn space(order: Order) {
    data(order, "45 words of data to the end", 1, 480, 180);
    data(order, "46 words of data past the end", 1, 480, 184);
    data(order, "new area, 9 words of data to the end", 2, 480, 36);
    data(order, "new area, 10 words of data past the end", 2, 480, 40);
    data(order, "P5", 2, 400, 0);
    data(order, "one record lent", 0, 80, 0);
    data(order, "two records lent, a new area fills them", 0, 160, 0);
    data(order, "three records lent", 0, 240, 0);
}
