//! The cases of updates, in both orders: section 7 of file A by contents that fit and that do not, sections that are
//! not there or stand twice, files that are refused, updates among appends, and a word that two entries share.

use crate::cases::{damaged, placed, with_field};
use crate::files::{a_after, bare, named, with4, with8, words, ENTRY};
use crate::lines::{append, check, data, describe, index, open, records, section, show, tables, update};
use crate::orders::n;
use crate::reference::{Addition, Order, Update};

/// All the cases of one order and then of the other.
pub fn updates() {
    for order in Order::BOTH {
        file_a(order);
        sizes(order);
        spaces(order);
        not_there(order);
        identifiers(order);
        twice(order);
        refused_files(order);
        among_appends(order);
        shared(order);
    }
}

/// An update of a section of an entry by new content.
pub fn by(entry: u64, identifier: i32, content: Vec<u8>) -> Update {
    Update { entry, identifier, content, ..Update::default() }
}

/// The name of a case, with its end: by how many words.
fn counted(name: &str, content: &[i32]) -> String {
    match content.len() {
        0 => format!("{name} by no words"),
        1 => format!("{name} by 1 word"),
        count => format!("{name} by {count} words"),
    }
}

/// Updates a section of an entry of a file by words; gives the case's name, which ends with their count.
fn rewrite(name: &str, file: &mut [u8], entry: u64, identifier: i32, content: &[i32]) -> String {
    let (name, bytes) = (counted(name, content), file.len());
    update(&name, file, bytes, &by(entry, identifier, words(content)));
    name
}

/// Section 7 of file A, of three words, by contents of 1, 3, 4 and 2 words one after the other, and what each leaves.
fn file_a(order: Order) {
    let mut file = a_after(order, 3);
    for content in [vec![31], vec![41, 42, 43], vec![51, 52, 53, 54], vec![61, 62]] {
        let name = rewrite(&named(order, "A 1"), &mut file, 1, 7, &content);
        section(&name, &file, 1, 7);
        data(&name, &file, 1);
        index(&name, &file, 1);
        open(&name, &file, 1);
        tables(&name, &file, 1);
        check(&name, &file);
    }
    records(&named(order, "A after the updates"), &file);
}

/// Refusal 28 by the bytes of the content, where section 7 of file A has 12.
fn sizes(order: Order) {
    for bytes in [0, 2, 3, 4, 5, 8, 11, 12, 13, 15, 16] {
        let name = named(order, &format!("A 1 by {bytes} bytes"));
        update(&name, &mut a_after(order, 3), 480, &by(1, 7, vec![0; bytes]));
    }
}

/// The space is what the length field says: one word of section 7, or with no data all the words to the entry's end.
fn spaces(order: Order) {
    for (ldata, length, counts) in [(5, 1, vec![2, 1]), (0, 8, vec![9, 8, 2])] {
        let mut file = with_field(with_field(a_after(order, 3), 8, ldata), 13, length);
        let name = named(order, &format!("A 1 ldata {ldata} length {length}"));
        for count in counts {
            let name = rewrite(&name, &mut file, 1, 7, &vec![71; count]);
            show(&format!("{name} records 3 and 4"), &file[160..320]);
        }
    }
}

/// Sections and entries of file A that are not there, by a word and by none: 20 and 12 come before 28.
fn not_there(order: Order) {
    let tested = |name: &str, entry, identifier| {
        for content in [&[31][..], &[]] {
            rewrite(&named(order, name), &mut a_after(order, 3), entry, identifier, content);
        }
    };
    for identifier in [8, 0, -7, 7 << 24] {
        tested(&format!("A 1 identifier {identifier}"), 1, identifier);
    }
    tested("A 2 identifier 7", 2, 7);
    for (name, number) in [("2^32 + 1", (1 << 32) + 1), ("2^64 - 1", u64::MAX)] {
        tested(&format!("A {name} identifier 7"), number, 7);
    }
}

/// Two words whose bytes differ.
const CONTENT: [i32; 2] = [0x4443_4241, 0x4847_4645];

/// The sections of file N, of one word and of two, the second with a negative identifier; and one whose identifier has its
/// bytes turned, which is not there.
fn identifiers(order: Order) {
    let mut file = n(order);
    for (identifier, content) in [
        (-0x0102_0305, &CONTENT[..1]),
        (0x0102_0304, &CONTENT),
        (0x0102_0304, &CONTENT[1..]),
        (0x0403_0201, &CONTENT[..1]),
    ] {
        let name = rewrite(&named(order, &format!("N 1 identifier {identifier}")), &mut file, 1, identifier, content);
        section(&name, &file, 1, identifier);
        show(&format!("{name} record 4"), &file[240..320]);
    }
    data(&named(order, "N 1 after the updates"), &file, 1);
}

/// File N with identifier 7 for both sections, of which the first counts, in front of the other or behind it.
fn twice(order: Order) {
    let sevens = || with4(with4(n(order), ENTRY[0] + 12, 7), ENTRY[0] + 13, 7);
    for (first, second) in [(22, 23), (24, 22)] {
        let mut file = with_field(with_field(sevens(), 18, first), 20, second);
        let name = named(order, &format!("N 1 identifiers 7 7 addresses {first} {second}"));
        for count in [2, 1] {
            let name = rewrite(&name, &mut file, 1, 7, &CONTENT[..count]);
            show(&format!("{name} record 4"), &file[240..320]);
        }
    }
}

/// Files that are refused, by a word and by none: the refusals of opening come before 28, and before 20.
fn refused_files(order: Order) {
    let left = || with4(a_after(order, 3), 20, 1);
    let leftovers = [
        ("aex 1 5, word 20 1", with8(left(), 15, 1), 480, 1),
        ("word 20 1", left(), 480, 1),
        ("word 20 1, number 0", left(), 480, 0),
    ];
    for (name, mut file, bytes, number) in damaged(order).into_iter().chain(leftovers) {
        for content in [&[31][..], &[]] {
            let name = counted(&named(order, name), content);
            update(&name, &mut file, bytes, &by(number, 7, words(content)));
        }
    }
    let mut file = with_field(a_after(order, 3), 15, 18);
    rewrite(&named(order, "address 18, identifier 8"), &mut file, 1, 8, &[]);
}

/// An update between two appends, and one of the new entry, whose section ends where the file ends.
fn among_appends(order: Order) {
    let mut file = a_after(order, 2);
    rewrite(&named(order, "A after (2) 1"), &mut file, 1, 7, &[31, 32]);
    let third = Addition { ids: vec![-9], lengths: vec![4], sections: words(&[41, 42, 43, 44]), ..bare(&[103]) };
    append(&named(order, "A (3) with section -9"), &mut file, 480, &third);
    section(&named(order, "A with section -9 1 identifier 7"), &file, 1, 7);
    for content in [&[51; 5][..], &[51]] {
        let name = rewrite(&named(order, "A with section -9 3"), &mut file, 3, -9, content);
        section(&name, &file, 3, -9);
    }
    let name = named(order, "A with section -9 after the updates");
    describe(&name, &file);
    open(&format!("{name} 3"), &file, 3);
    section(&format!("{name} 1 identifier 7"), &file, 1, 7);
    show(&format!("{name} record 6"), &file[400..]);
    check(&name, &file);
}

/// File A with entry 2 over the last word of section 7, which is that entry's code: the word is the section's too, and
/// written.
fn shared(order: Order) {
    let mut file = with_field(with_field(placed(order, 2, 63), 8, 0), 15, 22);
    let name = named(order, "A 2 over section 7");
    open(&name, &file, 2);
    check(&name, &file);
    let name = rewrite(&name, &mut file, 1, 7, &[31]);
    open(&name, &file, 2);
    show(&format!("{name} record 4"), &file[240..320]);
}
