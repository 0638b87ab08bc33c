//! The cases of the calls that read, and of creation: both sides of each bound of document 01.

use crate::files::{
    a, a_after, after, bare, created, in_order, named, settings as chosen, with4, with8, with_byte, words, ENTRY, INDEX,
};
use crate::lines::{
    check, create, data, describe, every_call as every, extension, index, open, records, section, show, tables,
    validate,
};
use crate::orders::{codes, settings as order_settings};
use crate::reference::{Addition, Order, Settings, ENTRY_CODE};

const WORD: i64 = 1 << 32;
const WRAP: i64 = 1 << 62;

/// File A, P6 and P7, each in both orders.
pub fn examples() {
    Order::BOTH.into_iter().for_each(example_a);
    Order::BOTH.into_iter().for_each(crossing);
    Order::BOTH.into_iter().for_each(growing);
}

/// File A as it grows, its records, extensions and entries, and the parts that are handed out of it.
fn example_a(order: Order) {
    let a = named(order, "A");
    describe(&format!("{a} created"), &a_after(order, 0));
    describe(&format!("{a} after (1)"), &a_after(order, 1));
    describe(&format!("{a} after (2)"), &a_after(order, 2));
    let file = a_after(order, 3);
    describe(&a, &file);
    records(&a, &file);
    extension(&format!("{a} 1"), &file, 1);
    extension(&format!("{a} 2"), &file, 2);
    for entry in 1..=3 {
        open(&format!("{a} {entry}"), &file, entry);
    }
    tables(&format!("{a} 1"), &file, 1);
    check(&a, &file);
    for entry in 1..=3 {
        index(&format!("{a} {entry}"), &file, entry);
    }
    section(&format!("{a} 1 identifier 7"), &file, 1, 7);
    data(&format!("{a} 1"), &file, 1);
    data(&format!("{a} 2"), &file, 2);
}

/// P6: reclen 16 and lind 5, the fourth index crosses a record.
fn crossing(order: Order) {
    let p6 = named(order, "P6");
    let empty = created(384, 0, in_order(order, chosen(16, 5, 4, 10)));
    let file = (41..=44).fold(empty, |file, first| after(file, &bare(&[first, 99])));
    show(&format!("{p6} record 2"), &file[64..128]);
    show(&format!("{p6} record 3"), &file[128..192]);
    open(&format!("{p6} 4"), &file, 4);
    index(&format!("{p6} 3"), &file, 3);
    index(&format!("{p6} 4"), &file, 4);
    check(&p6, &file);
}

/// P7: lex1 5 and gex 15, 24 entries without index words: the first of the fourth extension is the last.
fn growing(order: Order) {
    let p7 = named(order, "P7");
    let empty = created(3520, 0, in_order(order, chosen(22, 3, 5, 15)));
    let file = (0..24).fold(empty, |file, _| after(file, &bare(&[])));
    describe(&p7, &file);
    for number in 1..=4 {
        extension(&format!("{p7} {number}"), &file, number);
    }
    index(&format!("{p7} 24"), &file, 24);
    check(&p7, &file);
}

/// The settings of file A with another reclen.
pub fn reclen(value: i32) -> Settings {
    chosen(value, 4, 2, 20)
}

/// One setting of file A in an order, by create and by validate.
pub fn setting(order: Order, field: &str, word: usize, value: i32) {
    let mut s = in_order(order, reclen(20));
    match field {
        "kind" => s.kind = value,
        "vind" => s.vind = value,
        "lind" => s.lind = value,
        "flags" => s.flags = value,
        "lex1" => s.lex1 = value,
        "gex" => s.gex = value,
        _ => unreachable!("{field} is no setting"),
    }
    let name = named(order, &format!("{field} {value}"));
    create(&name, 480, s);
    validate(&name, &with4(a_after(order, 3), word, value));
}

/// Refusals 1 to 8.
pub fn settings() {
    lengths();
    codes();
    order_settings();
    create("reclen 15", 60, reclen(15));
    create("reclen 15 in 480 bytes", 480, reclen(15));
    create("reclen 16", 64, reclen(16));
    create("reclen 4096", 16384, reclen(4096));
    create("reclen 4097", 16388, reclen(4097));
    create("reclen 0", 480, reclen(0));
    create("reclen -16", 480, reclen(-16));
    for value in [15, 16, 4096, 4097, -20] {
        validate(&format!("A reclen {value}"), &with4(a(), 2, value));
    }
    let fields: [(&str, usize, &[i32]); 6] = [
        ("kind", 3, &[0, 1, 3, 4, -1]),
        ("vind", 4, &[1, 2, i32::MAX, -2]),
        ("lind", 5, &[2, 3, 256, 257]),
        ("flags", 6, &[-1, 0, 1, 2]),
        ("lex1", 12, &[0, 1, 4096, 4097]),
        ("gex", 14, &[9, 10, 20, 21]),
    ];
    for (field, word, values) in fields {
        values.iter().for_each(|&value| setting(Order::Little, field, word, value));
    }
    first_of_two();
    stored_counts();
}

/// Refusals 1 and 4.
fn lengths() {
    create("in 0 bytes", 0, reclen(16));
    create("in 63 bytes", 63, reclen(16));
    create("in 64 bytes", 64, reclen(16));
    create("in 64 bytes, less than a record", 64, reclen(20));
    create("in one record", 80, reclen(20));
    for bytes in [479, 480, 484] {
        create(&format!("in {bytes} bytes"), bytes, reclen(20));
    }
    validate("A, no bytes lent", &[]);
    for bytes in [63, 64, 400, 479, 480] {
        validate(&format!("A, {bytes} bytes lent"), &a()[..bytes]);
    }
}

/// Of two broken rules the one tested first.
fn first_of_two() {
    validate("A, 63 bytes lent, code 31", &with_byte(a(), 0, 0x31)[..63]);
    validate("A code 31, reclen 15", &with4(with_byte(a(), 0, 0x31), 2, 15));
    validate("A reclen 15, 479 bytes lent", &with4(a(), 2, 15)[..479]);
    validate("A kind 0, 479 bytes lent", &with4(a(), 3, 0)[..479]);
    validate("A kind 0, lind 2", &with4(with4(a(), 3, 0), 5, 2));
    validate("A lind 2, flags 2", &with4(with4(a(), 5, 2), 6, 2));
    validate("A flags 2, lex1 0", &with4(with4(a(), 6, 2), 12, 0));
    validate("A lex1 0, nextrec 1", &with4(with4(a(), 12, 0), 9, 1));
}

/// A file of one record with nex and xnext written over.
fn stored(name: &str, s: Settings, nex: i32, xnext: i64) {
    validate(name, &with8(with4(created(4 * s.reclen as usize, 0, s), 13, nex), 7, xnext));
}

/// Refusals 8 and 9 by nex and xnext.
fn stored_counts() {
    stored("reclen 16 nex -1", chosen(16, 3, 1, 10), -1, 1);
    stored("reclen 16 nex 0", chosen(16, 3, 1, 10), 0, 1);
    for (reclen, nex) in [(16, 1), (17, 1), (18, 2), (45, 15), (46, 16), (4096, 16)] {
        for nex in [nex, nex + 1] {
            stored(&format!("reclen {reclen} nex {nex}"), chosen(reclen, 3, 1, 10), nex, nex as i64 + 1);
        }
    }
    stored("lex1 1 gex 20 nex 15", chosen(46, 3, 1, 20), 15, 32768);
    stored("lex1 1 gex 20 nex 16", chosen(46, 3, 1, 20), 16, 65536);
    stored("lex1 4096 gex 19 nex 3", chosen(22, 3, 4096, 19), 3, 26665);
    stored("lex1 4096 gex 19 nex 4", chosen(22, 3, 4096, 19), 4, 26666);
    stored_each("P7", chosen(22, 3, 5, 15), 1, &[6, 7]);
    stored_each("P7", chosen(22, 3, 5, 15), 2, &[6, 7, 13, 14]);
    stored_each("P7", chosen(22, 3, 5, 15), 3, &[13, 14, 24, 25]);
    stored_each("P7", chosen(22, 3, 5, 15), 4, &[24, 25, 40, 41]);
    fractions();
    sixteenths();
    for xnext in 0..=2 {
        stored(&format!("no extension, xnext {xnext}"), chosen(22, 3, 5, 15), 0, xnext);
    }
}

/// Files of one record with nex and each of some xnext written over.
fn stored_each(name: &str, s: Settings, nex: i32, counts: &[i64]) {
    for &xnext in counts {
        stored(&format!("{name} nex {nex} xnext {xnext}"), s, nex, xnext);
    }
}

/// Refusals 8 and 9 by capacities whose fraction is dropped once: both sides of 16,384 and of what they hold together.
fn fractions() {
    stored_each("lex1 1 gex 15", chosen(24, 3, 1, 15), 3, &[3, 4, 5, 6]);
    stored_each("lex1 1 gex 15", chosen(24, 3, 1, 15), 4, &[5, 6, 8, 9]);
    stored_each("lex1 1 gex 15", chosen(24, 3, 1, 15), 5, &[8, 9, 13, 14]);
    stored_each("lex1 2 gex 18", chosen(46, 3, 2, 18), 16, &[16858, 16859, 30351, 30352]);
    stored_each("lex1 3 gex 18", chosen(46, 3, 3, 18), 15, &[25291]);
    stored_each("lex1 3 gex 18", chosen(46, 3, 3, 18), 16, &[25292]);
    stored_each("lex1 3335 gex 17", chosen(22, 3, 3335, 17), 4, &[35027, 35028]);
    stored_each("lex1 1154 gex 17", chosen(26, 3, 1154, 17), 5, &[21758]);
    stored_each("lex1 1154 gex 17", chosen(26, 3, 1154, 17), 6, &[21759]);
}

/// Refusal 8 by extension 16, for each other gex between 10 and 20: the greatest lex1 that is admitted, with as many entries
/// as fit, and the next lex1.
fn sixteenths() {
    for (greatest, gex, xnext) in [
        (3922, 11, 140988),
        (1063, 12, 92944),
        (320, 13, 69905),
        (105, 14, 56903),
        (37, 15, 48526),
        (14, 16, 43012),
        (5, 17, 34743),
        (1, 19, 32042),
    ] {
        for lex1 in [greatest, greatest + 1] {
            stored_each(&format!("lex1 {lex1} gex {gex}"), chosen(46, 3, lex1, gex), 16, &[xnext]);
        }
    }
}

/// Validates file A with Integer*8 values at a word, each with its name.
fn wide(field: &str, word: usize, behind: &str, values: &[(&str, i64)]) {
    for (name, value) in values {
        validate(&format!("A {field} {name}{behind}"), &with8(a(), word, *value));
    }
}

/// Refusals 9 to 11 in file A.
pub fn filling() {
    for nex in -1..=4 {
        validate(&format!("A nex {nex}"), &with4(a(), 13, nex));
    }
    let counts = [("0", 0), ("1", 1), ("3", 3), ("4", 4), ("7", 7), ("8", 8)];
    wide("xnext", 7, "", &counts);
    wide("xnext", 7, "", &[("2^32 + 4", WORD + 4), ("2^63", i64::MIN), ("-1", -1)]);
    wide("nextrec", 9, "", &[("0", 0), ("1", 1), ("2", 2), ("6", 6), ("7", 7)]);
    wide("nextrec", 9, "", &[("2^32 + 6", WORD + 6), ("2^62 + 6", WRAP + 6), ("2^63 - 1", i64::MAX)]);
    wide("nextrec", 9, "", &[("2^63", i64::MIN), ("-1", -1)]);
    for nextword in [0, 1, 20, 21, -1] {
        validate(&format!("A nextword {nextword}"), &with4(a(), 11, nextword));
    }
    let next = |nextrec, nextword| with4(with8(a(), 9, nextrec), 11, nextword);
    validate("A next free at the end", &next(7, 1));
    validate("A next free one past the end", &next(7, 2));
    validate("A next free at the area's end", &next(6, 1));
    validate("A next free one before the area's end", &next(5, 20));
    wide("aex", 15, " 5", &[("1", 1), ("2", 2), ("4", 4), ("5", 5), ("0", 0), ("-1", -1)]);
    wide("aex", 15, " 5", &[("2^32 + 2", WORD + 2), ("2^62 + 2", WRAP + 2), ("2^63", i64::MIN)]);
    wide("aex 2", 17, "", &[("2", 2), ("3", 3), ("6", 6)]);
    validate("A aex 2 6, next free at its end", &with8(next(7, 1), 17, 6));
    wide("aex 2", 17, "", &[("-1", -1), ("2^32 + 5", WORD + 5), ("2^62 + 5", WRAP + 5), ("2^63 - 1", i64::MAX)]);
}

/// Refusals 12 to 16 in file A.
pub fn opening() {
    let asked = [("0", 0), ("4", 4), ("2^32 + 1", (1 << 32) + 1), ("2^63", 1 << 63), ("2^64 - 1", u64::MAX)];
    for (name, number) in asked {
        open(&format!("A {name}"), &a(), number);
    }
    for (name, number) in [("0", 0), ("3", 3), ("2^32 + 1", (1 << 32) + 1), ("2^64 - 1", u64::MAX)] {
        extension(&format!("A {name}"), &a(), number);
    }
    starts();
    let code = 4 * ENTRY[2];
    open("A 3 code 31 20 20 20", &with_byte(a(), code, 0x31), 3);
    open("A 3 code 32 41 20 20", &with_byte(a(), code + 1, 0x41), 3);
    open("A 3 code 32 20 00 20", &with_byte(a(), code + 2, 0x00), 3);
    open("A 3 code 32 20 20 a0", &with_byte(a(), code + 3, 0xa0), 3);
    for nsec in [-1, 3, 65] {
        open(&format!("A 1 nsec {nsec}"), &with4(a(), ENTRY[0] + 3, nsec), 1);
    }
    field(2, "nword", 4, &[("10", 10), ("12", 12)]);
    field(1, "nword", 4, &[("15", 15), ("16", 16), ("71", 71), ("72", 72)]);
    field(3, "nword", 4, &[("12", 12)]);
    open("A 3 nword 12 nextword 13", &with4(with8(a(), ENTRY[2] + 4, 12), 11, 13), 3);
    field(1, "nword", 4, &[("2^32 + 24", WORD + 24), ("2^63 - 1", i64::MAX), ("-1", -1)]);
    field(1, "xnum", 10, &[("0", 0), ("2", 2), ("2^32 + 1", WORD + 1), ("-1", -1)]);
    open("A 1 version -1", &with4(a(), ENTRY[0] + 2, -1), 1);
}

/// Opens an entry of file A with Integer*8 values at one of its words.
fn field(entry: usize, name: &str, word: usize, values: &[(&str, i64)]) {
    for (value_name, value) in values {
        open(&format!("A {entry} {name} {value_name}"), &with8(a(), ENTRY[entry - 1] + word, *value), entry as u64);
    }
}

/// Refusal 13: the index of entry 3.
fn starts() {
    let record = |value| with8(a(), INDEX[2] + 1, value);
    let values = [("0", 0), ("1", 1), ("2", 2), ("7", 7), ("2^32 + 6", WORD + 6), ("2^62 + 6", WRAP + 6)];
    for (name, value) in values.into_iter().chain([("2^63", i64::MIN), ("-1", -1)]) {
        open(&format!("A 3 record {name}"), &record(value), 3);
    }
    for word in [0, 2, 21, -1] {
        open(&format!("A 3 word {word}"), &with4(a(), INDEX[2] + 3, word), 3);
    }
    for word in [20, 21] {
        open(&format!("A 3 record 5 word {word}"), &with4(record(5), INDEX[2] + 3, word), 3);
    }
    open("A 3 nextword 11", &with4(a(), 11, 11), 3);
}

/// A file with an Integer*8 at a word of entry 1, where file A has it.
pub fn with_field(file: Vec<u8>, word: usize, value: i64) -> Vec<u8> {
    with8(file, ENTRY[0] + word, value)
}

/// Refusals 17 to 20.
pub fn contents() {
    let ldata = |value| with_field(a(), 8, value);
    field(1, "ldata", 8, &[("-1", -1), ("0", 0)]);
    open("P12 A 1 ldata 0 adata -1", &with_field(ldata(0), 6, -1), 1);
    open("A 1 ldata 0 adata 2^63 - 1", &with_field(ldata(0), 6, i64::MAX), 1);
    data("A 1 ldata 0", &ldata(0), 1);
    field(1, "ldata", 8, &[("1", 1)]);
    data("A 1 ldata 1", &ldata(1), 1);
    field(1, "ldata", 8, &[("6", 6), ("2^32 + 5", WORD + 5), ("2^63 - 1", i64::MAX), ("2^63", i64::MIN)]);
    field(1, "adata", 6, &[("16", 16), ("17", 17), ("19", 19), ("21", 21)]);
    open("A 1 adata 24 ldata 1", &with_field(ldata(1), 6, 24), 1);
    open("A 1 adata 25 ldata 1", &with_field(ldata(1), 6, 25), 1);
    field(1, "adata", 6, &[("-1", -1), ("2^32 + 20", WORD + 20), ("2^63 - 1", i64::MAX)]);
    data("A 1 adata 16", &with_field(a(), 6, 16), 1);
    sections();
    two_sections();
}

/// Refusals 18 and 19 by the section of entry 1 of file A.
fn sections() {
    field(1, "length", 13, &[("0", 0), ("1", 1)]);
    section("A 1 length 1 identifier 7", &with_field(a(), 13, 1), 1, 7);
    field(1, "length", 13, &[("4", 4), ("8", 8), ("9", 9)]);
    field(1, "length", 13, &[("2^32 + 3", WORD + 3), ("2^63 - 1", i64::MAX), ("-1", -1)]);
    open("A 1 length 0 ldata 6", &with_field(with_field(a(), 13, 0), 8, 6), 1);
    field(1, "address", 15, &[("16", 16), ("18", 18), ("22", 22), ("23", 23)]);
    field(1, "address", 15, &[("2^32 + 17", WORD + 17), ("2^63 - 1", i64::MAX), ("-1", -1)]);
    let alone = |address| with_field(with_field(a(), 8, 0), 15, address);
    let behind = |address| with_field(with_field(a(), 6, 17), 15, address);
    open("A 1 address 22 ldata 0", &alone(22), 1);
    section("A 1 address 22 ldata 0 identifier 7", &alone(22), 1, 7);
    open("A 1 address 23 ldata 0", &alone(23), 1);
    open("A 1 address 22 adata 17", &behind(22), 1);
    open("A 1 address 21 adata 17", &behind(21), 1);
}

/// File B: entry 1 has two sections, of 2 and 3 words, and 2 words of data.
fn b() -> Vec<u8> {
    let addition = Addition {
        version: -5,
        index: words(&[9]),
        ids: vec![7, -8],
        lengths: vec![2, 3],
        sections: words(&[31, 32, 33, 34, 35]),
        data: words(&[36, 37]),
    };
    after(created(480, 0, chosen(20, 4, 2, 20)), &addition)
}

/// Refusals 19 and 20 by the sections of file B.
fn two_sections() {
    open("B 1", &b(), 1);
    tables("B 1", &b(), 1);
    for (first, second) in [(22, 23), (22, 22), (25, 22), (24, 22), (26, 22), (22, 25)] {
        let file = with_field(with_field(b(), 18, first), 20, second);
        open(&format!("B 1 addresses {first} {second}"), &file, 1);
    }
    open("B 1 addresses 22 26 adata 24", &with_field(with_field(b(), 20, 26), 6, 24), 1);
    open("B 1 addresses 24 99", &with_field(with_field(b(), 18, 24), 20, 99), 1);
    for identifier in [7, -8, 8] {
        section(&format!("B 1 identifier {identifier}"), &b(), 1, identifier);
    }
    section("B 1 identifier 0, past nsec", &b(), 1, 0);
    for (first, second, identifier) in [(7, 0, 0), (7, 7, 7), (5, 7, 7)] {
        let file = with4(with4(b(), ENTRY[0] + 12, first), ENTRY[0] + 13, second);
        section(&format!("B 1 identifiers {first} {second}, identifier {identifier}"), &file, 1, identifier);
    }
    section("A 2 identifier 7", &a(), 2, 7);
    section("A 4 identifier 7", &a(), 4, 7);
}

/// File A in an order with an entry of 11 words behind the first `at` words, and its index that says so.
pub fn placed(order: Order, entry: usize, at: usize) -> Vec<u8> {
    let mut file = a_after(order, 3);
    file[4 * at..4 * (at + 1)].copy_from_slice(&ENTRY_CODE);
    file = with4(with4(file, at + 2, 1), at + 3, 0);
    for (word, value) in [(4, 11), (6, 0), (8, 0), (10, entry as i64)] {
        file = with8(file, at + word, value);
    }
    let index = INDEX[entry - 1];
    with4(with8(file, index + 1, at as i64 / 20 + 1), index + 3, at as i32 % 20 + 1)
}

/// Refusal 25.
pub fn ordering() {
    let placed = |entry, at| placed(Order::Little, entry, at);
    let nword = |file, entry: usize, value| with8(file, ENTRY[entry - 1] + 4, value);
    check("A 1 nword 25, over the start of 2", &nword(a(), 1, 25));
    check("A 2 nword 16, to the next area", &nword(a(), 2, 16));
    check("A 2 nword 17, over the next area", &nword(a(), 2, 17));
    check("A 1 a word before its area's end", &placed(1, 39));
    check("A 1 at its area's end", &placed(1, 40));
    check("A 3 a word before its area's end", &placed(3, 99));
    check("A 3 at its area's end", &placed(3, 100));
    check("A 3 a word later", &with4(placed(3, 101), 11, 13));
    check("A 2 a word before the end of 1", &placed(2, 63));
    check("A 2 at the end of 1", &placed(2, 64));
    check("A 2 a word later", &placed(2, 65));
    check("A 2 ends at the next area", &placed(2, 69));
    check("A 2 ends a word past the next area's start", &placed(2, 70));
    let coded = |entry: usize| with_byte(a(), 4 * ENTRY[entry - 1], 0x31);
    check("A created", &a_after(Order::Little, 0));
    check("A reclen 15", &with4(a(), 2, 15));
    check("A xnext 7", &with8(a(), 7, 7));
    check("A 2 code 31", &coded(2));
    check("A 1 nword 25, 2 code 31", &nword(coded(2), 1, 25));
    check("A 1 nword 25, 3 code 31", &nword(coded(3), 1, 25));
}

/// A file with its name, how many of its bytes are lent, and the number that is asked for.
pub type Asked = (&'static str, Vec<u8>, usize, u64);

/// File A in an order with each way to damage it, and with numbers that it does not have.
pub fn damaged(order: Order) -> Vec<Asked> {
    let a = || a_after(order, 3);
    let mut all: Vec<Asked> = vec![
        ("63 bytes lent", a(), 63, 1),
        ("code 31", with_byte(a(), 0, 0x31), 480, 1),
        ("reclen 15", with4(a(), 2, 15), 480, 1),
        ("479 bytes lent", a(), 479, 1),
    ];
    for (name, word, value) in [("kind 0", 3, 0), ("lind 2", 5, 2), ("flags 2", 6, 2), ("lex1 0", 12, 0)] {
        all.push((name, with4(a(), word, value), 480, 1));
    }
    for (name, word, value) in [("xnext 0", 7, 0), ("nextrec 1", 9, 1), ("aex 1 5", 15, 1)] {
        all.push((name, with8(a(), word, value), 480, 1));
    }
    all.push(("number 0", a(), 480, 0));
    all.push(("number 4", a(), 480, 4));
    all.push(("record 1", with8(a(), INDEX[0] + 1, 1), 480, 1));
    all.push(("entry code 31", with_byte(a(), 4 * ENTRY[0], 0x31), 480, 1));
    all.push(("nsec 65", with4(a(), ENTRY[0] + 3, 65), 480, 1));
    for (name, word, value) in [("xnum 2", 10, 2), ("ldata -1", 8, -1), ("length 0", 13, 0), ("address 18", 15, 18)] {
        all.push((name, with_field(a(), word, value), 480, 1));
    }
    all
}

/// Every call on file A in an order and on each way to damage it.
pub fn every_call(order: Order) {
    every(&named(order, "A"), a_after(order, 3), 480, 1);
    for (name, file, bytes, number) in damaged(order) {
        every(&named(order, name), file, bytes, number);
    }
}
