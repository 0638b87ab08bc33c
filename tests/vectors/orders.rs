//! The cases of the order: codes and settings that are neither, and files in the big order, at the bounds of document 01
//! and with numbers that the other order would read otherwise.

use crate::cases::{placed, reclen, setting, with_field};
use crate::files::{
    a, a_after, after, big_a, created, in_order, named, settings as chosen, with4, with8, with_byte, ENTRY, INDEX,
};
use crate::lines::{check, create, data, every_call, index, open, section, show, tables, validate};
use crate::reference::{Addition, Order, Settings};

/// A file with bytes written over it from a word on.
fn with_bytes(mut file: Vec<u8>, word: usize, bytes: &[u8]) -> Vec<u8> {
    file[4 * (word - 1)..][..bytes.len()].copy_from_slice(bytes);
    file
}

/// Bytes as the name of a case spells them.
fn spelled(bytes: &[u8]) -> String {
    bytes.iter().map(|byte| format!("{byte:02x}")).collect::<Vec<_>>().join(" ")
}

/// Validates a file with another code.
fn coded(name: &str, file: Vec<u8>, code: [u8; 4]) {
    validate(&format!("{name} code {}", spelled(&code)), &with_bytes(file, 1, &code));
}

/// Refusal 2 by the code: each byte, the codes of other kinds of files, and the code of the other order, whose reclen is
/// refused then.
pub fn codes() {
    for code in [
        [0x31, 0x41, 0x20, 0x20],
        [0x32, 0x61, 0x20, 0x20],
        [0x32, 0x42, 0x20, 0x20],
        [0x32, 0x20, 0x20, 0x20],
        [0x32, 0x41, 0x00, 0x20],
        [0x32, 0x41, 0x20, 0x21],
        [0x20, 0x20, 0x41, 0x32],
    ] {
        coded("A", a(), code);
    }
    for code in [
        [0x31, 0x42, 0x20, 0x20],
        [0x32, 0x62, 0x20, 0x20],
        [0x32, 0x41, 0x20, 0x20],
        [0x32, 0x43, 0x20, 0x20],
        [0x32, 0x42, 0x00, 0x20],
        [0x32, 0x42, 0x20, 0x21],
        [0x20, 0x20, 0x42, 0x32],
    ] {
        coded("big A", big_a(), code);
    }
}

/// Refusal 2 by the setting of a creation, and its place between 1 and 3.
pub fn settings() {
    for order in [0, 1, 2, -1, 256, 1 << 24, i32::MAX, i32::MIN] {
        create(&format!("order {order}"), 480, Settings { order, ..reclen(20) });
    }
    create("order 2 in 63 bytes", 63, Settings { order: 2, ..reclen(20) });
    create("order 2, reclen 15", 480, Settings { order: 2, ..reclen(15) });
    create("order 2 in 479 bytes", 479, Settings { order: 2, ..reclen(20) });
    create("order -1, kind 0", 480, Settings { order: -1, kind: 0, ..reclen(20) });
}

/// Refusals 1 to 8 by files in the big order.
pub fn big_settings() {
    create("big in 63 bytes", 63, in_order(Order::Big, reclen(16)));
    create("big in 479 bytes", 479, in_order(Order::Big, reclen(20)));
    for bytes in [63, 64, 400, 479] {
        validate(&format!("big A, {bytes} bytes lent"), &big_a()[..bytes]);
    }
    for (value, bytes) in [(15, 480), (16, 64), (4096, 16384), (4097, 16388), (20 << 24, 480)] {
        create(&format!("big reclen {value}"), bytes, in_order(Order::Big, reclen(value)));
    }
    for value in [15, 16, 4097, -20, 20 << 24] {
        validate(&format!("big A reclen {value}"), &with4(big_a(), 2, value));
    }
    let fields: [(&str, usize, &[i32]); 6] = [
        ("kind", 3, &[0, 3, 1 << 24]),
        ("vind", 4, &[1, -2, 1 << 24]),
        ("lind", 5, &[2, 256, 257, 4 << 24]),
        ("flags", 6, &[1, 2, 1 << 24]),
        ("lex1", 12, &[0, 4096, 2 << 24]),
        ("gex", 14, &[10, 21, 20 << 24]),
    ];
    for (field, word, values) in fields {
        values.iter().for_each(|&value| setting(Order::Big, field, word, value));
    }
    for nex in [-1, 3, 4, 2 << 24] {
        validate(&format!("big A nex {nex}"), &with4(big_a(), 13, nex));
    }
}

/// Names for values, and for a right value moved to the upper half and to the highest byte of an Integer*8.
fn values(right: i64, others: &[i64]) -> Vec<(String, i64)> {
    let moved = [32, 56].map(|power| (format!("{right} * 2^{power}"), right << power));
    others.iter().map(|value| (value.to_string(), *value)).chain(moved).collect()
}

/// Validates big A with Integer*8 values at a word.
fn wide(field: &str, word: usize, right: i64, others: &[i64]) {
    for (name, value) in values(right, others) {
        validate(&format!("big A {field} {name}"), &with8(big_a(), word, value));
    }
}

/// Refusals 9 to 11 by files in the big order.
pub fn big_filling() {
    wide("xnext", 7, 4, &[0, 7, 8, -1]);
    wide("nextrec", 9, 6, &[1, 7, -1]);
    for nextword in [0, 20, 21, 12 << 24] {
        validate(&format!("big A nextword {nextword}"), &with4(big_a(), 11, nextword));
    }
    wide("first aex", 15, 2, &[1, 4, 5, -1]);
    wide("second aex", 17, 5, &[2, 3, 6, -1]);
}

/// Opens an entry of big A with Integer*8 values at one of its words.
fn field(entry: usize, name: &str, word: usize, right: i64, others: &[i64]) {
    for (value_name, value) in values(right, others) {
        let file = with8(big_a(), ENTRY[entry - 1] + word, value);
        open(&format!("big A {entry} {name} {value_name}"), &file, entry as u64);
    }
}

/// Refusals 12 to 16 by files in the big order.
pub fn big_opening() {
    open("big A 0", &big_a(), 0);
    open("big A 4", &big_a(), 4);
    for (name, value) in values(6, &[1, 5, 7, -1]) {
        open(&format!("big A 3 record {name}"), &with8(big_a(), INDEX[2] + 1, value), 3);
    }
    for word in [0, 2, 21, -1, 1 << 24] {
        open(&format!("big A 3 word {word}"), &with4(big_a(), INDEX[2] + 3, word), 3);
    }
    for code in [[0x31, 0x20, 0x20, 0x20], [0x32, 0x42, 0x20, 0x20], [0x20, 0x20, 0x20, 0x32]] {
        open(&format!("big A 3 code {}", spelled(&code)), &with_bytes(big_a(), ENTRY[2] + 1, &code), 3);
    }
    for nsec in [-1, 65, 1 << 24] {
        open(&format!("big A 1 nsec {nsec}"), &with4(big_a(), ENTRY[0] + 3, nsec), 1);
    }
    field(1, "nword", 4, 24, &[15, 16, 71, 72, -1]);
    field(1, "xnum", 10, 1, &[0, 2, -1]);
}

/// Refusals 17 to 20 by files in the big order.
pub fn big_contents() {
    field(1, "ldata", 8, 5, &[-1, 0, 6]);
    field(1, "adata", 6, 20, &[16, 19, 21, -1]);
    field(1, "length", 13, 3, &[0, 1, 4, 9, -1]);
    field(1, "address", 15, 17, &[16, 18, 23, -1]);
    section("big A 1 identifier 8", &big_a(), 1, 8);
    section("big A 1 identifier 117440512", &big_a(), 1, 7 << 24);
    section("big A 2 identifier 7", &big_a(), 2, 7);
}

/// File A in an order with bytes as the adata of entry 1, which has no data.
fn with_adata(order: Order, adata: &[u8]) -> Vec<u8> {
    with_bytes(with_field(a_after(order, 3), 8, 0), ENTRY[0] + 6, adata)
}

/// Version and adata as stored: the same bytes in both orders.
pub fn stored_bytes() {
    for order in Order::BOTH {
        let name = |field: &str, bytes: &[u8]| named(order, &format!("A 1 {field} {}", spelled(bytes)));
        for version in [[1, 2, 3, 4], [0xff, 0xff, 0xff, 0xfe], [0x80, 0, 0, 0], [0, 0, 0, 0x80]] {
            open(&name("version", &version), &with_bytes(a_after(order, 3), ENTRY[0] + 2, &version), 1);
        }
        for adata in [
            [1, 2, 3, 4, 5, 6, 7, 8],
            [0, 0, 0, 0, 0, 0, 0, 1],
            [0, 0, 0, 1, 0, 0, 0, 0],
            [0xff, 0xff, 0xff, 0xff, 0, 0, 0, 0],
            [0, 0, 0, 0, 0xff, 0xff, 0xff, 0xff],
            [0x80, 0, 0, 0, 0, 0, 0, 0],
        ] {
            open(&name("ldata 0 adata", &adata), &with_adata(order, &adata), 1);
        }
        open(&format!("P12 {}", name("ldata 0 adata", &[0xff; 8])), &with_adata(order, &[0xff; 8]), 1);
    }
}

/// File N in an order: an entry whose version, identifiers, index word, sections and data have four bytes that differ.
pub fn n(order: Order) -> Vec<u8> {
    let addition = Addition {
        version: 0x0102_0304,
        index: (0x11..=0x14).collect(),
        ids: vec![0x0102_0304, -0x0102_0305],
        lengths: vec![1, 2],
        sections: (0x21..=0x2c).collect(),
        data: (0x31..=0x34).collect(),
    };
    after(created(480, 0, in_order(order, chosen(20, 4, 2, 20))), &addition)
}

/// File N in both orders.
pub fn full_numbers() {
    for order in Order::BOTH {
        let (name, file) = (named(order, "N"), n(order));
        for record in 2..=4 {
            show(&format!("{name} record {record}"), &file[80 * (record - 1)..80 * record]);
        }
        open(&format!("{name} 1"), &file, 1);
        tables(&format!("{name} 1"), &file, 1);
        index(&format!("{name} 1"), &file, 1);
        for identifier in [0x0102_0304, -0x0102_0305, 0x0403_0201] {
            section(&format!("{name} 1 identifier {identifier}"), &file, 1, identifier);
        }
        data(&format!("{name} 1"), &file, 1);
        check(&name, &file);
        for second in [22, 23, 24] {
            open(&format!("{name} 1 addresses 22 {second}"), &with_field(n(order), 20, second), 1);
        }
    }
}

/// Refusal 25 by files in the big order.
pub fn big_ordering() {
    let nword = |entry: usize, value| with8(big_a(), ENTRY[entry - 1] + 4, value);
    check("big A 1 nword 25, over the start of 2", &nword(1, 25));
    check("big A 2 nword 16, to the next area", &nword(2, 16));
    check("big A 2 nword 17, over the next area", &nword(2, 17));
    check("big A 1 a word before its area's end", &placed(Order::Big, 1, 39));
    check("big A 1 at its area's end", &placed(Order::Big, 1, 40));
    check("big A 3 a word before its area's end", &placed(Order::Big, 3, 99));
    check("big A 3 at its area's end", &placed(Order::Big, 3, 100));
    check("big A created", &a_after(Order::Big, 0));
    check("big A code 31", &with_byte(big_a(), 0, 0x31));
    check("big A 2 code 31", &with_byte(big_a(), 4 * ENTRY[1], 0x31));
}

/// Every call on a file with the code of the other order.
pub fn other_code() {
    every_call("A code 32 42 20 20", with_byte(a(), 1, 0x42), 480, 1);
    every_call("big A code 32 41 20 20", with_byte(big_a(), 1, 0x41), 480, 1);
}
