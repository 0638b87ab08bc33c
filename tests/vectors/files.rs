//! File A of document 01 in both orders, and files with words written over.

use crate::reference::{append, create, open_file_of, Addition, OpenFile, Order, Settings, FIELDS};

/// The words of file A before its indexes, and before its entries.
pub const INDEX: [usize; 3] = [20, 24, 80];
pub const ENTRY: [usize; 3] = [40, 64, 100];

/// Settings in the little order with kind 1, vind 2 and flags 0.
pub fn settings(reclen: i32, lind: i32, lex1: i32, gex: i32) -> Settings {
    Settings { order: Order::Little as i32, reclen, kind: 1, vind: 2, lind, flags: 0, lex1, gex }
}

/// Settings with another order.
pub fn in_order(order: Order, chosen: Settings) -> Settings {
    Settings { order: order as i32, ..chosen }
}

/// The name of a case: it says where the file is in the big order.
pub fn named(order: Order, name: &str) -> String {
    match order {
        Order::Little => name.to_string(),
        Order::Big => format!("big {name}"),
    }
}

/// A file of so many bytes, each of one value, with a first record.
pub fn created(bytes: usize, value: u8, chosen: Settings) -> Vec<u8> {
    let mut file = vec![value; bytes];
    assert!(create(&mut file, &chosen).is_ok());
    file
}

/// Words as bytes, the least significant first whatever the order of the file that takes them.
pub fn words(values: &[i32]) -> Vec<u8> {
    values.iter().flat_map(|value| value.to_le_bytes()).collect()
}

/// An entry of version 1 with index words and nothing else.
pub fn bare(index: &[i32]) -> Addition {
    Addition { version: 1, index: words(index), ..Addition::default() }
}

/// A file after an append that is accepted.
pub fn after(mut file: Vec<u8>, addition: &Addition) -> Vec<u8> {
    assert!(append(&mut file, addition).is_ok());
    file
}

/// What the appends of file A are given.
pub fn additions() -> [Addition; 3] {
    let first = Addition {
        version: 1,
        index: words(&[101]),
        ids: vec![7],
        lengths: vec![3],
        sections: words(&[11, 12, 13]),
        data: words(&[21, 22, 23, 24, 25]),
    };
    [first, bare(&[102]), bare(&[103])]
}

/// File A in an order after its first so many appends.
pub fn a_after(order: Order, count: usize) -> Vec<u8> {
    additions()[..count].iter().fold(created(480, 0xee, in_order(order, settings(20, 4, 2, 20))), after)
}

/// File A.
pub fn a() -> Vec<u8> {
    a_after(Order::Little, 3)
}

/// File A in the big order.
pub fn big_a() -> Vec<u8> {
    a_after(Order::Big, 3)
}

/// The record of a file, zeros where it is refused.
pub fn record_of(file: &[u8]) -> OpenFile {
    open_file_of(file).unwrap_or([0; FIELDS.len()])
}

/// The order in which numbers are written over a file: big where the second byte of its code is 42, also in a code that
/// is neither.
fn order_of(file: &[u8]) -> Order {
    if file[1] == 0x42 {
        Order::Big
    } else {
        Order::Little
    }
}

/// A file with an Integer*4 at a word, counted from 1 at the file's start.
pub fn with4(mut file: Vec<u8>, word: usize, value: i32) -> Vec<u8> {
    let bytes = order_of(&file).bytes4(value);
    file[4 * (word - 1)..4 * word].copy_from_slice(&bytes);
    file
}

/// A file with an Integer*8 at a word and the next.
pub fn with8(mut file: Vec<u8>, word: usize, value: i64) -> Vec<u8> {
    let bytes = order_of(&file).bytes8(value);
    file[4 * (word - 1)..4 * (word + 1)].copy_from_slice(&bytes);
    file
}

/// A file with a byte written over it, counted from 0.
pub fn with_byte(mut file: Vec<u8>, at: usize, byte: u8) -> Vec<u8> {
    file[at] = byte;
    file
}
