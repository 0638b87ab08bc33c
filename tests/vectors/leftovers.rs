//! The cases of refusal 29: words of the first record after the addresses in use that are not zero, in both orders.

use crate::files::{a_after, bare, created, in_order, named, settings, with4, with8, with_byte};
use crate::lines::{append, describe, every_call, validate};
use crate::reference::Order;

/// File A and records of other lengths, each in both orders.
pub fn leftovers() {
    Order::BOTH.into_iter().for_each(in_file_a);
    Order::BOTH.into_iter().for_each(in_other_records);
}

/// File A in an order: every word after its addresses as it grows, the last byte of the record and the next, addresses
/// past nex, and the place of 29 among the refusals.
fn in_file_a(order: Order) {
    let name = |text: &str| named(order, text);
    let a = || a_after(order, 3);
    for word in 15..=20 {
        validate(&name(&format!("A created, word {word} 1")), &with4(a_after(order, 0), word, 1));
    }
    for word in 17..=20 {
        validate(&name(&format!("A after (2), word {word} -1")), &with4(a_after(order, 2), word, -1));
    }
    for byte in [72, 79, 80] {
        validate(&name(&format!("A byte {byte} 128")), &with_byte(a(), byte, 128));
    }
    describe(&name("A aex 2 5 1, the third not in use"), &with8(a(), 19, 1));
    let fewer = with8(with4(a(), 13, 1), 7, 3);
    validate(&name("A nex 1, xnext 3, the second address left"), &fewer);
    validate(&name("A nex 1, xnext 3, no address left"), &with8(fewer, 17, 0));
    validate(&name("A aex 1 5, word 20 1"), &with4(with8(a(), 15, 1), 20, 1));
    append(&name("A word 20 1, no index bytes"), &mut with4(a(), 20, 1), 480, &bare(&[]));
    every_call(&name("word 20 1"), with4(a(), 20, 1), 480, 1);
    every_call(&name("word 20 1, number 0"), with4(a(), 20, 1), 480, 0);
}

/// New files of two records, of the least and the greatest reclen and of odd ones, and files with sixteen extensions.
fn in_other_records(order: Order) {
    let chosen = |reclen| in_order(order, settings(reclen, 3, 1, 10));
    let new: [(i32, &[usize]); 4] =
        [(16, &[15, 16]), (17, &[15, 17]), (47, &[46, 47]), (4096, &[15, 46, 47, 4095, 4096])];
    for (reclen, words) in new {
        for &word in words {
            let file = with4(created(8 * reclen as usize, 0, chosen(reclen)), word, 1);
            validate(&named(order, &format!("reclen {reclen}, word {word} 1")), &file);
        }
    }
    for reclen in [46, 47, 48] {
        let mut file = with4(created(4 * 17 * reclen as usize, 0, chosen(reclen)), 13, 16);
        file = with8(with8(file, 7, 17), 9, 18);
        for k in 0..16 {
            file = with8(file, 15 + 2 * k, 2 + k as i64);
        }
        let sixteen = named(order, &format!("sixteen extensions, reclen {reclen}"));
        validate(&sixteen, &file);
        if reclen > 46 {
            validate(&format!("{sixteen}, the last word 1"), &with4(file, reclen as usize, 1));
        }
    }
}
