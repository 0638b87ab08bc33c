//! The cases of records of open files and of the calls through them, in both orders: records of files, calls through a
//! true record, a record with each of its fields altered, and records that are not the file's.

use crate::batches::{laid, zeros};
use crate::files::{a_after, additions, bare, created, in_order, named, record_of, settings, with4, with8, words};
use crate::lines::{append_through, batch_through, open_file, section, show, update_through};
use crate::reference::{append, Addition, Batch, OpenFile, Order, FIELDS};
use crate::updates::by;
use crate::writing::p9;

/// All the cases of one order and then of the other.
pub fn through() {
    for order in Order::BOTH {
        records(order);
        appends(order);
        batches(order);
        updates(order);
        full(order);
        fields(order);
        before_others(order);
        other_files(order);
    }
}

/// The records of file A as created and whole, and of files that are refused.
fn records(order: Order) {
    let a = |name: &str| named(order, &format!("A{name}"));
    open_file(&a(" created"), &a_after(order, 0));
    open_file(&a(""), &a_after(order, 3));
    open_file(&a(", 63 bytes lent"), &a_after(order, 3)[..63]);
    open_file(&a(" aex 1 5"), &with8(a_after(order, 3), 15, 1));
    open_file(&a(" word 20 1"), &with4(a_after(order, 3), 20, 1));
}

/// The appends of file A through its record and one more, and refusals 21 and 22.
fn appends(order: Order) {
    let mut file = a_after(order, 0);
    let mut held = record_of(&file);
    for (i, addition) in additions().iter().enumerate() {
        append_through(&named(order, &format!("A ({})", i + 1)), &mut held, &mut file, 480, addition);
    }
    show(&named(order, "A by appends through a record"), &file);
    append_through(&named(order, "A (4)"), &mut held, &mut file, 480, &bare(&[104]));
    let mut file = a_after(order, 1);
    let mut held = record_of(&file);
    let sevens = Addition { ids: vec![7, 7], lengths: vec![1, 1], sections: vec![0; 8], ..bare(&[9]) };
    for (name, addition) in [("no index bytes", bare(&[])), ("identifiers 7 7", sevens)] {
        append_through(&named(order, &format!("A after (1), {name}")), &mut held, &mut file, 480, &addition);
    }
}

/// Files A and P7 by one batch through the record, P5, no entries, and refusal 26.
fn batches(order: Order) {
    let tested = |name: &str, mut file: Vec<u8>, b: Batch| {
        let bytes = file.len();
        batch_through(&named(order, name), &mut record_of(&file), &mut file, bytes, &b);
        file
    };
    tested("A", a_after(order, 0), laid(&additions()));
    let five = tested("P5", a_after(order, 0)[..400].to_vec(), laid(&additions()));
    open_file(&named(order, "P5 after the batch"), &five);
    tested("A after (2), no entries", a_after(order, 2), zeros(0, 0));
    tested("A after (2), 2 versions 1 row", a_after(order, 2), zeros(2, 1));
    let p7 = tested("P7, 24 entries", created(3520, 0, in_order(order, settings(22, 3, 5, 15))), zeros(24, 24));
    open_file(&named(order, "P7"), &p7);
}

/// Section 7 of file A by one word through the record, and refusals 12, 20 and 28.
fn updates(order: Order) {
    let mut file = a_after(order, 3);
    let mut held = record_of(&file);
    let mut rewrite = |name: &str, entry, identifier, content: &[i32]| {
        update_through(&named(order, name), &mut held, &mut file, 480, &by(entry, identifier, words(content)));
    };
    rewrite("A 1 by 1 word", 1, 7, &[31]);
    rewrite("A 4 by 1 word", 4, 7, &[31]);
    rewrite("A 1 identifier 8 by 1 word", 1, 8, &[31]);
    rewrite("A 1 by 4 words", 1, 7, &[31; 4]);
    section(&named(order, "A 1 by 1 word through a record"), &file, 1, 7);
}

/// P9: a record with 16 addresses and totals, and refusal 23.
fn full(order: Order) {
    let mut file = p9(order);
    let bytes = file.len();
    open_file(&named(order, "P9"), &file);
    append_through(&named(order, "P9 entry 65537"), &mut record_of(&file), &mut file, bytes, &bare(&[]));
}

/// Refusal 27 by each field of the record of file A after (2): as it is after (3), or one more, or the other order.
fn fields(order: Order) {
    let mut file = a_after(order, 2);
    let (own, next) = (record_of(&file), record_of(&a_after(order, 3)));
    for (i, field) in FIELDS.iter().enumerate() {
        let mut held = own;
        held[i] = match i {
            0 => 1 - own[0],
            _ if next[i] != own[i] => next[i],
            _ => own[i] + 1,
        };
        let name = named(order, &format!("A after (2), {field} is {}", held[i]));
        append_through(&name, &mut held, &mut file, 480, &additions()[2]);
    }
}

/// Refusal 27 by one field comes after 26 and before every other, also for no entries.
fn before_others(order: Order) {
    let mut file = a_after(order, 2);
    let mut held = record_of(&file);
    held[6] += 1;
    let name = |what: &str| named(order, &format!("A after (2), xnext is 4, {what}"));
    batch_through(&name("no entries"), &mut held, &mut file, 480, &zeros(0, 0));
    batch_through(&name("2 versions 1 row"), &mut held, &mut file, 480, &zeros(2, 1));
    append_through(&name("no index bytes"), &mut held, &mut file, 480, &bare(&[]));
    update_through(&name("number 0 by no words"), &mut held, &mut file, 480, &by(0, 7, vec![]));
}

/// Records of other files: of the file before it was refused, zeros, of the file before an append without the record and
/// after one more; and of the file itself, lent with a record less, and opened again after the append.
fn other_files(order: Order) {
    let third = |name: &str, mut held: OpenFile, file: &mut [u8]| {
        append_through(&named(order, name), &mut held, file, 480, &additions()[2]);
    };
    let mut file = with4(a_after(order, 2), 2, 15);
    third("A after (2) reclen 15, the record before", record_of(&a_after(order, 2)), &mut file);
    let name = named(order, "A after (2) reclen 15, zeros, no entries");
    batch_through(&name, &mut record_of(&file), &mut file, 480, &zeros(0, 0));
    let mut file = a_after(order, 1);
    let stale = record_of(&file);
    assert!(append(&mut file, &additions()[1]).is_ok());
    third("A after (2), the record after (1)", stale, &mut file);
    third("A after (2), the record after (3)", record_of(&a_after(order, 3)), &mut file);
    let name = named(order, "A after (2), 400 bytes lent, no entries");
    let mut held = record_of(&file);
    batch_through(&name, &mut held, &mut file, 400, &zeros(0, 0));
    third("A after (2), the record opened again", held, &mut file);
}
