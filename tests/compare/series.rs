//! The series for demand 3: appends, batches and updates in any order, through a record and without it, from a created
//! file or from one in order.

use crate::cases::{append, number, read_all};
use crate::files::{self, make};
use crate::random::Random;
use crate::reference;
use crate::script::{Call, Script, Through};
use crate::sweeps::any_batch;
use crate::updates::any_update;

/// A series of appends good and bad.
pub fn of_appends(random: &mut Random, script: &mut Script) {
    let lind = begin(random, script);
    for _ in 0..random.from(4, 40) {
        append(random, script, lind, 4);
    }
    look(script);
}

/// A series of appends and batches good and bad.
pub fn with_batches(random: &mut Random, script: &mut Script) {
    let lind = begin(random, script);
    for _ in 0..random.from(3, 12) {
        if random.once_in(2) {
            append(random, script, lind, 4);
        } else {
            let batch = any_batch(random, lind);
            script.call(Call::AppendBatch(batch));
        }
    }
    look(script);
}

/// A series of updates, appends and batches good and bad, which is looked at in between too.
pub fn with_updates(random: &mut Random, script: &mut Script) {
    let lind = begin(random, script);
    for _ in 0..random.from(6, 40) {
        change(random, script, lind);
        if random.once_in(16) {
            look(script);
        }
    }
    look(script);
}

/// A series of updates, appends and batches good and bad, mostly through a record that is kept, with the record of the
/// file asked for after each. One without the record makes it false until the file is opened again.
pub fn through_a_record(random: &mut Random, script: &mut Script) {
    let lind = begin(random, script);
    script.open();
    for _ in 0..random.from(6, 40) {
        script.through = if random.once_in(8) { Through::Nothing } else { Through::Held };
        if random.once_in(2) {
            append(random, script, lind, 4);
        } else {
            change(random, script, lind);
        }
        if random.once_in(4) {
            script.open();
        } else {
            script.call(Call::OpenFileOf);
        }
    }
    look(script);
}

/// An append, a batch, or mostly an update, good or bad.
pub fn change(random: &mut Random, script: &mut Script, lind: i32) {
    match random.from(1, 8) {
        1 | 2 => append(random, script, lind, 4),
        3 => script.call(Call::AppendBatch(any_batch(random, lind))),
        _ => {
            let entry = entry_to_update(random, &script.file);
            script.call(Call::Update(any_update(random, &script.file, entry)))
        }
    };
}

/// The number of an entry to update: mostly of one that has sections.
fn entry_to_update(random: &mut Random, file: &[u8]) -> u64 {
    let last = reference::validate(file).map_or(0, |d| d.entries() as u64);
    let has_sections = |entry: &u64| reference::open(file, *entry).is_ok_and(|e| e.nsec > 0);
    let entries: Vec<u64> = (1..=last).filter(has_sections).collect();
    if entries.is_empty() || random.once_in(8) {
        return number(random, last as usize);
    }
    random.pick(&entries)
}

/// Begins a series with a created file or with one in order, of which all entries are read; gives the file's lind.
fn begin(random: &mut Random, script: &mut Script) -> i32 {
    let mut shape = files::shape(random, script.order);
    shape.settings.lex1 += random.pick(&[0, 1, 6]);
    shape.spare_records = 1 + random.from(100, 9000) / shape.settings.reclen as usize;
    if random.once_in(2) {
        let made = make(random, &shape);
        script.lend(&made.bytes, made.bytes.len());
    } else {
        let bytes = random.bytes(4 * (1 + shape.spare_records) * shape.settings.reclen as usize);
        script.lend(&bytes, bytes.len());
        script.call(Call::Create(shape.settings));
    }
    read_all(script);
    shape.settings.lind
}

/// Reads all entries, and then checks the order.
fn look(script: &mut Script) {
    read_all(script);
    script.call(Call::Check);
}
