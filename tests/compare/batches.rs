//! The cases of batches: of every number of entries, with a refusal at every place, over files that are refused, with
//! wrong counts, and with appends between them.

use crate::cases::{append, disorder, read_entry};
use crate::damage::{edges, fields};
use crate::files::{self, area_words, make, make_full, most_extensions, together, Shape};
use crate::random::Random;
use crate::reference::{self, Addition, Batch, Order, Settings};
use crate::script::{Call, Script};
use crate::sweeps::{any_batch, laid, sweep, with_two_sections, wrong, SPOILED};

/// Settings whose extensions hold 90 entries and more, and are mostly so small that a batch needs several.
fn settings(random: &mut Random, order: Order) -> Settings {
    let (reclen, lind) = (random.pick(&[46, 47, 64, 128, 300]), random.pick(&[3, 4, 5, 256]));
    let gex = random.from(10, 20) as i32;
    let lex1 = if gex < 15 { random.pick(&[6, 7, 9, 64]) } else { random.pick(&[1, 2, 3, 6]) };
    Settings { reclen, lind, lex1, gex, ..files::settings(random, order) }
}

/// The records that some entries take with the index areas of a file of so many entries all in all.
pub fn records_for(s: &Settings, entries: &[Addition], all: usize) -> usize {
    let words = |a: &Addition| 11 + 5 * a.ids.len() + a.sections.len() / 4 + a.data.len() / 4;
    let content: usize = entries.iter().map(words).sum();
    let areas: Vec<usize> = (1..=16).take_while(|&k| together(s, k - 1) < all).map(|k| area_words(s, k)).collect();
    (content + areas.iter().sum::<usize>()) / s.reclen as usize + areas.len() + 1
}

/// Lends a file without entries that has so many records more than the first, and creates it.
pub fn lend_created(random: &mut Random, script: &mut Script, s: &Settings, records: usize) {
    let bytes = random.bytes(4 * (1 + records) * s.reclen as usize);
    script.lend(&bytes, bytes.len());
    script.call(Call::Create(*s));
}

/// Lends a file with up to 12 entries that has so many records to spare.
pub fn lend_made(random: &mut Random, script: &mut Script, s: &Settings, records: usize) {
    let entries = random.from(1, 12);
    let shape = Shape { settings: *s, entries, spare_records: records, ..files::shape(random, script.order) };
    let made = make(random, &shape);
    script.lend(&made.bytes, made.bytes.len());
}

/// Appends entries by the reference, one by one up to the first refusal; gives what a batch of them must answer.
fn one_by_one(file: &mut [u8], entries: &[Addition]) -> [u64; 2] {
    for (accepted, a) in (0..).zip(entries) {
        if let Err(refusal) = reference::append(file, a) {
            return [refusal.number as u64, accepted];
        }
    }
    [0, entries.len() as u64]
}

/// Asks for a batch of entries. The reference must answer as it does to the entries one by one, and leave the same
/// bytes.
fn store(script: &mut Script, entries: &[Addition]) {
    let mut file = script.file.clone();
    let wanted = if entries.len() > 64 { [26, 0] } else { one_by_one(&mut file, entries) };
    script.call(Call::AppendBatch(laid(entries)));
    let given = script.asked.last().map_or(&[][..], |asked| &asked.answer.fields);
    assert_eq!(given, wanted, "the reference does not answer a batch as its appends");
    assert!(script.file == file, "the reference does not store a batch as its appends");
}

/// Validates and checks the file, asks for its record, and reads its last entry, one anywhere, and one that is not
/// there.
pub fn look(random: &mut Random, script: &mut Script) {
    script.call(Call::Validate);
    script.call(Call::OpenFileOf);
    script.call(Call::Check);
    let last = reference::validate(&script.file).map_or(0, |d| d.entries() as usize);
    for entry in [last, random.from(1, last.max(1)), last + 1] {
        read_entry(script, entry as u64);
    }
}

/// A batch of each number of entries in turn, 0 to 65, over a file with entries and over a created one, and an append
/// and a batch after it; then its entries one by one.
pub fn sizes(random: &mut Random, script: &mut Script) {
    let s = settings(random, script.order);
    let (entries, more) = (sweep(random, s.lind, script.turn), sweep(random, s.lind, 3));
    let records = records_for(&s, &entries, 90);
    for lend in [lend_made, lend_created] {
        lend(random, script, &s, records);
        store(script, &entries);
        look(random, script);
        append(random, script, s.lind, 6);
        store(script, &more);
        look(random, script);
    }
    script.again();
    script.call(Call::Create(s));
    for a in entries {
        script.call(Call::Append(a));
    }
}

/// Batches in which the first entry, one between or the last is spoiled, in each way of refusals 21 and 22, and at
/// times a good batch after it.
pub fn refused_entries(random: &mut Random, script: &mut Script) {
    let lind = [3, 4, 5, 256][script.turn % 4];
    let s = Settings { lind, ..settings(random, script.order) };
    let count = random.pick(&[3, 4, 9, 64]);
    let entries = sweep(random, lind, count);
    let records = records_for(&s, &entries, count + 14);
    lend_made(random, script, &s, records);
    for spoil in SPOILED {
        for place in [0, random.from(1, count - 2), count - 1] {
            script.again();
            let mut batch = entries.clone();
            batch[place] = with_two_sections(random, lind);
            spoil(&mut batch[place]);
            store(script, &batch);
            if random.once_in(3) {
                store(script, &entries[..2]);
            }
            script.call(Call::Check);
        }
    }
}

/// Batches in which an entry needs an extension that is not admitted.
pub fn refused_growth(random: &mut Random, script: &mut Script) {
    past_last_extension(random, script);
    past_greatest_capacity(random, script);
}

/// A file of few extensions that are filled up but for some entries, and a batch of four.
fn past_last_extension(random: &mut Random, script: &mut Script) {
    let (reclen, lex1) = (16 + (script.turn % 5) as i32, random.from(4, 9) as i32);
    let s = Settings { reclen, lex1, ..files::settings(random, script.order) };
    let held = together(&s, most_extensions(&s));
    let entries = sweep(random, s.lind, held);
    let batch = sweep(random, s.lind, 4);
    let records = records_for(&s, &[&entries[..], &batch].concat(), held);
    for place in [0, 2, 3] {
        lend_created(random, script, &s, records);
        store(script, &entries[..held - place]);
        store(script, &batch);
        look(random, script);
    }
}

/// A file whose next extension would have over 16,384 entries, full but for some that are not there, and a batch of
/// four.
fn past_greatest_capacity(random: &mut Random, script: &mut Script) {
    let (reclen, lind) = (random.pick(&[46, 64, 128]), random.from(3, 4) as i32);
    let lex1 = random.from(2049, 2100) as i32;
    let s = Settings { reclen, lind, lex1, gex: 20, ..files::settings(random, script.order) };
    let made = make_full(&s, 3, 10);
    let held = together(&s, 3);
    script.lend(&made.bytes, made.bytes.len());
    for place in [0, 2, 3] {
        script.again();
        script.poke(4 * 6, &script.order.bytes8((held - place) as i64 + 1));
        store(script, &[(); 4].map(|()| with_two_sections(random, lind)));
        script.call(Call::Validate);
        script.call(Call::Open(held as u64));
    }
}

/// Batches of four in which an entry ends within one word of the file's end, with a new extension and without.
pub fn refused_room(random: &mut Random, script: &mut Script) {
    let s = Settings { lex1: 4, gex: 10, ..settings(random, script.order) };
    let entries = sweep(random, s.lind, 7);
    let records = records_for(&s, &entries, 7);
    lend_created(random, script, &s, records);
    for (place, before) in [0, 2, 3].into_iter().flat_map(|place| [0, 1, 2, 3].map(|before| (place, before))) {
        for more in 0..3 {
            script.again();
            script.call(Call::Create(s));
            store(script, &entries[..before]);
            let mut batch = entries[3..].to_vec();
            fill_at(&script.file, &mut batch, place, more);
            store(script, &batch);
            script.call(Call::Check);
        }
    }
}

/// Gives one entry of a batch as much data as ends a word before the file's end, and some words more.
fn fill_at(file: &[u8], batch: &mut [Addition], place: usize, more: usize) {
    let bare = Addition { index: batch[place].index.clone(), ..Addition::default() };
    let mut file = file.to_vec();
    let all = batch[..place].iter().chain([&bare]).all(|a| reference::append(&mut file, a).is_ok());
    assert!(all, "the file has no room for a batch without data");
    let free = reference::validate(&file).map_or(0, |d| d.free() as usize);
    let left = file.len() / 4 - free;
    batch[place] = Addition { data: vec![0x5a; 4 * (left - 1 + more)], ..bare };
}

/// Batches over files that are refused: with each edge value in each field of the first record, and of other lengths.
pub fn refused_files(random: &mut Random, script: &mut Script) {
    let mut shape = files::shape(random, script.order);
    shape.settings.lind = random.pick(&[3, 4, 5]);
    shape.settings.lex1 = random.from(1, 3) as i32;
    shape.entries = random.from(0, 3).min(together(&shape.settings, most_extensions(&shape.settings)));
    shape.most_sections = 3;
    shape.spare_records = 1 + 300 / shape.settings.reclen as usize;
    let made = make(random, &shape);
    script.lend(&made.bytes, made.bytes.len());
    for field in fields(&made).iter().filter(|field| field.entry == 0) {
        for value in edges(&made, field) {
            script.again();
            script.poke(field.at, &value);
            three_batches(random, script, shape.settings.lind);
        }
    }
    let size = made.bytes.len();
    for length in [0, 1, 10, 63, 64, 65, size - 4, size, size + 1, size + 4 * made.reclen()] {
        let mut bytes = made.bytes.clone();
        bytes.resize(length, 0);
        script.lend(&bytes, length);
        three_batches(random, script, shape.settings.lind);
    }
}

/// Asks for a batch of no entries, for one with wrong counts, and for one with entries.
fn three_batches(random: &mut Random, script: &mut Script, lind: i32) {
    let count = random.from(1, 3);
    let entries = sweep(random, lind, count);
    let mut all = wrong(&laid(&entries));
    script.call(Call::AppendBatch(Batch::default()));
    script.call(Call::AppendBatch(all.swap_remove(random.from(0, all.len() - 1))));
    store(script, &entries);
}

/// Every batch with wrong counts near a good one, and then the good one: over 10 bytes, over a file with another code,
/// and over one that takes it.
pub fn wrong_counts(random: &mut Random, script: &mut Script) {
    let s = settings(random, script.order);
    let count = [0, 1, 2, 3, 4, 64][script.turn % 6];
    let mut entries = sweep(random, s.lind, count);
    entries.iter_mut().take(1).for_each(|first| *first = with_two_sections(random, s.lind));
    script.lend(&random.bytes(10), 10);
    every_wrong(script, &entries);
    let records = records_for(&s, &entries, count + 12);
    lend_made(random, script, &s, records);
    script.poke(1, b"C");
    every_wrong(script, &entries);
    script.again();
    every_wrong(script, &entries);
    look(random, script);
}

/// Asks for every batch with wrong counts near a good one, which the reference must refuse by 26, and for the good one.
fn every_wrong(script: &mut Script, entries: &[Addition]) {
    for batch in wrong(&laid(entries)) {
        let refusal = script.call(Call::AppendBatch(batch));
        assert_eq!(refusal, 26, "the reference does not refuse wrong counts by 26");
    }
    store(script, entries);
}

/// Batches of every kind, with appends between them, over a made file, also one that is not in order.
pub fn any_batches(random: &mut Random, script: &mut Script) {
    let mut shape = files::shape(random, script.order);
    disorder(random, &mut shape, 4);
    shape.spare_records = random.pick(&[0, 400, 1500, 6000]) / shape.settings.reclen as usize;
    let made = make(random, &shape);
    script.lend(&made.bytes, made.bytes.len());
    for _ in 0..10 {
        if random.once_in(5) {
            script.again();
        }
        let batch = any_batch(random, shape.settings.lind);
        script.call(Call::AppendBatch(batch));
        if random.once_in(3) {
            append(random, script, shape.settings.lind, 4);
        }
        if random.once_in(3) {
            look(random, script);
        }
    }
}
