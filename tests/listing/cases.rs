//! The inputs: files made, damaged, turned, cut and grown, in both orders, of every length up to and past 65,536 bytes.
//! An input is made from the seed and its case's number alone.

use crate::additions::addition;
use crate::damage::{codes, edges, fields, random_damage, turned};
use crate::files::{self, make, make_full, together, Made, Shape};
use crate::random::Random;
use crate::reference::{self, Addition, Order, Settings};

/// The most bytes that are listed.
const LIMIT: usize = 65536;

/// A kind of inputs: its name, how many cases are of it, and what makes one of an order.
pub type Kind = (&'static str, usize, fn(&mut Random, Order) -> Vec<u8>);

/// An input, with its kind as a place in PLAN, and the order that it counts for: its own, or where its code says none
/// the order of its case.
pub struct Input {
    pub kind: usize,
    pub order: Order,
    pub bytes: Vec<u8>,
}

/// The kinds, one after another.
pub const PLAN: [Kind; 13] = [
    ("whole files", 400, whole),
    ("damaged files", 800, damaged),
    ("files with many damaged entries", 250, damaged_entries),
    ("damaged first records", 250, damaged_first_record),
    ("files by appends", 150, appended),
    ("files cut or grown", 200, cut_or_grown),
    ("inputs near the limit", 120, near_the_limit),
    ("files with hundreds of entries", 20, hundreds),
    ("files with thousands of entries", 40, thousands),
    ("other bytes", 100, other_bytes),
    ("files whose capacities have fractions", 60, fractions),
    ("files with another code", 80, other_code),
    ("files turned in part", 120, turned_in_part),
];

/// The number of cases.
pub fn count() -> usize {
    PLAN.iter().map(|(_, count, _)| count).sum()
}

/// The input of a case. The cases of a kind have the two orders in turn.
pub fn input(seed: u64, case: usize) -> Input {
    let (mut kind, mut place) = (0, case);
    while place >= PLAN[kind].1 {
        place -= PLAN[kind].1;
        kind += 1;
    }
    let order = Order::BOTH[place % 2];
    let bytes = PLAN[kind].2(&mut Random::new(seed, case as u64), order);
    Input { kind, order: Order::of_file(&bytes).unwrap_or(order), bytes }
}

/// A random shape whose file is mostly within the limit.
fn shape(random: &mut Random, order: Order) -> Shape {
    let mut shape = files::shape(random, order);
    if shape.settings.reclen > 512 && !random.once_in(4) {
        shape.settings.reclen = random.from(16, 512) as i32;
        shape.entries = shape.entries.min(together(&shape.settings, files::most_extensions(&shape.settings)));
    }
    shape
}

/// A file as it was made, sometimes with its entries out of order, overlapping, or with 65 sections.
fn whole(random: &mut Random, order: Order) -> Vec<u8> {
    let mut shape = shape(random, order);
    if shape.entries > 0 && random.once_in(3) {
        match random.from(1, 3) {
            1 => shape.shuffled = true,
            2 => shape.overlaps = true,
            _ => (shape.least_sections, shape.most_sections) = (62, 65),
        }
    }
    make(random, &shape).bytes
}

/// A made file with one entry or more.
fn made_with_entries(random: &mut Random, order: Order) -> Made {
    let mut shape = shape(random, order);
    shape.entries = shape.entries.max(1);
    make(random, &shape)
}

/// Changes bytes of a file.
fn put(bytes: &mut [u8], at: usize, new: &[u8]) {
    bytes[at..at + new.len()].copy_from_slice(new);
}

/// A file with one to three damages.
fn damaged(random: &mut Random, order: Order) -> Vec<u8> {
    let made = made_with_entries(random, order);
    let fields = fields(&made);
    let mut bytes = made.bytes.clone();
    for _ in 0..random.pick(&[1, 1, 1, 2, 3]) {
        let (at, new) = random_damage(random, &made, &fields);
        put(&mut bytes, at, &new);
    }
    bytes
}

/// A file of which every second entry or so has a damage in its index or in itself.
fn damaged_entries(random: &mut Random, order: Order) -> Vec<u8> {
    let made = made_with_entries(random, order);
    let fields = fields(&made);
    let mut bytes = made.bytes.clone();
    for entry in 1..=made.entries.len() {
        let own: Vec<_> = fields.iter().filter(|field| field.entry == entry).collect();
        if random.once_in(2) {
            let field = own[random.from(0, own.len() - 1)];
            let values = edges(&made, field);
            put(&mut bytes, field.at, &values[random.from(0, values.len() - 1)]);
        }
    }
    bytes
}

/// A file with one damage to a field of its first record.
fn damaged_first_record(random: &mut Random, order: Order) -> Vec<u8> {
    let made = made_with_entries(random, order);
    let fields = fields(&made);
    let first = fields.iter().take_while(|field| field.entry == 0).count();
    let field = &fields[random.from(0, first - 1)];
    let values = edges(&made, field);
    let mut bytes = made.bytes.clone();
    put(&mut bytes, field.at, &values[random.from(0, values.len() - 1)]);
    bytes
}

/// A file created and appended to by the independent implementation, with data of any size, sometimes great from the
/// start.
fn appended(random: &mut Random, order: Order) -> Vec<u8> {
    let settings = files::settings(random, order);
    let record = 4 * settings.reclen as usize;
    let great = random.once_in(4);
    let records = if great { LIMIT / record } else { random.from(1, LIMIT / record) };
    let mut bytes = random.bytes(record * records);
    if reference::create(&mut bytes, &settings).is_err() {
        return bytes;
    }
    let most_data = random.pick(&[0, 10, 300, 5000, 16000]);
    for i in 0..random.from(1, 60) {
        let mut a: Addition = addition(random, settings.lind);
        let data_words = if great && i == 0 { random.from(9000, 14000) } else { random.from(0, most_data) };
        a.data = random.bytes(4 * data_words);
        if reference::append(&mut bytes, &a).is_err() && random.once_in(3) {
            break;
        }
    }
    bytes
}

/// A made file with another length than its own.
fn cut_or_grown(random: &mut Random, order: Order) -> Vec<u8> {
    let made = made_with_entries(random, order);
    let (size, record) = (made.bytes.len(), 4 * made.reclen());
    let any = random.from(0, size);
    let grown = size + record * random.from(1, 20);
    let lengths =
        [0, 1, 56, 63, 64, 65, size - record, size - 4, size - 1, size + 1, size + 4, size + record, any, grown];
    let mut bytes = made.bytes;
    bytes.resize(random.pick(&lengths), 0);
    bytes
}

/// A file with records of a power of two words, so that it is whole with 65,536 bytes, of a length near that.
fn near_the_limit(random: &mut Random, order: Order) -> Vec<u8> {
    let mut shape = shape(random, order);
    shape.settings.reclen = random.pick(&[16, 32, 64, 128, 256, 512, 1024, 2048, 4096]);
    shape.entries = shape.entries.min(together(&shape.settings, files::most_extensions(&shape.settings)));
    let record = 4 * shape.settings.reclen as usize;
    let mut bytes = make(random, &shape).bytes;
    let lengths = [LIMIT - record, LIMIT - 1, LIMIT, LIMIT, LIMIT, LIMIT + 1, LIMIT + 4, LIMIT + record, 2 * LIMIT];
    bytes.resize(random.pick(&lengths), 0xee);
    bytes
}

/// The settings of a file with great numbers of entries.
fn great_settings(order: Order, reclen: i32, lind: i32, lex1: i32) -> Settings {
    Settings { order: order as i32, reclen, kind: 1, vind: 2, lind, flags: 0, lex1, gex: 10 }
}

/// A file with hundreds of entries.
fn hundreds(random: &mut Random, order: Order) -> Vec<u8> {
    let (reclen, lex1) = (random.pick(&[16, 17, 20, 32, 128]), random.pick(&[300, 500, 700]));
    let shape = Shape {
        settings: great_settings(order, reclen, 3, lex1),
        entries: random.from(lex1 as usize / 2, lex1 as usize),
        least_sections: 0,
        most_sections: 0,
        gaps: false,
        shuffled: random.once_in(3),
        overlaps: false,
        spare_records: random.from(0, 2),
    };
    make(random, &shape).bytes
}

/// A file with thousands of entries, nearly as many as 65,536 bytes can have, whose indexes lead anywhere.
fn thousands(random: &mut Random, order: Order) -> Vec<u8> {
    let grown = [(18, 3, 2724, 2), (22, 3, 1356, 4), (16, 3, 4096, 1), (16, 4, 4000, 1), (26, 5, 400, 5)];
    let (reclen, lind, lex1, extensions) = random.pick(&grown);
    let settings = great_settings(order, reclen, lind, lex1);
    let mut made = make_full(&settings, extensions, 0);
    let records = made.bytes.len() / 4 / made.reclen();
    for area in made.areas.clone() {
        for j in 0..lex1 as usize {
            let at = 4 * (area + j * lind as usize);
            put(&mut made.bytes, at, &order.bytes8(random.from(1, records + 1) as i64));
            put(&mut made.bytes, at + 8, &order.bytes4(random.from(0, reclen as usize + 1) as i32));
        }
    }
    made.bytes
}

/// Bytes that are no file, some with a file's code before them, and some short.
fn other_bytes(random: &mut Random, order: Order) -> Vec<u8> {
    let most = random.pick(&[0, 3, 63, 64, 200, 4096, LIMIT + 100]);
    let size = random.from(0, most);
    let mut bytes = if random.once_in(2) { random.bytes(size) } else { vec![random.pick(&[0, 0xff, b'2']); size] };
    if size >= 4 && random.once_in(2) {
        put(&mut bytes, 0, &order.code());
    }
    bytes
}

/// A file in order with four extensions or five, whose capacities have fractions.
fn fractions(random: &mut Random, order: Order) -> Vec<u8> {
    let mut shape = shape(random, order);
    let (lex1, gex) = random.pick(&[(1, 15), (1, 15), (5, 15), (1, 17), (2, 13), (3, 18), (3, 11), (4, 19)]);
    let (reclen, lind) = (random.from(24, 200) as i32, random.from(3, 12) as i32);
    shape.settings = Settings { reclen, lind, lex1, gex, ..shape.settings };
    shape.entries = random.from(together(&shape.settings, 3) + 1, together(&shape.settings, 5));
    shape.most_sections = shape.most_sections.min(5);
    make(random, &shape).bytes
}

/// A made file with another code, of the other order too.
fn other_code(random: &mut Random, order: Order) -> Vec<u8> {
    let made = made_with_entries(random, order);
    let codes = codes(order.code());
    let mut bytes = made.bytes;
    put(&mut bytes, 0, &codes[random.from(0, codes.len() - 1)]);
    bytes
}

/// A made file of which the first fields hold what they would in the other order: those of the first record at least,
/// mostly those of some entries and their indexes too, sometimes all.
fn turned_in_part(random: &mut Random, order: Order) -> Vec<u8> {
    let made = made_with_entries(random, order);
    let fields = fields(&made);
    let first = fields.iter().take_while(|field| field.entry == 0).count();
    let some = random.from(first, fields.len());
    let count = random.pick(&[first, some, some, fields.len()]);
    let mut bytes = made.bytes.clone();
    for field in &fields[..count] {
        put(&mut bytes, field.at, &turned(&made, field));
    }
    bytes
}
