//! The cases: files made, damaged, turned, cut, grown and created, and the calls asked of them. A case is made from the
//! seed and its number alone.

use crate::additions::{addition, spoil};
use crate::batches;
use crate::damage::{codes, edges, fields, random_damage, turned, Field};
use crate::examples::examples;
use crate::files::{self, area_words, make, make_full, most_extensions, put_bare, together, Made, Shape};
use crate::filling;
use crate::held;
use crate::random::Random;
use crate::reference::{self, Addition, Order, Settings};
use crate::script::{Asked, Call, Script};
use crate::series;
use crate::sweeps::{laid, sweep};
use crate::updates::{self, any_update};

/// What writes a case of a kind into a script.
pub type Kind = fn(&mut Random, &mut Script);

/// How many cases there are of each kind in each order, one kind after another.
const PLAN: [(usize, Kind); 43] = [
    (1, examples),
    (20, every_edge),
    (6, last_of_64),
    (4, great_lengths),
    (20, great_numbers),
    (33, growths),
    (60, cut_and_grown),
    (20, other_codes),
    (60, turned_over),
    (4081, leftovers),
    (1000, damaged),
    (400, whole),
    (200, creations),
    (300, appends),
    (66, batches::sizes),
    (8, batches::refused_entries),
    (10, batches::refused_growth),
    (6, batches::refused_room),
    (4, batches::refused_files),
    (12, batches::wrong_counts),
    (100, batches::any_batches),
    (40, updates::every_section),
    (8, updates::not_there),
    (20, updates::twice),
    (6, updates::every_edge),
    (6, updates::other_lengths),
    (60, updates::shared),
    (12, updates::neighbours),
    (150, updates::any_updates),
    (8, held::every_field),
    (10, held::other_records),
    (3, held::refused_files),
    (6, held::wrong_counts),
    (8, held::grown),
    (3, held::great_totals),
    (39, held::both_ways),
    (300, filling::small),
    (60, filling::to_the_end),
    (4, filling::about_16384),
    (SERIES, series::of_appends),
    (BATCH_SERIES, series::with_batches),
    (UPDATE_SERIES, series::with_updates),
    (RECORD_SERIES, series::through_a_record),
];

/// The numbers of series in each order, of appends, with batches, with updates, and through a record; they are the last
/// cases.
const SERIES: usize = 250;
const BATCH_SERIES: usize = 100;
const UPDATE_SERIES: usize = 120;
const RECORD_SERIES: usize = 100;

/// The number of cases.
pub fn count() -> usize {
    PLAN.iter().map(|(count, _)| 2 * count).sum()
}

/// Says whether a case is a series for demand 3.
pub fn is_series(case: usize) -> bool {
    case >= count() - 2 * (SERIES + BATCH_SERIES + UPDATE_SERIES + RECORD_SERIES)
}

/// Makes a case.
pub fn script(seed: u64, case: usize) -> Script {
    watching(seed, case, None)
}

/// The file of a case as it is before a call.
pub fn file_before(seed: u64, case: usize, call: usize) -> Vec<u8> {
    watching(seed, case, Some(call)).watched_file
}

/// Makes a case in which a call may be watched. The cases of a kind have the two orders in turn.
fn watching(seed: u64, case: usize, watched: Option<usize>) -> Script {
    let mut random = Random::new(seed, case as u64);
    let (kind, place) = kind_of(case);
    let mut script = Script::new(Order::BOTH[place % 2], place / 2, watched);
    kind(&mut random, &mut script);
    script
}

/// The kind of a case, and its place among the cases of the kind.
fn kind_of(case: usize) -> (Kind, usize) {
    let mut place = case;
    for (count, kind) in PLAN {
        if place < 2 * count {
            return (kind, place);
        }
        place -= 2 * count;
    }
    panic!("there is no case {case}")
}

/// A number to ask for: mostly one of 1 to last, else one past an edge.
pub fn number(random: &mut Random, last: usize) -> u64 {
    let last = last as u64;
    if last > 0 && !random.once_in(4) {
        return random.from(1, last as usize) as u64;
    }
    let any = random.next();
    random.pick(&[0, last + 1, 1 << 31, (1 << 32) + 1, (1 << 32) + last, 1 << 63, (1 << 63) + last, u64::MAX, any])
}

/// An identifier to ask an entry for: mostly one that it has.
fn identifier(random: &mut Random, made: &Made, entry: u64) -> i32 {
    match made.entries.get((entry as usize).wrapping_sub(1)) {
        Some(placed) if !placed.ids.is_empty() && !random.once_in(4) => random.pick(&placed.ids),
        _ => random.pick(&[0, 1, -1, 7, i32::MIN, i32::MAX]),
    }
}

/// One of the calls that read, about an entry.
fn reading(random: &mut Random, made: &Made, entry: u64) -> Call {
    match random.from(1, 8) {
        1 => Call::Validate,
        2 => Call::ExtensionOf(number(random, made.areas.len())),
        3 => Call::Open(entry),
        4 => Call::IndexWords(entry),
        5 => Call::Section(entry, identifier(random, made, entry)),
        6 => Call::Data(entry),
        7 => Call::OpenFileOf,
        _ => Call::Check,
    }
}

/// Every call that reads, about an entry.
fn all_readings(random: &mut Random, script: &mut Script, made: &Made, entry: u64) {
    script.call(Call::Validate);
    script.call(Call::ExtensionOf(number(random, made.areas.len())));
    script.call(Call::Open(entry));
    script.call(Call::IndexWords(entry));
    script.call(Call::Section(entry, identifier(random, made, entry)));
    script.call(Call::Data(entry));
    script.call(Call::Check);
    script.call(Call::OpenFileOf);
}

/// Appends, spoiled once in so many times.
pub fn append(random: &mut Random, script: &mut Script, lind: i32, spoiled: usize) -> u32 {
    let mut a = addition(random, lind);
    if random.once_in(spoiled) {
        for _ in 0..random.pick(&[1, 1, 1, 2]) {
            spoil(random, &mut a);
        }
    }
    script.call(Call::Append(a))
}

/// The shape of a small file, with two or three entries of up to three sections.
pub fn small_shape(random: &mut Random, order: Order) -> Shape {
    let mut shape = files::shape(random, order);
    shape.settings.reclen = random.pick(&[18, 20, 24, 32, 48]);
    shape.settings.lind = shape.settings.lind.min(12);
    shape.settings.lex1 = random.from(1, 2) as i32;
    shape.entries = random.from(2, 3).min(together(&shape.settings, 2));
    shape.most_sections = 3;
    shape.spare_records = 4;
    shape
}

/// Each edge value in each field of a small file.
fn every_edge(random: &mut Random, script: &mut Script) {
    let shape = small_shape(random, script.order);
    let made = make(random, &shape);
    script.lend(&made.bytes, made.bytes.len());
    damage_each(random, script, &made, &fields(&made));
}

/// Each edge value in the fields of the last of 64 sections.
fn last_of_64(random: &mut Random, script: &mut Script) {
    let mut shape = files::shape(random, script.order);
    (shape.entries, shape.least_sections, shape.most_sections) = (1, 64, 64);
    let made = make(random, &shape);
    script.lend(&made.bytes, made.bytes.len());
    let fields = fields(&made);
    damage_each(random, script, &made, &fields[fields.len() - 3..]);
}

/// Puts each edge value into each of some fields, one at a time, with a few calls.
fn damage_each(random: &mut Random, script: &mut Script, made: &Made, fields: &[Field]) {
    for field in fields {
        for value in edges(made, field) {
            script.again();
            script.poke(field.at, &value);
            if field.entry == 0 {
                script.call(Call::Validate);
                script.call(reading(random, made, 1));
                append(random, script, made.settings.lind, 12);
            } else {
                script.call(Call::Open(field.entry as u64));
                script.call(reading(random, made, field.entry as u64));
                script.call(Call::Check);
            }
        }
    }
}

/// Lent lengths around 2^30 bytes, of which only the first part may be touched.
fn great_lengths(random: &mut Random, script: &mut Script) {
    let mut shape = files::shape(random, script.order);
    shape.settings.reclen = random.pick(&[16, 32, 128]);
    shape.settings.lind = 4;
    shape.entries = 1;
    shape.spare_records = 256;
    let made = make(random, &shape);
    let record = 4 * made.reclen();
    for total in [1 << 30, (1 << 30) - record, (1 << 30) + record, (1 << 30) + 1, (1 << 30) - 4] {
        script.lend(&made.bytes, total);
        all_readings(random, script, &made, 1);
        append(random, script, 4, 8);
        script.call(Call::AppendBatch(laid(&sweep(random, 4, 3))));
        script.again();
        script.call(Call::Create(shape.settings));
        append(random, script, 4, 8);
        script.call(Call::Append(Addition { index: vec![1; 4], data: random.bytes(4 * 2000), ..Addition::default() }));
    }
}

/// Files with thousands of entries that are not there, up to the greatest capacities and the greatest count.
fn great_numbers(random: &mut Random, script: &mut Script) {
    let mut settings = files::settings(random, script.order);
    settings.lind = random.from(3, 4) as i32;
    let grown = [(46, 4096, 10, 16), (22, 4096, 20, 3), (24, 4096, 15, 4), (60, 3001, 19, 3), (40, 4096, 20, 2)];
    let (reclen, lex1, gex, extensions) = grown[script.turn % 5];
    (settings.reclen, settings.lex1, settings.gex) = (reclen, lex1, gex);
    let made = make_full(&settings, extensions, [0, 5, 40, 3000][script.turn % 4]);
    let entries = together(&settings, extensions);
    script.lend(&made.bytes, made.bytes.len());
    for k in 0..=extensions + 1 {
        script.call(Call::ExtensionOf(k as u64));
    }
    for entry in [entries, entries + 1, random.from(1, entries)] {
        all_readings(random, script, &made, entry as u64);
    }
    append(random, script, settings.lind, 6);
    let fewer = together(&settings, extensions - 1);
    for xnext in [entries, entries + 2, fewer + 2, fewer + 1] {
        script.again();
        script.poke(4 * 6, &script.order.bytes8(xnext as i64));
        script.call(Call::Validate);
        append(random, script, settings.lind, 6);
        script.call(Call::Open(xnext as u64 - 1));
    }
    for (nex, entries) in [(extensions + 1, entries + 1), (extensions - 1, entries)] {
        recount(script, extensions, nex, entries);
        all_readings(random, script, &made, entries as u64);
    }
}

/// Files of each gex in turn whose last capacity comes close to 16,384, where the gex lets it: with the greatest lex1
/// that is admitted, and with the next. Every second time they have as many extensions as they can.
fn growths(random: &mut Random, script: &mut Script) {
    let gex = 10 + (script.turn % 11) as i32;
    let near: Vec<usize> = (2..=16).filter(|&k| (1..4095).contains(&greatest_lex1(gex, k))).collect();
    let extensions = match near.last() {
        None => 16,
        Some(&last) if script.turn / 11 % 2 == 0 => last,
        Some(_) => random.pick(&near),
    };
    let admitted = greatest_lex1(gex, extensions);
    for lex1 in [admitted, admitted + 1] {
        let (reclen, lind) = (random.pick(&[46, 47, 64, 128]), random.from(3, 4) as i32);
        let settings = Settings { reclen, lind, lex1, gex, ..files::settings(random, script.order) };
        try_growth(random, script, &settings, extensions);
    }
}

/// The greatest lex1 below 4,096 with which extension k has at most 16,384 entries, 0 if there is none.
pub fn greatest_lex1(gex: i32, k: usize) -> i32 {
    let admits = |lex1: &i32| reference::capacity(*lex1 as i128, gex as i128, k as i128) <= 16384;
    (1..4096).take_while(admits).count() as i32
}

/// Tries a file whose areas are full, with an entry in the first and the last place of each: as it is and with an
/// extension more and fewer, each with the numbers of entries on both sides of what its extensions hold.
fn try_growth(random: &mut Random, script: &mut Script, settings: &Settings, extensions: usize) {
    let area = area_words(settings, extensions) / settings.reclen as usize;
    let mut made = make_full(settings, extensions, random.pick(&[10, 30 + area]));
    let held = |k: usize| together(settings, k);
    let ends: Vec<usize> = (0..=extensions).flat_map(|k| [held(k), held(k) + 1]).collect();
    ends[1..ends.len() - 1].iter().for_each(|&number| put_bare(&mut made, number));
    script.lend(&made.bytes, made.bytes.len());
    for nex in extensions - 1..=extensions + 1 {
        for entries in [held(nex - 1), held(nex - 1) + 1, held(nex) - 1, held(nex), held(nex) + 1] {
            recount(script, extensions, nex, entries);
            script.call(Call::OpenFileOf);
            if script.call(Call::Validate) != 0 {
                script.call(reading(random, &made, entries as u64));
                continue;
            }
            if entries == held(nex) {
                read_at(script, &ends, nex);
            }
            script.call(Call::Append(addition(random, settings.lind)));
            read_at(script, &[entries + 1], nex);
        }
    }
}

/// Makes the file what it was when it was lent, with so many extensions, but for nex and the number of entries; the
/// addresses past nex become zero.
fn recount(script: &mut Script, extensions: usize, nex: usize, entries: usize) {
    script.again();
    script.poke(4 * (14 + 2 * nex), &vec![0; 8 * extensions.saturating_sub(nex)]);
    script.poke(4 * 12, &script.order.bytes4(nex as i32));
    script.poke(4 * 6, &script.order.bytes8(entries as i64 + 1));
}

/// Asks for each extension and one more, reads some entries, and checks the order.
fn read_at(script: &mut Script, entries: &[usize], nex: usize) {
    for k in 0..=nex as u64 + 1 {
        script.call(Call::ExtensionOf(k));
    }
    for &entry in entries {
        script.call(Call::Open(entry as u64));
        script.call(Call::IndexWords(entry as u64));
    }
    script.call(Call::Check);
}

/// A file lent with other lengths than its own.
fn cut_and_grown(random: &mut Random, script: &mut Script) {
    let shape = files::shape(random, script.order);
    let made = make(random, &shape);
    let (size, record) = (made.bytes.len(), 4 * made.reclen());
    let near = [size - record, size - 4, size - 1, size, size + 1, size + 4, size + record, size + 40 * record];
    for length in [0, 1, 3, 4, 52, 55, 56, 60, 63, 64, 65, 128].into_iter().chain(near) {
        let mut bytes = made.bytes.clone();
        bytes.resize(length, 0);
        script.lend(&bytes, length);
        let entry = number(random, made.entries.len());
        all_readings(random, script, &made, entry);
        append(random, script, made.settings.lind, 8);
        script.call(Call::Create(made.settings));
    }
}

/// A made file with each other code, the other order's too, and then created anew over what it holds in each order.
fn other_codes(random: &mut Random, script: &mut Script) {
    let mut shape = files::shape(random, script.order);
    shape.entries = shape.entries.max(1);
    shape.spare_records += 400 / shape.settings.reclen as usize;
    let made = make(random, &shape);
    script.lend(&made.bytes, made.bytes.len());
    for code in codes(script.order.code()) {
        script.again();
        script.poke(0, &code);
        all_readings(random, script, &made, 1);
        append(random, script, shape.settings.lind, 8);
        script.call(Call::Update(any_update(random, &made.bytes, 1)));
    }
    for order in Order::BOTH {
        script.again();
        script.call(Call::Create(Settings { order: order as i32, ..shape.settings }));
        script.call(Call::Validate);
        append(random, script, shape.settings.lind, 8);
        append(random, script, shape.settings.lind, 8);
        read_all(script);
        script.call(Call::Check);
    }
}

/// A made file that goes over into the other order: its code, then integer after integer. In between it is read as it
/// stands; when all are turned, the reference must read in it what it read before.
fn turned_over(random: &mut Random, script: &mut Script) {
    let shape = files::shape(random, script.order);
    let made = make(random, &shape);
    script.lend(&made.bytes, made.bytes.len());
    read_all(script);
    let read = script.asked.len();
    for field in fields(&made) {
        script.poke(field.at, &turned(&made, &field));
        script.call(reading(random, &made, field.entry.max(1) as u64));
    }
    let after = script.asked.len();
    read_all(script);
    let answers = |asked: &[Asked]| asked.iter().map(|asked| asked.answer.fields.clone()).collect::<Vec<_>>();
    let (before, after) = (answers(&script.asked[..read]), answers(&script.asked[after..]));
    assert_eq!(before, after, "the reference does not read a file in both orders alike");
    append(random, script, shape.settings.lind, 8);
    script.call(Call::Check);
}

/// A file of each reclen in turn, 16 to 4,096, with one bit set after the addresses in use: in the first word there, in
/// the last, about the sixteenth place of an address, and anywhere. Then an index area is broken too, and the file
/// created anew.
fn leftovers(random: &mut Random, script: &mut Script) {
    let (reclen, lind) = (16 + script.turn, random.from(3, 6) as i32);
    let settings = Settings { reclen: reclen as i32, lind, lex1: 1, gex: 10, ..files::settings(random, script.order) };
    let most = if reclen < 200 || random.once_in(20) { most_extensions(&settings) } else { 2 };
    let extensions = random.from(0, most);
    let made = make_full(&settings, extensions, 2);
    script.lend(&made.bytes, made.bytes.len());
    script.call(Call::Validate);
    let first = 15 + 2 * extensions;
    if first <= reclen {
        for word in [first, reclen, 46, 47, random.from(first, reclen)] {
            if (first..=reclen).contains(&word) {
                script.again();
                script.poke(4 * (word - 1) + random.from(0, 3), &[1 << random.from(0, 7)]);
                script.call(Call::Validate);
                read_or_write(random, script, &made);
            }
        }
        if extensions > 0 {
            script.poke(4 * 14, &script.order.bytes8(1));
            read_or_write(random, script, &made);
        }
    }
    script.call(Call::Create(settings));
    script.call(Call::Validate);
    append(random, script, lind, 8);
}

/// A call that reads, about the first entry, an update of it, or an append.
fn read_or_write(random: &mut Random, script: &mut Script, made: &Made) {
    match random.from(1, 4) {
        1 => append(random, script, made.settings.lind, 8),
        2 => script.call(Call::Update(any_update(random, &made.bytes, 1))),
        _ => script.call(reading(random, made, 1)),
    };
}

/// Puts a shape's entries out of order, lets them overlap or have 65 sections, once in so many times.
pub fn disorder(random: &mut Random, shape: &mut Shape, times: usize) {
    if shape.entries > 0 && random.once_in(times) {
        match random.from(1, 5) {
            1 | 2 => shape.shuffled = true,
            3 | 4 => shape.overlaps = true,
            _ => (shape.least_sections, shape.most_sections) = (62, 65),
        }
    }
}

/// A file with one to three damages at a time.
fn damaged(random: &mut Random, script: &mut Script) {
    let mut shape = files::shape(random, script.order);
    shape.entries = shape.entries.max(1);
    disorder(random, &mut shape, 8);
    let made = make(random, &shape);
    let fields = fields(&made);
    script.lend(&made.bytes, made.bytes.len());
    for _ in 0..10 {
        script.again();
        for _ in 0..random.pick(&[1, 1, 1, 2, 3]) {
            let (at, bytes) = random_damage(random, &made, &fields);
            script.poke(at, &bytes);
        }
        let entry = number(random, made.entries.len());
        all_readings(random, script, &made, entry);
        if random.once_in(3) {
            append(random, script, shape.settings.lind, 8);
            script.call(Call::Check);
        }
        if random.once_in(3) {
            script.call(Call::Update(any_update(random, &made.bytes, entry)));
        }
    }
}

/// A file as it was made, in order or not: everything in it is read.
fn whole(random: &mut Random, script: &mut Script) {
    let mut shape = files::shape(random, script.order);
    disorder(random, &mut shape, 2);
    let made = make(random, &shape);
    script.lend(&made.bytes, made.bytes.len());
    script.call(Call::Validate);
    for k in 0..=made.areas.len() + 1 {
        script.call(Call::ExtensionOf(k as u64));
    }
    read_all(script);
    for _ in 0..20 {
        let entry = number(random, made.entries.len());
        script.call(reading(random, &made, entry));
    }
    script.call(Call::Check);
}

/// Reads each entry of the script's file with its index words, sections and data.
pub fn read_all(script: &mut Script) {
    let entries = reference::validate(&script.file).map_or(0, |d| d.entries() as u64);
    for entry in 1..=entries {
        read_entry(script, entry);
    }
}

/// Reads an entry with its index words, sections and data.
pub fn read_entry(script: &mut Script, entry: u64) {
    script.call(Call::Open(entry));
    script.call(Call::IndexWords(entry));
    for id in reference::open(&script.file, entry).map_or(vec![], |e| e.ids) {
        script.call(Call::Section(entry, id as i32));
    }
    script.call(Call::Data(entry));
}

/// Creations with good settings and with one or more at an edge, over bytes of any content.
fn creations(random: &mut Random, script: &mut Script) {
    for _ in 0..12 {
        let mut settings = files::settings(random, script.order);
        let record = 4 * settings.reclen as usize;
        for _ in 0..random.pick(&[0, 0, 1, 1, 2]) {
            spoil_setting(random, &mut settings);
        }
        let size = match random.from(1, 8) {
            1 => random.pick(&[0, 1, 56, 60, 63, 64, 65]),
            2 => random.from(0, 3 * record),
            _ => record * random.from(1, 6),
        };
        script.lend(&random.bytes(size), size);
        script.call(Call::Create(settings));
        script.call(Call::Validate);
        script.call(Call::OpenFileOf);
        script.call(Call::Check);
        append(random, script, settings.lind.clamp(3, 256), 6);
    }
}

/// Puts an edge value into one of the settings.
fn spoil_setting(random: &mut Random, s: &mut Settings) {
    let any = random.next() as i32;
    let mut edge = |limits: &[i32]| {
        let limit = random.pick(limits);
        random.pick(&[limit - 1, limit, limit + 1, 0, -1, i32::MAX, i32::MIN, any])
    };
    match any.rem_euclid(8) {
        0 => s.reclen = edge(&[16, 4096]),
        1 => s.kind = edge(&[1, 3]),
        2 => s.vind = edge(&[2]),
        3 => s.lind = edge(&[3, 256]),
        4 => s.flags = edge(&[0, 1]),
        5 => s.lex1 = edge(&[1, 4096]),
        6 => s.gex = edge(&[10, 20]),
        _ => s.order = random.pick(&[0, 1, 2, 3, -1, 255, 256, 257, 1 << 16, 1 << 24, i32::MAX, i32::MIN, any]),
    }
}

/// Appends of every kind to a made file, also one that is not in order.
pub fn appends(random: &mut Random, script: &mut Script) {
    let mut shape = files::shape(random, script.order);
    disorder(random, &mut shape, 4);
    shape.spare_records = random.pick(&[0, 400, 1500]) / shape.settings.reclen as usize;
    let made = make(random, &shape);
    script.lend(&made.bytes, made.bytes.len());
    for _ in 0..24 {
        if random.once_in(10) {
            script.again();
        }
        let refusal = append(random, script, shape.settings.lind, 2);
        if refusal == 0 && random.once_in(4) {
            script.call(Call::Check);
        }
    }
    script.again();
    fit_exactly(random, script, shape.settings.lind);
}

/// Appends that end within one word of the buffer's end.
fn fit_exactly(random: &mut Random, script: &mut Script, lind: i32) {
    let index = random.bytes(4 * (lind as usize - 3));
    let bare = Addition { index, ..Addition::default() };
    let Some(left) = left_behind(&script.file, &bare) else {
        return;
    };
    for words in [left.saturating_sub(1), left, left + 1] {
        script.again();
        script.call(Call::Append(Addition { data: random.bytes(4 * words), ..bare.clone() }));
        script.call(Call::Validate);
        script.call(Call::Check);
    }
}

/// The words that an append would leave free, if it were accepted.
pub fn left_behind(file: &[u8], a: &Addition) -> Option<usize> {
    let mut file = file.to_vec();
    reference::append(&mut file, a).ok()?;
    let free = reference::validate(&file).ok()?.free() as usize;
    Some(file.len() / 4 - free)
}
