//! The cases of updates: every section with contents of every size, what is not there, identifiers that stand twice,
//! files that are refused, words that are shared, sections at the file's end, and a mix with appends and batches.

use crate::batches::look;
use crate::cases::{append, disorder, left_behind, read_all, read_entry, small_shape};
use crate::damage::{edges, fields};
use crate::files::{self, area_words, make, together, Made, Shape};
use crate::random::Random;
use crate::reference::{self, Addition, Settings, Update};
use crate::script::{Call, Script};
use crate::series::change;

/// A section that an update is asked for: its entry, its identifier, and its space in words.
#[derive(Clone, Copy)]
struct Target {
    entry: u64,
    identifier: i32,
    space: usize,
}

/// The bytes of a content beyond those that may be touched: more than any section has, and nothing or less than nothing
/// in a number of 32 bits, counted in bytes or in words.
const BEYOND: [u64; 4] = [1 << 30, 1 << 31, 1 << 32, 1 << 34];

/// The sections of an entry that opens, an identifier that stands twice only once: the first counts.
fn targets_of(file: &[u8], entry: u64) -> Vec<Target> {
    let Ok(e) = reference::open(file, entry) else {
        return vec![];
    };
    let firsts = (0..e.ids.len()).filter(|&i| !e.ids[..i].contains(&e.ids[i]));
    firsts.map(|i| Target { entry, identifier: e.ids[i] as i32, space: e.lengths[i] as usize }).collect()
}

/// The sections of a file.
fn targets(file: &[u8]) -> Vec<Target> {
    let entries = reference::validate(file).map_or(0, |d| d.entries() as u64);
    (1..=entries).flat_map(|entry| targets_of(file, entry)).collect()
}

/// An update of a section by so many random bytes.
fn filled(random: &mut Random, target: Target, bytes: usize) -> Update {
    Update { entry: target.entry, identifier: target.identifier, content: random.bytes(bytes), beyond: 0 }
}

/// An update of a section by more than any section has, which begins with some words.
fn far_too_large(random: &mut Random, target: Target) -> Update {
    let words = random.from(1, target.space);
    Update { beyond: random.pick(&BEYOND), ..filled(random, target, 4 * words) }
}

/// An update of a section by a content that fits: one word, the exact fit, or any number of words.
fn fitting(random: &mut Random, target: Target) -> Update {
    let words = random.from(1, target.space);
    let words = random.pick(&[1, target.space, words]);
    filled(random, target, 4 * words)
}

/// An update of a section by a content that does not fit: empty, not whole words, or larger than the space.
fn unfitting(random: &mut Random, target: Target) -> Update {
    let fit = 4 * target.space;
    let bytes = match random.from(1, 5) {
        1 => 0,
        2 => random.pick(&[1, 2, 3, fit - 1, fit - 2, fit - 3, fit + 1, fit + 2, fit + 3]),
        3 => fit + 4,
        4 => fit + 4 * random.from(2, 40),
        _ => return far_too_large(random, target),
    };
    filled(random, target, bytes)
}

/// An update of an entry as it stands in a file: mostly of a section that it has, and by a content that fits.
pub fn any_update(random: &mut Random, file: &[u8], entry: u64) -> Update {
    let own = targets_of(file, entry);
    let target = if own.is_empty() || random.once_in(6) {
        let identifier = random.pick(&[0, 1, -1, 7, i32::MIN, i32::MAX]);
        Target { entry, identifier, space: random.from(1, 6) }
    } else {
        random.pick(&own)
    };
    if random.once_in(3) {
        unfitting(random, target)
    } else {
        fitting(random, target)
    }
}

/// Updates of a section by contents of every size about a space: none, about one word, about the exact fit, any number
/// of words, and far too large.
fn of_every_size(random: &mut Random, target: Target, space: usize) -> Vec<Update> {
    let fit = 4 * space;
    let mut sizes: Vec<usize> = (0..=5).chain(fit - 3..=fit + 5).collect();
    sizes.extend([fit - 4, 4 * random.from(1, space), fit + 4 * random.from(2, 40)]);
    sizes.sort_unstable();
    sizes.dedup();
    let mut all: Vec<Update> = sizes.into_iter().map(|bytes| filled(random, target, bytes)).collect();
    all.push(far_too_large(random, target));
    random.shuffle(&mut all);
    all
}

/// Asks for an update that the reference must answer so.
fn expect(script: &mut Script, u: Update, refusal: u32) {
    let given = script.call(Call::Update(u));
    assert_eq!(given, refusal, "the reference does not answer an update as 02 says");
}

/// Asks for updates of a section that is there by contents of every size about a space, its own or another's, and reads
/// the section at times.
fn try_every_size(random: &mut Random, script: &mut Script, target: Target, space: usize) {
    for u in of_every_size(random, target, space) {
        let fits = (1..=target.space as u64).any(|words| u.bytes() == 4 * words);
        expect(script, u, if fits { 0 } else { 28 });
        if random.once_in(4) {
            script.call(Call::Section(target.entry, target.identifier));
        }
    }
}

/// Lends a file that is made.
fn lend(random: &mut Random, script: &mut Script, shape: &Shape) -> Made {
    let made = make(random, shape);
    script.lend(&made.bytes, made.bytes.len());
    made
}

/// Sections of a made file, of which the entries may stand anywhere, with contents of every size.
pub fn every_section(random: &mut Random, script: &mut Script) {
    let mut shape = files::shape(random, script.order);
    shape.entries = shape.entries.clamp(1, 4);
    (shape.least_sections, shape.most_sections) = (1, random.pick(&[1, 3, 5, 64]));
    shape.shuffled = random.once_in(3);
    let made = lend(random, script, &shape);
    let mut all = targets(&made.bytes);
    random.shuffle(&mut all);
    for &target in all.iter().take(12) {
        try_every_size(random, script, target, target.space);
    }
    read_all(script);
    script.call(Call::Check);
}

/// Identifiers and entries that are not there, with contents of every size: 20 and 12 come before 28.
pub fn not_there(random: &mut Random, script: &mut Script) {
    let mut shape = small_shape(random, script.order);
    shape.least_sections = random.from(0, 1);
    let made = lend(random, script, &shape);
    let (last, space) = (made.entries.len() as u64, random.from(1, 6));
    for (entry, placed) in (1..).zip(&made.entries) {
        for identifier in absent(random, &placed.ids) {
            for u in of_every_size(random, Target { entry, identifier, space }, space) {
                expect(script, u, 20);
            }
        }
    }
    let identifier = made.entries[0].ids.first().copied().unwrap_or(7);
    for entry in [0, last + 1, last + 2, (1 << 32) + 1, (1 << 32) + last, (1 << 63) + 1, u64::MAX] {
        for u in of_every_size(random, Target { entry, identifier, space }, space) {
            expect(script, u, 12);
        }
    }
}

/// Some identifiers that are not among those of an entry, but near to them.
fn absent(random: &mut Random, ids: &[i32]) -> Vec<i32> {
    let near = |id: i32| [id.wrapping_add(1), id.wrapping_sub(1), id.wrapping_neg(), id.swap_bytes(), id ^ (1 << 16)];
    let mut all: Vec<i32> = ids.iter().flat_map(|&id| near(id)).chain([0, 1, -1, i32::MIN, i32::MAX]).collect();
    all.retain(|id| !ids.contains(id));
    random.shuffle(&mut all);
    all.truncate(6);
    all
}

/// Identifiers that are put at a second place of their entry, and at times at a third: the first section counts,
/// whether the others have more space or less.
pub fn twice(random: &mut Random, script: &mut Script) {
    let mut shape = files::shape(random, script.order);
    shape.entries = shape.entries.clamp(1, 2);
    (shape.least_sections, shape.most_sections) = (2, 4);
    let made = lend(random, script, &shape);
    for (entry, placed) in (1..).zip(&made.entries) {
        let lengths = reference::open(&made.bytes, entry).map_or(vec![], |e| e.lengths);
        for (first, second) in (1..lengths.len()).flat_map(|second| (0..second).map(move |first| (first, second))) {
            script.again();
            let identifier = placed.ids[first];
            for place in [second, random.from(second, lengths.len() - 1)] {
                script.poke(4 * (placed.start + 11 + place), &script.order.bytes4(identifier));
            }
            let counts = targets_of(&script.file, entry).into_iter().find(|target| target.identifier == identifier);
            let target = counts.expect("the identifier is there");
            try_every_size(random, script, target, target.space);
            try_every_size(random, script, target, lengths[second] as usize);
            read_entry(script, entry);
        }
    }
}

/// Each edge value in each field of a small file, with a content that does not fit and with one that does.
pub fn every_edge(random: &mut Random, script: &mut Script) {
    let shape = Shape { least_sections: 1, ..small_shape(random, script.order) };
    let made = lend(random, script, &shape);
    let all = targets(&made.bytes);
    for field in fields(&made) {
        let own: Vec<Target> = all.iter().copied().filter(|t| [0, t.entry as usize].contains(&field.entry)).collect();
        for value in edges(&made, &field) {
            script.again();
            script.poke(field.at, &value);
            let target = as_it_is(&script.file, random.pick(&own));
            for u in [unfitting(random, target), fitting(random, target)] {
                script.call(Call::Update(u));
            }
        }
    }
}

/// A section with the space that it has in a file, where its entry opens and has it.
fn as_it_is(file: &[u8], target: Target) -> Target {
    let mut own = targets_of(file, target.entry).into_iter();
    own.find(|now| now.identifier == target.identifier).unwrap_or(target)
}

/// A file lent with other lengths than its own, also about 2^30 bytes, of which only the first part may be touched.
pub fn other_lengths(random: &mut Random, script: &mut Script) {
    let mut shape = small_shape(random, script.order);
    shape.settings.reclen = random.pick(&[16, 32, 128]);
    shape.entries = 1;
    shape.least_sections = 1;
    let made = make(random, &shape);
    let target = random.pick(&targets(&made.bytes));
    let (size, record) = (made.bytes.len(), 4 * made.reclen());
    for length in [0, 1, 4, 60, 63, 64, 65, size - record, size - 4, size, size + 1, size + 4, size + record] {
        let mut bytes = made.bytes.clone();
        bytes.resize(length, 0);
        script.lend(&bytes, length);
        for u in of_every_size(random, target, target.space) {
            script.call(Call::Update(u));
        }
    }
    for total in [1 << 30, (1 << 30) - record, (1 << 30) + record, (1 << 30) + 1, (1 << 30) - 4] {
        script.lend(&made.bytes, total);
        for u in [unfitting(random, target), fitting(random, target)] {
            script.call(Call::Update(u));
        }
    }
}

/// Sections that are moved over words of other entries and of index areas, the entry's own index too: they are written
/// all the same. Then each entry is opened and updated.
pub fn shared(random: &mut Random, script: &mut Script) {
    let mut shape = small_shape(random, script.order);
    shape.entries = random.from(2, 4).min(together(&shape.settings, 2));
    shape.least_sections = 1;
    shape.shuffled = random.once_in(2);
    let made = lend(random, script, &shape);
    let entries = made.entries.len() as u64;
    for entry in 1..=entries {
        let end = end_of(&made, entry);
        let places = made.entries.iter().flat_map(|other| [other.start, other.slot]);
        for place in places.filter(|&place| place >= end) {
            script.again();
            let target = moved(random, script, &made, entry, place);
            expect(script, unfitting(random, target), 28);
            expect(script, fitting(random, target), 0);
            for other in 1..=entries {
                script.call(Call::Open(other));
                script.call(Call::Update(any_update(random, &made.bytes, other)));
            }
            script.call(Call::Check);
        }
    }
}

/// The position where an entry of a made file ends.
fn end_of(made: &Made, entry: u64) -> usize {
    let start = made.entries[entry as usize - 1].start;
    start + made.integer8(4 * (start + 3)) as usize
}

/// Makes an entry longer, up to the next free position, and moves one of its sections behind what the entry was, to
/// where it has the word at a place.
fn moved(random: &mut Random, script: &mut Script, made: &Made, entry: u64, place: usize) -> Target {
    let (placed, end) = (&made.entries[entry as usize - 1], end_of(made, entry));
    let identifier = random.pick(&placed.ids);
    let first = placed.ids.iter().position(|&id| id == identifier).unwrap_or(0);
    let at = place - random.from(0, 2).min(place - end);
    let space = (place - at + random.from(1, 6)).min(made.free - at);
    let nsec = placed.ids.len();
    let (nword, address) = (made.free - placed.start, at - placed.start + 1);
    for (word, value) in [(3, nword), (11 + nsec + 2 * first, space), (11 + 3 * nsec + 2 * first, address)] {
        script.poke(4 * (placed.start + word), &script.order.bytes8(value as i64));
    }
    Target { entry, identifier, space }
}

/// Sections that stand next to each other, of which the last ends with its entry and with the file, and may be long.
pub fn neighbours(random: &mut Random, script: &mut Script) {
    let s = Settings { lex1: random.from(2, 4) as i32, ..files::settings(random, script.order) };
    let words = area_words(&s, 1) + 1000 + random.pick(&[0, 0, 20_000]);
    let bytes = random.bytes(4 * (2 + words / s.reclen as usize) * s.reclen as usize);
    script.lend(&bytes, bytes.len());
    script.call(Call::Create(s));
    append(random, script, s.lind, usize::MAX);
    let bare = Addition { index: random.bytes(4 * (s.lind as usize - 3)), ..Addition::default() };
    let left = left_behind(&script.file, &bare).expect("there is room for a bare entry");
    let ids: Vec<i32> = (-2..random.from(1, 3) as i32).collect();
    let mut lengths: Vec<i64> = ids[1..].iter().map(|_| random.from(1, 5) as i64).collect();
    let rest = left - 5 * ids.len() - lengths.iter().sum::<i64>() as usize;
    lengths.push(rest as i64);
    let sections = random.bytes(4 * (left - 5 * ids.len()));
    let refusal = script.call(Call::Append(Addition { ids, lengths, sections, ..bare }));
    assert_eq!(refusal, 0, "the reference does not fill a file to its end");
    let mut all = targets(&script.file);
    random.shuffle(&mut all);
    for &target in all.iter().take(12) {
        try_every_size(random, script, target, target.space);
    }
    read_all(script);
    script.call(Call::Check);
}

/// Updates of every kind, with appends and batches between them, over a made file, also one that is not in order.
pub fn any_updates(random: &mut Random, script: &mut Script) {
    let mut shape = files::shape(random, script.order);
    disorder(random, &mut shape, 2);
    shape.spare_records = random.pick(&[0, 400, 1500]) / shape.settings.reclen as usize;
    lend(random, script, &shape);
    for _ in 0..20 {
        if random.once_in(8) {
            script.again();
        }
        change(random, script, shape.settings.lind);
        if random.once_in(5) {
            look(random, script);
        }
    }
}
