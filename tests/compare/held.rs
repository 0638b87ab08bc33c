//! The cases of calls through a record of the open file: each field not true, records of other files, files that are
//! refused, wrong counts, extensions up to the last and the greatest totals, and what other cases ask, through a record
//! as without one.

use crate::additions::{addition, spoil};
use crate::batches::{self, lend_created, lend_made, records_for};
use crate::cases::{appends, greatest_lex1, number, small_shape, Kind};
use crate::damage::{edges, fields};
use crate::files::{self, area_words, make, make_full, together};
use crate::random::Random;
use crate::reference::{self, capacity, OpenFile, Order, Settings, FIELDS};
use crate::script::{Asked, Call, Script, Through};
use crate::sweeps::{laid, sweep, with_two_sections, wrong};
use crate::updates::{self, any_update};

/// The places of some fields in a record.
const RECLEN: usize = 1;
const XNEXT: usize = 6;
const NEXTREC: usize = 7;
const LEX1: usize = 9;
const NEX: usize = 10;
const GEX: usize = 11;
const AEX: usize = 12;
const TOTALS: usize = 28;

/// The record that no file has.
const ZEROS: OpenFile = [0; FIELDS.len()];

/// The kinds of cases whose calls are asked without a record and then through one; their count shares no divisor with
/// those by which these kinds take turns.
const CHANGING: [Kind; 13] = [
    appends,
    batches::sizes,
    batches::refused_entries,
    batches::refused_growth,
    batches::refused_room,
    batches::any_batches,
    updates::every_section,
    updates::not_there,
    updates::twice,
    updates::every_edge,
    updates::shared,
    updates::neighbours,
    updates::any_updates,
];

/// Settings with which 16 extensions are small.
fn small_settings(random: &mut Random, order: Order) -> Settings {
    let (reclen, lind) = (random.pick(&[46, 47, 48, 64]), random.from(3, 4) as i32);
    let (lex1, gex) = random.pick(&[(1, 10), (1, 11), (1, 12), (1, 13), (2, 10), (3, 10), (3, 11)]);
    Settings { reclen, lind, lex1, gex, ..files::settings(random, order) }
}

/// Lends a file that is admitted, with all extensions, with all but one, without entries, or with some; gives its lind.
fn lend_admitted(random: &mut Random, script: &mut Script) -> i32 {
    let made = if script.turn % 2 == 0 {
        let s = small_settings(random, script.order);
        make_full(&s, 16 - script.turn / 2 % 2, 20)
    } else {
        let mut shape = files::shape(random, script.order);
        shape.entries = if script.turn % 4 == 1 { 0 } else { shape.entries.max(1) };
        shape.spare_records = 400 / shape.settings.reclen as usize;
        make(random, &shape)
    };
    script.lend(&made.bytes, made.bytes.len());
    made.settings.lind
}

/// An append, a batch and an update through a record, good or bad but not with wrong counts, and a batch of no entries.
fn calls(random: &mut Random, script: &Script, lind: i32) -> [Call; 4] {
    let mut a = addition(random, lind);
    let count = random.from(1, 2);
    let mut entries = sweep(random, lind, count);
    if random.once_in(3) {
        spoil(random, &mut a);
        spoil(random, &mut entries[0]);
    }
    let last = reference::validate(&script.file).map_or(1, |d| d.entries() as usize);
    let entry = number(random, last);
    let update = Call::UpdateTo(any_update(random, &script.file, entry));
    [Call::AppendTo(a), Call::AppendBatchTo(laid(&entries)), update, Call::AppendBatchTo(laid(&[]))]
}

/// Asks a call that the reference must answer so.
fn expect(script: &mut Script, call: Call, refusal: u32) {
    let given = script.call(call);
    assert_eq!(given, refusal, "the reference does not answer through a record as 02 says");
}

/// Asks calls through a record that is not true.
fn expect_27(random: &mut Random, script: &mut Script, lind: i32, held: OpenFile) {
    script.hold(held);
    for call in calls(random, script, lind) {
        expect(script, call, 27);
    }
}

/// Asks calls through a record that may be true.
fn ask_through(random: &mut Random, script: &mut Script, lind: i32, held: OpenFile) {
    script.hold(held);
    for call in calls(random, script, lind) {
        script.call(call);
    }
}

/// The record of a file with each field made another number, one field and one number at a time.
pub fn every_field(random: &mut Random, script: &mut Script) {
    let lind = lend_admitted(random, script);
    let own = script.open();
    for field in 0..FIELDS.len() {
        for value in others(own[field]) {
            let mut held = own;
            held[field] = value;
            expect_27(random, script, lind, held);
        }
    }
    ask_through(random, script, lind, own);
}

/// Numbers other than a true one: the next, zero, all ones, its bytes turned, and one bit of each width changed.
fn others(own: u64) -> Vec<u64> {
    let mut all = vec![own.wrapping_add(1), own.wrapping_sub(1), 0, u64::MAX, own.swap_bytes()];
    all.extend([7, 15, 31, 32, 63].map(|bit| own ^ (1 << bit)));
    all.sort_unstable();
    all.dedup();
    all.retain(|&value| value != own);
    all
}

/// Records that are not the file's: of no file, of other files, with other totals and addresses, with two fields
/// exchanged, of the file before an append and after it.
pub fn other_records(random: &mut Random, script: &mut Script) {
    let lind = lend_admitted(random, script);
    let own = script.open();
    let mut all = vec![ZEROS];
    for _ in 0..4 {
        let shape = files::shape(random, script.order);
        all.extend(reference::open_file_of(&make(random, &shape).bytes));
    }
    all.extend(other_totals(own));
    all.extend(other_extensions(own));
    all.extend(two_changed(random, own));
    all.retain(|held| *held != own);
    for held in all {
        expect_27(random, script, lind, held);
    }
    stale(random, script, lind);
}

/// A record with other totals for as many extensions.
fn with_totals(own: OpenFile, totals: &[u64]) -> OpenFile {
    let mut held = own;
    held[TOTALS..].fill(0);
    held[TOTALS..TOTALS + totals.len()].copy_from_slice(totals);
    held
}

/// A record with other totals: none, those before each extension, each capacity alone, those of all 16 extensions, and
/// those of other growths.
fn other_totals(own: OpenFile) -> Vec<OpenFile> {
    let nex = own[NEX] as usize;
    let held = |lex1: u64, gex: u64, k: usize| -> u64 {
        (1..=k).map(|i| capacity(lex1 as i128, gex as i128, i as i128) as u64).sum()
    };
    let (lex1, gex) = (own[LEX1], own[GEX]);
    let before: Vec<u64> = (0..nex).map(|k| held(lex1, gex, k)).collect();
    let alone: Vec<u64> = (1..=nex).map(|k| held(lex1, gex, k) - held(lex1, gex, k - 1)).collect();
    let mut all = vec![with_totals(own, &[]), with_totals(own, &before), with_totals(own, &alone)];
    for (lex1, gex, count) in [(lex1, gex, 16), (lex1 + 1, gex, nex), (lex1, gex - 1, nex), (lex1, gex + 1, nex)] {
        let totals: Vec<u64> = (1..=count).map(|k| held(lex1, gex, k)).collect();
        all.push(with_totals(own, &totals));
    }
    all
}

/// A record with an extension more or fewer, in nex, addresses and totals or in some of them, and with other addresses.
fn other_extensions(own: OpenFile) -> Vec<OpenFile> {
    let nex = own[NEX] as usize;
    let (mut more, mut fewer) = (own, own);
    if nex < 16 {
        (more[NEX], more[AEX + nex], more[TOTALS + nex]) = (own[NEX] + 1, own[NEXTREC], own[XNEXT]);
    }
    if nex > 0 {
        (fewer[NEX], fewer[AEX + nex - 1], fewer[TOTALS + nex - 1]) = (own[NEX] - 1, 0, 0);
    }
    let (mut turned, mut early) = (own, own);
    turned[AEX..TOTALS].iter_mut().for_each(|address| *address = address.swap_bytes());
    early[AEX..AEX + nex].iter_mut().for_each(|address| *address -= 1);
    let mut all = vec![turned, early];
    for (other, what) in [more, fewer].into_iter().flat_map(|other| (1..8).map(move |what| (other, what))) {
        let group = |field: usize| (field >= AEX) as usize + (field >= TOTALS) as usize;
        all.push(std::array::from_fn(|i| if what >> group(i) & 1 == 1 { other[i] } else { own[i] }));
    }
    all
}

/// A record with two fields exchanged, neighbours and others, and with two fields changed so that their sum stays.
fn two_changed(random: &mut Random, own: OpenFile) -> Vec<OpenFile> {
    let mut all = vec![];
    for first in 0..FIELDS.len() {
        for second in [(first + 1) % FIELDS.len(), random.from(0, FIELDS.len() - 1)] {
            let (mut exchanged, mut moved) = (own, own);
            exchanged.swap(first, second);
            moved[first] = moved[first].wrapping_add(1);
            moved[second] = moved[second].wrapping_sub(1);
            all.extend([exchanged, moved]);
        }
    }
    all
}

/// An append without the record makes it false; the record of the file with the entry is false of the file without it.
/// An append that is refused and an update leave it true.
fn stale(random: &mut Random, script: &mut Script, lind: i32) {
    script.again();
    let before = script.open();
    if script.call(Call::Append(with_two_sections(random, lind))) == 0 {
        expect_27(random, script, lind, before);
        let after = script.open();
        script.call(Call::Update(any_update(random, &script.file, before[XNEXT])));
        expect(script, Call::AppendBatchTo(laid(&[])), 0);
        script.again();
        expect_27(random, script, lind, after);
    }
    ask_through(random, script, lind, before);
}

/// Files with each edge value in each field of the first record, with the record that was true before and with the one
/// that they have, which is zeros where they are refused; and files of other lengths.
pub fn refused_files(random: &mut Random, script: &mut Script) {
    let shape = small_shape(random, script.order);
    let made = make(random, &shape);
    script.lend(&made.bytes, made.bytes.len());
    let (own, lind) = (script.open(), shape.settings.lind);
    for field in fields(&made).iter().filter(|field| field.entry == 0) {
        for value in edges(&made, field) {
            script.again();
            script.poke(field.at, &value);
            expect_27(random, script, lind, own);
            let now = script.open();
            ask_through(random, script, lind, now);
        }
    }
    for length in 0..64 {
        script.lend(&made.bytes[..length], length);
        expect_27(random, script, lind, own);
        expect_27(random, script, lind, ZEROS);
    }
    other_lengths(random, script, &made.bytes, own, lind);
}

/// A file lent with other lengths, about its own and about 2^30 bytes: no length is in its record, which stays true
/// where the file is not refused.
fn other_lengths(random: &mut Random, script: &mut Script, bytes: &[u8], own: OpenFile, lind: i32) {
    let (size, record) = (bytes.len(), 4 * own[RECLEN] as usize);
    let near = [64, size - record, size - 4, size + 1, size + 4, size + record].map(|length| (length, length));
    let great = [1 << 30, (1 << 30) + record, (1 << 30) + 1].map(|total| (size, total));
    for (shown, total) in near.into_iter().chain(great) {
        let mut bytes = bytes.to_vec();
        bytes.resize(shown, 0);
        script.lend(&bytes, total);
        ask_through(random, script, lind, own);
    }
}

/// Every batch with wrong counts near a good one, and then the good one: through a record that is true, through others,
/// and over files that are refused.
pub fn wrong_counts(random: &mut Random, script: &mut Script) {
    let s = Settings { lex1: 9, ..small_settings(random, script.order) };
    let count = [0, 1, 2, 3, 4, 64][script.turn % 6];
    let mut entries = sweep(random, s.lind, count);
    entries.iter_mut().take(1).for_each(|first| *first = with_two_sections(random, s.lind));
    lend_made(random, script, &s, records_for(&s, &entries, count + 12));
    let own = script.open();
    let mut other = own;
    other[random.from(0, FIELDS.len() - 1)] ^= 1 << random.from(0, 63);
    let mut batches = wrong(&laid(&entries));
    batches.push(laid(&entries));
    let good = batches.len() - 1;
    for (held, code, refusal) in [(other, b"2", 27), (ZEROS, b"2", 27), (own, b"3", 27), (own, b"2", 0)] {
        script.poke(0, code);
        script.hold(held);
        for (i, batch) in batches.iter().enumerate() {
            expect(script, Call::AppendBatchTo(batch.clone()), if i == good { refusal } else { 26 });
        }
    }
}

/// A created file that takes entries through its record, one at a time and in batches, until all extensions are full.
pub fn grown(random: &mut Random, script: &mut Script) {
    let s = small_settings(random, script.order);
    let count = together(&s, 16);
    let entries = sweep(random, s.lind, count + 1);
    lend_created(random, script, &s, records_for(&s, &entries, count));
    script.open();
    script.through = Through::Held;
    let (mut left, mut refusal) = (&entries[..], 0);
    while !left.is_empty() {
        let (now, later) = left.split_at(random.from(1, 4).min(left.len()));
        refusal = match now {
            [one] => script.call(Call::Append(one.clone())),
            several => script.call(Call::AppendBatch(laid(several))),
        };
        script.call(Call::OpenFileOf);
        left = later;
    }
    assert_eq!(refusal, 23, "the reference does not fill all extensions");
}

/// Files whose 15 extensions are full, and which hold over 65,536 entries in 16: an append and a batch through the
/// record make the last.
pub fn great_totals(random: &mut Random, script: &mut Script) {
    let (reclen, lind, gex) = (random.pick(&[46, 64, 128]), 3, [11, 12, 13][script.turn % 3]);
    let s = Settings { reclen, lind, lex1: greatest_lex1(gex, 16), gex, ..files::settings(random, script.order) };
    let made = make_full(&s, 15, 10 + area_words(&s, 16) / reclen as usize);
    script.lend(&made.bytes, made.bytes.len());
    script.through = Through::FalseThenTrue;
    let entries = [(); 2].map(|()| with_two_sections(random, lind));
    for call in [Call::Append(entries[0].clone()), Call::AppendBatch(laid(&entries))] {
        script.again();
        expect(script, call, 0);
        script.call(Call::OpenFileOf);
    }
}

/// The calls of another kind of case without a record, and then the same through one that is not true and the true one:
/// what the last answer and leave is the same as without.
pub fn both_ways(random: &mut Random, script: &mut Script) {
    let kind = CHANGING[script.turn % CHANGING.len()];
    kind(&mut random.clone(), script);
    let count = script.asked.len();
    script.through = Through::FalseThenTrue;
    kind(random, script);
    let (without, through) = script.asked.split_at(count);
    assert!(changes(without) == changes(through), "the reference does not do the same through a record");
}

/// What calls that change files answered, and the files after them, but for files that are refused and for records that
/// are not true.
fn changes(asked: &[Asked]) -> Vec<(&[u64], &[u8])> {
    let files = asked.iter().filter_map(|asked| Some((asked, asked.after.as_deref()?)));
    let counted = files.filter(|(asked, after)| match asked.held {
        None => !matches!(asked.answer.refusal, 1..=11 | 29),
        Some(held) => reference::open_file_of(after).is_ok_and(|own| own == held),
    });
    counted.map(|(asked, after)| (&asked.answer.fields[..], after)).collect()
}
