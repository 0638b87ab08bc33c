//! Files that are nearly full, with appends and batches around the last place that they have: for the search for room.

use crate::additions::addition;
use crate::cases::left_behind;
use crate::files::{self, make, make_full, most_extensions, together, Shape};
use crate::random::Random;
use crate::reference::{Addition, Settings};
use crate::script::{Call, Script, Through};
use crate::sweeps::{laid, sweep};

/// The files of a case.
const FILES: usize = 6;

/// Settings of a small file, which has one to five extensions at most.
fn small_settings(random: &mut Random, script: &Script) -> Settings {
    let (reclen, lind) = (random.from(16, 24) as i32, random.from(3, 7) as i32);
    let (lex1, gex) = (random.from(1, 3) as i32, random.from(10, 20) as i32);
    Settings { reclen, lind, lex1, gex, ..files::settings(random, script.order) }
}

/// A bare entry with so many words of data.
fn with_data(random: &mut Random, lind: i32, words: usize) -> Addition {
    let index = random.bytes(4 * (lind as usize - 3));
    Addition { index, data: random.bytes(4 * words), ..Addition::default() }
}

/// Asks for an append or a batch, every fourth time through the record of the file.
fn ask(random: &mut Random, script: &mut Script, call: Call) -> u32 {
    script.through = if random.once_in(4) { Through::Held } else { Through::Nothing };
    if script.through == Through::Held {
        script.open();
    }
    script.call(call)
}

/// Small files with gaps, mostly with full extensions, and to each a few entries that end about the buffer's end, and
/// batches that do.
pub fn small(random: &mut Random, script: &mut Script) {
    script.searches = true;
    for _ in 0..FILES {
        let settings = small_settings(random, script);
        let extensions = random.from(0, most_extensions(&settings));
        let held = together(&settings, extensions).min(20);
        let entries = if random.once_in(4) { random.from(0, held) } else { held };
        let (least_sections, most_sections) = (0, 2);
        let (gaps, overlaps) = (random.once_in(2), random.once_in(8));
        let shuffled = entries > 0 && random.once_in(8);
        let spare_records = random.from(0, 5);
        let shape = Shape { settings, entries, least_sections, most_sections, gaps, shuffled, overlaps, spare_records };
        let made = make(random, &shape);
        script.lend(&made.bytes, made.bytes.len());
        about_the_end(random, script, settings.lind);
    }
}

/// Appends of every size about the one that fits exactly, of any other size, and batches.
fn about_the_end(random: &mut Random, script: &mut Script, lind: i32) {
    let bare = with_data(random, lind, 0);
    let left = left_behind(&script.file, &bare);
    let words = script.file.len() / 4;
    let sizes = left.map_or(vec![0], |left| vec![left.saturating_sub(1), left, left + 1, left + 2]);
    for size in sizes.into_iter().chain([random.from(0, words), random.from(0, 12)]) {
        script.again();
        let entry = with_data(random, lind, size);
        ask(random, script, Call::Append(entry));
    }
    script.again();
    let count = random.from(2, 8);
    let batch = laid(&sweep(random, lind, count));
    ask(random, script, Call::AppendBatch(batch));
    let more = addition(random, lind);
    ask(random, script, Call::Append(more));
}

/// A small file from its creation on, until it has room for no entry without sections and data.
pub fn to_the_end(random: &mut Random, script: &mut Script) {
    script.searches = true;
    let settings = small_settings(random, script);
    let records = random.from(1, 24);
    let bytes = random.bytes(4 * settings.reclen as usize * records);
    script.lend(&bytes, bytes.len());
    script.call(Call::Create(settings));
    loop {
        let more = addition(random, settings.lind);
        ask(random, script, Call::Append(more));
        let bare = with_data(random, settings.lind, 0);
        if ask(random, script, Call::Append(bare)) != 0 {
            return;
        }
    }
}

/// Files whose next extension has about 16,384 entries, 16,384 and 16,385 among them, with and without room for it.
pub fn about_16384(random: &mut Random, script: &mut Script) {
    script.searches = true;
    let grown = [(2500, 16, 4), (1154, 17, 5), (1153, 17, 5), (2500, 17, 4)];
    let (lex1, gex, extensions) = grown[script.turn % 4];
    let settings = Settings { reclen: 46, lind: 3, lex1, gex, ..files::settings(random, script.order) };
    let next = files::area_words(&settings, extensions + 1) / 46;
    for spare_records in [0, 1, next - 1, next, next + 1] {
        let made = make_full(&settings, extensions, spare_records);
        script.lend(&made.bytes, made.bytes.len());
        assert_eq!(script.call(Call::Validate), 0, "the reference refuses a file whose extensions are full");
        for words in [0, 35, 36] {
            script.again();
            let entry = with_data(random, 3, words);
            ask(random, script, Call::Append(entry));
        }
    }
}
