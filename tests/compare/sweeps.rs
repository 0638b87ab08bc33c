//! What batches are given: entries laid end to end with their counts, the ways to spoil one entry of them, and the ways
//! to make the counts wrong.

use crate::additions::{addition, spoil};
use crate::random::Random;
use crate::reference::{Addition, Batch};

/// So many entries, good for files with this lind; once in four times they have no sections and no data.
pub fn sweep(random: &mut Random, lind: i32, count: usize) -> Vec<Addition> {
    let bare = random.once_in(4);
    let entries = (0..count).map(|_| match addition(random, lind) {
        Addition { version, index, .. } if bare => Addition { version, index, ..Addition::default() },
        full => full,
    });
    entries.collect()
}

/// A good entry with two sections and data.
pub fn with_two_sections(random: &mut Random, lind: i32) -> Addition {
    Addition {
        version: random.next() as i32,
        index: random.bytes(4 * (lind as usize - 3)),
        ids: vec![9, 5],
        lengths: vec![2, 3],
        sections: random.bytes(4 * 5),
        data: random.bytes(4 * 2),
    }
}

/// The ways to spoil an entry with two sections and data, in the order of the sentences of refusals 21 and 22.
pub const SPOILED: [fn(&mut Addition); 19] = [
    |a| a.index.push(0),
    |a| a.index.extend([0; 4]),
    |a| a.index.truncate(a.index.len().saturating_sub(1)),
    |a| a.index.clear(),
    |a| {
        a.ids = (0..65).collect();
        a.lengths = vec![1; 65];
        a.sections = vec![6; 4 * 65];
    },
    |a| a.lengths.push(1),
    |a| a.lengths.truncate(1),
    |a| a.ids.push(1),
    |a| a.ids.clear(),
    |a| a.ids[1] = a.ids[0],
    |a| a.lengths[0] = 0,
    |a| a.lengths = vec![-1, 6],
    |a| a.lengths[1] = i64::MIN,
    |a| a.lengths[0] += 1 << 62,
    |a| {
        a.ids.push(1);
        a.lengths = vec![i64::MAX, i64::MAX, 7];
    },
    |a| a.sections.extend([0; 4]),
    |a| a.sections.truncate(19),
    |a| a.data.push(0),
    |a| a.data.truncate(6),
];

/// Lays entries end to end.
pub fn laid(entries: &[Addition]) -> Batch {
    let mut b = Batch::default();
    for a in entries {
        let counts = [a.index.len(), a.ids.len(), a.lengths.len(), a.sections.len(), a.data.len()];
        b.versions.push(a.version);
        b.counts.push(counts.map(|count| count as u64));
        b.index.extend(&a.index);
        b.ids.extend(&a.ids);
        b.lengths.extend(&a.lengths);
        b.sections.extend(&a.sections);
        b.data.extend(&a.data);
    }
    b
}

/// A batch of up to 65 entries: mostly few and good, else with an entry spoiled, counts moved, or counts wrong.
pub fn any_batch(random: &mut Random, lind: i32) -> Batch {
    let count = match random.from(1, 12) {
        1 => 0,
        2..=8 => random.from(1, 5),
        9..=11 => random.from(6, 20),
        _ => random.pick(&[63, 64, 65]),
    };
    let mut entries = sweep(random, lind, count);
    if count > 0 && random.once_in(4) {
        let i = random.from(0, count - 1);
        spoil(random, &mut entries[i]);
    }
    let mut batch = laid(&entries);
    match random.from(1, 10) {
        1 => move_count(random, &mut batch),
        2 => {
            let mut all = wrong(&batch);
            batch = all.swap_remove(random.from(0, all.len() - 1));
        }
        _ => {}
    }
    batch
}

/// Moves some of a count from one entry to another, so that the column's sum stays.
fn move_count(random: &mut Random, batch: &mut Batch) {
    if let Some(last) = batch.counts.len().checked_sub(1) {
        let (from, to, column) = (random.from(0, last), random.from(0, last), random.from(0, 4));
        let held = batch.counts[from][column];
        let moved = random.pick(&[1, 2, 4, held]).min(held);
        batch.counts[from][column] -= moved;
        batch.counts[to][column] += moved;
    }
}

/// Batches near one with good counts that refusal 26 meets: counts and versions not as many, over 64 entries, and for
/// each column counts that do not use up its array.
pub fn wrong(good: &Batch) -> Vec<Batch> {
    let mut all = not_as_many(good);
    for count in [65, 66, 256, 257, 320] {
        all.push(changed(good, |b| {
            b.versions.resize(count, 1);
            b.counts.resize(count, [0; 5]);
        }));
    }
    for column in 0..5 {
        all.extend(wrong_arrays(good, column));
        all.extend(wrong_counts(good, column));
    }
    all
}

/// A batch with one change.
fn changed(good: &Batch, change: impl FnOnce(&mut Batch)) -> Batch {
    let mut batch = good.clone();
    change(&mut batch);
    batch
}

/// Batches with a row or a version more, and where there are some with one fewer and with none.
fn not_as_many(good: &Batch) -> Vec<Batch> {
    let mut all = vec![changed(good, |b| b.counts.push([0; 5])), changed(good, |b| b.versions.push(1))];
    if !good.counts.is_empty() {
        all.push(changed(good, |b| b.counts.truncate(b.counts.len() - 1)));
        all.push(changed(good, |b| b.versions.truncate(b.versions.len() - 1)));
        all.push(changed(good, |b| b.counts.clear()));
        all.push(changed(good, |b| b.versions.clear()));
    }
    all
}

/// Batches with more in a column's array, or less.
fn wrong_arrays(good: &Batch, column: usize) -> Vec<Batch> {
    let lent = good.lent()[column];
    let sizes = [lent + 1, lent + 4, lent.saturating_sub(1), 0].into_iter().filter(|&size| size != lent);
    sizes.map(|size| changed(good, |b| resize(b, column, size))).collect()
}

/// Makes a column's array so many elements long.
fn resize(b: &mut Batch, column: usize, size: usize) {
    match column {
        0 => b.index.resize(size, 0),
        1 => b.ids.resize(size, 0),
        2 => b.lengths.resize(size, 1),
        3 => b.sections.resize(size, 0),
        _ => b.data.resize(size, 0),
    }
}

/// Batches whose counts in a column sum up to one more or less than its array has, to a power of two more, which a
/// narrower number or a count in bytes loses, and to 2^64 more, which a sum that wraps loses.
fn wrong_counts(good: &Batch, column: usize) -> Vec<Batch> {
    let Some(last) = good.counts.len().checked_sub(1) else {
        return vec![];
    };
    let (of_first, of_last) = (good.counts[0][column], good.counts[last][column]);
    let mut all: Vec<Vec<u64>> =
        [1, u64::MAX, 1 << 32, 1 << 61, 1 << 62, 1 << 63, u64::MAX - of_first].map(|more| vec![more]).to_vec();
    if last > 0 {
        for more in [1 << 63, u64::MAX - of_first, of_last + 1] {
            let mut to_each = vec![0; last];
            to_each[0] = more;
            to_each.push(more.wrapping_neg());
            all.push(to_each);
        }
        if (last + 1).is_power_of_two() {
            all.push(vec![(1 << 63) / (last as u64 + 1) * 2; last + 1]);
        }
    }
    all.iter().map(|to_each| changed(good, |b| add_to_counts(b, column, to_each))).collect()
}

/// Adds to a column's counts, from the first row on; what passes 2^64 wraps.
fn add_to_counts(b: &mut Batch, column: usize, to_each: &[u64]) {
    for (row, more) in b.counts.iter_mut().zip(to_each) {
        row[column] = row[column].wrapping_add(*more);
    }
}
