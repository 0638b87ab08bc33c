//! What appends are given: random additions, and the ways to spoil one.

use crate::random::Random;
use crate::reference::Addition;

/// What an append may take: good for files with this lind.
pub fn addition(random: &mut Random, lind: i32) -> Addition {
    let many = random.pick(&[8, 8, 8, 64]);
    let nsec = random.pick(&[0, 0, 1, 1, 2, 3, 5, many]);
    let first = random.pick(&[-2, 0, 7, i32::MIN, i32::MAX - 64]);
    let mut ids: Vec<i32> = (0..nsec).map(|i| first + i).collect();
    random.shuffle(&mut ids);
    let lengths: Vec<i64> = ids.iter().map(|_| random.from(1, 5) as i64).collect();
    let section_words: i64 = lengths.iter().sum();
    let data_words = random.pick(&[0, 0, 1, 2, 5, 30]);
    Addition {
        version: random.pick(&[1, 0, -1, i32::MIN, i32::MAX]),
        index: random.bytes(4 * (lind as usize - 3)),
        ids,
        lengths,
        sections: random.bytes(4 * section_words as usize),
        data: random.bytes(4 * data_words),
    }
}

/// Spoils an addition in one way of refusals 21 and 22, or near to it.
pub fn spoil(random: &mut Random, a: &mut Addition) {
    let words = a.sections.len() as i64 / 4;
    match random.from(1, 13) {
        1 => resize(random, &mut a.index),
        2 => a.index.clear(),
        3 => {
            a.ids = (0..65).collect();
            a.lengths = vec![1; 65];
            a.sections = random.bytes(4 * 65);
        }
        4 => a.lengths.push(1),
        5 => drop(a.lengths.pop()),
        6 => repeat_identifier(random, a),
        7 => set_length(random, a, |old| old - 1),
        8 => {
            let edge = random.pick(&[0, -1, i64::MIN, i64::MAX, 1 << 62, 1 << 32]);
            set_length(random, a, |_| edge);
        }
        // 4 times such a length is the section bytes again, modulo 2^64 or 2^32.
        9 => {
            let far = random.pick(&[1 << 62, 1 << 30, i64::MIN]);
            set_length(random, a, |old| old.wrapping_add(far));
        }
        // The sum of such lengths is the section words again, modulo 2^64.
        10 => {
            a.ids = vec![1, 2, 3];
            a.lengths = vec![i64::MAX, i64::MAX, words + 2];
        }
        11 => resize(random, &mut a.sections),
        12 => resize(random, &mut a.data),
        _ => {
            a.ids.clear();
            a.lengths.clear();
        }
    }
}

/// Makes a slice some bytes longer or shorter.
fn resize(random: &mut Random, bytes: &mut Vec<u8>) {
    let by = random.pick(&[1, 2, 3, 4]);
    let size = if random.once_in(2) { bytes.len() + by } else { bytes.len().saturating_sub(by) };
    bytes.resize(size, 0);
}

/// Makes one identifier that of another, where there are two.
fn repeat_identifier(random: &mut Random, a: &mut Addition) {
    if a.ids.len() > 1 {
        let (from, to) = (random.from(0, a.ids.len() - 2), a.ids.len() - 1);
        a.ids[to] = a.ids[from];
    }
}

/// Changes one length, where there is one.
fn set_length(random: &mut Random, a: &mut Addition, change: impl Fn(i64) -> i64) {
    if !a.lengths.is_empty() {
        let i = random.from(0, a.lengths.len() - 1);
        a.lengths[i] = change(a.lengths[i]);
    }
}
