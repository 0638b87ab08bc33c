//! Damage to made files: every field of the first record, of an index and of an entry with the values at the edges of
//! what it admits, in the file's order and in the other, other codes, and single bits.

use crate::files::{area_words, most_extensions, together, Made};
use crate::random::Random;
use crate::reference::{Order, ENTRY_CODE};

/// What a field holds.
#[derive(Clone, Copy, PartialEq)]
pub enum Form {
    Code,
    Integer4,
    Integer8,
}

/// A field of a made file: its byte, what it holds, the values that decide about it, and its entry (0: the first
/// record).
pub struct Field {
    pub at: usize,
    pub form: Form,
    pub limits: Vec<i64>,
    pub entry: usize,
}

/// Every field of a made file.
pub fn fields(made: &Made) -> Vec<Field> {
    let mut fields = first_record(made);
    for entry in 1..=made.entries.len() {
        fields.extend(index_fields(made, entry));
        fields.extend(entry_fields(made, entry));
    }
    fields
}

/// The fields of the first record, and after the addresses in use the first two words, those about the sixteenth place
/// of an address, and the last two.
fn first_record(made: &Made) -> Vec<Field> {
    let s = &made.settings;
    let nex = made.areas.len();
    let held = |k: usize| together(s, k) as i64 + 1;
    let records = (made.bytes.len() / 4 / made.reclen()) as i64;
    let nextrec = made.integer8(4 * 8);
    let last_area = made.areas.last().map_or(1, |area| ((area + area_words(s, nex)) / made.reclen()) as i64 + 1);
    let field =
        |word: usize, form, limits: &[i64]| Field { at: 4 * (word - 1), form, limits: limits.to_vec(), entry: 0 };
    let mut fields = vec![
        field(1, Form::Code, &[]),
        field(2, Form::Integer4, &[16, 4096]),
        field(3, Form::Integer4, &[1, 3]),
        field(4, Form::Integer4, &[2]),
        field(5, Form::Integer4, &[3, 256]),
        field(6, Form::Integer4, &[0, 1]),
        field(7, Form::Integer8, &[1, held(nex), held(nex.saturating_sub(1)), held(nex + 1)]),
        field(9, Form::Integer8, &[2, records + 1, last_area]),
        field(11, Form::Integer4, &[1, s.reclen as i64]),
        field(12, Form::Integer4, &[1, 4096]),
        field(13, Form::Integer4, &[0, most_extensions(s) as i64]),
        field(14, Form::Integer4, &[10, 20]),
    ];
    for k in 1..=nex {
        let mut limits = vec![2, nextrec, nextrec - (area_words(s, k) / made.reclen()) as i64];
        if k > 1 {
            limits.push(((made.areas[k - 2] + area_words(s, k - 1)) / made.reclen()) as i64 + 1);
        }
        fields.push(field(13 + 2 * k, Form::Integer8, &limits));
    }
    let (after, reclen) = (15 + 2 * nex, made.reclen());
    let mut rest = vec![after, after + 1, 46, 47, reclen - 1, reclen];
    rest.sort_unstable();
    rest.dedup();
    rest.retain(|word| (after..=reclen).contains(word));
    fields.extend(rest.into_iter().map(|word| field(word, Form::Integer4, &[])));
    fields
}

/// The record and word in an entry's index.
fn index_fields(made: &Made, entry: usize) -> Vec<Field> {
    let at = 4 * made.entries[entry - 1].slot;
    let last = made.integer8(4 * 8);
    vec![
        Field { at, form: Form::Integer8, limits: vec![2, last], entry },
        Field { at: at + 8, form: Form::Integer4, limits: vec![1, made.settings.reclen as i64], entry },
    ]
}

/// The fields of an entry's descriptor.
fn entry_fields(made: &Made, entry: usize) -> Vec<Field> {
    let placed = &made.entries[entry - 1];
    let byte = |word: usize| 4 * (placed.start + word - 1);
    let nsec = placed.ids.len();
    let (nword, adata, ldata) = (made.integer8(byte(4)), made.integer8(byte(6)), made.integer8(byte(8)));
    let first = 12 + 5 * nsec as i64;
    let piece = |i: usize| (made.integer8(byte(12 + 3 * nsec + 2 * i)), made.integer8(byte(12 + nsec + 2 * i)));
    let mut pieces: Vec<(i64, i64)> = (0..nsec).map(piece).collect();
    if ldata > 0 {
        pieces.push((adata, ldata));
    }
    let addresses = |length: i64| {
        let mut limits = vec![first, nword - length + 1];
        limits.extend(pieces.iter().flat_map(|&(a, l)| [a - length + 1, a + l - 1]));
        limits
    };
    let lengths = |address: i64| {
        let mut limits = vec![0, 1, nword.wrapping_sub(address) + 1];
        limits.extend(pieces.iter().map(|&(a, _)| a.wrapping_sub(address) + 1));
        limits
    };
    let field = |word: usize, form, limits: Vec<i64>| Field { at: byte(word), form, limits, entry };
    let room = (made.free - placed.start) as i64;
    let mut fields = vec![
        field(1, Form::Code, vec![]),
        field(2, Form::Integer4, vec![]),
        field(3, Form::Integer4, vec![0, 64, (nword - 11) / 5]),
        field(4, Form::Integer8, vec![first - 1, room, following(made, placed.start)]),
        field(6, Form::Integer8, addresses(ldata)),
        field(8, Form::Integer8, lengths(adata)),
        field(10, Form::Integer8, vec![entry as i64, made.entries.len() as i64]),
    ];
    for i in 0..nsec {
        let (address, length) = piece(i);
        fields.push(field(12 + i, Form::Integer4, vec![]));
        fields.push(field(12 + nsec + 2 * i, Form::Integer8, lengths(address)));
        fields.push(field(12 + 3 * nsec + 2 * i, Form::Integer8, addresses(length)));
    }
    fields
}

/// The words from a position to the nearest entry or index area behind it, or to the next free position.
fn following(made: &Made, position: usize) -> i64 {
    let starts = made.entries.iter().map(|e| e.start).chain(made.areas.iter().copied()).chain([made.free]);
    starts.filter(|&start| start > position).min().map_or(0, |start| (start - position) as i64)
}

/// The bytes to try in a field.
pub fn edges(made: &Made, field: &Field) -> Vec<Vec<u8>> {
    let order = made.order();
    match field.form {
        Form::Code => codes(std::array::from_fn(|i| made.bytes[field.at + i])),
        Form::Integer4 => values4(made, field).into_iter().map(|value| order.bytes4(value as i32).to_vec()).collect(),
        Form::Integer8 => values8(made, field).into_iter().map(|value| order.bytes8(value).to_vec()).collect(),
    }
}

/// Codes other than the one that is held: of both orders, of an entry, of version 1, in small letters, in the order of
/// a word that is turned, none, and with one bit of a byte changed.
pub fn codes(held: [u8; 4]) -> Vec<Vec<u8>> {
    let mut codes = vec![Order::Little.code(), Order::Big.code(), ENTRY_CODE, *b"1A  ", *b"1B  ", *b"9A  ", *b"9B  "];
    codes.extend([*b"2a  ", *b"2b  ", *b"2C  ", [held[3], held[2], held[1], held[0]], [0; 4]]);
    for place in 0..4 {
        for bit in [0, 1, 5, 7] {
            let mut code = held;
            code[place] ^= 1 << bit;
            codes.push(code);
        }
    }
    codes.sort_unstable();
    codes.dedup();
    codes.retain(|&code| code != held);
    codes.iter().map(|code| code.to_vec()).collect()
}

/// The values to try in any integer field: near 0, near what it holds, with one bit of a byte changed, near each limit,
/// and near the ends of 32 bits.
fn values(field: &Field, held: i64) -> Vec<i64> {
    let mut values = vec![0, 1, -1, held.wrapping_sub(1), held.wrapping_add(1), (1 << 31) - 1, -(1 << 31)];
    values.extend([8, 16, 24].map(|bit| held ^ (1 << bit)));
    for &limit in &field.limits {
        values.extend([limit.wrapping_sub(1), limit, limit.wrapping_add(1)]);
    }
    values
}

/// The values to try in an Integer*4: also what it holds in the other order.
fn values4(made: &Made, field: &Field) -> Vec<i64> {
    let held = made.integer4(field.at);
    let mut values = values(field, held);
    values.push((held as i32).swap_bytes() as i64);
    others(values, held)
}

/// The values to try in an Integer*8: also near the ends of 64 bits, those that meet the held value again in a narrower
/// or a wrapped product, and what it holds in the other order, with its halves exchanged, and with each half turned.
fn values8(made: &Made, field: &Field) -> Vec<i64> {
    let held = made.integer8(field.at);
    let twos = made.settings.reclen.trailing_zeros();
    let mut values = values(field, held);
    values.extend([1 << 31, (1 << 32) - 1, 1 << 32, (1 << 32) + 1, 1 << 62, i64::MAX, i64::MIN]);
    for power in [31, 32 - twos, 32, 62 - twos, 62, 63, 64 - twos] {
        values.push(1i64.checked_shl(power).unwrap_or(0).wrapping_add(held));
    }
    values.push(i64::MAX.wrapping_sub(held));
    values.extend([held.swap_bytes(), held.rotate_left(32), held.swap_bytes().rotate_left(32)]);
    others(values, held)
}

/// The values other than the one that is held, each once.
fn others(mut values: Vec<i64>, held: i64) -> Vec<i64> {
    values.sort_unstable();
    values.dedup();
    values.retain(|&value| value != held);
    values
}

/// What a field has to hold in a file of the other order. An entry's code is the same in both.
pub fn turned(made: &Made, field: &Field) -> Vec<u8> {
    let held = |count: usize| made.bytes[field.at..field.at + count].iter().copied();
    match field.form {
        Form::Code if field.entry == 0 => Order::BOTH[1 - made.order() as usize].code().to_vec(),
        Form::Code => held(4).collect(),
        Form::Integer4 => held(4).rev().collect(),
        Form::Integer8 => held(8).rev().collect(),
    }
}

/// One random damage: where, and the bytes to put there. The first record's fields, which come first, are hit often.
pub fn random_damage(random: &mut Random, made: &Made, fields: &[Field]) -> (usize, Vec<u8>) {
    let first = fields.iter().take_while(|field| field.entry == 0).count();
    let count = if random.once_in(3) { first } else { fields.len() };
    let field = &fields[random.from(0, count - 1)];
    if random.once_in(3) {
        let at = if random.once_in(2) { field.at } else { random.from(0, made.bytes.len() - 1) };
        return (at, vec![made.bytes[at] ^ (1 << random.from(0, 7))]);
    }
    let values = edges(made, field);
    (field.at, values[random.from(0, values.len() - 1)].clone())
}
