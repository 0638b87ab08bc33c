//! Random files by a writer of their own, apart from the reference's append: index areas, entries, sections and data
//! in any admitted place, with gaps and spare room.

use crate::random::Random;
use crate::reference::{capacity, mex, Order, Settings, ENTRY_CODE};

/// A made file and where its things stand, in word positions counted from 0.
pub struct Made {
    pub bytes: Vec<u8>,
    pub settings: Settings,
    pub areas: Vec<usize>,
    pub free: usize,
    pub entries: Vec<Placed>,
}

/// An entry of a made file: the positions of its index and of its first word, and its section identifiers.
pub struct Placed {
    pub slot: usize,
    pub start: usize,
    pub ids: Vec<i32>,
}

/// What a made file shall be like. Shuffled and overlapping ones are not in order; over 64 sections are refused.
pub struct Shape {
    pub settings: Settings,
    pub entries: usize,
    pub least_sections: usize,
    pub most_sections: usize,
    pub gaps: bool,
    pub shuffled: bool,
    pub overlaps: bool,
    pub spare_records: usize,
}

/// A piece of the file in the order in which it is laid.
enum Block {
    Area(usize),
    Entry(usize),
}

impl Made {
    /// The file's order.
    pub fn order(&self) -> Order {
        order_of(&self.settings)
    }

    /// The Integer*4 at a byte.
    pub fn integer4(&self, at: usize) -> i64 {
        let bytes = std::array::from_fn(|i| self.bytes[at + i]);
        match self.order() {
            Order::Little => i32::from_le_bytes(bytes) as i64,
            Order::Big => i32::from_be_bytes(bytes) as i64,
        }
    }

    /// The Integer*8 at a byte.
    pub fn integer8(&self, at: usize) -> i64 {
        let (low, high) = match self.order() {
            Order::Little => (self.integer4(at), self.integer4(at + 4)),
            Order::Big => (self.integer4(at + 4), self.integer4(at)),
        };
        (low & 0xffff_ffff) | (high << 32)
    }

    /// The record length in words.
    pub fn reclen(&self) -> usize {
        self.settings.reclen as usize
    }
}

/// The order in settings of a file that is made.
fn order_of(s: &Settings) -> Order {
    Order::of_setting(s.order).expect("a file is made in one of the two orders")
}

/// The capacity of extension k, counted from 1.
pub fn capacity_of(s: &Settings, k: usize) -> usize {
    capacity(s.lex1 as i128, s.gex as i128, k as i128) as usize
}

/// The capacities of the first k extensions together.
pub fn together(s: &Settings, k: usize) -> usize {
    (1..=k).map(|i| capacity_of(s, i)).sum()
}

/// The greatest number of extensions.
pub fn most_extensions(s: &Settings) -> usize {
    mex(s.reclen as i128) as usize
}

/// The words of the index area of extension k.
pub fn area_words(s: &Settings, k: usize) -> usize {
    round_up(capacity_of(s, k) * s.lind as usize, s.reclen as usize)
}

/// The least multiple of a unit that a size fits.
pub fn round_up(size: usize, unit: usize) -> usize {
    (size + unit - 1) / unit * unit
}

/// Random settings in an order: mostly small, some at the limits.
pub fn settings(random: &mut Random, order: Order) -> Settings {
    let reclen = match random.from(1, 12) {
        1..=3 => random.from(16, 18),
        4..=7 => random.from(19, 32),
        8 | 9 => random.from(33, 64),
        10 => random.pick(&[100, 127, 128]),
        11 => random.pick(&[256, 511, 512]),
        _ => random.pick(&[1024, 4095, 4096]),
    };
    let lind = match random.from(1, 12) {
        1..=3 => 3,
        4..=8 => random.from(4, 8),
        9..=11 => random.from(9, 40),
        _ => random.pick(&[100, 255, 256]),
    };
    let lex1 = match random.from(1, 24) {
        1 => random.from(20, 60),
        2..=8 => random.from(4, 9),
        _ => random.from(1, 3),
    };
    Settings {
        order: order as i32,
        reclen: reclen as i32,
        kind: random.from(1, 3) as i32,
        vind: random.pick(&[2, 2, 3, 77, i32::MAX]),
        lind: lind as i32,
        flags: random.from(0, 1) as i32,
        lex1: lex1 as i32,
        gex: random.from(10, 20) as i32,
    }
}

/// A random shape in an order: up to five extensions, often with the last one full.
pub fn shape(random: &mut Random, order: Order) -> Shape {
    let settings = settings(random, order);
    let most = most_extensions(&settings).min(5);
    let extensions = random.from(0, most);
    let entries = match extensions {
        0 => 0,
        k if random.once_in(3) => together(&settings, k),
        k => random.from(together(&settings, k - 1) + 1, together(&settings, k)),
    };
    Shape {
        settings,
        entries: entries.min(24),
        least_sections: 0,
        most_sections: random.pick(&[0, 2, 3, 3, 5, 64]),
        gaps: !random.once_in(3),
        shuffled: false,
        overlaps: false,
        spare_records: random.pick(&[0, 0, 1, 2, 6]),
    }
}

/// Makes a file of a shape.
pub fn make(random: &mut Random, shape: &Shape) -> Made {
    let s = shape.settings;
    let reclen = s.reclen as usize;
    let contents: Vec<(Vec<u8>, Vec<i32>)> = (1..=shape.entries).map(|number| entry(random, shape, number)).collect();
    let (mut areas, mut starts) = (vec![], vec![0; shape.entries]);
    let mut at = reclen;
    for block in blocks(random, shape) {
        match block {
            Block::Area(k) => {
                at = round_up(at, reclen) + if shape.gaps { random.pick(&[0, 0, reclen]) } else { 0 };
                areas.push(at);
                at += area_words(&s, k);
            }
            Block::Entry(i) => {
                at += gap(random, shape, 3);
                at -= if shape.overlaps && at > reclen + 2 && random.once_in(4) { random.from(1, 2) } else { 0 };
                starts[i] = at;
                at += contents[i].0.len() / 4;
            }
        }
    }
    let free = at + gap(random, shape, reclen);
    let size = 4 * (round_up(free, reclen) + shape.spare_records * reclen);
    let bytes = if random.once_in(2) { vec![0; size] } else { random.bytes(size) };
    let mut made = Made { bytes, settings: s, areas, free, entries: vec![] };
    put_first_record(&mut made, shape.entries);
    for (i, (content, ids)) in contents.into_iter().enumerate() {
        let slot = slot(&s, &made.areas, i);
        put(&mut made.bytes, starts[i], &content);
        put(&mut made.bytes, slot, &place(&s, starts[i]));
        let words = random.bytes(4 * (s.lind as usize - 3));
        put(&mut made.bytes, slot + 3, &words);
        made.entries.push(Placed { slot, start: starts[i], ids });
    }
    made
}

/// Makes a file whose index areas are full and whose entries are not there: for great numbers of entries.
pub fn make_full(settings: &Settings, extensions: usize, spare_records: usize) -> Made {
    let reclen = settings.reclen as usize;
    let (mut areas, mut at) = (vec![], reclen);
    for k in 1..=extensions {
        areas.push(at);
        at += area_words(settings, k);
    }
    let bytes = vec![0; 4 * (at + spare_records * reclen)];
    let mut made = Made { bytes, settings: *settings, areas, free: at, entries: vec![] };
    put_first_record(&mut made, together(settings, extensions));
    made
}

/// Puts an entry without sections and data at the next free position of a file made full, and its index.
pub fn put_bare(made: &mut Made, number: usize) {
    let (s, order, start) = (made.settings, made.order(), made.free);
    let slot = slot(&s, &made.areas, number - 1);
    put(&mut made.bytes, start, &ENTRY_CODE);
    put(&mut made.bytes, start + 3, &order.bytes8(11));
    put(&mut made.bytes, start + 9, &order.bytes8(number as i64));
    put(&mut made.bytes, slot, &place(&s, start));
    made.free = start + 11;
    put(&mut made.bytes, 8, &place(&s, made.free));
}

/// The blocks of a file: each area with its entries after it, or in a shuffled file the entries anywhere.
fn blocks(random: &mut Random, shape: &Shape) -> Vec<Block> {
    let mut blocks = vec![];
    let (mut k, mut room) = (0, 0);
    for i in 0..shape.entries {
        if room == 0 {
            k += 1;
            room = capacity_of(&shape.settings, k);
            blocks.push(Block::Area(k));
        }
        room -= 1;
        blocks.push(Block::Entry(i));
    }
    if shape.shuffled {
        for _ in 0..random.from(1, 1 + shape.entries) {
            let from = random.from(0, blocks.len() - 1);
            if let Block::Entry(i) = blocks[from] {
                blocks.remove(from);
                let to = random.from(0, blocks.len());
                blocks.insert(to, Block::Entry(i));
            }
        }
    }
    blocks
}

/// A gap of fewer words than a bound, mostly none.
fn gap(random: &mut Random, shape: &Shape, bound: usize) -> usize {
    if shape.gaps && random.once_in(2) {
        random.from(0, bound - 1)
    } else {
        0
    }
}

/// The bytes of an entry and its identifiers: sections and data in any order, with gaps and room for more sections.
fn entry(random: &mut Random, shape: &Shape, number: usize) -> (Vec<u8>, Vec<i32>) {
    let order = order_of(&shape.settings);
    let nsec = random.from(shape.least_sections, shape.most_sections);
    let ids = identifiers(random, nsec);
    let ldata = if random.once_in(3) { 0 } else { random.from(1, 20) };
    let mut pieces: Vec<usize> = (0..=nsec).collect();
    random.shuffle(&mut pieces);
    let (mut lengths, mut addresses) = (vec![0; nsec + 1], vec![0; nsec + 1]);
    let mut address = 12 + 5 * nsec + 5 * gap(random, shape, 3);
    for piece in pieces {
        address += gap(random, shape, 3);
        addresses[piece] = address;
        lengths[piece] = if piece == nsec { ldata } else { random.from(1, 6) };
        address += lengths[piece];
    }
    let nword = address - 1 + gap(random, shape, 4);
    let adata =
        if ldata == 0 { random.pick(&[0, -1, 5, i64::MIN, 0x0102_0304_0506_0708]) } else { addresses[nsec] as i64 };
    let mut bytes = random.bytes(4 * nword);
    put(&mut bytes, 0, &ENTRY_CODE);
    put(&mut bytes, 2, &order.bytes4(nsec as i32));
    for (word, value) in [(3, nword as i64), (5, adata), (7, ldata as i64), (9, number as i64)] {
        put(&mut bytes, word, &order.bytes8(value));
    }
    for i in 0..nsec {
        put(&mut bytes, 11 + i, &order.bytes4(ids[i]));
        put(&mut bytes, 11 + nsec + 2 * i, &order.bytes8(lengths[i] as i64));
        put(&mut bytes, 11 + 3 * nsec + 2 * i, &order.bytes8(addresses[i] as i64));
    }
    (bytes, ids)
}

/// Random identifiers: mostly apart, small or of any size, sometimes one twice.
fn identifiers(random: &mut Random, count: usize) -> Vec<i32> {
    let first = random.pick(&[-3, 0, 1, 0x0102_0304, i32::MIN, i32::MAX - 100]);
    let mut ids: Vec<i32> = (0..count as i32).map(|i| first + i).collect();
    random.shuffle(&mut ids);
    if count > 1 && random.once_in(6) {
        ids[count - 1] = ids[0];
    }
    ids
}

/// Writes the first record: its fields, and zeros after the addresses in use.
fn put_first_record(made: &mut Made, entries: usize) {
    let (s, order, reclen) = (made.settings, made.order(), made.reclen());
    put(&mut made.bytes, 0, &order.code());
    let nex = made.areas.len() as i32;
    for (word, value) in
        [(1, s.reclen), (2, s.kind), (3, s.vind), (4, s.lind), (5, s.flags), (11, s.lex1), (12, nex), (13, s.gex)]
    {
        put(&mut made.bytes, word, &order.bytes4(value));
    }
    put(&mut made.bytes, 6, &order.bytes8(entries as i64 + 1));
    put(&mut made.bytes, 8, &place(&s, made.free));
    for (k, area) in made.areas.iter().enumerate() {
        put(&mut made.bytes, 14 + 2 * k, &order.bytes8((area / reclen) as i64 + 1));
    }
    made.bytes[4 * (14 + 2 * made.areas.len())..4 * reclen].fill(0);
}

/// A position as a record number and a word number: three words.
fn place(s: &Settings, position: usize) -> Vec<u8> {
    let (order, reclen) = (order_of(s), s.reclen as usize);
    let mut words = order.bytes8((position / reclen) as i64 + 1).to_vec();
    words.extend(order.bytes4((position % reclen) as i32 + 1));
    words
}

/// The position of the index of entry i, counted from 0.
fn slot(s: &Settings, areas: &[usize], i: usize) -> usize {
    let (mut k, mut j) = (1, i);
    while j >= capacity_of(s, k) {
        j -= capacity_of(s, k);
        k += 1;
    }
    areas[k - 1] + j * s.lind as usize
}

/// Writes bytes at a word position.
fn put(bytes: &mut [u8], word: usize, new: &[u8]) {
    bytes[4 * word..4 * word + new.len()].copy_from_slice(new);
}
