//! The independent implementation of document 01, with the batches of Q-1, the capacities of Q-2, the updates of Q-3,
//! the byte orders of Q-4, the record of the open file of Q-5 and the leftovers of Q-7 in document 02, plain and slow,
//! over the lent bytes of a file: written from these papers and the memo alone. Every number is an i128, so that no sum
//! or product of stored numbers or of counts can wrap. The calls that write stand in writer.rs, those through a record
//! in open_file.rs.

#[path = "open_file.rs"]
mod open_file;
#[path = "writer.rs"]
mod writer;

// Not every program that is built with this file uses all of these.
#[allow(unused_imports)]
pub use open_file::{append_batch_to, append_to, open_file_of, update_to, OpenFile, FIELDS, REFUSED};
#[allow(unused_imports)]
pub use writer::{append, append_batch, create, entries_of, update, Addition, Batch, Update};

/// The code of an entry, in files of both orders.
pub const ENTRY_CODE: [u8; 4] = [0x32, 0x20, 0x20, 0x20];

/// The order of the bytes of a file's integers, with its number as a setting.
#[derive(Clone, Copy, Debug, PartialEq)]
pub enum Order {
    Little = 0,
    Big = 1,
}

/// A refusal: its number, and which part of that number's sentence in 01 was broken.
#[derive(Clone, Copy)]
pub struct Refusal {
    pub number: u32,
    pub way: &'static str,
}

/// The settings of a file, as creation takes them.
#[derive(Clone, Copy, Debug)]
pub struct Settings {
    pub order: i32,
    pub reclen: i32,
    pub kind: i32,
    pub vind: i32,
    pub lind: i32,
    pub flags: i32,
    pub lex1: i32,
    pub gex: i32,
}

/// The fields of an admitted first record; aex has nex places.
pub struct Descriptor {
    pub order: Order,
    pub reclen: i128,
    pub kind: i128,
    pub vind: i128,
    pub lind: i128,
    pub flags: i128,
    pub xnext: i128,
    pub nextrec: i128,
    pub nextword: i128,
    pub lex1: i128,
    pub nex: i128,
    pub gex: i128,
    pub aex: Vec<i128>,
}

/// An extension by number: capacity, first record of its index area, records of that area.
pub struct Extension {
    pub capacity: i128,
    pub first: i128,
    pub records: i128,
}

/// The numbers and tables of an opened entry, as stored; the tables have nsec places.
pub struct Entry {
    pub record: i128,
    pub word: i128,
    pub version: i128,
    pub nsec: i128,
    pub nword: i128,
    pub adata: i128,
    pub ldata: i128,
    pub ids: Vec<i128>,
    pub lengths: Vec<i128>,
    pub addresses: Vec<i128>,
}

/// A part of the lent bytes: its first byte, counted from 0, and its count of bytes.
pub struct Part {
    pub start: i128,
    pub length: i128,
}

/// Gives a refusal.
fn refuse<T>(number: u32, way: &'static str) -> Result<T, Refusal> {
    Err(Refusal { number, way })
}

/// The bytes at a word position, counted from 0.
fn bytes_at<const COUNT: usize>(file: &[u8], position: i128) -> [u8; COUNT] {
    let at = 4 * position as usize;
    std::array::from_fn(|i| file[at + i])
}

/// Writes bytes at a word position.
fn put(file: &mut [u8], position: i128, bytes: &[u8]) {
    let at = 4 * position as usize;
    file[at..at + bytes.len()].copy_from_slice(bytes);
}

impl Order {
    /// Both orders.
    pub const BOTH: [Order; 2] = [Order::Little, Order::Big];

    /// What the order is called.
    pub fn name(self) -> &'static str {
        match self {
            Order::Little => "little-endian",
            Order::Big => "big-endian",
        }
    }

    /// The code of a file with this order.
    pub fn code(self) -> [u8; 4] {
        match self {
            Order::Little => [0x32, 0x41, 0x20, 0x20],
            Order::Big => [0x32, 0x42, 0x20, 0x20],
        }
    }

    /// The order that the code of a file says, if the file begins with one of the two.
    pub fn of_file(file: &[u8]) -> Option<Order> {
        Order::BOTH.into_iter().find(|order| file.starts_with(&order.code()))
    }

    /// The order that has a number as a setting, if there is one.
    pub fn of_setting(number: i32) -> Option<Order> {
        Order::BOTH.into_iter().find(|&order| order as i32 == number)
    }

    /// The bytes of an Integer*4.
    pub fn bytes4(self, value: i32) -> [u8; 4] {
        match self {
            Order::Little => value.to_le_bytes(),
            Order::Big => value.to_be_bytes(),
        }
    }

    /// The bytes of an Integer*8: in the big order all eight come the most significant first.
    pub fn bytes8(self, value: i64) -> [u8; 8] {
        match self {
            Order::Little => value.to_le_bytes(),
            Order::Big => value.to_be_bytes(),
        }
    }

    /// The Integer*4 at a word position.
    fn integer4(self, file: &[u8], position: i128) -> i128 {
        let bytes = bytes_at(file, position);
        match self {
            Order::Little => i32::from_le_bytes(bytes) as i128,
            Order::Big => i32::from_be_bytes(bytes) as i128,
        }
    }

    /// The Integer*8 at a word position.
    fn integer8(self, file: &[u8], position: i128) -> i128 {
        let bytes = bytes_at(file, position);
        match self {
            Order::Little => i64::from_le_bytes(bytes) as i128,
            Order::Big => i64::from_be_bytes(bytes) as i128,
        }
    }

    /// Writes an Integer*4 at a word position.
    fn put4(self, file: &mut [u8], position: i128, value: i128) {
        put(file, position, &self.bytes4(value as i32));
    }

    /// Writes an Integer*8 at a word position.
    fn put8(self, file: &mut [u8], position: i128, value: i128) {
        put(file, position, &self.bytes8(value as i64));
    }
}

/// The whole units that a size takes.
fn whole(size: i128, unit: i128) -> i128 {
    (size + unit - 1) / unit
}

/// The greatest number of extensions that a first record has room for.
pub fn mex(reclen: i128) -> i128 {
    ((reclen - 14) / 2).min(16)
}

/// The capacity of extension k, counted from 1: lex1 × gex^(k-1) / 10^(k-1) exactly, the fraction dropped once.
pub fn capacity(lex1: i128, gex: i128, k: i128) -> i128 {
    let steps = (k - 1) as u32;
    lex1 * gex.pow(steps) / 10i128.pow(steps)
}

impl Descriptor {
    /// All fields, with 16 places of addresses, those past nex zero.
    pub fn fields(&self) -> Vec<i128> {
        let mut fields = vec![self.order as i128, self.reclen, self.kind, self.vind, self.lind, self.flags];
        fields.extend([self.xnext, self.nextrec, self.nextword, self.lex1, self.nex, self.gex]);
        fields.extend(&self.aex);
        fields.resize(12 + 16, 0);
        fields
    }

    /// The number of entries.
    pub fn entries(&self) -> i128 {
        self.xnext - 1
    }

    /// The position of a record's word.
    fn position(&self, record: i128, word: i128) -> i128 {
        (record - 1) * self.reclen + (word - 1)
    }

    /// The next free position.
    pub fn free(&self) -> i128 {
        self.position(self.nextrec, self.nextword)
    }

    /// The capacity of extension k.
    pub fn capacity(&self, k: i128) -> i128 {
        capacity(self.lex1, self.gex, k)
    }

    /// The capacities of the first k extensions together.
    pub fn together(&self, k: i128) -> i128 {
        (1..=k).map(|i| self.capacity(i)).sum()
    }

    /// The records of an index area with this capacity.
    pub fn records(&self, capacity: i128) -> i128 {
        whole(capacity * self.lind, self.reclen)
    }

    /// The position where the index area of extension k starts.
    fn area_start(&self, k: i128) -> i128 {
        self.position(self.aex[(k - 1) as usize], 1)
    }

    /// The position where the index area of extension k ends.
    fn area_end(&self, k: i128) -> i128 {
        self.area_start(k) + self.records(self.capacity(k)) * self.reclen
    }

    /// The extension that an entry belongs to, and the entry's number in it.
    fn home(&self, entry: i128) -> (i128, i128) {
        let mut k = 1;
        while entry > self.together(k) {
            k += 1;
        }
        (k, entry - self.together(k - 1))
    }

    /// The position of an entry's index.
    fn slot(&self, entry: i128) -> i128 {
        let (k, j) = self.home(entry);
        self.area_start(k) + (j - 1) * self.lind
    }

    /// The position where an opened entry starts.
    fn start(&self, entry: &Entry) -> i128 {
        self.position(entry.record, entry.word)
    }

    /// The position where an opened entry ends.
    fn end(&self, entry: &Entry) -> i128 {
        self.start(entry) + entry.nword
    }
}

/// Refusal 1.
fn test_enough_lent(lent: usize) -> Result<(), Refusal> {
    if lent < 64 {
        return refuse(1, "fewer than 64 bytes");
    }
    Ok(())
}

/// Refusals 3 to 8, which a stored descriptor and the settings of a creation share.
fn test_settings(lent: usize, s: &Settings, nex: i128) -> Result<(), Refusal> {
    let reclen = s.reclen as i128;
    if !(16..=4096).contains(&reclen) {
        return refuse(3, "reclen");
    }
    if lent > 1 << 30 {
        return refuse(4, "over 2^30 bytes");
    }
    if lent as i128 % (4 * reclen) != 0 {
        return refuse(4, "not whole records");
    }
    if !(1..=3).contains(&s.kind) {
        return refuse(5, "kind");
    }
    if s.vind < 2 {
        return refuse(6, "vind");
    }
    if !(3..=256).contains(&s.lind) {
        return refuse(6, "lind");
    }
    if !(0..=1).contains(&s.flags) {
        return refuse(7, "flags");
    }
    if !(1..=4096).contains(&s.lex1) {
        return refuse(8, "lex1");
    }
    if !(10..=20).contains(&s.gex) {
        return refuse(8, "gex");
    }
    if !(0..=mex(reclen)).contains(&nex) {
        return refuse(8, "nex");
    }
    if (1..=nex).any(|k| capacity(s.lex1 as i128, s.gex as i128, k) > 16384) {
        return refuse(8, "a capacity over 16,384");
    }
    Ok(())
}

/// Refusal 9: the number of entries fits the extensions in use.
fn test_count(d: &Descriptor) -> Result<(), Refusal> {
    if d.xnext < 1 {
        return refuse(9, "xnext below 1");
    }
    let n = d.entries();
    if n == 0 && d.nex == 0 {
        return Ok(());
    }
    if n == 0 || d.nex == 0 {
        return refuse(9, "one of n and nex is 0");
    }
    if n > d.together(d.nex) {
        return refuse(9, "n above the capacities");
    }
    if n <= d.together(d.nex - 1) {
        return refuse(9, "n needs fewer extensions");
    }
    Ok(())
}

/// Refusal 10: the next free position.
fn test_free(d: &Descriptor, lent: usize) -> Result<(), Refusal> {
    if d.nextrec < 2 {
        return refuse(10, "nextrec");
    }
    if !(1..=d.reclen).contains(&d.nextword) {
        return refuse(10, "nextword");
    }
    if d.free() > lent as i128 / 4 {
        return refuse(10, "free past the lent words");
    }
    Ok(())
}

/// Refusal 11: the index areas.
fn test_areas(d: &Descriptor) -> Result<(), Refusal> {
    for k in 1..=d.nex {
        if d.aex[(k - 1) as usize] < 2 {
            return refuse(11, "an area before record 2");
        }
        if k > 1 && d.area_start(k) < d.area_end(k - 1) {
            return refuse(11, "an area before the end of the one before");
        }
    }
    if d.nex > 0 && d.area_end(d.nex) > d.free() {
        return refuse(11, "the last area past the next free position");
    }
    Ok(())
}

/// Refusal 29: the words of the first record after the addresses in use.
fn test_leftovers(file: &[u8], d: &Descriptor) -> Result<(), Refusal> {
    let places = 14 + 2 * mex(d.reclen);
    for word in 15 + 2 * d.nex..=d.reclen {
        if bytes_at(file, word - 1) != [0; 4] {
            let way = if word <= places { "in a place of an address" } else { "past the places of addresses" };
            return refuse(29, way);
        }
    }
    Ok(())
}

/// Validates the first record: refusals 1 to 11, then 29.
pub fn validate(file: &[u8]) -> Result<Descriptor, Refusal> {
    test_enough_lent(file.len())?;
    let Some(order) = Order::of_file(file) else {
        return refuse(2, "code");
    };
    let field4 = |word: i128| order.integer4(file, word - 1);
    let field8 = |word: i128| order.integer8(file, word - 1);
    let settings = Settings {
        order: order as i32,
        reclen: field4(2) as i32,
        kind: field4(3) as i32,
        vind: field4(4) as i32,
        lind: field4(5) as i32,
        flags: field4(6) as i32,
        lex1: field4(12) as i32,
        gex: field4(14) as i32,
    };
    let nex = field4(13);
    test_settings(file.len(), &settings, nex)?;
    let d = Descriptor {
        order,
        reclen: field4(2),
        kind: field4(3),
        vind: field4(4),
        lind: field4(5),
        flags: field4(6),
        xnext: field8(7),
        nextrec: field8(9),
        nextword: field4(11),
        lex1: field4(12),
        nex,
        gex: field4(14),
        aex: (0..nex).map(|k| field8(15 + 2 * k)).collect(),
    };
    test_count(&d)?;
    test_free(&d, file.len())?;
    test_areas(&d)?;
    test_leftovers(file, &d)?;
    Ok(d)
}

/// An extension by number.
pub fn extension_of(file: &[u8], number: u64) -> Result<Extension, Refusal> {
    let d = validate(file)?;
    let k = number as i128;
    if k == 0 {
        return refuse(12, "number 0");
    }
    if k > d.nex {
        return refuse(12, "above the last");
    }
    let capacity = d.capacity(k);
    Ok(Extension { capacity, first: d.aex[(k - 1) as usize], records: d.records(capacity) })
}

/// Opens an entry of a file whose first record is admitted: refusals 12 to 19.
fn open_in(file: &[u8], d: &Descriptor, number: u64) -> Result<Entry, Refusal> {
    let asked = number as i128;
    if asked == 0 {
        return refuse(12, "number 0");
    }
    if asked > d.entries() {
        return refuse(12, "above the last");
    }
    let slot = d.slot(asked);
    let (record, word) = (d.order.integer8(file, slot), d.order.integer4(file, slot + 2));
    if record < 2 {
        return refuse(13, "record");
    }
    if !(1..=d.reclen).contains(&word) {
        return refuse(13, "word");
    }
    let start = d.position(record, word);
    if start + 11 > d.free() {
        return refuse(13, "start + 11 past the next free position");
    }
    if bytes_at(file, start) != ENTRY_CODE {
        return refuse(14, "entry code");
    }
    let field4 = |word: i128| d.order.integer4(file, start + word - 1);
    let field8 = |word: i128| d.order.integer8(file, start + word - 1);
    let (nsec, nword) = (field4(3), field8(4));
    if !(0..=64).contains(&nsec) {
        return refuse(15, "nsec");
    }
    if nword < 11 + 5 * nsec {
        return refuse(15, "nword below the descriptor");
    }
    if start + nword > d.free() {
        return refuse(15, "the entry past the next free position");
    }
    if field8(10) != asked {
        return refuse(16, "xnum");
    }
    let entry = Entry {
        record,
        word,
        version: field4(2),
        nsec,
        nword,
        adata: field8(6),
        ldata: field8(8),
        ids: (0..nsec).map(|i| field4(12 + i)).collect(),
        lengths: (0..nsec).map(|i| field8(12 + nsec + 2 * i)).collect(),
        addresses: (0..nsec).map(|i| field8(12 + 3 * nsec + 2 * i)).collect(),
    };
    test_places(&entry)?;
    Ok(entry)
}

/// Refusals 17 to 19: the data and the sections stand within the entry's content, apart from each other.
fn test_places(entry: &Entry) -> Result<(), Refusal> {
    let first = 12 + 5 * entry.nsec;
    if entry.ldata < 0 {
        return refuse(17, "ldata below 0");
    }
    if entry.ldata > 0 && entry.adata < first {
        return refuse(17, "data before the content");
    }
    if entry.ldata > 0 && entry.adata + entry.ldata - 1 > entry.nword {
        return refuse(17, "data past the entry");
    }
    let sections: Vec<(i128, i128)> = entry.addresses.iter().copied().zip(entry.lengths.iter().copied()).collect();
    for &(address, length) in &sections {
        if length < 1 {
            return refuse(18, "length below 1");
        }
        if address < first {
            return refuse(18, "section before the content");
        }
        if address + length - 1 > entry.nword {
            return refuse(18, "section past the entry");
        }
    }
    for (i, &one) in sections.iter().enumerate() {
        if sections[..i].iter().any(|&other| share(one, other)) {
            return refuse(19, "two sections");
        }
        if entry.ldata > 0 && share(one, (entry.adata, entry.ldata)) {
            return refuse(19, "a section and the data");
        }
    }
    Ok(())
}

/// Says whether two pieces, each with its address and its length of one or more, share a word.
fn share(one: (i128, i128), other: (i128, i128)) -> bool {
    one.0 < other.0 + other.1 && other.0 < one.0 + one.1
}

/// Opens an entry by number.
pub fn open(file: &[u8], number: u64) -> Result<Entry, Refusal> {
    let d = validate(file)?;
    open_in(file, &d, number)
}

/// The application's index words of an entry.
pub fn index_words(file: &[u8], number: u64) -> Result<Part, Refusal> {
    let d = validate(file)?;
    open_in(file, &d, number)?;
    Ok(Part { start: 4 * (d.slot(number as i128) + 3), length: 4 * (d.lind - 3) })
}

/// The words of an opened entry at an address that is counted from 1 at its first word.
fn words_of(d: &Descriptor, entry: &Entry, address: i128, length: i128) -> Part {
    Part { start: 4 * (d.start(entry) + address - 1), length: 4 * length }
}

/// The first section of an entry with an identifier.
pub fn section(file: &[u8], number: u64, identifier: i32) -> Result<Part, Refusal> {
    let d = validate(file)?;
    let entry = open_in(file, &d, number)?;
    match entry.ids.iter().position(|&id| id == identifier as i128) {
        Some(i) => Ok(words_of(&d, &entry, entry.addresses[i], entry.lengths[i])),
        None => refuse(20, "no such identifier"),
    }
}

/// The data of an entry; with none, the empty part at the file's start.
pub fn data(file: &[u8], number: u64) -> Result<Part, Refusal> {
    let d = validate(file)?;
    let entry = open_in(file, &d, number)?;
    if entry.ldata == 0 {
        return Ok(Part { start: 0, length: 0 });
    }
    Ok(words_of(&d, &entry, entry.adata, entry.ldata))
}

/// Checks the order of the whole file; a refusal comes with the entry that failed, 0 for the descriptor.
pub fn check(file: &[u8]) -> Result<(), (u64, Refusal)> {
    let d = validate(file).map_err(|refusal| (0, refusal))?;
    let mut before = 0;
    for number in 1..=d.entries() as u64 {
        let entry = open_in(file, &d, number).map_err(|refusal| (number, refusal))?;
        test_order(&d, number, &entry, before).map_err(|refusal| (number, refusal))?;
        before = d.end(&entry);
    }
    Ok(())
}

/// Refusal 25 for one entry, with the end of the entry before it.
fn test_order(d: &Descriptor, number: u64, entry: &Entry, before: i128) -> Result<(), Refusal> {
    let (k, j) = d.home(number as i128);
    if j == 1 && d.start(entry) < d.area_end(k) {
        return refuse(25, "the first before its area's end");
    }
    if j > 1 && d.start(entry) < before {
        return refuse(25, "before the end of the entry before");
    }
    if j == d.capacity(k) && k < d.nex && d.end(entry) > d.area_start(k + 1) {
        return refuse(25, "the last past the next area's start");
    }
    Ok(())
}
