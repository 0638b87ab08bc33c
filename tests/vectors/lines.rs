//! The line of a case: the call, its name, and the answer of the independent implementation.

use crate::files::record_of;
use crate::reference::{self, Addition, Batch, OpenFile, Part, Refusal, Settings, Update, FIELDS};

/// A refusal in words.
fn refused(refusal: Refusal) -> String {
    format!("refused {}", refusal.number)
}

/// Whether bytes or a record are unchanged, in words.
fn unchanged<T: PartialEq + ?Sized>(before: &T, after: &T) -> &'static str {
    if before == after {
        "unchanged"
    } else {
        "changed"
    }
}

/// The refusal number of an answer, 0 when it is accepted.
fn number<T>(answer: Result<T, Refusal>) -> u32 {
    answer.err().map_or(0, |refusal| refusal.number)
}

/// Words in words: below 2^24 as a number, any other as x and its bytes.
fn words(bytes: &[u8]) -> String {
    let word = |b: &[u8]| match u32::from_le_bytes([b[0], b[1], b[2], b[3]]) {
        value if value < 1 << 24 => format!(" {value}"),
        _ => format!(" x{:02x}{:02x}{:02x}{:02x}", b[0], b[1], b[2], b[3]),
    };
    bytes.chunks_exact(4).map(word).collect()
}

/// Validates a file.
pub fn validate(name: &str, file: &[u8]) {
    println!("validate {name}: {}", reference::validate(file).map_or_else(refused, |_| "admitted".to_string()));
}

/// Validates a file and tells all its numbers, the addresses in 16 places.
pub fn describe(name: &str, file: &[u8]) {
    let told = reference::validate(file).map_or_else(refused, |d| {
        let mut aex: Vec<String> = d.aex.iter().map(i128::to_string).collect();
        aex.resize(16, "0".to_string());
        let form = format!("order {} reclen {} kind {} vind {}", d.order as i32, d.reclen, d.kind, d.vind);
        let index = format!("lind {} flags {}", d.lind, d.flags);
        let next = format!("xnext {} nextrec {} nextword {}", d.xnext, d.nextrec, d.nextword);
        format!("{form} {index} {next} lex1 {} nex {} gex {} aex {}", d.lex1, d.nex, d.gex, aex.join(" "))
    });
    println!("validate {name}: {told}");
}

/// An extension by its number.
pub fn extension(name: &str, file: &[u8], asked: u64) {
    let told = reference::extension_of(file, asked)
        .map_or_else(refused, |e| format!("capacity {} first {} records {}", e.capacity, e.first, e.records));
    println!("extension {name}: {told}");
}

/// Opens an entry.
pub fn open(name: &str, file: &[u8], asked: u64) {
    let told = reference::open(file, asked).map_or_else(refused, |e| {
        let start = format!("record {} word {} version {}", e.record, e.word, e.version);
        format!("{start} nsec {} nword {} adata {} ldata {}", e.nsec, e.nword, e.adata, e.ldata)
    });
    println!("open {name}: {told}");
}

/// The tables of an opened entry, place by place.
pub fn tables(name: &str, file: &[u8], asked: u64) {
    let mut told = String::new();
    if let Ok(e) = reference::open(file, asked) {
        for (i, id) in e.ids.iter().enumerate() {
            told += &format!(" place {} identifier {id} length {} address {}", i + 1, e.lengths[i], e.addresses[i]);
        }
    }
    println!("tables {name}:{told}");
}

/// A part that is handed out.
fn part(call: &str, name: &str, file: &[u8], answer: Result<Part, Refusal>) {
    let told = answer.map_or_else(
        |refusal| format!("{} no words", refused(refusal)),
        |p| match p.length {
            0 => format!("at byte {} no words", p.start),
            _ => format!("at byte {} words{}", p.start, words(&file[p.start as usize..(p.start + p.length) as usize])),
        },
    );
    println!("{call} {name}: {told}");
}

/// The index words of an entry.
pub fn index(name: &str, file: &[u8], asked: u64) {
    part("index words", name, file, reference::index_words(file, asked));
}

/// A section of an entry.
pub fn section(name: &str, file: &[u8], asked: u64, identifier: i32) {
    part("section", name, file, reference::section(file, asked, identifier));
}

/// The data of an entry.
pub fn data(name: &str, file: &[u8], asked: u64) {
    part("data", name, file, reference::data(file, asked));
}

/// The words of a part of a file.
pub fn show(name: &str, bytes: &[u8]) {
    println!("words {name}:{}", words(bytes));
}

/// The words of file A, a record a line.
pub fn records(name: &str, file: &[u8]) {
    for (i, bytes) in file.chunks(80).enumerate() {
        show(&format!("{name} record {}", i + 1), bytes);
    }
}

/// The order check.
pub fn check(name: &str, file: &[u8]) {
    let told = match reference::check(file) {
        Ok(()) => "passes".to_string(),
        Err((entry, refusal)) => format!("entry {entry} {}", refused(refusal)),
    };
    println!("check {name}: {told}");
}

/// Creates a file in so many bytes that were all ee.
pub fn create(name: &str, bytes: usize, chosen: Settings) {
    let before = vec![0xee; bytes];
    let mut file = before.clone();
    let told = match reference::create(&mut file, &chosen) {
        Err(refusal) => format!("{} {}", refused(refusal), unchanged(&before, &file)),
        Ok(()) => {
            let first = 4 * chosen.reclen as usize;
            let behind = unchanged(&before[first..], &file[first..]);
            format!("accepted {behind} validate {}", number(reference::validate(&file)))
        }
    };
    println!("create {name}: {told}");
}

/// The record of an open file, its addresses and totals in 16 places each; zeros where it is refused.
pub fn open_file(name: &str, file: &[u8]) {
    let refusal = reference::open_file_of(file).err().map_or(String::new(), |refusal| format!(" {}", refused(refusal)));
    let record = record_of(file);
    let numbers: String =
        FIELDS.iter().zip(record).take(12).map(|(field, value)| format!(" {field} {value}")).collect();
    let places = |from: usize| record[from..from + 16].iter().map(|value| format!(" {value}")).collect::<String>();
    println!("open file {name}:{refusal}{numbers} aex{} totals{}", places(12), places(28));
}

/// Whether a record changed in a call through it, and whether it is then the one that the file has, in words.
fn left(before: &OpenFile, held: &OpenFile, file: &[u8]) -> String {
    let own = reference::open_file_of(file).is_ok_and(|own| own == *held);
    format!(" record {} and {own}", unchanged(before, held))
}

/// The answer of an append, and of a refused one whether bytes changed.
fn appended(answer: Result<u64, Refusal>, before: &[u8], file: &[u8]) -> String {
    match answer {
        Ok(entry) => format!("entry {entry}"),
        Err(refusal) => format!("{} {}", refused(refusal), unchanged(before, file)),
    }
}

/// Appends to the first so many bytes of a file, which stays as the append leaves it.
pub fn append(name: &str, file: &mut [u8], bytes: usize, addition: &Addition) {
    let before = file.to_vec();
    let answer = reference::append(&mut file[..bytes], addition);
    println!("append {name}: {}", appended(answer, &before, file));
}

/// Appends through a record, which stays as the append leaves it.
pub fn append_through(name: &str, held: &mut OpenFile, file: &mut [u8], bytes: usize, addition: &Addition) {
    let (before, record) = (file.to_vec(), *held);
    let answer = reference::append_to(held, &mut file[..bytes], addition);
    println!("append through {name}: {}{}", appended(answer, &before, file), left(&record, held, &file[..bytes]));
}

/// The answer of a batch, and where no entry was accepted whether bytes changed.
fn batched(answer: Result<u64, (u64, Refusal)>, before: &[u8], file: &[u8]) -> String {
    let (accepted, refusal) = match answer {
        Ok(accepted) => (accepted, String::new()),
        Err((accepted, refusal)) => (accepted, format!(" {}", refused(refusal))),
    };
    let bytes = if accepted == 0 { format!(" {}", unchanged(before, file)) } else { String::new() };
    format!("accepted {accepted}{refusal}{bytes}")
}

/// Appends a batch to the first so many bytes of a file, which stays as the batch leaves it.
pub fn batch(name: &str, file: &mut [u8], bytes: usize, batch: &Batch) {
    let before = file.to_vec();
    let answer = reference::append_batch(&mut file[..bytes], batch);
    println!("batch {name}: {}", batched(answer, &before, file));
}

/// Appends a batch through a record, which stays as the batch leaves it.
pub fn batch_through(name: &str, held: &mut OpenFile, file: &mut [u8], bytes: usize, batch: &Batch) {
    let (before, record) = (file.to_vec(), *held);
    let answer = reference::append_batch_to(held, &mut file[..bytes], batch);
    println!("batch through {name}: {}{}", batched(answer, &before, file), left(&record, held, &file[..bytes]));
}

/// The answer of an update, and of a refused one whether bytes changed.
fn updated(answer: Result<(), Refusal>, before: &[u8], file: &[u8]) -> String {
    match answer {
        Ok(()) => "accepted".to_string(),
        Err(refusal) => format!("{} {}", refused(refusal), unchanged(before, file)),
    }
}

/// Updates a section in the first so many bytes of a file, which stays as the update leaves it.
pub fn update(name: &str, file: &mut [u8], bytes: usize, update: &Update) {
    let before = file.to_vec();
    let answer = reference::update(&mut file[..bytes], update);
    println!("update {name}: {}", updated(answer, &before, file));
}

/// Updates a section through a record, which stays as the update leaves it.
pub fn update_through(name: &str, held: &mut OpenFile, file: &mut [u8], bytes: usize, update: &Update) {
    let (before, record) = (file.to_vec(), *held);
    let answer = reference::update_to(held, &mut file[..bytes], update);
    println!("update through {name}: {}{}", updated(answer, &before, file), left(&record, held, &file[..bytes]));
}

/// Every call on the first so many bytes of a file, 0 for one that is accepted.
pub fn every_call(name: &str, mut file: Vec<u8>, bytes: usize, asked: u64) {
    let before = file.clone();
    let lent = &mut file[..bytes];
    let opening = [
        ("validate", number(reference::validate(lent))),
        ("extension", number(reference::extension_of(lent, asked))),
        ("open", number(reference::open(lent, asked))),
        ("index", number(reference::index_words(lent, asked))),
        ("section", number(reference::section(lent, asked, 7))),
        ("data", number(reference::data(lent, asked))),
    ];
    let told: String = opening.iter().map(|(call, refusal)| format!(" {call} {refusal}")).collect();
    let (entry, checked) = reference::check(lent).err().map_or((0, 0), |(entry, refusal)| (entry, refusal.number));
    let appended = number(reference::append(lent, &crate::files::bare(&[9])));
    println!("every call, {name}:{told} check {entry} {checked} append {appended} {}", unchanged(&before, &file));
}
