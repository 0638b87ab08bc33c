//! What examples/reader.c must print of a file, by the independent implementation of the comparison (reference.rs),
//! which was written from documents 01 and 02 and the memo. The names of refusals are those of include/classic.h.
//! Usage: expected FILE, at the repository's top.

#[allow(dead_code)]
#[path = "../compare/reference.rs"]
mod reference;

use reference::{Descriptor, Entry, Part, Refusal};
use std::fs;

/// A refusal by its number and its name in the header.
fn named(refusal: Refusal) -> String {
    let header = fs::read_to_string("include/classic.h").expect("include/classic.h can be read");
    let number = refusal.number.to_string();
    let refusals =
        header.lines().skip_while(|line| !line.starts_with("enum classic_refusal")).take_while(|&line| line != "};");
    let mut values = refusals.filter_map(|line| line.trim().split_once(" = "));
    let (name, _) = values
        .find(|(name, rest)| name.starts_with("CLASSIC_") && rest.split([',', ' ']).next() == Some(&number))
        .expect("the header names the refusal");
    format!("{number}, {name}")
}

/// The words of a part, each as a little-endian Integer*4, whatever the file's order, with a space in front.
fn words(file: &[u8], part: Part) -> String {
    let bytes = &file[part.start as usize..(part.start + part.length) as usize];
    bytes.chunks(4).map(|word| format!(" {}", i32::from_le_bytes(word.try_into().unwrap()))).collect()
}

/// A part of an entry that opens: it is not refused.
fn part(answer: Result<Part, Refusal>) -> Part {
    answer.unwrap_or_else(|refusal| panic!("a part is refused by {}", refusal.number))
}

/// The lines of the descriptor and its index areas.
fn print_descriptor(file: &[u8], d: &Descriptor) {
    print!("order {}, reclen {}, kind {}, vind {}, ", d.order as i32, d.reclen, d.kind, d.vind);
    print!("lind {}, flags {}, ", d.lind, d.flags);
    print!("xnext {}, nextrec {}, nextword {}, ", d.xnext, d.nextrec, d.nextword);
    println!("lex1 {}, nex {}, gex {}", d.lex1, d.nex, d.gex);
    for k in 1..=d.nex as u64 {
        let x = reference::extension_of(file, k).unwrap_or_else(|_| panic!("extension {k} is refused"));
        println!("extension {k}: capacity {}, index area from record {}, records {}", x.capacity, x.first, x.records);
    }
}

/// The lines of an entry that opens.
fn print_entry(file: &[u8], number: u64, e: &Entry) {
    print!("entry {number}: record {}, word {}, version {}, ", e.record, e.word, e.version);
    println!("nsec {}, nword {}, adata {}, ldata {}", e.nsec, e.nword, e.adata, e.ldata);
    println!("  index:{}", words(file, part(reference::index_words(file, number))));
    for (i, id) in e.ids.iter().enumerate() {
        print!("  section {id}, length {}, address {}:", e.lengths[i], e.addresses[i]);
        if e.ids[..i].contains(id) {
            println!(" the identifier stands twice, and the first counts");
        } else {
            println!("{}", words(file, part(reference::section(file, number, *id as i32))));
        }
    }
    println!("  data:{}", words(file, part(reference::data(file, number))));
}

fn main() {
    let name = std::env::args().nth(1).expect("usage: expected FILE");
    let file = fs::read(&name).expect("the file can be read");
    let d = reference::validate(&file).unwrap_or_else(|refusal| panic!("{name} is refused: {}", named(refusal)));
    print_descriptor(&file, &d);
    for number in 1..=d.entries() as u64 {
        match reference::open(&file, number) {
            Ok(e) => print_entry(&file, number, &e),
            Err(refusal) => println!("entry {number} is refused: {}", named(refusal)),
        }
    }
    match reference::check(&file) {
        Ok(()) => println!("the entries stand in order"),
        Err((number, refusal)) => println!("the order check fails at entry {number}: {}", named(refusal)),
    }
}
