//! The examples that document 01 works by hand, with the capacities of Q-2 in document 02 and in both orders of Q-4, and
//! those of, as the first cases: the reference must give the numbers and bytes written here,
//! and the library is compared with the reference.

use crate::files::make_full;
use crate::random::Random;
use crate::reference::{Addition, Batch, OpenFile, Order, Settings, Update, FIELDS};
use crate::room::starts;
use crate::script::{Call, Script};
use crate::sweeps::laid;

/// The settings of file A in an order, with another reclen, lind, lex1 and gex.
fn settings(order: Order, reclen: i32, lind: i32, lex1: i32, gex: i32) -> Settings {
    Settings { order: order as i32, reclen, kind: 1, vind: 2, lind, flags: 0, lex1, gex }
}

/// Asks a call, and demands the first fields of its answer.
fn expect(script: &mut Script, example: &str, call: Call, fields: &[u64]) {
    script.call(call);
    let given = script.asked.last().map_or(&[][..], |asked| &asked.answer.fields);
    assert_eq!(&given[..fields.len()], fields, "the reference fails {example}");
}

/// Demands bytes of the file from a word on, counted from 1.
fn expect_bytes(script: &Script, word: usize, bytes: &[u8]) {
    let at = 4 * (word - 1);
    assert_eq!(&script.file[at..at + bytes.len()], bytes, "the reference fails the bytes of A at word {word}");
}

/// What appends (1), (2) and (3) of file A take: bytes of which no two in a row are alike.
fn additions() -> [Addition; 3] {
    let bare = Addition { version: 1, index: vec![1, 2, 3, 4], ..Addition::default() };
    let (sections, data) = ((11..23).collect(), (31..51).collect());
    let full = Addition { ids: vec![7], lengths: vec![3], sections, data, ..bare.clone() };
    [full, bare.clone(), bare]
}

/// The examples in the order of the case.
pub fn examples(_: &mut Random, script: &mut Script) {
    file_a(script);
    crossing(script);
    capacities(script);
    great_capacities(script);
    limits(script);
    leftovers(script);
    batches(script);
    a_by_a_batch(script);
    updates(script);
    record_of_a(script);
    false_records(script);
    room(script);
}

/// P1 to P5 and the listing: file A, and with a record fewer.
fn file_a(script: &mut Script) {
    let [first, second, third] = additions();
    let order = script.order as u64;
    for (records, refusal) in [(6, 0), (5, 24)] {
        script.lend(&vec![0xff; 80 * records], 80 * records);
        expect(script, "creating A", Call::Create(settings(script.order, 20, 4, 2, 20)), &[0]);
        expect(script, "append (1)", Call::Append(first.clone()), &[0, 1]);
        expect(script, "append (2)", Call::Append(second.clone()), &[0, 2]);
        expect(script, "P3", Call::Validate, &[0, order, 20, 1, 2, 4, 0, 3, 4, 16, 2, 1, 20, 2, 0]);
        expect(script, "P5", Call::Append(third.clone()), &[refusal, if refusal == 0 { 3 } else { 0 }]);
        expect(script, "the order of A", Call::Check, &[0, 0]);
        if refusal == 0 {
            expect(script, "P4", Call::Validate, &[0, order, 20, 1, 2, 4, 0, 4, 6, 12, 2, 2, 20, 2, 5, 0]);
            bytes_of_a(script);
        }
        expect(script, "line 1 and P1", Call::Open(1), &[0, 3, 1, 1, 1, 24, 20, 5, 7]);
        expect(script, "P1, the section", Call::Section(1, 7), &[0, 4 * (40 + 17 - 1), 12]);
        expect(script, "P1, the data", Call::Data(1), &[0, 4 * (40 + 20 - 1), 20]);
        expect(script, "line 2", Call::Open(2), &[0, 4, 5, 1, 0, 11, 0, 0]);
        expect(script, "P2", Call::IndexWords(2), &[0, 4 * (20 + 4 + 3), 4]);
    }
}

/// Bytes of file A: code, reclen, xnext and the second address; the index of entry 2; code, nword, section identifier
/// and length, section and data of entry 1.
fn bytes_of_a(script: &Script) {
    let integers: [(usize, &[u8], &[u8]); 8] = [
        (1, &[0x32, 0x41, 0x20, 0x20], &[0x32, 0x42, 0x20, 0x20]),
        (2, &[20, 0, 0, 0], &[0, 0, 0, 20]),
        (7, &[4, 0, 0, 0, 0, 0, 0, 0], &[0, 0, 0, 0, 0, 0, 0, 4]),
        (17, &[5, 0, 0, 0, 0, 0, 0, 0], &[0, 0, 0, 0, 0, 0, 0, 5]),
        (25, &[4, 0, 0, 0, 0, 0, 0, 0, 5, 0, 0, 0], &[0, 0, 0, 0, 0, 0, 0, 4, 0, 0, 0, 5]),
        (44, &[24, 0, 0, 0, 0, 0, 0, 0], &[0, 0, 0, 0, 0, 0, 0, 24]),
        (52, &[7, 0, 0, 0], &[0, 0, 0, 7]),
        (53, &[3, 0, 0, 0, 0, 0, 0, 0], &[0, 0, 0, 0, 0, 0, 0, 3]),
    ];
    for (word, little, big) in integers {
        expect_bytes(script, word, if script.order == Order::Little { little } else { big });
    }
    expect_bytes(script, 28, &[1, 2, 3, 4]);
    expect_bytes(script, 41, &[0x32, 0x20, 0x20, 0x20]);
    expect_bytes(script, 57, &(11..23).chain(31..51).collect::<Vec<u8>>());
}

/// P6: the fourth index of reclen 16 and lind 5 stands at offset 15.
fn crossing(script: &mut Script) {
    script.lend(&[0; 64 * 16], 64 * 16);
    expect(script, "creating P6", Call::Create(settings(script.order, 16, 5, 4, 10)), &[0]);
    for number in 1..=4 {
        expect(script, "P6", Call::Append(Addition { index: vec![5; 8], ..Addition::default() }), &[0, number]);
    }
    expect(script, "P6", Call::IndexWords(4), &[0, 4 * (16 + 15 + 3), 8]);
}

/// Lends a file with such a reclen, lind, lex1 and gex, whose extensions, so many, are full.
fn lend_full(script: &mut Script, [reclen, lind, lex1, gex]: [i32; 4], extensions: usize) {
    let made = make_full(&settings(script.order, reclen, lind, lex1, gex), extensions, 0);
    script.lend(&made.bytes, made.bytes.len());
}

/// P7 and the capacities of Q-2, whose fraction is dropped once.
fn capacities(script: &mut Script) {
    let given: [(&str, [i32; 4], &[u64]); 4] = [
        ("P7", [22, 3, 5, 15], &[5, 7, 11, 16]),
        ("Q-2", [24, 3, 1, 15], &[1, 1, 2, 3, 5]),
        ("Q-2, gex 10", [24, 3, 7, 10], &[7, 7, 7, 7, 7]),
        ("Q-2, gex 20", [24, 3, 3, 20], &[3, 6, 12, 24, 48]),
    ];
    for (example, settings, capacities) in given {
        lend_full(script, settings, capacities.len());
        for (k, &capacity) in (1..).zip(capacities) {
            expect(script, example, Call::ExtensionOf(k), &[0, capacity]);
        }
    }
}

/// P8, P9 and Q-2 with capacities up to 16,384 and past it.
fn great_capacities(script: &mut Script) {
    let order = script.order as u64;
    let poke_nex = |script: &mut Script, nex: i32| script.poke(4 * 12, &script.order.bytes4(nex));
    lend_full(script, [22, 3, 4096, 20], 3);
    expect(script, "P8, nex 3", Call::Validate, &[0, order, 22]);
    poke_nex(script, 4);
    expect(script, "P8, nex 4", Call::Validate, &[8, 0, 0]);
    lend_full(script, [46, 3, 4096, 10], 16);
    expect(script, "P9", Call::Validate, &[0, order, 46, 1, 2, 3, 0, 65537]);
    lend_full(script, [46, 3, 1, 20], 15);
    expect(script, "Q-2, gex 20, nex 15", Call::Validate, &[0, order, 46, 1, 2, 3, 0, 32768]);
    expect(script, "Q-2, gex 20, nex 15", Call::ExtensionOf(15), &[0, 16384]);
    poke_nex(script, 16);
    expect(script, "Q-2, gex 20, nex 16", Call::Validate, &[8, 0, 0]);
    lend_full(script, [46, 3, 2, 18], 16);
    expect(script, "Q-2, gex 18, nex 16", Call::Validate, &[0, order, 46, 1, 2, 3, 0, 30351]);
    expect(script, "Q-2, gex 18, nex 16", Call::ExtensionOf(16), &[0, 13493]);
}

/// P10 to P12: reclen 15 and 16, lind 2 and 3, eight bytes FF; and Q-4: an order that is neither, also with reclen 15.
fn limits(script: &mut Script) {
    script.lend(&[0; 960], 960);
    for (reclen, lind, refusal) in [(15, 3, 3), (16, 3, 0), (16, 2, 6), (16, 3, 0)] {
        let settings = settings(script.order, reclen, lind, 1, 10);
        expect(script, "P10 and P11", Call::Create(settings), &[refusal]);
        expect(script, "Q-4, order 2", Call::Create(Settings { order: 2, ..settings }), &[2]);
    }
    expect(script, "P12", Call::Append(Addition::default()), &[0, 1]);
    script.poke(4 * (16 + 16 + 5), &[0xff; 8]);
    expect(script, "P12", Call::Open(1), &[0, 3, 1, 0, 0, 11, u64::MAX, 0]);
}

/// file A after (2), whose nex is 1, with a byte of each word from 17 on that is not zero. It takes no entry and
/// stays; with its index area at record 1 too it gives 11; and a creation over it is accepted. With reclen 21 the last
/// word is odd.
fn leftovers(script: &mut Script) {
    let [first, second, third] = additions();
    for reclen in [20, 21] {
        let settings = settings(script.order, reclen, 4, 2, 20);
        let size = 24 * reclen as usize;
        script.lend(&vec![0xff; size], size);
        expect(script, "creating A", Call::Create(settings), &[0]);
        expect(script, "append (1)", Call::Append(first.clone()), &[0, 1]);
        expect(script, "append (2)", Call::Append(second.clone()), &[0, 2]);
        let admitted = script.file.clone();
        for word in 17..=reclen as usize {
            script.lend(&admitted, size);
            expect(script, "A after (2)", Call::Check, &[0, 0]);
            script.poke(4 * word - 2, &[1]);
            let left = script.file.clone();
            expect(script, "Q-7, validate", Call::Validate, &[29, 0, 0]);
            expect(script, "Q-7, open", Call::Open(1), &[29, 0, 0]);
            expect(script, "Q-7, check", Call::Check, &[0, 29]);
            expect(script, "Q-7, append", Call::Append(third.clone()), &[29, 0]);
            assert_eq!(script.file, left, "the reference changes a file that it refuses");
            script.poke(4 * 14, &script.order.bytes8(1));
            expect(script, "Q-7, an index area broken too", Call::Validate, &[11, 0, 0]);
            expect(script, "Q-7, creation", Call::Create(settings), &[0]);
            expect(script, "Q-7, after creation", Call::Check, &[0, 0]);
        }
    }
}

/// batches of no entries and of 65 over 10 bytes, and with lind 4 batches of two entries with 4 and 8 index bytes,
/// and with 8 and none.
fn batches(script: &mut Script) {
    let with_index = |index: &[u64]| {
        Call::AppendBatch(Batch {
            versions: vec![1; index.len()],
            counts: index.iter().map(|&count| [count, 0, 0, 0, 0]).collect(),
            index: (0..index.iter().sum::<u64>() as u8).collect(),
            ..Batch::default()
        })
    };
    script.lend(&[0; 10], 10);
    expect(script, "Q-1, no entries", with_index(&[]), &[0, 0]);
    expect(script, "Q-1, 65 entries", with_index(&[0; 65]), &[26, 0]);
    for (example, index, accepted) in [("Q-1, 4 and 8", [4, 8], 1), ("Q-1, 8 and none", [8, 0], 0)] {
        script.lend(&[0xff; 480], 480);
        expect(script, "creating A", Call::Create(settings(script.order, 20, 4, 2, 20)), &[0]);
        expect(script, example, with_index(&index), &[21, accepted]);
        expect(script, example, Call::Open(1), &[if accepted == 1 { 0 } else { 12 }]);
    }
}

/// file A by one batch, and with a record fewer.
fn a_by_a_batch(script: &mut Script) {
    for (records, fields) in [(6, [0, 3]), (5, [24, 2])] {
        script.lend(&vec![0xff; 80 * records], 80 * records);
        expect(script, "creating A", Call::Create(settings(script.order, 20, 4, 2, 20)), &[0]);
        expect(script, "A by a batch", Call::AppendBatch(laid(&additions())), &fields);
        expect(script, "A by a batch", Call::Check, &[0, 0]);
        if records == 6 {
            bytes_of_a(script);
        }
    }
}

/// file A after (2), of which section 7 has words 57 to 59. Updates that are refused change nothing; one word, two
/// and three go to the section's start, with zeros behind them, and all else stays.
fn updates(script: &mut Script) {
    let [first, second, _] = additions();
    let update = |entry, identifier, bytes: usize| {
        Call::Update(Update { entry, identifier, content: (101..).take(bytes).collect(), beyond: 0 })
    };
    script.lend(&[0xff; 480], 480);
    expect(script, "creating A", Call::Create(settings(script.order, 20, 4, 2, 20)), &[0]);
    expect(script, "append (1)", Call::Append(first), &[0, 1]);
    expect(script, "append (2)", Call::Append(second), &[0, 2]);
    let mut wanted = script.file.clone();
    for bytes in [0, 1, 3, 4, 5, 11, 12, 13, 16] {
        expect(script, "Q-3, entry 0", update(0, 7, bytes), &[12]);
        expect(script, "Q-3, entry 3", update(3, 7, bytes), &[12]);
        expect(script, "Q-3, identifier 8", update(1, 8, bytes), &[20]);
        expect(script, "Q-3, no sections", update(2, 7, bytes), &[20]);
    }
    for bytes in [0, 1, 2, 3, 5, 11, 13, 16] {
        expect(script, "Q-3, a content that does not fit", update(1, 7, bytes), &[28]);
    }
    assert_eq!(script.file, wanted, "the reference changes a file by an update that it refuses");
    let contents: [[u8; 12]; 3] = [
        [101, 102, 103, 104, 105, 106, 107, 108, 109, 110, 111, 112],
        [101, 102, 103, 104, 0, 0, 0, 0, 0, 0, 0, 0],
        [101, 102, 103, 104, 105, 106, 107, 108, 0, 0, 0, 0],
    ];
    for (bytes, content) in [12, 4, 8].into_iter().zip(contents) {
        expect(script, "Q-3, a content that fits", update(1, 7, bytes), &[0]);
        wanted[4 * 56..4 * 59].copy_from_slice(&content);
        assert_eq!(script.file, wanted, "the reference fails the bytes of A after an update");
        expect(script, "Q-3, the section", Call::Section(1, 7), &[0, 4 * 56, 12]);
        expect(script, "Q-3, the order of A", Call::Check, &[0, 0]);
    }
}

/// the records of file A when it is created and after each append: xnext, nextrec, nextword and nex, and for each
/// extension the address and the total.
fn records(order: Order) -> [OpenFile; 4] {
    let rows: [([u64; 4], [u64; 2], [u64; 2]); 4] = [
        ([1, 2, 1, 0], [0, 0], [0, 0]),
        ([2, 4, 5, 1], [2, 0], [2, 0]),
        ([3, 4, 16, 1], [2, 0], [2, 0]),
        ([4, 6, 12, 2], [2, 5], [2, 6]),
    ];
    rows.map(|([xnext, nextrec, nextword, nex], aex, totals)| {
        let mut record = [0; FIELDS.len()];
        record[..6].copy_from_slice(&[order as u64, 20, 1, 2, 4, 0]);
        record[6..12].copy_from_slice(&[xnext, nextrec, nextword, 2, nex, 20]);
        record[12..14].copy_from_slice(&aex);
        record[28..30].copy_from_slice(&totals);
        record
    })
}

/// Asks a call through a record, and demands its answer and the record after it, which is then the file's.
fn expect_record(script: &mut Script, call: Call, fields: &[u64], record: OpenFile) {
    expect(script, "Q-5", call, fields);
    assert_eq!(script.held, record, "the reference fails the record of Q-5");
    expect(script, "Q-5, the record", Call::OpenFileOf, &[&[0], &record[..]].concat());
}

/// file A through its record, by appends and by a batch, and with a record fewer; calls that are refused and an
/// update leave the record as it is.
fn record_of_a(script: &mut Script) {
    let records = records(script.order);
    let [first, second, third] = additions();
    let all = Call::AppendBatchTo(laid(&additions()));
    for (size, fields, after) in [(480, [0, 3], records[3]), (400, [24, 2], records[2])] {
        script.lend(&vec![0xff; size], size);
        expect(script, "creating A", Call::Create(settings(script.order, 20, 4, 2, 20)), &[0]);
        script.open();
        expect_record(script, Call::AppendBatchTo(Batch::default()), &[0, 0], records[0]);
        expect_record(script, all.clone(), &fields, after);
        expect(script, "creating A", Call::Create(settings(script.order, 20, 4, 2, 20)), &[0]);
        script.open();
        expect_record(script, Call::AppendTo(first.clone()), &[0, 1], records[1]);
        expect_record(script, Call::AppendTo(second.clone()), &[0, 2], records[2]);
        let (refusal, number) = if size == 480 { (0, 3) } else { (24, 0) };
        expect_record(script, Call::AppendTo(third.clone()), &[refusal, number], after);
        expect_record(script, Call::AppendTo(Addition::default()), &[21, 0], after);
        for (identifier, bytes, refusal) in [(7, 8, 0), (7, 16, 28), (8, 8, 20)] {
            let update = Update { entry: 1, identifier, content: vec![9; bytes], beyond: 0 };
            expect_record(script, Call::UpdateTo(update), &[refusal], after);
        }
    }
}

/// file A after (2), through its record with one field changed, and over its first 40 bytes through its record and
/// through zeros: 27 also for no entries, 26 for 65, and nothing changes.
fn false_records(script: &mut Script) {
    let [first, second, third] = additions();
    let own = records(script.order)[2];
    let changed = (0..FIELDS.len()).map(|field| std::array::from_fn(|i| own[i] ^ (i == field) as u64));
    let cases = changed.map(|held| (480, held)).chain([(40, own), (40, [0; FIELDS.len()])]);
    script.lend(&[0xff; 480], 480);
    expect(script, "creating A", Call::Create(settings(script.order, 20, 4, 2, 20)), &[0]);
    expect(script, "A by a batch", Call::AppendBatch(laid(&[first, second])), &[0, 2]);
    let file = script.file.clone();
    let update = Update { entry: 1, identifier: 7, content: vec![9; 4], beyond: 0 };
    for (size, held) in cases {
        script.lend(&file[..size], size);
        script.hold(held);
        expect(script, "Q-5", Call::AppendTo(third.clone()), &[27, 0]);
        expect(script, "Q-5", Call::AppendTo(Addition::default()), &[27, 0]);
        expect(script, "Q-5", Call::AppendBatchTo(laid(&[third.clone()])), &[27, 0]);
        expect(script, "Q-5, no entries", Call::AppendBatchTo(Batch::default()), &[27, 0]);
        expect(script, "Q-5, 65 entries", Call::AppendBatchTo(laid(&vec![third.clone(); 65])), &[26, 0]);
        expect(script, "Q-5", Call::UpdateTo(update.clone()), &[27]);
        expect(script, "Q-5", Call::UpdateTo(Update::default()), &[27]);
        assert!(script.held == held && script.file == file[..size], "the reference changes what it refuses by 27");
    }
}

/// file A after (2), with 6 records and with 5, and a file with reclen 17 and lex1 1 after one entry: every
/// position from which the search finds room for so many words, and what an append of so many answers.
fn room(script: &mut Script) {
    let [first, second, third] = additions();
    for (records, rows) in
        [(6, [(11, 100..110, 0), (20, 100..101, 0), (21, 0..0, 24)]), (5, [11, 12, 13].map(|words| (words, 0..0, 24)))]
    {
        script.lend(&vec![0xff; 80 * records], 80 * records);
        expect(script, "creating A", Call::Create(settings(script.order, 20, 4, 2, 20)), &[0]);
        expect(script, "A by a batch", Call::AppendBatch(laid(&[first.clone(), second.clone()])), &[0, 2]);
        let file = script.file.clone();
        for (words, found, refusal) in rows {
            assert_eq!(starts(&file, words), found.collect::<Vec<_>>(), "the search fails Q-13");
            script.lend(&file, file.len());
            let entry = Addition { data: vec![9; 4 * (words as usize - 11)], ..third.clone() };
            expect(script, "Q-13", Call::Append(entry), &[refusal]);
        }
    }
    for records in [3, 9] {
        script.lend(&vec![0xff; 68 * records], 68 * records);
        expect(script, "Q-13, reclen 17", Call::Create(settings(script.order, 17, 4, 1, 20)), &[0]);
        expect(script, "Q-13, reclen 17", Call::Append(second.clone()), &[0, 1]);
        assert_eq!(starts(&script.file, 11), [0; 0], "the search fails Q-13");
        expect(script, "Q-13, reclen 17", Call::Append(third.clone()), &[23, 0]);
    }
}
