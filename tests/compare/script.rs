//! A script is one case: a file, a record, changes to them and calls, as the driver reads them, and for each call the
//! answer that the reference gives at that place.

use crate::reference::{self, Addition, Batch, OpenFile, Order, Refusal, Settings, Update, FIELDS};

/// The calls of the interface, in the order of their numbers in the driver's protocol.
pub const CALLS: [&str; 15] = [
    "create",
    "validate",
    "extension_of",
    "open",
    "index_words",
    "section",
    "data",
    "check",
    "append",
    "append_batch",
    "update",
    "open_file_of",
    "append_to",
    "append_batch_to",
    "update_to",
];

/// One call with its arguments, the file and the record aside.
#[derive(Clone, Debug)]
pub enum Call {
    Create(Settings),
    Validate,
    ExtensionOf(u64),
    Open(u64),
    IndexWords(u64),
    Section(u64, i32),
    Data(u64),
    Check,
    Append(Addition),
    AppendBatch(Batch),
    Update(Update),
    OpenFileOf,
    AppendTo(Addition),
    AppendBatchTo(Batch),
    UpdateTo(Update),
}

/// How a case makes the calls that can go through a record: without one, through the one that is held, or through one
/// with a field that is not true and then through the one that the file has.
#[derive(Clone, Copy, PartialEq)]
pub enum Through {
    Nothing,
    Held,
    FalseThenTrue,
}

/// An answer: every field in the header's order, and for the table the refusal with the way it came about.
pub struct Answer {
    pub refusal: u32,
    pub way: &'static str,
    pub fields: Vec<u64>,
}

/// A call of a script, the order that it counts for, the reference's answer, after a call that may change the file the
/// file's bytes, and where room is searched for those before it too, and after a call through a record the record.
pub struct Asked {
    pub order: Order,
    pub call: Call,
    pub answer: Answer,
    pub before: Option<Vec<u8>>,
    pub after: Option<Vec<u8>>,
    pub held: Option<OpenFile>,
}

/// A case as it grows: the order of its files, and its place among the cases of its kind and order; the driver's
/// message, the calls asked so far, the file as lent and as it is now, the record that is held and how calls go through
/// one; whether room is searched for; and, where a call is watched, the file before it.
pub struct Script {
    pub order: Order,
    pub turn: usize,
    pub message: Vec<u8>,
    pub asked: Vec<Asked>,
    pub lent: Vec<u8>,
    pub file: Vec<u8>,
    pub held: OpenFile,
    pub through: Through,
    pub searches: bool,
    watched: Option<usize>,
    pub watched_file: Vec<u8>,
}

impl Answer {
    /// Why the reference answers so.
    pub fn reason(&self) -> String {
        match self.refusal {
            0 => "accepted".to_string(),
            refusal => format!("refusal {refusal}: {}", self.way),
        }
    }
}

impl Asked {
    /// Where in a batch the entry stands that ended it: 0 is the first place, 1 one between, 2 the last.
    pub fn place(&self) -> Option<usize> {
        match &self.call {
            Call::AppendBatch(b) | Call::AppendBatchTo(b) if (21..=24).contains(&self.answer.refusal) => {
                match self.answer.fields[1] as usize {
                    0 => Some(0),
                    accepted if accepted + 1 < b.versions.len() => Some(1),
                    _ => Some(2),
                }
            }
            _ => None,
        }
    }

    /// What the content of an update is, whatever the space: 0 is empty, 1 not whole words, 2 whole words that are more
    /// than any section has, 3 others.
    pub fn content(&self) -> Option<usize> {
        match &self.call {
            Call::Update(u) | Call::UpdateTo(u) => match u.bytes() {
                0 => Some(0),
                bytes if bytes % 4 != 0 => Some(1),
                _ if u.beyond > 0 => Some(2),
                _ => Some(3),
            },
            _ => None,
        }
    }
}

impl Call {
    /// The call's place in CALLS.
    pub fn number(&self) -> usize {
        match self {
            Call::Create(_) => 0,
            Call::Validate => 1,
            Call::ExtensionOf(_) => 2,
            Call::Open(_) => 3,
            Call::IndexWords(_) => 4,
            Call::Section(..) => 5,
            Call::Data(_) => 6,
            Call::Check => 7,
            Call::Append(_) => 8,
            Call::AppendBatch(_) => 9,
            Call::Update(_) => 10,
            Call::OpenFileOf => 11,
            Call::AppendTo(_) => 12,
            Call::AppendBatchTo(_) => 13,
            Call::UpdateTo(_) => 14,
        }
    }

    /// Says whether the call may change the file.
    pub fn changes_file(&self) -> bool {
        self.takes_record()
            || matches!(self, Call::Create(_) | Call::Append(_) | Call::AppendBatch(_) | Call::Update(_))
    }

    /// Says whether a record is lent to the call.
    pub fn takes_record(&self) -> bool {
        matches!(self, Call::AppendTo(_) | Call::AppendBatchTo(_) | Call::UpdateTo(_))
    }

    /// The same through a record, where there is such a call.
    fn through_record(self) -> Call {
        match self {
            Call::Append(a) => Call::AppendTo(a),
            Call::AppendBatch(b) => Call::AppendBatchTo(b),
            Call::Update(u) => Call::UpdateTo(u),
            other => other,
        }
    }

    /// The name of a field of the answer.
    pub fn field(&self, i: usize) -> String {
        let names: &[&str] = match self {
            Call::Create(_) | Call::Update(_) | Call::UpdateTo(_) | Call::Validate | Call::OpenFileOf => &["refusal"],
            Call::ExtensionOf(_) => &["refusal", "capacity", "first", "records"],
            Call::Open(_) => &["refusal", "record", "word", "version", "nsec", "nword", "adata", "ldata"],
            Call::IndexWords(_) | Call::Section(..) | Call::Data(_) => &["refusal", "start", "length"],
            Call::Check => &["entry", "refusal"],
            Call::Append(_) | Call::AppendTo(_) => &["refusal", "number"],
            Call::AppendBatch(_) | Call::AppendBatchTo(_) => &["refusal", "accepted"],
        };
        let past = i.wrapping_sub(names.len());
        match self {
            _ if i < names.len() => names[i].to_string(),
            Call::Validate | Call::OpenFileOf => FIELDS[past].to_string(),
            _ => format!("{}[{}]", ["ids", "lengths", "addresses"][past / 64], past % 64),
        }
    }

    /// Says what the call is, shortened.
    pub fn described(&self) -> String {
        let name = CALLS[self.number()];
        match self {
            Call::Append(a) | Call::AppendTo(a) => format!(
                "{name} (version {}, {} index bytes, ids {:?}, lengths {:?}, {} section bytes, {} data bytes)",
                a.version,
                a.index.len(),
                a.ids,
                a.lengths,
                a.sections.len(),
                a.data.len()
            ),
            Call::AppendBatch(b) | Call::AppendBatchTo(b) => format!(
                "{name} ({} versions, counts {:?}, lent {:?}: index bytes, ids, lengths, section and data bytes)",
                b.versions.len(),
                b.counts,
                b.lent()
            ),
            Call::Update(u) | Call::UpdateTo(u) => {
                format!("{name} (entry {}, identifier {}, {} content bytes)", u.entry, u.identifier, u.bytes())
            }
            _ => format!("{self:?}"),
        }
    }

    /// The reference's answer; create, append, append_batch and update change the file, and those through a record the
    /// file and the record.
    fn answer(&self, file: &mut [u8], held: &mut OpenFile) -> Answer {
        let number = |number: u64| vec![number as i128];
        match self {
            Call::Create(settings) => refusal_first(reference::create(file, settings).map(|()| vec![]), 0),
            Call::Validate => refusal_first(reference::validate(file).map(|d| d.fields()), 12 + 16),
            Call::ExtensionOf(k) => {
                refusal_first(reference::extension_of(file, *k).map(|e| vec![e.capacity, e.first, e.records]), 3)
            }
            Call::Open(k) => refusal_first(reference::open(file, *k).map(|e| entry_fields(&e)), 7 + 3 * 64),
            Call::IndexWords(k) => part(reference::index_words(file, *k)),
            Call::Section(k, id) => part(reference::section(file, *k, *id)),
            Call::Data(k) => part(reference::data(file, *k)),
            Call::Check => check(reference::check(file)),
            Call::Append(a) => refusal_first(reference::append(file, a).map(number), 1),
            Call::AppendBatch(b) => batched(reference::append_batch(file, b)),
            Call::Update(u) => refusal_first(reference::update(file, u).map(|()| vec![]), 0),
            Call::OpenFileOf => {
                let fields = |own: OpenFile| own.map(i128::from).to_vec();
                refusal_first(reference::open_file_of(file).map(fields), FIELDS.len())
            }
            Call::AppendTo(a) => refusal_first(reference::append_to(held, file, a).map(number), 1),
            Call::AppendBatchTo(b) => batched(reference::append_batch_to(held, file, b)),
            Call::UpdateTo(u) => refusal_first(reference::update_to(held, file, u).map(|()| vec![]), 0),
        }
    }

    /// Writes the call as the driver reads it; null says that empty slices are lent as (NULL, 0).
    fn encode(&self, out: &mut Vec<u8>, null: bool) {
        out.push(b'0' + self.number() as u8);
        out.push(null as u8);
        match self {
            Call::Create(s) => {
                for value in [s.order, s.reclen, s.kind, s.vind, s.lind, s.flags, s.lex1, s.gex] {
                    out.extend(value.to_le_bytes());
                }
            }
            Call::ExtensionOf(k) | Call::Open(k) | Call::IndexWords(k) | Call::Data(k) => out.extend(k.to_le_bytes()),
            Call::Section(k, id) => {
                out.extend(k.to_le_bytes());
                out.extend(id.to_le_bytes());
            }
            Call::Validate | Call::Check | Call::OpenFileOf => {}
            Call::Append(a) | Call::AppendTo(a) => {
                out.extend(a.version.to_le_bytes());
                for part in [&a.index, &bytes4(&a.ids), &bytes8(&a.lengths), &a.sections, &a.data] {
                    encode_bytes(out, part);
                }
            }
            Call::AppendBatch(b) | Call::AppendBatchTo(b) => {
                let counts: Vec<u8> = b.counts.iter().flatten().flat_map(|count| count.to_le_bytes()).collect();
                for part in [&bytes4(&b.versions), &counts, &b.index, &bytes4(&b.ids), &bytes8(&b.lengths)] {
                    encode_bytes(out, part);
                }
                encode_bytes(out, &b.sections);
                encode_bytes(out, &b.data);
            }
            Call::Update(u) | Call::UpdateTo(u) => {
                out.extend(u.entry.to_le_bytes());
                out.extend(u.identifier.to_le_bytes());
                out.extend(u.bytes().to_le_bytes());
                encode_bytes(out, &u.content);
            }
        }
    }
}

/// The bytes of a list of Integer*4 for the driver.
fn bytes4(values: &[i32]) -> Vec<u8> {
    values.iter().flat_map(|value| value.to_le_bytes()).collect()
}

/// The bytes of a list of Integer*8 for the driver.
fn bytes8(values: &[i64]) -> Vec<u8> {
    values.iter().flat_map(|value| value.to_le_bytes()).collect()
}

/// Writes a count of bytes and the bytes.
fn encode_bytes(out: &mut Vec<u8>, bytes: &[u8]) {
    out.extend((bytes.len() as u64).to_le_bytes());
    out.extend(bytes);
}

/// An answer whose first field is the refusal; a refused one has so many zeros after it.
fn refusal_first(result: Result<Vec<i128>, Refusal>, zeros: usize) -> Answer {
    let (number, way, rest) = match result {
        Ok(values) => (0, "", values),
        Err(refusal) => (refusal.number, refusal.way, vec![0; zeros]),
    };
    let mut fields = vec![number as u64];
    fields.extend(rest.iter().map(|&value| value as u64));
    Answer { refusal: number, way, fields }
}

/// The answer of a call that hands out a part.
fn part(result: Result<reference::Part, Refusal>) -> Answer {
    refusal_first(result.map(|p| vec![p.start, p.length]), 2)
}

/// The answer of an order check.
fn check(result: Result<(), (u64, Refusal)>) -> Answer {
    match result {
        Ok(()) => Answer { refusal: 0, way: "", fields: vec![0, 0] },
        Err((entry, refusal)) => {
            Answer { refusal: refusal.number, way: refusal.way, fields: vec![entry, refusal.number as u64] }
        }
    }
}

/// The answer of a batch: a refused one says how many entries were accepted too.
fn batched(result: Result<u64, (u64, Refusal)>) -> Answer {
    match result {
        Ok(accepted) => Answer { refusal: 0, way: "", fields: vec![0, accepted] },
        Err((accepted, refusal)) => {
            Answer { refusal: refusal.number, way: refusal.way, fields: vec![refusal.number as u64, accepted] }
        }
    }
}

/// The fields of an entry, with three tables of 64 places.
fn entry_fields(e: &reference::Entry) -> Vec<i128> {
    let mut fields = vec![e.record, e.word, e.version, e.nsec, e.nword, e.adata, e.ldata];
    for table in [&e.ids, &e.lengths, &e.addresses] {
        let end = fields.len() + 64;
        fields.extend(table);
        fields.resize(end, 0);
    }
    fields
}

impl Script {
    /// A case that begins with a record of zeros, in which a call may be watched.
    pub fn new(order: Order, turn: usize, watched: Option<usize>) -> Script {
        let (message, lent, file, watched_file) = (vec![], vec![], vec![], vec![]);
        let (asked, held, through, searches) = (vec![], [0; FIELDS.len()], Through::Nothing, false);
        let mut script =
            Script { order, turn, message, asked, lent, file, held, through, searches, watched, watched_file };
        script.hold(held);
        script
    }

    /// Lends a file that begins with these bytes; a longer one goes on with bytes that no call may touch.
    pub fn lend(&mut self, bytes: &[u8], total: usize) {
        self.message.push(b'F');
        self.message.extend((total as u64).to_le_bytes());
        encode_bytes(&mut self.message, bytes);
        self.lent = bytes.to_vec();
        self.file = vec![0; total];
        self.file[..bytes.len()].copy_from_slice(bytes);
    }

    /// Makes the file what it was when it was lent.
    pub fn again(&mut self) {
        self.message.push(b'A');
        self.file[..self.lent.len()].copy_from_slice(&self.lent);
    }

    /// Changes bytes of the file from outside.
    pub fn poke(&mut self, at: usize, bytes: &[u8]) {
        self.message.push(b'P');
        self.message.extend((at as u64).to_le_bytes());
        encode_bytes(&mut self.message, bytes);
        self.file[at..at + bytes.len()].copy_from_slice(bytes);
    }

    /// Makes the record that is lent to calls another.
    pub fn hold(&mut self, held: OpenFile) {
        self.message.push(b'R');
        held.iter().for_each(|field| self.message.extend(field.to_le_bytes()));
        self.held = held;
    }

    /// Asks for the record of the file, makes it the one that is lent to calls, and gives it; zeros of a file that is
    /// refused.
    pub fn open(&mut self) -> OpenFile {
        self.ask(Call::OpenFileOf);
        self.hold(reference::open_file_of(&self.file).unwrap_or([0; FIELDS.len()]));
        self.held
    }

    /// Asks a call, through a record where the case makes it so, and gives its refusal.
    pub fn call(&mut self, call: Call) -> u32 {
        let call = if self.through == Through::Nothing { call } else { call.through_record() };
        if self.through == Through::FalseThenTrue && call.takes_record() {
            self.ask_by_false_record(&call);
        }
        self.ask(call)
    }

    /// Asks a call through the record that the file has but for one bit, fields and bits in turn, and then holds the
    /// true one. Of a file that is refused no record is true.
    fn ask_by_false_record(&mut self, call: &Call) {
        let Ok(own) = reference::open_file_of(&self.file) else {
            return;
        };
        if self.held != own {
            self.open();
        }
        let mut held = own;
        let made = self.turn + self.asked.len() / 2;
        held[made % FIELDS.len()] ^= 1 << (made % 64);
        self.hold(held);
        self.ask(call.clone());
        self.hold(own);
    }

    /// Asks a call as it is, and gives its refusal; every second call of a case lends its empty slices as (NULL, 0).
    fn ask(&mut self, call: Call) -> u32 {
        if self.watched == Some(self.asked.len()) {
            self.watched_file = self.file[..self.lent.len()].to_vec();
        }
        call.encode(&mut self.message, (self.turn + self.asked.len()) % 2 == 0);
        let order = self.order_of(&call);
        let before = (self.searches && call.changes_file()).then(|| self.file[..self.lent.len()].to_vec());
        let answer = call.answer(&mut self.file, &mut self.held);
        let refusal = answer.refusal;
        let after = call.changes_file().then(|| self.file[..self.lent.len()].to_vec());
        let held = call.takes_record().then_some(self.held);
        self.asked.push(Asked { order, call, answer, before, after, held });
        refusal
    }

    /// The order that a call counts for: that of its settings or of its file, or where these have none, of the case.
    fn order_of(&self, call: &Call) -> Order {
        let own = match call {
            Call::Create(settings) => Order::of_setting(settings.order),
            _ => Order::of_file(&self.file),
        };
        own.unwrap_or(self.order)
    }
}
