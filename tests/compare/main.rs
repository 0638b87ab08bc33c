//! The comparison of the library, behind its C interface, with the independent implementation, in both byte orders.
//! Usage: compare [--seed N] [--case K] DRIVER...: all cases of a seed, or one, with the command that runs the driver.

mod additions;
mod batches;
mod cases;
mod damage;
mod demand;
mod driver;
mod examples;
mod files;
mod filling;
mod held;
mod random;
mod reference;
mod room;
mod script;
mod series;
mod sweeps;
mod table;
mod updates;

use driver::{Driver, Given};
use reference::{Order, FIELDS};
use room::Searched;
use script::{Asked, Call, Script, CALLS};
use table::Table;

/// Differences after this many are counted and not printed.
const SHOWN: usize = 20;

/// After so many deaths of the driver the other cases are not run.
const DEATHS: usize = 5;

/// The calls that a run must make at least in each order.
const ENOUGH: usize = 100_000;

/// What the command line asks for.
#[derive(Default)]
struct Options {
    seed: u64,
    case: Option<usize>,
    driver: Vec<String>,
}

/// What was compared and what differed so far: calls by their place in CALLS and by the number of their order, series and
/// entries searched for by the number of theirs.
#[derive(Default)]
struct Comparison {
    options: Options,
    calls: [usize; CALLS.len()],
    calls_by_order: [usize; 2],
    differing: [usize; CALLS.len()],
    files: usize,
    differing_files: usize,
    records: usize,
    differing_records: usize,
    series: [Series; 2],
    searched: [Searched; 2],
    differing_room: [usize; 2],
    shown: usize,
    table: Table,
}

/// The series of one order: how many, how many that fail demand 3, the batches and the calls through a record in them,
/// and accepted and refused the appends, those of batches too, and the updates.
#[derive(Default)]
struct Series {
    made: usize,
    failed: usize,
    batches: usize,
    through: usize,
    appends: [u64; 2],
    updates: [u64; 2],
}

/// Tests that passed and failed.
#[derive(Default)]
struct Verdict {
    passed: usize,
    failed: usize,
}

impl Comparison {
    /// Runs the cases; a driver that dies is started again for the next case.
    fn run(&mut self) -> std::io::Result<()> {
        let chosen = match self.options.case {
            Some(case) => case..case + 1,
            None => 0..cases::count(),
        };
        let mut driver = Driver::start(&self.options.driver)?;
        let mut deaths = 0;
        for case in chosen {
            if self.run_case(&mut driver, case) {
                continue;
            }
            println!("    the driver ended: {}", driver.end());
            deaths += 1;
            if deaths == DEATHS {
                println!("the driver ended {DEATHS} times before its time: the other cases are not run");
                return Ok(());
            }
            driver = Driver::start(&self.options.driver)?;
        }
        driver.end();
        Ok(())
    }

    /// Runs one case and compares each answer; false when the driver did not come to the case's end.
    fn run_case(&mut self, driver: &mut Driver, case: usize) -> bool {
        let script = cases::script(self.options.seed, case);
        let mut given = vec![];
        let sent = driver.send(&script.message).is_ok();
        for (i, asked) in script.asked.iter().enumerate() {
            let answer = if sent { driver.answer(asked).ok() } else { None };
            self.calls[asked.call.number()] += 1;
            self.calls_by_order[asked.order as usize] += 1;
            match answer {
                Some(answer) => {
                    self.compare(case, i, asked, &answer);
                    given.push(answer);
                }
                None => {
                    self.differing[asked.call.number()] += 1;
                    self.show(case, i, &format!("{}: the driver gives no answer", asked.call.described()));
                    return false;
                }
            }
        }
        if cases::is_series(case) {
            self.compare_series(case, &script, &given);
        }
        true
    }

    /// Holds a series to demand 3.
    fn compare_series(&mut self, case: usize, script: &Script, given: &[Given]) {
        let series = &mut self.series[script.order as usize];
        series.made += 1;
        for (asked, given) in script.asked.iter().zip(given) {
            series.batches += matches!(asked.call, Call::AppendBatch(_) | Call::AppendBatchTo(_)) as usize;
            series.through += asked.call.takes_record() as usize;
            add(&mut series.appends, demand::appends(&asked.call, &given.fields));
            add(&mut series.updates, demand::updates(&asked.call, &given.fields));
        }
        if let Some(fault) = demand::fault(&script.lent, &script.asked, given) {
            series.failed += 1;
            self.show(case, given.len() - 1, &format!("demand 3: {fault}"));
        }
    }

    /// Compares one answer, and the file and the record after it.
    fn compare(&mut self, case: usize, i: usize, asked: &Asked, given: &Given) {
        let call = asked.call.number();
        let (ours, theirs) = (&asked.answer.fields, &given.fields);
        if let Some(at) = (0..ours.len()).find(|&at| ours[at] != theirs[at]) {
            self.differing[call] += 1;
            let (field, ours, theirs) = (asked.call.field(at), ours[at] as i64, theirs[at] as i64);
            let what =
                format!("{field} is {theirs} by the library, {ours} by the reference ({})", asked.answer.reason());
            self.show(case, i, &format!("{}: {what}", asked.call.described()));
        } else {
            self.table.count(asked);
        }
        self.compare_files(case, i, asked, given);
        self.compare_records(case, i, asked, given);
        self.compare_room(case, i, asked, given);
    }

    /// Compares the file after a call that may change it.
    fn compare_files(&mut self, case: usize, i: usize, asked: &Asked, given: &Given) {
        let (Some(ours), Some(theirs)) = (&asked.after, &given.after) else {
            return;
        };
        self.files += 1;
        if let Some(at) = (0..ours.len().max(theirs.len())).find(|&at| ours.get(at) != theirs.get(at)) {
            self.differing_files += 1;
            let (ours, theirs) = (ours.get(at), theirs.get(at));
            let what = format!("byte {at} of the file is {theirs:?} by the library, {ours:?} by the reference");
            self.show(case, i, &format!("{}: {what}", asked.call.described()));
        }
    }

    /// Compares the record after a call through it.
    fn compare_records(&mut self, case: usize, i: usize, asked: &Asked, given: &Given) {
        let (Some(ours), Some(theirs)) = (&asked.held, &given.held) else {
            return;
        };
        self.records += 1;
        if let Some(at) = (0..FIELDS.len()).find(|&at| ours[at] != theirs[at]) {
            self.differing_records += 1;
            let (field, ours, theirs) = (FIELDS[at], ours[at], theirs[at]);
            let what = format!("{field} of the record is {theirs} by the library, {ours} by the reference");
            self.show(case, i, &format!("{}: {what}", asked.call.described()));
        }
    }

    /// Holds an answer about room to a search of the file before it, where one is made.
    fn compare_room(&mut self, case: usize, i: usize, asked: &Asked, given: &Given) {
        let Some(before) = &asked.before else {
            return;
        };
        let order = asked.order as usize;
        if let Some(fault) = room::fault(before, &asked.call, given, &mut self.searched[order]) {
            self.differing_room[order] += 1;
            self.show(case, i, &format!("{}: {fault}", asked.call.described()));
        }
    }

    /// Prints a difference with the command that repeats it, unless there were many; that command saves the file.
    fn show(&mut self, case: usize, call: usize, text: &str) {
        self.shown += 1;
        if self.shown > SHOWN {
            return;
        }
        let seed = self.options.seed;
        println!("DIFFERENCE in case {case} of seed {seed}, call {call}: {text}");
        if self.options.case.is_none() {
            println!("    repeat: tests/compare/run --seed {seed} --case {case}");
        } else {
            let name = format!("target/compare/case-{case}-call-{call}");
            match std::fs::write(&name, cases::file_before(seed, case, call)) {
                Ok(()) => println!("    the file before the call: {name}"),
                Err(fault) => println!("    {name}: {fault}"),
            }
        }
        if self.shown == SHOWN {
            println!("(further differences are counted, not printed)");
        }
    }

    /// Judges what was compared: each call, the bytes, the records, demand 3. Of a single case only what it has.
    fn judge_agreement(&self, verdict: &mut Verdict) {
        let all = self.options.case.is_none();
        let mut judge = |name: &str, things: &str, made: usize, differing: usize| {
            if all || made > 0 {
                verdict.test(name, made > 0 && differing == 0, &format!("{made} {things}, {differing} differ"));
            }
        };
        for (call, name) in CALLS.iter().enumerate() {
            judge(name, "calls", self.calls[call], self.differing[call]);
        }
        judge("bytes", "files after calls that may change them", self.files, self.differing_files);
        judge("records", "records after calls through them", self.records, self.differing_records);
        for (order, series) in Order::BOTH.iter().zip(&self.series) {
            let said = |[accepted, refused]: [u64; 2]| format!("{accepted} accepted and {refused} refused");
            let (appends, updates) = (said(series.appends), said(series.updates));
            let kinds = format!("{} batches, {} calls through a record", series.batches, series.through);
            let things = format!("series with {kinds}, appends {appends}, updates {updates}");
            judge(&format!("demand 3, {}", order.name()), &things, series.made, series.failed);
        }
        for (order, (searched, differing)) in Order::BOTH.iter().zip(self.searched.iter().zip(self.differing_room)) {
            let [with, without_23, without_24] = searched;
            let things = format!("entries with a place by a search, {without_23} without by 23, {without_24} by 24");
            let made = if searched.contains(&0) { 0 } else { *with };
            judge(&format!("room, {}", order.name()), &things, made, differing);
        }
    }

    /// Judges how much was compared: the table, the ways, the count of calls.
    fn judge_coverage(&self, verdict: &mut Verdict) {
        self.table.print();
        let wrong = self.table.wrong_cells();
        verdict.test("table", wrong.is_empty(), &format!("cells not as 01 and 02 admit them: {}", listed(&wrong)));
        let missing = self.table.missing_ways();
        verdict.test("ways", missing.is_empty(), &format!("reasons of a refusal not seen: {}", listed(&missing)));
        for (order, calls) in Order::BOTH.iter().zip(self.calls_by_order) {
            let name = format!("count, {}", order.name());
            verdict.test(&name, calls >= ENOUGH, &format!("{calls} calls, {ENOUGH} wanted"));
        }
    }
}

impl Verdict {
    /// Counts one test and prints its line.
    fn test(&mut self, name: &str, passed: bool, said: &str) {
        if passed {
            println!("ok {name} ({said})");
            self.passed += 1;
        } else {
            println!("FAILED {name}: {said}");
            self.failed += 1;
        }
    }
}

/// Adds to each of two counts.
fn add(counts: &mut [u64; 2], more: [u64; 2]) {
    counts.iter_mut().zip(more).for_each(|(count, more)| *count += more);
}

/// A list as a phrase.
fn listed(list: &[String]) -> String {
    if list.is_empty() {
        "none".to_string()
    } else {
        list.join("; ")
    }
}

/// Reads the command line.
fn options() -> Result<Options, String> {
    let mut options = Options { seed: 1, ..Options::default() };
    let mut words = std::env::args().skip(1);
    while let Some(word) = words.next() {
        if !word.starts_with("--") {
            options.driver.push(word);
            options.driver.extend(words.by_ref());
            break;
        }
        let number = words.next().and_then(|value| value.parse::<u64>().ok());
        match (word.as_str(), number) {
            ("--seed", Some(seed)) => options.seed = seed,
            ("--case", Some(case)) if case < cases::count() as u64 => options.case = Some(case as usize),
            ("--case", _) => return Err(format!("--case takes a number below {}", cases::count())),
            _ => return Err(format!("{word} is no option, or has no number after it")),
        }
    }
    if options.driver.is_empty() {
        return Err("the driver's command is missing".to_string());
    }
    Ok(options)
}

/// Ends the program where it cannot compare.
fn give_up(fault: &str) -> ! {
    println!("compare: {fault}");
    std::process::exit(2)
}

fn main() {
    let began = std::time::Instant::now();
    let options = options().unwrap_or_else(|fault| give_up(&fault));
    let mut comparison = Comparison { options, ..Comparison::default() };
    if let Err(fault) = comparison.run() {
        give_up(&format!("{}: {fault}", comparison.options.driver.join(" ")));
    }
    let mut verdict = Verdict::default();
    if comparison.options.case.is_none() {
        comparison.judge_coverage(&mut verdict);
    }
    comparison.judge_agreement(&mut verdict);
    println!("seed {}, {} s", comparison.options.seed, began.elapsed().as_secs());
    println!("{} passed, {} failed", verdict.passed, verdict.failed);
    std::process::exit((verdict.failed > 0) as i32)
}
