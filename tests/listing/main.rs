//! The comparison of the listing program with a plain listing of its own, on files of both byte orders.
//! Usage: listing [--seed N] [--case K] PROGRAM...: all cases of a seed, or one, with the command that runs the program.
//! Or: listing --list FILE: prints the plain listing of a file.

#[allow(dead_code)]
#[path = "../compare/additions.rs"]
mod additions;
mod cases;
#[allow(dead_code)]
#[path = "../compare/damage.rs"]
mod damage;
#[allow(dead_code)]
#[path = "../compare/files.rs"]
mod files;
mod listing;
#[allow(dead_code)]
#[path = "../compare/random.rs"]
mod random;
#[allow(dead_code)]
#[path = "../compare/reference.rs"]
mod reference;

use cases::{Input, PLAN};
use reference::Order;
use std::collections::BTreeMap;
use std::fs;
use std::process::{exit, Command};
use std::thread::{available_parallelism, scope};

/// Where the input of the program is put.
const FOLDER: &str = "target/listing";

/// Differences after this many are counted and not printed.
const SHOWN: usize = 20;

/// The inputs that a run must compare at least.
const ENOUGH: usize = 2000;

/// What the command line asks for.
#[derive(Default)]
struct Options {
    seed: u64,
    case: Option<usize>,
    list: Option<String>,
    program: Vec<String>,
}

/// What was compared and what differed so far, by the kinds of PLAN; and how often each sort of line was seen in inputs
/// of each order, by the order's number.
struct Comparison {
    options: Options,
    differing: [usize; PLAN.len()],
    compared: [usize; PLAN.len()],
    lines: BTreeMap<String, [usize; 2]>,
}

/// What a run of the program gave.
struct Given {
    listing: String,
    said: String,
    ended_well: bool,
}

/// An input, with the listing that 01 has of it and what the program gave.
struct Tried {
    input: Input,
    expected: String,
    given: Given,
}

impl Comparison {
    /// Compares every case, or the one that is asked for.
    fn run(&mut self) -> std::io::Result<()> {
        let chosen = match self.options.case {
            Some(case) => case..case + 1,
            None => 0..cases::count(),
        };
        let chosen: Vec<usize> = chosen.collect();
        for together in chosen.chunks(available_parallelism()?.get()) {
            for (case, tried) in together.iter().zip(self.try_together(together)) {
                self.judge_case(*case, tried?)?;
            }
        }
        Ok(())
    }

    /// Tries cases at one time, each on a processor of its own, and gives them in their order.
    fn try_together(&self, together: &[usize]) -> Vec<std::io::Result<Tried>> {
        scope(|scope| {
            let begun: Vec<_> = together.iter().map(|case| scope.spawn(|| self.try_case(*case))).collect();
            begun.into_iter().map(|tried| tried.join().expect("a case ends")).collect()
        })
    }

    /// Lists the input of a case by 01 and by the program.
    fn try_case(&self, case: usize) -> std::io::Result<Tried> {
        let input = cases::input(self.options.seed, case);
        let expected = listing::listing(&input.bytes);
        let given = self.list(case, &input.bytes)?;
        Ok(Tried { input, expected, given })
    }

    /// Counts a case that was tried, and shows it where the listings differ.
    fn judge_case(&mut self, case: usize, tried: Tried) -> std::io::Result<()> {
        let Tried { input, expected, given } = tried;
        self.compared[input.kind] += 1;
        if given.listing != expected || !given.ended_well || !given.said.is_empty() {
            self.differing[input.kind] += 1;
            self.show(case, input.kind, &expected, &given);
        }
        self.keep(case, &input.bytes, &expected, &given)?;
        self.count_lines(&input, &expected);
        Ok(())
    }

    /// Runs the program on the input of a case.
    fn list(&self, case: usize, input: &[u8]) -> std::io::Result<Given> {
        let name = format!("{FOLDER}/input-{case}");
        fs::write(&name, input)?;
        let program = &self.options.program;
        let output = Command::new(&program[0]).args(&program[1..]).stdin(fs::File::open(&name)?).output()?;
        fs::remove_file(&name)?;
        Ok(Given {
            listing: String::from_utf8_lossy(&output.stdout).into_owned(),
            said: String::from_utf8_lossy(&output.stderr).into_owned(),
            ended_well: output.status.success(),
        })
    }

    /// Prints a difference, unless there were many: the first line that differs, and the command that repeats it.
    fn show(&self, case: usize, kind: usize, expected: &str, given: &Given) {
        let shown: usize = self.differing.iter().sum();
        if shown > SHOWN {
            return;
        }
        let seed = self.options.seed;
        println!("DIFFERENCE in case {case} of seed {seed} ({}):", PLAN[kind].0);
        let (mut ours, mut theirs) = (expected.split('\n'), given.listing.split('\n'));
        for number in 1.. {
            let (our, their) = (ours.next(), theirs.next());
            if our != their {
                let line = |text: Option<&str>| text.map_or("not there".to_string(), |text| format!("'{text}'"));
                println!("    line {number} is {} by the program, {} by 01", line(their), line(our));
                break;
            }
            if our.is_none() {
                println!("    it ended well: {}; it said: {:?}", given.ended_well, given.said);
                break;
            }
        }
        println!("    repeat: tests/listing/run --seed {seed} --case {case}");
        if shown == SHOWN {
            println!("(further differences are counted, not printed)");
        }
    }

    /// Keeps the input and both listings of a case that was asked for.
    fn keep(&self, case: usize, input: &[u8], expected: &str, given: &Given) -> std::io::Result<()> {
        if self.options.case.is_none() {
            return Ok(());
        }
        let name = format!("{FOLDER}/case-{case}");
        fs::write(&name, input)?;
        fs::write(format!("{name}.expected"), expected)?;
        fs::write(format!("{name}.listed"), &given.listing)?;
        println!("{name} has the input, {name}.listed the program's listing, {name}.expected that of 01");
        Ok(())
    }

    /// Counts the sorts of lines of a listing, and what is rare in the whole of an input.
    fn count_lines(&mut self, input: &Input, expected: &str) {
        let mut sorts: Vec<String> = expected.lines().map(sort).collect();
        if expected == listing::HEADER {
            sorts.push("no entries".to_string());
        }
        let listed = expected.starts_with(listing::HEADER);
        if listed && input.bytes.len() == 65536 {
            sorts.push("65536 bytes listed".to_string());
        }
        if input.bytes.len() == 65537 {
            sorts.push("65537 bytes".to_string());
        }
        if listed && expected.split_whitespace().any(|word| word.parse::<u64>().is_ok_and(|number| number >= 10000)) {
            sorts.push("a number of five digits".to_string());
        }
        if expected.lines().count() > 5001 {
            sorts.push("over 5000 entries".to_string());
        }
        for sort in sorts {
            self.lines.entry(sort).or_default()[input.order as usize] += 1;
        }
    }

    /// Judges what was compared, a test for each kind, and how much of 01 it reached; gives the number of failed tests.
    fn judge(&self) -> usize {
        let mut failed = 0;
        let mut test = |name: &str, passed: bool, said: &str| {
            println!("{}", if passed { format!("ok {name} ({said})") } else { format!("FAILED {name}: {said}") });
            failed += !passed as usize;
        };
        for (kind, (name, ..)) in PLAN.iter().enumerate() {
            let (compared, differing) = (self.compared[kind], self.differing[kind]);
            if compared > 0 {
                test(name, differing == 0, &format!("{compared} inputs, {differing} differ"));
            }
        }
        if self.options.case.is_none() {
            let seen: Vec<String> = self.lines.iter().map(|(sort, [l, b])| format!("{sort}: {l}/{b}")).collect();
            println!("lines seen, in inputs of the little and of the big order: {}", seen.join("; "));
            for order in Order::BOTH {
                let missing = self.missing(order);
                test(&format!("lines, {}", order.name()), missing.is_empty(), &format!("not seen: {missing:?}"));
            }
            let compared: usize = self.compared.iter().sum();
            test("count", compared >= ENOUGH, &format!("{compared} inputs, {ENOUGH} wanted"));
        }
        failed
    }

    /// The sorts of lines that were not seen in inputs of an order, and should have been.
    fn missing(&self, order: Order) -> Vec<String> {
        let seen = |sort: &String| self.lines.get(sort).is_some_and(|counts| counts[order as usize] > 0);
        sorts().into_iter().filter(|sort| !seen(sort)).collect()
    }
}

/// The sort of a line of a listing: the line itself, or with an entry's numbers left out.
fn sort(line: &str) -> String {
    let words: Vec<&str> = line.split(' ').collect();
    match words[..] {
        [_, "refused", number] if words[0] != "file" => format!("entry refused {number}"),
        [_, _, _, _, _, _] if words[0] != "entry" => "entry listed".to_string(),
        _ => line.to_string(),
    }
}

/// The sorts of lines that a run must see in each order.
fn sorts() -> Vec<String> {
    let mut sorts: Vec<String> = (1..=11).chain([29]).map(|number| format!("file refused {number}")).collect();
    sorts.extend((13..=19).map(|number| format!("entry refused {number}")));
    let others = ["entry listed", "no entries", "a number of five digits", "over 5000 entries"];
    sorts.extend(others.map(String::from));
    sorts.extend(["65536 bytes listed", "65537 bytes"].map(String::from));
    sorts
}

/// Reads the command line.
fn options() -> Result<Options, String> {
    let mut options = Options { seed: 1, ..Options::default() };
    let mut words = std::env::args().skip(1);
    while let Some(word) = words.next() {
        if !word.starts_with("--") {
            options.program.push(word);
            options.program.extend(words.by_ref());
            return Ok(options);
        }
        let value = words.next().ok_or(format!("{word} has nothing after it"))?;
        let number = value.parse::<u64>().map_err(|_| format!("{word} takes a number"));
        match word.as_str() {
            "--list" => options.list = Some(value),
            "--seed" => options.seed = number?,
            "--case" => options.case = Some(number? as usize).filter(|&case| case < cases::count()),
            _ => return Err(format!("{word} is no option")),
        }
        if word == "--case" && options.case.is_none() {
            return Err(format!("--case takes a number below {}", cases::count()));
        }
    }
    if options.list.is_none() {
        return Err("the program's command is missing".to_string());
    }
    Ok(options)
}

/// Ends the program where it cannot compare.
fn give_up(fault: &str) -> ! {
    println!("listing: {fault}");
    exit(2)
}

fn main() {
    let options = options().unwrap_or_else(|fault| give_up(&fault));
    if let Some(name) = &options.list {
        let input = fs::read(name).unwrap_or_else(|fault| give_up(&format!("{name}: {fault}")));
        print!("{}", listing::listing(&input));
        return;
    }
    let mut comparison =
        Comparison { options, differing: [0; PLAN.len()], compared: [0; PLAN.len()], lines: BTreeMap::new() };
    if let Err(fault) = comparison.run() {
        give_up(&format!("{}: {fault}", comparison.options.program.join(" ")));
    }
    exit((comparison.judge() > 0) as i32)
}
