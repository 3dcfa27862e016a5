//! The port and the Rust on the same lines.

use std::collections::BTreeMap;
use std::io::{BufRead, BufReader, BufWriter, Write};
use std::process::{Child, Command, Stdio};
use std::thread;

/// Differences printed in full; the rest are only counted.
const SHOWN: u64 = 20;

struct Side {
    name: &'static str,
    child: Child,
    lines: Box<dyn Iterator<Item = std::io::Result<String>>>,
}

impl Side {
    /// Starts the program and feeds it the cases.
    fn start(name: &'static str, program: &str, mut cases: impl Iterator<Item = String> + Send + 'static) -> Side {
        let mut child = Command::new(program)
            .stdin(Stdio::piped())
            .stdout(Stdio::piped())
            .spawn()
            .unwrap_or_else(|error| panic!("{program} does not start: {error}"));
        let mut input = BufWriter::new(child.stdin.take().unwrap());
        // A program that ends early is seen by its missing lines.
        thread::spawn(move || cases.try_for_each(|case| writeln!(input, "{case}")));
        let lines = Box::new(BufReader::new(child.stdout.take().unwrap()).lines());
        Side { name, child, lines }
    }

    fn answer(&mut self) -> String {
        match self.lines.next() {
            Some(Ok(line)) => line,
            Some(Err(error)) => format!("(unreadable: {error})"),
            None => "(no line)".into(),
        }
    }
}

/// What the answers show.
#[derive(Default)]
struct Tally {
    cases: u64,
    landed: u64,
    /// By the number of the refusal.
    refused: BTreeMap<u32, u64>,
    unread: u64,
    differences: u64,
}

impl Tally {
    /// Whether the answers differ.
    fn look(&mut self, ours: &str, rust: &[String; 2]) -> bool {
        let accepted = status(&rust[0]) == Some(0);
        self.cases += 1;
        self.unread += (rust[0] == "bad") as u64;
        if let Some(number) = status(&rust[0]).filter(|&number| number != 0) {
            *self.refused.entry(number).or_default() += 1;
        }
        self.landed += (accepted && !rust[0].contains(" count=0 ") && !rust[0].contains(" none ")) as u64;
        let differ = rust.iter().any(|answer| answer != ours);
        self.differences += differ as u64;
        differ
    }
}

fn status(answer: &str) -> Option<u32> {
    answer.split(' ').find_map(|word| word.strip_prefix("status="))?.parse().ok()
}

/// Runs the port and the two builds of the Rust on the cases; whether they agree.
pub fn compare<C>(what: &str, cases: impl Fn() -> C, [port, checked, unchecked]: [&str; 3]) -> bool
where
    C: Iterator<Item = String> + Send + 'static,
{
    let mut ours = Side::start("ours", port, cases());
    let mut rust = [Side::start("Rust with overflow checks", checked, cases()), Side::start("Rust without", unchecked, cases())];
    let mut tally = Tally::default();
    for case in cases() {
        let answer = ours.answer();
        let answers = [rust[0].answer(), rust[1].answer()];
        if tally.look(&answer, &answers) && tally.differences <= SHOWN {
            println!("case: {case}\n  {}: {answer}", ours.name);
            rust.iter().zip(&answers).for_each(|(side, a)| println!("  {}: {a}", side.name));
        }
    }
    let ended = [&mut ours].into_iter().chain(&mut rust).fold(true, |well, side| ended_well(side) && well);
    let Tally { cases, landed, refused, unread, differences } = tally;
    println!(
        "compared {cases} {what}: {landed} landed or found something, {} refused, {unread} unreadable; {differences} differences",
        refused.values().sum::<u64>()
    );
    if !refused.is_empty() {
        let numbers: Vec<String> = refused.iter().map(|(number, n)| format!("{number}: {n}")).collect();
        println!("refused, by number: {}", numbers.join(", "));
    }
    differences == 0 && ended
}

/// No line too many, and no failure.
fn ended_well(side: &mut Side) -> bool {
    let more = side.lines.next().is_some();
    if more {
        println!("{}: more lines than cases", side.name);
    }
    side.lines = Box::new(std::iter::empty());
    let status = side.child.wait().unwrap();
    if !status.success() {
        println!("{}: ended with {status}", side.name);
    }
    !more && status.success()
}
