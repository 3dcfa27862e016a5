//! Lists of XOR calls and inversions, by the static library and by the Rust: `lists N SEED`. Each list is drawn in two
//! orders, and once more to take it away.

extern crate alloc;

#[allow(warnings)]
#[path = "../src"]
mod oracle {
    pub mod answer;
    #[path = "wie.rs"]
    pub mod canvas;
    pub mod case;
    pub mod exported;
    pub mod icons;
    pub mod library;
    pub mod random;
    pub mod rules;
    pub mod tally;
}
mod sides;

use std::process::ExitCode;

use oracle::{answer, canvas, case, icons, rules, tally};

use answer::{landed, refusal};
use case::{Call, Case, Screen};
use oracle::library::{Answer, ours};
use oracle::random::{Chance, ROWS, RULES};
use sides::{Marks, rust};

/// The calls that plot or draw an image, and inversion as often as two of them.
const OPS: [&str; 11] = ["put", "line", "rect", "fill", "rrect", "frrect", "arc", "pie", "draw", "invert", "invert"];

/// Failures printed in full; the rest are only counted.
const SHOWN: u64 = 5;

/// Calls on one screen with XOR on, each also as the line of a case; and another order of them.
struct List {
    screen: Screen,
    lines: Vec<String>,
    calls: Vec<Call>,
    order: Vec<usize>,
    other: Vec<usize>,
}

impl List {
    /// In four of ten rows have tails, and images likewise; in four of ten the canvas has rule 2, which XOR knows nothing of, and
    /// images have rules as those of random cases. Both are by chances of their own, so that a seed's calls stay the same.
    fn random(chance: &mut Chance) -> List {
        let (mut rows, mut rules) = (chance.apart(ROWS), chance.apart(RULES));
        let (format, w, h) = (chance.from(0, 4), side(chance), side(chance));
        let row = if rows.from(1, 10) <= 4 { format!(" row={}", w + rows.from(1, 9)) } else { String::new() };
        let rule = if rules.from(1, 10) <= 4 { " rule=2" } else { "" };
        let head = format!("{format} {w} {h} 1 {}{row}{rule}", chance.from(0, u32::MAX.into()));
        let order: Vec<usize> = (0..chance.from(2, 12) as usize).collect();
        let line = |_: &usize| {
            let op = chance.pick(&OPS);
            let args = chance.args(op, w, h);
            let args = if op == "draw" { rules.with_image_rule(&rows.with_image_row(&args)) } else { args };
            format!("{head} {op} {args}")
        };
        let lines: Vec<String> = order.iter().map(line).collect();
        let cases: Vec<Case> = lines.iter().map(|line| Case::read(line.as_bytes()).expect("a case")).collect();
        let screen = cases[0].screen.clone();
        let calls = cases.into_iter().map(|case| case.call).collect();
        let other = shuffled(chance, &order);
        List { screen, lines, calls, order, other }
    }

    /// What each call has to answer, by the Rust: its refusal, or the plots that land.
    fn expected(&self) -> Vec<Answer> {
        let answer = |call| match refusal(&self.screen, call) {
            0 => (0, landed(&self.screen, call)),
            number => (number, 0),
        };
        self.calls.iter().map(answer).collect()
    }

    /// Ours draws the calls in an order: what it leaves, and its answers.
    fn ours(&self, order: &[usize], bytes: &[u8]) -> (Vec<u8>, Vec<Answer>) {
        let mut screen = self.screen_of(bytes);
        let answers = order.iter().map(|&i| ours(&mut screen, true, &self.calls[i])).collect();
        (screen.bytes, answers)
    }

    /// The Rust draws them, but for those that we refuse.
    fn rust(&self, order: &[usize], bytes: &[u8]) -> Vec<u8> {
        rust(&self.screen_of(bytes), order.iter().map(|&i| &self.calls[i]))
    }

    fn screen_of(&self, bytes: &[u8]) -> Screen {
        Screen { bytes: bytes.to_vec(), ..self.screen }
    }

    /// The first bytes, with alpha 255 where a plot of another alpha than 0 landed, in the formats that keep it, and a
    /// top byte of 0 where an inversion did, in Rgb8.
    fn settled(&self) -> Vec<u8> {
        let mut bytes = self.screen.bytes.clone();
        let marks = Marks::of(&self.screen, &self.calls);
        let (marked, top) = match self.screen.format {
            0 | 1 => return bytes,
            2 => (marks.inverted, 0),
            _ => (marks.xored, 255),
        };
        let tops = bytes.iter_mut().skip(3).step_by(4);
        tops.zip(marked).filter(|(_, marked)| *marked).for_each(|(byte, _)| *byte = top);
        bytes
    }
}

/// 0 now and then, mostly small, at most 64.
fn side(chance: &mut Chance) -> i64 {
    match chance.from(1, 100) {
        1..=2 => 0,
        3..=85 => chance.from(1, 12),
        _ => chance.from(13, 64),
    }
}

/// Another order of two things or more.
fn shuffled(chance: &mut Chance, order: &[usize]) -> Vec<usize> {
    let mut other = order.to_vec();
    for i in (1..other.len()).rev() {
        other.swap(i, chance.from(0, i as i64) as usize);
    }
    if other == order {
        other.rotate_left(1);
    }
    other
}

/// What was drawn.
#[derive(Default)]
struct Tally {
    lists: u64,
    calls: u64,
    refused: u64,
    plots: u64,
    /// Lists that leave other bytes than the first.
    seen: u64,
    /// Lists that leave other bytes than the first even when they are taken away.
    stained: u64,
    /// Lists on rows with tails.
    tailed: u64,
    /// Lists on a canvas with rule 2.
    ruled: u64,
}

impl Tally {
    /// Why a list fails, if it does.
    fn look(&mut self, list: &List) -> Result<(), &'static str> {
        let List { screen: Screen { bytes, .. }, order, other, .. } = list;
        let (first, answers) = list.ours(order, bytes);
        let (second, others) = list.ours(other, bytes);
        hold(first == second, "ours leaves other bytes in the other order")?;
        hold(other.iter().zip(others).all(|(&i, o)| answers[i] == o), "ours answers otherwise in the other order")?;
        let theirs = list.rust(order, bytes);
        hold(theirs == list.rust(other, bytes), "the Rust leaves other bytes in the other order")?;

        let expected = list.expected();
        let settled = list.settled();
        self.count(&expected, first != *bytes, settled != *bytes);
        self.tailed += (list.screen.row > list.screen.width) as u64;
        self.ruled += (list.screen.rule == 2) as u64;
        let tails_kept = list.screen.put_back(&list.screen_of(&first).cut_out()) == first;
        hold(tails_kept, "ours changes a tail")?;
        hold(first == theirs, "ours leaves other bytes than the Rust")?;
        hold(answers == expected, "ours answers otherwise than the Rust")?;
        hold(list.ours(other, &first).0 == settled, "ours does not take the list away")?;
        hold(list.rust(other, &theirs) == settled, "the Rust does not take the list away")
    }

    fn count(&mut self, answers: &[Answer], seen: bool, stained: bool) {
        self.lists += 1;
        self.calls += answers.len() as u64;
        self.refused += answers.iter().filter(|(number, _)| *number != 0).count() as u64;
        self.plots += answers.iter().map(|(_, count)| count).sum::<u64>();
        self.seen += seen as u64;
        self.stained += stained as u64;
    }

    fn say(&self, seed: u64, failed: u64) {
        let Tally { lists, calls, refused, plots, seen, stained, tailed, ruled } = self;
        println!(
            "{lists} lists (seed {seed}) in two orders and twice, {tailed} of them on rows with tails and {ruled} by rule 2: \
             {calls} calls, {refused} of them refused, {plots} plots landed, {seen} lists seen, {stained} leave a stain; {failed} \
             lists fail"
        );
    }
}

fn hold(so: bool, else_why: &'static str) -> Result<(), &'static str> {
    if so { Ok(()) } else { Err(else_why) }
}

fn main() -> ExitCode {
    let words: Vec<u64> = std::env::args().skip(1).map(|word| word.parse().expect("a number")).collect();
    let [n, seed] = words[..] else { panic!("lists N SEED") };
    let (mut chance, mut tally, mut failed) = (Chance(seed), Tally::default(), 0);
    for _ in 0..n {
        let list = List::random(&mut chance);
        let Err(why) = tally.look(&list) else { continue };
        failed += 1;
        if failed <= SHOWN {
            println!("{why}; the other order is {:?}:\n  {}", list.other, list.lines.join("\n  "));
        }
    }
    tally.say(seed, failed);
    if failed == 0 { ExitCode::SUCCESS } else { ExitCode::FAILURE }
}
