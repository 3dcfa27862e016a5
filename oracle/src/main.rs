//! The Rust's side of the comparison.
//!
//! With no word it answers the lines of standard input. `random N SEED OPS` writes cases, `fixed OPS` the fixed list, and
//! `edges REACH` the pies of one pixel. `compare` before the words of a list, with PORT CHECKED UNCHECKED after them, holds
//! the port's program against the two builds of this one.

extern crate alloc;

mod answer;
#[allow(warnings)]
#[path = "wie.rs"]
mod canvas;
mod case;
mod compare;
mod edges;
mod fixed;
mod icons;
mod random;
mod rules;
mod tally;

use std::io::{self, BufRead, BufWriter, Write, stdin, stdout};
use std::process::ExitCode;

fn main() -> ExitCode {
    let words: Vec<String> = std::env::args().skip(1).collect();
    let words: Vec<&str> = words.iter().map(String::as_str).collect();
    match words[..] {
        [] => answers(),
        ["random", n, seed, list] => write(random(n, seed, list)),
        ["fixed", list] => write(fixed::fixed(&ops(list)).into_iter()),
        ["edges", reach] => write(edges::cases(number(reach) as i64)),
        ["compare", "random", n, seed, list, port, checked, unchecked] => {
            let cases = || random(n, seed, list);
            return compare(&format!("cases of {list} (seed {seed})"), cases, [port, checked, unchecked]);
        }
        ["compare", "edges", reach, port, checked, unchecked] => {
            let reach = number(reach) as i64;
            let what = format!("pies of one pixel, in {} directions", edges::directions(reach).count());
            return compare(&what, || edges::cases(reach), [port, checked, unchecked]);
        }
        _ => stop("words not understood"),
    }
    .unwrap_or_else(|error| stop(&format!("not written: {error}")));
    ExitCode::SUCCESS
}

fn random(n: &str, seed: &str, list: &str) -> random::Cases {
    random::Cases::new(number(n), number(seed), &ops(list)).with_rows().with_rules()
}

fn compare<C>(what: &str, cases: impl Fn() -> C, programs: [&str; 3]) -> ExitCode
where
    C: Iterator<Item = String> + Send + 'static,
{
    if compare::compare(what, cases, programs) { ExitCode::SUCCESS } else { ExitCode::FAILURE }
}

fn answers() -> io::Result<()> {
    std::panic::set_hook(Box::new(|_| ()));
    write(stdin().lock().split(b'\n').map(|line| answer::answer(&line.expect("standard input is read"))))
}

fn write(lines: impl Iterator<Item = String>) -> io::Result<()> {
    let mut out = BufWriter::new(stdout().lock());
    for line in lines {
        writeln!(out, "{line}")?;
    }
    out.flush()
}

fn number(word: &str) -> u64 {
    word.parse().unwrap_or_else(|_| stop(&format!("not a number: {word}")))
}

fn ops(list: &str) -> Vec<&'static str> {
    let known = |name: &str| random::OPS.into_iter().find(|&op| op == name);
    list.split(',').map(|name| known(name).unwrap_or_else(|| stop(&format!("not an op: {name}")))).collect()
}

fn stop(why: &str) -> ! {
    eprintln!("{why}");
    std::process::exit(2)
}
