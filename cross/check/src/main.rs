//! Runs scripts of calls on the desk written from the paper alone and, with
//! the feature `archive`, on `libloikrasun.a` beside it; compares number,
//! value and every byte of the buffers after every call. Tapes are judged and
//! played besides, reels and texts go through whole programs.
//!
//! ```text
//! check [--calls N] [--screens N] [--texts N] [--seed S]
//!       [--register COMMAND] [--typist COMMAND]
//! ```
//!
//! COMMAND is a program and its arguments, with spaces between.
//! On a difference it prints the shortest script that still shows one and
//! ends with 1. The output depends on the options alone.

#![forbid(unsafe_code)]

mod machine;
mod programs;
mod registers;
mod run;
mod share;
mod shrink;
#[cfg(test)]
mod slips;
mod tapes;
mod texts;

use std::fmt;
use std::process::ExitCode;

use gen::reels::reels;
use gen::script::{script, Step};

use machine::{Machine, Paper, OTHER};
use run::Difference;
use share::{shared, WORKERS};

const USAGE: &str = "check [--calls N] [--screens N] [--texts N] [--seed S] \
                     [--register COMMAND] [--typist COMMAND]";

/// What the command line asks for.
#[derive(Clone, Debug, PartialEq, Eq)]
struct Options {
    calls: u64,
    screens: u64,
    texts: u64,
    seed: u64,
    register: Option<String>,
    typist: Option<String>,
}

impl Options {
    /// Reads the options; `None` if there is one that is not known.
    fn read(mut words: impl Iterator<Item = String>) -> Option<Options> {
        let mut options = Options {
            calls: 200_000,
            screens: 20_000,
            texts: 100,
            seed: 1,
            register: None,
            typist: None,
        };
        while let Some(word) = words.next() {
            let value = words.next()?;
            match word.as_str() {
                "--calls" => options.calls = value.parse().ok()?,
                "--screens" => options.screens = value.parse().ok()?,
                "--texts" => options.texts = value.parse().ok()?,
                "--seed" => options.seed = value.parse().ok()?,
                "--register" => options.register = Some(value),
                "--typist" => options.typist = Some(value),
                _ => return None,
            }
        }
        Some(options)
    }
}

/// The script of this number, cut after so many calls, and its calls.
fn cut_script(seed: u64, number: u64, calls: u64) -> (Vec<Step>, u64) {
    let mut steps = script(seed, number);
    let mut left = calls;
    let end = steps.iter().position(|step| {
        left -= u64::from(step.is_call());
        left == 0
    });
    steps.truncate(end.map_or(steps.len(), |end| end + 1));
    (steps, calls - left)
}

/// A difference between two machines, and the shortest script that shows one.
struct Found {
    place: String,
    script: Vec<Step>,
    difference: Difference,
}

impl fmt::Display for Found {
    fn fmt(&self, f: &mut fmt::Formatter<'_>) -> fmt::Result {
        writeln!(f, "difference ({})", self.place)?;
        for (number, step) in (1..).zip(&self.script) {
            writeln!(f, "{number:5} {step}")?;
        }
        writeln!(f, "{}", self.difference)
    }
}

/// Runs scripts until so many calls are made or a difference is found. Each
/// worker has scripts of its own.
fn run_scripts(
    left: &(impl Machine + Sync),
    right: &(impl Machine + Sync),
    calls: u64,
    seed: u64,
) -> Result<u64, Found> {
    let share = |worker| (calls + worker) / WORKERS;
    let made = shared(|worker| run_share(left, right, share(worker), seed, worker))?;
    Ok(made.into_iter().sum())
}

/// One worker's scripts: every so many, from its own number on.
fn run_share(
    left: &impl Machine,
    right: &impl Machine,
    calls: u64,
    seed: u64,
    worker: u64,
) -> Result<u64, Found> {
    let mut made = 0;
    let mut number = worker;
    while made < calls {
        let (steps, count) = cut_script(seed, number, calls - made);
        if let Some(difference) = run::compare(left, right, &steps) {
            let place = format!("seed {seed}, script {number}");
            return Err(shortest(left, right, steps, difference, place));
        }
        made += count;
        number += WORKERS;
    }
    Ok(made)
}

/// From a script with a difference to the shortest that still shows one.
fn shortest(
    left: &impl Machine,
    right: &impl Machine,
    steps: Vec<Step>,
    difference: Difference,
    place: String,
) -> Found {
    let shows = |steps: &[Step]| run::compare(left, right, steps).map(|found| found.step);
    let script = shrink::shortest(&steps, shows);
    let difference = run::compare(left, right, &script).unwrap_or(difference);
    Found {
        place,
        script,
        difference,
    }
}

/// Compares the paper's registers with those by another way. On a difference:
/// its report, with the shortest reel.
fn run_reels(seed: u64, name: &str, other: impl Fn(&[u8]) -> Vec<u8>) -> Result<usize, String> {
    let reels = reels(seed);
    let differ = |reel: &[u8]| paper::register::register(reel) != other(reel);
    for reel in &reels {
        if differ(&reel.bytes) {
            let lines: Vec<&[u8]> = reel.bytes.split_inclusive(|&byte| byte == b'\n').collect();
            let shows = |lines: &[&[u8]]| differ(&lines.concat()).then_some(lines.len().max(1) - 1);
            let short = shrink::shortest(&lines, shows).concat();
            return Err(format!(
                "registers differ ({name}, seed {seed}, reel {})\n{}\npaper:\n{}\nother:\n{}\n",
                reel.name,
                short.escape_ascii(),
                paper::register::register(&short).escape_ascii(),
                other(&short).escape_ascii(),
            ));
        }
    }
    Ok(reels.len())
}

/// All that the options ask for, as lines to print. The scripts go first: a
/// difference in a call says more than one in a register.
fn check(options: &Options) -> Result<String, String> {
    let calls = run_scripts(&Paper, &OTHER, options.calls, options.seed)
        .map_err(|found| found.to_string())?;
    tapes::run(&OTHER, options.seed, options.screens)?;
    let mut text = format!("{} tapes, 0 differences\n", options.screens);
    let reels = run_reels(options.seed, "by calls", |reel| {
        registers::by_calls(&OTHER, reel)
    })?;
    text += &format!("{reels} reels by calls, 0 differences\n");
    if let Some(command) = &options.register {
        let reels = run_reels(options.seed, "by program", |reel| printed(command, reel))?;
        text += &format!("{reels} reels by program, 0 differences\n");
    }
    let texts = texts::run(options.typist.as_deref(), options.seed, options.texts)?;
    let by = options.typist.as_ref().map_or("", |_| " by program");
    text += &format!("{texts} texts{by}, 0 differences\n");
    Ok(text + &format!("{calls} calls, 0 differences\n"))
}

/// What the command prints; a command that does not run prints its error.
fn printed(command: &str, reel: &[u8]) -> Vec<u8> {
    programs::run(command, reel).map_or_else(
        |error| error.to_string().into_bytes(),
        |output| output.stdout,
    )
}

/// Prints what was found; ends with 1 on a difference, 2 on a wrong option.
fn main() -> ExitCode {
    let Some(options) = Options::read(std::env::args().skip(1)) else {
        eprintln!("{USAGE}");
        return ExitCode::from(2);
    };
    match check(&options) {
        Ok(text) => {
            print!("{text}");
            ExitCode::SUCCESS
        }
        Err(text) => {
            print!("{text}");
            ExitCode::FAILURE
        }
    }
}
