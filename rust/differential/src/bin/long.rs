//! A long run of the library against the model, judging and playing:
//! `long [--from SEED] [--cases N] [--threads T] [--exact]`.
//!
//! Every some seconds it tells on standard error the seed up to which everything is done, and how to go on there. It
//! stops at the first difference with status 1; at the end a table is on standard output. `--exact` lends memory as
//! `differential::exact` does, for valgrind.

use differential::both::{run, Progress};
use differential::seeds::Counted;
use differential::{exact, playing};
use std::env;
use std::process::ExitCode;
use std::time::{Duration, Instant};

const USAGE: &str = "long [--from SEED] [--cases N] [--threads T] [--exact]";
const EVERY: Duration = Duration::from_secs(10);

struct Options {
    from: u64,
    cases: u64,
    threads: usize,
    exact: bool,
}

fn options(mut words: impl Iterator<Item = String>) -> Result<Options, String> {
    let mut options = Options { from: 0, cases: 10_000_000, threads: 2, exact: false };
    while let Some(word) = words.next() {
        let mut number = || -> Result<u64, String> {
            let text = words.next().ok_or(format!("{word} needs a number"))?;
            text.replace('_', "").parse().map_err(|_| format!("{word}: {text:?} isn't a number"))
        };
        match word.as_str() {
            "--from" => options.from = number()?,
            "--cases" => options.cases = number()?,
            "--threads" => options.threads = number()?.clamp(1, 256) as usize,
            "--exact" => options.exact = true,
            _ => return Err(format!("{word:?} is no option")),
        }
    }
    Ok(options)
}

fn main() -> ExitCode {
    let Options { from, cases, threads, exact } = match options(env::args().skip(1)) {
        Ok(options) => options,
        Err(text) => {
            eprintln!("{text}\n{USAGE}");
            return ExitCode::from(2);
        }
    };
    let begin = Instant::now();
    let mut told = begin;
    let tell = |progress: &Progress| {
        let done = progress.counts.cases();
        if told.elapsed() >= EVERY && done < cases {
            told = Instant::now();
            let (next, rest) = (progress.next, cases - done);
            let rate = done as f64 / begin.elapsed().as_secs_f64();
            eprintln!("done up to seed {next}: {done} cases, {rate:.0} a second; go on: --from {next} --cases {rest}");
        }
    };
    let (progress, failure) = if exact {
        run(exact::judge, exact::play, threads, from, cases, tell)
    } else {
        run(goadlotus::judge, playing::library, threads, from, cases, tell)
    };
    let Progress { next, counts } = progress;
    if let Some(text) = failure {
        println!("library and model differ\n{text}({} cases agreed before)", counts.cases());
        return ExitCode::from(1);
    }
    let seconds = begin.elapsed().as_secs_f64();
    print!("{}", counts.table());
    let (all, rate) = (counts.cases(), counts.cases() as f64 / seconds);
    match next.wrapping_sub(from) {
        0 => println!("no seed"),
        _ => println!("seeds {from} to {}", next.wrapping_sub(1)),
    }
    println!("{all} cases in {seconds:.1} s on {threads} threads, {rate:.0} a second; no difference");
    ExitCode::SUCCESS
}
