//! Compares every function of the C interface with the reference, on random, edge and damaged inputs.
//!
//!     differential [--seed N] [--rounds N] [--only FUNCTION]    compare the static library
//!     differential --planted [--seed N]                         compare libraries with one planted mistake each: all must be found
//!
//! The inputs follow from the seed, and without `--seed` that is the same in every run. It stops at the first difference, prints the inputs
//! that reproduce it, and ends with status 1; with status 3 where the library touched memory that it was not lent.

mod cases;
mod lent;
mod library;
mod planted;
mod watch;

use cases::{Difference, Outcome, Subject, SUBJECTS};
use library::{Library, Linked};
use planted::{Mistake, Planted, MISTAKES, STRAYS};
use reference::inputs::Random;
use std::process::{Command, ExitCode};
use std::sync::atomic::{AtomicU64, Ordering};
use std::sync::Mutex;

const SEED: u64 = 20_261_116;

struct Options {
    seed: u64,
    rounds: u64,
    only: Option<String>,
    planted: bool,
    /// A mistake of STRAYS, by its place there: what `--planted` tries in a process of its own.
    stray: Option<usize>,
}

fn options() -> Result<Options, String> {
    let mut options = Options { seed: SEED, rounds: 1, only: None, planted: false, stray: None };
    let mut words = std::env::args().skip(1);
    while let Some(word) = words.next() {
        let mut value = || words.next().ok_or(format!("{word} needs a value"));
        let number = |text: String| text.parse().map_err(|_| format!("{text} is no number"));
        match word.as_str() {
            "--seed" => options.seed = number(value()?)?,
            "--rounds" => options.rounds = number(value()?)?,
            "--only" => options.only = Some(value()?),
            "--planted" => options.planted = true,
            "--stray" => options.stray = Some(number(value()?)? as usize),
            _ => return Err("usage: differential [--seed N] [--rounds N] [--only FUNCTION] | --planted [--seed N]".to_string()),
        }
    }
    match &options.only {
        Some(only) if SUBJECTS.iter().all(|subject| subject.name != only) => {
            let names: Vec<&str> = SUBJECTS.iter().map(|subject| subject.name).collect();
            Err(format!("--only {only}: no such function; there are {}", names.join(", ")))
        }
        _ => Ok(options),
    }
}

/// The numbers that an answer's refusal can be: 0 to 18.
const REFUSALS: usize = 19;

/// What the cases of one function came to: the first that differs, and how often each refusal was met; 0 is the answer.
struct Tally {
    met: [u64; REFUSALS],
    first: Option<(u64, Box<Difference>)>,
}

/// The comparison of one function, shared among threads.
struct Work<'a> {
    library: &'a dyn Library,
    stream: usize,
    cases: u64,
    seed: u64,
    /// The first case that no thread has taken yet.
    next: AtomicU64,
    /// The least case that was found to differ: those behind it need not be compared.
    least: AtomicU64,
    tally: Mutex<Tally>,
}

impl Work<'_> {
    /// Takes a few cases at a time, until none is left.
    fn share(&self) {
        const CHUNK: u64 = 64;
        let mut met = [0u64; REFUSALS];
        loop {
            let from = self.next.fetch_add(CHUNK, Ordering::Relaxed);
            if from >= self.cases.min(self.least.load(Ordering::Relaxed)) {
                break;
            }
            for case in from..self.cases.min(from + CHUNK) {
                if case > self.least.load(Ordering::Relaxed) {
                    break;
                }
                match self.compare(case) {
                    Ok(refusal) => met[refusal as usize] += 1,
                    Err(difference) => self.note(case, difference),
                }
            }
        }
        let mut tally = self.tally.lock().expect("no thread fails");
        for (sum, n) in tally.met.iter_mut().zip(met) {
            *sum += n;
        }
    }

    fn compare(&self, case: u64) -> Outcome {
        let subject = &SUBJECTS[self.stream];
        watch::at(subject.name, self.seed, case);
        (subject.run)(self.library, case, &mut Random::new(self.seed, self.stream as u64, case))
    }

    fn note(&self, case: u64, difference: Box<Difference>) {
        self.least.fetch_min(case, Ordering::Relaxed);
        let mut tally = self.tally.lock().expect("no thread fails");
        if tally.first.as_ref().map_or(true, |(least, _)| case < *least) {
            tally.first = Some((case, difference));
        }
    }
}

/// The same seed, the same first difference, however many threads share the work: every case before it is compared.
fn compare_all(library: &dyn Library, stream: usize, cases: u64, seed: u64, threads: usize) -> Tally {
    let tally = Mutex::new(Tally { met: [0; REFUSALS], first: None });
    let work = Work { library, stream, cases, seed, next: AtomicU64::new(0), least: AtomicU64::new(u64::MAX), tally };
    std::thread::scope(|scope| {
        for _ in 0..threads {
            scope.spawn(|| work.share());
        }
    });
    work.tally.into_inner().expect("no thread fails")
}

fn processors() -> usize {
    std::thread::available_parallelism().map_or(1, |n| n.get())
}

fn report(subject: &Subject, cases: u64, tally: &Tally) {
    let mut line = format!("{:<15} {cases:>7} compared: {} answers", subject.name, tally.met[0]);
    for (refusal, times) in tally.met.iter().enumerate().skip(1).filter(|(_, times)| **times > 0) {
        line += &format!(", refusal {refusal} {times}");
    }
    println!("{line}");
}

fn compare_library(options: &Options) -> bool {
    let mut compared = 0;
    for (stream, subject) in SUBJECTS.iter().enumerate() {
        if options.only.as_ref().is_some_and(|only| only != subject.name) {
            continue;
        }
        let cases = subject.cases * options.rounds;
        let tally = compare_all(&Linked, stream, cases, options.seed, processors());
        if let Some((case, difference)) = tally.first {
            println!("{} differs, seed {}, case {case}", subject.name, options.seed);
            println!("  {}", difference.inputs);
            println!("  expected {}", difference.expected);
            println!("  found    {}", difference.found);
            println!("differential: {} compared, 1 different", compared + case + 1);
            return false;
        }
        compared += cases;
        report(subject, cases, &tally);
        if let Some(refusal) = subject.refusals.iter().find(|&&refusal| tally.met[refusal as usize] == 0) {
            println!("{}: no case met refusal {refusal}; the inputs are too tame", subject.name);
            return false;
        }
    }
    println!("differential: {compared} compared, 0 different");
    true
}

fn compare_mistake(mistake: &Mistake, seed: u64, threads: usize) -> Tally {
    let stream = SUBJECTS.iter().position(|subject| subject.name == mistake.function).expect("a function of the interface");
    compare_all(&Planted { mistake: mistake.name }, stream, SUBJECTS[stream].cases, seed, threads)
}

/// What a process that makes this stray mistake says where a page stops it.
fn stopped_at(stray: usize, seed: u64) -> Option<String> {
    let own = std::env::current_exe().expect("a process knows its program");
    let ended = Command::new(own).args(["--stray", &stray.to_string(), "--seed", &seed.to_string()]).output().expect("it can be run again");
    let said = String::from_utf8_lossy(&ended.stdout).trim_end().to_string();
    (ended.status.code() == Some(watch::STOPPED) && said.contains(STRAYS[stray].function)).then_some(said)
}

/// A comparison that finds nothing would pass as well: each planted mistake must be found.
fn compare_planted(options: &Options) -> bool {
    let mut found = 0;
    let mut tell = |mistake: &Mistake, how: Option<String>| {
        found += how.is_some() as usize;
        println!("{}, {}: {}", mistake.function, mistake.name, how.unwrap_or("NOT FOUND".to_string()));
    };
    for mistake in MISTAKES {
        let first = compare_mistake(mistake, options.seed, processors()).first;
        tell(mistake, first.map(|(case, _)| format!("found at case {case}")));
    }
    for (i, mistake) in STRAYS.iter().enumerate() {
        tell(mistake, stopped_at(i, options.seed));
    }
    let all = MISTAKES.len() + STRAYS.len();
    println!("planted: {all} mistakes, {found} found");
    found == all
}

fn main() -> ExitCode {
    let options = match options() {
        Ok(options) => options,
        Err(text) => {
            eprintln!("{text}");
            return ExitCode::from(2);
        }
    };
    watch::begin();
    if let Some(stray) = options.stray {
        compare_mistake(&STRAYS[stray], options.seed, 1);
        return ExitCode::SUCCESS;
    }
    println!("differential: seed {}", options.seed);
    let well = if options.planted { compare_planted(&options) } else { compare_library(&options) };
    if well {
        ExitCode::SUCCESS
    } else {
        ExitCode::from(1)
    }
}
