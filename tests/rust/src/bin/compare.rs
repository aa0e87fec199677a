//! `compare SEED COUNT PROGRAM [ARGUMENT..]` holds the proved library against this one on so
//! many generated cases; PROGRAM answers for it (`tests/c/answers.c`).
//!
//! The cases come in runs of 10,000 with the seeds SEED, SEED + 1, and so on; each run meets
//! every refusal number, and every answer of `part_text` and of each call that knows files. Prints
//! the differences, how often each answer occurred, and last how many runs passed and how many
//! failed.

use oul_tests::bridge::{self, Said};
use oul_tests::cases::Case;
use oul_tests::generate;
use oul_tests::refusal::number;
use std::collections::BTreeMap;
use std::io::{self, BufReader, BufWriter};
use std::process::{Command, ExitCode, Stdio};
use std::sync::atomic::{AtomicU64, Ordering};
use std::sync::{mpsc, Mutex};
use std::thread;

/// So many cases of one seed make a run.
const RUN: u64 = 10_000;
/// So many cases may be asked before the first answer is read.
const AHEAD: usize = 100;
/// So many differences of a run are shown.
const SHOWN: usize = 10;

fn main() -> ExitCode {
    let arguments: Vec<String> = std::env::args().skip(1).collect();
    let [seed, count, program @ ..] = &arguments[..] else {
        return usage();
    };
    let (Ok(seed), Ok(count), false) = (seed.parse(), count.parse(), program.is_empty()) else {
        return usage();
    };
    let tally = Mutex::new(Tally::default());
    let next = AtomicU64::new(0);
    let work = || loop {
        let first = RUN * next.fetch_add(1, Ordering::Relaxed);
        if first >= count {
            break;
        }
        let run = Run {
            seed: u64::wrapping_add(seed, first / RUN),
            count: RUN.min(count - first),
        };
        let told = run.compare(program);
        tally.lock().unwrap().add(&run, told);
    };
    let workers = thread::available_parallelism().map_or(1, usize::from);
    thread::scope(|scope| {
        for _ in 0..workers {
            scope.spawn(work);
        }
    });
    tally.into_inner().unwrap().print()
}

fn usage() -> ExitCode {
    eprintln!("usage: compare SEED COUNT PROGRAM [ARGUMENT..]");
    ExitCode::from(2)
}

struct Run {
    seed: u64,
    count: u64,
}

/// How often each answer occurred, as [`generate::answered`] counts them.
type Answers = BTreeMap<(&'static str, u8), u64>;

/// The answers of a run, and the differences.
#[derive(Default)]
struct Told {
    answers: Answers,
    differences: Vec<String>,
}

impl Told {
    /// What a whole run is to meet and did not.
    fn missed(&self) -> Option<String> {
        let met = |refusal: u8| self.answers.keys().any(|&(_, n)| n == refusal);
        let refusal = number::ALL.into_iter().find(|&refusal| !met(refusal));
        let answer = generate::ANSWERS
            .into_iter()
            .flat_map(|(call, numbers)| numbers.iter().map(move |&n| (call, n)))
            .find(|answer| !self.answers.contains_key(answer));
        refusal
            .map(|number| format!("no refusal {number}"))
            .or(answer.map(|(call, number)| format!("no answer {number} from {call}")))
    }
}

impl Run {
    fn cases(&self) -> impl Iterator<Item = (Case, u8)> {
        let count = self.count as usize;
        generate::cases(self.seed)
            .take(count)
            .zip((0..=u8::MAX).cycle())
    }

    /// Asks the program every case of the run, and holds its answers against ours.
    fn compare(&self, program: &[String]) -> io::Result<Told> {
        let mut child = Command::new(&program[0])
            .args(&program[1..])
            .stdin(Stdio::piped())
            .stdout(Stdio::piped())
            .spawn()?;
        let mut to = BufWriter::new(child.stdin.take().expect("a pipe"));
        let mut from = BufReader::with_capacity(1 << 16, child.stdout.take().expect("a pipe"));
        let (asked, answered) = mpsc::sync_channel(AHEAD);
        let told = thread::scope(|scope| {
            scope.spawn(move || -> io::Result<()> {
                for (case, salt) in self.cases() {
                    bridge::ask(&case, salt, &mut to)?;
                    let ours = Said::by_us(&case, salt);
                    if asked.send((case, ours)).is_err() {
                        break;
                    }
                }
                Ok(())
            });
            let mut told = Told::default();
            for (place, (case, ours)) in answered.iter().enumerate() {
                let theirs = Said::read(&case, &mut from)?;
                let answer = generate::answered(&case, ours.numbers[0] as u8);
                *told.answers.entry(answer).or_default() += 1;
                if ours != theirs {
                    let seed = self.seed;
                    told.differences.push(format!(
                        "seed {seed} case {place}: {case}\n  ours:   {ours}\n  theirs: {theirs}"
                    ));
                }
            }
            Ok(told)
        });
        child.kill().ok();
        child.wait()?;
        told
    }
}

#[derive(Default)]
struct Tally {
    answers: Answers,
    passed: usize,
    failed: usize,
}

impl Tally {
    /// A run fails where an answer differs, and where a whole run leaves one out.
    fn add(&mut self, run: &Run, told: io::Result<Told>) {
        let seed = run.seed;
        let told = match told {
            Ok(told) => told,
            Err(trouble) => {
                println!("seed {seed}: {trouble}");
                self.failed += 1;
                return;
            }
        };
        for difference in told.differences.iter().take(SHOWN) {
            println!("{difference}");
        }
        let missed = told.missed();
        if let (RUN, Some(missed)) = (run.count, &missed) {
            println!("seed {seed}: {missed}");
        }
        let fine = told.differences.is_empty() && (run.count < RUN || missed.is_none());
        self.passed += usize::from(fine);
        self.failed += usize::from(!fine);
        for (answer, count) in told.answers {
            *self.answers.entry(answer).or_default() += count;
        }
    }

    fn print(&self) -> ExitCode {
        let mut calls = BTreeMap::<_, Vec<String>>::new();
        for (&(call, number), count) in &self.answers {
            let answer = match number {
                0 => "accepted".to_string(),
                refusal => refusal.to_string(),
            };
            calls
                .entry(call)
                .or_default()
                .push(format!("{answer} {count}"));
        }
        for (call, answers) in calls {
            println!("{call}: {}", answers.join(", "));
        }
        let inputs: u64 = self.answers.values().sum();
        println!("{inputs} inputs compared, in runs of {RUN}");
        println!("{} passed, {} failed", self.passed, self.failed);
        match self.failed {
            0 => ExitCode::SUCCESS,
            _ => ExitCode::FAILURE,
        }
    }
}
