//! `vectors LIST.TSV.. OUTSIDE REQUESTS` runs every listed case: those of the case lists, the check
//! of every message in a folder whose `index.tsv` names the files and their answers, and those of
//! every list in the folder of the requests.
//!
//! Prints each difference, then how many cases passed and failed. The exit status is 1 if any
//! failed, 2 if the lists cannot be read.

use oul_tests::listed::{self, Listed};
use std::path::Path;
use std::process::ExitCode;

fn main() -> ExitCode {
    let arguments: Vec<String> = std::env::args().skip(1).collect();
    let [lists @ .., outside, requests] = &arguments[..] else {
        eprintln!("usage: vectors LIST.TSV.. OUTSIDE-FOLDER REQUESTS-FOLDER");
        return ExitCode::from(2);
    };
    match run(lists, Path::new(outside), Path::new(requests)) {
        Ok(tally) => tally.print(),
        Err(trouble) => {
            eprintln!("{trouble}");
            ExitCode::from(2)
        }
    }
}

fn run(lists: &[String], outside: &Path, requests: &Path) -> Result<Tally, String> {
    let mut tally = Tally::default();
    for list in lists {
        for case in listed::cases(Path::new(list))? {
            tally.hold(&case, case.asked.answer().to_string());
        }
    }
    for case in listed::outside(outside)? {
        tally.hold(&case, case.asked.answer().to_string());
    }
    for list in listed::lists_in(requests)? {
        for request in listed::requests(&list)? {
            tally.hold(&request, request.asked.answer());
        }
    }
    Ok(tally)
}

#[derive(Default)]
struct Tally {
    passed: usize,
    failed: usize,
}

impl Tally {
    /// Counts an answer, and prints a difference to the listed one.
    fn hold<Asked>(&mut self, listed: &Listed<Asked>, answer: String) {
        if answer == listed.answer {
            self.passed += 1;
        } else {
            self.failed += 1;
            println!("{}", listed.place);
            println!("  listed: {}", listed.answer);
            println!("  answer: {answer}");
        }
    }

    fn print(&self) -> ExitCode {
        println!("{} passed, {} failed", self.passed, self.failed);
        match self.failed {
            0 => ExitCode::SUCCESS,
            _ => ExitCode::FAILURE,
        }
    }
}
