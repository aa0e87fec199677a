//! `generate SEED COUNT` prints so many generated cases with this library's answers, one a line,
//! in the format of a case list; and on standard error how often each answer occurred.

use oul_tests::generate;
use oul_tests::refusal::number;
use std::io::{self, BufWriter, Write};
use std::process::ExitCode;

fn main() -> ExitCode {
    let arguments: Result<Vec<u64>, _> = std::env::args().skip(1).map(|n| n.parse()).collect();
    let Ok(&[seed, count]) = arguments.as_deref() else {
        eprintln!("usage: generate SEED COUNT");
        return ExitCode::from(2);
    };
    match print_cases(seed, count) {
        Ok(()) => ExitCode::SUCCESS,
        Err(trouble) => {
            eprintln!("{trouble}");
            ExitCode::FAILURE
        }
    }
}

fn print_cases(seed: u64, count: u64) -> io::Result<()> {
    let mut out = BufWriter::new(io::stdout().lock());
    let mut accepted = 0;
    let mut refused = [0; 1 + u8::MAX as usize];
    for (case, _) in generate::cases(seed).zip(0..count) {
        let answer = case.answer();
        writeln!(out, "{case}\t{answer}")?;
        match answer.refusal() {
            Some(refusal) => refused[usize::from(refusal.number)] += 1,
            None => accepted += 1,
        }
    }
    out.flush()?;
    eprintln!("accepted {accepted}");
    for number in number::ALL {
        eprintln!("refused {number}: {}", refused[usize::from(number)]);
    }
    Ok(())
}
