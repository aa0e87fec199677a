//! The listed cases of `tests/`: every Rust program reads them here.
//!
//! The lists of the requests have one case a line: its name, what it shows, the call, its
//! arguments and the answer, separated by tabs.
//!
//! * `pair` has a lead and a trail; its answer is two bytes in hex, or `none`;
//! * `csv_count` has a file; its answer is `ok SHEETS`, or a refusal;
//! * `csv_sheet` has a file, which sheet, mode, sent, control and the room; its answer is `ok HEX`,
//!   or a refusal. The text of an answer may be in pieces, as that of an argument.
//!
//! The other lists are as [`cases`](crate::cases) says.

use crate::cases::{parse_hex, Answer, Call, Case};
use crate::pair;
use std::fs;
use std::path::{Path, PathBuf};

/// What is asked, with the answer that stands in the list.
pub struct Listed<Asked> {
    /// The list and the line, and what the case is called there.
    pub place: String,
    pub asked: Asked,
    pub answer: String,
}

/// What a case of a request asks for.
#[derive(Clone, Debug, PartialEq, Eq)]
pub enum Request {
    Pair { lead: u8, trail: u8 },
    Call(Case),
}

impl Request {
    /// What this library answers, as it stands in a list.
    pub fn answer(&self) -> String {
        match self {
            &Self::Pair { lead, trail } => {
                pair(lead, trail).map_or("none".into(), |[one, two]| format!("{one:02x}{two:02x}"))
            }
            Self::Call(case) => in_request(&case.answer()),
        }
    }
}

/// An answer as a list of a request shows it: it tells how many sheets a file has, and not where
/// its first row starts.
pub fn in_request(answer: &Answer) -> String {
    match answer {
        Answer::Sheets(sheets) => format!("ok {}", sheets.count),
        answer => answer.to_string(),
    }
}

/// The cases of a list such as `cases.tsv`.
pub fn cases(list: &Path) -> Result<Vec<Listed<Case>>, String> {
    entries(list, |line| {
        let (case, answer) = Case::parse(line)?;
        Ok((case.call.name().into(), case, answer.into()))
    })
}

/// The cases of a list of a request.
pub fn requests(list: &Path) -> Result<Vec<Listed<Request>>, String> {
    entries(list, parse_request)
}

/// The lists of a folder, by name.
pub fn lists_in(folder: &Path) -> Result<Vec<PathBuf>, String> {
    let entries = fs::read_dir(folder).and_then(Iterator::collect::<Result<Vec<_>, _>>);
    let entries = entries.map_err(|trouble| explain(folder, trouble))?;
    let paths = entries.into_iter().map(|entry| entry.path());
    let mut lists: Vec<PathBuf> = paths
        .filter(|path| path.extension().is_some_and(|extension| extension == "tsv"))
        .collect();
    lists.sort();
    match lists.is_empty() {
        false => Ok(lists),
        true => Err(format!("{}: no list", folder.display())),
    }
}

/// The check of each message of a folder. Its index gives in the first column the file, in the
/// fourth `accepted SPM OBR OBX` or a refusal.
pub fn outside(folder: &Path) -> Result<Vec<Listed<Case>>, String> {
    entries(&folder.join("index.tsv"), |line| {
        let columns: Vec<&str> = line.split('\t').collect();
        let [file, _source, _kind, answer, ..] = columns[..] else {
            return Err("no entry".to_string());
        };
        let message = folder.join(file);
        let case = Case {
            call: Call::Check,
            input: fs::read(&message).map_err(|trouble| explain(&message, trouble))?,
        };
        Ok((file.into(), case, answer.replacen("accepted", "ok", 1)))
    })
}

/// What the lines of a list say that are no comments: some. Each has a name, what is asked, and
/// the answer.
fn entries<Asked>(
    list: &Path,
    read: impl Fn(&str) -> Result<(String, Asked, String), String>,
) -> Result<Vec<Listed<Asked>>, String> {
    let lines = fs::read_to_string(list).map_err(|trouble| explain(list, trouble))?;
    let mut entries = Vec::new();
    for (number, line) in (1..).zip(lines.lines()) {
        if line.is_empty() || line.starts_with('#') {
            continue;
        }
        let place = format!("{}:{number}", list.display());
        let (name, asked, answer) = read(line).map_err(|trouble| format!("{place}: {trouble}"))?;
        entries.push(Listed {
            place: format!("{place}: {name}"),
            asked,
            answer,
        });
    }
    match entries.is_empty() {
        false => Ok(entries),
        true => Err(format!("{}: no case", list.display())),
    }
}

fn parse_request(line: &str) -> Result<(String, Request, String), String> {
    let columns: Vec<&str> = line.split('\t').collect();
    match columns[..] {
        [name, _, "pair", lead, trail, answer] => {
            let asked = Request::Pair {
                lead: parse_byte(lead)?,
                trail: parse_byte(trail)?,
            };
            Ok((name.into(), asked, answer.into()))
        }
        [name, shown, _, ..] => {
            let case = &line[name.len() + shown.len() + 2..];
            let (case, answer) = Case::parse(case)?;
            let answer = match (&case.call, answer.strip_prefix("ok ")) {
                (Call::CsvSheet { .. }, Some(text)) => Answer::Bytes(parse_hex(text)?).to_string(),
                _ => answer.to_string(),
            };
            Ok((name.into(), Request::Call(case), answer))
        }
        _ => Err("no case".to_string()),
    }
}

fn parse_byte(text: &str) -> Result<u8, String> {
    match parse_hex(text)?[..] {
        [byte] => Ok(byte),
        _ => Err(format!("no byte: {text}")),
    }
}

fn explain(path: &Path, trouble: std::io::Error) -> String {
    format!("{}: {trouble}", path.display())
}

#[cfg(test)]
mod tests {
    use super::*;

    #[test]
    fn a_case_of_a_request_is_answered() {
        for line in [
            "01-001\ta pair\tpair\t81\t40\t2121",
            "01-015\tno pair\tpair\t80\t40\tnone",
            "01-044\tempty file\tcsv_count\t-\trefused 51 0 0",
            "01-056\tno row\tcsv_count\t22222c2237220d0a2222\tok 0",
            "01-059\tno such sheet\tcsv_sheet\t22222c2237220d0a2222\t1\t54\t-\t4b\t9\trefused 30 0 0",
        ] {
            let (_, asked, answer) = parse_request(line).unwrap();
            assert_eq!(asked.answer(), answer, "{line}");
        }
    }

    #[test]
    fn a_bad_line_is_not_read() {
        for line in [
            "",
            "01-001\ta pair",
            "01-001\ta pair\tpair\t8140\t40\t2121",
            "1\t2\tlook\t-\tok",
        ] {
            assert!(parse_request(line).is_err(), "{line}");
        }
    }
}
