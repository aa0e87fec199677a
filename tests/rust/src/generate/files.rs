//! Recipes for the commercial centre's files: valid ones, ones with a fault in a known place,
//! extreme and damaged ones.

use super::damage::damage;
use super::random::Random;
use super::words;
use crate::{csv_sheet, unpaired, Given, SHEET_LIMIT};
use std::ops::RangeInclusive;

/// A line to be: its items, without their quotes.
type Items = Vec<Vec<u8>>;

/// A file to be.
struct Draft {
    version: Items,
    heading: Items,
    rows: Vec<Items>,
}

type FaultInColumn = fn(&mut Random, &mut Draft, usize);
type Fault = fn(&mut Random, &mut Draft);
type Recipe = fn(&mut Random) -> Vec<u8>;

/// So many columns the papers name.
const COLUMNS: usize = 45;
/// The columns that feed keys: those of the header, which all rows of a number share, and the others.
const HEADER_COLUMNS: [usize; 6] = [8, 9, 10, 11, 12, 21];
const ROW_COLUMNS: [usize; 11] = [20, 24, 25, 29, 30, 31, 34, 35, 36, 37, 41];
const NUMBER: usize = 7;

#[rustfmt::skip]
const NUMBERS: &[&str] = &["1", "2", "3", "01", "10", "", "000000001", "1 ", "\"1\"", "A"];
const SEXES: &[&str] = &["1", "2", "3", "M", "F", "O", "U"];
const CLASSES: &[&str] = &["1", "2", "I", "O"];
const FORMS: &[&str] = &["U", "E", "L", "O", ">", "<", ">=", "<=", "=", "<>"];

/// Counts that are none, and such as no row has.
#[rustfmt::skip]
const BAD_COUNTS: &[&[u8]] = &[
    b"", b"0", b"6", b"06", b"+45", b"-45", b" 45", b"45 ", b"45.", b"4.5", b"x", b"\"45\"", b"0x2D",
    b"\x82\x53\x82\x54", b"44", b"46", b"7", b"340282366920938463463374607431768211501",
    b"99999999999999999999",
];

/// Items that cannot be converted. One with a quote stands as it is read, not doubled.
#[rustfmt::skip]
const UNCONVERTIBLE: &[&[u8]] = &[
    b"\xB1\xB2\xB3", b"\xA1", b"\xDF", b"\xA0", b"\x80", b"\xFF", b"\xF0\x40", b"\xFC\xFC", b"\x81",
    b"\x93\xFA\x93", b"\x81\x7F", b"\x81\x3F", b"\x81\xFD", b"\xEF ", b"\x9F\"", b"\x7F", b"\t", b"\0",
    b"\x1B$BF|\x1B(B", b"a\r\nb", b"\n", b"\r", b"\x1A",
];

/// What stands somewhere in a file, and what breaks the quoting there, or the count of columns.
#[rustfmt::skip]
const MISQUOTED: &[(&[u8], &[u8])] = &[
    (b"\",\"", b"\",,\""), (b"\",\"", b"\" ,\""), (b"\",\"", b"\", \""), (b"\",\"", b"\",x,\""),
    (b"\",\"", b"\"x,\""), (b"\",\"", b",\""), (b"\",\"", b"\","), (b"\",\"", b"\"\""),
    (b"\",\"", b"\"\t\""), (b"\",\"", b"\"\r\n"), (b"\"\r\n\"", b"\"\n\""), (b"\"\r\n\"", b"\"\r\""),
    (b"\"\r\n\"", b"\"\n\r\""), (b"\"\r\n\"", b"\",\r\n\""), (b"\"\r\n\"", b"\"\r\n\r\n\""),
    (b"\"\r\n\"", b"\" \r\n\""), (b"\"\r\n\"", b"\"\r\n \""), (b"\"\r\n\"", b"\r\n\""),
    (b"\"\r\n\"", b"\"\r\n"), (b"\"\r\n\"", b"\"\",\r\n\""), (b"\"\r\n\"", b"\"\"\""),
];

/// What may stand before a file's first line and behind its last.
const BEFORE: &[&[u8]] = &[b"\xEF\xBB\xBF", b" ", b"\r\n", b"\"", b","];
#[rustfmt::skip]
const BEHIND: &[&[u8]] = &[
    b"\r\n", b"\r\n\r\n", b"\r", b"\n", b"\x1A", b"\r\n\x1A", b",", b"\"", b" ", b"\r\n\"", b"\r\n,",
    b"\r\n\"\"", b"\0",
];

const FRAGMENTS: &[&[u8]] = &[b"", b"\r\n", b"\"", b"\"\"", b"\"\",\"\"", b"\"\"\r\n"];

/// Texts of the caller that break the sheet: aimed at 41, 42 and 43.
#[rustfmt::skip]
const BAD_BYTES: &[&[u8]] = &[
    b"x\r", b"\r\n", b"\x1B$B", b"\x1B$BF|", b"\x1B(B", b"\xB1", b"\x00", b"\x7F", b"K\n\x1B$BF",
];
const BAD_LINES: &[&[u8]] = &[
    b"K\n",
    b"T\nsent=20240401093000",
    b"20240401093000\ncontrol=K",
    b"K\npatient=P7",
];
const BAD_VALUES: &[&[u8]] = &[
    b"",
    b"\"\"",
    b"\n",
    b"xxxxxxxxxxxxxxxxxxxxx",
    b"20230229000000",
];

/// What can go wrong in a column that feeds a key.
const FAULTS_IN_COLUMNS: &[FaultInColumn] = &[empty, quotes, misvalue, misvalue, misspell];

/// What else can go wrong in a draft. Faults that break up the lines come last.
#[rustfmt::skip]
const FAULTS: &[Fault] = &[
    spoil_bytes, spoil_bytes, lengthen_text, mismatch_outcome, differ_in_header, differ_in_header,
    number_returns, number_returns_otherwise, spoil_row_count, cut_columns, spoil_count,
];

#[rustfmt::skip]
const RECIPES: &[Recipe] = &[
    valid, valid, valid, respelled, without_rows, misquoted, misquoted, misended, two_faults, damaged,
    damaged, fragment,
];

/// The file of a turn, for a call that writes no sheet. In each round every fault and every recipe has
/// its turn, and last one with many numbers; round by round the faults in columns go on to the next
/// column.
pub fn file(turn: usize, random: &mut Random) -> Vec<u8> {
    file_or(turn, random, |_, random| many_numbers(random))
}

/// The file of a turn, for a call that writes a sheet: last in each round is one of the sheet's limits.
pub fn file_for_sheets(turn: usize, random: &mut Random) -> Vec<u8> {
    file_or(turn, random, at_limit)
}

fn file_or(turn: usize, random: &mut Random, last: fn(usize, &mut Random) -> Vec<u8>) -> Vec<u8> {
    const TURNS: usize = FAULTS_IN_COLUMNS.len() + FAULTS.len() + RECIPES.len() + 1;
    let (round, turn) = (turn / TURNS, turn % TURNS);
    if let Some(fault) = FAULTS_IN_COLUMNS.get(turn) {
        return with_fault_in_column(random, round, fault);
    }
    let turn = turn - FAULTS_IN_COLUMNS.len();
    if let Some(&fault) = FAULTS.get(turn) {
        return with_faults(random, &[fault]);
    }
    match RECIPES.get(turn - FAULTS.len()) {
        Some(recipe) => recipe(random),
        None => last(round, random),
    }
}

fn valid(random: &mut Random) -> Vec<u8> {
    Draft::new(random).to_bytes(random)
}

fn with_fault_in_column(random: &mut Random, round: usize, fault: &FaultInColumn) -> Vec<u8> {
    let key_columns = [&HEADER_COLUMNS[..], &ROW_COLUMNS].concat();
    let mut draft = Draft::new(random);
    fault(random, &mut draft, key_columns[round % key_columns.len()]);
    draft.to_bytes(random)
}

fn with_faults(random: &mut Random, faults: &[Fault]) -> Vec<u8> {
    let mut draft = Draft::new(random);
    for fault in faults {
        fault(random, &mut draft);
    }
    draft.to_bytes(random)
}

/// Two faults in one file: the refusal that looks at the file earlier is to be given.
fn two_faults(random: &mut Random) -> Vec<u8> {
    let mut turns = [(); 2].map(|()| random.below(FAULTS.len()));
    turns.sort_unstable();
    let mut file = with_faults(random, &turns.map(|turn| FAULTS[turn]));
    if random.one_in(4) {
        misquote(random, &mut file);
    }
    file
}

/// Rows whose keys are equal, each written in its own way.
fn respelled(random: &mut Random) -> Vec<u8> {
    let mut draft = Draft::new(random);
    for row in &mut draft.rows {
        respell(random, row);
    }
    draft.to_bytes(random)
}

/// A file without a row is good and has no sheet, whatever its count of columns.
fn without_rows(random: &mut Random) -> Vec<u8> {
    let mut draft = Draft::new(random);
    draft.rows.clear();
    if random.one_in(2) {
        spoil_count(random, &mut draft);
    }
    draft.to_bytes(random)
}

/// Aims at 50.
fn misquoted(random: &mut Random) -> Vec<u8> {
    let mut file = valid(random);
    misquote(random, &mut file);
    file
}

/// Aims at 50 at both ends of the file.
fn misended(random: &mut Random) -> Vec<u8> {
    let mut file = valid(random);
    match random.below(4) {
        0 => file = [random.pick(BEFORE), &file].concat(),
        1 => file.truncate(random.within(0..=file.len())),
        _ => file.extend(random.pick(BEHIND)),
    }
    file
}

fn damaged(random: &mut Random) -> Vec<u8> {
    let mut file = valid(random);
    damage(random, &mut file, b'\n');
    file
}

/// Nothing, a lone line end, quotes alone, or the first lines.
fn fragment(random: &mut Random) -> Vec<u8> {
    if random.one_in(2) {
        return random.pick(FRAGMENTS).to_vec();
    }
    let draft = Draft::new(random);
    let lines = [draft.version, draft.heading];
    let mut file = to_bytes(&lines[..random.within(1..=2)]);
    if random.one_in(2) {
        file.truncate(file.len() - 2);
    }
    file
}

/// Rows of few columns, with hundreds of numbers that are much alike. All may return, and some at any
/// place, with the patient of the others or with another.
fn many_numbers(random: &mut Random) -> Vec<u8> {
    let (first, step) = (
        random.below(100_000),
        random.pick(&[1, 9, 10, 256, 1_000, 65_536]),
    );
    let of_one_weight = random.one_in(3);
    let row = |number: usize| {
        let mut row = vec![Vec::new(); NUMBER];
        row[NUMBER - 1] = match of_one_weight {
            true => number_of_one_weight(number),
            false => (first + number * step).to_string().into(),
        };
        row
    };
    let count = match of_one_weight {
        true => random.within(100..=1_000),
        false => random.within(100..=300),
    };
    let mut rows: Vec<Items> = (0..count).map(row).collect();
    if random.one_in(4) {
        rows.extend(rows.clone());
    }
    for _ in 0..random.below(4) {
        let mut returning = row(random.below(count));
        if random.one_in(2) {
            returning.push(b"another".to_vec());
        }
        rows.insert(random.within(0..=rows.len()), returning);
    }
    let columns = rows.iter().map(Vec::len).max().unwrap_or(NUMBER);
    for row in &mut rows {
        row.resize(columns, Vec::new());
    }
    let draft = Draft {
        version: version(columns).into(),
        heading: vec![Vec::new()],
        rows,
    };
    draft.to_bytes(random)
}

/// One of 1,024 texts that a table by a hash may take for the same: its parts weigh alike in their last
/// 15 bits, and each with one of the others in 32, where all before a byte, and the byte, count
/// 2,654,435,769 times more with each byte.
fn number_of_one_weight(number: usize) -> Vec<u8> {
    const PARTS: [&[u8]; 4] = [b"al0YIz", b"gh8XDn", b"aQGeIz", b"gMOdDn"];
    let parts = (0..5).map(|place| PARTS[number >> (2 * place) & 3]);
    parts.flatten().copied().collect()
}

/// Meets the limit of the sheet from both sides, with files that make still longer ones and such as
/// have many numbers between.
fn at_limit(round: usize, random: &mut Random) -> Vec<u8> {
    let length = match round % 6 {
        0 => SHEET_LIMIT,
        2 => SHEET_LIMIT + 1,
        4 => random.within(SHEET_LIMIT + 2..=SHEET_LIMIT + 2_000),
        _ => return many_numbers(random),
    };
    for_sheet_of_length(random, length)
}

/// A file of one number, whose sheet has just so many bytes with the shortest texts of the caller.
fn for_sheet_of_length(random: &mut Random, length: usize) -> Vec<u8> {
    const ROWS: usize = 200;
    let mut first = vec![Vec::new(); COLUMNS - random.below(5)];
    fill_header(random, &mut first);
    fill_specimen(random, &mut first);
    fill_order(random, &mut first);
    for (column, value) in [(31, "3B035"), (34, "F"), (35, "a"), (37, "U/L")] {
        first[column - 1] = value.into();
    }
    first[29 - 1] = text_of(random, 48);
    let mut draft = Draft {
        version: version(first.len()).into(),
        heading: vec![Vec::new()],
        rows: vec![first; ROWS],
    };
    let shortest = csv_sheet(&draft.to_bytes(random), 1, &shortest_given(), usize::MAX);
    let mut more = length.saturating_sub(shortest.map_or(0, |sheet| sheet.len()));
    for row in &mut draft.rows {
        let letters = more.min(199);
        row[35 - 1].extend(std::iter::repeat_n(b'a', letters));
        more -= letters;
    }
    draft.to_bytes(random)
}

/// Whether the sheet of a file may meet its limit.
fn is_large(file: &[u8]) -> bool {
    file.len() > SHEET_LIMIT
}

/// The caller's texts that make the shortest sheet.
fn shortest_given() -> Given {
    Given {
        mode: b"T".to_vec(),
        sent: b"20240401093000".to_vec(),
        control: b"K".to_vec(),
    }
}

/// The caller's texts: mostly good, and the shortest where the limit of the sheet may be met; sometimes
/// one that breaks the sheet.
pub fn some_given(random: &mut Random, file: &[u8]) -> Given {
    let mut given = match is_large(file) {
        true => shortest_given(),
        false => Given {
            mode: words::word(random, words::MODES),
            sent: words::time(random),
            control: words::text(random, 1..=20),
        },
    };
    if random.one_in(6) {
        let bad = random.pick(&[BAD_BYTES, BAD_LINES, BAD_VALUES]);
        let bad = random.pick(bad).to_vec();
        match random.below(4) {
            0 => given.mode = bad,
            1 => given.sent = bad,
            _ => given.control = bad,
        }
    }
    if random.one_in(100) {
        given.control = vec![b'K'; random.within(SHEET_LIMIT - 2_000..=SHEET_LIMIT)];
    }
    given
}

/// A place in a file: mostly where the first row begins or another line, often amid one, sometimes at
/// the end or past it.
pub fn some_place(random: &mut Random, file: &[u8]) -> usize {
    const FAR_OFF: [usize; 3] = [1 << 20, usize::MAX - 1, usize::MAX];
    let ends = file.windows(2).enumerate();
    let mut lines: Vec<usize> = ends
        .filter(|(_, two)| two == b"\r\n")
        .map(|(at, _)| at + 2)
        .collect();
    lines.push(0);
    let first_row = lines.get(1).copied().unwrap_or(0);
    match random.below(16) {
        _ if is_large(file) && !random.one_in(4) => first_row,
        0 => file.len() + random.below(3),
        1 => random.pick(&FAR_OFF),
        2 | 3 => random.within(0..=file.len()),
        4 => random.pick(&lines).saturating_sub(random.within(1..=6)),
        5 => random.pick(&lines) + random.within(1..=6),
        6..=10 => first_row,
        _ => random.pick(&lines),
    }
}

impl Draft {
    /// A file that keeps every rule.
    fn new(random: &mut Random) -> Self {
        let mut numbers = NUMBERS.to_vec();
        let mut rows = Vec::new();
        for _ in 0..random.pick(&[1, 1, 2, 2, 4]) {
            let number = numbers.swap_remove(random.below(numbers.len()));
            rows.extend(rows_of_number(random, number));
        }
        let columns = random.pick(&[45, 45, 45, 41, 46, 60, 37]);
        for row in &mut rows {
            row.truncate(columns);
            while row.len() < columns {
                row.push(text(random, 0..=8));
            }
        }
        let headings = random.pick(&[columns, 1, 9]);
        Self {
            version: version(columns).into(),
            heading: (0..headings).map(|_| text(random, 0..=12)).collect(),
            rows,
        }
    }

    /// Mostly with a CR LF behind the last line.
    fn to_bytes(&self, random: &mut Random) -> Vec<u8> {
        let mut file = to_bytes(&[self.version.clone(), self.heading.clone()]);
        file.extend(to_bytes(&self.rows));
        if random.one_in(4) {
            file.truncate(file.len() - 2);
        }
        file
    }

    fn some_row(&self, random: &mut Random) -> usize {
        random.below(self.rows.len())
    }

    /// Changes a column of a row, where it has it; one of the header in every row of its number.
    fn change(&mut self, at: usize, column: usize, change: impl Fn(&mut Vec<u8>)) {
        let number = self.rows[at][NUMBER - 1].clone();
        let of_header = HEADER_COLUMNS.contains(&column);
        for (place, row) in self.rows.iter_mut().enumerate() {
            let concerned = place == at || (of_header && row[NUMBER - 1] == number);
            if let (true, Some(item)) = (concerned, row.get_mut(column - 1)) {
                change(item);
            }
        }
    }
}

/// The items of the version line.
fn version(columns: usize) -> [Vec<u8>; 3] {
    ["Ver1.00", &columns.to_string(), "20140318"].map(Vec::from)
}

fn to_bytes(lines: &[Items]) -> Vec<u8> {
    let mut bytes = Vec::new();
    for items in lines {
        for (column, item) in items.iter().enumerate() {
            if column > 0 {
                bytes.push(b',');
            }
            write_quoted(item, &mut bytes);
        }
        bytes.extend(b"\r\n");
    }
    bytes
}

fn write_quoted(item: &[u8], to: &mut Vec<u8>) {
    to.push(b'"');
    for &byte in item {
        to.push(byte);
        if byte == b'"' {
            to.push(byte);
        }
    }
    to.push(b'"');
}

/// Some specimens with their orders and results. One of an earlier specimen or order may come again,
/// next to it or not.
fn rows_of_number(random: &mut Random, number: &str) -> Vec<Items> {
    let mut first = vec![Vec::new(); COLUMNS];
    for item in &mut first {
        if random.one_in(6) {
            *item = text(random, 0..=20);
        }
    }
    first[NUMBER - 1] = number.into();
    fill_header(random, &mut first);
    let mut rows: Vec<Items> = Vec::new();
    for _ in 0..random.pick(&[1, 1, 2, 3, 4]) {
        let mut row = match rows.len() {
            0 => first.clone(),
            count => rows[random.below(count)].clone(),
        };
        if rows.is_empty() || random.one_in(4) {
            fill_specimen(random, &mut row);
        }
        if rows.is_empty() || random.one_in(3) {
            fill_order(random, &mut row);
        }
        fill_result(random, &mut row);
        rows.push(row);
    }
    rows
}

fn fill_header(random: &mut Random, row: &mut Items) {
    row[8 - 1] = text(random, 1..=20);
    row[9 - 1] = name(random);
    row[10 - 1] = match random.below(3) {
        0 => Vec::new(),
        _ => name(random),
    };
    row[11 - 1] = match random.below(3) {
        0 => Vec::new(),
        _ => words::date(random),
    };
    row[12 - 1] = words::word(random, SEXES);
    row[21 - 1] = words::word(random, CLASSES);
}

fn fill_specimen(random: &mut Random, row: &mut Items) {
    row[24 - 1] = words::time(random);
    row[25 - 1] = words::digits(random, 3);
}

fn fill_order(random: &mut Random, row: &mut Items) {
    let digits = random.pick(&[1, 2, 9, 14, 15, 15]);
    row[20 - 1] = words::digits(random, digits);
    row[30 - 1] = words::code(random, 8);
}

fn fill_result(random: &mut Random, row: &mut Items) {
    row[29 - 1] = text(random, 0..=48);
    row[31 - 1] = words::code(random, 17);
    row[37 - 1] = text(random, 0..=20);
    row[41 - 1] = words::word(random, words::FLAGS);
    let (value, form, status): (Vec<u8>, &str, &[&str]) = match random.below(8) {
        0 => (Vec::new(), random.pick(&["", "B"]), &["I", "X"]),
        1 => (
            text(random, 1..=60),
            random.pick(&["", "B"]),
            &["F", "P", "C"],
        ),
        2 | 3 => (words::number(random), random.pick(FORMS), &["F", "P", "C"]),
        _ => (words::number(random), random.pick(&["", "", "B"]), &["F"]),
    };
    row[35 - 1] = value;
    row[36 - 1] = form.into();
    row[34 - 1] = words::word(random, status);
}

/// Family and given name with a blank, a full-width one, two or none between them.
fn name(random: &mut Random) -> Vec<u8> {
    let blank = random.pick(&[b" " as &[u8], b" ", b" ", b"\x81\x40", b"  ", b""]);
    let (pairs, more) = (random.within(1..=6), random.within(0..=6));
    match random.below(4) {
        0 => [b"Hara" as &[u8], blank, b"Jun"].concat(),
        _ => [&kanji(random, pairs), blank, &kanji(random, more)].concat(),
    }
}

/// A text whose length as a sheet has it, shift bytes counted, lies within the range.
fn text(random: &mut Random, lengths: RangeInclusive<usize>) -> Vec<u8> {
    let length = random.within(lengths);
    text_of(random, length)
}

/// A text of just so many bytes as a sheet has it, and not `""`.
fn text_of(random: &mut Random, length: usize) -> Vec<u8> {
    let mut text = Vec::new();
    let mut left = length;
    while left > 0 {
        if left >= 9 && random.one_in(10) {
            let pairs = random.within(1..=(left - 7).min(12) / 2);
            text.extend(kanji(random, pairs));
            left -= 6 + 2 * pairs;
        }
        text.push(match random.below(8) {
            0 => random.pick(b"\",\"\\~"),
            _ => words::letter(random),
        });
        left -= 1;
    }
    if text == b"\"\"" {
        text[0] = b',';
    }
    text
}

/// So many characters of two bytes, at the edges of the ranges as often as not.
fn kanji(random: &mut Random, count: usize) -> Vec<u8> {
    const LEADS: &[u8] = &[0x81, 0x82, 0x9E, 0x9F, 0xE0, 0xE1, 0xEE, 0xEF];
    const TRAILS: &[u8] = &[0x40, 0x5C, 0x7C, 0x7E, 0x80, 0x9E, 0x9F, 0xFB, 0xFC];
    let character = |random: &mut Random| match random.below(2) {
        0 => [random.pick(LEADS), random.pick(TRAILS)],
        _ => unpaired([0; 2].map(|_| random.within(0x21..=0x7E) as u8)),
    };
    (0..count).flat_map(|_| character(random)).collect()
}

/// Writes the keys of a row in another way.
fn respell(random: &mut Random, row: &mut Items) {
    let column = |row: &Items, number: usize| row.get(number - 1).cloned().unwrap_or_default();
    #[rustfmt::skip]
    const ALIKE: &[(usize, &[u8], &[u8])] = &[
        (12, b"1", b"M"), (12, b"2", b"F"), (12, b"3", b"O"), (21, b"1", b"I"), (21, b"2", b"O"),
        (36, b"U", b">="), (36, b"L", b"<"),
    ];
    for &(number, one, other) in ALIKE {
        let item = column(row, number);
        if random.one_in(2) && item == one {
            row[number - 1] = other.to_vec();
        } else if random.one_in(2) && item == other {
            row[number - 1] = one.to_vec();
        }
    }
    for number in [9, 10] {
        if random.one_in(2) && !column(row, number).contains(&b' ') {
            row[number - 1].push(b' ');
        }
    }
    let order = column(row, 20);
    if random.one_in(2) && order.len() < 15 {
        row[20 - 1] = [vec![b'0'; random.within(1..=15 - order.len())], order].concat();
    }
}

/// Aims at 43: a value that belongs elsewhere.
fn misvalue(random: &mut Random, draft: &mut Draft, column: usize) {
    let at = draft.some_row(random);
    let value = match random.below(4) {
        0 => random
            .pick(&["1", "2", "3", "4", "B", "U", "Z", "D", "<", "42"])
            .into(),
        _ => words::nearly(random),
    };
    draft.change(at, column, |item| item.clone_from(&value));
}

/// Aims at 43: something put in at an end of the value.
fn misspell(random: &mut Random, draft: &mut Draft, column: usize) {
    let at = draft.some_row(random);
    let put_in = random.pick(&[
        b" " as &[u8],
        b"0",
        b"A",
        b"a",
        b"=",
        b"\"",
        b"\x81\x40",
        b".",
    ]);
    let behind = random.one_in(2);
    draft.change(at, column, |item| {
        let place = if behind { item.len() } else { 0 };
        item.splice(place..place, put_in.iter().copied());
    });
}

/// Aims at 43: the text `""`.
fn quotes(random: &mut Random, draft: &mut Draft, column: usize) {
    let at = draft.some_row(random);
    draft.change(at, column, |item| *item = b"\"\"".to_vec());
}

/// Aims at 43 where a value is required.
fn empty(random: &mut Random, draft: &mut Draft, column: usize) {
    let at = draft.some_row(random);
    draft.change(at, column, Vec::clear);
}

/// Aims at 43: a text as long as may be, or by a byte longer.
fn lengthen_text(random: &mut Random, draft: &mut Draft) {
    let limits = [(8, 20), (9, 48), (10, 48), (29, 48), (35, 200), (37, 20)];
    let (column, limit) = random.pick(&limits);
    let length = limit + random.below(2);
    let mut value = text_of(random, length);
    if column == 9 || column == 10 {
        // no pair has a byte 20
        for blank in value.iter_mut().filter(|byte| **byte == b' ') {
            *blank = b'-';
        }
        if random.one_in(2) {
            value.splice(0..0, *b"a ");
        }
    }
    let at = draft.some_row(random);
    draft.change(at, column, |item| item.clone_from(&value));
    if column == 35 {
        draft.change(at, 36, Vec::clear);
        draft.change(at, 34, |status| *status = b"F".to_vec());
    }
}

/// Aims at 43 in compare, value, second and status.
fn mismatch_outcome(random: &mut Random, draft: &mut Draft) {
    let at = draft.some_row(random);
    let outcome = words::odd_outcome(random);
    let form = random.pick(&["", "B", "U", "Z", "b", ">", "\"\"", "UU", " "]);
    draft.change(at, 34, |status| *status = outcome.status.into());
    draft.change(at, 35, |value| value.clone_from(&outcome.parts[1]));
    draft.change(at, 36, |item| *item = form.into());
}

/// Aims at 52, in any item of the file.
fn spoil_bytes(random: &mut Random, draft: &mut Draft) {
    let at = draft.some_row(random);
    let line = match random.below(8) {
        0 => &mut draft.version,
        1 => &mut draft.heading,
        _ => &mut draft.rows[at],
    };
    let column = random.below(line.len());
    let item = &mut line[column];
    let place = random.pick(&[0, item.len()]);
    item.splice(place..place, random.pick(UNCONVERTIBLE).iter().copied());
}

/// Aims at 51: the count is none, or missing, or not the rows', such as one that would wrap to it.
/// With zeros before it and in a line of two items it is still good.
fn spoil_count(random: &mut Random, draft: &mut Draft) {
    let columns = draft.rows.first().map_or(COLUMNS, Vec::len);
    let wrapping = (1_u128 << random.pick(&[8, 16, 32, 64])) + columns as u128;
    let [version, count, date] = version(columns);
    draft.version = match random.below(8) {
        0 => vec![version],
        1 => vec![version, count],
        2 => vec![version, [b"000".to_vec(), count].concat(), date],
        3 => vec![version, wrapping.to_string().into(), date],
        _ => vec![version, random.pick(BAD_COUNTS).to_vec(), date],
    };
}

/// Aims at 51: a row of one more or less.
fn spoil_row_count(random: &mut Random, draft: &mut Draft) {
    let at = draft.some_row(random);
    match random.below(2) {
        0 => draft.rows[at].push(Vec::new()),
        _ => drop(draft.rows[at].pop()),
    }
}

/// Aims at 53: another value of a header column in one row of a number.
fn differ_in_header(random: &mut Random, draft: &mut Draft) {
    let at = draft.some_row(random);
    let mut row = draft.rows[at].clone();
    let column = random.pick(&HEADER_COLUMNS);
    let item = &mut row[column - 1];
    match (random.below(4), item.last_mut()) {
        (0, Some(last @ b' '..=b'~')) => *last = random.pick(b"xX012"),
        (0 | 1, _) => item.push(random.pick(b" xX0")),
        (2, _) => item.clear(),
        _ => *item = random.pick(&["1", "2", "M", "20000101", "P 7", "I"]).into(),
    }
    let behind = random.within(0..=1);
    draft.rows.insert(at + behind, row);
}

/// Aims at 54: a row comes again, behind another number.
fn number_returns(random: &mut Random, draft: &mut Draft) {
    let row = draft.rows[draft.some_row(random)].clone();
    let mut between = draft.rows[draft.some_row(random)].clone();
    between[NUMBER - 1] = words::word(random, &["between", "1", "2", ""]);
    draft.rows.extend([between, row]);
    if random.one_in(2) {
        let more = draft.rows[draft.some_row(random)].clone();
        draft.rows.push(more);
    }
}

/// Aims at 53 where 54 would be met, too.
fn number_returns_otherwise(random: &mut Random, draft: &mut Draft) {
    number_returns(random, draft);
    let column = random.pick(&HEADER_COLUMNS);
    if let Some(row) = draft.rows.last_mut() {
        row[column - 1].extend(b"1");
    }
}

/// Fewer columns: those past the count are blank. With six it is 51.
fn cut_columns(random: &mut Random, draft: &mut Draft) {
    let some = random.within(NUMBER..=40);
    let columns = random.pick(&[6, 7, 33, 34, some, some]);
    for row in &mut draft.rows {
        row.truncate(columns);
    }
    draft.version = version(columns).into();
}

fn misquote(random: &mut Random, file: &mut Vec<u8>) {
    let (found, put) = random.pick(MISQUOTED);
    let places: Vec<usize> = file
        .windows(found.len())
        .enumerate()
        .filter(|(_, stretch)| *stretch == found)
        .map(|(at, _)| at)
        .collect();
    if !places.is_empty() {
        let at = random.pick(&places);
        file.splice(at..at + found.len(), put.iter().copied());
    }
}
