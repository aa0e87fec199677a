//! Quoting, judged on bytes (01.1 to 01.3): a file's lines and their items.

use super::kanji::converted;

const QUOTE: u8 = b'"';
/// The quotes around an item.
const QUOTES: usize = 2;

/// A line of the file.
pub struct Line<'f> {
    /// What stands between the quotes of each item; quotes inside are doubled still.
    pub items: Vec<&'f [u8]>,
    /// How many bytes the line has in the file, its CR LF too.
    pub size: usize,
}

impl<'f> Line<'f> {
    /// The line at the start of `rest`; none where it breaks the quoting. Behind a closing quote
    /// stands a comma and a further item, CR LF, or the end (01.2).
    fn read(rest: &'f [u8]) -> Option<Self> {
        let mut items = Vec::new();
        let mut size = 0;
        loop {
            let item = item(&rest[size..])?;
            items.push(item);
            size += item.len() + QUOTES;
            match rest[size..] {
                [] => return Some(Self { items, size }),
                [b'\r', b'\n', ..] => {
                    size += 2;
                    return Some(Self { items, size });
                }
                [b',', ..] => size += 1,
                _ => return None,
            }
        }
    }

    /// A column, counted from 1. One past the end is blank (01.7).
    pub fn column(&self, number: usize) -> &'f [u8] {
        self.items.get(number - 1).copied().unwrap_or_default()
    }

    /// The items converted; none where one cannot be.
    pub fn converted(&self) -> Option<Vec<Vec<u8>>> {
        self.items.iter().map(|item| converted(item)).collect()
    }
}

/// The lines of `file` in turn; the last one is none where it breaks the quoting. An empty file has
/// no line, and behind a CR LF at the end there is none.
pub fn lines(file: &[u8]) -> impl Iterator<Item = Option<Line<'_>>> {
    let mut rest = file;
    std::iter::from_fn(move || {
        if rest.is_empty() {
            return None;
        }
        let line = Line::read(rest);
        rest = line.as_ref().map_or(&[], |line| &rest[line.size..]);
        Some(line)
    })
}

/// What stands between the quotes of the item at the start of `rest`; none where there is no item
/// or it is never closed.
fn item(rest: &[u8]) -> Option<&[u8]> {
    let inside = rest.strip_prefix(&[QUOTE])?;
    let mut end = 0;
    loop {
        end += inside[end..].iter().position(|&byte| byte == QUOTE)?;
        match inside.get(end + 1) {
            Some(&QUOTE) => end += 2,
            _ => return Some(&inside[..end]),
        }
    }
}

#[cfg(test)]
mod tests {
    use super::*;

    fn items(line: &str) -> Option<Vec<&str>> {
        let line = Line::read(line.as_bytes())?;
        let items = line.items.iter();
        Some(items.map(|item| str::from_utf8(item).unwrap()).collect())
    }

    #[test]
    fn an_item_stands_between_quotes() {
        assert_eq!(items(r#""""#), Some(vec![""]));
        assert_eq!(items(r#""a","","b,c""#), Some(vec!["a", "", "b,c"]));
        assert_eq!(items(r#""a""b""#), Some(vec![r#"a""b"#]));
        assert_eq!(items(&"\"".repeat(3)), None);
        assert_eq!(items(&"\"".repeat(4)), Some(vec!["\"\""]));
        assert_eq!(items(&"\"".repeat(5)), None);
        assert_eq!(items("\"a\r\nb\"\r\n\"c\""), Some(vec!["a\r\nb"]));
    }

    #[test]
    fn all_else_breaks_the_quoting() {
        for line in [
            "a",
            "\"a",
            "\"a\",",
            "\"a\",\r\n",
            "\"a\" ",
            "\"a\" ,\"b\"",
            "\"a\", \"b\"",
            "\"a\"b\"",
            "\"a\"\r",
            "\"a\"\n",
            "\"a\"\r\r\n",
            "\"a\"\x1A",
            "\r\n",
            " \"a\"",
        ] {
            assert_eq!(items(line), None, "{line:?}");
        }
    }

    #[test]
    fn the_last_line_may_lack_its_end() {
        for (file, sizes) in [
            ("", vec![]),
            ("\"a\"", vec![Some(3)]),
            ("\"a\"\r\n", vec![Some(5)]),
            ("\"a\"\r\n\"b\"", vec![Some(5), Some(3)]),
            ("\"a\"\r\n\r\n", vec![Some(5), None]),
            ("\"a\"\r\nb\r\n\"c\"", vec![Some(5), None]),
        ] {
            let found: Vec<Option<usize>> = lines(file.as_bytes())
                .map(|line| line.map(|line| line.size))
                .collect();
            assert_eq!(found, sizes, "{file:?}");
        }
    }
}
