//! `explain`: how the largest numbers of a row or a byte are found, and which keyword stops each.

use super::tables::made;
use crate::arguments::Explain;
use crate::drawings::{bracketed, under};
use crate::faults::byte_shown;
use crate::files::{read_set, Input};
use crate::keywords::keywords;
use crate::records::{self, DEPTHS, EDGE, INNER};
use crate::searches::{search, shortest, Found};
use crate::text::{cells, columns, shown, shown_name, suffix};
use crate::written::{self, in_quotes, inside_quotes};
use crate::{Done, Failure, Notes};
use bezowik::sets::Keyword;
use bezowik::slow::{ends_within, holds_before};
use bezowik::{Table, ROW};
use std::io::Write;

/// What inner is of a suffix, and edge, and far of a byte.
const INNER_IS: &str = "the least n from 1 up such that some keyword has the suffix with exactly n bytes after it";
const EDGE_IS: &str =
    "the least n from 1 up such that some string made of the suffix and n further bytes ends with a keyword";
const FAR_IS: &str = "the least n from 1 up such that some keyword has the byte with exactly depth + n bytes after it";

/// What is said of a number that no keyword stopped.
const CAP: &str = "the cap, m";

/// The command. What is written wrong is told before a file is read, and nothing is printed unless all is found.
pub fn run(asked: &Explain, out: &mut dyn Write, notes: &mut Notes) -> Done {
    let byte = asked.byte.as_deref().map(written::byte).transpose()?;
    let argument = asked.suffix.as_deref().unwrap_or_default();
    let wanted = written::suffix(argument)?;
    let set = read_set(&asked.set, notes)?;
    let (table, keywords) = (made(&set)?, keywords(&set.bytes));
    let text = match byte {
        Some(byte) => of_byte(&keywords, &table, byte)?,
        None => of_row(&keywords, &table, row(&set, &table, &wanted, argument)?)?,
    };
    Ok(out.write_all(text.as_bytes())?)
}

/// The row of a suffix, or that it has none, and whether the argument has one as text.
fn row(set: &Input, table: &Table, wanted: &[u8], argument: &str) -> Result<usize, Failure> {
    let row = |v: &[u8]| table.rows.chunks_exact(ROW).position(|record| records::suffix(record) == Some(v));
    let told = || format!("{}: {} is no row: no keyword ends with it", shown_name(&set.name), suffix(wanted));
    match (row(wanted), row(argument.as_bytes())) {
        (Some(row), _) => Ok(row),
        (_, Some(_)) if inside_quotes(argument).is_none() => {
            Err(Failure::Refused(format!("{}; as text it is one: {}", told(), in_quotes(argument))))
        }
        _ => Err(Failure::Refused(told())),
    }
}

/// How the numbers of a row are found.
pub fn of_row(keywords: &[Keyword], table: &Table, row: usize) -> Result<String, Failure> {
    let record = &table.rows[ROW * row..ROW * (row + 1)];
    let v = records::suffix(record).unwrap_or_default();
    let inner = search(keywords, record[INNER], |word, n| holds_before(word, v, n))?;
    let edge = search(keywords, record[EDGE], |word, n| ends_within(word, v, n))?;
    let mut lines = vec![format!("row {row}: {}", suffix(v)), cap(keywords)];
    for (name, what, found) in [("inner", INNER_IS, &inner), ("edge", EDGE_IS, &edge)] {
        lines.extend([String::new(), format!("{name} = {}: {what}", found.n)]);
        lines.extend(tried(keywords, v, found));
    }
    if inner.keyword.is_none() || edge.keyword.is_none() {
        let (first, m) = shortest(keywords);
        lines.extend([String::new(), format!("at the cap keyword {first} stands whole behind the suffix:")]);
        lines.extend(under(v, m, first, &keywords[first].word).map(|line| format!("  {line}")));
    }
    Ok(lines.join("\n") + "\n")
}

/// The shortest keyword, above whose length no number is.
fn cap(keywords: &[Keyword]) -> String {
    let (first, m) = shortest(keywords);
    let word = shown(&keywords[first].word);
    format!("m = {m}: the shortest keyword is {first}, {word}, and no number is above its length")
}

/// The distances that are tried for a row's number, and the keyword that stops at the last.
fn tried(keywords: &[Keyword], v: &[u8], found: &Found) -> Vec<String> {
    let n = found.n;
    let mut lines: Vec<String> = (1..n).map(|n| format!("  n = {n}: no keyword")).collect();
    match found.keyword {
        None => lines.push(format!("  n = {n}: {CAP}")),
        Some(keyword) => {
            let word = &keywords[keyword].word;
            lines.push(format!("  n = {n}: keyword {keyword}, {}", shown(word)));
            lines.extend(under(v, n, keyword, word).map(|line| format!("    {line}")));
        }
    }
    lines
}

/// How the far numbers of a byte are found.
pub fn of_byte(keywords: &[Keyword], table: &Table, byte: u8) -> Result<String, Failure> {
    let mut lines = vec![cells(&["depth", "far", "no", "keyword", "text", "bytes after it"])];
    for depth in 0..DEPTHS {
        let number = table.bytes[DEPTHS * usize::from(byte) + depth];
        let found = search(keywords, number, |word, n| holds_before(word, &[byte], depth + n))?;
        lines.push(far_cells(keywords, depth, &found));
    }
    let table = columns(&lines, &["keyword", "text", "bytes after it"]);
    Ok(format!("byte {}\n{}\n\nfar at a depth: {FAR_IS}\n{table}", byte_shown(byte), cap(keywords)))
}

/// A far number as a line of the table.
fn far_cells(keywords: &[Keyword], depth: usize, found: &Found) -> Vec<String> {
    let numbers = vec![depth.to_string(), found.n.to_string()];
    let Some(keyword) = found.keyword else {
        return [numbers, cells(&["", "", "", CAP])].concat();
    };
    let word = &keywords[keyword].word;
    let [hexes, text] = bracketed(word, word.len() - 1 - depth - found.n);
    [numbers, vec![keyword.to_string(), hexes, text, format!("{depth} + {}", found.n)]].concat()
}
