//! Keywords drawn: under a suffix, and with one byte in brackets.

use crate::text::{hex, text};

/// A column of a drawing: in hex, and as text.
type Cell = (String, char);

/// A suffix with n further bytes, and under it a keyword that ends with the last of them. The bar is the suffix's end.
/// The text stands beside the hex where all of both is text.
pub fn under(suffix: &[u8], n: usize, number: usize, word: &[u8]) -> [String; 2] {
    let left = suffix.len().max(word.len().saturating_sub(n));
    let name = format!("keyword {number}");
    let as_text = text(suffix).and(text(word)).is_some();
    let above = [blank(left - suffix.len()), known(suffix), vec![("..".to_string(), '.'); n]].concat();
    let below = [blank(left + n - word.len()), known(word)].concat();
    [("suffix", above), (&name, below)].map(|(label, cells)| {
        let (hexes, texts) = barred(&cells, left);
        let behind = if as_text { format!("    {texts}") } else { String::new() };
        format!("{label:<0$}  {hexes}{behind}", name.len()).trim_end().to_string()
    })
}

/// Columns in which nothing stands.
fn blank(n: usize) -> Vec<Cell> {
    vec![("  ".to_string(), ' '); n]
}

/// Columns in which bytes stand.
fn known(bytes: &[u8]) -> Vec<Cell> {
    bytes.iter().map(|&byte| (format!("{byte:02x}"), char::from(byte))).collect()
}

/// A line of columns in hex and as text, with the bar behind so many of them.
fn barred(cells: &[Cell], left: usize) -> (String, String) {
    let mut hexes: Vec<&str> = cells.iter().map(|(hex, _)| hex.as_str()).collect();
    let mut texts: Vec<char> = cells.iter().map(|&(_, text)| text).collect();
    hexes.insert(left, "|");
    texts.insert(left, '|');
    (hexes.join(" "), texts.into_iter().collect())
}

/// A keyword in hex and as text, empty where it has none, each with the byte of a place in brackets.
pub fn bracketed(word: &[u8], at: usize) -> [String; 2] {
    let [before, byte, behind] = [&word[..at], &word[at..=at], &word[at + 1..]];
    let hexes = format!("{} [{}] {}", hex(before), hex(byte), hex(behind));
    let texts = text(word).map(|text| format!("{}[{}]{}", &text[..at], &text[at..=at], &text[at + 1..]));
    [hexes.trim().to_string(), texts.unwrap_or_default()]
}
