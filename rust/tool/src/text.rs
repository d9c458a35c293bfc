//! How names, keywords, percentages and tables look.

use std::path::Path;

/// A name from an argument or a file, with nothing in it that a terminal would obey.
pub fn shown_name(name: &Path) -> String {
    plain(&name.to_string_lossy())
}

/// Text with its control characters, and those that turn the direction of writing, as escapes.
pub fn plain(text: &str) -> String {
    let mut shown = String::new();
    for c in text.chars() {
        match c {
            c if c.is_ascii_control() => shown.push_str(&format!("\\x{:02x}", u32::from(c))),
            '\u{200e}' | '\u{200f}' | '\u{2028}' | '\u{2029}' | '\u{202a}'..='\u{202e}' | '\u{2066}'..='\u{2069}' => {
                shown.extend(c.escape_unicode());
            }
            c if c.is_control() => shown.extend(c.escape_unicode()),
            c => shown.push(c),
        }
    }
    shown
}

/// A name as a shell reads it back.
pub fn shell_name(name: &Path) -> String {
    shell_word(&name.to_string_lossy())
}

/// An argument as a shell reads it back.
pub fn shell_word(argument: &str) -> String {
    let text = plain(argument);
    let bare = |c: char| c.is_alphanumeric() || matches!(c, '/' | '.' | '-' | '_' | '+' | ',' | ':' | '@' | '%' | '=');
    match !text.is_empty() && text.chars().all(bare) {
        true => text,
        false => format!("'{}'", text.replace('\'', "'\\''")),
    }
}

/// Bytes in hex, with a space between.
pub fn hex(bytes: &[u8]) -> String {
    bytes.iter().map(|b| format!("{b:02x}")).collect::<Vec<_>>().join(" ")
}

/// Bytes as text, where each is printable ASCII.
pub fn text(bytes: &[u8]) -> Option<String> {
    bytes.iter().all(|b| matches!(b, b' '..=b'~')).then(|| String::from_utf8_lossy(bytes).into_owned())
}

/// A keyword in a sentence: its bytes, and its text where it has one.
pub fn shown(word: &[u8]) -> String {
    match text(word) {
        Some(text) => format!("{} ({text})", hex(word)),
        None => hex(word),
    }
}

/// A row's suffix in a sentence.
pub fn suffix(word: &[u8]) -> String {
    match word {
        [] => "the empty suffix".to_string(),
        _ => format!("suffix {}", shown(word)),
    }
}

/// A number of things.
pub fn counted(n: usize, thing: &str) -> String {
    match n {
        1 => format!("1 {thing}"),
        _ => format!("{n} {thing}s"),
    }
}

/// A part of a whole in percent, rounded to one decimal, but 100.0 for the whole alone; no number where the whole is 0.
pub fn percent(part: u64, whole: u64) -> String {
    if whole == 0 {
        return "-".to_string();
    }
    let rounded = (u128::from(part) * 2000 + u128::from(whole)) / (2 * u128::from(whole));
    let tenths = if part < whole { rounded.min(999) } else { rounded };
    format!("{}.{}", tenths / 10, tenths % 10)
}

/// Lines of cells as one text, each column as wide as its widest cell. The columns named `left` are put to the left,
/// the others to the right.
pub fn columns(lines: &[Vec<String>], left: &[&str]) -> String {
    let heads = lines.first().map_or(&[][..], |heads| heads);
    let cell = |line: &Vec<String>, i: usize| line.get(i).cloned().unwrap_or_default();
    let widths: Vec<usize> =
        (0..heads.len()).map(|i| lines.iter().map(|line| cell(line, i).chars().count()).max().unwrap_or(0)).collect();
    let mut text = String::new();
    for line in lines {
        let padded = heads.iter().enumerate().map(|(i, head)| match left.contains(&head.as_str()) {
            true => format!("{:<1$}", cell(line, i), widths[i]),
            false => format!("{:>1$}", cell(line, i), widths[i]),
        });
        text.push_str(padded.collect::<Vec<_>>().join("  ").trim_end());
        text.push('\n');
    }
    text
}

/// Cells as strings.
pub fn cells(cells: &[&str]) -> Vec<String> {
    cells.iter().map(|cell| cell.to_string()).collect()
}
