//! The windows of a backward scan under a table that is not checked: how its numbers move the scan on, and which hits a wrong one loses. It
//! is the slow version's run; the library and the tool check every table first.
//!
//! usage: windows SET.bin ROWS.bin BYTES.bin TRACE.bin

use bezowik::sets::Keyword;
use bezowik::slow::{self, Way, Window};
use bezowik::{Table, BYTES, ROW};

/// A file that is an argument.
fn read(name: &str) -> Vec<u8> {
    std::fs::read(name).unwrap_or_else(|error| fail(&format!("{name}: cannot be read: {error}")))
}

/// Ends with a message.
fn fail(message: &str) -> ! {
    eprintln!("{message}");
    std::process::exit(1)
}

/// Bytes as letters, and a dot for one that is none.
fn letters(bytes: &[u8]) -> String {
    bytes.iter().map(|&b| if b.is_ascii_graphic() { char::from(b) } else { '.' }).collect()
}

/// The head of the table: the windows are drawn below the trace.
fn head(trace: &[u8]) -> Vec<String> {
    ["end", &letters(trace), "row", "suffix", "no child", "inner", "edge", "far", "on", "hits"].map(String::from).to_vec()
}

/// A window as a line of the table: the bytes that it read under those of the trace, with a bar at its end, and the numbers that it moves by.
fn line(keywords: &[Keyword], trace: &[u8], lent: &Table, w: &Window) -> Vec<String> {
    let record = &lent.rows[ROW * w.row..ROW * (w.row + 1)];
    let read = &trace[w.end - w.asked()..w.end];
    let hits: Vec<String> = slow::entered(keywords, trace, w).iter().map(|k| k.to_string()).collect();
    let by_missing = |told: &dyn Fn(u8) -> String| w.missing.map_or(String::new(), told);
    vec![
        w.end.to_string(),
        format!("{}{}|", " ".repeat(w.end - w.asked()), letters(read)),
        w.row.to_string(),
        letters(&read[w.asked() - w.depth..]),
        by_missing(&|c| letters(&[c])),
        by_missing(&|_| record[16].to_string()),
        record[17].to_string(),
        by_missing(&|c| lent.bytes[16 * usize::from(c) + w.depth].to_string()),
        w.on.to_string(),
        hits.join(" "),
    ]
}

/// The lines with each column as wide as its widest cell.
fn print(lines: &[Vec<String>]) {
    let width = |i: usize| lines.iter().map(|line| line[i].len()).max().unwrap_or(0);
    for line in lines {
        let cells: Vec<String> = line.iter().enumerate().map(|(i, cell)| format!("{cell:<0$}", width(i))).collect();
        println!("{}", cells.join("  ").trim_end());
    }
}

/// The command.
fn main() {
    let names: Vec<String> = std::env::args().skip(1).collect();
    let [set, rows, bytes, trace] = &names[..] else { fail("usage: windows SET.bin ROWS.bin BYTES.bin TRACE.bin") };
    let (lent, trace) = (Table { rows: read(rows), bytes: read(bytes) }, read(trace));
    let keywords = slow::keywords(&read(set)).unwrap_or_else(|refusal| fail(&format!("{set}: refusal {} place {}", refusal.number, refusal.place)));
    if lent.rows.len() != ROW * slow::rows(&keywords, Way::Backward).len() || lent.bytes.len() != BYTES {
        fail("a file of the table has not the size that this set needs");
    }
    let windows = slow::windows(&keywords, &trace, &lent).map(|w| line(&keywords, &trace, &lent, &w));
    print(&[head(&trace)].into_iter().chain(windows).collect::<Vec<_>>());
    let (all, met) = (slow::hits(&keywords, &trace), slow::run_hits(&keywords, &trace, &lent));
    let found = slow::found(&keywords, &met, slow::run_questions(&keywords, &trace, &lent));
    println!("count {} energy {} questions {}", found.count, found.energy, found.questions);
    println!("{} of {} hits lost", all.len() - met.len(), all.len());
}
