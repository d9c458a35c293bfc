//! A scan with its hits counted by keyword, and the progress that a terminal shows meanwhile.

use crate::files::{Input, Tables};
use crate::keywords::keywords;
use crate::refusals::{accepted, Lent};
use crate::text::shown_name;
use crate::Failure;
use bezowik::{Answer, LONGEST, RECORD, TRACE, WORKSPACE};
use indicatif::{ProgressBar, ProgressStyle};
use std::time::Duration;

/// A trace from which progress is shown.
const LONG: usize = 65_536;

/// What a scan found: the answer, the hit list, and the occurrences of each keyword.
pub struct Found {
    pub answer: Answer,
    pub hits: Vec<u32>,
    pub occurrences: Vec<u64>,
}

/// Scans once, backward where tables are lent.
pub fn scan(set: &Input, trace: &Input, tables: Option<&Tables>) -> Result<Found, Failure> {
    let progress = progress(trace);
    progress.set_message("scanning");
    let mut hits = vec![0; 2 * most_hits(&set.bytes, trace.bytes.len())];
    let mut workspace = vec![0; WORKSPACE];
    let answer = match tables {
        None => bezowik::forward(&set.bytes, &trace.bytes, &mut workspace, &mut hits),
        Some(tables) => bezowik::backward(&set.bytes, &trace.bytes, &tables.table, &mut workspace, &mut hits),
    };
    let answer = accepted(answer, &Lent { set, trace: Some(trace), tables })?;
    hits.truncate(2 * answer.count as usize);
    progress.set_message("counting hits");
    let occurrences = occurrences(&hits, set, answer)?;
    progress.finish_and_clear();
    Ok(Found { answer, hits, occurrences })
}

/// How often each keyword stands in a hit list. What they draw together is what the library has proved, or nothing is
/// printed.
fn occurrences(hits: &[u32], set: &Input, answer: Answer) -> Result<Vec<u64>, Failure> {
    let keywords = keywords(&set.bytes);
    let mut occurrences = vec![0; keywords.len()];
    for pair in hits.chunks_exact(2) {
        occurrences[pair[1] as usize] += 1;
    }
    let drawn: u64 = keywords.iter().zip(&occurrences).map(|(keyword, n)| keyword.energy * n).sum();
    match drawn == answer.energy {
        true => Ok(occurrences),
        false => {
            Err(Failure::Refused("the parts do not add up to the total, which is a fault of the tool".to_string()))
        }
    }
}

/// The most hits that a trace can have: at each end one for each length of a keyword. Memory that is lent and not
/// written costs nothing, so that one scan is enough.
fn most_hits(set: &[u8], trace: usize) -> usize {
    let long = |n: &usize| set.chunks_exact(RECORD).any(|record| usize::from(record[0]) == *n);
    match trace <= TRACE {
        true => (1..=LONGEST).filter(long).map(|n| (trace + 1).saturating_sub(n)).sum(),
        false => 0,
    }
}

/// One line on a terminal that says what is done on a long trace. Elsewhere, and for a short trace, nothing.
fn progress(trace: &Input) -> ProgressBar {
    if trace.bytes.len() < LONG {
        return ProgressBar::hidden();
    }
    let style =
        ProgressStyle::with_template("{spinner} {prefix}: {msg}").unwrap_or_else(|_| ProgressStyle::default_spinner());
    let progress = ProgressBar::new_spinner().with_style(style).with_prefix(shown_name(&trace.name));
    progress.enable_steady_tick(Duration::from_millis(100));
    progress
}
