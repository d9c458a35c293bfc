//! The slow count: each job as document 01 words it, with neither failures nor skips to be quick by. What the library answers is compared with it.

use crate::sets::Keyword;
use crate::{low_first, Answer, Table, BYTES, RECORD, ROW};

/// The way a keyword is read.
#[derive(Clone, Copy, Debug, PartialEq, Eq)]
pub enum Way {
    Forward,
    Backward,
}

/// The tests 1 to 6: the keywords, or the refusal.
pub fn keywords(set: &[u8]) -> Result<Vec<Keyword>, Answer> {
    if set.is_empty() {
        return Err(Answer::refused(1, 0));
    }
    if !set.len().is_multiple_of(RECORD) {
        return Err(Answer::refused(2, 0));
    }
    if set.len() / RECORD > 64 {
        return Err(Answer::refused(3, 0));
    }
    let mut keywords: Vec<Keyword> = Vec::new();
    for (i, record) in set.chunks(RECORD).enumerate() {
        let n = record[0] as usize;
        if n == 0 || n > 15 {
            return Err(Answer::refused(4, i));
        }
        if record[1 + n..16].iter().any(|&b| b != 0) {
            return Err(Answer::refused(5, i));
        }
        let word = record[1..1 + n].to_vec();
        if keywords.iter().any(|k| k.word == word) {
            return Err(Answer::refused(6, i));
        }
        keywords.push(Keyword { word, energy: low_first(&record[16..20]) });
    }
    Ok(keywords)
}

/// The rows: prefixes (or suffixes, in trace order) of keywords, numbered when first met.
pub fn rows(keywords: &[Keyword], way: Way) -> Vec<Vec<u8>> {
    let mut rows = vec![Vec::new()];
    for k in keywords {
        for n in 1..=k.word.len() {
            let row = match way {
                Way::Forward => k.word[..n].to_vec(),
                Way::Backward => k.word[k.word.len() - n..].to_vec(),
            };
            if !rows.contains(&row) {
                rows.push(row);
            }
        }
    }
    rows
}

/// The row one byte shorter, and the byte that the row adds to it.
fn parent(row: &[u8], way: Way) -> Option<(&[u8], u8)> {
    match way {
        Way::Forward => row.split_last().map(|(&b, front)| (front, b)),
        Way::Backward => row.split_first().map(|(&b, rest)| (rest, b)),
    }
}

/// The six numbers of every row.
pub fn cells(keywords: &[Keyword], way: Way) -> Vec<u16> {
    let rows = rows(keywords, way);
    let place = |s: &[u8]| rows.iter().position(|r| r == s).unwrap_or(0) as u16;
    let prefix = |s: &[u8]| keywords.iter().any(|k| k.word.starts_with(s));
    let own = |s: &[u8]| keywords.iter().position(|k| k.word == s);
    let mut cells = Vec::new();
    for (i, row) in rows.iter().enumerate() {
        let child = rows.iter().position(|r| matches!(parent(r, way), Some((p, _)) if p == &row[..])).unwrap_or(0) as u16;
        let Some((above, byte)) = parent(row, way) else {
            cells.extend([0, child, 0, 0, 0, 0]);
            continue;
        };
        let sibling = (i + 1..rows.len()).find(|&j| matches!(parent(&rows[j], way), Some((p, _)) if p == above)).unwrap_or(0) as u16;
        let behind = |passes: &dyn Fn(&[u8]) -> bool| (1..row.len()).map(|n| &row[n..]).find(|s| passes(s)).map_or(0, place);
        let (failure, dictionary) = match way {
            Way::Forward => (behind(&prefix), behind(&|s| own(s).is_some())),
            Way::Backward => (0, 0),
        };
        cells.extend([u16::from(byte), child, sibling, failure, own(row).map_or(0, |k| k as u16 + 1), dictionary]);
    }
    cells
}

/// Every occurrence: by end, rising, and at one end the longest keyword first.
pub fn hits(keywords: &[Keyword], trace: &[u8]) -> Vec<(u32, u32)> {
    let mut order: Vec<usize> = (0..keywords.len()).collect();
    order.sort_by_key(|&k| std::cmp::Reverse(keywords[k].word.len()));
    let mut hits = Vec::new();
    for end in 1..=trace.len() {
        for &k in &order {
            if trace[..end].ends_with(&keywords[k].word) {
                hits.push((end as u32, k as u32));
            }
        }
    }
    hits
}

/// The forward scan's questions, from the set and the trace alone.
pub fn questions(keywords: &[Keyword], trace: &[u8]) -> u32 {
    let prefix = |s: &[u8]| keywords.iter().any(|k| k.word.starts_with(s));
    let mut sum = 0;
    for at in 0..trace.len() {
        // no prefix of a keyword is longer than fifteen bytes
        for from in at.saturating_sub(15)..=at {
            if prefix(&trace[from..at]) {
                sum += 1;
                if prefix(&trace[from..=at]) {
                    break;
                }
            }
        }
    }
    sum
}

/// New numbers over the front of a buffer.
pub fn over<T: Copy>(buffer: &mut [T], new: &[T]) {
    buffer[..new.len()].copy_from_slice(new);
}

/// The pairs that fit in a hit buffer.
pub fn list(hits: &[(u32, u32)], buffer: &mut [u32]) {
    for (pair, &(end, keyword)) in buffer.chunks_exact_mut(2).zip(hits) {
        pair[0] = end;
        pair[1] = keyword;
    }
}

/// The tests 1 to 6, 8 and 9, and behind them the rows in the workspace.
fn enter(set: &[u8], way: Way, trace: usize, workspace: &mut [u16]) -> Result<Vec<Keyword>, Answer> {
    let keywords = keywords(set)?;
    if trace > 1_048_576 {
        return Err(Answer::refused(8, 0));
    }
    let rows = rows(&keywords, way).len();
    if workspace.len() < 6 * rows {
        return Err(Answer::refused(9, rows));
    }
    over(workspace, &cells(&keywords, way));
    Ok(keywords)
}

/// What a scan answers where it is not refused.
pub fn found(keywords: &[Keyword], hits: &[(u32, u32)], questions: u32) -> Answer {
    Answer { number: 0, place: 0, count: hits.len() as u32, questions, energy: hits.iter().map(|&(_, k)| keywords[k as usize].energy).sum() }
}

/// The forward scan, with every lent buffer.
pub fn forward(set: &[u8], trace: &[u8], workspace: &mut [u16], buffer: &mut [u32]) -> Answer {
    let keywords = match enter(set, Way::Forward, trace.len(), workspace) {
        Ok(keywords) => keywords,
        Err(refusal) => return refusal,
    };
    let hits = hits(&keywords, trace);
    list(&hits, buffer);
    found(&keywords, &hits, questions(&keywords, trace))
}

/// The host call: its result, and the answer buffer.
pub fn cost_into(set: &[u8], trace: &[u8], answer: &mut [u8]) -> u16 {
    if answer.len() < 20 {
        return 17;
    }
    let found = forward(set, trace, &mut vec![0; crate::WORKSPACE], &mut []);
    over(answer, &found.to_bytes());
    found.number
}

/// The shortest keyword's length.
fn shortest(keywords: &[Keyword]) -> usize {
    keywords.iter().map(|k| k.word.len()).min().unwrap_or(0)
}

/// The least n from 1 up that passes, capped at the shortest keyword's length.
fn least(keywords: &[Keyword], passes: impl Fn(usize, &[u8]) -> bool) -> u8 {
    let m = shortest(keywords);
    (1..m).find(|&n| keywords.iter().any(|k| passes(n, &k.word))).unwrap_or(m) as u8
}

/// The word has v with exactly n bytes after it.
pub fn holds_before(word: &[u8], v: &[u8], n: usize) -> bool {
    n <= word.len() && word[..word.len() - n].ends_with(v)
}

/// Some string made of v and n further bytes ends with the word.
pub fn ends_within(word: &[u8], v: &[u8], n: usize) -> bool {
    word.len() <= n || v.ends_with(&word[..word.len() - n])
}

/// Some keyword has v with exactly n bytes after it.
pub fn inner(keywords: &[Keyword], v: &[u8]) -> u8 {
    least(keywords, |n, w| holds_before(w, v, n))
}

/// Some string made of v and n further bytes ends with a keyword.
pub fn edge(keywords: &[Keyword], v: &[u8]) -> u8 {
    least(keywords, |n, w| ends_within(w, v, n))
}

/// Some keyword holds a with exactly z + n bytes after it.
pub fn far(keywords: &[Keyword], a: u8, z: usize) -> u8 {
    least(keywords, |n, w| holds_before(w, &[a], z + n))
}

/// A row's suffix in its sixteen places.
fn named(v: &[u8]) -> Vec<u8> {
    let mut record = vec![v.len() as u8];
    record.extend_from_slice(v);
    record.resize(16, 0);
    record
}

/// The table with the largest numbers.
pub fn table(keywords: &[Keyword]) -> Table {
    let rows = rows(keywords, Way::Backward).iter().flat_map(|v| [named(v), vec![inner(keywords, v), edge(keywords, v)]].concat()).collect();
    let bytes = (0..BYTES).map(|p| far(keywords, (p / 16) as u8, p % 16)).collect();
    Table { rows, bytes }
}

/// The tests 10 to 14: the first fault of a table.
pub fn fault(keywords: &[Keyword], lent: &Table) -> Option<Answer> {
    let largest = table(keywords);
    let faulty = |n: u8, most: u8| n == 0 || n > most;
    if lent.rows.len() != largest.rows.len() {
        return Some(Answer::refused(10, largest.rows.len() / ROW));
    }
    for (i, (f, most)) in lent.rows.chunks(ROW).zip(largest.rows.chunks(ROW)).enumerate() {
        if f[..16] != most[..16] {
            return Some(Answer::refused(11, i));
        }
        if faulty(f[16], most[16]) || faulty(f[17], most[17]) {
            return Some(Answer::refused(12, i));
        }
    }
    if lent.bytes.len() != BYTES {
        return Some(Answer::refused(13, 0));
    }
    (0..BYTES).find(|&p| faulty(lent.bytes[p], largest.bytes[p])).map(|p| Answer::refused(14, p))
}

/// What making and the check answer where they do not refuse.
fn counted(keywords: &[Keyword]) -> Answer {
    Answer { count: rows(keywords, Way::Backward).len() as u32, ..Answer::default() }
}

/// Making, with every lent buffer.
pub fn make(set: &[u8], workspace: &mut [u16], row_buffer: &mut [u8], byte_buffer: &mut [u8]) -> Answer {
    let keywords = match enter(set, Way::Backward, 0, workspace) {
        Ok(keywords) => keywords,
        Err(refusal) => return refusal,
    };
    let rows = rows(&keywords, Way::Backward).len();
    if row_buffer.len() < ROW * rows {
        return Answer::refused(15, rows);
    }
    if byte_buffer.len() < BYTES {
        return Answer::refused(16, 0);
    }
    let made = table(&keywords);
    over(row_buffer, &made.rows);
    over(byte_buffer, &made.bytes);
    counted(&keywords)
}

/// The check, with every lent buffer.
pub fn check(set: &[u8], lent: &Table, workspace: &mut [u16]) -> Answer {
    let keywords = match enter(set, Way::Backward, 0, workspace) {
        Ok(keywords) => keywords,
        Err(refusal) => return refusal,
    };
    fault(&keywords, lent).unwrap_or_else(|| counted(&keywords))
}

/// One window of the backward scan: its end, the row that it reached and that row's depth, the byte before it that has no child if one
/// remained, and how far the scan moves on.
#[derive(Clone, Copy, Debug, PartialEq, Eq)]
pub struct Window {
    pub end: usize,
    pub row: usize,
    pub depth: usize,
    pub missing: Option<u8>,
    pub on: usize,
}

impl Window {
    /// Its questions: one for each byte read, the one without a child too.
    pub fn asked(&self) -> usize {
        self.depth + usize::from(self.missing.is_some())
    }
}

/// The window at an end: bytes are read backward as long as what was read is a row.
fn window(rows: &[Vec<u8>], trace: &[u8], lent: &Table, end: usize) -> Window {
    let row = |depth: usize| rows.iter().position(|r| r[..] == trace[end - depth..end]);
    let depth = (0..end).find(|&depth| row(depth + 1).is_none()).unwrap_or(end);
    let missing = (depth < end).then(|| trace[end - depth - 1]);
    let row = row(depth).expect("what was read is a row");
    let (inner, edge) = (lent.rows[ROW * row + 16], lent.rows[ROW * row + 17]);
    let on = match missing {
        None => edge,
        Some(c) => edge.min(inner.max(lent.bytes[16 * c as usize + depth])),
    };
    Window { end, row, depth, missing, on: on as usize }
}

/// The windows of the backward scan as document 01 runs it, by whatever numbers files of the right size hold: they are not checked. A number
/// of 0 ends the run, which would never move on.
pub fn windows<'a>(keywords: &[Keyword], trace: &'a [u8], lent: &'a Table) -> impl Iterator<Item = Window> + 'a {
    let rows = rows(keywords, Way::Backward);
    let at = move |end: usize| (end <= trace.len()).then(|| window(&rows, trace, lent, end));
    std::iter::successors(at(lent.rows[17] as usize), move |w| if w.on > 0 { at(w.end + w.on) } else { None })
}

/// The questions of that run.
pub fn run_questions(keywords: &[Keyword], trace: &[u8], lent: &Table) -> u32 {
    windows(keywords, trace, lent).map(|w| w.asked() as u32).sum()
}

/// The keywords whose rows a window entered, the last one entered first.
pub fn entered(keywords: &[Keyword], trace: &[u8], w: &Window) -> Vec<usize> {
    (1..=w.depth).rev().filter_map(|n| keywords.iter().position(|k| k.word == trace[w.end - n..w.end])).collect()
}

/// The hits of that run: every keyword row entered.
pub fn run_hits(keywords: &[Keyword], trace: &[u8], lent: &Table) -> Vec<(u32, u32)> {
    let hits = |w: Window| entered(keywords, trace, &w).into_iter().map(move |k| (w.end as u32, k as u32));
    windows(keywords, trace, lent).flat_map(hits).collect()
}

/// The backward scan, with every lent buffer.
pub fn backward(set: &[u8], trace: &[u8], lent: &Table, workspace: &mut [u16], buffer: &mut [u32]) -> Answer {
    let keywords = match enter(set, Way::Backward, trace.len(), workspace) {
        Ok(keywords) => keywords,
        Err(refusal) => return refusal,
    };
    if let Some(refusal) = fault(&keywords, lent) {
        return refusal;
    }
    let hits = hits(&keywords, trace);
    list(&hits, buffer);
    found(&keywords, &hits, run_questions(&keywords, trace, lent))
}
