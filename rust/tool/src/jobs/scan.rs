//! `scan`: the totals, the part of each keyword, and the first hits where they are asked for.

use super::{print_csv, print_json};
use crate::arguments::{Look, Order, Printed, Scan};
use crate::counts::{self, Found};
use crate::files::{distinct, read_set, read_tables, read_trace};
use crate::keywords::{as_csv, as_json, keywords, LEFT};
use crate::text::{cells, columns, counted, percent, shown_name};
use crate::{Done, Notes};
use bezowik::sets::Keyword;
use serde_json::json;
use std::cmp::Reverse;
use std::io::Write;
use std::path::PathBuf;

/// The part of one keyword.
struct Part {
    number: usize,
    word: Vec<u8>,
    occurrences: u64,
    energy: u64,
}

/// The command.
pub fn run(asked: &Scan, out: &mut dyn Write, notes: &mut Notes) -> Done {
    let names = [&asked.set, &asked.trace].into_iter().chain(asked.backward.iter().flatten());
    distinct(&names.map(PathBuf::as_path).collect::<Vec<_>>(), &[])?;
    let (set, trace) = (read_set(&asked.set, notes)?, read_trace(&asked.trace)?);
    let tables = match asked.backward.as_deref() {
        Some([rows, bytes]) => Some(read_tables(rows, bytes)?),
        _ => None,
    };
    let found = counts::scan(&set, &trace, tables.as_ref())?;
    let keywords = keywords(&set.bytes);
    let parts = ordered(&keywords, &found, asked.sort);
    let shown = asked.part.of(&parts);
    match asked.form.printed() {
        Printed::Json => print_json(&in_json(asked, &found, shown), out),
        Printed::Csv => in_csv(asked, &keywords, &found, shown, out),
        Printed::Text => in_text(asked, &keywords, &found, shown, out),
    }
}

/// The parts of the keywords, in the order that is asked for.
fn ordered(keywords: &[Keyword], found: &Found, order: Order) -> Vec<Part> {
    let part = |(number, keyword): (usize, &Keyword)| {
        let occurrences = found.occurrences[number];
        Part { number, word: keyword.word.clone(), occurrences, energy: keyword.energy * occurrences }
    };
    let mut parts: Vec<Part> = keywords.iter().enumerate().map(part).collect();
    match order {
        Order::Number => {}
        Order::Energy => parts.sort_by_key(|part| Reverse(part.energy)),
        Order::Occurrences => parts.sort_by_key(|part| Reverse(part.occurrences)),
    }
    parts
}

/// The first hits that are asked for.
fn listed<'a>(asked: &Scan, found: &'a Found) -> &'a [u32] {
    let all = found.hits.len() / 2;
    &found.hits[..2 * asked.hits.unwrap_or(0).min(all)]
}

/// The result for a person.
fn in_text(asked: &Scan, keywords: &[Keyword], found: &Found, shown: &[Part], out: &mut dyn Write) -> Done {
    writeln!(out, "count {} energy {} questions {}", found.answer.count, found.answer.energy, found.answer.questions)?;
    let mut lines =
        vec![[cells(&["no"]), asked.look.heads(), cells(&["occurrences", "energy pJ", "share %"])].concat()];
    for part in shown {
        let share = percent(part.energy, found.answer.energy);
        let numbers = vec![part.occurrences.to_string(), part.energy.to_string(), share];
        lines.push([vec![part.number.to_string()], asked.look.cells(&part.word), numbers].concat());
    }
    write!(out, "\n{}", columns(&lines, &LEFT))?;
    if shown.len() < keywords.len() {
        writeln!(out, "and {} more", counted(keywords.len() - shown.len(), "keyword"))?;
    }
    match asked.hits {
        Some(_) => first_hits(&asked.look, keywords, found.hits.len() / 2, listed(asked, found), out),
        None => Ok(()),
    }
}

/// The first hits of a list, a line each: end, keyword number, keyword. A list may be long, so that no text of it is
/// built.
fn first_hits(look: &Look, keywords: &[Keyword], all: usize, hits: &[u32], out: &mut dyn Write) -> Done {
    let width = look.heads()[0].len().max(keywords.iter().map(|k| look.cells(&k.word)[0].len()).max().unwrap_or(0));
    let padded = |cells: Vec<String>| match &cells[..] {
        [bytes, text] if !text.is_empty() => format!("{bytes:<width$}  {text}"),
        cells => cells[0].clone(),
    };
    let words: Vec<String> = keywords.iter().map(|k| padded(look.cells(&k.word))).collect();
    writeln!(out, "\nthe first {} of {}", hits.len() / 2, counted(all, "hit"))?;
    let ends = hits.iter().rev().nth(1).map_or(0, |end| end.to_string().len()).max("end".len());
    writeln!(out, "{:>ends$}  no  {}", "end", padded(look.heads()))?;
    for pair in hits.chunks_exact(2) {
        writeln!(out, "{:>ends$}  {:>2}  {}", pair[0], pair[1], words[pair[1] as usize])?;
    }
    Ok(())
}

/// The result in json.
fn in_json(asked: &Scan, found: &Found, shown: &[Part]) -> serde_json::Value {
    let part = |part: &Part| {
        let mut value = as_json(part.number, &part.word);
        value["occurrences"] = json!(part.occurrences);
        value["energy"] = json!(part.energy);
        value
    };
    let mut value = json!({
        "set": shown_name(&asked.set), "trace": shown_name(&asked.trace),
        "scan": if asked.backward.is_some() { "backward" } else { "forward" },
        "count": found.answer.count, "energy": found.answer.energy, "questions": found.answer.questions,
        "keywords": shown.iter().map(part).collect::<Vec<_>>(),
    });
    if asked.hits.is_some() {
        let hit = |pair: &[u32]| json!({ "end": pair[0], "number": pair[1] });
        value["hits"] = listed(asked, found).chunks_exact(2).map(hit).collect();
    }
    value
}

/// The result as csv: the keywords, or the hits where they are asked for.
fn in_csv(asked: &Scan, keywords: &[Keyword], found: &Found, shown: &[Part], out: &mut dyn Write) -> Done {
    if asked.hits.is_some() {
        let head = cells(&["end", "number", "hex", "text"]);
        let hit = |pair: &[u32]| {
            [vec![pair[0].to_string()], as_csv(pair[1] as usize, &keywords[pair[1] as usize].word)].concat()
        };
        return print_csv([head].into_iter().chain(listed(asked, found).chunks_exact(2).map(hit)), out);
    }
    let head = cells(&["number", "hex", "text", "occurrences", "energy"]);
    let part = |part: &Part| {
        [as_csv(part.number, &part.word), vec![part.occurrences.to_string(), part.energy.to_string()]].concat()
    };
    print_csv([head].into_iter().chain(shown.iter().map(part)), out)
}
