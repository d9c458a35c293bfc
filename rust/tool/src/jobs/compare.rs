//! `compare`: which of two or more builds draws least, and which sequences make the difference.

use super::{print_csv, print_json};
use crate::arguments::{Compare, Difference, Percent, Printed};
use crate::counts;
use crate::files::{distinct, read_set, read_trace};
use crate::keywords::{as_csv, as_json, keywords, LEFT};
use crate::text::{cells, columns, counted, percent, shown_name};
use crate::{Done, Failure, Notes};
use bezowik::sets::Keyword;
use bezowik::{Answer, RECORD};
use serde_json::{json, Value};
use std::cmp::Reverse;
use std::io::Write;
use std::path::PathBuf;

/// One build: its letter, its file, and what was found in it.
struct Build {
    letter: String,
    file: String,
    answer: Answer,
    occurrences: Vec<u64>,
}

/// A keyword in all builds.
struct Line {
    number: usize,
    word: Vec<u8>,
    occurrences: Vec<u64>,
    energies: Vec<u64>,
}

/// The command.
pub fn run(asked: &Compare, out: &mut dyn Write, notes: &mut Notes) -> Done {
    let names = [&asked.set].into_iter().chain(&asked.builds);
    distinct(&names.map(PathBuf::as_path).collect::<Vec<_>>(), &[])?;
    let set = read_set(&asked.set, notes)?;
    let mut builds = Vec::new();
    for (i, name) in asked.builds.iter().enumerate() {
        // the list of one build is gone before that of the next is made
        let found = counts::scan(&set, &read_trace(name)?, None)?;
        builds.push(Build {
            letter: letter(i),
            file: shown_name(name),
            answer: found.answer,
            occurrences: found.occurrences,
        });
    }
    let lines = ordered(&keywords(&set.bytes), &builds, asked.sort);
    let shown = asked.part.of(&lines);
    match asked.form.printed() {
        Printed::Json => print_json(&in_json(asked, &builds, shown), out)?,
        Printed::Csv => in_csv(&builds, shown, out)?,
        Printed::Text => write!(out, "{}", in_text(asked, &builds, shown, lines.len(), set.bytes.len() / RECORD))?,
    }
    within(asked.fail_over, &builds)
}

/// The letter of a build, as a spreadsheet names its columns: A to Z, then AA.
fn letter(i: usize) -> String {
    let last = char::from(b'A' + (i % 26) as u8);
    match i / 26 {
        0 => last.to_string(),
        more => format!("{}{last}", letter(more - 1)),
    }
}

/// The keywords that draw differently in some build, in the order that is asked for; where that leaves a choice, in set
/// order.
fn ordered(keywords: &[Keyword], builds: &[Build], order: Difference) -> Vec<Line> {
    let line = |(number, keyword): (usize, &Keyword)| {
        let occurrences: Vec<u64> = builds.iter().map(|build| build.occurrences[number]).collect();
        let energies = occurrences.iter().map(|n| n * keyword.energy).collect();
        Line { number, word: keyword.word.clone(), occurrences, energies }
    };
    let mut lines: Vec<Line> = keywords.iter().enumerate().map(line).collect();
    lines.retain(|line| line.occurrences.iter().any(|n| *n != line.occurrences[0]));
    match order {
        Difference::Difference => {
            lines.sort_by_key(|line| Reverse(line.energies.iter().map(|e| e.abs_diff(line.energies[0])).max()))
        }
        Difference::Energy => lines.sort_by_key(|line| Reverse(line.energies.iter().copied().max())),
        Difference::Number => {}
    }
    lines
}

/// The result for a person.
fn in_text(asked: &Compare, builds: &[Build], shown: &[Line], differing: usize, all: usize) -> String {
    let mut text = format!("{}{}\n", totals(builds), verdict(builds));
    if !shown.is_empty() {
        text += &format!("\n{}", differences(asked, builds, shown));
    }
    if shown.len() < differing {
        text += &format!("and {} more with a difference\n", counted(differing - shown.len(), "keyword"));
    }
    if differing < all {
        text += &format!("{} without a difference left out\n", counted(all - differing, "keyword"));
    }
    text
}

/// The table of the builds: what each draws, and how much more than the first.
fn totals(builds: &[Build]) -> String {
    let first = builds[0].answer.energy;
    let mut lines = vec![cells(&["build", "file", "count", "energy pJ", "more than A pJ", "%"])];
    for (i, Build { letter, file, answer, .. }) in builds.iter().enumerate() {
        let mut line = vec![letter.clone(), file.clone(), answer.count.to_string(), answer.energy.to_string()];
        if i > 0 {
            line.extend([signed(answer.energy, first), rise(answer.energy, first)]);
        }
        lines.push(line);
    }
    columns(&lines, &LEFT)
}

/// The table of the keywords: how often each stands in each build, and what it draws more than in the first.
fn differences(asked: &Compare, builds: &[Build], shown: &[Line]) -> String {
    let inside = builds.iter().map(|build| format!("in {}", build.letter)).collect();
    let against = builds[1..].iter().map(|build| format!("{} - A pJ", build.letter)).collect();
    let mut lines = vec![[cells(&["no"]), asked.look.heads(), inside, against].concat()];
    for line in shown {
        let inside = line.occurrences.iter().map(u64::to_string).collect();
        let against = line.energies[1..].iter().map(|energy| signed(*energy, line.energies[0])).collect();
        lines.push([vec![line.number.to_string()], asked.look.cells(&line.word), inside, against].concat());
    }
    columns(&lines, &LEFT)
}

/// A difference with its sign.
fn signed(one: u64, other: u64) -> String {
    match i128::from(one) - i128::from(other) {
        0 => "0".to_string(),
        n => format!("{n:+}"),
    }
}

/// A difference in percent of the first, with its sign.
fn rise(one: u64, first: u64) -> String {
    match percent(one.abs_diff(first), first) {
        none if none == "-" => none,
        number if one > first => format!("+{number}"),
        number if one < first => format!("-{number}"),
        number => number,
    }
}

/// Which builds draw least, and by how much.
fn verdict(builds: &[Build]) -> String {
    let energies: Vec<u64> = builds.iter().map(|build| build.answer.energy).collect();
    let letters = |energy: u64| {
        let same: Vec<&str> = builds.iter().filter(|b| b.answer.energy == energy).map(|b| b.letter.as_str()).collect();
        (same.join(" and "), if same.len() == 1 { "draws" } else { "draw" })
    };
    let least = energies.iter().copied().min().unwrap_or(0);
    let (who, draw) = letters(least);
    // the first where it draws more, else whichever comes next above the least
    let above =
        if energies[0] > least { Some(energies[0]) } else { energies.iter().copied().filter(|e| *e > least).min() };
    match above {
        None => format!("{who} draw the same"),
        Some(high) => {
            let than = if energies[0] > least { "A".to_string() } else { letters(high).0 };
            format!("{who} {draw} least: {} pJ less than {than} ({} % less)", high - least, percent(high - least, high))
        }
    }
}

/// That no build draws over so many percent more than the first.
fn within(most: Option<Percent>, builds: &[Build]) -> Done {
    let Some(Percent(thousandths)) = most else { return Ok(()) };
    let first = builds[0].answer.energy;
    let over = |build: &&Build| {
        u128::from(build.answer.energy) * 100_000 > u128::from(first) * (100_000 + u128::from(thousandths))
    };
    let told: Vec<String> = builds[1..].iter().filter(over).map(|build| exceeding(build, first, thousandths)).collect();
    match told.is_empty() {
        true => Ok(()),
        false => Err(Failure::Over(told.join("\n"))),
    }
}

/// That a build draws too much.
fn exceeding(build: &Build, first: u64, thousandths: u64) -> String {
    let limit = format!("{}.{:03}", thousandths / 1000, thousandths % 1000);
    let limit = limit.trim_end_matches('0').trim_end_matches('.');
    let Build { letter, file, answer, .. } = build;
    format!("{file}: build {letter} draws {} pJ, over {limit} % more than the {first} pJ of build A", answer.energy)
}

/// The result in json.
fn in_json(asked: &Compare, builds: &[Build], shown: &[Line]) -> Value {
    let build =
        |b: &Build| json!({ "build": b.letter, "file": b.file, "count": b.answer.count, "energy": b.answer.energy });
    let line = |line: &Line| {
        let mut value = as_json(line.number, &line.word);
        value["occurrences"] = json!(line.occurrences);
        value["energies"] = json!(line.energies);
        value
    };
    let least = builds.iter().map(|b| b.answer.energy).min();
    let draws_least: Vec<&str> =
        builds.iter().filter(|b| Some(b.answer.energy) == least).map(|b| b.letter.as_str()).collect();
    json!({
        "set": shown_name(&asked.set), "builds": builds.iter().map(build).collect::<Vec<_>>(), "least": draws_least,
        "keywords": shown.iter().map(line).collect::<Vec<_>>(),
    })
}

/// The result as csv: a line for each keyword, with its occurrences and its energy in each build.
fn in_csv(builds: &[Build], shown: &[Line], out: &mut dyn Write) -> Done {
    let heads = builds.iter().flat_map(|b| [format!("occurrences {}", b.letter), format!("energy {}", b.letter)]);
    let head = cells(&["number", "hex", "text"]).into_iter().chain(heads).collect();
    let line = |line: &Line| {
        let numbers = line.occurrences.iter().zip(&line.energies).flat_map(|(n, e)| [n.to_string(), e.to_string()]);
        as_csv(line.number, &line.word).into_iter().chain(numbers).collect()
    };
    print_csv([head].into_iter().chain(shown.iter().map(line)), out)
}
