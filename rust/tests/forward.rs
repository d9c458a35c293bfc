//! The forward scan and the host call, compared with the slow count on many inputs: every buffer and every refusal that they have. The largest
//! figures by the backward scan too.

mod common;

use bezowik::measure::{set_file, words};
use bezowik::random::Random;
use bezowik::sets::{keyword, record};
use bezowik::slow;
use bezowik::{Answer, OVERLAP, WORKSPACE};
use common::{bench_set, damaged_set, random_set, random_trace, BENCH_TRACE};

/// Both scans of one input, with buffers that hold something beforehand: all that they leave must be the same.
fn same(set: &[u8], trace: &[u8], workspace: usize, hits: usize, answer: usize) {
    let told = || format!("set {set:?}\ntrace {trace:?}\nworkspace {workspace} hits {hits} answer {answer}");
    let before = |n: usize| (0..n).map(|i| 7 + 3 * i as u32).collect::<Vec<u32>>();
    let narrow = |n: usize| before(n).iter().map(|&x| x as u16).collect::<Vec<u16>>();
    let bytes = |n: usize| before(n).iter().map(|&x| x as u8).collect::<Vec<u8>>();

    let (mut ws, mut hs, mut an) = (narrow(workspace), before(hits), bytes(answer));
    let result = bezowik::forward_into(set, trace, &mut ws, &mut hs, &mut an);
    let (mut ws2, mut hs2, mut an2) = (narrow(workspace), before(hits), bytes(answer));
    let expected = if answer < 20 {
        17
    } else {
        let found = slow::forward(set, trace, &mut ws2, &mut hs2);
        slow::over(&mut an2, &found.to_bytes());
        found.number
    };
    assert_eq!(result, expected, "result\n{}", told());
    assert_eq!(an, an2, "answer\n{}", told());
    assert_eq!(ws, ws2, "workspace\n{}", told());
    assert_eq!(hs, hs2, "hits\n{}", told());

    let (mut an, mut an2) = (bytes(answer), bytes(answer));
    assert_eq!(bezowik::cost_into(set, trace, &mut an), slow::cost_into(set, trace, &mut an2), "host result\n{}", told());
    assert_eq!(an, an2, "host answer\n{}", told());
}

#[test]
fn bench_cases() {
    let mut ws = vec![0; WORKSPACE];
    let mut hs = [0; 12];
    let w = bench_set();
    let found = bezowik::forward(&w, BENCH_TRACE, &mut ws, &mut hs);
    assert_eq!(found, Answer { number: 0, place: 0, count: 5, questions: 9, energy: 280 });
    assert_eq!(hs, [3, 1, 3, 0, 5, 2, 7, 1, 7, 0, 0, 0]);
    assert_eq!(ws[6..48].chunks(6).map(|r| r[3]).collect::<Vec<_>>(), [0, 0, 0, 1, 2, 1, 3]);
    assert_eq!(bezowik::cost(&w, b"LMLM"), Answer { count: 2, questions: 5, energy: 80, ..Answer::default() });
    let aa = record(b"AA", 1);
    assert_eq!(bezowik::cost(&aa, b"AAAA"), Answer { count: 3, questions: 6, energy: 3, ..Answer::default() });
    assert_eq!(bezowik::cost(&aa, b"AB"), Answer { count: 0, questions: 3, energy: 0, ..Answer::default() });
    assert_eq!(bezowik::cost(&w, b""), Answer::default());
}

#[test]
fn keyword_behind_the_failure_row() {
    // the failure row of ALM is LM, no keyword, and the M behind it is a hit all the same
    let set = [record(b"M", 1), record(b"LMA", 2), record(b"ALM", 4)].concat();
    assert_eq!(bezowik::cost(&set, b"ALM").energy, 5);
}

#[test]
fn limits() {
    let fifteen = record(b"ABCDEFGHIJKLMNO", 3);
    assert_eq!(bezowik::cost(&fifteen, b"ABCDEFGHIJKLMNO").count, 1);
    let mut sixteen = fifteen.clone();
    sixteen[0] = 16;
    assert_eq!(bezowik::cost(&sixteen, b""), Answer::refused(4, 0));
    let more: Vec<u8> = (0..65).flat_map(|i| record(&[i, 1], 1)).collect();
    for (bytes, number) in [(1_279, 2), (1_280, 0), (1_281, 2), (1_300, 3)] {
        assert_eq!(bezowik::cost(&more[..bytes], b""), Answer::refused(number, 0), "{bytes} bytes");
    }
    assert_eq!(bezowik::cost(&fifteen, &vec![65; 1_048_576]).number, 0);
    assert_eq!(bezowik::cost(&fifteen, &vec![65; 1_048_577]), Answer::refused(8, 0));
}

/// Each of the four bytes of an energy alone: the low byte is the first.
#[test]
fn energy_bytes() {
    for (at, energy) in [(16, 1), (17, 256), (18, 65_536), (19, 16_777_216)] {
        let mut set = record(b"A", 0);
        set[at] = 1;
        assert_eq!(bezowik::cost(&set, b"A").energy, energy);
        assert_eq!(record(b"A", energy as u32), set);
        assert_eq!(keyword(&set).energy, energy);
    }
}

/// The longest trace of one letter under its first n repetitions as keywords, each with the most energy: count and energy by the host call, both
/// scans and the slow count.
fn told_by_all(n: u32) -> (u32, u64) {
    let set: Vec<u8> = (1..=n as usize).flat_map(|k| record(&vec![65; k], 4_294_967_295)).collect();
    let (trace, mut ws) = (vec![65; 1_048_576], vec![0; WORKSPACE]);
    let keywords = slow::keywords(&set).expect("the set passes its tests");
    let table = bezowik::make(&set).expect("the set passes its tests");
    // forward two questions for each letter, but one for each of the first n
    let known = slow::found(&keywords, &slow::hits(&keywords, &trace), 2 * 1_048_576 - n);
    assert_eq!(bezowik::cost(&set, &trace), known);
    assert_eq!(bezowik::forward(&set, &trace, &mut ws, &mut []), known);
    // backward n + 1 questions at each end, but at each of the first n as many as there are bytes
    let known = Answer { questions: (n + 1) * 1_048_576 - n * (n + 1) / 2, ..known };
    assert_eq!(bezowik::backward(&set, &trace, &table, &mut ws, &mut []), known);
    (known.count, known.energy)
}

/// One keyword with the most energy at every end, and the most hits that can occur, each with the most: eight bytes are enough.
#[test]
fn largest_figures() {
    assert_eq!(told_by_all(1), (1_048_576, 4_294_967_295 * 1_048_576));
    assert_eq!(told_by_all(15), (15_728_535, 4_294_967_295 * 15_728_535));
}

#[test]
fn odd_and_short_hit_buffers() {
    for hits in 0..14 {
        same(&bench_set(), BENCH_TRACE, WORKSPACE, hits, 20);
    }
}

#[test]
fn workspaces_around_the_size_needed() {
    for workspace in [0, 1, 6, 47, 48, 49, 60] {
        same(&bench_set(), BENCH_TRACE, workspace, 12, 20);
    }
}

#[test]
fn answer_buffers_of_every_length() {
    for answer in 0..41 {
        same(&bench_set(), BENCH_TRACE, WORKSPACE, 4, answer);
        same(&[], BENCH_TRACE, WORKSPACE, 4, answer);
    }
}

#[test]
fn random_inputs() {
    for seed in 0..400 {
        println!("seed {seed}");
        let mut random = Random::new(seed);
        let set = random_set(&mut random);
        for _ in 0..5 {
            let trace = random_trace(&mut random, &set, 300);
            let workspace = if random.once_in(4) { random.below(WORKSPACE) } else { WORKSPACE };
            same(&set, &trace, workspace, random.below(40), 20 + random.below(3));
        }
    }
}

#[test]
fn damaged_sets() {
    for seed in 1000..1400 {
        println!("seed {seed}");
        let mut random = Random::new(seed);
        let set = random_set(&mut random);
        for _ in 0..5 {
            let damaged = damaged_set(&mut random, &set);
            let trace = random_trace(&mut random, &set, 40);
            same(&damaged, &trace, WORKSPACE, random.below(10), 18 + random.below(5));
        }
    }
}

#[test]
fn long_traces() {
    for seed in 2000..2004 {
        println!("seed {seed}");
        let mut random = Random::new(seed);
        let set = random_set(&mut random);
        let trace = random_trace(&mut random, &set, 60_000);
        same(&set, &trace, WORKSPACE, 20_001, 20);
    }
}

/// The end and the keyword of every hit, as listed.
fn hits(set: &[u8], trace: &[u8]) -> Vec<(u32, u32)> {
    let mut list = vec![0; 2 * bezowik::cost(set, trace).count as usize];
    bezowik::forward(set, trace, &mut vec![0; WORKSPACE], &mut list);
    list.chunks(2).map(|pair| (pair[0], pair[1])).collect()
}

/// The hits of a trace scanned in parts of 40 to 100 bytes. Each later part begins so many bytes before the end of the part before, and its
/// hits that end within them are left out.
fn hits_in_parts(random: &mut Random, set: &[u8], trace: &[u8], shared: usize) -> Vec<(u32, u32)> {
    let mut found = Vec::new();
    let (mut from, mut left_out) = (0, 0);
    loop {
        let to = trace.len().min(from + 40 + random.below(61));
        let kept = hits(set, &trace[from..to]).into_iter().filter(|hit| hit.0 > left_out);
        found.extend(kept.map(|(end, keyword)| (from as u32 + end, keyword)));
        if to == trace.len() {
            return found;
        }
        (from, left_out) = (to - shared, shared as u32);
    }
}

/// A set and a trace to be cut: keywords that overlap and nest, or long ones one behind another.
fn set_and_trace(random: &mut Random) -> (Vec<u8>, Vec<u8>) {
    if random.once_in(2) {
        let set = random_set(random);
        let trace = random_trace(random, &set, 1000);
        return (set, trace);
    }
    let words = words(random, 12);
    let trace = (0..80).flat_map(|_| words[random.below(words.len())].clone()).collect();
    (set_file(&words).0, trace)
}

/// Count and energy of a trace in parts, as the header words it: the sums over the parts, each later part begun so many bytes before the cut,
/// less the cost of its first so many bytes alone.
fn cost_in_parts(random: &mut Random, set: &[u8], trace: &[u8], shared: usize) -> (u32, u64) {
    let cost = |part: &[u8]| bezowik::cost(set, part);
    let mut cut = trace.len().min(shared + random.below(60));
    let first = cost(&trace[..cut]);
    let (mut count, mut energy) = (first.count, first.energy);
    while cut < trace.len() {
        let to = trace.len().min(cut + 1 + random.below(60));
        let (part, less) = (cost(&trace[cut - shared..to]), cost(&trace[cut - shared..cut]));
        count += part.count - less.count;
        energy += part.energy - less.energy;
        cut = to;
    }
    (count, energy)
}

/// Random traces cut with the header's overlap, which must be right, and with one byte less, which must often be wrong: so the traces try it.
fn cut_everywhere(seeds: std::ops::Range<u64>, right: fn(&mut Random, &[u8], &[u8], usize) -> bool) {
    let mut lost = 0;
    for seed in seeds {
        println!("seed {seed}");
        let mut random = Random::new(seed);
        let (set, trace) = set_and_trace(&mut random);
        assert!(right(&mut random, &set, &trace, OVERLAP));
        lost += usize::from(!right(&mut random, &set, &trace, OVERLAP - 1));
    }
    println!("with one byte less, {lost} traces lost hits");
    assert!(lost > 20);
}

/// The list of a trace that is too long: a later part's hits that end within its first bytes are left out.
#[test]
fn lists_of_cut_traces() {
    cut_everywhere(8000..8300, |random, set, trace, shared| hits_in_parts(random, set, trace, shared) == hits(set, trace));
}

/// The count and the energy of a trace that is too long, beside the slow count of the whole.
#[test]
fn costs_of_cut_traces() {
    cut_everywhere(8300..8600, |random, set, trace, shared| {
        let keywords = slow::keywords(set).expect("the set passes its tests");
        let whole = slow::found(&keywords, &slow::hits(&keywords, trace), 0);
        cost_in_parts(random, set, trace, shared) == (whole.count, whole.energy)
    });
}
