//! Skip tables and the backward scan, compared with the slow versions: every buffer and every refusal that they have.

mod common;

use bezowik::random::Random;
use bezowik::sets::record;
use bezowik::slow::{self, Way};
use bezowik::{Answer, Table, BYTES, ROW, ROWS, WORKSPACE};
use common::{bench_set, damaged_set, random_set, random_trace, BENCH_TRACE};

/// Buffers that hold something beforehand.
fn before(n: usize) -> Vec<u8> {
    (0..n).map(|i| (7 + 3 * i) as u8).collect()
}

fn before16(n: usize) -> Vec<u16> {
    (0..n).map(|i| (7 + 3 * i) as u16).collect()
}

fn before32(n: usize) -> Vec<u32> {
    (0..n).map(|i| (7 + 3 * i) as u32).collect()
}

fn ones(table: &Table) -> Table {
    let mut table = table.clone();
    for row in table.rows.chunks_mut(ROW) {
        row[16] = 1;
        row[17] = 1;
    }
    table.bytes.fill(1);
    table
}

/// A table with smaller numbers, none of them 0.
fn smaller(random: &mut Random, table: &Table) -> Table {
    let mut table = table.clone();
    for row in table.rows.chunks_mut(ROW) {
        row[16] = 1 + random.below(row[16] as usize) as u8;
        row[17] = 1 + random.below(row[17] as usize) as u8;
    }
    for n in table.bytes.iter_mut() {
        *n = 1 + random.below(*n as usize) as u8;
    }
    table
}

fn same_make(set: &[u8], workspace: usize, rows: usize, bytes: usize, answer: usize) {
    let told = || format!("make set {set:?} workspace {workspace} rows {rows} bytes {bytes} answer {answer}");
    let (mut ws, mut rb, mut bb, mut an) = (before16(workspace), before(rows), before(bytes), before(answer));
    let result = bezowik::make_into(set, &mut ws, &mut rb, &mut bb, &mut an);
    let (mut ws2, mut rb2, mut bb2, mut an2) = (before16(workspace), before(rows), before(bytes), before(answer));
    let mut expected = 17;
    if answer >= 20 {
        let made = slow::make(set, &mut ws2, &mut rb2, &mut bb2);
        slow::over(&mut an2, &made.to_bytes());
        expected = made.number;
    }
    assert_eq!(result, expected, "{}", told());
    assert!(an == an2 && ws == ws2 && rb == rb2 && bb == bb2, "{}", told());
}

fn same_check(set: &[u8], table: &Table, workspace: usize, answer: usize) {
    let told = || format!("check set {set:?} table {table:?} workspace {workspace} answer {answer}");
    let (mut ws, mut an) = (before16(workspace), before(answer));
    let result = bezowik::check_into(set, table, &mut ws, &mut an);
    let (mut ws2, mut an2) = (before16(workspace), before(answer));
    let mut expected = 17;
    if answer >= 20 {
        let checked = slow::check(set, table, &mut ws2);
        slow::over(&mut an2, &checked.to_bytes());
        expected = checked.number;
    }
    assert_eq!(result, expected, "{}", told());
    assert!(an == an2 && ws == ws2, "{}", told());
}

fn same_backward(set: &[u8], trace: &[u8], table: &Table, workspace: usize, hits: usize, answer: usize) {
    let told = || format!("backward set {set:?} trace {trace:?} table {table:?} workspace {workspace} hits {hits} answer {answer}");
    let (mut ws, mut hs, mut an) = (before16(workspace), before32(hits), before(answer));
    let result = bezowik::backward_into(set, trace, table, &mut ws, &mut hs, &mut an);
    let (mut ws2, mut hs2, mut an2) = (before16(workspace), before32(hits), before(answer));
    let mut expected = 17;
    if answer >= 20 {
        let found = slow::backward(set, trace, table, &mut ws2, &mut hs2);
        slow::over(&mut an2, &found.to_bytes());
        expected = found.number;
    }
    assert_eq!(result, expected, "{}", told());
    assert!(an == an2 && ws == ws2 && hs == hs2, "{}", told());
}

#[test]
fn bench_cases() {
    let w = bench_set();
    let table = bezowik::make(&w).expect("W passes");
    // (g) and (h)
    let numbers: Vec<_> = table.rows.chunks(ROW).map(|r| (r[16], r[17])).collect();
    assert_eq!(numbers, [(1, 2), (2, 2), (2, 2), (2, 2), (2, 2), (2, 2), (2, 2), (2, 2)]);
    let far = |a: u8, z: usize| table.bytes[16 * a as usize + z];
    assert_eq!([far(b'L', 0), far(b'L', 1), far(b'L', 2), far(b'L', 3), far(b'A', 1), far(b'Z', 0)], [1, 2, 1, 2, 1, 2]);
    // (i), (j) and (f)
    let mut ws = vec![0; WORKSPACE];
    let mut hs = [0; 10];
    assert_eq!(bezowik::backward(&w, BENCH_TRACE, &table, &mut ws, &mut hs), Answer { count: 5, questions: 13, energy: 280, ..Answer::default() });
    assert_eq!(hs, [3, 1, 3, 0, 5, 2, 7, 1, 7, 0]);
    assert_eq!(bezowik::backward(&w, BENCH_TRACE, &ones(&table), &mut ws, &mut hs).questions, 16);
    assert_eq!(bezowik::backward(&w, b"", &table, &mut ws, &mut hs), Answer::default());
    // (k)
    let two = [record(b"AB", 1), record(b"BA", 1)].concat();
    let rows = bezowik::make(&two).expect("it passes").rows;
    assert_eq!((rows[ROW + 16], rows[2 * ROW + 17]), (1, 1));
    // (l) and (m)
    let mut wrong = table.clone();
    wrong.rows[16] = 2;
    assert_eq!(bezowik::check(&w, &wrong), Answer::refused(12, 0));
    let mut wrong = table.clone();
    wrong.rows.copy_within(ROW..2 * ROW, 0);
    assert_eq!(bezowik::check(&w, &wrong), Answer::refused(11, 0));
}

#[test]
fn made_tables() {
    for seed in 3000..3120 {
        println!("seed {seed}");
        let mut random = Random::new(seed);
        let set = random_set(&mut random);
        let keywords = slow::keywords(&set).expect("the set passes");
        let rows = slow::rows(&keywords, Way::Backward).len();
        let workspace = 6 * rows + random.below(3) - random.below(2);
        same_make(&set, workspace, ROW * rows + random.below(4) - random.below(2), BYTES + random.below(3) - random.below(2), 19 + random.below(3));
        let table = bezowik::make(&set).expect("the set passes");
        assert_eq!(table, slow::table(&keywords), "set {set:?}");
        assert_eq!(bezowik::check(&set, &table).number, 0, "set {set:?}");
        let damaged = damaged_set(&mut random, &set);
        same_make(&damaged, WORKSPACE, ROW * ROWS, BYTES, 20);
        same_check(&damaged, &table, WORKSPACE, 20);
    }
}

#[test]
fn changed_tables() {
    for seed in 4000..4120 {
        println!("seed {seed}");
        let mut random = Random::new(seed);
        let set = random_set(&mut random);
        let table = bezowik::make(&set).expect("the set passes");
        for _ in 0..6 {
            let mut changed = smaller(&mut random, &table);
            match random.below(6) {
                0 => changed.rows[random.below(table.rows.len())] ^= 1 << random.below(8),
                1 => changed.bytes[random.below(BYTES)] ^= 1 << random.below(4),
                2 => changed.rows.truncate(random.below(table.rows.len())),
                3 => changed.bytes.truncate(random.below(BYTES)),
                4 => {
                    let (i, j) = (random.below(table.rows.len() / ROW), random.below(table.rows.len() / ROW));
                    for k in 0..ROW {
                        changed.rows.swap(ROW * i + k, ROW * j + k);
                    }
                }
                _ => {}
            }
            same_check(&set, &changed, WORKSPACE, 20);
            let trace = random_trace(&mut random, &set, 60);
            same_backward(&set, &trace, &changed, WORKSPACE, random.below(12), 20);
        }
    }
}

#[test]
fn the_slipped_row() {
    // each record's numbers moved down by one: whenever a number is then too large the check says 12 and the row
    let mut caught = 0;
    for seed in 5000..5200 {
        let mut random = Random::new(seed);
        let set = random_set(&mut random);
        let table = bezowik::make(&set).expect("the set passes");
        let mut slipped = table.clone();
        for row in 1..table.rows.len() / ROW {
            slipped.rows[ROW * row + 16] = table.rows[ROW * (row - 1) + 16];
            slipped.rows[ROW * row + 17] = table.rows[ROW * (row - 1) + 17];
        }
        let first = (0..table.rows.len() / ROW).find(|row| (16..18).any(|k| slipped.rows[ROW * row + k] > table.rows[ROW * row + k]));
        let checked = bezowik::check(&set, &slipped);
        match first {
            Some(row) => {
                caught += 1;
                assert_eq!(checked, Answer::refused(12, row), "seed {seed}");
            }
            None => assert_eq!(checked.number, 0, "seed {seed}"),
        }
    }
    println!("{caught} slipped tables were unsafe, and caught");
    assert!(caught > 20);
}

/// The slow version's run, which checks nothing: under a table that the check accepts it meets every hit; under others it ends, and meets
/// hits alone. A row of W that slipped loses all of them.
#[test]
fn runs_without_the_check() {
    let (w, mut lost) = (bench_set(), 0);
    let keywords = slow::keywords(&w).expect("W passes");
    let mut slipped = bezowik::make(&w).expect("W passes");
    slipped.rows.copy_within(ROW..2 * ROW, 0);
    assert_eq!((slow::hits(&keywords, BENCH_TRACE).len(), slow::run_hits(&keywords, BENCH_TRACE, &slipped)), (5, vec![]));
    for seed in 5500..5700 {
        println!("seed {seed}");
        let mut random = Random::new(seed);
        let set = random_set(&mut random);
        let keywords = slow::keywords(&set).expect("the set passes");
        let table = bezowik::make(&set).expect("the set passes");
        let trace = random_trace(&mut random, &set, 200);
        let hits = slow::hits(&keywords, &trace);
        for lent in [table.clone(), ones(&table), smaller(&mut random, &table)] {
            assert_eq!(slow::run_hits(&keywords, &trace, &lent), hits);
        }
        let mut wrong = table.clone();
        for n in wrong.bytes.iter_mut().chain(wrong.rows.chunks_mut(ROW).flat_map(|row| &mut row[16..])) {
            *n = random.below(5) as u8;
        }
        let met = slow::run_hits(&keywords, &trace, &wrong);
        assert!(met.iter().all(|hit| hits.contains(hit)));
        lost += hits.len() - met.len();
    }
    assert!(lost > 1000, "{lost}");
}

#[test]
fn backward_beside_forward() {
    for seed in 6000..6200 {
        println!("seed {seed}");
        let mut random = Random::new(seed);
        let set = random_set(&mut random);
        let table = bezowik::make(&set).expect("the set passes");
        for lent in [table.clone(), ones(&table), smaller(&mut random, &table)] {
            let trace = random_trace(&mut random, &set, 200);
            same_backward(&set, &trace, &lent, WORKSPACE, random.below(60), 20 + random.below(2));
            let (mut ws, mut one, mut two) = (vec![0; WORKSPACE], vec![0; 400], vec![0; 400]);
            let forward = bezowik::forward(&set, &trace, &mut ws, &mut one);
            let backward = bezowik::backward(&set, &trace, &lent, &mut ws, &mut two);
            assert_eq!((forward.count, forward.energy, one), (backward.count, backward.energy, two));
        }
    }
}

#[test]
fn answer_buffers_of_every_length() {
    let w = bench_set();
    let table = bezowik::make(&w).expect("W passes");
    for answer in 0..41 {
        same_make(&w, 48, 144, BYTES, answer);
        same_check(&w, &table, 48, answer);
        same_backward(&w, BENCH_TRACE, &table, 48, 5, answer);
    }
}
