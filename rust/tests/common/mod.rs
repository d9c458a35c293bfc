//! Inputs that the tests share.
#![allow(dead_code)]

use bezowik::random::Random;
use bezowik::sets::record;
use bezowik::RECORD;

/// Document 01's set W and trace T.
pub fn bench_set() -> Vec<u8> {
    [record(b"LM", 40), record(b"ALM", 55), record(b"LMLA", 90)].concat()
}

pub const BENCH_TRACE: &[u8] = b"ALMLALM";

/// A set that passes its tests: few letters, so that keywords overlap and nest.
pub fn random_set(random: &mut Random) -> Vec<u8> {
    let letters = 1 + random.below(4);
    let longest = 1 + random.below(15);
    let mut words: Vec<Vec<u8>> = Vec::new();
    for _ in 0..1 + random.below(64) {
        let n = 1 + random.below(longest);
        let word = random.bytes(n, letters);
        if !words.contains(&word) {
            words.push(word);
        }
    }
    words.iter().flat_map(|w| record(w, random.number() as u32)).collect()
}

/// A trace of at most n bytes, of pieces of keywords and of other bytes.
pub fn random_trace(random: &mut Random, set: &[u8], n: usize) -> Vec<u8> {
    let n = random.below(n + 1);
    let mut trace = Vec::new();
    while trace.len() < n {
        let record = &set[RECORD * random.below(set.len() / RECORD)..];
        let long = 1 + record[0] as usize % 15;
        let from = random.below(long);
        trace.extend_from_slice(&record[1 + from..1 + from + 1 + random.below(long - from)]);
        if random.once_in(3) {
            trace.push(random.below(6) as u8);
        }
    }
    trace.truncate(n);
    trace
}

/// A set with something wrong, or changed so that it may be.
pub fn damaged_set(random: &mut Random, set: &[u8]) -> Vec<u8> {
    let mut damaged = set.to_vec();
    for _ in 0..1 + random.below(3) {
        if damaged.is_empty() {
            break;
        }
        let at = random.below(damaged.len());
        match random.below(6) {
            0 => damaged.truncate(at),
            1 => damaged[at] = random.number() as u8,
            2 => damaged[at / RECORD * RECORD] = [0, 16, 255, 15, 1][random.below(5)],
            3 => damaged.extend_from_within(at / RECORD * RECORD..),
            4 => damaged[at] ^= 1 << random.below(8),
            _ => damaged.push(random.number() as u8),
        }
    }
    damaged
}
