//! The benchmark: how long a scan takes, beside the slow count and whatever peers a caller brings, in one run on one input.

use crate::random::Random;
use crate::{sets, slow, WORKSPACE};
use std::hint::black_box;
use std::time::Instant;

/// A peer, made ready for a set outside the measured time: it answers the count and the energy of a trace.
pub type Scan = Box<dyn Fn(&[u8]) -> (u64, u64)>;

/// A peer's name, and how it is made ready for keywords and their energies.
pub struct Peer {
    pub name: &'static str,
    pub ready: fn(&[Vec<u8>], &[u64]) -> Scan,
}

/// One kind of trace.
struct Kind {
    name: &'static str,
    trace: fn(&mut Random, &[Vec<u8>], usize) -> Vec<u8>,
}

const KINDS: [Kind; 3] = [
    Kind { name: "many hits", trace: |random, words, n| repeated(n, || words[random.below(words.len())].clone()) },
    Kind {
        name: "few hits",
        trace: |random, words, n| repeated(n, || if random.once_in(40) { words[random.below(words.len())].clone() } else { random.bytes(8, 60) }),
    },
    Kind { name: "no hit", trace: |random, _, n| (0..n).map(|_| 200 + random.below(50) as u8).collect() },
];

fn repeated(n: usize, mut piece: impl FnMut() -> Vec<u8>) -> Vec<u8> {
    let mut trace = Vec::with_capacity(n + 16);
    while trace.len() < n {
        trace.extend(piece());
    }
    trace.truncate(n);
    trace
}

/// Sixty-four keywords of `shortest` to 15 bytes, of sixty opcodes, no two the same.
pub fn words(random: &mut Random, shortest: usize) -> Vec<Vec<u8>> {
    let mut words: Vec<Vec<u8>> = Vec::new();
    while words.len() < 64 {
        let n = shortest + random.below(16 - shortest);
        let word = random.bytes(n, 60);
        if !words.contains(&word) {
            words.push(word);
        }
    }
    words
}

/// The set file of some keywords, with the energy of each.
pub fn set_file(words: &[Vec<u8>]) -> (Vec<u8>, Vec<u64>) {
    let energies: Vec<u64> = (0..words.len() as u64).map(|i| 10 + 7 * i).collect();
    (words.iter().zip(&energies).flat_map(|(w, &e)| sets::record(w, e as u32)).collect(), energies)
}

/// Nanoseconds of one call: the least of several runs, each of enough calls to be seen.
pub fn nanoseconds(mut call: impl FnMut()) -> f64 {
    let mut calls = 1u32;
    let mut least = f64::INFINITY;
    let mut runs = 0;
    while runs < 5 {
        let start = Instant::now();
        for _ in 0..calls {
            call();
        }
        let took = start.elapsed().as_secs_f64() * 1e9;
        if took < 2e7 && calls < 1 << 20 {
            calls *= 2;
            continue;
        }
        least = least.min(took / f64::from(calls));
        runs += 1;
    }
    least
}

/// Megabytes of a trace in a second.
fn speed(bytes: usize, nanoseconds: f64) -> f64 {
    1e3 * bytes as f64 / nanoseconds
}

/// Prints the first table: the forward scan's speed, how many times its time each other one takes, and which part of it testing the set and
/// laying its rows is.
pub fn forward_table(peers: &[Peer]) {
    let mut random = Random::new(64);
    let words = words(&mut random, 4);
    let (set, energies) = set_file(&words);
    let mut workspace = vec![0u16; WORKSPACE];
    let mut hits = vec![0u32; 1 << 21];
    let ready = nanoseconds(|| {
        black_box(crate::forward(black_box(&set), &[], &mut workspace, &mut hits));
    });
    print!("{:10} {:>9} {:>9} {:>9} {:>9} {:>9} {:>9}", "trace", "bytes", "hits", "MB/s", "ready", "host", "slow");
    for peer in peers {
        print!(" {:>12}", peer.name);
    }
    println!();
    for kind in &KINDS {
        for n in [1 << 10, 1 << 16, 1 << 20] {
            let trace = (kind.trace)(&mut random, &words, n);
            let found = crate::forward(&set, &trace, &mut workspace, &mut hits);
            let own = nanoseconds(|| {
                black_box(crate::forward(black_box(&set), black_box(&trace), &mut workspace, &mut hits));
            });
            let host = nanoseconds(|| {
                black_box(crate::cost(black_box(&set), black_box(&trace)));
            });
            let keywords = slow::keywords(&set).expect("the set passes");
            let slow = nanoseconds(|| {
                black_box(slow::hits(black_box(&keywords), black_box(&trace)));
            });
            let speed = speed(n, own);
            print!("{:10} {n:9} {:9} {speed:9.1} {:9.2} {:9.2} {:9.2}", kind.name, found.count, ready / own, host / own, slow / own);
            for peer in peers {
                let scan = (peer.ready)(&words, &energies);
                assert_eq!(scan(&trace), (u64::from(found.count), found.energy), "{} finds something else", peer.name);
                let took = nanoseconds(|| {
                    black_box(scan(black_box(&trace)));
                });
                print!(" {:12.2}", took / own);
            }
            println!();
        }
    }
    for peer in peers {
        let took = nanoseconds(|| {
            drop(black_box((peer.ready)(black_box(&words), black_box(&energies))));
        });
        println!("{} is made ready beforehand, in {:.1} times what the forward scan takes for that", peer.name, took / ready);
    }
}

/// Prints the second table: the backward scan's speed and its time beside the forward scan's, by the shortest keyword's length.
pub fn backward_table() {
    let n = 1 << 20;
    let mut workspace = vec![0u16; WORKSPACE];
    let mut hits = vec![0u32; 1 << 21];
    println!("{:10} {:>9} {:>9} {:>9} {:>9} {:>12} {:>9}", "trace", "shortest", "hits", "MB/s", "backward", "asked a byte", "check");
    for shortest in [1, 2, 4, 8, 12] {
        let mut random = Random::new(1000 + shortest as u64);
        let words = words(&mut random, shortest);
        let (set, _) = set_file(&words);
        let table = crate::make(&set).expect("the set passes");
        for kind in &KINDS {
            let trace = (kind.trace)(&mut random, &words, n);
            let found = crate::backward(&set, &trace, &table, &mut workspace, &mut hits);
            let forward = nanoseconds(|| {
                black_box(crate::forward(black_box(&set), black_box(&trace), &mut workspace, &mut hits));
            });
            let backward = nanoseconds(|| {
                black_box(crate::backward(black_box(&set), black_box(&trace), &table, &mut workspace, &mut hits));
            });
            let check = nanoseconds(|| {
                black_box(crate::backward(black_box(&set), &[], &table, &mut workspace, &mut hits));
            });
            println!(
                "{:10} {shortest:9} {:9} {:9.1} {:9.2} {:12.2} {:9.3}",
                kind.name,
                found.count,
                speed(n, backward),
                backward / forward,
                f64::from(found.questions) / n as f64,
                check / backward
            );
        }
    }
}
