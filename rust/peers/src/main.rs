//! The benchmark beside aho-corasick: overlapping matches, as an NFA and as a DFA.

use aho_corasick::AhoCorasickBuilder;
use bezowik::measure::{backward_table, forward_table, Peer, Scan};

fn ready(words: &[Vec<u8>], energies: &[u64], dfa: bool) -> Scan {
    let automaton = AhoCorasickBuilder::new().dfa(dfa).build(words);
    let energies = energies.to_vec();
    Box::new(move |trace| automaton.find_overlapping_iter(trace).fold((0, 0), |(count, energy), hit| (count + 1, energy + energies[hit.pattern()])))
}

fn main() {
    forward_table(&[
        Peer { name: "aho NFA", ready: |words, energies| ready(words, energies, false) },
        Peer { name: "aho DFA", ready: |words, energies| ready(words, energies, true) },
    ]);
    println!();
    backward_table();
}
