//! Hostile and large inputs through the C boundary: buffers of every small length, null pointers, the largest set with the longest trace, and many
//! damaged calls. Result and all buffers are compared with the slow versions, or with what is known of the input.

mod common;

use bezowik::random::Random;
use bezowik::sets::{record, Keyword};
use bezowik::slow::{self, Way};
use bezowik::{c, Answer, Table, ANSWER, BYTES, RECORD, ROW, WORKSPACE};
use common::{bench_set, damaged_set, random_trace, BENCH_TRACE};
use std::collections::{BTreeMap, HashMap};
use std::fmt::Debug;
use std::time::Instant;

const LONGEST: usize = 1_048_576;

// ---- what a call lends ----

#[derive(Clone, Copy, Debug, PartialEq, Eq, PartialOrd, Ord)]
enum Job {
    Cost,
    Forward,
    Backward,
    Make,
    Check,
}

const JOBS: [Job; 5] = [Job::Cost, Job::Forward, Job::Backward, Job::Make, Job::Check];

#[derive(Clone, Copy, Debug, PartialEq, Eq)]
enum Part {
    Set,
    Trace,
    RowFile,
    ByteFile,
    Workspace,
    Hits,
    RowBuffer,
    ByteBuffer,
    Answer,
}

impl Job {
    /// The buffers that the job's function takes.
    fn parts(self) -> &'static [Part] {
        use Part::*;
        match self {
            Job::Cost => &[Set, Trace, Answer],
            Job::Forward => &[Set, Trace, Workspace, Hits, Answer],
            Job::Backward => &[Set, Trace, RowFile, ByteFile, Workspace, Hits, Answer],
            Job::Make => &[Set, Workspace, RowBuffer, ByteBuffer, Answer],
            Job::Check => &[Set, RowFile, ByteFile, Workspace, Answer],
        }
    }

    fn way(self) -> Way {
        match self {
            Job::Cost | Job::Forward => Way::Forward,
            Job::Backward | Job::Make | Job::Check => Way::Backward,
        }
    }
}

/// An element of a buffer that is written.
trait Element: Copy + Debug + PartialEq {
    fn low(n: u64) -> Self;
}

impl Element for u8 {
    fn low(n: u64) -> u8 {
        n as u8
    }
}

impl Element for u16 {
    fn low(n: u64) -> u16 {
        n as u16
    }
}

impl Element for u32 {
    fn low(n: u64) -> u32 {
        n as u32
    }
}

/// A buffer that is written, with elements on either side of it that no call may change. It holds something beforehand, by a salt; salt 0 is zeros.
#[derive(Clone, Debug, PartialEq)]
struct Fenced<T>(Vec<T>);

const FENCE: usize = 8;
const SALT: u64 = 0x9E37_79B9_7F4A_7C15;

impl<T: Element> Fenced<T> {
    fn new(n: usize, salt: u64) -> Fenced<T> {
        let element = |i: usize| {
            let salt = if (FENCE..FENCE + n).contains(&i) { salt } else { SALT };
            T::low((i as u64 + 1).wrapping_mul(salt) >> 24)
        };
        Fenced((0..n + 2 * FENCE).map(element).collect())
    }

    fn len(&self) -> usize {
        self.0.len() - 2 * FENCE
    }

    fn inside(&self) -> &[T] {
        &self.0[FENCE..self.0.len() - FENCE]
    }

    fn lent(&mut self) -> &mut [T] {
        let n = self.0.len();
        &mut self.0[FENCE..n - FENCE]
    }
}

/// All buffers; each job takes its own of them and must leave the others.
#[derive(Clone, Debug, PartialEq)]
struct Lent {
    set: Vec<u8>,
    trace: Vec<u8>,
    table: Table,
    workspace: Fenced<u16>,
    hits: Fenced<u32>,
    row_buffer: Fenced<u8>,
    byte_buffer: Fenced<u8>,
    answer: Fenced<u8>,
}

impl Lent {
    /// All that a job needs for a set of so many rows and a trace of so many hits, and no element more.
    fn exact(set: &[u8], trace: &[u8], table: &Table, rows: usize, hits: usize) -> Lent {
        Lent {
            set: set.to_vec(),
            trace: trace.to_vec(),
            table: table.clone(),
            workspace: Fenced::new(6 * rows, SALT),
            hits: Fenced::new(2 * hits, SALT),
            row_buffer: Fenced::new(ROW * rows, SALT),
            byte_buffer: Fenced::new(BYTES, SALT),
            answer: Fenced::new(ANSWER, SALT),
        }
    }

    fn length(&self, part: Part) -> usize {
        match part {
            Part::Set => self.set.len(),
            Part::Trace => self.trace.len(),
            Part::RowFile => self.table.rows.len(),
            Part::ByteFile => self.table.bytes.len(),
            Part::Workspace => self.workspace.len(),
            Part::Hits => self.hits.len(),
            Part::RowBuffer => self.row_buffer.len(),
            Part::ByteBuffer => self.byte_buffer.len(),
            Part::Answer => self.answer.len(),
        }
    }

    /// The same with one buffer of another length. What is read is cut, or goes on from its start.
    fn with(&self, part: Part, n: usize) -> Lent {
        let mut new = self.clone();
        match part {
            Part::Set => new.set = cycled(&self.set, n),
            Part::Trace => new.trace = cycled(&self.trace, n),
            Part::RowFile => new.table.rows = cycled(&self.table.rows, n),
            Part::ByteFile => new.table.bytes = cycled(&self.table.bytes, n),
            Part::Workspace => new.workspace = Fenced::new(n, SALT),
            Part::Hits => new.hits = Fenced::new(n, SALT),
            Part::RowBuffer => new.row_buffer = Fenced::new(n, SALT),
            Part::ByteBuffer => new.byte_buffer = Fenced::new(n, SALT),
            Part::Answer => new.answer = Fenced::new(n, SALT),
        }
        new
    }
}

fn cycled(bytes: &[u8], n: usize) -> Vec<u8> {
    bytes.iter().copied().cycle().take(n).collect()
}

/// What a job needs for a set that passes, and no element more.
fn right(job: Job, set: &[u8], trace: &[u8]) -> Lent {
    let keywords = slow::keywords(set).expect("the set passes");
    let rows = slow::rows(&keywords, job.way()).len();
    Lent::exact(set, trace, &slow::table(&keywords), rows, slow::hits(&keywords, trace).len())
}

// ---- the three ways to call ----

/// By the package's safe functions.
fn library(job: Job, l: &mut Lent) -> u16 {
    let (ws, hs, an) = (l.workspace.lent(), l.hits.lent(), l.answer.lent());
    match job {
        Job::Cost => bezowik::cost_into(&l.set, &l.trace, an),
        Job::Forward => bezowik::forward_into(&l.set, &l.trace, ws, hs, an),
        Job::Backward => bezowik::backward_into(&l.set, &l.trace, &l.table, ws, hs, an),
        Job::Make => bezowik::make_into(&l.set, ws, l.row_buffer.lent(), l.byte_buffer.lent(), an),
        Job::Check => bezowik::check_into(&l.set, &l.table, ws, an),
    }
}

/// By the slow versions. An answer buffer that is too short stops every job.
fn slowly(job: Job, l: &mut Lent) -> u16 {
    let (ws, hs, an) = (l.workspace.lent(), l.hits.lent(), l.answer.lent());
    if an.len() < ANSWER {
        return 17;
    }
    let told = match job {
        Job::Cost => return slow::cost_into(&l.set, &l.trace, an),
        Job::Forward => slow::forward(&l.set, &l.trace, ws, hs),
        Job::Backward => slow::backward(&l.set, &l.trace, &l.table, ws, hs),
        Job::Make => slow::make(&l.set, ws, l.row_buffer.lent(), l.byte_buffer.lent()),
        Job::Check => slow::check(&l.set, &l.table, ws),
    };
    slow::over(an, &told.to_bytes());
    told.number
}

/// Where a buffer stands: null where it has no element.
fn read<T>(buffer: &[T]) -> *const T {
    if buffer.is_empty() {
        std::ptr::null()
    } else {
        buffer.as_ptr()
    }
}

fn written<T>(buffer: &mut [T]) -> *mut T {
    if buffer.is_empty() {
        std::ptr::null_mut()
    } else {
        buffer.as_mut_ptr()
    }
}

/// By the C functions themselves, with null for every buffer that has no element.
fn with_nulls(job: Job, l: &mut Lent) -> u16 {
    let (set, set_n) = (read(&l.set), l.set.len());
    let (trace, trace_n) = (read(&l.trace), l.trace.len());
    let (rows, rows_n) = (read(&l.table.rows), l.table.rows.len());
    let (bytes, bytes_n) = (read(&l.table.bytes), l.table.bytes.len());
    let (ws, ws_n) = (written(l.workspace.lent()), l.workspace.len());
    let (hs, hs_n) = (written(l.hits.lent()), l.hits.len());
    let (rb, rb_n) = (written(l.row_buffer.lent()), l.row_buffer.len());
    let (bb, bb_n) = (written(l.byte_buffer.lent()), l.byte_buffer.len());
    let (an, an_n) = (written(l.answer.lent()), l.answer.len());
    unsafe {
        match job {
            Job::Cost => c::bezowik_cost(set, set_n, trace, trace_n, an, an_n),
            Job::Forward => c::bezowik_forward(set, set_n, trace, trace_n, ws, ws_n, hs, hs_n, an, an_n),
            Job::Backward => c::bezowik_backward(set, set_n, trace, trace_n, rows, rows_n, bytes, bytes_n, ws, ws_n, hs, hs_n, an, an_n),
            Job::Make => c::bezowik_make(set, set_n, ws, ws_n, rb, rb_n, bb, bb_n, an, an_n),
            Job::Check => c::bezowik_check(set, set_n, rows, rows_n, bytes, bytes_n, ws, ws_n, an, an_n),
        }
    }
}

// ---- comparing ----

/// How many calls of each job had which result, and the hits that the scans answered.
struct Tally {
    met: BTreeMap<(Job, u16), usize>,
    hits: usize,
    start: Instant,
}

impl Tally {
    fn new() -> Tally {
        Tally { met: BTreeMap::new(), hits: 0, start: Instant::now() }
    }

    fn calls(&self) -> usize {
        self.met.values().sum()
    }

    fn tell(&self, test: &str) {
        println!(
            "{test}: {} calls in {:.2} s, {} hits; (job, result): calls {:?}",
            self.calls(),
            self.start.elapsed().as_secs_f64(),
            self.hits,
            self.met
        );
    }
}

type Caller = fn(Job, &mut Lent) -> u16;

/// One call, which must have the expected result and leave every buffer as expected. What it left.
fn compare(tally: &mut Tally, call: Caller, job: Job, before: &Lent, expected: (u16, Lent)) -> Lent {
    let mut left = before.clone();
    let result = call(job, &mut left);
    // even what is lent for reading is looked at anew
    std::hint::black_box(&mut left);
    *tally.met.entry((job, result)).or_default() += 1;
    if result != expected.0 || left != expected.1 {
        panic!("{job:?}: result {result}, expected {}\n{}lent: {}", expected.0, differences(&left, &expected.1), whole(job, before));
    }
    if result == 0 && job <= Job::Backward {
        tally.hits += Answer::from_bytes(left.answer.inside()).count as usize;
    }
    left
}

/// One call beside the slow version of it.
fn same(tally: &mut Tally, call: Caller, job: Job, before: &Lent) -> Lent {
    let mut left = before.clone();
    let result = slowly(job, &mut left);
    compare(tally, call, job, before, (result, left))
}

/// The first place where a buffer is not as expected, less the fence in front.
fn difference<T: PartialEq + Debug>(name: &str, fence: usize, left: &[T], expected: &[T]) -> String {
    match (0..left.len()).find(|&i| left[i] != expected[i]) {
        Some(i) => format!("{name}: element {} is {:?}, expected {:?}\n", i as isize - fence as isize, left[i], expected[i]),
        None => String::new(),
    }
}

/// For every buffer that is not as expected the first such place.
fn differences(left: &Lent, expected: &Lent) -> String {
    [
        difference("set", 0, &left.set, &expected.set),
        difference("trace", 0, &left.trace, &expected.trace),
        difference("row file", 0, &left.table.rows, &expected.table.rows),
        difference("byte file", 0, &left.table.bytes, &expected.table.bytes),
        difference("workspace", FENCE, &left.workspace.0, &expected.workspace.0),
        difference("hits", FENCE, &left.hits.0, &expected.hits.0),
        difference("row buffer", FENCE, &left.row_buffer.0, &expected.row_buffer.0),
        difference("byte buffer", FENCE, &left.byte_buffer.0, &expected.byte_buffer.0),
        difference("answer", FENCE, &left.answer.0, &expected.answer.0),
    ]
    .concat()
}

/// A call's buffers as they were before it, with their fences; of a large call the lengths alone.
fn whole(job: Job, before: &Lent) -> String {
    if before.trace.len() > 10_000 {
        return job.parts().iter().map(|&part| format!("{part:?} {} ", before.length(part))).collect();
    }
    format!("{before:?}")
}

// ---- every length ----

/// The lengths of which every one is tried go some bytes over two records.
const SHORT: usize = 2 * RECORD + 4;

/// Every short length, and those about the right one.
fn lengths(right: usize) -> Vec<usize> {
    let about = right.saturating_sub(2).max(SHORT + 1)..=right + 2;
    (0..=SHORT).chain(about).collect()
}

/// Sets with which the right lengths are small, and document 01's set W.
fn small_sets() -> Vec<Vec<u8>> {
    vec![
        record(b"L", 7),
        [record(b"L", 7), record(b"M", 4_294_967_295)].concat(),
        record(b"LM", 0x0102_0304),
        [record(b"A", 1), record(b"AA", 2), record(b"AAA", 4)].concat(),
        bench_set(),
    ]
}

/// Every short length for each buffer of each function, the others being right.
#[test]
fn one_buffer_of_every_length() {
    let mut tally = Tally::new();
    for set in small_sets() {
        for job in JOBS {
            let right = right(job, &set, BENCH_TRACE);
            for &part in job.parts() {
                for n in lengths(right.length(part)) {
                    same(&mut tally, library, job, &right.with(part, n));
                }
            }
        }
    }
    tally.tell("one_buffer_of_every_length");
}

/// Every two buffers of a job with every two lengths that are chosen for their right ones.
fn two_lengths(tally: &mut Tally, job: Job, right: &Lent, lengths: fn(usize) -> Vec<usize>) {
    for (i, &one) in job.parts().iter().enumerate() {
        for n in lengths(right.length(one)) {
            let changed = right.with(one, n);
            for &two in &job.parts()[i + 1..] {
                for k in lengths(right.length(two)) {
                    same(tally, library, job, &changed.with(two, k));
                }
            }
        }
    }
}

/// Every two buffers of each function, of every two short lengths: which of two refusals comes first, and what a call that is refused leaves.
#[test]
fn two_buffers_of_every_length() {
    let mut tally = Tally::new();
    for set in small_sets() {
        for job in JOBS {
            two_lengths(&mut tally, job, &right(job, &set, BENCH_TRACE), |_| (0..=SHORT).collect());
        }
    }
    tally.tell("two_buffers_of_every_length");
}

/// The same with lengths about the right ones, which are longer for row files and byte files.
#[test]
fn two_buffers_about_the_right_lengths() {
    let mut tally = Tally::new();
    let about = |right: usize| vec![0, 1, right / 2, right.saturating_sub(1), right, right + 1, right + ROW, right + RECORD];
    for set in small_sets() {
        for job in JOBS {
            two_lengths(&mut tally, job, &right(job, &set, BENCH_TRACE), about);
        }
    }
    tally.tell("two_buffers_about_the_right_lengths");
}

// ---- null ----

/// What a job answers where this buffer alone has no element.
fn without(part: Part) -> u16 {
    match part {
        Part::Trace | Part::Hits => 0,
        Part::Set => 1,
        Part::Workspace => 9,
        Part::RowFile => 10,
        Part::ByteFile => 13,
        Part::RowBuffer => 15,
        Part::ByteBuffer => 16,
        Part::Answer => 17,
    }
}

/// Null with length 0 for each pointer of each function, for every choice of them and so for all at once.
#[test]
fn null_pointers() {
    let mut tally = Tally::new();
    for set in small_sets() {
        for job in JOBS {
            let right = right(job, &set, BENCH_TRACE);
            for choice in 0..1 << job.parts().len() {
                let chosen: Vec<Part> = (0..job.parts().len()).filter(|i| choice >> i & 1 == 1).map(|i| job.parts()[i]).collect();
                let lent = chosen.iter().fold(right.clone(), |lent, &part| lent.with(part, 0));
                if let [alone] = chosen[..] {
                    assert_eq!(slowly(job, &mut lent.clone()), without(alone), "{job:?} with no {alone:?}");
                }
                same(&mut tally, with_nulls, job, &lent);
            }
        }
    }
    tally.tell("null_pointers");
}

// ---- the largest set and the longest trace ----

/// A set with the most rows, and what is known of a trace: its hits and the questions of both scans.
struct Large {
    name: &'static str,
    set: Vec<u8>,
    trace: Vec<u8>,
    hits: Vec<(u32, u32)>,
    forward: u32,
    backward: u32,
    /// The trace repeats after so many bytes.
    period: usize,
}

/// The largest set of one kind: 64 keywords of 15 bytes each.
fn largest_set(word: fn(usize) -> Vec<u8>) -> Vec<u8> {
    (0..64).flat_map(|k| record(&word(k), 4_294_967_295 - k as u32)).collect()
}

/// Keyword k: the byte k and then fourteen bytes from 64 to 254. So no keyword begins within another, and 255 stands in none.
fn apart(k: usize) -> Vec<u8> {
    (0..15).map(|i| if i == 0 { k as u8 } else { 64 + ((k + 13 * i) % 191) as u8 }).collect()
}

/// Keyword k: fifteen bytes from k on in steps of 17. So in a trace of such steps a keyword begins at every byte under 64.
fn stepped(k: usize) -> Vec<u8> {
    (0..15).map(|i| (k + 17 * i) as u8).collect()
}

/// One keyword after the other: one ends at every fifteenth byte. The forward scan asks one question for each byte, and one more for each after a
/// keyword's end. The backward scan moves on by fifteen and asks sixteen questions at each end, but at the first, where no byte remains, fifteen.
fn one_after_another(n: usize) -> Large {
    let trace = (0..64).flat_map(apart).cycle().take(n).collect();
    let hits: Vec<(u32, u32)> = (0..n / 15).map(|i| (15 * i as u32 + 15, i as u32 % 64)).collect();
    questioned(Large { name: "one after another", set: largest_set(apart), trace, hits, forward: 0, backward: 0, period: 960 })
}

/// Steps of 17: the keywords overlap, and a fourth of all ends are hits. The forward scan asks one question for each byte, and one more for each after a
/// hit. The backward scan moves on from hit to hit, since the edge number is the distance to the next byte under 64, at most thirteen.
fn steps(n: usize) -> Large {
    let trace: Vec<u8> = (0..n).map(|i| (17 * i) as u8).collect();
    let hits = (15..=n).map(|end| (end as u32, u32::from(trace[end - 15]))).filter(|&(_, k)| k < 64).collect();
    questioned(Large { name: "steps", set: largest_set(stepped), trace, hits, forward: 0, backward: 0, period: 256 })
}

/// The set that the proofs give for the most rows, and a trace of one byte: a keyword ends at every end from the fifteenth on. The forward scan asks
/// one question for each byte, and one more for each after a hit. The backward scan moves on by one.
fn fifteen_times(n: usize) -> Large {
    let hits = (15..=n as u32).map(|end| (end, 0)).collect();
    let set = largest_set(|k| vec![k as u8; 15]);
    questioned(Large { name: "fifteen times", set, trace: vec![0; n], hits, forward: 0, backward: 0, period: 16 })
}

/// The questions of the three inputs above, by their hits.
fn questioned(mut large: Large) -> Large {
    let n = large.trace.len() as u32;
    large.forward = n + large.hits.iter().filter(|&&(end, _)| end < n).count() as u32;
    large.backward = 16 * large.hits.len() as u32 - 1;
    large
}

/// A byte of no keyword throughout: no hit, one question for each byte, or one for each fifteen.
fn nothing(n: usize) -> Large {
    let (forward, backward) = (n as u32, n as u32 / 15);
    Large { name: "nothing", set: largest_set(apart), trace: vec![255; n], hits: vec![], forward, backward, period: 16 }
}

impl Large {
    fn keywords(&self) -> Vec<Keyword> {
        slow::keywords(&self.set).expect("the set passes")
    }

    fn lent(&self, table: &Table) -> Lent {
        Lent::exact(&self.set, &self.trace, table, 961, self.hits.len())
    }

    /// Hit buffers of no, of small and of odd size, and about the size of the whole list.
    fn hit_numbers(&self) -> Vec<usize> {
        let all = 2 * self.hits.len();
        [0, 1, 2, 3, 11].into_iter().chain(all.saturating_sub(1).max(12)..=all.max(12) + 3).collect()
    }
}

/// The questions of a run that visits every end of a trace that repeats, from the slow version on its front: each period after the first has the same.
fn repeated(large: &Large, keywords: &[Keyword], table: &Table) -> u32 {
    let front = large.period + large.trace.len() % large.period;
    let asked = |n: usize| slow::run_questions(keywords, &large.trace[..n], table);
    let periods = (large.trace.len() - front) / large.period;
    asked(front) + periods as u32 * (asked(front + large.period) - asked(front))
}

fn ones(table: &Table) -> Table {
    let mut table = table.clone();
    for row in table.rows.chunks_mut(ROW) {
        row[16..].fill(1);
    }
    table.bytes.fill(1);
    table
}

/// What a call leaves that is not refused: the rows, the answer and, of a scan, the pairs that fit.
fn done(before: &Lent, cells: &[u16], hits: &[(u32, u32)], answer: Answer) -> (u16, Lent) {
    let mut left = before.clone();
    slow::over(left.workspace.lent(), cells);
    slow::list(hits, left.hits.lent());
    slow::over(left.answer.lent(), &answer.to_bytes());
    (0, left)
}

/// What a call leaves that is refused before its workspace is written.
fn refused(before: &Lent, number: u16, place: usize) -> (u16, Lent) {
    let mut left = before.clone();
    slow::over(left.answer.lent(), &Answer::refused(number, place).to_bytes());
    (number, left)
}

/// The largest set has 961 rows both ways, and what is said of its traces is right: all of it compared with the slow versions on shorter traces.
#[test]
fn largest_set_with_short_traces() {
    let mut tally = Tally::new();
    for n in [0, 1, 14, 15, 16, 400, 3_001] {
        for large in [one_after_another(n.max(15)), steps(n.max(15)), fifteen_times(n.max(15)), nothing(n)] {
            let keywords = large.keywords();
            for way in [Way::Forward, Way::Backward] {
                assert_eq!(slow::rows(&keywords, way).len(), 961);
            }
            let table = slow::table(&keywords);
            let lent = large.lent(&table);
            for job in JOBS {
                same(&mut tally, library, job, &lent);
            }
            let found = slow::found(&keywords, &large.hits, large.forward);
            assert_eq!(slow::forward(&large.set, &large.trace, &mut vec![0; WORKSPACE], &mut []), found, "{} of {n}", large.name);
            let found = slow::found(&keywords, &large.hits, large.backward);
            assert_eq!(slow::backward(&large.set, &large.trace, &table, &mut vec![0; WORKSPACE], &mut []), found, "{} of {n}", large.name);
            if n > 2 * large.period {
                let asked = slow::run_questions(&keywords, &large.trace, &ones(&table));
                assert_eq!(repeated(&large, &keywords, &ones(&table)), asked, "{} of {n}", large.name);
            }
        }
    }
    tally.tell("largest_set_with_short_traces");
}

/// The forward scan and the host call of the longest trace: exact counts, questions, energy and pairs, with hit buffers of odd and small size.
#[test]
fn longest_trace_forward() {
    let mut tally = Tally::new();
    for large in [one_after_another(LONGEST), steps(LONGEST), fifteen_times(LONGEST), nothing(LONGEST)] {
        let keywords = large.keywords();
        let cells = slow::cells(&keywords, Way::Forward);
        let answer = slow::found(&keywords, &large.hits, large.forward);
        println!("{}: {answer:?}", large.name);
        let lent = large.lent(&Table::default());
        for n in large.hit_numbers() {
            let lent = lent.with(Part::Hits, n);
            compare(&mut tally, library, Job::Forward, &lent, done(&lent, &cells, &large.hits, answer));
        }
        compare(&mut tally, library, Job::Cost, &lent, done(&lent, &[], &[], answer));
    }
    tally.tell("longest_trace_forward");
}

/// The backward scan of the longest trace, under the largest numbers and under a table of ones.
#[test]
fn longest_trace_backward() {
    let mut tally = Tally::new();
    for large in [one_after_another(LONGEST), steps(LONGEST), fifteen_times(LONGEST), nothing(LONGEST)] {
        let keywords = large.keywords();
        let cells = slow::cells(&keywords, Way::Backward);
        let table = slow::table(&keywords);
        let answer = slow::found(&keywords, &large.hits, large.backward);
        println!("{}: {answer:?}", large.name);
        let lent = large.lent(&table);
        for n in large.hit_numbers() {
            let lent = lent.with(Part::Hits, n);
            compare(&mut tally, library, Job::Backward, &lent, done(&lent, &cells, &large.hits, answer));
        }
        let lent = large.lent(&ones(&table)).with(Part::Hits, 7);
        let answer = slow::found(&keywords, &large.hits, repeated(&large, &keywords, &lent.table));
        println!("{}, by ones: {answer:?}", large.name);
        compare(&mut tally, library, Job::Backward, &lent, done(&lent, &cells, &large.hits, answer));
    }
    tally.tell("longest_trace_backward");
}

/// The largest table made and checked, with buffers of exactly the size needed, one element less and more, and faults in its last places.
#[test]
fn largest_table() {
    let mut tally = Tally::new();
    for large in [one_after_another(LONGEST), steps(LONGEST)] {
        let keywords = large.keywords();
        let cells = slow::cells(&keywords, Way::Backward);
        let table = slow::table(&keywords);
        let lent = large.lent(&table);
        let counted = Answer { count: 961, ..Answer::default() };
        let refused = |before: &Lent, number, place| (number, done(before, &cells, &[], Answer::refused(number, place)).1);
        // making
        for lent in [lent.clone(), lent.with(Part::RowBuffer, 961 * ROW + 1).with(Part::ByteBuffer, BYTES + 1)] {
            let mut made = done(&lent, &cells, &[], counted);
            slow::over(made.1.row_buffer.lent(), &table.rows);
            slow::over(made.1.byte_buffer.lent(), &table.bytes);
            compare(&mut tally, library, Job::Make, &lent, made);
        }
        let short = lent.with(Part::RowBuffer, 961 * ROW - 1);
        compare(&mut tally, library, Job::Make, &short, refused(&short, 15, 961));
        let short = lent.with(Part::ByteBuffer, BYTES - 1);
        compare(&mut tally, library, Job::Make, &short, refused(&short, 16, 0));
        // the check, and the backward scan, which has it done
        for lent in [lent.clone(), large.lent(&ones(&table))] {
            compare(&mut tally, library, Job::Check, &lent, done(&lent, &cells, &[], counted));
        }
        for job in [Job::Check, Job::Backward] {
            let mut expect = |lent: &Lent, number, place| compare(&mut tally, library, job, lent, refused(lent, number, place));
            for n in [961 * ROW - 1, 961 * ROW + 1] {
                expect(&lent.with(Part::RowFile, n), 10, 961);
            }
            for n in [BYTES - 1, BYTES + 1] {
                expect(&lent.with(Part::ByteFile, n), 13, 0);
            }
            for (at, number) in [(15, 11), (16, 12), (17, 12)] {
                let mut wrong = lent.clone();
                wrong.table.rows[960 * ROW + at] += 1;
                expect(&wrong, number, 960);
            }
            for far in [0, 16] {
                let mut wrong = lent.clone();
                wrong.table.bytes[BYTES - 1] = far;
                expect(&wrong, 14, BYTES - 1);
            }
        }
    }
    tally.tell("largest_table");
}

/// One element past a limit: a workspace of one number too few (9, place 961), a trace of one byte too many (8, before 9), a record too many, a set
/// of a byte too few or too many.
#[test]
fn just_past_the_limits() {
    let mut tally = Tally::new();
    for large in [one_after_another(LONGEST), steps(LONGEST)] {
        let lent = large.lent(&slow::table(&large.keywords()));
        assert_eq!(lent.workspace.len(), WORKSPACE);
        let mut expect = |job: Job, lent: &Lent, number, place| compare(&mut tally, library, job, lent, refused(lent, number, place));
        let short = lent.with(Part::Workspace, WORKSPACE - 1);
        for job in [Job::Forward, Job::Backward, Job::Make, Job::Check] {
            expect(job, &short, 9, 961);
        }
        let long = lent.with(Part::Trace, LONGEST + 1);
        for job in [Job::Cost, Job::Forward, Job::Backward] {
            expect(job, &long, 8, 0);
            expect(job, &long.with(Part::Workspace, WORKSPACE - 1), 8, 0);
        }
        let many = lent.with(Part::Set, 65 * RECORD);
        for job in JOBS {
            expect(job, &many, 3, 0);
            for n in [64 * RECORD - 1, 64 * RECORD + 1] {
                expect(job, &lent.with(Part::Set, n), 2, 0);
            }
        }
        let unanswered = lent.with(Part::Answer, ANSWER - 1);
        for job in JOBS {
            compare(&mut tally, library, job, &unanswered, (17, unanswered.clone()));
        }
    }
    tally.tell("just_past_the_limits");
}

// ---- many damaged calls ----

const SEEDS: std::ops::Range<u64> = 70_000..70_100;
const SETS_A_SEED: usize = 50;
const ROUNDS_A_SET: usize = 4;

/// 1 to 4 keywords of 1 to 4 bytes, of few letters.
fn tiny_set(random: &mut Random) -> Vec<u8> {
    let letters = 1 + random.below(3);
    let mut words: Vec<Vec<u8>> = Vec::new();
    for _ in 0..1 + random.below(4) {
        let n = 1 + random.below(4);
        let word = random.bytes(n, letters);
        if !words.contains(&word) {
            words.push(word);
        }
    }
    words.iter().flat_map(|w| record(w, random.number() as u32)).collect()
}

/// The set, the set damaged, the set many times over, or any bytes.
fn lent_set(random: &mut Random, set: &[u8]) -> Vec<u8> {
    match random.below(16) {
        0..=9 => set.to_vec(),
        10..=13 => damaged_set(random, set),
        14 => set.repeat(1 + random.below(70)),
        _ => {
            let (n, letters) = (random.below(3 * RECORD + 6), 1 + random.below(256));
            random.bytes(n, letters)
        }
    }
}

/// Pieces of keywords, or any bytes.
fn lent_trace(random: &mut Random, set: &[u8]) -> Vec<u8> {
    if random.once_in(8) {
        let n = random.below(31);
        return random.bytes(n, 256);
    }
    random_trace(random, set, 30)
}

/// What right buffers are made from: the table with the largest numbers, and the rows either way.
#[derive(Clone)]
struct Known {
    table: Table,
    forward: usize,
    backward: usize,
}

/// Nothing is known of a set that does not pass.
fn known(set: &[u8]) -> Option<Known> {
    let keywords = slow::keywords(set).ok()?;
    let rows = |way| slow::rows(&keywords, way).len();
    Some(Known { table: slow::table(&keywords), forward: rows(Way::Forward), backward: rows(Way::Backward) })
}

/// What is known of a set and of what it was changed into, each computed once.
#[derive(Default)]
struct Cache(HashMap<Vec<u8>, Option<Known>>);

impl Cache {
    fn known(&mut self, set: &[u8]) -> Option<Known> {
        self.0.entry(set.to_vec()).or_insert_with(|| known(set)).clone()
    }
}

/// A table with smaller numbers, none of them 0.
fn smaller(random: &mut Random, largest: &Table) -> Table {
    let mut table = largest.clone();
    let numbers = table.rows.chunks_mut(ROW).flat_map(|row| &mut row[16..]).chain(&mut table.bytes);
    for n in numbers {
        *n = 1 + random.below(usize::from(*n)) as u8;
    }
    table
}

fn swap_rows(rows: &mut [u8], i: usize, j: usize) {
    for k in 0..ROW {
        rows.swap(ROW * i + k, ROW * j + k);
    }
}

/// Another number at a place, if it was not cut off before.
fn put(numbers: &mut [u8], at: usize, new: u8) {
    if let Some(n) = numbers.get_mut(at) {
        *n = new;
    }
}

/// One thing of a table changed, mostly so that it is wrong.
fn damage(random: &mut Random, table: &mut Table, largest: &Table) {
    let rows = largest.rows.len() / ROW;
    let (row, place) = (random.below(rows), random.below(BYTES));
    // within the row's record: its length, a byte, inner or edge
    let at = ROW * row + [0, 1 + random.below(15), 16, 17][random.below(4)];
    let number = ROW * row + 16 + random.below(2);
    match random.below(10) {
        0 => table.rows.truncate(at),
        1 => table.bytes.truncate(place),
        2 => table.rows.resize(largest.rows.len() + 1 + random.below(ROW), 0),
        3 => table.bytes.resize(BYTES + 1 + random.below(16), 1),
        4 if table.rows.len() >= largest.rows.len() => swap_rows(&mut table.rows, row, random.below(rows)),
        5 => put(&mut table.rows, at, largest.rows[at] ^ 1 << random.below(8)),
        6 => put(&mut table.rows, number, 0),
        7 => put(&mut table.rows, number, largest.rows[number] + 1),
        8 => put(&mut table.bytes, place, 0),
        _ => put(&mut table.bytes, place, largest.bytes[place] + 1),
    }
}

/// The largest numbers, smaller ones or ones; in half the calls with something wrong, and then often with more.
fn lent_table(random: &mut Random, largest: &Table) -> Table {
    let mut table = match random.below(3) {
        0 => largest.clone(),
        1 => smaller(random, largest),
        _ => ones(largest),
    };
    while random.once_in(2) {
        damage(random, &mut table, largest);
    }
    table
}

/// A length that is mostly right, and else about right or too short.
fn about(random: &mut Random, right: usize) -> usize {
    match random.below(10) {
        0 => random.below(right + 1),
        1 => right.saturating_sub(1),
        2 => right + 1 + random.below(6),
        _ => right,
    }
}

/// A buffer that holds zeros or any numbers beforehand.
fn lent_buffer<T: Element>(random: &mut Random, n: usize) -> Fenced<T> {
    let salt = if random.once_in(4) { 0 } else { random.number() | 1 };
    Fenced::new(n, salt)
}

/// Mostly twenty bytes or a few more.
fn answer_length(random: &mut Random) -> usize {
    if random.once_in(12) {
        random.below(41)
    } else {
        ANSWER + random.below(3)
    }
}

/// A call about a set: nothing in it needs to be right.
fn damaged_call(random: &mut Random, job: Job, own: &[u8], cache: &mut Cache) -> Lent {
    let set = lent_set(random, own);
    // a table of another set, where this one has none
    let known = cache.known(&set).or_else(|| cache.known(own)).expect("the undamaged set passes");
    let rows = if job.way() == Way::Forward { known.forward } else { known.backward };
    let (workspace, row_buffer, byte_buffer) = (about(random, 6 * rows), about(random, ROW * rows), about(random, BYTES));
    let (hits, answer) = (random.below(40), answer_length(random));
    Lent {
        trace: lent_trace(random, own),
        table: lent_table(random, &known.table),
        workspace: lent_buffer(random, workspace),
        hits: lent_buffer(random, hits),
        row_buffer: lent_buffer(random, row_buffer),
        byte_buffer: lent_buffer(random, byte_buffer),
        answer: lent_buffer(random, answer),
        set,
    }
}

/// What a job can answer to a call of this kind: 8 needs a longer trace.
fn results(job: Job) -> Vec<u16> {
    let own: &[u16] = match job {
        Job::Cost => &[],
        Job::Forward => &[9],
        Job::Make => &[9, 15, 16],
        Job::Backward | Job::Check => &[9, 10, 11, 12, 13, 14],
    };
    [&[0, 1, 2, 3, 4, 5, 6, 17], own].concat()
}

/// 100,000 calls of which most have something wrong, beside the slow versions. In a fourth of them the workspace holds what the call before left.
#[test]
fn damaged_calls() {
    let mut tally = Tally::new();
    for seed in SEEDS {
        println!("seed {seed}");
        let mut random = Random::new(seed);
        for _ in 0..SETS_A_SEED {
            let set = tiny_set(&mut random);
            let mut cache = Cache::default();
            let mut left: Option<Lent> = None;
            for job in JOBS.repeat(ROUNDS_A_SET) {
                let mut lent = damaged_call(&mut random, job, &set, &mut cache);
                if let Some(left) = left.filter(|_| random.once_in(4)) {
                    lent.workspace = left.workspace;
                }
                left = Some(same(&mut tally, library, job, &lent));
            }
        }
    }
    tally.tell("damaged_calls");
    assert_eq!(tally.calls(), 100_000);
    for job in JOBS {
        for number in results(job) {
            let met = tally.met.get(&(job, number)).copied().unwrap_or(0);
            assert!(met >= 20, "{job:?} answered {number} in {met} calls only");
        }
    }
    assert!(tally.hits > 100_000, "the scans found {} hits only", tally.hits);
}
