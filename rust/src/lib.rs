//! Safe functions over the static library. Each takes any bytes; nothing has to be checked first.

pub mod measure;
pub mod random;
pub mod sets;
pub mod slow;

/// The limits: the most bytes of a trace, the most keywords of a set, the most bytes of a keyword and its most energy.
pub const TRACE: usize = 1_048_576;
pub const KEYWORDS: usize = 64;
pub const LONGEST: usize = 15;
pub const ENERGY: u64 = 4_294_967_295;

/// The bytes by which a part of a longer trace reaches back behind the cut: a keyword that the cut divides stands whole in the later part.
pub const OVERLAP: usize = LONGEST - 1;

/// The bytes of an answer, the most rows of a set, the numbers of a workspace that is enough for every set, the bytes of a keyword's record and of
/// a row's, and those of a byte file.
pub const ANSWER: usize = 20;
pub const ROWS: usize = 961;
pub const WORKSPACE: usize = 6 * ROWS;
pub const RECORD: usize = 20;
pub const ROW: usize = 18;
pub const BYTES: usize = 4096;

/// The number that some bytes hold, low byte first.
fn low_first(bytes: &[u8]) -> u64 {
    bytes.iter().rev().fold(0, |sum, &b| sum << 8 | u64::from(b))
}

/// What a call answers, in document 01's numbers. Number 0 is no refusal. The largest count is 15 * TRACE - 105, since fewer than 15 keywords end at
/// each of the first 14 ends, and the largest energy is ENERGY times that: neither can overflow.
#[derive(Clone, Copy, Debug, Default, PartialEq, Eq)]
pub struct Answer {
    pub number: u16,
    pub place: u16,
    pub count: u32,
    pub questions: u32,
    pub energy: u64,
}

impl Answer {
    pub fn refused(number: u16, place: usize) -> Answer {
        Answer { number, place: place as u16, ..Answer::default() }
    }

    /// The answer that stands in the first twenty bytes of a buffer.
    pub fn from_bytes(bytes: &[u8]) -> Answer {
        let low = |from: usize, width: usize| low_first(&bytes[from..from + width]);
        Answer { number: low(0, 2) as u16, place: low(2, 2) as u16, count: low(4, 4) as u32, questions: low(8, 4) as u32, energy: low(12, 8) }
    }

    /// The twenty bytes of the answer.
    pub fn to_bytes(self) -> [u8; ANSWER] {
        let mut bytes = [0; ANSWER];
        bytes[0..2].copy_from_slice(&self.number.to_le_bytes());
        bytes[2..4].copy_from_slice(&self.place.to_le_bytes());
        bytes[4..8].copy_from_slice(&self.count.to_le_bytes());
        bytes[8..12].copy_from_slice(&self.questions.to_le_bytes());
        bytes[12..20].copy_from_slice(&self.energy.to_le_bytes());
        bytes
    }
}

/// The C functions as the header has them, for callers that lend raw buffers.
pub mod c {
    extern "C" {
        pub fn bezowik_cost(set: *const u8, set_bytes: usize, trace: *const u8, trace_bytes: usize, answer: *mut u8, answer_bytes: usize) -> u16;
        pub fn bezowik_forward(
            set: *const u8,
            set_bytes: usize,
            trace: *const u8,
            trace_bytes: usize,
            workspace: *mut u16,
            workspace_numbers: usize,
            hits: *mut u32,
            hit_numbers: usize,
            answer: *mut u8,
            answer_bytes: usize,
        ) -> u16;
        pub fn bezowik_backward(
            set: *const u8,
            set_bytes: usize,
            trace: *const u8,
            trace_bytes: usize,
            row_file: *const u8,
            row_bytes: usize,
            byte_file: *const u8,
            byte_bytes: usize,
            workspace: *mut u16,
            workspace_numbers: usize,
            hits: *mut u32,
            hit_numbers: usize,
            answer: *mut u8,
            answer_bytes: usize,
        ) -> u16;
        pub fn bezowik_make(
            set: *const u8,
            set_bytes: usize,
            workspace: *mut u16,
            workspace_numbers: usize,
            row_buffer: *mut u8,
            row_bytes: usize,
            byte_buffer: *mut u8,
            byte_bytes: usize,
            answer: *mut u8,
            answer_bytes: usize,
        ) -> u16;
        pub fn bezowik_check(
            set: *const u8,
            set_bytes: usize,
            row_file: *const u8,
            row_bytes: usize,
            byte_file: *const u8,
            byte_bytes: usize,
            workspace: *mut u16,
            workspace_numbers: usize,
            answer: *mut u8,
            answer_bytes: usize,
        ) -> u16;
    }
}

/// The host call itself: its result, and the answer buffer as it is lent.
pub fn cost_into(set: &[u8], trace: &[u8], answer: &mut [u8]) -> u16 {
    unsafe { c::bezowik_cost(set.as_ptr(), set.len(), trace.as_ptr(), trace.len(), answer.as_mut_ptr(), answer.len()) }
}

/// The cost of a trace: count, questions and energy, and no list.
pub fn cost(set: &[u8], trace: &[u8]) -> Answer {
    let mut bytes = [0; ANSWER];
    cost_into(set, trace, &mut bytes);
    Answer::from_bytes(&bytes)
}

/// The bench group's forward scan: its result, and every buffer as it is lent.
pub fn forward_into(set: &[u8], trace: &[u8], workspace: &mut [u16], hits: &mut [u32], answer: &mut [u8]) -> u16 {
    unsafe {
        c::bezowik_forward(
            set.as_ptr(),
            set.len(),
            trace.as_ptr(),
            trace.len(),
            workspace.as_mut_ptr(),
            workspace.len(),
            hits.as_mut_ptr(),
            hits.len(),
            answer.as_mut_ptr(),
            answer.len(),
        )
    }
}

/// The forward scan, with a workspace and a hit buffer that the caller lends.
pub fn forward(set: &[u8], trace: &[u8], workspace: &mut [u16], hits: &mut [u32]) -> Answer {
    let mut bytes = [0; ANSWER];
    forward_into(set, trace, workspace, hits, &mut bytes);
    Answer::from_bytes(&bytes)
}

/// The bench group's backward scan: its result, and every buffer as it is lent.
pub fn backward_into(set: &[u8], trace: &[u8], table: &Table, workspace: &mut [u16], hits: &mut [u32], answer: &mut [u8]) -> u16 {
    unsafe {
        c::bezowik_backward(
            set.as_ptr(),
            set.len(),
            trace.as_ptr(),
            trace.len(),
            table.rows.as_ptr(),
            table.rows.len(),
            table.bytes.as_ptr(),
            table.bytes.len(),
            workspace.as_mut_ptr(),
            workspace.len(),
            hits.as_mut_ptr(),
            hits.len(),
            answer.as_mut_ptr(),
            answer.len(),
        )
    }
}

/// The backward scan under a table, which is checked at each call.
pub fn backward(set: &[u8], trace: &[u8], table: &Table, workspace: &mut [u16], hits: &mut [u32]) -> Answer {
    let mut bytes = [0; ANSWER];
    backward_into(set, trace, table, workspace, hits, &mut bytes);
    Answer::from_bytes(&bytes)
}

/// A skip table: the row file and the byte file.
#[derive(Clone, Debug, Default, PartialEq, Eq)]
pub struct Table {
    pub rows: Vec<u8>,
    pub bytes: Vec<u8>,
}

/// The bench group's making: its result, and every buffer as it is lent.
pub fn make_into(set: &[u8], workspace: &mut [u16], row_buffer: &mut [u8], byte_buffer: &mut [u8], answer: &mut [u8]) -> u16 {
    unsafe {
        c::bezowik_make(
            set.as_ptr(),
            set.len(),
            workspace.as_mut_ptr(),
            workspace.len(),
            row_buffer.as_mut_ptr(),
            row_buffer.len(),
            byte_buffer.as_mut_ptr(),
            byte_buffer.len(),
            answer.as_mut_ptr(),
            answer.len(),
        )
    }
}

/// The table with the largest safe numbers, or the refusal of the set.
pub fn make(set: &[u8]) -> Result<Table, Answer> {
    let mut table = Table { rows: vec![0; ROW * ROWS], bytes: vec![0; BYTES] };
    let mut bytes = [0; ANSWER];
    make_into(set, &mut vec![0; WORKSPACE], &mut table.rows, &mut table.bytes, &mut bytes);
    let made = Answer::from_bytes(&bytes);
    if made.number != 0 {
        return Err(made);
    }
    table.rows.truncate(ROW * made.count as usize);
    Ok(table)
}

/// The bench group's check: its result, and every buffer as it is lent.
pub fn check_into(set: &[u8], table: &Table, workspace: &mut [u16], answer: &mut [u8]) -> u16 {
    unsafe {
        c::bezowik_check(
            set.as_ptr(),
            set.len(),
            table.rows.as_ptr(),
            table.rows.len(),
            table.bytes.as_ptr(),
            table.bytes.len(),
            workspace.as_mut_ptr(),
            workspace.len(),
            answer.as_mut_ptr(),
            answer.len(),
        )
    }
}

/// The check of a table: number 0 and the rows as the count, or the refusal.
pub fn check(set: &[u8], table: &Table) -> Answer {
    let mut bytes = [0; ANSWER];
    check_into(set, table, &mut vec![0; WORKSPACE], &mut bytes);
    Answer::from_bytes(&bytes)
}
