//! The proved code for Rust programs: each service as a safe function with a typed answer. What the answers mean is docs/FORMAT.md's; that they are
//! right is proved (docs/PROOFS.md). These functions only lend buffers that always suffice, and read the entries of the answer.

pub mod raw;

use std::fmt;

/// The longest files that are not refused for their length. Of a longer file one byte more is enough to read: it gets the same answer.
pub const LONGEST_TABLE: usize = 808;
pub const LONGEST_LIST: usize = 26_632;
pub const LONGEST_TRACE: usize = 5_578;

/// Room that always suffices, in bytes: for the types of a table, for its list, for the values of a run and for its messages.
pub const ROOM_FOR_TYPES: usize = 12_480;
pub const ROOM_FOR_LIST: usize = 13_512;
pub const ROOM_FOR_VALUES: usize = 7_680;
pub const ROOM_FOR_LOG: usize = 2_560;

/// The most lists that one call of `judge_shelf` takes.
pub const LONGEST_SHELF: usize = 64;

/// The archive that is linked here, so that a program can hand on just that one.
pub static ARCHIVE: &[u8] = include_bytes!(env!("MIRVASHOL_ARCHIVE"));

/// Why a file is turned down: the number, the file (0 table, 1 list, 2 trace, 3 a lent buffer) and the place.
#[derive(Clone, Copy, Debug, PartialEq, Eq)]
pub struct Refusal {
    pub number: u64,
    pub file: u64,
    pub place: u64,
}

/// The refusal line, without its line feed.
impl fmt::Display for Refusal {
    fn fmt(&self, to: &mut fmt::Formatter) -> fmt::Result {
        write!(to, "refused {} {} {}", self.number, self.file, self.place)
    }
}

/// What the judge says of a list: accepted, or refused.
pub type Verdict = Result<(), Refusal>;

/// How a run ends.
#[derive(Clone, Copy, Debug, PartialEq, Eq)]
pub enum Ending {
    Finished,
    NoSupplyLeft,
    ComparisonFailed,
    WrongKey,
    ReceivedLacksType,
    DecryptedLacksType,
    NotFresh,
    FreshLacksType,
}

impl Ending {
    /// Every ending, in the order of their numbers.
    pub const ALL: [Ending; 8] = [
        Ending::Finished,
        Ending::NoSupplyLeft,
        Ending::ComparisonFailed,
        Ending::WrongKey,
        Ending::ReceivedLacksType,
        Ending::DecryptedLacksType,
        Ending::NotFresh,
        Ending::FreshLacksType,
    ];

    pub fn number(self) -> u64 {
        self as u64
    }
}

/// What a run gives: its ending, the index of the statement at which it ended (N where it finished), the supplies used, and both buffers, five
/// bytes a value and five a message.
#[derive(Clone, Debug, PartialEq, Eq)]
pub struct Ran {
    pub ending: Ending,
    pub statement: u64,
    pub supplies: u64,
    pub values: Vec<u8>,
    pub log: Vec<u8>,
}

impl Ran {
    /// How many values there are now.
    pub fn value_count(&self) -> usize {
        self.values.len() / 5
    }

    /// How many messages were logged.
    pub fn message_count(&self) -> usize {
        self.log.len() / 5
    }
}

/// What a table holds.
#[derive(Clone, Copy, Debug, PartialEq, Eq)]
pub struct TableCounts {
    pub symbols: u64,
    pub terms: u64,
    pub steps: u64,
}

/// What a list holds, and the offset of its first statement.
#[derive(Clone, Copy, Debug, PartialEq, Eq)]
pub struct ListCounts {
    pub types: u64,
    pub statements: u64,
    pub statements_at: u64,
}

/// What a trace holds.
#[derive(Clone, Copy, Debug, PartialEq, Eq)]
pub struct TraceCounts {
    pub values: u64,
    pub supplies: u64,
    pub starting: u64,
}

/// The eight entries of a call that is not refused.
fn answered(call: impl FnOnce(&mut [u64]) -> u8) -> Result<[u64; 8], Refusal> {
    let mut answer = [0; 8];
    if call(&mut answer) == 0 {
        return Ok(answer);
    }
    Err(Refusal {
        number: answer[0],
        file: answer[1],
        place: answer[2],
    })
}

/// What a call writes to a lent buffer of so many bytes; the entry at index 3 says how much that is.
fn written(room: usize, call: impl FnOnce(&mut [u8], &mut [u64]) -> u8) -> Result<Vec<u8>, Refusal> {
    let mut out = vec![0; room];
    let answer = answered(|answer| call(&mut out, answer))?;
    out.truncate(answer[3] as usize);
    Ok(out)
}

/// Reads a table: numbers 1 to 9.
pub fn check_table(table: &[u8]) -> Result<TableCounts, Refusal> {
    let answer = answered(|answer| raw::check_table(table, answer))?;
    Ok(TableCounts {
        symbols: answer[3],
        terms: answer[4],
        steps: answer[5],
    })
}

/// Reads a list by itself, where its table has so many free symbols: numbers 1 to 5.
pub fn check_list(list: &[u8], free: usize) -> Result<ListCounts, Refusal> {
    let answer = answered(|answer| raw::check_list(list, free, answer))?;
    Ok(ListCounts {
        types: answer[3],
        statements: answer[4],
        statements_at: answer[5],
    })
}

/// Reads a trace: numbers 1 to 6.
pub fn check_trace(trace: &[u8]) -> Result<TraceCounts, Refusal> {
    let answer = answered(|answer| raw::check_trace(trace, answer))?;
    Ok(TraceCounts {
        values: answer[3],
        supplies: answer[4],
        starting: answer[5],
    })
}

/// The part of a list that holds the type of a symbol; empty where a number 1 to 4 or a malformed type is in the list, or where it lacks the symbol.
pub fn type_of(list: &[u8], symbol: usize) -> &[u8] {
    let mut answer = [0; 8];
    raw::type_of(list, symbol, &mut answer);
    let (start, length) = (answer[3] as usize, answer[4] as usize);
    &list[start..start + length]
}

/// The widest type of each symbol of a table, in the bytes of a list but without length bytes: numbers 1 to 10.
pub fn types(table: &[u8]) -> Result<Vec<Vec<u8>>, Refusal> {
    let bytes = written(ROOM_FOR_TYPES, |out, answer| raw::type_table(table, out, answer))?;
    let mut rest = bytes.as_slice();
    let mut types = Vec::new();
    while let Some((&length, behind)) = rest.split_first() {
        let (one, others) = behind.split_at(usize::from(length));
        types.push(one.to_vec());
        rest = others;
    }
    Ok(types)
}

/// The list of a table: numbers 1 to 10.
pub fn compile(table: &[u8]) -> Result<Vec<u8>, Refusal> {
    written(ROOM_FOR_LIST, |out, answer| raw::compile(table, out, answer))
}

/// Judges a list against a table: the table's numbers 1 to 10, the list's 1 to 5, then 11 to 13.
pub fn judge(table: &[u8], list: &[u8]) -> Verdict {
    answered(|answer| raw::judge(table, list, answer)).map(|_| ())
}

/// Judges lists of one table, at most `LONGEST_SHELF` of them, in one call: for each what `judge` says of it by itself. A refusal of the whole is the
/// table's, or number 3 where the lists are too many.
pub fn judge_shelf(table: &[u8], lists: &[&[u8]]) -> Result<Vec<Verdict>, Refusal> {
    let lengths: Vec<u64> = lists.iter().map(|list| list.len() as u64).collect();
    let laid = lists.concat();
    let verdicts = written(4 * lists.len(), |out, answer| {
        raw::judge_shelf(table, &laid, &lengths, out, answer)
    })?;
    Ok(verdicts.chunks_exact(4).map(verdict).collect())
}

/// A verdict of a shelf: number, file and 16-bit place; all 0 where the list is accepted.
fn verdict(bytes: &[u8]) -> Verdict {
    if bytes[0] == 0 {
        return Ok(());
    }
    Err(Refusal {
        number: bytes[0].into(),
        file: bytes[1].into(),
        place: u16::from_be_bytes([bytes[2], bytes[3]]).into(),
    })
}

/// Judges a list and runs it on a trace: the judge's numbers, the trace's 1 to 6, then 14.
pub fn run(table: &[u8], list: &[u8], trace: &[u8]) -> Result<Ran, Refusal> {
    let mut values = vec![0; ROOM_FOR_VALUES];
    let mut log = vec![0; ROOM_FOR_LOG];
    let answer = answered(|answer| raw::run(table, list, trace, &mut values, &mut log, answer))?;
    log.truncate(5 * answer[6] as usize);
    values.truncate(5 * answer[7] as usize);
    Ok(Ran {
        ending: Ending::ALL[answer[3] as usize],
        statement: answer[4],
        supplies: answer[5],
        values,
        log,
    })
}
