//! What all three files share: marks, versions and counts, and what can be wrong with a field of an entry.

use crate::codes::{file, find, Holds, FILES, SORTS};
use crate::writing::counted;
use crate::Kind;

/// Why a file is turned down, of the numbers 1 to 5: the number, the place, and lines that say it.
#[derive(Clone, PartialEq, Eq, Debug)]
pub struct Fault {
    pub number: u64,
    pub place: u64,
    pub lines: Vec<String>,
}

impl Fault {
    fn new(number: u64, line: String) -> Fault {
        Fault {
            number,
            place: 0,
            lines: vec![line],
        }
    }

    /// Number 4.
    pub fn length(line: String) -> Fault {
        Fault::new(4, line)
    }

    /// Number 5: the entry at this byte, and what is wrong with it.
    pub fn entry(place: usize, entry: &str, bytes: &[u8], wrong: String) -> Fault {
        Fault {
            number: 5,
            place: place as u64,
            lines: vec![
                format!("byte {place} begins {entry}: {}", crate::writing::hex(bytes)),
                wrong,
            ],
        }
    }
}

/// The byte at an offset; 0 past the end.
pub fn byte(bytes: &[u8], at: usize) -> u8 {
    bytes.get(at).copied().unwrap_or(0)
}

/// The 16-bit number at an offset, high byte first; 0 for bytes past the end.
pub fn wide(bytes: &[u8], at: usize) -> u16 {
    u16::from_be_bytes([byte(bytes, at), byte(bytes, at + 1)])
}

/// The entry of so many bytes at an offset, if it is there.
pub fn entry<const N: usize>(bytes: &[u8], at: usize) -> Option<[u8; N]> {
    bytes.get(at..)?.get(..N)?.try_into().ok()
}

/// The kind of a file, by its mark.
pub fn kind(bytes: &[u8]) -> Option<Kind> {
    let known = FILES.iter().find(|file| bytes.starts_with(file.mark));
    known.map(|file| file.kind)
}

/// A header without the faults 1 to 3.
pub struct Header {
    pub version: u16,
    pub counts: Vec<usize>,
}

/// The header, or its fault 1 to 3.
pub fn header(of: Kind, bytes: &[u8]) -> Result<Header, Fault> {
    let file = file(of);
    let mark = String::from_utf8_lossy(file.mark);
    if !bytes.starts_with(file.mark) {
        let what = match kind(bytes) {
            Some(other) => format!("it starts with the mark of a {}", crate::codes::file(other).word),
            None => "it does not".to_string(),
        };
        return Err(Fault::new(1, format!("a {} starts with {mark}: {what}", file.word)));
    }
    if bytes.len() < file.header {
        let long = counted(bytes.len(), "byte", "bytes");
        return Err(Fault::new(
            1,
            format!("it has {long}, and a {}'s header has {}", file.word, file.header),
        ));
    }
    let version = wide(bytes, 3);
    if version == 0 || version > file.newest {
        return Err(Fault::new(
            2,
            format!("its version is {version}, and {} is known", known(file.newest)),
        ));
    }
    let mut counts = Vec::new();
    let mut over = Vec::new();
    for count in file.counts {
        let number = match count.bytes {
            1 => usize::from(byte(bytes, count.at)),
            _ => usize::from(wide(bytes, count.at)),
        };
        if number > count.limit {
            over.push(format!(
                "it has {}, and may have {} at most",
                counted(number, count.one, count.many),
                count.limit
            ));
        }
        counts.push(number);
    }
    match over.is_empty() {
        true => Ok(Header { version, counts }),
        false => Err(Fault {
            number: 3,
            place: 0,
            lines: over,
        }),
    }
}

fn known(newest: u16) -> String {
    match newest {
        1 => "only version 1".to_string(),
        _ => format!("no version but 1 to {newest}"),
    }
}

/// How what is shown of a file begins: its refusal, if it has one, then the header, where it can be read:
/// `table, version 1: 4 symbols, 4 terms, 3 steps`.
pub fn opening(refusal: Option<String>, of: Kind, header: Option<&Header>, whole: bool) -> String {
    let refused = refusal.is_some();
    let mut out = refusal.unwrap_or_default();
    if let Some(header) = header {
        let file = file(of);
        let counts = file.counts.iter().zip(&header.counts);
        let counts: Vec<String> = counts.map(|(count, &n)| counted(n, count.one, count.many)).collect();
        out += if refused { "\n" } else { "" };
        let how_far = if whole {
            ""
        } else {
            "; shown as far as it is well formed"
        };
        out += &format!(
            "{}, version {}: {}{how_far}\n",
            file.word,
            header.version,
            counts.join(", ")
        );
    }
    out
}

/// Number 4's line: how long the file should be.
pub fn length_fault(wanted: usize, there: usize) -> Option<Fault> {
    let by = |difference: usize| counted(difference, "byte", "bytes");
    let how = match there {
        _ if there < wanted => format!("{} too short", by(wanted - there)),
        _ if there > wanted => format!("{} too long", by(there - wanted)),
        _ => return None,
    };
    Some(Fault::length(format!(
        "its counts ask for {}, and it has {there}: it is {how}",
        by(wanted)
    )))
}

/// What the fields of an entry may name.
#[derive(Clone, Copy)]
pub struct Bounds<'a> {
    /// What a part is called, and how many there are to name.
    pub part: &'a str,
    pub parts: usize,
    /// The registers given before; none where their number is not known.
    pub registers: Option<usize>,
    pub symbols: usize,
    /// The symbols' sort bytes, in a table.
    pub sorts: &'a [u8],
    pub version: u16,
}

/// What is wrong with an entry's fields, if anything is: the first one, by its letter.
pub fn wrong_field(fields: &[Holds], letters: &[char], numbers: &[usize], bounds: Bounds) -> Option<String> {
    let all = fields.iter().zip(letters).zip(numbers);
    all.into_iter().find_map(|((&holds, &letter), &number)| {
        let wrong = wrong_number(holds, number, bounds)?;
        Some(format!("{letter} is {number}: {wrong}"))
    })
}

fn wrong_number(holds: Holds, number: usize, bounds: Bounds) -> Option<String> {
    let below = |limit: usize, one: &str| {
        let range = match limit {
            0 => format!("there is no {one} to name here"),
            1 => format!("only {one} 0 can be named here"),
            _ => format!("only {one}s 0 to {} can be named here", limit - 1),
        };
        (number >= limit).then_some(range)
    };
    match holds {
        Holds::Nothing => (number != 0).then(|| "this field is not used here and must be 0".to_string()),
        Holds::Term => below(bounds.parts, bounds.part),
        Holds::Register => below(bounds.registers?, "register"),
        Holds::Symbol => below(bounds.symbols, "symbol"),
        Holds::Name | Holds::Variable => below(bounds.symbols, "symbol").or_else(|| {
            let sort = find(SORTS, byte(bounds.sorts, number), bounds.version)?;
            let wanted = if holds == Holds::Name { "name" } else { "variable" };
            let fits = sort.is_name == (holds == Holds::Name);
            (!fits).then(|| format!("s{number} is a {}, and a {wanted} is bound here", sort.word))
        }),
    }
}

/// The line for a code that is not known.
pub fn unknown(what: &str, code: impl Into<u64>) -> String {
    format!("there is no {what} {}", code.into())
}
