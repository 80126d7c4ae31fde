//! Document 01's marked examples, E1 to E12, as `examples.txt` has them, tried on an implementation of the services. What is
//! expected is the document's, and no implementation's.

/// The eight numbers of an answer.
pub type Answer = [u64; 8];

/// An implementation of the services.
pub struct Services {
    pub types: fn(&[u8], &mut [u8]) -> Answer,
    pub compile: fn(&[u8], &mut [u8]) -> Answer,
    pub judge: fn(&[u8], &[u8]) -> Answer,
    pub run: fn(&[u8], &[u8], &[u8], &mut [u8], &mut [u8]) -> Answer,
}

const TABLE: &str = include_str!("../examples.txt");

/// What a lent buffer holds before a call, and beyond what is written after it.
const FILLED: u8 = 9;

/// The names of the examples' files.
pub fn names() -> impl Iterator<Item = &'static str> {
    let named = |line: &'static str| line.strip_prefix("file ")?.split(' ').next();
    TABLE.lines().filter_map(named)
}

/// Each row of the table that asks a service: the call, and the answer.
pub fn rows() -> impl Iterator<Item = (&'static str, &'static str)> {
    let rows = TABLE.lines().filter(|line| !line.starts_with('#'));
    rows.filter_map(|row| row.split_once(" = "))
}

/// The bytes of an example's file.
pub fn file(name: &str) -> Vec<u8> {
    let start = format!("file {name}");
    let words = TABLE.lines().find_map(|line| match line.strip_prefix(&start)? {
        "" => Some(""),
        bytes => bytes.strip_prefix(' '),
    });
    let words = words.unwrap_or_else(|| panic!("no file {name}"));
    words.split([' ', '|']).flat_map(word).collect()
}

/// The bytes of a word: pairs of hex digits, or as many times those.
fn word(text: &str) -> Vec<u8> {
    let (times, digits) = text.split_once('x').unwrap_or(("1", text));
    let byte = |at| u8::from_str_radix(&digits[at..at + 2], 16).expect("two hex digits");
    let bytes: Vec<u8> = (0..digits.len()).step_by(2).map(byte).collect();
    bytes.repeat(times.parse().expect("how many times"))
}

/// Each row of the table that asks a service, and whether its answer is the one there.
pub fn tried(services: &Services) -> Vec<(&'static str, bool)> {
    rows()
        .map(|(call, expected)| (call, holds(services, call, expected)))
        .collect()
}

fn holds(services: &Services, call: &str, expected: &str) -> bool {
    let mut words = call.split(' ');
    let service = words.next().expect("a service");
    let given: Vec<Vec<u8>> = words.map(file).collect();
    let lent = || vec![FILLED; 2_000];
    let (mut first, mut second) = (lent(), lent());
    let answer = match (service, &given[..]) {
        ("types", [table]) => (services.types)(table, &mut first),
        ("compile", [table]) => (services.compile)(table, &mut first),
        ("judge", [table, list]) => (services.judge)(table, list),
        ("run", [table, list, trace]) => (services.run)(table, list, trace, &mut first, &mut second),
        _ => panic!("no such call: {call}"),
    };
    let (numbers, written) = read(service, expected);
    let wrote = |buffer: &[u8], bytes: &[u8]| {
        buffer.starts_with(bytes) && buffer[bytes.len()..].iter().all(|&byte| byte == FILLED)
    };
    answer == numbers && wrote(&first, &written[0]) && wrote(&second, &written[1])
}

/// An expected answer, and what both lent buffers then start with.
fn read(service: &str, expected: &str) -> (Answer, [Vec<u8>; 2]) {
    let (words, names): (Vec<&str>, Vec<&str>) = expected
        .split(' ')
        .filter(|word| !["refused", "accepted"].contains(word))
        .partition(|word| word.parse::<u64>().is_ok());
    let mut files = names.into_iter().map(file);
    let written = [files.next().unwrap_or_default(), files.next().unwrap_or_default()];
    let mut numbers: Vec<u64> = words.iter().map(|word| word.parse().expect("a number")).collect();
    if !expected.starts_with("refused") {
        numbers.splice(0..0, [0; 3]);
    }
    if ["types", "compile"].contains(&service) && !expected.starts_with("refused") {
        numbers.push(written[0].len() as u64);
    }
    numbers.resize(8, 0);
    (numbers.try_into().expect("eight numbers"), written)
}
