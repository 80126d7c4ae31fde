//! What a service's module gives to the driver, and what one case of it reports.

use generate::Rng;
use second::Answer;

/// One service that both implementations offer.
pub struct Service {
    pub name: &'static str,
    /// What the cases must hit: titles, and the labels under each. A label that no case hits counts as a failure.
    pub owed: fn() -> Vec<(&'static str, Vec<String>)>,
    /// Makes one case, asks both and compares.
    pub case: fn(&mut Rng) -> Case,
}

/// One case: what it counts as, and in words where the two implementations differ.
pub struct Case {
    /// Titles and labels: its answer, its kind, its damage and so on.
    pub counted: Vec<(&'static str, String)>,
    pub difference: Option<String>,
    /// The inputs by name, for the report.
    pub inputs: Vec<(&'static str, Vec<u8>)>,
}

/// The titles that all services have.
pub const ANSWER: &str = "answer";
pub const KIND: &str = "kind";
pub const DAMAGE: &str = "damage";

const FILES: [&str; 4] = ["table", "list", "trace", "buffer"];

/// How an answer is counted: `fine`, or the file and the number.
pub fn label(answer: &Answer) -> String {
    match answer[0] {
        0 => "fine".to_string(),
        number => format!("{} {number}", FILES[answer[1] as usize]),
    }
}

/// The answers that are owed: `fine`, and the numbers of each file from the first to the last.
pub fn answers(numbers: &[(u8, u64, u64)]) -> (&'static str, Vec<String>) {
    let of_file = |&(file, first, last): &(u8, u64, u64)| {
        (first..=last).map(move |number| format!("{} {number}", FILES[usize::from(file)]))
    };
    let refusals = numbers.iter().flat_map(of_file);
    (ANSWER, std::iter::once("fine".to_string()).chain(refusals).collect())
}
