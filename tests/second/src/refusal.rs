//! Why a file is turned down: the number, the file and the place; and the eight numbers that every service answers.

/// The file a refusal speaks of.
pub const TABLE: u8 = 0;
pub const LIST: u8 = 1;
pub const TRACE: u8 = 2;
pub const BUFFER: u8 = 3;

#[derive(Clone, Copy, PartialEq, Eq, Debug)]
pub struct Refusal {
    pub number: u8,
    pub file: u8,
    pub place: u64,
}

impl Refusal {
    pub fn new(number: u8, file: u8, place: usize) -> Refusal {
        Refusal {
            number,
            file,
            place: place as u64,
        }
    }

    /// Refuses with this number, file and place, whatever would have been the result.
    pub fn give<T>(number: u8, file: u8, place: usize) -> Result<T, Refusal> {
        Err(Refusal::new(number, file, place))
    }

    /// The refusal as four bytes: number, file, and the place as 16 bits, high byte first.
    pub fn bytes(self) -> [u8; 4] {
        let place = u16::try_from(self.place).expect("a list's place fits 16 bits");
        let [high, low] = place.to_be_bytes();
        [self.number, self.file, high, low]
    }
}

/// What a service answers: 0 number, 1 file, 2 place; then what the service has to say where nothing is refused.
pub type Answer = [u64; 8];

/// The answer for a result: the refusal, or the given entries from the fourth on.
pub fn answer(result: Result<Vec<u64>, Refusal>) -> Answer {
    let mut answer = [0; 8];
    match result {
        Err(refusal) => {
            answer[0] = u64::from(refusal.number);
            answer[1] = u64::from(refusal.file);
            answer[2] = refusal.place;
        }
        Ok(entries) => answer[3..3 + entries.len()].copy_from_slice(&entries),
    }
    answer
}
