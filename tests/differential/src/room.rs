//! How long a lent buffer is, compared with the bytes that are needed.

use generate::Rng;

#[derive(Clone, Copy, PartialEq, Eq, Debug)]
pub enum Room {
    Exact,
    Long,
    OneByteShort,
    Shorter,
    Empty,
}

impl Room {
    pub const ALL: [Room; 5] = [Room::Exact, Room::Long, Room::OneByteShort, Room::Shorter, Room::Empty];

    /// Enough room more often than not, so that most cases show what is written.
    pub fn some(rng: &mut Rng) -> Room {
        match rng.below(9) {
            0..=2 => Room::Exact,
            3..=5 => Room::Long,
            6 => Room::OneByteShort,
            7 => Room::Shorter,
            _ => Room::Empty,
        }
    }

    pub fn length(self, rng: &mut Rng, needed: usize) -> usize {
        match self {
            Room::Exact => needed,
            Room::Long => {
                let most = rng.pick(&[1, 5, 60, 3_000]);
                needed + rng.within(1, most)
            }
            Room::OneByteShort => needed.saturating_sub(1),
            Room::Shorter => rng.below(needed.max(1)),
            Room::Empty => 0,
        }
    }
}
