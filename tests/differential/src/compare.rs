//! Compares one call of ours with the second implementation's: the answer, every lent byte, and what the call leaves alone.

use generate::Rng;
use second::Answer;

/// Bytes in the middle of other bytes, so that a write outside shows.
#[derive(Clone, PartialEq, Eq)]
struct Surrounded(Vec<u8>);

const AROUND: usize = 8;

impl Surrounded {
    fn new(rng: &mut Rng, bytes: &[u8]) -> Surrounded {
        Surrounded([&rng.bytes(AROUND), bytes, &rng.bytes(AROUND)].concat())
    }

    fn inside(&self) -> &[u8] {
        &self.0[AROUND..self.0.len() - AROUND]
    }

    fn inside_mut(&mut self) -> &mut [u8] {
        let end = self.0.len() - AROUND;
        &mut self.0[AROUND..end]
    }
}

/// What the second implementation answered, and in words where ours differs.
pub struct Compared {
    pub answer: Answer,
    pub difference: Option<String>,
}

/// Asks both with the same inputs and with equal prefilled buffers of these lengths; now and then ours once more with an answer
/// array that is too short. Where the two are equal, the answer and the buffers that both give are tested further.
pub fn compare(
    rng: &mut Rng,
    inputs: &[&[u8]],
    lengths: &[usize],
    second: impl Fn(&[&[u8]], &mut [&mut [u8]]) -> Answer,
    ours: impl Fn(&[&[u8]], &mut [&mut [u8]], &mut [u64]) -> u8,
    further: impl Fn(&Answer, &[&[u8]]) -> Result<(), String>,
) -> Compared {
    let lent: Vec<Surrounded> = inputs.iter().map(|bytes| Surrounded::new(rng, bytes)).collect();
    let before = lent.clone();
    let inputs: Vec<&[u8]> = lent.iter().map(Surrounded::inside).collect();
    let prefilled: Vec<Surrounded> = lengths
        .iter()
        .map(|&length| {
            let bytes = rng.bytes(length);
            Surrounded::new(rng, &bytes)
        })
        .collect();

    let mut of_second = prefilled.clone();
    let expected = second(&inputs, &mut lend(&mut of_second));
    let checked = full_answer(rng, &inputs, &prefilled, &ours).and_then(|(answer, of_ours)| {
        if answer != expected {
            return Err(format!("ours answers {answer:?}, the second one {expected:?}"));
        }
        if of_ours != of_second {
            return Err(first_difference(&of_ours, &of_second));
        }
        let left: Vec<&[u8]> = of_ours.iter().map(Surrounded::inside).collect();
        further(&answer, &left)?;
        if rng.once_in(4) {
            short_answer(rng, &inputs, &prefilled, &ours)?;
        }
        if lent != before {
            return Err("an input was changed".to_string());
        }
        Ok(())
    });
    Compared {
        answer: expected,
        difference: checked.err(),
    }
}

/// For services of which nothing else is to be tested.
pub fn nothing_further(_: &Answer, _: &[&[u8]]) -> Result<(), String> {
    Ok(())
}

fn lend(buffers: &mut [Surrounded]) -> Vec<&mut [u8]> {
    buffers.iter_mut().map(Surrounded::inside_mut).collect()
}

/// Sixteen prefilled entries, more than are ever lent.
fn some_entries(rng: &mut Rng) -> Vec<u64> {
    (0..16).map(|_| rng.number()).collect()
}

/// Eight entries or more: the eight entries, of which the first is the number that is returned, and the buffers after the call.
/// Entries past the eighth stay as they were.
fn full_answer(
    rng: &mut Rng,
    inputs: &[&[u8]],
    prefilled: &[Surrounded],
    ours: &impl Fn(&[&[u8]], &mut [&mut [u8]], &mut [u64]) -> u8,
) -> Result<(Answer, Vec<Surrounded>), String> {
    let length = rng.within(8, 12);
    let entries = some_entries(rng);
    let mut answer = entries.clone();
    let mut buffers = prefilled.to_vec();
    let number = ours(inputs, &mut lend(&mut buffers), &mut answer[..length]);
    if u64::from(number) != answer[0] {
        return Err(format!("ours returns {number} and answers {:?}", &answer[..8]));
    }
    if answer[8..] != entries[8..] {
        return Err("entries past the eighth were changed".to_string());
    }
    let eight = answer[..8].try_into().expect("eight entries");
    Ok((eight, buffers))
}

/// The first byte of a buffer that differs, counted from the buffer's start: below 0 and past its length nothing was lent.
fn first_difference(ours: &[Surrounded], second: &[Surrounded]) -> String {
    for (i, (a, b)) in ours.iter().zip(second).enumerate() {
        if let Some(at) = (0..a.0.len()).find(|&at| a.0[at] != b.0[at]) {
            let (place, length) = (at as i64 - AROUND as i64, a.inside().len());
            let (a, b) = (a.0[at], b.0[at]);
            return format!("buffer {i} of {length} bytes differs at {place}: ours {a}, the second one {b}");
        }
    }
    "the buffers differ in length".to_string()
}

/// Fewer than eight entries: 255, and nothing is changed.
fn short_answer(
    rng: &mut Rng,
    inputs: &[&[u8]],
    prefilled: &[Surrounded],
    ours: &impl Fn(&[&[u8]], &mut [&mut [u8]], &mut [u64]) -> u8,
) -> Result<(), String> {
    let length = rng.below(8);
    let entries = some_entries(rng);
    let mut answer = entries.clone();
    let mut buffers = prefilled.to_vec();
    let number = ours(inputs, &mut lend(&mut buffers), &mut answer[..length]);
    if number != 255 {
        return Err(format!("an answer of {length} entries: {number} and not 255"));
    }
    if answer != entries {
        return Err(format!("an answer of {length} entries was changed"));
    }
    if buffers != prefilled {
        return Err(format!("an answer of {length} entries: a buffer was changed"));
    }
    Ok(())
}
