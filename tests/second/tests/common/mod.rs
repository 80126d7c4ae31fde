//! What several tests share: files written as hex, and the services with buffers that are large enough.
#![allow(dead_code)]

use second::service;
use second::Answer;

/// Bytes from hex; spaces and bars are for the reader.
pub fn hex(text: &str) -> Vec<u8> {
    let digits: Vec<u8> = text.bytes().filter(u8::is_ascii_hexdigit).collect();
    let byte = |pair: &[u8]| u8::from_str_radix(std::str::from_utf8(pair).unwrap(), 16).unwrap();
    digits.chunks(2).map(byte).collect()
}

pub fn compile(table: &[u8]) -> Result<Vec<u8>, (u64, u64, u64)> {
    let mut out = vec![0; 40_000];
    let answer = service::compile(table, &mut out);
    fine(answer)?;
    out.truncate(answer[3] as usize);
    Ok(out)
}

/// The number, file and place, as an error where they refuse.
pub fn fine(answer: Answer) -> Result<(), (u64, u64, u64)> {
    if answer[0] == 0 {
        Ok(())
    } else {
        Err((answer[0], answer[1], answer[2]))
    }
}

/// A run with its answer and both buffers, cut to what was written.
pub fn run(table: &[u8], list: &[u8], trace: &[u8]) -> (Answer, Vec<u8>, Vec<u8>) {
    let (mut values, mut log) = (vec![0; 5 * 1536], vec![0; 5 * 512]);
    let answer = service::run(table, list, trace, &mut values, &mut log);
    values.truncate(5 * answer[7] as usize);
    log.truncate(5 * answer[6] as usize);
    (answer, values, log)
}
