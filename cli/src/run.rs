//! `run TABLE LIST TRACE [VALUES LOG]`: runs a judged list on a trace.

use mirvashol::{Ending, Ran};

use crate::asked::Asked;
use crate::input::Source;
use crate::output::{in_words, indented, keep_apart, refuse, say, Target, Written, FILE_MODE};
use crate::{Outcome, Status};

pub fn run(asked: &Asked) -> Outcome {
    let (inputs, outputs) = asked.names.split_at(3);
    if outputs.len() == 1 || outputs.iter().any(|name| name == "-") {
        return Err(asked.wrong_use());
    }
    let sources = Source::all(inputs.iter().map(|name| name.as_os_str()))?;
    let targets: Vec<Target> = outputs.iter().map(|name| Target::of(name)).collect::<Result<_, _>>()?;
    keep_apart(
        &sources.iter().collect::<Vec<&Source>>(),
        &targets.iter().collect::<Vec<&Target>>(),
    )?;
    let table = sources[0].read_table()?;
    let list = sources[1].read_list()?;
    let trace = sources[2].read_trace()?;
    let ran = match mirvashol::run(&table, &list, &trace) {
        Ok(ran) => ran,
        Err(refusal) => {
            refuse(&refusal, &table, Some(&list), Some(&trace), asked.quiet())?;
            return Ok(Status::Refused);
        }
    };
    // Both files are there whole before either is put in its place.
    let written: Vec<Written> = targets
        .into_iter()
        .zip([&ran.values, &ran.log])
        .map(|(target, bytes)| target.write(bytes, FILE_MODE))
        .collect::<Result<_, _>>()?;
    say(answer(&ran, &table, &list, asked.quiet()).as_bytes())?;
    for file in written {
        file.put()?;
    }
    Ok(match ran.ending {
        Ending::Finished => Status::Fine,
        _ => Status::Refused,
    })
}

/// The line with the ending and the counts, then one line a message, then where it stopped and why.
fn answer(ran: &Ran, table: &[u8], list: &[u8], quiet: bool) -> String {
    let (number, statement) = (ran.ending.number(), ran.statement);
    let counts = format!(
        "ending {number} {}, statement {statement}, supplies {}, messages {}, values {}\n",
        words::ending(number),
        ran.supplies,
        ran.message_count(),
        ran.value_count(),
    );
    if quiet {
        return counts + &places(&ran.log);
    }
    let stopped = match ran.ending {
        Ending::Finished => String::new(),
        _ => indented(&in_words(|| words::stopped(table, list, statement as usize))),
    };
    counts + &in_words(|| words::messages(&ran.log, &ran.values)) + &stopped
}

/// The messages by their places in the value table alone.
fn places(log: &[u8]) -> String {
    let line = |message: &[u8]| {
        let place = |high: usize| u16::from_be_bytes([message[high], message[high + 1]]);
        let done = if message[0] == 0 { "sent" } else { "received" };
        format!("{done} on {}: {}\n", place(1), place(3))
    };
    log.chunks_exact(5).map(line).collect()
}
