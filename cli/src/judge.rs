//! `judge TABLE LIST..`: one line a list, in order, whatever becomes of the others. The lists are judged a shelf at a time.

use mirvashol::{Verdict, LONGEST_SHELF};

use crate::asked::Asked;
use crate::input::{Source, Unread};
use crate::output::{indented, keep_apart, meaning, say, say_fixed, Trouble};
use crate::{Outcome, Status};

pub fn judge(asked: &Asked) -> Outcome {
    let sources = Source::all(asked.names.iter().map(|name| name.as_os_str()))?;
    keep_apart(&sources.iter().collect::<Vec<&Source>>(), &[])?;
    let (table, lists) = sources.split_first().ok_or_else(|| asked.wrong_use())?;
    let table = table.read_table()?;
    let mut worst = Status::Fine;
    for shelf in lists.chunks(LONGEST_SHELF) {
        worst = worst.max(judge_some(&table, shelf, asked.quiet())?);
    }
    Ok(worst)
}

/// The lines of as many lists as one call judges; those that can't be read have theirs in between.
fn judge_some(table: &[u8], shelf: &[Source], quiet: bool) -> Result<Status, Trouble> {
    let read: Vec<Result<Vec<u8>, Unread>> = shelf.iter().map(Source::read_list).collect();
    let lists: Vec<&[u8]> = read.iter().flatten().map(Vec::as_slice).collect();
    // Where the table is refused, so is every list.
    let verdicts = match mirvashol::judge_shelf(table, &lists) {
        Ok(verdicts) => verdicts,
        Err(refusal) => vec![Err(refusal); lists.len()],
    };
    let mut verdicts = verdicts.into_iter();
    let mut worst = Status::Fine;
    for (source, list) in shelf.iter().zip(&read) {
        let status = match list {
            Ok(list) => {
                let verdict = verdicts.next().expect("a call gives a verdict for each list");
                say_verdict(table, source, list, verdict, quiet)?
            }
            Err(unread) => {
                say_fixed(&unread.0)?;
                Status::Unread
            }
        };
        worst = worst.max(status);
    }
    Ok(worst)
}

/// The line of one list, and what it means.
fn say_verdict(table: &[u8], source: &Source, list: &[u8], verdict: Verdict, quiet: bool) -> Result<Status, Trouble> {
    match verdict {
        Ok(()) => {
            say(format!("{}: accepted\n", source.name()).as_bytes())?;
            Ok(Status::Fine)
        }
        Err(refusal) => {
            say_fixed(&format!("{}: {refusal}", source.name()))?;
            if !quiet {
                say(indented(&meaning(&refusal, table, Some(list), None)).as_bytes())?;
            }
            Ok(Status::Refused)
        }
    }
}
