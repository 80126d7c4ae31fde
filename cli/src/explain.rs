//! `explain`: refusal numbers and endings in plain words, from docs/NUMBERS.txt. It takes numbers, and what the other commands print.

use crate::asked::Asked;
use crate::output::{say, shown, Trouble};
use crate::{Outcome, Status};

/// Paragraphs that begin with `refusal 12:` or `ending 2:`.
const NUMBERS: &str = include_str!("../../docs/NUMBERS.txt");

const FILES: [&str; 4] = ["the table", "the list", "the trace", "a lent buffer"];

pub fn explain(asked: &Asked) -> Outcome {
    let text: Vec<String> = asked.names.iter().map(|name| shown(name)).collect();
    let text = text.join(" ");
    let words: Vec<&str> = text.split_whitespace().collect();
    let found = explained(&words).map_err(|what| {
        let (refusals, endings) = (range("refusal"), range("ending"));
        Trouble(format!("{what}; refusals are {refusals}, endings {endings}"))
    })?;
    say(found.join("\n").as_bytes())?;
    Ok(Status::Fine)
}

/// The paragraphs that are asked for. All words are looked at before anything is printed.
fn explained(words: &[&str]) -> Result<Vec<String>, String> {
    // The line of a refusal; `judge` puts the list's name before it.
    if let Some(at) = words.iter().rposition(|&word| word == "refused") {
        return Ok(vec![refused(&words[at + 1..])?]);
    }
    // The first line of a run: the number, the ending in words, and the counts.
    if let ["ending", number, rest @ ..] = words {
        if rest.contains(&"statement") {
            return Ok(vec![paragraph("ending", number)?]);
        }
    }
    let mut of = "refusal";
    let mut found = Vec::new();
    for word in words {
        match *word {
            "ending" => of = "ending",
            number => found.push(paragraph(of, number)?),
        }
    }
    if found.is_empty() || words.last() == Some(&"ending") {
        return Err(format!("after '{of}' a number is wanted"));
    }
    Ok(found)
}

/// NUMBER FILE PLACE: the number's paragraph, and which file and place it is about.
fn refused(numbers: &[&str]) -> Result<String, String> {
    let [number, rest @ ..] = numbers else {
        return Err("after 'refused' number, file and place are wanted".to_string());
    };
    let paragraph = paragraph("refusal", number)?;
    match rest {
        [] => Ok(paragraph),
        [file, place] if place.parse::<u64>().is_ok() => {
            let name = file.parse::<usize>().ok().and_then(|file| FILES.get(file));
            let name = name.ok_or_else(|| format!("there is no file '{file}', only 0 to 3"))?;
            Ok(format!(
                "{paragraph}  Here: file {file} is {name}, and the place is {place}.\n"
            ))
        }
        _ => Err("after 'refused' number, file and place are wanted".to_string()),
    }
}

/// The paragraph of a number.
fn paragraph(of: &str, number: &str) -> Result<String, String> {
    let start = format!("{of} {number}:");
    let found = NUMBERS.split("\n\n").find(|paragraph| paragraph.starts_with(&start));
    let found = found.ok_or_else(|| format!("there is no {of} '{number}'"))?;
    Ok(format!("{}\n", found.trim_end()))
}

/// The numbers there are: `1 to 15`.
fn range(of: &str) -> String {
    let number = |paragraph: &'static str| paragraph.strip_prefix(of)?.split(':').next();
    let numbers: Vec<&str> = NUMBERS.split("\n\n").filter_map(number).collect();
    let end = |number: Option<&&str>| number.map_or("", |number| number.trim()).to_string();
    format!("{} to {}", end(numbers.first()), end(numbers.last()))
}
