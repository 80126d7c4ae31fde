//! What there is, in words: the overview, a command's own help, and the version.

use crate::asked::Asked;
use crate::commands::{self, Command, COMMANDS};
use crate::output::{say, shown, Trouble};
use crate::{Outcome, Status};

const VERSION: &str = include_str!("../../VERSION");

const OPENING: &str = "Mirvashol: a proved compiler and judge for security-protocol role tables.\n\n";

const CLOSING: &str = "
'-' is standard input, and '--' stands before names that begin with a dash. 'mirvashol COMMAND --help' says more; '--version' which this is.
Exit status: 0 accepted or finished; 1 refused, or a run that ended early; 2 wrong use, a file that can't be read, or output that can't be written.
";

/// The overview: a line or two for each command of the table.
pub fn overview_text() -> String {
    let mut text = OPENING.to_string();
    for command in COMMANDS {
        let line = command.line();
        let purpose = command.purpose;
        text += &match line.len() {
            0..=42 => format!("    {line:42}  {purpose}\n"),
            _ => format!("    {line}\n    {:42}  {purpose}\n", ""),
        };
    }
    text + CLOSING
}

/// What a command's `--help` prints.
fn command_text(command: &Command) -> String {
    let mut text = format!("{}\n\n{}.\n", command.line(), capital(command.purpose));
    if !command.help.is_empty() {
        text += &format!("{}\n", command.help);
    }
    if !command.options.is_empty() {
        text += "\n";
    }
    for option in command.options {
        let name = format!("{} {}", option.name, option.value.unwrap_or_default());
        text += &format!("    {name:16}  {}\n", option.purpose);
    }
    text
}

/// With a capital letter in front.
fn capital(text: &str) -> String {
    let mut rest = text.chars();
    rest.next()
        .map_or(String::new(), |first| first.to_uppercase().chain(rest).collect())
}

pub fn overview() -> Outcome {
    say(overview_text().as_bytes())?;
    Ok(Status::Fine)
}

pub fn version() -> Outcome {
    say(format!("mirvashol {VERSION}").as_bytes())?;
    Ok(Status::Fine)
}

pub fn of_command(command: &Command) -> Outcome {
    say(command_text(command).as_bytes())?;
    Ok(Status::Fine)
}

pub fn help(asked: &Asked) -> Outcome {
    let Some(name) = asked.names.first() else {
        return overview();
    };
    match name.to_str().and_then(commands::find) {
        Some(command) => of_command(command),
        None => Err(Trouble(format!(
            "there is no command '{}'; 'mirvashol help' says what there is",
            shown(name)
        ))),
    }
}

/// Commands that build or test, or show the bundled examples, are scripts of the repository (tools/), which its launcher calls.
pub fn in_repository(asked: &Asked) -> Outcome {
    let name = asked.command.name;
    Err(Trouble(format!(
        "{name} works in the repository: './mirvashol {name}' there"
    )))
}

#[cfg(test)]
mod tests {
    use super::*;

    /// The launcher shows cli/help.txt where nothing is built yet.
    #[test]
    fn the_text_for_a_fresh_clone_is_the_overview() {
        let text = include_str!("../help.txt");
        assert_eq!(text, overview_text(), "'mirvashol help >cli/help.txt' writes it anew");
    }

    #[test]
    fn the_version_is_said_once() {
        assert_eq!(VERSION, format!("{}\n", env!("CARGO_PKG_VERSION")));
        let changes = include_str!("../../CHANGELOG.md");
        assert!(
            changes.contains(&format!("\n## {}", VERSION.trim_end())),
            "CHANGELOG.md lacks {VERSION}"
        );
    }

    #[test]
    fn every_command_has_its_own_name_and_is_said_in_the_readme() {
        let readme = include_str!("../../README.md");
        for (i, command) in COMMANDS.iter().enumerate() {
            assert!(
                COMMANDS[..i].iter().all(|other| other.name != command.name),
                "{}",
                command.name
            );
            let line = format!("./mirvashol {}", command.name);
            assert!(readme.contains(&line), "README.md lacks {line}");
        }
    }

    #[test]
    fn every_option_stands_in_the_usage() {
        for command in COMMANDS {
            for option in command.options {
                let stands = command.usage.contains(option.name);
                assert!(stands, "{} {}", command.name, option.name);
            }
        }
    }
}
