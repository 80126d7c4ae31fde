//! `install [PREFIX]`: the program, and what belongs to it, where people's shells and compilers look. All of it is inside this program.

use std::ffi::{OsStr, OsString};
use std::fs;
use std::path::PathBuf;

use crate::asked::Asked;
use crate::output::{reason, say, shown, Target, Trouble, Written, FILE_MODE, PROGRAM_MODE};
use crate::{Outcome, Status};

const HEADER: &[u8] = include_bytes!("../../bindings/c/mirvashol.h");
const PAGE: &[u8] = include_bytes!("../mirvashol.1");
const COMPLETION: &[u8] = include_bytes!("../completion.bash");

pub fn install(asked: &Asked) -> Outcome {
    let prefix = match asked.names.first() {
        Some(name) => PathBuf::from(name),
        None => home()?.join(".local"),
    };
    let program = std::env::current_exe()
        .and_then(fs::read)
        .map_err(|error| Trouble(format!("the program itself can't be read: {}", reason(&error))))?;
    let files: [(&str, &[u8], u32); 5] = [
        ("bin/mirvashol", &program, PROGRAM_MODE),
        ("lib/libmirvashol.a", mirvashol::ARCHIVE, FILE_MODE),
        ("include/mirvashol.h", HEADER, FILE_MODE),
        ("share/man/man1/mirvashol.1", PAGE, FILE_MODE),
        ("share/bash-completion/completions/mirvashol", COMPLETION, FILE_MODE),
    ];
    // All are written before one is put in its place.
    let mut written: Vec<(OsString, Written)> = Vec::new();
    for (name, bytes, mode) in files {
        let path = prefix.join(name).into_os_string();
        written.push((path.clone(), write(&path, bytes, mode)?));
    }
    let mut lines = String::new();
    for (path, file) in written {
        file.put()?;
        lines += &format!("{}\n", shown(&path));
    }
    say(lines.as_bytes())?;
    Ok(Status::Fine)
}

fn home() -> Result<PathBuf, Trouble> {
    let home = std::env::var_os("HOME").filter(|home| !home.is_empty());
    home.map(PathBuf::from)
        .ok_or_else(|| Trouble("HOME is not set; 'mirvashol install PREFIX' says where".to_string()))
}

fn write(path: &OsStr, bytes: &[u8], mode: u32) -> Result<Written, Trouble> {
    if let Some(folder) = PathBuf::from(path).parent() {
        fs::create_dir_all(folder).map_err(|error| {
            Trouble(format!(
                "{}: can't be made: {}",
                shown(folder.as_os_str()),
                reason(&error)
            ))
        })?;
    }
    // A link that stands there, to a repository's launcher say, is replaced: what it leads to stays.
    Target::itself(path)?.write(bytes, mode)
}

#[cfg(test)]
mod tests {
    use super::*;
    use crate::commands::COMMANDS;

    fn text(bytes: &[u8]) -> String {
        String::from_utf8_lossy(bytes).into_owned()
    }

    /// The page without its fonts and escapes.
    fn plain_page() -> String {
        let mut page = text(PAGE);
        for font in ["\\fB", "\\fI", "\\fR"] {
            page = page.replace(font, "");
        }
        page.replace("\\-", "-")
    }

    #[test]
    fn the_manual_page_has_every_command_and_option() {
        let page = plain_page();
        // What builds and tests is for those who have the repository at hand.
        let installed = COMMANDS
            .iter()
            .filter(|command| !["build", "test", "bench"].contains(&command.name));
        for command in installed {
            assert!(
                page.contains(&format!("\nmirvashol {}", command.name)),
                "SYNOPSIS lacks {}",
                command.name
            );
            assert!(
                page.contains(&format!("\n.B {}\n", command.name)),
                "COMMANDS lacks {}",
                command.name
            );
            for option in command.options {
                let entry = match option.value {
                    Some(value) => format!("\n.BI {} \" {value}\"\n", option.name),
                    None => format!("\n.B {}\n", option.name),
                };
                assert!(
                    page.contains(&entry),
                    "OPTIONS lacks {} of {}",
                    option.name,
                    command.name
                );
            }
        }
    }

    #[test]
    fn the_completion_has_every_command_and_option() {
        let completion = text(COMPLETION);
        let names: Vec<&str> = COMMANDS.iter().map(|command| command.name).collect();
        assert!(completion.contains(&format!("commands=\"{}\"", names.join(" "))));
        for command in COMMANDS.iter().filter(|command| !command.options.is_empty()) {
            let row = completion.lines().find(|line| {
                let labels = line.split(')').next().unwrap_or_default();
                line.contains("options=") && labels.split('|').any(|label| label.trim() == command.name)
            });
            let row = row.unwrap_or_else(|| panic!("no options of {}", command.name));
            let options: Vec<&str> = command.options.iter().map(|option| option.name).collect();
            assert!(
                row.contains(&format!("options=\"{} --help\"", options.join(" "))),
                "{row}"
            );
        }
    }
}
