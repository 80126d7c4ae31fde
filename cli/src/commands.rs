//! The commands, as one table: help, `COMMAND --help` and the reading of command lines consult it, and tests hold the manual page (cli/mirvashol.1), the
//! completion (cli/completion.bash), cli/help.txt and README.md to it. A further command is a row here, and its module.

use crate::asked::Asked;
use crate::{compile, explain, help, install, judge, run, show, types, Outcome};

pub struct Command {
    pub name: &'static str,
    /// What follows the name on a command line.
    pub usage: &'static str,
    /// What it does, in one line.
    pub purpose: &'static str,
    /// What `--help` says besides.
    pub help: &'static str,
    pub options: &'static [Choice],
    /// How many names it takes, from and to.
    pub names: (usize, usize),
    pub perform: fn(&Asked) -> Outcome,
}

/// An option of a command.
pub struct Choice {
    pub name: &'static str,
    /// The word that follows it, where one does.
    pub value: Option<&'static str>,
    pub purpose: &'static str,
}

/// As many names as one likes.
const MANY: usize = usize::MAX;

const QUIET: Choice = Choice {
    name: "-q",
    value: None,
    purpose: "the fixed lines only, no explanation in words",
};

const OUTPUT: Choice = Choice {
    name: "-o",
    value: Some("FILE"),
    purpose: "write to FILE: beside it first and then in its place; it stays as it is where anything is refused or goes wrong",
};

pub const COMMANDS: &[Command] = &[
    Command {
        name: "compile",
        usage: "[TABLE] [-o FILE] [-q]",
        purpose: "the list of a role table, or the refusal line",
        help: "Standard input is read where no table is named. The list goes to standard output, or to FILE; a refusal goes to standard output,\n\
               and to standard error too where standard output is not a terminal, so that it is seen though a file takes the output.",
        options: &[OUTPUT, QUIET],
        names: (0, 1),
        perform: compile::compile,
    },
    Command {
        name: "types",
        usage: "[TABLE] [-o FILE] [-q]",
        purpose: "one line a symbol: index, name or variable, free or bound, widest type in words",
        help: "Standard input is read where no table is named.",
        options: &[OUTPUT, QUIET],
        names: (0, 1),
        perform: types::types,
    },
    Command {
        name: "judge",
        usage: "TABLE LIST.. [-q]",
        purpose: "one line a list, in order: accepted, or refused and why",
        help: "Each list gets one line: 'NAME: accepted', 'NAME: refused NUMBER FILE PLACE', or 'NAME: can't be read: REASON'. Indented lines below\n\
               say what a refusal means here. Judge against your own table, never against one that came with the list.\n\
               Status 0: all accepted; 1: one is refused; 2: one can't be read.",
        options: &[QUIET],
        names: (2, MANY),
        perform: judge::judge,
    },
    Command {
        name: "run",
        usage: "TABLE LIST TRACE [VALUES LOG] [-q]",
        purpose: "judges a list and runs it on a trace: the ending and the counts, then the messages",
        help: "The messages name channel and value by their places in the value table, and show them as terms; -q leaves the places alone. The value\n\
               table and the messages go to the files VALUES and LOG where these are named, five bytes an entry; 'show --values' and 'show --log'\n\
               read them. Status 0: the run finished; 1: it ended early, or a file is refused.",
        options: &[QUIET],
        names: (3, 5),
        perform: run::run,
    },
    Command {
        name: "show",
        usage: "FILE [--table TABLE] | [--values VALUES] [--log LOG]",
        purpose: "a table, list or trace in words, or the two files of a run",
        help: "The file's mark says which of the three it is. Of a damaged file its refusal is said, and what could be read up to there.",
        options: &[
            Choice {
                name: "--table",
                value: Some("TABLE"),
                purpose: "the table that the list or trace belongs to, so that registers and values are said by what they mean",
            },
            Choice {
                name: "--values",
                value: Some("VALUES"),
                purpose: "the value table that a run wrote",
            },
            Choice {
                name: "--log",
                value: Some("LOG"),
                purpose: "the messages that a run wrote; with --values, each value as a term",
            },
        ],
        names: (0, 1),
        perform: show::show,
    },
    Command {
        name: "explain",
        usage: "NUMBER.. | ending NUMBER.. | refused NUMBER FILE PLACE",
        purpose: "refusal numbers and endings in plain words, and what to do",
        help: "It takes what was printed, too: 'explain refused 12 1 6', or the first line of a run.",
        options: &[],
        names: (1, MANY),
        perform: explain::explain,
    },
    Command {
        name: "install",
        usage: "[PREFIX]",
        purpose: "program, library, C header, manual page and bash completion, below PREFIX (~/.local)",
        help: "What is installed needs neither the toolchain nor the repository.",
        options: &[],
        names: (0, 1),
        perform: install::install,
    },
    Command {
        name: "build",
        usage: "",
        purpose: "proves and builds the library and this program (in the repository)",
        help: "It needs the Rattle toolchain, cargo and rustc. Until it is asked to, no command builds anything where a built program is there.",
        options: &[],
        names: (0, 0),
        perform: help::in_repository,
    },
    Command {
        name: "demo",
        usage: "",
        purpose: "the main job on the bundled examples, with a line of explanation each (in the repository)",
        help: "",
        options: &[],
        names: (0, 0),
        perform: help::in_repository,
    },
    Command {
        name: "test",
        usage: "[long]",
        purpose: "proves every crate, tries the must-fail edits, runs the tests (in the repository)",
        help: "The last line is the sum, 'N passed, 0 failed'. 'test long' is the differential test alone, on 5 million new cases.",
        options: &[],
        names: (0, 1),
        perform: help::in_repository,
    },
    Command {
        name: "bench",
        usage: "[SERVICE..] | stack",
        purpose: "times the proved code against the second implementation (in the repository)",
        help: "'bench stack' measures the deepest stack of each exported function instead.",
        options: &[],
        names: (0, MANY),
        perform: help::in_repository,
    },
    Command {
        name: "help",
        usage: "[COMMAND]",
        purpose: "this text, or what COMMAND --help says",
        help: "",
        options: &[],
        names: (0, 1),
        perform: help::help,
    },
];

pub fn find(name: &str) -> Option<&'static Command> {
    COMMANDS.iter().find(|command| command.name == name)
}

impl Command {
    /// How it is called, from the program's name on.
    pub fn line(&self) -> String {
        let line = format!("mirvashol {} {}", self.name, self.usage);
        line.trim_end().to_string()
    }
}
