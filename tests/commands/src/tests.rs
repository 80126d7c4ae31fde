//! What all checks use: a folder to work in, commands run there, and the count.

use std::ffi::OsStr;
use std::fs;
use std::path::{Path, PathBuf};
use std::process::{Command, ExitCode, Output, Stdio};

/// The system's own programs and no others: no toolchain.
pub const PLAIN_PATH: &str = "/usr/bin:/bin";

pub struct Tests {
    /// The repository.
    pub top: PathBuf,
    /// A folder of this run's own. It holds the marked examples' files, and is removed in the end.
    pub work: PathBuf,
    passed: usize,
    failed: usize,
}

impl Tests {
    pub fn new() -> Tests {
        let top = Path::new(env!("CARGO_MANIFEST_DIR")).join("../..");
        let work = std::env::temp_dir().join(format!("mirvashol-commands-{}", std::process::id()));
        fs::create_dir_all(&work).expect("a folder to work in");
        for name in marked::names() {
            fs::write(work.join(name), marked::file(name)).expect("a file of the marked examples");
        }
        Tests {
            top: top.canonicalize().expect("the repository"),
            work,
            passed: 0,
            failed: 0,
        }
    }

    /// Is the program built from the source as it is? Else the checks would speak of another one.
    pub fn is_built(&mut self) -> bool {
        let program = self.top.join("target/rust/release/mirvashol");
        let said = Said::of(self.command(self.top.join("tools/newer")).arg(&program));
        let built = program.exists() && said.out.is_empty();
        self.check(
            "the program is built: './mirvashol build' builds it",
            built,
            &said.seen(),
        );
        built
    }

    /// A command line that starts in the working folder, with nothing on standard input.
    pub fn command(&self, program: impl AsRef<OsStr>) -> Command {
        let mut command = Command::new(program);
        command
            .current_dir(&self.work)
            .stdin(Stdio::null())
            .env_remove("CDPATH");
        command
    }

    /// `./mirvashol WORD..`, not yet run.
    pub fn mirvashol(&self, words: &[impl AsRef<OsStr>]) -> Command {
        let mut command = self.command(self.top.join("mirvashol"));
        command.args(words);
        command
    }

    /// A line for the shell, in which `$1` is the launcher.
    pub fn shell(&self, line: &str) -> Command {
        let mut command = self.command("/bin/sh");
        command.args(["-c", line, "sh"]).arg(self.top.join("mirvashol"));
        command
    }

    /// A file of the repository's examples, as a word.
    pub fn example(&self, name: &str) -> String {
        self.top
            .join("examples")
            .join(name)
            .into_os_string()
            .into_string()
            .expect("a plain path")
    }

    /// What a file of the working folder holds.
    pub fn read(&self, name: &str) -> Vec<u8> {
        fs::read(self.work.join(name)).unwrap_or_default()
    }

    pub fn write(&self, name: &str, bytes: &[u8]) {
        fs::write(self.work.join(name), bytes).expect("a file to work with");
    }

    /// Counts a check; where it fails, says what was seen.
    pub fn check(&mut self, what: &str, right: bool, seen: &str) {
        if right {
            self.passed += 1;
        } else {
            self.failed += 1;
            println!("FAILED: {what}; seen:\n{seen}");
        }
    }

    /// A command gives this status, and writes just this to standard output.
    pub fn expect(&mut self, status: i32, text: &str, words: &[impl AsRef<OsStr>]) -> Said {
        let mut command = self.mirvashol(words);
        self.gives(status, text.as_bytes(), &mut command)
    }

    /// The same of any command line.
    pub fn gives(&mut self, status: i32, bytes: &[u8], command: &mut Command) -> Said {
        let said = Said::of(command);
        let right = said.status == status && said.out == bytes;
        self.check(&format!("{command:?} gives status {status}"), right, &said.seen());
        said
    }

    /// A command line gives status 2, nothing on standard output, and one line on standard error that holds these words.
    pub fn troubled(&mut self, words: &str, command: &mut Command) {
        let said = Said::of(command);
        let right = said.status == 2 && said.out.is_empty() && said.complains(words);
        self.check(
            &format!("{command:?} gives status 2 and says '{words}'"),
            right,
            &said.seen(),
        );
    }

    /// Something that this machine can't show: a line says so.
    pub fn skipped(&self, what: &str) {
        println!("not tried: {what}");
    }

    pub fn close(self) -> ExitCode {
        let _ = fs::remove_dir_all(&self.work);
        println!("{} passed, {} failed", self.passed, self.failed);
        ExitCode::from(u8::from(self.failed > 0))
    }
}

/// What a command line came to.
pub struct Said {
    pub status: i32,
    pub out: Vec<u8>,
    pub err: String,
}

impl Said {
    pub fn of(command: &mut Command) -> Said {
        let Output { status, stdout, stderr } = command.output().unwrap_or_else(|error| panic!("{command:?}: {error}"));
        Said {
            status: status.code().unwrap_or(-1),
            out: stdout,
            err: String::from_utf8_lossy(&stderr).into_owned(),
        }
    }

    pub fn text(&self) -> String {
        String::from_utf8_lossy(&self.out).into_owned()
    }

    /// Is standard error one line of the program that holds these words?
    pub fn complains(&self, words: &str) -> bool {
        let one_line = self.err.ends_with('\n') && self.err.lines().count() == 1;
        one_line && self.err.starts_with("mirvashol: ") && self.err.contains(words)
    }

    pub fn seen(&self) -> String {
        format!("status {}\n{}--\n{}", self.status, self.text(), self.err)
    }
}
