//! Writes the files in `examples/`: `write_examples FOLDER` writes below that folder. What each README.md must have is printed,
//! for whoever writes it.

use std::path::Path;
use std::process::ExitCode;

fn main() -> ExitCode {
    let given: Vec<String> = std::env::args().skip(1).collect();
    let [top] = given.as_slice() else {
        eprintln!("use: write_examples FOLDER");
        return ExitCode::from(2);
    };
    match write(Path::new(top)) {
        Ok(()) => ExitCode::SUCCESS,
        Err(error) => {
            eprintln!("write_examples: {top}: {error}");
            ExitCode::from(2)
        }
    }
}

fn write(top: &Path) -> std::io::Result<()> {
    for protocol in examples::all() {
        let folder = top.join(protocol.folder);
        std::fs::create_dir_all(&folder)?;
        println!("{}", protocol.folder);
        for role in &protocol.roles {
            for (name, bytes) in role.files() {
                std::fs::write(folder.join(name), bytes)?;
            }
            println!("{}", role.process());
            for line in role.lines() {
                println!("{line}");
            }
        }
    }
    Ok(())
}
