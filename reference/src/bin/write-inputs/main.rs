//! Writes the inputs of the program crates of the repository at a folder:
//! `write-inputs TOP`.

use std::env;
use std::fs;
use std::io;
use std::path::Path;
use std::process::ExitCode;

use gaffdamson_reference::inputs;

fn main() -> ExitCode {
    let words: Vec<String> = env::args().skip(1).collect();
    let [top] = &words[..] else {
        eprintln!("usage: write-inputs TOP");
        return ExitCode::from(2);
    };
    match write_all(Path::new(top)) {
        Ok(()) => ExitCode::SUCCESS,
        Err(error) => {
            eprintln!("{error}");
            ExitCode::FAILURE
        }
    }
}

fn write_all(top: &Path) -> io::Result<()> {
    for (name, input) in inputs::all(top)? {
        let folder = inputs::folder(top, name);
        fs::create_dir_all(&folder)?;
        fs::write(folder.join("stdin"), &input)?;
        println!("{}: {} bytes", folder.join("stdin").display(), input.len());
    }
    Ok(())
}
