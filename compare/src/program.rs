//! A program on a text: a proved one of the repository, or one of the reference.

use std::fs::{self, File};
use std::io;
use std::path::{Path, PathBuf};
use std::process::Command;

/// The proved bench program, host end, desk and preview, the reference's programs that are run, and the folder of
/// working files, from the root of the repository.
pub const BENCH: &str = "target/bin/bench";
pub const HOST: &str = "target/bin/vectors";
pub const DESK: &str = "target/bin/desk";
pub const PREVIEW: &str = "target/bin/preview";
pub const BENCH_REFERENCE: &str = "reference/target/release/bench_reference";
pub const PREVIEW_REFERENCE: &str = "reference/target/release/preview_reference";
pub const FOLDER: &str = "target/compare";

/// Said where an output has no such line.
pub const END_OF_OUTPUT: &str = "(end of output)";

/// Where the proved programs stand (`host` runs the host end, `desk` is that for people), where the reference's preview
/// stands, and where working files go.
#[derive(Clone, Debug)]
pub struct Places {
    pub bench: PathBuf,
    pub host: PathBuf,
    pub desk: PathBuf,
    pub preview: PathBuf,
    pub preview_reference: PathBuf,
    pub folder: PathBuf,
}

impl Places {
    /// Where they stand from the root of the repository.
    pub fn of_repository() -> Places {
        Places {
            bench: BENCH.into(),
            host: HOST.into(),
            desk: DESK.into(),
            preview: PREVIEW.into(),
            preview_reference: PREVIEW_REFERENCE.into(),
            folder: FOLDER.into(),
        }
    }

    /// The first program that is not there.
    pub fn absent(&self) -> Option<&Path> {
        let programs = [&self.bench, &self.host, &self.desk, &self.preview, &self.preview_reference];
        programs.into_iter().map(PathBuf::as_path).find(|program| !program.is_file())
    }
}

/// Makes the folder of working files.
pub fn make_folder() {
    fs::create_dir_all(FOLDER).expect("target/compare can be made");
}

/// What a program prints, given these arguments; an end without success is printed too, so that it differs. `file` is a
/// working file of the caller's own.
pub fn output(program: &Path, arguments: &[&str], file: &Path, text: &[u8]) -> Vec<u8> {
    fs::write(file, text).expect("a working file is written");
    let input = File::open(file).expect("a working file is read");
    let run = Command::new(program).args(arguments).stdin(input).output().expect("the program starts");
    let mut output = run.stdout;
    if !run.status.success() {
        output.extend_from_slice(format!("\nended with {}\n", run.status).as_bytes());
    }
    output
}

/// What a program of the reference prints, `run` being all of it.
pub fn reference_output<'t>(run: impl FnOnce(&'t [u8], &mut Vec<u8>) -> io::Result<()>, text: &'t [u8]) -> Vec<u8> {
    let mut output = Vec::new();
    run(text, &mut output).expect("memory takes all output");
    output
}
