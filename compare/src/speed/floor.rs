//! The plain C floor: compiled for this machine, run, and its tables read.

use super::steady::Row;
use crate::program::FOLDER;
use std::path::{Path, PathBuf};
use std::process::Command;

/// The folder of the floor: $FLOOR, or shared/floor beside the repository.
fn folder() -> Option<PathBuf> {
    let folder = std::env::var_os("FLOOR").map_or_else(|| PathBuf::from("../shared/floor"), PathBuf::from);
    folder.join("tick_floor.c").is_file().then_some(folder)
}

/// What a program of the floor prints.
fn output(folder: &Path, name: &str) -> Option<String> {
    let source = folder.join(format!("{name}.c"));
    let program = Path::new(FOLDER).join(name);
    let mut compiler = Command::new("gcc");
    compiler.args(["-std=gnu11", "-O3", "-march=native", "-o"]).arg(&program).arg(source);
    if !compiler.status().ok()?.success() {
        return None;
    }
    let output = Command::new(&program).output().ok()?;
    output.status.success().then(|| String::from_utf8_lossy(&output.stdout).into_owned())
}

/// The number in a column of the line that begins with a name.
fn cell(table: &str, name: &str, column: usize) -> Option<f64> {
    let line = table.lines().find_map(|line| line.trim_start().strip_prefix(name))?;
    line.split_whitespace().nth(column)?.parse().ok()
}

/// Columns of the floor's table: div, add, lanes, full, tight, value, jump.
fn row(name: &str, ticks: &str, lines: &str, column: usize) -> Option<Row> {
    let fast = cell(ticks, "every tick a pulse (250 kHz)", column)?;
    let slow = cell(ticks, "a pulse in 100 (2.5 kHz)", column)?;
    let rest = cell(ticks, "idle", column)?;
    let lines = [cell(lines, "Q06 ", 0)?, cell(lines, "P0281388 ", 0)?];
    Some(Row { name: name.into(), ticks: [fast, slow, rest], lines, characters: None })
}

/// The rows of the floor, where it is found and compiles.
pub fn rows() -> Option<Vec<Row>> {
    let folder = folder()?;
    let (ticks, lines) = (output(&folder, "tick_floor")?, output(&folder, "line_floor")?);
    Some(vec![row("C floor, full", &ticks, &lines, 3)?, row("C floor, tight", &ticks, &lines, 4)?])
}
